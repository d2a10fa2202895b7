#!/bin/sh
# tools/changes.sh in a temporary repository: two commits of a few made-up files, and the lines that are due.
set -eu
cd "$(dirname "$0")/.."
script=$PWD/tools/changes.sh
work=$(mktemp -d)
trap 'rm -rf "$work"' EXIT
cd "$work"
git init --quiet .
commit() {
    git add -A
    git -c user.name=n -c user.email=e@example.com commit --quiet --no-verify --allow-empty -m "$1"
}
# file PATH: what stands on standard input
file() { mkdir -p "$(dirname "$1")" && cat >"$1"; }

# ---- the first commit
file crates/sums/specs/Sums.antt <<'END'
-- sums of lists
use Rattle.std.specs.Prelude.{ℕ, ◌+◌}

-- the sum
abbrev pub sum : List ℕ → ℕ
sum [] = 0
sum (x ∷ xs) = x + sum xs

-- the sum and one more
unfoldable pub more : List ℕ → ℕ
more xs = sum xs + 1

abbrev pub total : List (List ℕ) → ℕ
total [] = 0
total (x ∷ xs) = sum x + total xs

infix 90 ◌plus◌
abbrev pub ◌plus◌ : ℕ → ℕ → ℕ
◌plus◌ a b = a + b

pub record Pair : Type 0 where
  -- the first
  pub one : ℕ
  pub two : ℕ

pub record Gone : Type 0 where
  pub all : ℕ

abbrev pub twice : List (List ℕ) → ℕ
twice x = (total x) + total x

module _ (k : ℕ) where
  open Pair p using (one)

  abbrev pub times : ℕ → ℕ
  times n = k * n

  abbrev pub squares : ℕ → ℕ
  squares n =
      k * n
      * n
END
file crates/sums/specs/Parts.antt <<'END'
use Rattle.std.specs.Prelude.{ℕ}
abbrev pub part : ℕ → ℕ
part n = n

abbrev pub half : ℕ → ℕ
half n = n / 2
END
file crates/sums/src/lib.rt <<'END'
//! Sums.
ghost use Rattle.sums.specs.Sums.{sum};

// A pair.
pub struct Pair {
    pub one: u64,
    pub two: u64,
}

const MOST: usize = 32;

impl Pair {
    pub const NONE: u64 = 0;

    // The sum of both.
    pub fn sum(self) -> u64
        ensures { result ≡ sum (self.one ∷ self.two ∷ []) }
    {
        self.one + self.two
    }
}

// The sum of a list.
pub fn sum(
    list: &[u64],
) -> u64
    requires { length list.now ≤ 32 }
    ensures { result ≡ sum list.now }
{
    let mut s = 0;
    s
}

fn small(
    x: u64,
    y: u64,
) -> u64 {
    7
}

fn gone(x: u64) -> u64 { x }

pub fn named(x: u64, y: u64) -> u64
    ensures { result ≡ x }
{
    x
}
END
file crates/sums/proofs/Lib.antt <<'END'
pub mod Facts
END
file crates/sums/proofs/Facts.antt <<'END'
-- facts
use Rattle.sums.specs.Sums.{sum}
sum-none : sum [] ≡ 0
sum-none = refl
sum-one : sum (1 ∷ []) ≡ 1
sum-one = refl
END
file crates/sums/proofs/sum/Answers.antt <<'END'
use Rattle.sums.proofs.sum.Goals as goal
pub add : goal.add
add c = search rules

pub returns : goal.returns
returns c = omega arith
END
file crates/sums/proofs/named/Answers.antt <<'END'
use Rattle.sums.proofs.named.Goals as goal
pub add : goal.add
add c = search rules

pub index : goal.index
index c = first c

pub range : goal.range
range c = second c

pub returns : goal.returns
returns c = third c
END
file crates/sums/proofs/small/Answers.antt <<'END'
pub returns : goal.returns
returns c = refl
END
file crates/lone/specs/Lone.antt <<'END'
-- one definition, in a crate that is renamed
use Rattle.sums.specs.Sums.{sum}

abbrev pub lone : ℕ → ℕ
lone n = sum (n ∷ [])

abbrev pub lonely : ℕ → ℕ
lonely n = sum (n ∷ n ∷ [])
END
file crates/lone/src/lib.rt <<'END'
//! One.
ghost use Rattle.sums.specs.Sums.{sum};
ghost use Rattle.lone.specs.Lone.{lone};

// One number alone.
pub fn lone(n: u64) -> u64
    ensures { result ≡ lone n }
{
    n
}
END
file crates/lone/proofs/lone/Answers.antt <<'END'
use Rattle.lone.proofs.lone.Goals as goal
pub returns : goal.returns
returns c = lone-is c.args.n
END
file crates/lone/must-fail/two.edit <<'END'
file: src/lib.rt
END
commit one

# ---- the second
# a definition changed; one with another layout and other comments; one that calls itself renamed, and one that cites it; a record changed; one
# gone; one added; parameters of a module changed
file crates/sums/specs/Sums.antt <<'END'
-- sums of lists, and products
use Rattle.std.specs.Prelude.{ℕ, ◌+◌, ◌*◌}
use Rattle.std.specs.Prelude.{
  List,
  []
}

abbrev pub sum : List ℕ → ℕ
sum [] = 0
sum (x ∷ xs) =
    x
    + sum xs

unfoldable pub more : List ℕ → ℕ
more xs = sum xs + 2

abbrev pub grand : List (List ℕ) → ℕ
grand [] = 0
grand (x ∷ xs) = sum x + grand xs

infix 80 ◌plus◌
abbrev pub ◌plus◌ : ℕ → ℕ → ℕ
◌plus◌ a b = a + b

pub record Pair : Type 0 where
  pub one : ℕ
  -- the second
  pub two : ℕ
  pub three : ℕ

-- the product
abbrev pub product : List ℕ → ℕ
product [] = 1

abbrev pub twice : List (List ℕ) → ℕ
twice x = (grand x) + grand x

module _ (k m : ℕ) where
  open Pair p using (one)

  abbrev pub times : ℕ → ℕ
  times n = k * n

  abbrev pub squares : ℕ → ℕ
  squares n =
      k * n
      * n
END
# a file renamed, one definition of it to another file
rm crates/sums/specs/Parts.antt
file crates/sums/specs/Steps.antt <<'END'
use Rattle.std.specs.Prelude.{ℕ}
use Rattle.std.specs.Prelude.{◌≡◌}
-- a part
abbrev pub part : ℕ → ℕ
part n = n

abbrev pub half : ℕ → ℕ
half n = n / 2
END
# a body changed, `requires` changed, a method's `ensures` changed, a constant changed, a struct as it was, functions gone, added and renamed
file crates/sums/src/lib.rt <<'END'
//! Sums, and products.
ghost use Rattle.sums.specs.Sums.{sum, product};

// A pair of words.
pub struct Pair {
    pub one: u64,
    pub two: u64,
}

const MOST: usize = 64;

impl Pair {
    pub const NONE: u64 = 0;

    pub fn sum(self) -> u64
        ensures { result ≡ sum (self.two ∷ self.one ∷ []) }
    {
        self.one + self.two
    }
}

pub fn sum(list: &[u64]) -> u64
    requires { length list.now ≤ 64 }
    ensures { result ≡ sum list.now }
{
    let mut s = 0;
    s
}

fn small(x: u64, y: u64) -> u64 {
    8
}

pub fn called(x: u64, y: u64) -> u64
    ensures { result ≡ x }
{
    x
}

#[unsafe(no_mangle)]
pub extern "C" fn made(x: u64) -> u64
    ensures {
        result ≡ x
    }
{
    x
}
END
file crates/sums/proofs/Lib.antt <<'END'
pub mod Facts
pub mod Others
END
# a proof changed, one renamed, one renamed and changed, one with other imports, one gone
file crates/sums/proofs/Facts.antt <<'END'
-- facts
use Rattle.sums.specs.Sums.{sum, more}
sum-none : sum [] ≡ 0
sum-none = refl
sum-one : sum (1 ∷ []) ≡ 1
sum-one = refl
END
file crates/sums/proofs/sum/Answers.antt <<'END'
use Rattle.sums.proofs.sum.Goals as goal
pub add : goal.add
add c = search rules

pub returns : goal.returns
returns c = search rules
END
mkdir -p crates/sums/proofs/called
git mv crates/sums/proofs/named/Answers.antt crates/sums/proofs/called/Answers.antt
sed 's/third c/fourth c/' crates/sums/proofs/called/Answers.antt >text && mv text crates/sums/proofs/called/Answers.antt
rm -r crates/sums/proofs/small
file crates/sums/proofs/Others.antt <<'END'
two-is : 2 ≡ 1 + 1
two-is = refl
END
# a crate renamed, one definition of it changed
git mv crates/lone crates/single
sed 's/lonely n = sum (n ∷ n ∷ \[\])/lonely n = sum (n ∷ [])/' crates/single/specs/Lone.antt >text && mv text crates/single/specs/Lone.antt
sed 's/Rattle.lone/Rattle.single/' crates/single/src/lib.rt >text && mv text crates/single/src/lib.rt
sed 's/Rattle.lone/Rattle.single/' crates/single/proofs/lone/Answers.antt >text && mv text crates/single/proofs/lone/Answers.antt
commit two

sh "$script" HEAD~1 HEAD >said
{
    echo "From \`$(git rev-parse --short HEAD~1)\` to \`$(git rev-parse --short HEAD)\`:"
    cat <<'END'

**Definitions**: 1 stayed, 6 changed, 1 added, 1 removed, 5 renamed.
- changed: `single` lonely; `sums` more, ◌plus◌, Pair, times, squares
- added: `sums` product
- removed: `sums` Gone
- renamed with their crate: `lone` → `single` (1)
- in another place, with the same text: `sums/Parts` → `sums/Steps` part, half
- under another name, with the same text: `sums/Sums` total → grand
- the same but for names that they cite: `sums` twice

**Contracts**: 3 stayed, 3 changed, 1 added, 1 removed, 2 renamed.
- changed: `sums` MOST, Pair::sum, sum
- added: `sums` made
- removed: `sums` gone
- renamed with their crate: `lone` → `single` (1)
- under another name, with the same text: `sums` named → called

**Proofs, by file**: 1 stayed, 2 changed, 1 added, 1 removed, 1 renamed.
- changed: `sums` named/Answers → called/Answers, sum/Answers
- added: `sums` Others
- removed: `sums` small/Answers
- renamed with their crate: `lone` → `single` (1)
END
} >due
diff due said || { echo "FAIL changes"; exit 1; }

# nothing moved, and both ways
sh "$script" HEAD HEAD | grep -c ' stayed, 0 changed, 0 added, 0 removed, 0 renamed\.$' | grep -qx 3 || { echo "FAIL changes: from a commit to itself"; exit 1; }
sh "$script" HEAD HEAD~1 | grep -qx -e '- renamed with their crate: `single` → `lone` (1)' || { echo "FAIL changes: back again"; exit 1; }
# no such commit
if sh "$script" HEAD nowhere >/dev/null 2>&1; then echo "FAIL changes: a commit that is not there"; exit 1; fi
echo "ok what changed between two commits"

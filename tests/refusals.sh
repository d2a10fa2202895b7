#!/bin/sh
# Refusals are the same everywhere. The source of their words is docs/REFUSALS.md, that of numbers and names in C the list ZBK_REFUSALS of
# include/zebrankai.h, and that of both orders the definitions, crates/sizes. Compared with them: what a C program makes of that list, what the
# functions of zebrankai_util.h give, the Rust bindings, both coders, and what 'zbk explain' says.
#
#   sh tests/refusals.sh words FILE    page, both headers and the text of the bindings; FILE is what tests/header/util.c prints with 'refusals'
#   sh tests/refusals.sh tool ZBK      page and tool; ZBK is the tool
#
# What differs is shown, and the exit code is then 1.
set -eu
work=$(mktemp -d)
trap 'rm -rf "$work"' EXIT
case ${1:-}/$# in words/2 | tool/2) ;; *) echo "usage: sh tests/refusals.sh words FILE | tool ZBK" >&2 && exit 2 ;; esac
case $2 in /*) given=$2 ;; *) given=$PWD/$2 ;; esac
cd "$(dirname "$0")/.."
failed=0
fail() {
    echo "FAIL refusals: $*"
    failed=1
}
# same WHAT DUE IS: both files are alike
same() { diff "$2" "$3" || fail "$1: not the words of docs/REFUSALS.md"; }

# the page, a line for each refusal: number, name, meaning, who, what to do, with tabs between; its five parts stand in this order
sed -n '/^## 1 /,$p' docs/REFUSALS.md | sed '/^$/d' | awk '
    NR % 4 == 1 { if (!sub(/^## /, "")) exit 1; sub(/ /, "\t"); printf "%s", $0 }
    NR % 4 == 2 { printf "\t%s", $0 }
    NR % 4 == 3 { if (!sub(/^[*][*]Who acts:[*][*] /, "")) exit 1; printf "\t%s", $0 }
    NR % 4 == 0 { if (!sub(/^[*][*]What to do:[*][*] /, "")) exit 1; printf "\t%s\n", $0 }
    END { if (NR % 4 != 0) exit 1 }' >"$work/page" || fail "docs/REFUSALS.md: its parts are not in their order"
[ "$(wc -l <"$work/page")" -gt 0 ] || fail "docs/REFUSALS.md has no refusal"
while IFS='	' read -r number name _ who _; do
    case $who in installer | 'calling program' | 'service staff') ;; *) fail "$number $name: who is '$who'?" ;; esac
done <"$work/page"

if [ "$1" = words ]; then
    # zebrankai.h: its list, by what a C program makes of it; each constant is its number
    cat >"$work/list.c" <<'END'
#include <stdio.h>
#include <zebrankai.h>
#define LINE(number, name, sentence) {number, ZBK_##name, #name, sentence},
static const struct line {
    int number, constant;
    const char *name, *sentence;
} lines[] = {ZBK_REFUSALS(LINE)};
int main(void) {
    for (size_t i = 0; i < sizeof lines / sizeof *lines; i++) {
        if (lines[i].constant != lines[i].number) return 1;
        printf("%d\t%s\t%s\n", lines[i].number, lines[i].name, lines[i].sentence);
    }
    return ZBK_ACCEPTED;
}
END
    strict='-pedantic -Wall -Wextra -Wconversion -Werror -Iinclude'
    # shellcheck disable=SC2086 # the options are words
    gcc -std=c99 $strict "$work/list.c" -o "$work/list" && "$work/list" >"$work/is" || fail "a program over the list of include/zebrankai.h"
    # shellcheck disable=SC2086
    g++ -std=c++98 -Wno-long-long $strict -x c++ -fsyntax-only include/zebrankai.h || fail "include/zebrankai.h as C++98"
    cut -f 1-3 "$work/page" >"$work/due"
    same "include/zebrankai.h, the list" "$work/due" "$work/is"
    # the others with numbers and names of their own: the definitions' crate, the bindings, the plain coder and the unrelated one
    cut -f 1,2 "$work/page" >"$work/due"
    sed -n 's/^ *Refusal::\([A-Z][a-z]*\) => \([0-9]*\),$/\2	\1/p' crates/sizes/src/lib.rt | tr '[:lower:]' '[:upper:]' | sort -n >"$work/is"
    same "crates/sizes, numbers and names" "$work/due" "$work/is"
    for file in bindings/rust/src/refusal.rs tests/plain/src/sizes.rs; do
        sed -n 's/^ *\([A-Z][a-z]*\) = \([0-9]*\),$/\2	\1/p' "$file" | tr '[:lower:]' '[:upper:]' | sort -n >"$work/is"
        same "$file, numbers and names" "$work/due" "$work/is"
    done
    sed -n 's/^ *pub const \([A-Z]*\): u8 = \([1-9][0-9]*\);$/\2	\1/p' tests/coder/src/call.rs | sort -n >"$work/is"
    same "tests/coder, numbers and names" "$work/due" "$work/is"
    # both orders of asking, as the definitions have them, in the header's words
    for order in store board; do
        asked=$(sed -n "s/^${order}_order = \(.*\) ∷ \[\]$/\1/p" crates/sizes/specs/Refusals.antt | sed 's/ ∷ /\n/g' | tr '[:lower:]' '[:upper:]' |
            awk -F '\t' 'NR == FNR { number[$2] = $1; next } { line = line (line == "" ? "" : ", ") number[$1] } END { print line }' "$work/page" -)
        [ -n "$asked" ] || fail "crates/sizes has no ${order}_order"
        tr '\n' ' ' <include/zebrankai.h | sed 's/ [*] / /g' | tr -s ' ' | grep -qE "in the order $asked[.,]? (at|11) " || fail "include/zebrankai.h: the $order order is not $asked"
    done
    # zebrankai_util.h by what its functions give, and both texts as they are made of the page
    same "include/zebrankai_util.h" "$work/page" "$given"
    sh tools/refusals.sh check || fail "a text that is made of docs/REFUSALS.md is not as it is made"
else
    # zbk explain: by number and by name, lines joined
    while IFS='	' read -r number name means who remedy; do
        printf '%s %s\n%s\nWho acts: %s\nWhat to do: %s\n' "$number" "$name" "$means" "$who" "$remedy" | tr '\n' ' ' >"$work/due"
        for word in "$number" "$name" "zbk_$name" "$(printf '%s' "$name" | tr '[:upper:]' '[:lower:]')"; do
            "$given" explain "$word" >"$work/said" || fail "zbk explain $word: exit code $?"
            tr '\n' ' ' <"$work/said" >"$work/is"
            same "zbk explain $word" "$work/due" "$work/is"
            [ "$(sed -n 1p "$work/said")" = "$number $name" ] || fail "zbk explain $word: another first line"
            if grep -q '.\{80\}' "$work/said"; then fail "zbk explain $word: a line of 80 bytes or more"; fi
            for part in 'Who acts: ' 'What to do: '; do
                grep -q "^$part" "$work/said" || fail "zbk explain $word: no line begins with $part"
            done
        done
    done <"$work/page"
fi
[ "$failed" -eq 0 ] || exit 1
echo "refusals: $(wc -l <"$work/page" | tr -d ' ') alike"

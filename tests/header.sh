#!/bin/sh
# Holds include/zebrankai.h to the archive. The calls are those that crates/zebrankai/src/lib.rt exports, and the same calls, with the same parameters
# in the same order, by type and by name, stand in the header, in the Rust bindings and in tests/names; each is tied to its definition in
# crates/zebrankai/proofs/Contracts.antt; and the archive exports these names and no other. Each constant of the header is
# held to a number, and tests/header/header.c, in C11 and in C++11, to what the archive does. Proves and builds the archive where it is not built;
# ZBK_ARCHIVE names another one to use instead, seen from the top folder. One line for each step; what differs is shown, and the exit code is then 1.
set -eu
cd "$(dirname "$0")/.."
archive=${ZBK_ARCHIVE:-target/staticlib/libzebrankai.a}
sh tests/prove_archive.sh
work=$(mktemp -d)
trap 'rm -rf "$work"' EXIT
failed=0
fail() {
    echo "FAIL $*"
    failed=1
}

# ---- the calls, each as one line in C: 'uint64_t zbk_lose(uint64_t *record, size_t record_words, size_t board)'

# in_c PATTERN FILE..: the declarations that begin with the pattern, in Rattle or in Rust, in C. A slice is a pointer and the number of its elements,
# sizes are four numbers, and five parameters have a longer name in C. A type that is not known stays as it is, so that it differs.
in_c() {
    pattern=$1
    shift
    sed 's,//.*,,' "$@" | tr '\n\t' '  ' | awk -v pattern="$pattern" '
        BEGIN {
            longer["len"] = "length"; longer["ws"] = "record"; longer["ps"] = "repair"; longer["exchanges"] = "partner_packets"; longer["standins"] = "stand_ins"
            element["u8"] = "uint8_t"; element["u32"] = "uint32_t"; element["u64"] = "uint64_t"; element["usize"] = "size_t"
            counted["u8"] = "_len"; counted["u64"] = "_words"; counted["usize"] = "_count"
        }
        function trimmed(s) { gsub(/^ +| +$/, "", s); gsub(/ +/, " ", s); return s }
        function parameter(name, type,    kind) {
            if (name in longer) name = longer[name]
            kind = type
            gsub(/[^a-z0-9]|mut|const/, "", kind)
            if (type == "Sizes") return "size_t n, size_t k, size_t d, size_t r"
            if (!(kind in element)) return type " " name
            if (type == kind) return element[kind] " " name
            if (type == "&[" kind "]") return "const " element[kind] " *" name ", size_t " name counted[kind]
            if (type == "&mut [" kind "]") return element[kind] " *" name ", size_t " name counted[kind]
            if (type == "*const " kind) return "const " element[kind] " *" name
            if (type == "*mut " kind) return element[kind] " *" name
            return type " " name
        }
        {
            while (match($0, pattern "[a-z0-9_]+ *[(]")) {
                name = substr($0, RSTART, RLENGTH - 1)
                $0 = substr($0, RSTART + RLENGTH)
                name = trimmed(name)
                sub(/.* /, "", name)
                last = index($0, ")")
                count = split(substr($0, 1, last - 1), list, ",")
                $0 = substr($0, last + 1)
                line = ""
                for (i = 1; i <= count; i++) {
                    if (trimmed(list[i]) == "") continue
                    at = index(list[i], ":")
                    line = line (line == "" ? "" : ", ") parameter(trimmed(substr(list[i], 1, at - 1)), trimmed(substr(list[i], at + 1)))
                }
                # what stands behind the parameters; in tests/names a name that says nothing else answers one word
                answer = "uint64_t"
                if (match($0, /^ *-> *[a-z0-9]+/)) {
                    answer = substr($0, RSTART, RLENGTH)
                    gsub(/[ >-]/, "", answer)
                    if (answer in element) answer = element[answer]
                } else if (pattern !~ / as /) answer = "void"
                print answer " " name "(" line ")"
            }
        }' | LC_ALL=C sort
}

# plain: the header in one line, without comments and without the preprocessor's lines
plain() {
    sed 's/^ *#.*//' include/zebrankai.h | tr '\n\t' '  ' | awk '
        { while ((at = index($0, "/*")) > 0) { behind = substr($0, at + 2); $0 = substr($0, 1, at - 1) " " substr(behind, index(behind, "*/") + 2) } print }'
}

# declared: its prototypes; functions that have a body are not among them
declared() {
    plain | awk '
        {
            while (match($0, /[;{}]/)) {
                piece = substr($0, 1, RSTART)
                $0 = substr($0, RSTART + 1)
                if (piece !~ /zbk_[a-z0-9_]+ *[(].*;$/) continue
                sub(/ *;$/, "", piece); gsub(/ +/, " ", piece); gsub(/[(] /, "(", piece); gsub(/ [)]/, ")", piece); sub(/^ /, "", piece)
                print piece
            }
        }' | LC_ALL=C sort
}

in_c 'extern "C" fn ' crates/zebrankai/src/lib.rt >"$work/source"
declared >"$work/header"
in_c ' fn zbk_' bindings/rust/src/*.rs >"$work/bindings"
in_c ' as zbk_' tests/names/src/lib.rs >"$work/names"
sed 's/(.*//; s/^.* //' "$work/source" | LC_ALL=C sort >"$work/calls"
count=$(wc -l <"$work/calls" | tr -d ' ')
[ "$count" -gt 0 ] || fail "crates/zebrankai/src/lib.rt exports no call"

# same WHAT FILE: the same declarations as those of the source
same() {
    if diff "$work/source" "$2" >"$work/diff"; then
        echo "ok $1: $count calls, each parameter by type and name"
    else
        sed -n 's,^< ,  lib.rt: ,p; s,^> ,  there:  ,p' "$work/diff"
        fail "$1: not the calls of crates/zebrankai/src/lib.rt"
    fi
}
same "include/zebrankai.h" "$work/header"
same "bindings/rust" "$work/bindings"
same "tests/names" "$work/names"

# named WHAT FILE: the same names as those of the source
named() {
    if diff "$work/calls" "$2" >"$work/diff"; then
        echo "ok $1: $count names"
    else
        sed -n 's,^< ,  missing: ,p; s,^> ,  too many: ,p' "$work/diff"
        fail "$1: not the calls of crates/zebrankai/src/lib.rt"
    fi
}

# tied: the calls of which a statement that others may cite takes the contract as it is handed to a caller, both what is asked and what is learnt
sed 's/--.*//' crates/zebrankai/proofs/Contracts.antt | awk '
    function ended(    alias) {
        for (alias in reads) if (statement ~ /^pub / && index(statement, " " alias ".Asked ") && index(statement, "(" alias ".Learnt ")) print reads[alias]
        statement = ""
    }
    /^use .*\.zbk_[a-z0-9_]+\.Reads as / { name = $2; sub(/\.Reads$/, "", name); sub(/.*\./, "", name); reads[$4] = name }
    /^[^ \t]/ { ended() }
    { statement = statement " " $0; sub(/^ /, "", statement) }
    END { ended() }' | LC_ALL=C sort >"$work/tied"
named "crates/zebrankai/proofs/Contracts.antt ties each call to its definition" "$work/tied"

# no crate but zebrankai exports a name, and it does so by such functions alone
exporting=$(grep -lE 'no_mangle|export_name|extern "C"' crates/*/src/*.rt | tr '\n' ' ')
marked=$(grep -cE 'no_mangle|export_name' crates/zebrankai/src/lib.rt || true)
if [ "$exporting" = "crates/zebrankai/src/lib.rt " ] && [ "$marked" -eq "$count" ]; then
    echo "ok no other source exports a name"
else
    fail "names are exported by $exporting, $marked in crates/zebrankai/src/lib.rt with $count calls"
fi

# what the archive exports: every global name that it defines, whatever it looks like. Another archive, as the stand-in, may have its compiler's
# run-time in it: names that begin with an underscore, or that have a dot or a dollar sign, which cannot be written in C.
nm -g --defined-only "$archive" 2>/dev/null | awk -v other="${ZBK_ARCHIVE:-}" '
    NF == 3 && (other == "" || ($3 !~ /^_/ && $3 !~ /[.$]/)) { print $3 }' | LC_ALL=C sort >"$work/exported"
named "the archive exports just these" "$work/exported"

# ---- the constants: each that the header has stands in header.c with a number, once; a macro with parameters with some arguments
{
    plain | awk '{ while (match($0, /ZBK_[A-Z0-9_]+/)) { print substr($0, RSTART, RLENGTH); $0 = substr($0, RSTART + RLENGTH) } }'
    sed -n 's/^ *# *define *\(ZBK_[A-Z0-9_]*\).*/\1/p' include/zebrankai.h
    # the list of refusals, of which constants are made
    sed -n 's/^ *X([0-9]*, \([A-Z]*\), ".*/ZBK_\1/p' include/zebrankai.h
} | grep -vxE 'ZBK_REFUSALS|ZBK_REFUSAL_NUMBER' | LC_ALL=C sort -u >"$work/constants"
sed -n 's/^IS(\(ZBK_[A-Z0-9_]*\)\(([0-9, ]*)\)\{0,1\}, [0-9]*);$/\1/p' tests/header/header.c | LC_ALL=C sort >"$work/held"
if diff "$work/constants" "$work/held" >"$work/diff"; then
    echo "ok each constant of the header is held to a number: $(wc -l <"$work/held" | tr -d ' ')"
else
    sed -n 's/^< /  not held: /p; s/^> /  held twice, or not in the header: /p' "$work/diff"
    fail "the constants of include/zebrankai.h that tests/header/header.c holds to numbers"
fi

# ---- the program
# step NAME COMMAND..: runs a command; what it said is shown where it fails, and its last line where it passes
step() {
    name=$1
    shift
    if "$@" >"$work/log" 2>&1; then
        echo "ok $name$(sed -n '$s/^header:/:/p' "$work/log")"
    else
        cat "$work/log"
        fail "$name"
        return 1
    fi
}
strict='-pedantic -Wall -Wextra -Werror -Iinclude'
# shellcheck disable=SC2086 # the options are words
if step "header.c compiles as C11" gcc -std=c11 $strict tests/header/header.c "$archive" -o "$work/c11"; then
    step "it runs" "$work/c11" || true
fi
# shellcheck disable=SC2086
if step "header.c compiles as C++11" g++ -std=c++11 $strict -x c++ tests/header/header.c -x none "$archive" -o "$work/c++11"; then
    step "it runs" "$work/c++11" || true
fi
valgrind=$(command -v valgrind || true)
if [ -z "$valgrind" ]; then
    echo "skipped valgrind: it is not on this machine"
elif [ -x "$work/c11" ]; then
    step "valgrind finds nothing in it" "$valgrind" --quiet --error-exitcode=1 --leak-check=full "$work/c11" || true
fi
[ "$failed" -eq 0 ] || { echo "header: something differs"; exit 1; }

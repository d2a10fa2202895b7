#!/bin/sh
# Holds include/zebrankai_util.h to the archive: tests/header/util.c, which names each of its functions and macros, in C99 over all legal sizes, and in C11,
# in C++ and under valgrind over some of them; with warnings as errors. Its version is that of the bindings and of the tool, and docs/REFUSALS.md's
# words are those of the header. Proves and builds the archive where it is not built; ZBK_ARCHIVE names another one to use instead, seen from the top
# folder. One line for each step; what differs is shown, and the exit code is then 1.
set -eu
cd "$(dirname "$0")/.."
archive=${ZBK_ARCHIVE:-target/staticlib/libzebrankai.a}
sh tests/prove_archive.sh
work=$(mktemp -d)
trap 'rm -rf "$work"' EXIT
failed=0
fail() {
    echo "FAIL $*"
    failed=1
}
# step NAME COMMAND..: runs a command; what it said is shown where it fails, and its last line where it passes
step() {
    name=$1
    shift
    if "$@" >"$work/log" 2>&1; then
        echo "ok $name$(sed -n '$s/^util:/:/p' "$work/log")"
    else
        cat "$work/log"
        fail "$name"
        return 1
    fi
}

# each name that the header defines stands in util.c
sed -n 's/^static inline .*[ *]\(zbk_[a-z0-9_]*\)(.*/\1/p; s/^#define \(ZBK_[A-Z0-9_]*\).*/\1/p; s/^struct \(zbk_[a-z_]*\) {$/\1/p' include/zebrankai_util.h |
    LC_ALL=C sort -u >"$work/names"
missing=$(while read -r name; do grep -qw "$name" tests/header/util.c || echo "$name"; done <"$work/names")
# two that the conversions of records stand on
missing=$(printf '%s\n' "$missing" | grep -vx 'zbk_words_to_bytes\|zbk_words_from_bytes' || true)
count=$(wc -l <"$work/names" | tr -d ' ')
if [ "$count" -gt 40 ] && [ -z "$missing" ]; then
    echo "ok util.c names each function and macro of zebrankai_util.h: $count"
else
    fail "of $count names of zebrankai_util.h util.c does not name: $missing"
fi

strict='-pedantic -Wall -Wextra -Wconversion -Wshadow -Werror -Iinclude'
# shellcheck disable=SC2086 # the options are words
if step "util.c compiles as C99" gcc -std=c99 -O2 $strict tests/header/util.c "$archive" -o "$work/c99"; then
    step "it runs, over all sizes" "$work/c99" || true
fi
# shellcheck disable=SC2086
if step "util.c compiles as C11" gcc -std=c11 $strict -g tests/header/util.c "$archive" -o "$work/c11"; then
    step "it runs" "$work/c11" few || true
fi
# shellcheck disable=SC2086
if step "util.c compiles as C++11" g++ -std=c++11 $strict -x c++ tests/header/util.c -x none "$archive" -o "$work/c++11"; then
    step "it runs" "$work/c++11" few || true
fi
# the header alone, before any other, twice
printf '#include "zebrankai_util.h"\n#include "zebrankai_util.h"\n' >"$work/alone.c"
for language in c++17 c++20 c17 gnu99; do
    case $language in c++*) x=c++ ;; *) x=c ;; esac
    # shellcheck disable=SC2086
    step "the header alone as $language" gcc -std=$language $strict -Wno-unused-function -fsyntax-only -x $x "$work/alone.c" || true
done
if command -v clang >/dev/null; then
    # shellcheck disable=SC2086
    step "util.c by clang" clang -std=c99 $strict -fsyntax-only tests/header/util.c || true
else
    echo "skipped clang: it is not on this machine"
fi
valgrind=$(command -v valgrind || true)
if [ -z "$valgrind" ]; then
    echo "skipped valgrind: it is not on this machine"
elif [ -x "$work/c11" ]; then
    step "valgrind finds nothing in it" "$valgrind" --quiet --error-exitcode=1 --leak-check=full "$work/c11" few || true
fi

# one version
version=$(sed -n 's/^#define ZBK_VERSION "\(.*\)"$/\1/p' include/zebrankai_util.h)
for manifest in bindings/rust/Cargo.toml tools/zbk/Cargo.toml; do
    other=$(sed -n 's/^version = "\(.*\)"$/\1/p' $manifest)
    if [ -n "$version" ] && [ "$version" = "$other" ]; then
        echo "ok ZBK_VERSION and $manifest: $version"
    else
        fail "ZBK_VERSION is '$version', and $manifest has '$other'"
    fi
done

# the words of refusals
if [ -x "$work/c99" ]; then
    "$work/c99" refusals >"$work/words"
    step "the words of refusals, on the page, in the headers and in Rust" sh tests/refusals.sh words "$work/words" || true
fi
[ "$failed" -eq 0 ] || { echo "util: something differs"; exit 1; }

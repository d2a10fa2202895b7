#!/bin/sh
# Holds docs/USE.md to the archive: its tables and the two drawings are as tools/figures.sh makes them, its sentences are tried by tests/use/claims.c, and
# each call, file, section and name on the page is there. Proves and builds the archive where it is not built; ZBK_ARCHIVE names another one to use
# instead, seen from the top folder. One line for each step; what differs is shown, and the exit code is then 1.
set -eu
cd "$(dirname "$0")/.."
archive=${ZBK_ARCHIVE:-target/staticlib/libzebrankai.a}
sh tests/prove_archive.sh
page=docs/USE.md
work=$(mktemp -d)
trap 'rm -rf "$work"' EXIT
failed=0
fail() {
    echo "FAIL use: $*"
    failed=1
}

# tables and drawings
if sh tools/figures.sh check >"$work/log" 2>&1; then
    echo "ok three tables of $page, docs/boards.svg and docs/bus.svg are as tools/figures.sh makes them"
else
    cat "$work/log"
    fail "$page, docs/boards.svg or docs/bus.svg is not as tools/figures.sh makes it"
fi
# and a figure that is another one is seen, on a copy of what the script reads
mkdir -p "$work/copy/tests" "$work/copy/tools" "$work/copy/docs" "$work/copy/lib"
cp tests/prove_archive.sh "$work/copy/tests"
cp tools/figures.sh tools/figures.c "$work/copy/tools"
cp -r include "$work/copy"
cp "$archive" "$work/copy/lib/archive.a"
seen=0
for file in USE.md boards.svg bus.svg; do
    cp docs/USE.md docs/boards.svg docs/bus.svg "$work/copy/docs"
    # 13 bytes become 14, and 241 places 242
    sed 's/| 241 |/| 242 |/; s/13 bytes/14 bytes/; s/>13 here/>14 here/' "docs/$file" >"$work/copy/docs/$file"
    if ! ZBK_ARCHIVE=lib/archive.a sh "$work/copy/tools/figures.sh" check >/dev/null 2>&1; then seen=$((seen + 1)); fi
done
cp docs/USE.md docs/boards.svg docs/bus.svg "$work/copy/docs"
if [ "$seen" -eq 3 ] && ZBK_ARCHIVE=lib/archive.a sh "$work/copy/tools/figures.sh" check >/dev/null; then
    echo "ok a figure that is another one is seen: 3 of 3"
else
    fail "a figure that is another one is seen $seen times of 3"
fi
for file in boards bus; do
    if command -v xmllint >/dev/null && ! xmllint --noout "docs/$file.svg"; then fail "docs/$file.svg is no XML"; fi
done

# sentences
gcc -std=c99 -O2 -g -pedantic -Wall -Wextra -Wshadow -Werror -Iinclude tests/use/claims.c "$archive" -o "$work/claims"
if "$work/claims" >"$work/log"; then
    echo "ok sentences of the page, tried: $(sed -n 's/^claims: //p' "$work/log")"
else
    cat "$work/log"
    fail "a sentence of $page is not so"
fi
if command -v valgrind >/dev/null; then
    if valgrind --quiet --error-exitcode=1 "$work/claims" >"$work/log" 2>&1; then echo "ok valgrind finds nothing in it"; else cat "$work/log" && fail "valgrind"; fi
fi

# names: calls and helpers, macros, refusals, files, sections
bad=$(grep -o 'zbk_[a-z_]*\|ZBK_[A-Z_]*' "$page" | sort -u | while read -r name; do grep -qw "$name" include/zebrankai.h include/zebrankai_util.h || echo "$name"; done)
[ -z "$bad" ] || fail "no header has $bad"
bad=$(grep -o 'Record::[a-z_]*' "$page" | sort -u | while read -r name; do grep -q "fn ${name#*::}\b" bindings/rust/src/*.rs || echo "$name"; done)
[ -z "$bad" ] || fail "the bindings have no $bad"
bad=$(grep -o '`[a-z]*/[a-z_/]*\.[a-z]*`' "$page" | tr -d '`' | sort -u | while read -r file; do [ -e "$file" ] || echo "$file"; done)
[ -z "$bad" ] || fail "there is no $bad"
bad=$(grep -o '](\([A-Za-z]*\.[a-z]*\))' "$page" | tr -d '()]' | sort -u | while read -r file; do [ -e "docs/$file" ] || echo "$file"; done)
[ -z "$bad" ] || fail "there is no docs/$bad"
sed -n 's/^## //p' "$page" | tr '[:upper:]' '[:lower:]' | sed 's/[^a-z0-9 -]//g; s/ /-/g' >"$work/sections"
grep -o '](#[^)]*)' "$page" | sed 's/^](#//; s/)$//' >"$work/named"
diff "$work/sections" "$work/named" || fail "the list of sections is not that of the page"
[ "$failed" -eq 0 ] || exit 1
echo "use: all passed"

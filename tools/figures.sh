#!/bin/sh
# Figures by calls of the archive, put where they are read: three tables of docs/USE.md, each between its two marks, and the drawings docs/boards.svg and
# docs/bus.svg.
#
#   sh tools/figures.sh          writes them
#   sh tools/figures.sh check    writes nothing; exit code 1 where one differs
#
# Proves and builds the archive where it is not built; ZBK_ARCHIVE names another one to use instead, seen from the top folder.
set -eu
case ${1:-write} in write | check) ;; *) echo "usage: sh tools/figures.sh [check]" >&2 && exit 2 ;; esac
cd "$(dirname "$0")/.."
archive=${ZBK_ARCHIVE:-target/staticlib/libzebrankai.a}
sh tests/prove_archive.sh
work=$(mktemp -d)
trap 'rm -rf "$work"' EXIT
gcc -std=c99 -O2 -pedantic -Wall -Wextra -Wshadow -Werror -Iinclude tools/figures.c "$archive" -o "$work/figures"
for part in sizes cut altered boards bus; do
    "$work/figures" "$part" >"$work/$part"
    [ -s "$work/$part" ] || { echo "figures: no $part" >&2 && exit 1; }
done

# the page with its tables: behind a mark's heading of two lines stand the rows, up to the mark of its end
awk -v work="$work" '
    /^<!-- figures [a-z]+ -->$/ { print; part = $3; rows = 0; next }
    /^<!-- end -->$/ && part != "" {
        while ((getline row <(work "/" part)) > 0) print row
        made++
        part = ""
    }
    part != "" { if (++rows <= 2) print; next }
    { print }
    END { exit made == 3 && part == "" ? 0 : 1 }' docs/USE.md >"$work/page" || { echo "docs/USE.md has not three tables between marks" >&2 && exit 1; }

status=0
# place FILE NAME: what was made is that file
place() {
    if cmp -s "$work/$1" "$2"; then return; fi
    if [ "$mode" = check ]; then
        diff "$2" "$work/$1" || true
        echo "$2 is not as tools/figures.sh makes it"
        status=1
    else
        cp "$work/$1" "$2"
    fi
}
mode=${1:-write}
place page docs/USE.md
place boards docs/boards.svg
place bus docs/bus.svg
exit $status

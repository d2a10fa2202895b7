#!/bin/sh
# docs/CONTRIBUTING.md is true to the tree: the files that it names are there, its first diff is of a line that stands there, and its last one applies.
#
#   sh tests/contributing.sh          that, in a second
#   sh tests/contributing.sh prove    and the crate of that diff is proved
set -eu
case ${1:-} in '' | prove) ;; *) echo "usage: sh tests/contributing.sh [prove]" >&2 && exit 2 ;; esac
cd "$(dirname "$0")/.."
page=docs/CONTRIBUTING.md
crate=serving_count
top=$PWD
work=$(mktemp -d)
trap 'rm -rf "$work"' EXIT
bad=0
complain() { echo "$page: $*"; bad=1; }

for word in $(awk '/^```/ { inside = !inside } !inside' "$page" | awk -F '`' '{ for (i = 2; i <= NF; i += 2) print $i }' | grep -xE '(crates|docs|tests|tools|README)[^ ]*\.[a-z]+' | sort -u); do
    [ -e "$word" ] || complain "there is no $word"
done
# the blocks of a diff, one file each
awk -v to="$work/block" '/^```diff$/ { on = 1; at++; next } /^```$/ { on = 0 } on { print >(to at) }' "$page"
grep '^[ -]' "$work/block1" | sed 's/^.//' | while IFS= read -r line; do
    grep -qxF -e "$line" crates/sizes/specs/Sizing.antt || echo "$line"
done >"$work/gone"
[ ! -s "$work/gone" ] || complain "crates/sizes/specs/Sizing.antt has no line '$(cat "$work/gone")'"
git apply --check "$work/block2" || complain "the diff does not apply"
[ "$bad" -eq 0 ] || exit 1
echo "ok the first day: the diff applies"
[ "${1:-}" = prove ] || exit 0

# a copy, in which the crate is made as the page says; what it rests on the prover takes from here, where it was proved
mkdir -p "$work/copy"
find crates crates.txt tools/levels.sh docs/ARCHITECTURE.md -path 'crates/*/out' -prune -o -type f -print | tar -c -T - -f - | tar -x -f - -C "$work/copy"
cd "$work/copy"
git init --quiet .
git apply "$work/block2"
printf '# how many boards are in service\n%s:\n' "$crate" >>crates.txt
sh tools/levels.sh >crates.new && mv crates.new crates.txt
(cd "crates/$crate" && rt check) >"$work/said" 2>&1 || { cat "$work/said" && echo "FAIL the first day: its crate is not proved" && exit 1; }
grep -q '^logic=proved functions=2 ' "$work/said" || { cat "$work/said" && echo "FAIL the first day: its crate is not proved" && exit 1; }
echo "ok the first day: its crate is proved"

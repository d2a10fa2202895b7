#!/bin/sh
# Neutral controls: crates/NAME/neutral/LABEL.edit stands beside the must-fail edit of the same label, has the same shape and changes nothing
# in meaning, so the prover must ACCEPT it. Where it does, the must-fail edit is refused for its one other operand, and not because a proof's
# text does not know the operations that both add. Each is applied to a copy of its crate, beside copies of those that it rests on, and proved there by
# `rt check`, over what the prover kept of the crate as it stands, as it tries must-fail edits. A control has the format of a must-fail edit: 'file:', then
# 'old:' and 'new:' pairs; an old text stands there once.
set -eu
cd "$(dirname "$0")/.."
top=$PWD
. tests/made_of.sh

# complain WHY: the control of this run is not accepted
complain() {
    echo "neutral $crate/$label: NOT ACCEPTED: $*"
    exit 1
}

# replace FILE OLD NEW: puts the new text in the place of the old one, which stands there once
replace() {
    OLD=$2 NEW=$3 awk '
        { text = text $0 "\n" }
        END {
            old = ENVIRON["OLD"]
            at = old == "" ? 0 : index(text, old)
            if (!at) exit 3
            rest = substr(text, at + length(old))
            if (index(rest, old)) exit 4
            printf "%s%s%s", substr(text, 1, at - 1), ENVIRON["NEW"], rest
        }' "$1" >"$room/edited" || return
    mv "$room/edited" "$1"
}

# one EDIT: proves the crate with this edit
one() {
    crate=${1#crates/}
    crate=${crate%%/*}
    label=$(basename "$1" .edit)
    room=$work/$crate/$label
    [ -f "crates/$crate/must-fail/$label.edit" ] || complain "it stands beside no must-fail edit"
    mkdir -p "$room/.git" "$room/crates"
    for name in $(closure "$crate"); do
        mkdir "$room/crates/$name"
        for part in src specs proofs; do
            [ ! -d "crates/$name/$part" ] || cp -R "crates/$name/$part" "$room/crates/$name"
        done
    done
    awk -v names=" $(closure "$crate" | tr '\n' ' ')" '{ n = $1; sub(/:.*/, "", n) } index(names, " " n " ")' crates.txt >"$room/crates.txt"
    file='' old='' pairs=0
    while IFS= read -r line || [ -n "$line" ]; do
        case $line in
        'file: '*) file=${line#file: } ;;
        'old: '*) old=${line#old: } ;;
        'new:'*)
            new=${line#new:}
            case /$file/ in
            */../*) complain "$file leads out of the crate" ;;
            /src/* | /specs/* | /proofs/*) [ -f "$room/crates/$crate/$file" ] || complain "the crate has no $file" ;;
            *) complain "'$file' is not below src/, specs/ or proofs/" ;;
            esac
            replace "$room/crates/$crate/$file" "$old" "${new# }" || complain "an old text does not stand in $file once: $old"
            old='' pairs=$((pairs + 1))
            ;;
        esac
    done <"$1"
    [ "$pairs" -gt 0 ] || complain "it has no 'old:' and 'new:' pair"
    began=$(date +%s)
    status=0
    (cd "$room/crates/$crate" && rt check --jobs 1) >"$room/log" 2>&1 || status=$?
    if [ "$status" -ne 0 ] || ! tail -n 5 "$room/log" | grep -q '^logic=proved '; then
        why=$(grep -m 1 -E ': error|error\[|it is not proved' "$room/log") || why=$(tail -n 1 "$room/log")
        complain "$(printf '%s' "$why" | sed "s|$room/||g" | cut -c 1-300)"
    fi
    rm -rf "$room"
    echo "neutral $crate/$label: accepted, as it must be ($(($(date +%s) - began)) s)"
}

if [ $# -eq 3 ] && [ "$1" = --one ]; then
    work=$2
    one "$3"
    exit
fi

work=$(mktemp -d)
trap 'rm -rf "$work"' EXIT
# the last crates of crates.txt take longest, and come first
sed -n 's/^\([a-z0-9_]*\)[^#:]*:.*/\1/p' crates.txt | awk '{ name[NR] = $0 } END { for (i = NR; i; i--) print name[i] }' | while read -r crate; do
    for edit in "crates/$crate"/neutral/*.edit; do
        [ ! -f "$edit" ] || echo "$edit"
    done
done >"$work/edits"
all=$(ls crates/*/neutral/*.edit 2>/dev/null | wc -l)
: >"$work/said"
[ ! -s "$work/edits" ] || xargs -n 1 -P "$(sh tests/jobs.sh)" sh tests/neutral.sh --one "$work" <"$work/edits" >"$work/said" || true
cat "$work/said"
accepted=$(grep -c ': accepted, as it must be ' "$work/said") || true
echo "neutral controls: $accepted accepted, $((all - accepted)) not"
[ "$accepted" -eq "$all" ] && [ "$all" -gt 0 ]

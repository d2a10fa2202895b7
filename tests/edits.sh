#!/bin/sh
# sh tests/edits.sh OUTPUT: each must-fail edit was refused because a fact fails, and not because a proof's text no longer fits the edited crate. OUTPUT is
# what `rt ci` printed: a line for each edit, which of a refusal has the first error that does not only say that a proof names what is gone. An edit whose
# error is of a missing name, field or part, or of a part of another shape, has to be written so that only the fact fails, with the proof's text turned to
# it where it must; so has one that cannot be applied or read, or is refused by a limit of the prover alone. An edit that adds an operation to code stands
# beside a neutral control, crates/NAME/neutral/LABEL.edit, which tests/neutral.sh tries.
set -eu
[ $# -eq 1 ] && [ -r "$1" ] || { echo "usage: sh tests/edits.sh OUTPUT" >&2; exit 2; }
case $1 in /*) output=$1 ;; *) output=$PWD/$1 ;; esac
cd "$(dirname "$0")/.."
work=$(mktemp -d)
trap 'rm -rf "$work"' EXIT
# adds EDIT: whether a new text of code in src/, which is no contract's, has more operators, statements or braces than its old one; a number
# below zero is an operand
adds() {
    awk '
        /^file: / { code = /^file: src\// }
        { gsub(/ -[0-9]+/, " 0") }
        /^old: / { contract = /≡|requires \{|ensures [a-z_ ]*\{/; n = gsub(/[&|^!+*\/%;{-]/, "") }
        /^new:/ && code && !contract && !/≡|requires \{|ensures [a-z_ ]*\{/ && gsub(/[&|^!+*\/%;{-]/, "") > n { found = 1 }
        END { exit !found }
    ' "$1"
}

# what was said of each edit: 'NAME/LABEL.edit WORDS'
sed -n 's/^rt: must-fail \([^ ]*\.edit\): /\1 /p' "$output" >"$work/said"
# (`rt ci` shows the first error that does not only name what is missing; that a declaration depends on a rejected one follows from an error before it)
shape='has no field|has no `|is not in scope|can be named from here|this tuple has|expected type `(tie|goal)\.|error\[|declarations? that depends? on'
edits=0
bad=0
complain() {
    echo "edit $crate/$label: $*"
    bad=$((bad + 1))
}
for edit in crates/*/must-fail/*.edit; do
    crate=${edit#crates/}
    crate=${crate%%/*}
    label=$(basename "$edit" .edit)
    edits=$((edits + 1))
    if [ ! -f "crates/$crate/neutral/$label.edit" ] && adds "$edit"; then
        complain "it adds an operation, and no neutral control of its shape shows that the operation alone is accepted"
        continue
    fi
    # the last that was said of it
    said=$(awk -v edit="$crate/$label.edit" '$1 == edit { sub(/^[^ ]* /, ""); last = $0 } END { print last }' "$work/said")
    case $said in
    '') complain "it was not tried" ;;
    'refused, as it must be: '*)
        if printf '%s\n' "$said" | grep -E -q "$shape"; then complain "refused for its proof's shape: $(printf '%s' "$said" | cut -c 25-300)"; fi
        ;;
    'refused, as it must be') complain "no fact is named that fails" ;;
    *) complain "$(printf '%s' "$said" | cut -c 1-300)" ;;
    esac
done
echo "edits: $edits read, $bad not refused by a fact"
[ "$bad" -eq 0 ] && [ "$edits" -gt 0 ]

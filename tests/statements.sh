#!/bin/sh
# docs/STATEMENTS.md and the pages of docs/statements are true to the tree: each file that they name is there, each name that they cite in `file: name`
# stands in that file, each must-fail edit that they name exists and each edit of the tree is named; the definitions a buyer reads are at most 891
# lines, none of them is left out of the page of definitions and laws, and each entry of it cites a law. No line of the pages is above 400 characters,
# no citation is broken over two lines, and each link leads to a page and a heading. Then that docs/ARCHITECTURE.md is true to crates.txt.
set -eu
cd "$(dirname "$0")/.."
page=docs/STATEMENTS.md
laws=docs/statements/definitions.md
pages="$page $(ls docs/statements/*.md)"
work=$(mktemp -d)
trap 'rm -rf "$work"' EXIT
bad=0
complain() { echo "$page: $*"; bad=1; }

# `crate/path: name, name`, `crate/path` and `edit crate/label`, each on one line; a name stands by itself in the file, not as a part of another. Lengths
# are in bytes, which are no fewer than the characters
LC_ALL=C awk -v edits="$work/named" '
    BEGIN { inside = "A-Za-z0-9_\200-\377-" }
    function complain(text) { print FILENAME ":" FNR ": " text; bad = 1 }
    # what is in a file, with a blank before and behind; nothing where there is none
    function within(file,   all) {
        if (!(file in text)) {
            RS = "\001"; all = ""
            text[file] = (getline all <file) >= 0 ? " " all " " : ""
            close(file); RS = "\n"
        }
        return text[file]
    }
    function cited(span,   file, at, n, i, name) {
        at = index(span, ": ")
        file = "crates/" (at ? substr(span, 1, at - 1) : span)
        if (within(file) == "") { complain("no file " file); return }
        n = at ? split(substr(span, at + 2), name, /[ ,]+/) : 0
        for (i = 1; i <= n; i++) if (!((file, name[i]) in stands)) {
            if (name[i] ~ "^[" inside "]+$" && within(file) ~ "[^" inside "]" name[i] "[^" inside "]") stands[file, name[i]]
            else complain(file " has no " name[i])
        }
        many += n
    }
    length($0) > 400 { complain("a line of " length($0) " characters") }
    {
        n = split($0, span, "`")
        if (n && n % 2 == 0) complain("a citation is broken over two lines")
        for (i = 2; i <= n; i += 2) {
            if (span[i] ~ /^[a-z0-9_]+\/(src|specs|proofs)\/[^ :]+(: .*)?$/) cited(span[i])
            if (span[i] ~ /^edit /) print substr(span[i], 6) >edits
        }
    }
    END { if (!many) complain("the pages cite nothing"); exit bad }' $pages || bad=1

# `edit crate/label`
touch "$work/named"
LC_ALL=C sort -u -o "$work/named" "$work/named"
ls crates/*/must-fail/*.edit | sed 's,^crates/\([^/]*\)/must-fail/\(.*\)\.edit$,\1/\2,' | LC_ALL=C sort >"$work/edits"
for e in $(LC_ALL=C comm -23 "$work/named" "$work/edits"); do complain "no edit $e"; done
for e in $(LC_ALL=C comm -13 "$work/named" "$work/edits"); do complain "the edit $e is not named"; done

# the prover takes one line of an edit's text, and passes over any other: a text of several lines would change something else, or nothing
for f in $(grep -lv -e '^file: ' -e '^old: ' -e '^new:' -e '^#' -e '^$' crates/*/must-fail/*.edit crates/*/neutral/*.edit); do
    complain "$f has a line that the prover passes over"
done

# the text that an edit replaces stands in its file, and there once, when the pairs before it have been put in, as the prover does
awk '
    FNR == 1 { split(FILENAME, part, "/"); split("", now) }
    /^file: / { path = "crates/" part[2] "/" substr($0, 7) }
    /^old: / {
        old = substr($0, 6)
        if (!(path in text)) { RS = "\001"; text[path] = ""; getline text[path] <path; close(path); RS = "\n" }
        if (!(path in now)) now[path] = text[path]
        rest = now[path]; count = 0
        while ((at = index(rest, old)) > 0) { count++; rest = substr(rest, at + length(old)) }
        if (count != 1) { print FILENAME ": " path " has its text " count " times"; bad = 1 }
    }
    /^new:/ {
        new = substr($0, 5); sub(/^ /, "", new)
        at = index(now[path], old)
        if (at > 0) now[path] = substr(now[path], 1, at - 1) new substr(now[path], at + length(old))
    }
    END { exit bad }' crates/*/must-fail/*.edit crates/*/neutral/*.edit || bad=1

# how much a buyer reads: definitions, theorem statements, tables; without imports, blanks and comments
lines() { cat "$@" | grep -v -E '^[[:space:]]*(--|use |$)' | wc -l | tr -d ' '; }
tables=$(ls crates/*/specs/*Figures.antt)
claims=$(ls crates/*/specs/*Laws.antt crates/*/specs/Demand?.antt crates/*/specs/Stripes.antt crates/*/specs/Premises.antt crates/*/specs/Gives.antt crates/*/specs/Claims.antt crates/*/specs/Tight.antt crates/*/specs/Runs.antt crates/beside_spec/specs/BothCalls.antt crates/list_spec/specs/Stepped.antt crates/list_spec/specs/Follows.antt crates/archive_spec/specs/Worn.antt crates/archive_spec/specs/Moved.antt)
definitions=$(ls crates/*/specs/*.antt | grep -v -e '/Lib.antt$')
# what only inner functions cite: no public call's contract rests on it
inner=$(ls crates/*/specs/Steps.antt crates/gf256_mul/specs/Tables.antt crates/trial_calls/specs/Acts.antt crates/trial_turn/specs/Turn.antt crates/trial_turn/specs/Walk.antt crates/trial/specs/Printing.antt crates/trial_line/specs/Line.antt crates/standard_input/specs/Reads.antt)
# the archive's words, beside the calls that they are for
archive='crates/answer_word/specs/Answers.antt crates/record_words/specs/Words.antt crates/repair_words/specs/RepairWords.antt crates/text_words/specs/Words.antt crates/archive_spec/specs/Archive.antt crates/archive_spec/specs/Lent.antt crates/archive_spec/specs/Texts.antt'
# what a later request defines in files of its own, each with its most lines; they are not among the 891, which are 700 for the base with its points,
# 45 for what stand-ins (request A.3) add to the base's own definitions, 17 for what edits (request A.6) add, 94 for what starts, steps and power
# failures (request A.8) add to the ledger, 16 for what careful reads (request A.11) add and 19 for what moves (request A.10) add
requests='crates/size_list/specs/Combinations.antt:45 crates/text_spec/specs/Texts.antt:63 crates/text_spec/specs/Calls.antt:49 crates/prefix_spec/specs/Prefix.antt:56 crates/generator/specs/Generator.antt:10 crates/trial_spec/specs/Trial.antt:85 crates/store_spec/specs/Edit.antt:26 crates/beside_spec/specs/Running.antt:38 crates/beside_spec/specs/Lying.antt:34 crates/beside_spec/specs/Both.antt:85 crates/store_spec/specs/Careful.antt:45 crates/store_spec/specs/Move.antt:32 crates/mbcr/specs/Afresh.antt:5'
later=$(for f in $requests; do echo "${f%:*}"; done)
printf '%s\n' $tables $claims $inner $archive $later | LC_ALL=C sort -u >"$work/others"
definitions=$(printf '%s\n' $definitions | LC_ALL=C sort | LC_ALL=C comm -23 - "$work/others")
for f in $inner; do
    crate=${f#crates/} name=${f##*/}
    echo "Rattle\.${crate%%/*}\.specs\.${name%.antt}\."
done >"$work/inner"
if grep -f "$work/inner" $(ls crates/board_*/specs/*.antt crates/store_spec/specs/*.antt crates/beside_spec/specs/*.antt crates/ledger_spec/specs/*.antt crates/list_spec/specs/*.antt crates/mbcr/specs/*.antt crates/text_spec/specs/*.antt crates/prefix_spec/specs/*.antt crates/generator/specs/*.antt crates/trial_spec/specs/*.antt \
    crates/record_words/specs/*.antt crates/store/specs/*.antt crates/archive_spec/specs/*.antt | grep -v '/Steps.antt$'); then
    complain "a definition rests on an inner one"
fi
# the page of definitions and laws: each definition stands at the head of an entry, and the laws of each entry cite a file of laws
LC_ALL=C awk -v laws="$laws" '
    function ended() { if (entry != "" && !law) { print laws ": no law in the entry of " entry; bad = 1 }; entry = ""; law = 0 }
    FILENAME == laws {
        if (/^- /) { ended(); entry = substr($0, 3); part = "names" }
        else if (/^  - /) part = /^  - laws: / ? "laws" : "rest"
        else if (!/^  /) part = ""
        n = split($0, span, "`")
        for (i = 2; i <= n; i += 2) {
            if (part == "names" && match(span[i], /^[a-z0-9_]+\/specs\/[^ :]+: /)) {
                m = split(substr(span[i], RLENGTH + 1), name, /[ ,]+/)
                for (j = 1; j <= m; j++) named["crates/" substr(span[i], 1, RLENGTH - 2), name[j]]
            }
            if (part == "laws" && span[i] ~ /^[a-z0-9_]+\/specs\/[A-Za-z]*(Laws|BothCalls|Stepped|Follows|Demand[0-9]|Premises|Gives|Runs|Stripes|Tight)\.antt: /) law = 1
        }
        next
    }
    match($0, /^ *(abbrev pub|unfoldable pub|pub record|pub data) [^ :{(]+/) {
        n = split(substr($0, 1, RLENGTH), name, " ")
        if (!((FILENAME, name[n]) in named)) { print laws ": no law is named for " name[n] " of " FILENAME; bad = 1 }
    }
    END { ended(); exit bad }' "$laws" $definitions $archive $later || bad=1

# links: [words](page), [words](page#heading); each page is linked from the first
LC_ALL=C awk '
    function plain(title) { title = tolower(title); gsub(/[^a-z0-9_ -]/, "", title); gsub(/ /, "-", title); return title }
    /^#+ / { title = $0; sub(/^#+ /, "", title); heading[FILENAME "#" plain(title)] }
    FNR == 1 { there[FILENAME] }
    {
        while (match($0, /\]\([^)]*\)/)) {
            to = substr($0, RSTART + 2, RLENGTH - 3); $0 = substr($0, RSTART + RLENGTH)
            folder = FILENAME; sub(/[^\/]*$/, "", folder)
            while (sub(/^\.\.\//, "", to)) sub(/[^\/]*\/$/, "", folder)
            link[++links] = folder to; from[links] = FILENAME
        }
    }
    END {
        for (i = 1; i <= links; i++) {
            to = link[i]; at = index(to, "#")
            if (at ? !(to in heading) : !(to in there)) { print from[i] ": a link leads nowhere: " to; bad = 1 }
            if (from[i] == first) linked[at ? substr(to, 1, at - 1) : to]
        }
        for (p in there) if (p != first && !(p in linked)) { print first ": no link to " p; bad = 1 }
        exit bad
    }' first="$page" $pages || bad=1

d=$(lines $definitions) c=$(lines $claims) t=$(lines $tables) i=$(lines $inner) a=$(lines $archive)
echo "definitions: $d lines, theorem statements: $c lines, tables of figures: $t lines, inner definitions: $i lines, the archive: $a lines"
for f in $requests; do
    [ "$(lines "${f%:*}")" -le "${f#*:}" ] || complain "${f%:*} has more than ${f#*:} lines"
done
r=$(lines $later)
grep -qF "Definitions of requests in files of their own: $r lines" "$page" || complain "it does not say that requests' own definitions have $r lines"
[ "$d" -le 891 ] || complain "the definitions have $d lines, more than 891"
grep -qF "$d lines without imports" "$page" || complain "it does not say that the definitions have $d lines"
grep -qF "Theorem statements: $c lines" "$page" || complain "it does not say that the theorem statements have $c lines"
grep -qF "Tables of figures: $t lines" "$page" || complain "it does not say that the tables have $t lines"
grep -qF "The archive: $a lines" "$page" || complain "it does not say that the archive's definitions have $a lines"
grep -qF "Inner definitions: $i lines" "$page" || complain "it does not say that the inner definitions have $i lines"
sh tests/architecture.sh || bad=1
exit $bad

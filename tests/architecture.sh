#!/bin/sh
# docs/ARCHITECTURE.md is true to the tree: each crate of crates.txt stands in the drawing, once, and no other does; a crate rests on none but those
# of its own box and of boxes that the arrows lead to; each `crate::function` and each file that it names is there, but for those with a name in
# capitals to fill in; and it counts its files right. And crates.txt is in its order, and has for each crate what its files name, and
# nothing else: what a crate rests on by way of others is bound by the arrows with it. And the tables 'To add ..' have each file that names the last call and the last refusal.
set -eu
cd "$(dirname "$0")/.."
page=docs/ARCHITECTURE.md
bad=0
complain() { echo "$page: $*"; bad=1; }

crates=$(sed 's/#.*//' crates.txt | sed -n 's/^[[:blank:]]*\([A-Za-z0-9_]*\)[^:]*:.*/\1/p')
# what the boxes of the drawing hold, behind their headings
drawn=$(sed -n '/^```mermaid$/,/^```$/p' "$page" | sed -n 's,.*\["<b>[^<]*</b><br/>\(.*\)"\].*,\1,p' | sed 's,<br/>, ,g' | tr -s ' ' '\n')
[ -n "$drawn" ] || complain "no drawing"
for crate in $crates; do
    times=$(printf '%s\n' "$drawn" | grep -cxF "$crate" || true)
    [ "$times" -eq 1 ] || complain "the crate $crate stands in the drawing $times times"
done
for crate in $drawn; do
    printf '%s\n' "$crates" | grep -qxF "$crate" || complain "$crate stands in the drawing and not in crates.txt"
done

# crates.txt has what the files name, in its order, under its headings
sh tools/levels.sh | cmp -s - crates.txt || complain "crates.txt is not what the crates' files name: sh tools/levels.sh >crates.new && mv crates.new crates.txt"

# the arrows
sed -n '/^```mermaid$/,/^```$/p' "$page" | awk '
    NR == FNR {
        if (match($0, /\["<b>[^<]*<\/b><br\/>.*"\]/)) {
            id = $1; sub(/\[.*/, "", id)
            text = substr($0, RSTART, RLENGTH); sub(/^[^>]*>[^>]*>[^>]*>/, "", text); sub(/"\]$/, "", text); gsub(/<br\/>/, " ", text)
            n = split(text, names, " ")
            for (i = 1; i <= n; i++) box[names[i]] = id
        }
        if ($2 == "-->") { leads[$1, $3]; ends[$1]; ends[$3] }
        next
    }
    FNR == 1 { for (b in ends) for (a in ends) if ((a, b) in leads) for (c in ends) if ((b, c) in leads) leads[a, c] }
    { sub(/#.*/, ""); at = index($0, ":") }
    at {
        crate = $1; sub(/:.*/, "", crate)
        n = split(substr($0, at + 1), names, " ")
        for (i = 1; i <= n; i++)
            if ((names[i] in box) && box[crate] != box[names[i]] && !((box[crate], box[names[i]]) in leads)) {
                print "no arrow leads from " box[crate] " to " box[names[i]] ": " crate " rests on " names[i]; bad = 1
            }
    }
    END { exit bad }' - crates.txt || bad=1

# between `..`: crate::function, and files
words=$(sed '/^```mermaid$/,/^```$/d' "$page" | awk -F '`' '{ for (i = 2; i <= NF; i += 2) print $i }' | sort -u)
for word in $(printf '%s\n' "$words" | grep -x '[a-z0-9_]*::[a-z0-9_]*' || true); do
    grep -qE "^ *(pub )?(extern \"C\" )?fn ${word#*::}[(<]" "crates/${word%%::*}/src"/*.rt 2>/dev/null || complain "there is no $word"
done
for word in $(printf '%s\n' "$words" | grep -xE '[^ ]*/[^ ]*|[A-Za-z_]+\.(txt|md)' | grep -v -e CALL -e NAME || true); do
    [ -e "$word" ] || complain "there is no $word"
done

# a table of files has as many as its rows say in brackets, and in all as many as the sentence above it says
awk '
    function row() { if (want != have) { print title ":" name "names " have " files"; bad = 1 }; want = have = 0 }
    /^## / { title = $0; said = all = 0 }
    !/^\|/ && match($0, /[0-9]+ files/) { said = substr($0, RSTART) + 0 }
    /^\|/ && said {
        split($0, cell, "|")
        if (match(cell[2], /\([0-9]+\)/)) { row(); name = cell[2]; want = substr(cell[2], RSTART + 1) + 0; all += want }
        have += gsub(/`[^`]*`/, "", cell[3])
    }
    !/^\|/ && all { row(); if (all != said) { print title ": " said " files are said, the rows have " all; bad = 1 }; said = all = 0 }
    END { row(); if (all != said) { print title ": " said " files are said, the rows have " all; bad = 1 }; exit bad }' "$page" || bad=1

# files OF: what the third cells of the tables of that section name
files() { awk -v of="## $1" '/^## / { on = $0 == of } on && /^\|/ { split($0, cell, "|"); m = split(cell[3], w, "`"); for (i = 2; i <= m; i += 2) print w[i] }' "$page" | sort -u; }
work=$(mktemp -d)
trap 'rm -rf "$work"' EXIT
# the table of a refusal: each file that names the last one, IDLE, or its number as the greatest, and no other; edits and wrong programs stand apart
{
    grep -rwE 'Idle|IDLE|check_idle' crates --exclude-dir=out --include='*.antt' --include='*.rt' | grep -vE '^[^:]*:[[:blank:]]*(--|//)' | sed 's/:.*//'
    grep -rlE 'IDLE|Refusal::Idle|Idle = 17|1 to 17|<= 17' include bindings tools tests docs --include='*.h' --include='*.c' --include='*.rs' --include='*.sh' --include='*.md'
} | grep -vxF -e "$page" -e tests/architecture.sh | sed '/\/target\//d' | sort -u >"$work/is"
grep -qx crates/sizes/src/lib.rt "$work/is" || complain "the refusal of the table is not in crates/sizes"
files 'To add a refusal' >"$work/said"
for file in $(comm -23 "$work/is" "$work/said"); do complain "To add a refusal: $file names the last one, and is in no row"; done
for file in $(comm -13 "$work/is" "$work/said"); do complain "To add a refusal: $file does not name the last one"; done
# the table of a call: each file that names the last one, move, outside its own crates; text_cursor's move is another one
{
    grep -rE '(^|[^A-Za-z_-])(zbk_move|move_board|move|move_[a-z_]*|Move[A-Z][A-Za-z]*)([^A-Za-z_]|$)' crates --exclude-dir=out --include='*.antt' --include='*.rt'
    grep -rE 'zbk_move|move_board' include bindings/rust/src tests/header tests/names --include='*.h' --include='*.c' --include='*.rs'
} | grep -vE '^[^:]*:[[:blank:]]*(--|//|/?\*)' | sed 's/:.*//' | grep -vE '^crates/(move_tests|move_names|check_move|store_move|rekeep|rekeep_stripes|byte_factors|text_cursor)/' | sort -u >"$work/is"
grep -qx crates/store_spec/specs/Move.antt "$work/is" || complain "the call of the table is not in crates/store_spec"
files 'To add a call of the store' | sed 'h; s/CALL/Move/g; p; g; s/CALL/move/g; p; g; s/CALL/move_board/g' | sort -u >"$work/said"
for file in $(comm -23 "$work/is" "$work/said"); do complain "To add a call of the store: $file names the last one, and is in no row"; done
exit $bad

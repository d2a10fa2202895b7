#!/bin/sh
# The service bench's tool (tools/zbk), as a person uses it: files spread, texts deleted, gathered, boards rebuilt; texts damaged at each kind of
# place; pipes, help, exit codes, files that are there and files that cannot be written; and its printers and trial loads against the unrelated
# coder's answers.
# Builds the tool with the archive that is proved, or with the one that ZBK_ARCHIVE names. Ends with exit code 1 where something is not as it must be.
set -eu
cd "$(dirname "$0")/.."
top=$PWD
sh tests/prove_archive.sh
CARGO_TARGET_DIR=$top/target/cargo
export CARGO_TARGET_DIR
cargo build --offline --quiet --release -j1 --manifest-path tools/zbk/Cargo.toml
cargo build --offline --quiet --release -j1 --manifest-path tests/coder/Cargo.toml
cargo test --offline --quiet --release -j1 --manifest-path tools/zbk/Cargo.toml >/dev/null
zbk=$top/target/cargo/release/zbk
coder=$top/target/cargo/release/coder
own=$(mktemp -d)
reader=
trap '[ -z "$reader" ] || kill "$reader" 2>/dev/null || true; rm -rf "$own"' EXIT
mkdir "$own/work"
cd "$own/work"
LC_ALL=C
export LC_ALL

passed=0
fail() {
    echo "FAIL tool: $*"
    cat "$own/said"
    exit 1
}
# try STATUS WORDS..: the tool ends with this exit code; what it wrote is in out and said
try() {
    due=$1
    shift
    what="zbk $*"
    status=0
    "$zbk" "$@" >"$own/out" 2>"$own/said" || status=$?
    # how far it is, which a busy machine brings about, is no part of what it says, but where that is tried
    [ -n "${slow:-}" ] || sed -i '/^zbk: .*, [0-9]* of [0-9]* done$/d' "$own/said"
    [ "$status" -eq "$due" ] || fail "$what: exit code $status, not $due"
    # errors are on standard error, and only there
    if [ "$due" -eq 2 ] && [ -s "$own/out" ]; then fail "$what: it wrote to standard output"; fi
    if [ "$due" -ne 0 ] && [ "${1:-}" != look ] && [ "${1:-}" != check ] && [ ! -s "$own/said" ]; then fail "$what: it said nothing"; fi
    passed=$((passed + 1))
}
# said TEXT: this stands in what was said; out TEXT: in what was written
said() { grep -qF -- "$1" "$own/said" || fail "$what: it did not say: $1"; }
out() { grep -qF -- "$1" "$own/out" || fail "$what: it did not write: $1"; }
unsaid() { if grep -qF -- "$1" "$own/said"; then fail "$what: it said: $1"; fi; }
# whole FILE DUE: both have the same bytes
whole() { cmp -s "$1" "$2" || fail "$what: $1 is not $2"; }
# is NAME..: the folder has just these files
is() {
    folder=$1
    shift
    printf '%s\n' "$@" | sort >"$own/due"
    find "$folder" -mindepth 1 | sed "s,^$folder/,," | sort | diff "$own/due" - >&2 || fail "$what: other files in $folder"
}
# alter TEXT: the first digit of its share is another one
alter() {
    sed -e 's/^data=f/data=0/' -e t -e 's/^data=./data=f/' "$1" >"$own/altered"
    cat "$own/altered" >"$1"
}
eight='board-0.txt board-1.txt board-2.txt board-3.txt board-4.txt board-5.txt board-6.txt board-7.txt'

# a file of a few thousand bytes, the same on all machines
awk 'BEGIN { for (i = 0; i < 300; i++) printf "article %d: %d boxes\n", i * 7919 % 1000, i * i % 97 }' >stock
sizes='--boards 8 --read 4 --helpers 6 --fresh 2'

# ---- help and words that make no sense
try 0 --help
out 'zbk rebuild DIR --fresh 2,5'
out 'zbk check TEXT..'
try 0 -h
try 0 help
mv "$own/out" "$own/help"
for again in help -h --help; do
    try 0 help $again
    whole "$own/out" "$own/help"
done
try 0 --version
out "zbk $(sed -n 's/^version = "\(.*\)"$/\1/p' "$top/tools/zbk/Cargo.toml")"
mv "$own/out" "$own/help"
try 0 -V
whole "$own/out" "$own/help"
commands='spread gather check rebuild look tidy explain sizes share print trial'
for command in $commands; do
    try 0 "$command" --help
    out "zbk $command"
    [ ! -s "$own/said" ] || fail "$what: it said something"
    mv "$own/out" "$own/help"
    try 0 help "$command"
    whole "$own/out" "$own/help"
    try 0 "$command" -h
done
try 2
said 'which command?'
try 2 turn
said 'no command turn'
try 2 help turn
try 2 gather
said "'zbk gather --help'"
try 2 gather --quietly stock
said 'no option --quietly'
try 2 gather - -
said 'twice'
try 2 gather stock -o
said '--output wants a value'
try 2 look --force stock
try 2 spread stock
try 2 spread stock shelf more
try 2 spread stock shelf --boards 8 --read 4 --helpers 6
said '--fresh is missing'
try 2 spread stock shelf --boards eight --read 4 --helpers 6 --fresh 2
said 'eight: not a number'
try 2 spread stock shelf --boards -8 --read 4 --helpers 6 --fresh 2
# shellcheck disable=SC2086 # the options are words
try 2 spread stock shelf $sizes --boards 9
said 'twice'
# shellcheck disable=SC2086
try 2 spread stock shelf $sizes --points 0102
said 'for each of the 8 boards'
# an option is no value, and neither is nothing
try 2 spread stock shelf --boards --read 4 --helpers 6 --fresh 2
said '--boards wants a value'
try 2 gather stock -o ''
said '--output wants a value'
try 2 gather stock --output=
said '--output wants a value'
# shellcheck disable=SC2086
try 2 spread stock '' $sizes
said "the folder's name is empty"
try 2 rebuild '' --fresh 2
said "the folder's name is empty"
try 2 rebuild shelf
said '--fresh is missing'
try 2 "$(printf 'b\377ck')"
said 'no command b\xFFck'
try 2 spread stock shelf -n 8 -k 4 -d 6 -r "$(printf '\377')"
said '\xFF: not in UTF-8, and no name of a file'
try 2 --completion
said 'for which shell? There is one for bash'
try 2 sizes
try 2 check
said "'zbk check --help'"
try 2 tidy
try 2 tidy stock -o tidied --folder new
said '--output or --folder, not both'
try 2 sizes 8 -n 8 -k 4 -d 6 -r 2
try 2 sizes -n 8 -k 4 -d 6
said '--fresh is missing'
try 2 print stock
is . stock

# ---- explain: the words of docs/REFUSALS.md
sh "$top/tests/refusals.sh" tool "$zbk" >"$own/said" || fail "zbk explain"
passed=$((passed + 64))
try 0 explain 10 serving
out '10 DISAGREE'
out '14 SERVING'
[ ! -s "$own/said" ] || fail "$what: it said something"
try 2 explain
said 'which refusal? Name it by number or name'
try 2 explain 0
said '0 is no refusal: the call was accepted'
try 2 explain 11
said '11 is not used: no call answers it'
for word in 18 255 256 266 99999999999999999999 POINTS ZBK_ zbk_1 -10 '' 1x; do
    try 2 explain -- "$word"
    said "no refusal $word"
done
try 2 explain 10 18
said "'zbk explain --help'"
try 2 explain --force 10
is . stock

# ---- spread
# shellcheck disable=SC2086
try 0 spread stock shelf $sizes
out '8 texts in shelf; any 4 of them give the'
[ ! -s "$own/said" ] || fail "$what: it said something"
# shellcheck disable=SC2086
is shelf $eight
for board in 0 1 2 3 4 5 6 7; do
    # shellcheck disable=SC2086
    try 0 share stock $sizes --board $board
    whole "$own/out" shelf/board-$board.txt
done
cp -r shelf kept
# shellcheck disable=SC2086
try 1 spread stock shelf $sizes
said 'shelf/board-0.txt is there already; --force replaces it'
# nothing is written where one file is there
mkdir part
echo mine >part/board-7.txt
# shellcheck disable=SC2086
try 1 spread stock part $sizes
is part board-7.txt
# shellcheck disable=SC2086
try 0 spread stock part $sizes --force
# shellcheck disable=SC2086
is part $eight
whole part/board-7.txt kept/board-7.txt
# --name=value, short names, deeper folders, no report
try 0 spread stock new/deep -n8 -k 4 -d 6 -r2
try 0 spread stock new/joined --boards=8 --read=4 --helpers=6 --fresh=2 -q
[ ! -s "$own/out" ] || fail "$what: it reported"
diff -r new/deep new/joined >&2 || fail "$what: other texts"

# ---- the session of docs/TOOL.md, line by line
mkdir session
cp stock session
# shellcheck disable=SC2016 # the marks are the page's
sed -n '/A session, with a file/,/^`zbk look`/s/^    //p' "$top/docs/TOOL.md" >"$own/due"
grep -q '^\$ zbk' "$own/due" || fail "docs/TOOL.md has no session"
grep '^\$ ' "$own/due" | while IFS= read -r line; do
    printf '%s\n' "$line"
    (cd session && PATH=$(dirname "$zbk"):$PATH && export PATH && sh -c "${line#??}" 2>&1) || true
done >"$own/session"
diff "$own/due" "$own/session" >&2 || fail "the session of docs/TOOL.md is another one"
cmp -s session/back stock || fail "the session of docs/TOOL.md gives another file"
passed=$((passed + 1))

# ---- gather: from every four boards, in rising and in falling order
a=0
while [ $a -lt 5 ]; do
    b=$((a + 1))
    while [ $b -lt 6 ]; do
        c=$((b + 1))
        while [ $c -lt 7 ]; do
            d=$((c + 1))
            while [ $d -lt 8 ]; do
                try 0 gather shelf/board-$d.txt shelf/board-$c.txt shelf/board-$b.txt shelf/board-$a.txt
                whole "$own/out" stock
                d=$((d + 1))
            done
            c=$((c + 1))
        done
        b=$((b + 1))
    done
    a=$((a + 1))
done
rm shelf/board-0.txt shelf/board-3.txt shelf/board-4.txt shelf/board-7.txt
try 0 gather shelf -o back
whole back stock
try 1 gather shelf -o back
said 'back is there already'
echo other >back
try 0 gather shelf -o back --force
whole back stock
chmod 640 back
try 0 gather shelf -o back -f
[ "$(find back -perm 640)" = back ] || fail "$what: other permissions"
try 1 gather shelf -o new
said 'it is a folder'
# too few: which boards are missing
try 1 gather shelf/board-1.txt shelf/board-2.txt shelf/board-6.txt -o none
said 'COUNT (4): 3 texts of boards 1, 2 and 6, and k = 4 are needed: 1 more of boards 0, 3, 4, 5 and 7'
try 1 gather shelf/board-1.txt -o none
said '3 more of boards 0, 2, 3, 4, 5, 6 and 7'
# twice
try 1 gather shelf/board-1.txt shelf/board-2.txt shelf/board-6.txt shelf/board-1.txt -o none
said 'REPEAT (6): two texts are of board 1'
# an option is no name of a file
try 2 gather kept -o --force
said '--output wants a value'
[ ! -e ./--force ] || fail "$what: it wrote a file"
# more than four: all agree, which is said, but not into the file, and not where it is to be quiet
try 0 gather kept
whole "$own/out" stock
said "zbk: 8 texts agree; one that is wrong would show; $(wc -c <stock) bytes from boards 0 to 7"
try 0 gather kept/board-2.txt kept/board-1.txt kept/board-3.txt kept/board-4.txt kept/board-7.txt
whole "$own/out" stock
said "zbk: 5 texts agree; one that is wrong would show; $(wc -c <stock) bytes from boards 1, 2, 3, 4 and 7"
# just four: none is left to check them
try 0 gather kept/board-2.txt kept/board-1.txt kept/board-3.txt kept/board-4.txt
whole "$own/out" stock
said 'zbk: 4 texts fit together, and none is left to check them: one more would show whether one of them is wrong, two more which; '
said "which; $(wc -c <stock) bytes from boards 1 to 4"
for texts in kept 'kept/board-2.txt kept/board-1.txt kept/board-3.txt kept/board-4.txt'; do
    # shellcheck disable=SC2086
    try 0 gather $texts --quiet
    whole "$own/out" stock
    [ ! -s "$own/said" ] || fail "$what: it said something"
done
try 1 gather nothing -o none
said 'cannot read nothing: no such file'
mkdir empty
try 1 gather empty -o none
said 'has no texts'
: >nothing
try 1 gather nothing -o none
said 'COUNT (4): no text at all: nothing is empty'
: >hollow
try 1 gather hollow nothing -o none
said 'COUNT (4): no text at all: hollow; nothing are empty'
rm hollow
try 1 gather nothing shelf -o none
said 'nothing: it is empty'
[ ! -e none ] || fail "$what: it wrote a file"

# ---- texts that are damaged: the line and place, what was expected, what was found
try 0 spread stock first -n 8 -k 4 -d 6 -r 2 --points first-series
# damaged SED LINE PLACE SAID [TEXT]: a text edited by sed is refused at a place
damaged() {
    sed "$1" "${5:-kept/board-2.txt}" >broken
    try 1 gather broken kept/board-1.txt kept/board-3.txt kept/board-4.txt -o none
    said "TEXT (12): of 4 texts given, one is no text"
    said "broken: line $2, place $3: expected $4"
    said "'zbk "
    try 1 look broken
    out "not readable: line $2, place $3: expected $4"
    [ ! -e none ] || fail "$what: it wrote a file"
}
of_first=first/board-2.txt
damaged 's/^n=8/n=08/' 1 3 "a number without leading zeros, found '08'"
damaged 's/^n=8/n=33/' 1 3 "n from 2 to 32 (2 to 32 boards), found '33'"
damaged 's/^n=8/N=8/' 1 1 "the line n=, found 'N=8'"
damaged 's/^n=8/n=/' 1 3 'a digit, found the end of the line'
damaged 's/^n=8/n=8 /' 1 4 "a digit or the end of the line, found ' '"
damaged 's/$/\r/' 1 4 'a digit or the end of the line, found a carriage return (byte 0D)'
damaged '2d' 2 1 "the line k=, found 'd=6'"
damaged 's/^k=4/k=7/' 3 3 "d from 7 to 7 (k <= d < n), found '6'"
damaged 's/^d=6/d=8/' 3 3 "d from 4 to 7 (k <= d < n), found '8'"
damaged 's/^r=2/r=3/' 4 3 "r from 1 to 2 (1 <= r, d + r <= n), found '3'"
damaged 's/^node=2/node=8/' 5 6 "node from 0 to 7 (a board below n), found '8'"
damaged 's/^node=2/nose=2/' 5 3 "the line node=, found 'se=2'"
damaged 's/^length=.*/length=163841/' 6 8 "length from 0 to 163840 (4096 stripes at most), found '163841'"
damaged 's/^length=.*/length=99999999999999999999999/' 6 8 'length from 0 to 163840'
damaged 's/^length=.*/length=0/' 7 6 'the end of the line behind 0 pairs of the share'
damaged '6a points=0001020304050607' 7 1 "no line points=, since the points are 0 to n - 1 in order"
damaged 's/^points=01020304/points=01020301/' 7 14 "a point that no board before has, found '01" $of_first
damaged 's/^points=0102/points=0A02/' 7 9 "a digit 0 to 9 or a to f, found 'A'" $of_first
damaged 's/^points=0102/points=02/' 7 22 '8 pairs, one for each board, 16 digits, not 14, found the end of the line' $of_first
damaged 's/^points=/points=ff/' 7 24 'the end of the line behind 8 pairs, one for each board' $of_first
damaged 's/^points=/points=00/' 7 1 "no line points=, since the points are 0 to n - 1 in order" $of_first
damaged 's/^points=.*/size=3/' 7 1 "the line points= or data=, found 'size=3'" $of_first
damaged 's/^data=..../data=00G0/' 7 8 "a digit 0 to 9 or a to f, found 'G'"
damaged 's/^data=/data:/' 7 5 "the line data=, found ':"
digits=$(sed -n 's/^data=//p' kept/board-2.txt | tr -d '\n' | wc -c)
pairs=$((digits / 2))
damaged 's/^data=../data=/' 7 $((6 + digits - 2)) "$pairs pairs of the share, $digits digits, not $((digits - 2)), found the end of the line"
damaged 's/^data=/data=00/' 7 $((6 + digits)) "the end of the line behind $pairs pairs of the share, found "
damaged 's/^\(length=.*\)/\1\n/' 7 1 'the line points= or data=, found the end of the line'
# cut: at the end of each line, within the data, before the last byte, and behind the last line
for line in 1 2 3 4 5 6; do
    head -n $line kept/board-2.txt >broken
    try 1 gather broken kept/board-1.txt kept/board-3.txt kept/board-4.txt -o none
    said "broken: line $((line + 1)), place 1: expected the line "
    said 'found the end of the text'
done
for bytes in 1 3 20 60 $(($(wc -c <kept/board-2.txt) - 1)); do
    head -c "$bytes" kept/board-2.txt >broken
    try 1 gather broken kept/board-1.txt kept/board-3.txt kept/board-4.txt -o none
    said 'found the end of the text'
    try 1 look broken
done
for more in '\n' ' ' 'x' '\000' 'end\n'; do
    # shellcheck disable=SC2059 # the format is the bytes
    { cat kept/board-2.txt && printf "$more"; } >broken
    try 1 gather broken kept/board-1.txt kept/board-3.txt kept/board-4.txt -o none
    said 'TEXT (12)'
    said 'broken: line 8, place 1: expected the end of the text'
done
printf '\357\273\277' | cat - kept/board-2.txt >broken
try 1 look broken
out 'line 1, place 1: expected the line n=, found byte EF'
# two are no texts; the others would be enough
head -c 9 kept/board-2.txt >broken
head -c 5 kept/board-3.txt >shattered
try 1 gather broken shattered kept/board-1.txt kept/board-4.txt kept/board-5.txt kept/board-6.txt -o none
said 'of 6 texts given, 2 are no texts'
said 'broken: line 3'
said 'shattered: line 2'
said "  copy such a text again, whole, from where it was written; 'zbk look' says how far it makes sense"
said 'the other 4 are enough, since k = 4'
# four others that are of two boards, or of two files, are not enough
try 1 gather broken kept/board-1.txt kept/board-1.txt kept/board-3.txt kept/board-3.txt -o none
said 'of 5 texts given, one is no text'
unsaid 'are enough'
try 1 gather broken kept/board-1.txt kept/board-3.txt kept/board-4.txt first/board-5.txt -o none
unsaid 'are enough'
# every text with one byte of its first lines altered is refused, or is another text: no row of the table is that of the text itself
mkdir bytes
awk '{ text = text $0 "\n" }
    NR == 6 { first = length(text) }
    END {
        split("0 1 2 3 4 5 6 7 8 9 a n = - x", others, " ")
        others[16] = " "
        others[17] = "\n"
        for (place = 1; place <= first; place++)
            for (i = 1; i <= 17; i++)
                if (substr(text, place, 1) != others[i]) {
                    name = "bytes/board-" count++ ".txt"
                    printf "%s%s%s", substr(text, 1, place - 1), others[i], substr(text, place + 1) >name
                    close(name)
                }
    }' kept/board-5.txt
try 0 look kept/board-5.txt
sed -n '2s/^[^ ]* *//p' "$own/out" | tr -s ' ' >"$own/row"
try 1 look bytes
sed -n 's/^bytes[^ ]* *//p' "$own/out" | tr -s ' ' >"$own/rows"
[ "$(wc -l <"$own/rows")" -eq "$(find bytes -type f | wc -l)" ] || fail "$what: rows are missing"
[ "$(wc -l <"$own/rows")" -gt 500 ] || fail "$what: too few texts"
if grep -qxF -f "$own/row" "$own/rows"; then fail "$what: an altered text is taken as the text itself"; fi
grep -q '^not readable: line 1, place 3: ' "$own/rows" || fail "$what: no place is told"
grep -q '^5 9 4 6 2 ' "$own/rows" || fail "$what: no other text is told"

# ---- texts of several files
awk 'BEGIN { for (i = 0; i < 300; i++) printf "article %d: none\n", i }' >other
try 0 spread other others -n 8 -k 4 -d 6 -r 2
try 0 spread stock wider -n 9 -k 4 -d 6 -r 2
for mixed in others/board-2.txt wider/board-2.txt first/board-2.txt; do
    try 1 gather kept/board-1.txt $mixed kept/board-3.txt kept/board-4.txt -o none
    said 'MIXED (13): the texts are of 2 files'
    said ": kept/board-1.txt; kept/board-3.txt; kept/board-4.txt"
    said ": $mixed"
    # before COUNT and REPEAT, after TEXT
    try 1 gather kept/board-2.txt $mixed -o none
    said 'MIXED (13)'
    try 1 gather kept/board-2.txt $mixed broken -o none
    said 'TEXT (12)'
    try 0 look kept/board-1.txt $mixed
    out 'the texts are of several files'
done

# ---- texts that disagree: a digit is another one
cp kept/board-2.txt altered
alter altered
try 0 look altered
try 1 gather altered kept/board-1.txt kept/board-3.txt kept/board-4.txt -o none
said 'DISAGREE (10): no file has the shares of boards 2, 1, 3 and 4'
said 'with two texts more it can be told which'
# the first byte of board 2's share is seen by board 1 alone of these
try 1 gather altered kept/board-1.txt kept/board-3.txt kept/board-4.txt kept/board-7.txt -o none
said 'DISAGREE (10): no file has the shares of boards 2, 1, 3, 4 and 7: if one alone is wrong, it is one of these; '
said 'one of these; with a text more it can be told which'
# of six or more it is named, wherever it stands, and the file is that of the others; board 0 too
cp kept/board-0.txt altered0
alter altered0
for order in 'altered kept/board-1.txt kept/board-3.txt kept/board-4.txt kept/board-7.txt kept/board-5.txt' \
    'kept/board-1.txt kept/board-3.txt kept/board-4.txt kept/board-7.txt altered kept/board-0.txt' \
    'kept/board-1.txt kept/board-3.txt kept/board-4.txt kept/board-7.txt kept/board-0.txt altered' \
    'kept/board-1.txt kept/board-3.txt altered kept/board-7.txt kept/board-0.txt kept/board-6.txt kept/board-5.txt kept/board-4.txt' \
    'kept/board-1.txt kept/board-3.txt kept/board-7.txt kept/board-0.txt kept/board-6.txt kept/board-5.txt kept/board-4.txt altered'; do
    # shellcheck disable=SC2086
    try 0 gather $order
    whole "$own/out" stock
    # shellcheck disable=SC2086
    said "zbk: altered does not fit the other $(($(set -- $order && echo $#) - 1)) texts, which agree: if one text alone is wrong, it is this one; "
    said "this one; $(wc -c <stock) bytes from boards "
    # shellcheck disable=SC2086
    try 0 gather $order --quiet -o odd
    whole odd stock
    said 'zbk: altered does not fit the other'
    rm odd
done
try 0 gather kept/board-1.txt altered0 kept/board-3.txt kept/board-4.txt kept/board-7.txt kept/board-2.txt
whole "$own/out" stock
said 'zbk: altered0 does not fit the other 5 texts, which agree: if one text alone is wrong, it is this one; '
said "this one; $(wc -c <stock) bytes from boards 1, 2, 3, 4 and 7"
# each digit of a share: five texts show it, six name it; four show it at some digits only, and else give another file
share=$(sed -n 's/^data=//p' kept/board-2.txt | cut -c 1-26)
shown=0 missed=0
for place in $(seq ${#share}); do
    digit=$(printf %s "$share" | cut -c "$place")
    other=$(printf %s "$digit" | tr 0123456789abcdef 123456789abcdef0)
    sed "s/^\(data=.\{$((place - 1))\}\)./\1$other/" kept/board-2.txt >digit
    try 1 gather digit kept/board-1.txt kept/board-3.txt kept/board-4.txt kept/board-7.txt -o none
    said 'DISAGREE (10): '
    try 0 gather kept/board-1.txt digit kept/board-3.txt kept/board-4.txt kept/board-7.txt kept/board-6.txt
    whole "$own/out" stock
    said 'zbk: digit does not fit the other 5 texts, which agree'
    if "$zbk" gather digit kept/board-1.txt kept/board-3.txt kept/board-4.txt >"$own/out" 2>"$own/said"; then
        missed=$((missed + 1))
        said 'none is left to check them'
        ! cmp -s "$own/out" stock || fail 'four texts of which one is wrong gave the file'
    else
        shown=$((shown + 1))
    fi
done
[ "$shown" -gt 3 ] && [ "$missed" -gt 3 ] || fail "a wrong digit among four texts: shown at $shown, not at $missed"
cp kept/board-6.txt altered6
alter altered6
try 1 gather altered altered6 kept/board-0.txt kept/board-1.txt kept/board-3.txt kept/board-4.txt -o none
said 'DISAGREE (10): the texts of boards 2, 6, 0, 1, 3 and 4 do not agree, whichever one of them is left out'
# also where one of the two is behind the first six, and where there are eight
try 1 gather altered kept/board-0.txt kept/board-1.txt kept/board-3.txt kept/board-4.txt kept/board-7.txt altered6 -o none
said 'DISAGREE (10): the texts of boards 2, 0, 1, 3, 4, 7 and 6 do not agree, whichever one of them is left out'
try 1 gather kept/board-0.txt kept/board-1.txt kept/board-3.txt kept/board-4.txt kept/board-7.txt kept/board-5.txt altered altered6 -o none
said 'do not agree, whichever one of them is left out'
# where there are not so many boards, no more texts are asked for
try 0 spread stock three -n 3 -k 2 -d 2 -r 1
alter three/board-0.txt
try 1 gather three -o none
said 'DISAGREE (10): no file has the shares of boards 0 to 2: if one alone is wrong, it is one of these'
unsaid 'it can be told which'
try 0 gather three/board-1.txt three/board-2.txt
whole "$own/out" stock
said 'zbk: 2 texts fit together, and none is left to check them'
unsaid 'would show'
# of just k texts one at fault shows at some places of its share, as at its second byte here
sed -e 's/^\(data=..\)f/\10/' -e t -e 's/^\(data=..\)./\1f/' three/board-1.txt >second
try 1 gather second three/board-2.txt -o none
said 'DISAGREE (10): no file has the shares of boards 1 and 2'
unsaid 'it can be told which'
[ ! -e none ] || fail "$what: it wrote a file"

# ---- look
try 0 look kept
out 'text              board  n  k  d  r  points  length  stripes  share'
out "kept/board-7.txt      7  8  4  6  2  0 to 7    $(wc -c <stock)      $((pairs / 13))   $pairs"
out "boards 0 to 7 of one file, as far as they say: 4 are enough; 'zbk check' sees whether they agree"
try 0 look first/board-0.txt first/board-5.txt
out '1 to 8'
out 'boards 0 and 5 of one file: 2 more of its 8 boards are needed'
try 1 look kept/board-0.txt broken kept/board-1.txt
out 'broken            not readable: line 3'
out '1 text not readable'
# how far a text that is none makes sense: the line and the place, the line up to there, and what comes then
# sense SED SAID [TEXT]: of a text edited by sed this is said
sense() {
    sed "$1" "${3:-kept/board-2.txt}" >broken
    try 1 look broken
    out "        it makes sense up to $2"
}
sense 's/^n=8/n=33/' 'line 1, place 3: "n=3"; then comes "3"'
sense 's/^n=8/n=08/' 'line 1, place 2: "n="; then comes "08"'
sense 's/^n=8/n=1/' 'line 1, place 3: "n=1"; then comes "\n"'
sense 's/$/\r/' 'line 1, place 3: "n=8"; then comes "\r"'
sense '2d' 'the end of line 1: "n=8"; then comes "d=6"'
sense 's/^k=4/k=8/' 'line 2, place 2: "k="; then comes "8"'
sense 's/^k=4/k=7/' 'line 3, place 2: "d="; then comes "6"'
sense 's/^d=6/d=3/' 'line 3, place 2: "d="; then comes "3"'
sense 's/^r=2/r=3/' 'line 4, place 2: "r="; then comes "3"'
sense 's/^node=2/nose=2/' 'line 5, place 2: "no"; then comes "se=2"'
sense 's/^node=2/node=8/' 'line 5, place 5: "node="; then comes "8"'
sense 's/^length=.*/length=163841/' 'line 6, place 12: "length=16384"; then comes "1"'
sense 's/^length=.*/length=65"\\\t/' 'line 6, place 9: "length=65"; then comes "\"\\\t"'
sense 's/^length=.*/length=0/' 'line 7, place 5: "data="; then comes "'
sense '6a points=0001020304050607' 'line 7, place 22: "points=000102030405060"; then comes "7"'
sense 's/^points=01020304/points=01020301/' 'line 7, place 14: "points=0102030"; then comes "105060708"' $of_first
sense 's/^points=0102/points=0A02/' 'line 7, place 8: "points=0"; then comes "A02030405060708"' $of_first
sense 's/^points=0102/points=02/' 'line 7, place 21: "points=02030405060708"; then comes "\n"' $of_first
sense 's/^points=.*/size=3/' "the end of line 6: \"length=$(wc -c <stock)\"; then comes \"size=3\"" $of_first
sense 's/^data=..../data=00\xef0/' 'line 7, place 7: "data=00"; then comes "\xEF0'
sense 's/^data=/data:/' 'line 7, place 4: "data"; then comes ":'
sense 's/^data=/data=00/' "line 7, place $((5 + digits)): \"data=00"
out "; then comes \"$(sed -n 's/^data=.*\(..\)$/\1/p' kept/board-2.txt)\""
# of a whole text nothing is said, nor of an empty one; one that is cut short is told, wherever it is cut
: >broken
try 1 look kept/board-2.txt broken
out 'broken            not readable: it is empty'
if grep -q 'makes sense' "$own/out"; then fail "$what: it said how far it makes sense"; fi
bytes=1
while [ $bytes -lt 60 ]; do
    head -c $bytes kept/board-2.txt >broken
    try 1 look broken
    out '        all of it makes sense; it is cut short behind '
    head -c $bytes $of_first >broken
    try 1 look broken
    out '        all of it makes sense; it is cut short behind '
    bytes=$((bytes + 1))
done
out 'behind the end of line 7: "points=0102030405060708"'
head -n 6 kept/board-2.txt >broken
try 1 look broken
out "behind the end of line 6: \"length=$(wc -c <stock)\""
head -c $(($(wc -c <kept/board-2.txt) - 1)) kept/board-2.txt >broken
try 1 look broken
out "behind line 7, place $((5 + digits)): \"data="
# bytes behind a whole text, and before it
for more in '\n:\n' 'x:x' '\000end\n:\x00end'; do
    # shellcheck disable=SC2059 # the format is the bytes
    { cat kept/board-2.txt && printf "${more%%:*}"; } >broken
    try 1 look broken
    out '        it is a whole text up to the end of line 7: "data='
    out "; then comes \"${more#*:}\""
done
printf '\357\273\277' | cat - kept/board-2.txt >broken
try 1 look broken
out '        nothing of it makes sense: it begins with "\xEF\xBB\xBFn=8"'
# of several texts in a file lines are counted from the first
{ cat kept/board-2.txt && printf 'n=8\nk=x'; } >broken
try 1 look broken
out 'broken, text 2  not readable: line 9, place 3'
out '                it makes sense up to line 9, place 2: "k="; then comes "x"'
head -c 9 kept/board-2.txt >broken
# a file that cannot be read has a row, and the others have theirs
try 1 look kept/board-0.txt absent empty kept/board-1.txt
out 'kept/board-0.txt      0  8'
out 'absent            not readable: no such file'
out 'empty             not readable: it has no texts board-0.txt and so on'
out 'kept/board-1.txt      1  8'
out '2 texts not readable'
out 'boards 0 and 1 of one file: 2 more of its 8 boards are needed'
[ ! -s "$own/said" ] || fail "$what: it said something"
mkdir odd odd/board-1.txt
cp kept/board-0.txt kept/board-2.txt odd
try 1 look odd
out 'odd/board-0.txt      0  8'
out 'odd/board-1.txt  not readable: is a directory'
out 'odd/board-2.txt      2  8'
head -c 17000000 /dev/zero >huge
try 1 look huge
out 'huge  not readable: it is longer than all texts of a file'
try 1 gather huge kept -o none
said 'TEXT (12): of 9 texts given, one is no text'
said 'huge: it is longer than all texts of a file'
rm huge

# ---- check: whether texts agree
# stripes of 13 bytes, 26 digits: wrong TEXT STRIPE DIGIT: this digit of a stripe is another one
stripes=$((pairs / 13))
wrong() {
    before=$(($2 * 26 + $3))
    digit=$(sed -n "s/^data=.\{$before\}\(.\).*/\1/p" "$1" | tr 0123456789abcdef 123456789abcdef0)
    sed "s/^\(data=.\{$before\}\)./\1$digit/" "$1" >"$own/altered"
    cat "$own/altered" >"$1"
}
# just LINE..: just these lines are written
just() {
    printf '%s\n' "$@" | diff - "$own/out" >&2 || fail "$what: it wrote something else"
    [ ! -s "$own/said" ] || fail "$what: it said something"
}
try 0 check kept
just '8 texts agree; one that is wrong would show; boards 0 to 7'
try 0 check kept/board-3.txt kept/board-1.txt kept/board-0.txt kept/board-7.txt
just '4 texts fit together, and none is left to check them: one more would show whether one of them is wrong, two more which; boards 0, 1, 3 and 7'
try 1 check kept/board-3.txt kept/board-1.txt
just '2 texts of boards 1 and 3 fit each other two by two; k = 4 are needed to say more, 2 more'
cat kept/board-?.txt >all
"$zbk" check - <all >"$own/out" 2>"$own/said" || fail 'check -'
just '8 texts agree; one that is wrong would show; boards 0 to 7'
for texts in '0 kept' '1 kept/board-0.txt' '1 kept altered'; do
    # shellcheck disable=SC2086
    try ${texts%% *} check ${texts#* } --quiet
    [ ! -s "$own/out" ] || fail "$what: it wrote something"
    [ ! -s "$own/said" ] || fail "$what: it said something"
done
# two are wrong, each in a stripe of its own, and one of them in the last, which is not full: each is named
rm -rf worn
cp -r kept worn
wrong worn/board-2.txt 5 9
wrong worn/board-5.txt 9 15
wrong worn/board-5.txt 10 0
wrong worn/board-5.txt 11 25
wrong worn/board-5.txt $((stripes - 1)) 3
try 1 check worn
out '8 texts of boards 0 to 7 do not agree'
out 'stripe by stripe, if at most 2 of the 8 are wrong in each:'
out "  worn/board-2.txt is wrong in 1 of $stripes: stripe 5"
out "  worn/board-5.txt is wrong in 4 of $stripes: stripes 9 to 11 and $((stripes - 1))"
[ "$(grep -c 'is wrong in [0-9]' "$own/out")" -eq 2 ] || fail "$what: it named others"
out 'two by two, in how many stripes they do not fit:'
# six tell one in each stripe, five show that something is wrong, and where
try 1 check worn/board-[0-5].txt
out 'stripe by stripe, if at most 1 of the 6 is wrong in each:'
out "  worn/board-2.txt is wrong in 1 of $stripes: stripe 5"
out "  worn/board-5.txt is wrong in 4 of $stripes: stripes 9 to 11 and $((stripes - 1))"
try 1 check worn/board-[0-4].txt
out 'not all are right in stripe 5; 6 texts can tell'
if grep -q 'is wrong in' "$own/out"; then fail "$what: it named one"; fi
# two in one stripe: eight tell both, seven neither
wrong worn/board-5.txt 5 0
try 1 check worn
out "  worn/board-2.txt is wrong in 1 of $stripes: stripe 5"
out "  worn/board-5.txt is wrong in 5 of $stripes: stripes 5, 9 to 11 and $((stripes - 1))"
try 1 check worn/board-[0-6].txt
out 'it cannot be told which are wrong in stripe 5'
out "  worn/board-5.txt is wrong in 4 of $stripes: stripes 9 to 11 and $((stripes - 1))"
if grep -q 'board-2.txt is wrong' "$own/out"; then fail "$what: it named one that it cannot know"; fi
# each digit of a stripe: six texts name the one, in its stripe
for place in $(seq 0 25); do
    cp kept/board-2.txt digit
    wrong digit 7 "$place"
    try 1 check digit kept/board-1.txt kept/board-3.txt kept/board-4.txt kept/board-6.txt kept/board-7.txt
    out "  digit is wrong in 1 of $stripes: stripe 7"
    [ "$(grep -c 'is wrong in [0-9]' "$own/out")" -eq 1 ] || fail "$what: it named others"
done
# texts of two robots fall into their groups, however many there are of each; gather says it too
tr 'a-y' 'b-z' <stock >stock2
try 0 spread stock2 second-robot -n 8 -k 4 -d 6 -r 2
groups='two by two they fall into groups'
for of_second in '3 6' '1 3 6' '0 1 4 5'; do
    rm -rf mingled
    cp -r kept mingled
    of_first=
    names=
    for board in 0 1 2 3 4 5 6 7; do
        case " $of_second " in
        *" $board "*)
            cp second-robot/board-$board.txt mingled
            names="$names; mingled/board-$board.txt"
            ;;
        *) of_first="$of_first; mingled/board-$board.txt" ;;
        esac
    done
    try 1 check mingled
    out "$groups; none of one fits any of another:"
    out "  fit each other: ${of_first#; }"
    out "  fit each other: ${names#; }"
    try 1 gather mingled -o none
    said 'DISAGREE (10): the texts of boards 0 to 7 do not agree, whichever one of them is left out'
    said "; $groups, as texts of several files do"
    said "  fit each other: ${of_first#; }"
    said "  fit each other: ${names#; }"
done
of_first=first/board-2.txt
# also fewer than k of each, and where no two fit
try 1 check mingled/board-0.txt mingled/board-2.txt mingled/board-1.txt
out '3 texts of boards 0 to 2 do not agree'
out '  fit each other: mingled/board-0.txt; mingled/board-1.txt'
out '  fits none: mingled/board-2.txt'
awk 'BEGIN { srand(1) } { gsub(/[0-9]/, "7"); print }' stock >stock3
try 0 spread stock3 third-robot -n 8 -k 4 -d 6 -r 2
try 1 check kept/board-0.txt second-robot/board-1.txt third-robot/board-2.txt
out '  fits none: third-robot/board-2.txt'
# with k = 2 two texts fit just where these two give a file, whichever digit is another one
try 0 spread stock five -n 5 -k 2 -d 3 -r 2
fitting=0 apart=0
for place in $(seq 0 13); do
    cp five/board-0.txt digit
    digit=$(sed -n "s/^data=.\{$place\}\(.\).*/\1/p" digit | tr 0123456789abcdef 123456789abcdef0)
    sed "s/^\(data=.\{$place\}\)./\1$digit/" five/board-0.txt >digit
    row=0
    for board in 1 2 3 4; do
        if "$zbk" gather digit five/board-$board.txt >"$own/out" 2>"$own/said"; then
            row=$row,0
            fitting=$((fitting + 1))
        else
            row=$row,1
            apart=$((apart + 1))
        fi
    done
    try 1 check digit five/board-[1-4].txt --json
    out "{\"text\":\"digit\",\"board\":0,\"wrong_stripes\":[0],\"misfit_stripes\":[$row]}"
done
[ "$fitting" -gt 3 ] || fail "a wrong digit that one other text does not show: $fitting times"
[ "$apart" -gt 3 ] || fail "a wrong digit that one other text shows: $apart times"
# two of one board: the same one is told, another one does not fit
try 0 check kept kept/board-3.txt
out '8 texts agree'
out '  kept/board-3.txt is the same as kept/board-3.txt'
try 1 check kept second-robot/board-3.txt
out '9 texts of boards 0 to 7 do not agree'
out '  fits none: second-robot/board-3.txt'
out '  second-robot/board-3.txt is wrong in'
# bytes that are no text, files that cannot be read, and texts of several files
sed 's/$/\r/' kept/board-2.txt >broken
try 1 check kept/board-[0134].txt broken absent
out 'broken is not readable: line 1, place 4: expected a digit or the end of the line, found a carriage return (byte 0D)'
out "    'zbk tidy' makes it a text: 7 line ends made a line feed"
out 'absent is not readable: no such file'
# where tidying does not help, what does is said; not of a file that is not there
if grep -q 'copy such a text again' "$own/out"; then fail "$what: it asks for another copy"; fi
head -n 7 kept/board-2.txt | head -c 200 >cut
try 1 check kept/board-[0134].txt cut
out 'cut is not readable: line 7, place '
out 'copy such a text again, whole, from where it was written'
rm cut
out '4 texts fit together'
try 1 check kept wider/board-0.txt
out 'the texts are of 2 files'
out "n=8 k=4 d=6 r=2 points 0 to 7 length=$(wc -c <stock):"
out '8 texts agree; one that is wrong would show; boards 0 to 7'
out '1 text of board 0; k = 4 are needed to say more, 3 more'
# where there are no k + 2 boards
try 1 check three
out "not all are right in stripe 0"
if grep -q 'can tell' "$own/out"; then fail "$what: it asked for more texts than there are boards"; fi
# as JSON
try 0 check three/board-1.txt three/board-2.txt --json
just "{\"agree\":true,\"files\":[{\"agree\":true,\"enough\":true,\"checked\":false,\"n\":3,\"k\":2,\"d\":2,\"r\":1,\"points\":[0,1,2],\
\"length\":$(wc -c <stock),\"stripes\":$((($(wc -c <stock) + 5) / 6)),\
\"texts\":[{\"text\":\"three/board-1.txt\",\"board\":1,\"wrong_stripes\":[],\"misfit_stripes\":[0,0]},\
{\"text\":\"three/board-2.txt\",\"board\":2,\"wrong_stripes\":[],\"misfit_stripes\":[0,0]}],\
\"copies\":[],\"groups\":[[0,1]],\"told_if_wrong_at_most\":0,\"untold_stripes\":[]}],\"unreadable\":[]}"
try 1 check worn broken --json
out '{"agree":false,"files":[{"agree":false,"enough":true,"checked":false,"n":8,'
out "{\"text\":\"worn/board-5.txt\",\"board\":5,\"wrong_stripes\":[5,9,10,11,$((stripes - 1))],"
out '"groups":null,"told_if_wrong_at_most":2,"untold_stripes":[]}],'
out '"unreadable":[{"text":"broken","why":"line 1, place 4: '
out '"tidy":"7 line ends made a line feed"}]}'
try 0 look kept/board-3.txt --json
just "[{\"text\":\"kept/board-3.txt\",\"readable\":true,\"board\":3,\"n\":8,\"k\":4,\"d\":6,\"r\":2,\"points\":[0,1,2,3,4,5,6,7],\
\"length\":$(wc -c <stock),\"stripes\":$stripes,\"share\":$pairs}]"
try 1 look broken absent --json
out '[{"text":"broken","readable":false,"why":"line 1, place 4: '
out '"sense":"it makes sense up to line 1, place 3: \"n=8\"; then comes \"\\r\"","tidy":"7 line ends made a line feed"},'
out '{"text":"absent","readable":false,"why":"no such file or directory","sense":null,"tidy":null}]'
if command -v python3 >/dev/null; then
    for words in 'check worn broken' 'look worn broken absent' 'sizes 3' 'sizes -n 8 -k 4 -d 6 -r 2 --length 9'; do
        # shellcheck disable=SC2086
        "$zbk" $words --json 2>/dev/null | python3 -m json.tool >/dev/null 2>"$own/said" || fail "zbk $words --json: no JSON"
    done
else
    echo "skipped a reader of JSON: python3 is not on this machine"
fi
passed=$((passed + 2))

# ---- tidy: what mail, editors and other machines do to texts is undone, and said; no digit is altered
# tidied SAID FILE: `untidy` is refused with the remedy, and tidied to FILE
tidied() {
    try 1 gather untidy kept/board-1.txt kept/board-3.txt kept/board-4.txt -o none
    said 'TEXT (12): of 4 texts given, one is no text'
    said "    'zbk tidy' makes it a text: $1"
    unsaid 'copy such a text again'
    try 1 look untidy
    out "        'zbk tidy' makes it a text: $1"
    rm -f tidied
    try 0 tidy untidy -o tidied
    said "zbk: untidy: $1"
    whole tidied "$2"
    "$zbk" tidy - <untidy >"$own/out" 2>"$own/said" || fail "tidy -"
    whole "$own/out" "$2"
    passed=$((passed + 1))
}
# wide: as UTF-16, the lower byte first
wide() { tr '\n' '#' | sed 's/./&\x00/g' | tr '#' '\n'; }
text=kept/board-2.txt
sed 's/$/\r/' $text >untidy
tidied '7 line ends made a line feed' $text
tr '\n' '\r' <$text >untidy
tidied '7 line ends made a line feed' $text
{ printf '\357\273\277' && cat $text; } >untidy
tidied 'byte order mark left out' $text
{ printf '\377\376' && wide <$text; } >untidy
tidied 'UTF-16 made single bytes; byte order mark left out' $text
wide <$text >untidy
tidied 'UTF-16 made single bytes' $text
{ printf '\376\377\000' && wide <$text | head -c -1; } >untidy
tidied 'UTF-16 made single bytes; byte order mark left out' $text
sed 's/$/  /; s/^n=/ n =\t/' $text >untidy
tidied '17 blanks left out' $text
sed 's/$/\n/' $text >untidy
tidied '7 empty lines left out' $text
tr '[:lower:]' '[:upper:]' <$text >untidy
tidied "$(tr -cd '[:upper:]' <untidy | wc -c | tr -d ' ') capitals made small" $text
fold -w 76 $text >untidy
tidied "$(($(wc -l <untidy) - 7)) broken lines joined" $text
sed '/^points=/s/0304/03\n04/' $of_first >untidy
tidied '1 broken line joined' $of_first
head -c -1 $text >untidy
tidied 'line feed put behind the last line' $text
sed 's/^\(data=..\)/\1 /' $text >untidy
tidied '1 blank left out' $text
# all at once, and several texts in a file
cat $text kept/board-6.txt >several
{ printf '\377\376' && fold -w 60 several | tr '[:lower:]' '[:upper:]' | sed 's/$/ \r/' | wide; } >untidy
rm -f tidied
try 0 tidy untidy -o tidied
whole tidied several
said 'UTF-16 made single bytes; byte order mark left out; '
# one that is tidy already stays as it is
try 0 tidy $text
whole "$own/out" $text
said "zbk: $text: tidy already"
try 0 tidy $text -q
[ ! -s "$own/said" ] || fail "$what: it said something"
# no digit of a count is joined, cut or made: refused, with the place, and nothing is written; tidy is no remedy then
rm -f tidied
for edit in 's/^length=\(.\)/length=\1 /' 's/^length=\(.\)/length=\1\n/' 's/^n=8/n=08/' 's/^n=8/n=/' 's/^node=2/node=Z/' \
    's/^data=./data=O/' 's/^data=./data=/' 's/^data=./data=-/' '2d' 's/^k=4/k:4/' 's/^d=6/d=6,/' 's/^length=/len gth=/'; do
    sed "$edit" $text | sed 's/$/\r/' >untidy
    try 1 tidy untidy -o tidied
    said 'TEXT (12): nothing is written'
    said 'untidy, as tidied: line '
    said 'copy it again from where it was written'
    try 1 gather untidy kept/board-1.txt kept/board-3.txt kept/board-4.txt -o none
    unsaid 'zbk tidy'
    [ ! -e tidied ] || fail "$what: it wrote a file"
done
sed 's/^length=\(.\)/length=\1 /' $text >untidy
try 1 tidy untidy
said "untidy, as tidied: line 6, place 9: expected a digit or the end of the line, found ' '"
[ ! -s "$own/out" ] || fail "$what: it wrote something"
printf '\303\251' | cat - $text >untidy
try 1 tidy untidy
# all or none
sed 's/$/\r/' $text >crlf
try 1 tidy crlf untidy -o tidied
try 1 tidy crlf untidy --folder tidied
[ ! -e tidied ] || fail "$what: it wrote something"
try 1 tidy crlf -o $text
said "$text is there already; --force replaces it"
# a whole folder, into another one: each under its board's name
mkdir mail
for board in 0 1 2 3 4 5 6 7; do fold -w 70 kept/board-$board.txt | sed 's/$/\r/' >"mail/BOARD-$board.TXT"; done
try 1 gather mail -o none
said 'TEXT (12): of 8 texts given, 8 are no texts'
try 0 tidy mail --folder tidied
# shellcheck disable=SC2086
is tidied $eight
diff -r tidied kept >&2 || fail "$what: other texts"
try 1 tidy mail --folder tidied
said 'tidied/board-0.txt is there already; --force replaces it'
try 0 tidy mail --folder tidied --force
try 1 tidy mail crlf --folder twice
said 'REPEAT (6): two texts are of board 2: mail/BOARD-2.TXT; crlf'
[ ! -e twice ] || fail "$what: a folder was made"
# in rebuild too the remedy is named
cp mail/BOARD-2.TXT tidied/board-2.txt
rm tidied/board-7.txt
try 0 spread stock nine -n 9 -k 4 -d 6 -r 2
sed 's/$/\r/' nine/board-2.txt >"$own/altered"
cp "$own/altered" nine/board-2.txt
try 0 rebuild nine --fresh 8 --force
said 'nine/board-2.txt is not used: line 1, place 4'
said "    'zbk tidy' makes it a text: 7 line ends made a line feed"
rm -r tidied mail nine

# ---- names: in any case, as copies are named, of any bytes; what is passed over in a folder is named
mkdir names
cp kept/board-0.txt names/BOARD-0.TXT
cp kept/board-1.txt 'names/Board-1 (1).txt'
cp kept/board-2.txt kept/board-5.txt names
cp kept/board-2.txt 'names/board-2 (3).txt'
cp kept/board-3.txt names/board-03.txt
cp kept/board-4.txt "names/$(printf 'board-4\377.txt')"
echo note >names/notes.md
echo note >names/.hidden
try 0 gather names -o named
whole named stock
said 'zbk: passed over in names, not named as board-0.txt and so on: board-03.txt; board-4\xFF.txt; notes.md'
said 'zbk: passed over: names/board-2 (3).txt is the same as names/board-2.txt'
unsaid 'hidden'
said 'from boards 0, 1, 2 and 5'
try 0 gather names -o named -f -q
[ ! -s "$own/said" ] || fail "$what: it said something"
try 0 look names
out 'names/BOARD-0.TXT          0  8'
out 'names/Board-1 (1).txt      1  8'
said 'zbk: passed over in names'
for command in check tidy; do
    try 0 $command names
    said 'notes.md'
done
for number in 1 2 3 4 5 6 7 8 9; do : >names/note-$number; done
try 0 check names
said 'note-1; note-2; note-3; note-4; note-5; note-6; and 4 more'
rm names/note*
# a copy that is another text is not passed over
cp second-robot/board-2.txt 'names/board-2 (3).txt'
try 1 gather names -o none
said "REPEAT (6): two texts are of board 2: names/board-2.txt; names/board-2 (3).txt; 'zbk check' says which fits the others"
try 1 check names
out '  fits none: names/board-2 (3).txt'
# rebuild replaces a text under the name that it has, and names what it does not use
rm -rf names
cp -r kept names
mv names/board-6.txt names/BOARD-6.TXT
mv names/board-7.txt names/BOARD-7.TXT
cp names/board-1.txt 'names/board-1 (1).txt'
try 1 rebuild names --fresh 7
said 'names/BOARD-7.TXT is there already; --force replaces it'
echo other >names/BOARD-7.TXT
cp kept/board-7.txt 'names/board-7 (1).txt'
try 0 rebuild names --fresh 7 --force --json
said 'names/board-1 (1).txt is not used: a copy of names/board-1.txt'
said 'names/board-7 (1).txt is not used: a text of board 7, which is rebuilt; move it away'
whole names/BOARD-7.TXT kept/board-7.txt
[ "$(cat "$own/out")" = "{\"rebuilt\":[{\"board\":7,\"text\":\"names/BOARD-7.TXT\",\"helpers\":[0,1,2,3,4,5],\"stand_ins\":[6],\
\"exchanges\":[]}],\"stripes\":$stripes,\"bytes_over_bus\":$((stripes * 13)),\
\"unused\":[{\"text\":\"names/board-7 (1).txt\",\"why\":\"a text of board 7, which is rebuilt; move it away\"},\
{\"text\":\"names/board-1 (1).txt\",\"why\":\"a copy of names/board-1.txt\"}]}" ] || fail "$what: other JSON"
try 0 rebuild names --fresh 7,1 --force
whole names/board-1.txt kept/board-1.txt
cp second-robot/board-2.txt 'names/board-2 (1).txt'
try 1 rebuild names --fresh 7 --force
said 'REPEAT (6): two texts are of board 2: names/board-2.txt; names/board-2 (1).txt'
# spread says which it does not replace
try 0 spread stock names -n 8 -k 4 -d 6 -r 2 --force
said 'names also has texts under other names, which are not replaced: names/board-1 (1).txt; names/board-2 (1).txt; names/BOARD-6.TXT; '
said '; names/BOARD-7.TXT; names/board-7 (1).txt'
rm -rf names
# any bytes: a file, a folder, an output, joined to its option and not
odd_name=$(printf 'b\377ck')
cp kept/board-1.txt "$odd_name"
try 0 gather "$odd_name" kept/board-2.txt kept/board-3.txt kept/board-4.txt -o "out$odd_name"
whole "out$odd_name" stock
for joined in "-oj$odd_name" "--output=j$odd_name"; do
    try 0 gather "$odd_name" kept/board-2.txt kept/board-3.txt kept/board-4.txt "$joined" -f
    whole "j$odd_name" stock
done
try 1 gather "$odd_name" kept/board-2.txt kept/board-3.txt kept/board-4.txt -o "out$odd_name"
said 'outb\xFFck is there already'
try 0 look "$odd_name"
out 'b\xFFck'
try 0 spread "out$odd_name" "dir$odd_name" -n 8 -k 4 -d 6 -r 2
out '8 texts in dirb\xFFck; any 4'
diff -r "dir$odd_name" kept >&2 || fail "$what: other texts"
try 0 rebuild "dir$odd_name" --fresh 3,4 -f
try 0 check "dir$odd_name"
try 1 gather "absent$odd_name"
said 'cannot read absentb\xFFck: no such file'
# what a terminal would obey is not said as it is
escape=$(printf 'a\033[2Jb')
try 1 gather "$escape"
said 'cannot read a\u{1b}[2Jb: no such file'
rm -rf "$odd_name" "out$odd_name" "j$odd_name" "dir$odd_name"

# ---- raw bytes do not go to a terminal
printf 'plain text, \303\251\n' >plain
{ printf '\033[2J' && head -c 100 /dev/zero; } >raw
try 0 spread plain plain.d -n 2 -k 1 -d 1 -r 1
try 0 spread raw raw.d -n 2 -k 1 -d 1 -r 1
if command -v script >/dev/null && script -qec true /dev/null >/dev/null 2>&1 </dev/null; then
    # at_terminal STATUS WORDS: the tool with a terminal as standard output; both outputs are in out
    at_terminal() {
        what="zbk $2, at a terminal"
        status=0
        script -qec "'$zbk' $2" /dev/null >"$own/out" 2>"$own/said" </dev/null || status=$?
        [ $status -eq "$1" ] || fail "$what: exit code $status, not $1"
        passed=$((passed + 1))
    }
    at_terminal 1 'gather raw.d'
    out 'zbk: standard output is a terminal, and these bytes are not plain text: name a file with -o, use a pipe, or give --force'
    if grep -q "$(printf '\033')" "$own/out"; then fail "$what: raw bytes"; fi
    at_terminal 0 'gather raw.d --force'
    grep -q "$(printf '\033')" "$own/out" || fail "$what: no bytes"
    at_terminal 0 'gather raw.d -o raw.back'
    whole raw.back raw
    at_terminal 0 'gather plain.d'
    out "$(printf 'plain text, \303\251')"
    at_terminal 1 'trial --file 1 9'
    out 'zbk: standard output is a terminal'
    at_terminal 0 'trial --file 1 9 --force'
    at_terminal 0 'trial --file 1 0'
else
    echo "skipped a terminal: script is not on this machine"
fi
try 0 gather raw.d
whole "$own/out" raw
rm -r plain plain.d raw.d

# ---- the manual page and the completion name every command and every option
try 0 --man
sed 's/\\-/-/g; s/\\f[BIR]//g; s/\\e/\\/g' "$own/out" >page
mv "$own/out" zbk.1
try 0 --completion bash
mv "$own/out" completion
for command in $commands; do
    sed -n "/^\.SS $command\$/,/^\.SS /p" page >section
    sed -n "s/^    $command) options='\(.*\)' ;;\$/\1/p" completion | tr ' ' '\n' >case
    "$zbk" "$command" --help >"$own/help"
    grep -oE '^  (-., |    )--[a-z-]+' "$own/help" | grep -oE -- '--?[a-zA-Z-]+' | sort -u >options
    [ "$(wc -l <options)" -ge 4 ] || fail "the help of $command: too few options"
    while read -r option; do
        grep -qE -- "^(-., )?$option( |\$)|^$option, " section || fail "the manual page has no $option of $command"
        grep -qxF -- "$option" case || fail "the completion has no $option of $command"
    done <options
    grep -qF "zbk $command" section || fail "the manual page has no usage of $command"
done
if command -v groff >/dev/null; then
    groff -man -Tascii -ww zbk.1 >page 2>"$own/said" || fail 'groff'
    [ ! -s "$own/said" ] || fail 'groff: the manual page'
    grep -q 'zbk - share texts' page || fail 'groff: the page has no name'
else
    echo "skipped groff: it is not on this machine"
fi
if command -v bash >/dev/null; then
    # offered WORDS..: what is offered for the last
    offered() {
        bash -c '. ./completion; COMP_WORDS=("$@"); COMP_CWORD=$(($# - 1)); _zbk; printf "%s\n" "${COMPREPLY[@]}"' bash "$@" >"$own/out" 2>"$own/said"
    }
    what='the completion'
    offered zbk ga
    just gather
    offered zbk --v
    just --version
    offered zbk gather --o
    just --output
    offered zbk rebuild shelf --fresh 2 --s
    just --stand-ins
    offered zbk help ti
    just tidy
    offered zbk gather boa
    just ''
else
    echo "skipped completion: bash is not on this machine"
fi
passed=$((passed + 8))

# ---- sizes: what they cost
try 0 sizes -n 8 -k 4 -d 6 -r 2 --length 6516
cat >"$own/due" <<'LINES'
sizes         n=8 k=4 d=6 r=2
a stripe      40 bytes of the file, 13 on each board
longest file  163840 bytes, 4096 stripes
may be lost   4 of 8 boards, and the file is read; with 6 left, boards are rebuilt
careful read  6 boards name one that is wrong
storage       2.60 times the file; the least for these n and k is 2.00
one rebuilt   0.33 of the file over the bus, from 6 helpers and 1 other
together      0.65 of the file over the bus for 2 boards; 1.25 where one fetches the file for all
this file     length 6516, stripes 163, share 2119, text at most 4438, helper packet 326, exchange packet 163, area 16952, bus for a board 2119
LINES
whole "$own/out" "$own/due"
try 0 sizes -n 32 -k 16 -d 24 -r 8 --json
out '{"n":32,"k":16,"d":24,"r":8,"share":55,"stripe":640,"longest":2621440,"may_be_lost":16,"careful_read":18,"storage":2.75,'
out ',"storage_least":2,"bus_one":0.0859,"bus_together":0.6875,"bus_together_fetched":1.4375}'
try 0 sizes -n 3 -k 2 -d 2 -r 1 --json --length 0
out '"careful_read":null,'
out '"file":{"length":0,"stripes":0,"share":0,"text_at_most":200,"helper_packet":0,"exchange_packet":0,"area":12,"bus_for_a_board":0}}'
try 0 sizes 2 --json
just '[{"n":2,"k":1,"d":1,"r":1,"share":2,"stripe":2}]'
try 1 sizes -n 8 -k 4 -d 6 -r 3
said 'SIZE (1): 6 helpers and 3 fresh boards are more than 8 boards'
try 1 sizes -n 2 -k 1 -d 1 -r 1 --length 8193
said 'LONG (3): 8193 bytes; the longest file for these sizes has 8192'

# ---- rebuild
head -c 9 kept/board-2.txt >broken
cp -r kept robot
rm robot/board-2.txt robot/board-5.txt
try 0 rebuild robot --fresh 2,5
out 'board 2 rebuilt: helpers 0, 1, 3, 4, 6 and 7; exchanges with 5'
out 'board 5 rebuilt: helpers 0, 1, 3, 4, 6 and 7; exchanges with 2'
out "$((stripes * 2 * 13)) bytes over the bus: $stripes stripes x 2 boards x 13 bytes"
diff -r robot kept >&2 || fail "$what: other texts"
# one board, with a stand-in; its text is there, so that it must be wanted
try 1 rebuild robot --fresh 3
said 'robot/board-3.txt is there already; --force replaces it'
rm robot/board-3.txt
try 0 rebuild robot --fresh 3
out 'board 3 rebuilt: helpers 0, 1, 2, 4, 5 and 6; stand-ins 7'
out "$((stripes * 13)) bytes over the bus: $stripes stripes x 1 board x 13 bytes"
try 0 rebuild robot --fresh 4 --helpers 7,6,5,3,2,1 --stand-ins 0 --force
out 'board 4 rebuilt: helpers 7, 6, 5, 3, 2 and 1; stand-ins 0'
try 0 rebuild robot --fresh 4 --stand-ins 1 --force
out 'board 4 rebuilt: helpers 0, 2, 3, 5, 6 and 7; stand-ins 1'
try 0 rebuild robot --fresh 1,0 --helpers 2,3,4,5,6,7 --helpers 7,6,5,4,3,2 -f
out 'board 0 rebuilt: helpers 7, 6, 5, 4, 3 and 2; exchanges with 1'
diff -r robot kept >&2 || fail "$what: other texts"
# boards 0 to 3 one after another, then the file from these alone
for two in 0,1 2,3; do
    rm "robot/board-${two%,*}.txt" "robot/board-${two#*,}.txt"
    try 0 rebuild robot --fresh $two
done
rm robot/board-4.txt robot/board-5.txt robot/board-6.txt robot/board-7.txt
try 0 gather robot
whole "$own/out" stock
try 1 rebuild robot --fresh 7
said 'DOWN (9): 6 helpers and 1 stand-in are needed beside the fresh boards, and there are texts of boards 0 to 3'
said "these are enough for 'zbk gather'"
# two are missing, and one is named: both can be
cp -r kept both
rm both/board-2.txt both/board-5.txt
try 1 rebuild both --fresh 2
said 'DOWN (9): 6 helpers and 1 stand-in are needed beside the fresh boards, and there are texts of boards 0, 1, 3, 4, 6 and 7; '
said 'all that are missing can be named together, --fresh 2,5'
try 0 rebuild both --fresh 2,5
diff -r both kept >&2 || fail "$what: other texts"
# three are missing, which is more than r
rm both/board-2.txt both/board-5.txt both/board-6.txt
try 1 rebuild both --fresh 2,5
said "these are enough for 'zbk gather'"
# robots of the first series, and of other points
for points in first-series 0a0b0c0d0e0f1011 FF00807f55aa1203; do
    rm -rf old
    try 0 spread stock old -n 8 -k 4 -d 6 -r 2 --points $points
    cp -r old new/old
    rm old/board-6.txt old/board-7.txt
    try 0 rebuild old --fresh 7,6
    diff -r old new/old >&2 || fail "$what: other texts"
    rm -rf new/old old/board-6.txt
    try 0 rebuild old --fresh 6
    try 0 gather old/board-7.txt old/board-6.txt old/board-0.txt old/board-1.txt
    whole "$own/out" stock
done
# refused, and nothing is written
rm -rf robot
cp -r kept robot
rm robot/board-2.txt
refused() {
    number=$1
    shift
    try 1 rebuild robot "$@"
    said "$number"
    [ ! -e robot/board-2.txt ] || fail "$what: it wrote a text"
}
refused 'COUNT (4): 3 fresh boards, and at most r = 2' --fresh 2,3,4
refused 'NODE (5): fresh board 8: there are boards 0 to 7' --fresh 2,8
refused 'REPEAT (6): board 2 is named fresh twice' --fresh 2,2
refused 'COUNT (4): 5 helpers are named, and 6 are needed' --fresh 2 --helpers 0,1,3,4,5
refused 'NODE (5): board 9 of the helpers' --fresh 2 --helpers 0,1,3,4,5,9
refused 'REPEAT (6): board 1 of the helpers' --fresh 2 --helpers 0,1,3,4,5,1
refused 'REPEAT (6): board 2 of the helpers' --fresh 2 --helpers 0,1,3,4,5,2
refused 'REPEAT (6): board 0 of the stand-ins' --fresh 2 --helpers 0,1,3,4,5,6 --stand-ins 0
refused 'COUNT (4): 2 stand-ins are named, and 1 are needed' --fresh 2 --stand-ins 6,7
refused 'DOWN (9): board 2 of the helpers has no text' --fresh 3 --helpers 0,1,2,4,5,6 --force
try 2 rebuild robot --fresh two
try 2 rebuild robot --fresh 2 --helpers 0,1,3,4,5,6 --helpers 0,1,3,4,5,6
try 1 rebuild nowhere --fresh 2
said 'cannot read the folder nowhere'
# a text that is none, or of another board, is not used; one that disagrees is named
cp -r wider robot9
rm robot9/board-2.txt
cp broken robot9/board-0.txt
try 0 rebuild robot9 --fresh 2
said 'robot9/board-0.txt is not used: line 3'
out 'board 2 rebuilt: helpers 1, 3, 4, 5, 6 and 7; stand-ins 8'
whole robot9/board-2.txt wider/board-2.txt
cp wider/board-4.txt robot9/board-0.txt
try 0 rebuild robot9 --fresh 2,1 -f
said 'robot9/board-0.txt is not used: it is the text of board 4'
cat wider/board-0.txt wider/board-3.txt >robot9/board-0.txt
try 0 rebuild robot9 --fresh 2,1 -f
said 'robot9/board-0.txt is not used: more than one text'
whole robot9/board-1.txt wider/board-1.txt
# one that cannot be read is not used either
cp wider/board-0.txt robot9/board-0.txt
rm robot9/board-3.txt
mkdir robot9/board-3.txt
try 0 rebuild robot9 --fresh 2 -f
said 'robot9/board-3.txt is not used: is a directory'
out 'board 2 rebuilt: helpers 0, 1, 4, 5, 6 and 7; stand-ins 8'
whole robot9/board-2.txt wider/board-2.txt
# where nothing can be said, exit codes are as ever, and what can be done is done
if [ -e /dev/full ]; then
    for mute in '1 gather absent' '2 turn' '0 rebuild robot9 --fresh 2 -f'; do
        what="zbk ${mute#??}, and nothing can be said"
        status=0
        rm -f robot9/board-2.txt
        # shellcheck disable=SC2086 # the options are words
        "$zbk" ${mute#??} >"$own/out" 2>/dev/full || status=$?
        [ $status -eq "${mute%% *}" ] || fail "$what: exit code $status"
        passed=$((passed + 1))
    done
    whole robot9/board-2.txt wider/board-2.txt
fi
# with d = k the packets of those that send do not show a text at fault: the others do
try 0 spread stock lone -n 5 -k 1 -d 1 -r 1
rm lone/board-4.txt
alter lone/board-0.txt
try 1 rebuild lone --fresh 4
said 'DISAGREE (10): lone/board-0.txt does not fit the other 3 texts, which agree: if one text alone is wrong, it is this one; '
said 'this one; name it with --fresh, or move it away'
is lone board-0.txt board-1.txt board-2.txt board-3.txt
cp altered6 robot/board-6.txt
refused 'DISAGREE (10): robot/board-6.txt does not fit the other 6 texts, which agree: if one text alone is wrong, it is this one; ' --fresh 2
cp others/board-6.txt robot/board-6.txt
refused 'MIXED (13)' --fresh 2

# ---- pipes
# shellcheck disable=SC2086
"$zbk" spread - - $sizes <stock >all 2>"$own/said" || fail 'spread to a pipe'
cat kept/board-?.txt | cmp -s - all || fail 'spread to a pipe: other texts'
"$zbk" gather - --quiet <all | cmp -s - stock || fail 'gather from a pipe'
cat kept/board-6.txt kept/board-1.txt | "$zbk" gather - kept/board-0.txt kept/board-3.txt --quiet | cmp -s - stock || fail 'gather from a pipe and files'
"$zbk" look - <all >"$own/out" || fail 'look at a pipe'
what='look -'
out 'standard input, text 8      7'
{ cat kept/board-6.txt && echo x; } | "$zbk" gather - 2>"$own/said" >"$own/out" && fail 'gather from a pipe: it ended with 0'
what='gather -'
said 'standard input: line 8, place 1'
"$zbk" sizes 32 2>"$own/said" | head -n 1 >"$own/out"
out 'n=2 k=1 d=1 r=1 share=2 stripe=2'
[ ! -s "$own/said" ] || fail 'an output that nobody reads: it said something'
# a report that nobody reads is no failure: the texts are written
for command in "spread stock unread $sizes" 'rebuild unread --fresh 2,5 --force'; do
    what="$command, and nobody reads the report"
    {
        # until the reader has gone
        trap '' PIPE
        while echo 2>/dev/null; do :; done
        status=0
        # shellcheck disable=SC2086 # the options are words
        "$zbk" $command 2>"$own/said" || status=$?
        echo $status >"$own/status"
    } | true
    [ "$(cat "$own/status")" -eq 0 ] || fail "$what: exit code $(cat "$own/status")"
    [ ! -s "$own/said" ] || fail "$what: it said something"
    diff -r unread kept >&2 || fail "$what: other texts"
done
passed=$((passed + 8))

# ---- lengths: none, the longest, one more
: >none
try 0 spread none hollow -n 2 -k 1 -d 1 -r 1
out 'the 0 bytes back'
try 0 gather hollow/board-1.txt -o hollow/back
whole hollow/back none
rm hollow/board-0.txt
try 0 rebuild hollow --fresh 0
out '0 bytes over the bus: 0 stripes x 1 board x 2 bytes'
head -c 8192 /dev/zero | tr '\000' 'z' >longest
try 0 spread longest full -n 2 -k 1 -d 1 -r 1
try 0 gather full/board-0.txt
whole "$own/out" longest
echo >>longest
try 1 spread longest over -n 2 -k 1 -d 1 -r 1
said 'LONG (3): longest has 8193 bytes; the longest file for these sizes has 8192, 4096 stripes of 2 bytes'
status=0
"$zbk" spread - over -n 2 -k 1 -d 1 -r 1 <longest 2>"$own/said" || status=$?
what='spread - over'
said 'LONG (3): standard input has more than 8192 bytes'
if [ $status -ne 1 ] || [ -e over ]; then fail 'a file that is too long: exit code, or a folder was made'; fi
# where work takes its time, how far it is is said: here a pipe takes no text before it is
mkdir slow
mkfifo slow/board-0.txt
: >"$own/said"
(
    tries=0
    until grep -q 'of 8 done' "$own/said" || [ $tries -eq 10 ]; do
        sleep 1
        tries=$((tries + 1))
    done
    exec cat slow/board-0.txt >"$own/slow"
) &
reader=$!
slow=yes
# shellcheck disable=SC2086
try 0 spread stock slow $sizes
slow=
said 'zbk: shares worked out, 8 of 8 done'
wait $reader
reader=
whole "$own/slow" kept/board-0.txt
whole slow/board-7.txt kept/board-7.txt
# the longest file of all, in one piece
awk 'BEGIN { for (i = 0; i < 507904; i++) printf "%07d\n", i * 7919 % 9999991 }' >longest
try 0 spread longest most -n 32 -k 31 -d 31 -r 1
try 0 gather most --quiet -o back -f
[ ! -s "$own/said" ] || fail "$what: it said something"
whole back longest
try 0 rebuild most --fresh 17 -f -q
[ ! -s "$own/said" ] || fail "$what: it said something"
rm most/board-0.txt
try 0 gather most -o back -f
whole back longest
echo >>longest
try 1 spread longest most -n 32 -k 31 -d 31 -r 1 -f
said 'the longest file for these sizes has 4063232, 4096 stripes of 992 bytes'
rm -rf most
# sizes and points that are not legal
for wrong in '33 4 6 2:33 boards are more than 32' '8 0 6 2:at least 1 board must be read' '8 4 6 0:at least 1 board is fresh' \
    '8 7 6 2:7 boards read are more than 6 helpers' '8 4 6 3:6 helpers and 3 fresh boards are more than 8 boards'; do
    # shellcheck disable=SC2086
    set -- ${wrong%%:*}
    try 1 spread stock over -n "$1" -k "$2" -d "$3" -r "$4"
    said "SIZE (1): ${wrong#*:}"
done
# numbers with more digits than a number holds are too great, like others
great=99999999999999999999999
try 1 spread stock over -n $great -k 4 -d 6 -r 2
said 'SIZE (1): 18446744073709551615 or more boards are more than 32'
try 1 spread stock over -n 8 -k $great -d 6 -r 2
said 'SIZE (1): 18446744073709551615 or more boards read are more than 6 helpers'
try 1 spread stock over -n 8 -k 4 -d $great -r $great
said 'SIZE (1): 18446744073709551615 or more helpers and'
try 1 share stock -n 8 -k 4 -d 6 -r 2 --board $great
said 'NODE (5): board 18446744073709551615 or more, but there are boards 0 to 7'
try 1 rebuild kept --fresh $great
said 'NODE (5): fresh board 18446744073709551615 or more: there are boards 0 to 7'
try 1 spread stock over -n 3 -k 1 -d 1 -r 1 --points 010201
said 'SIZE (1): a point stands twice'
[ ! -e over ] || fail "$what: a folder was made"

# ---- a whole round with 32 boards
awk 'BEGIN { for (i = 0; i < 4000; i++) printf "%d %d\n", i * 7919 % 10007, i }' >long
try 0 spread long wide -n 32 -k 16 -d 24 -r 8
cp -r wide wide.kept
for board in 0 2 4 6 8 10 12 14; do rm wide/board-$board.txt; done
try 0 rebuild wide --fresh 0,2,4,6,8,10,12,14
stripes=$((($(wc -c <long) + 639) / 640))
out "$((stripes * 8 * 55)) bytes over the bus: $stripes stripes x 8 boards x 55 bytes"
diff -r wide wide.kept >&2 || fail "$what: other texts"
for board in 16 18 20 22 24 26 28 30; do rm wide/board-$board.txt; done
try 0 rebuild wide --fresh 30,28,26,24,22,20,18,16
rm wide/board-?[13579].txt wide/board-[13579].txt
try 0 gather wide
whole "$own/out" long
is wide board-0.txt board-2.txt board-4.txt board-6.txt board-8.txt board-10.txt board-12.txt board-14.txt board-16.txt board-18.txt board-20.txt \
    board-22.txt board-24.txt board-26.txt board-28.txt board-30.txt
rm wide/board-30.txt
try 1 gather wide -o absent
said 'COUNT (4): 15 texts of'
# texts of an earlier, wider file are told
# shellcheck disable=SC2086
try 0 spread stock wide $sizes --force
said 'wide also has texts of another file: boards 8, 10, 12, 14, 16, 18, 20, 22, 24, 26 and 28'

# ---- files that cannot be written: whole or not at all
# shellcheck disable=SC2086
try 1 spread stock stock/shelf $sizes
said 'cannot make the folder stock/shelf'
# shellcheck disable=SC2086
try 1 spread stock stock $sizes
said 'stock'
mkdir -p blocked/board-5.txt
# shellcheck disable=SC2086
try 1 spread stock blocked $sizes --force
said 'cannot write blocked/board-5.txt: it is a folder'
is blocked board-5.txt
try 1 gather kept -o absent/back
said 'cannot write absent/back'
if [ -e /dev/full ]; then
    try 1 gather kept -o /dev/full
    said 'cannot write /dev/full: no space left'
    status=0
    "$zbk" gather kept >/dev/full 2>"$own/said" || status=$?
    what='gather to a full device'
    [ $status -eq 1 ] || fail "$what: exit code $status"
    said 'cannot write to standard output: no space left'
fi
# a file that grows too long for the limit
mkdir limited
status=0
# shellcheck disable=SC2086
(trap '' XFSZ && ulimit -f 1 && exec "$zbk" spread stock limited $sizes) >"$own/out" 2>"$own/said" || status=$?
what='spread with a limit on files'
[ $status -eq 1 ] || fail "$what: exit code $status"
said 'cannot write limited/board-0.txt: file too large'
[ -z "$(find limited -mindepth 1)" ] || fail "$what: something is left"
# folders that were made for it go again, and no others
mkdir mine
status=0
# shellcheck disable=SC2086
(trap '' XFSZ && ulimit -f 1 && exec "$zbk" spread stock mine/new/deep $sizes) >"$own/out" 2>"$own/said" || status=$?
what='spread to a new folder with a limit on files'
[ $status -eq 1 ] || fail "$what: exit code $status"
said 'cannot write mine/new/deep/board-0.txt: file too large'
[ -z "$(find mine -mindepth 1)" ] || fail "$what: a folder is left"
[ -d mine ] || fail "$what: a folder is gone"
# a folder that others may not write to
mkdir locked
cp stock locked
chmod 555 locked
locked="$zbk spread locked/stock locked $sizes"
if [ "$(id -u)" -ne 0 ]; then
    :
elif command -v setpriv >/dev/null && chmod 755 "$own" "$own/work" && cp "$zbk" "$own/zbk" && chmod 755 "$own/zbk"; then
    locked="setpriv --reuid 65534 --regid 65534 --clear-groups $own/zbk spread locked/stock locked $sizes"
else
    locked=
fi
if [ -n "$locked" ]; then
    status=0
    $locked >"$own/out" 2>"$own/said" || status=$?
    what='spread to a locked folder'
    [ $status -eq 1 ] || fail "$what: exit code $status"
    said 'cannot write locked/board-0.txt: permission denied'
    is locked stock
else
    echo "skipped a locked folder: the tests run as root"
fi
chmod 755 locked
passed=$((passed + 5))
# a link: what it leads to is replaced
echo old >real
ln -s real link
try 0 gather kept -o link --force
[ -L link ] || fail "$what: the link is gone"
whole real stock
# a link that leads nowhere stays as it is
ln -s nowhere dangling
for force in --quiet --force; do
    try 1 gather kept -o dangling $force
    said 'cannot write dangling: it is a link that leads nowhere'
    [ "$(readlink dangling)" = nowhere ] || fail "$what: the link is another one"
    [ ! -e nowhere ] || fail "$what: it wrote a file"
done
# what an interrupted run left is removed by the next one, and no other file: here a pipe that nobody reads holds a run up, which is then ended
mkdir stopped
mkfifo stopped/board-3.txt
# shellcheck disable=SC2086
"$zbk" spread stock stopped $sizes --quiet 2>"$own/said" &
reader=$!
tries=0
until [ "$(find stopped -name '.zbk-*' | wc -l)" -eq 3 ] || [ $tries -eq 100 ]; do
    sleep 0.1
    tries=$((tries + 1))
done
kill -KILL $reader
wait $reader 2>/dev/null || true
reader=
what='spread that is ended'
[ "$(find stopped -name '.zbk-*' | wc -l)" -eq 3 ] || fail "$what: it left other files than it must for this test"
rm stopped/board-3.txt
echo mine >stopped/.zbk-notes
echo mine >stopped/.zbk-1-2-x
mkdir stopped/.zbk-0-1-2
# those of earlier versions, and of other machines, where they are old
echo old >stopped/.zbk-123-0
echo old >stopped/.zbk-0-123-1
touch -d '2 hours ago' stopped/.zbk-123-0 stopped/.zbk-0-123-1
echo young >stopped/.zbk-123-1
echo young >stopped/.zbk-0-123-0
# that of a tool that runs
mkfifo "$own/held"
"$zbk" look - <"$own/held" >"$own/slow" 2>&1 &
reader=$!
exec 3>"$own/held"
machine=$(tr -d - </proc/sys/kernel/random/boot_id | cut -c 1-8)
until [ "$(cat /proc/$reader/comm)" = zbk ]; do sleep 0.1; done
echo running >"stopped/.zbk-$machine-$reader-0"
try 0 gather kept -o stopped/back
whole stopped/back stock
said 'zbk: removed 5 files that an interrupted run left in '
is stopped back .zbk-notes .zbk-1-2-x .zbk-0-1-2 .zbk-123-1 .zbk-0-123-0 ".zbk-$machine-$reader-0"
exec 3>&-
wait $reader || true
try 0 trial --file 1 5 -o stopped/drawn
said 'zbk: removed 1 file that an interrupted run left in '
is stopped back drawn .zbk-notes .zbk-1-2-x .zbk-0-1-2 .zbk-123-1 .zbk-0-123-0
reader=
# one with this process's own number is none that it has begun
sh -c 'echo mine >"stopped/.zbk-$2-$$-0" && exec "$1" gather kept -o stopped/again' sh "$zbk" "$machine" >"$own/out" 2>"$own/said" ||
    fail "$what: exit code $?"
said 'zbk: removed 1 file that an interrupted run left in '
whole stopped/again stock
rm -r stopped
passed=$((passed + 1))
# no temporary file is left anywhere
[ -z "$(find . -name '.*zbk*')" ] || fail "a temporary file is left"

# ---- the printers
for limit in 2 3 9 32; do
    "$coder" --sizes $limit >"$own/due"
    try 0 sizes $limit
    whole "$own/out" "$own/due"
done
echo refused=1 >"$own/due"
for limit in 0 1 33 02 '' two 2x; do
    try 1 sizes "$limit"
    whole "$own/out" "$own/due"
done
# printed NAME INPUT DUE [OPTION]
printed() {
    status=0
    what="print: $1"
    "$zbk" print ${4:+"$4"} <"$2" >"$own/out" 2>"$own/said" || status=$?
    whole "$own/out" "$3"
    if grep -q '^refused=' "$3"; then due=1; else due=0; fi
    [ $status -eq $due ] || fail "$what: exit code $status"
    passed=$((passed + 1))
}
for input in "$top"/tests/share_printer/*.in; do
    printed "$input" "$input" "${input%.in}.out"
done
for input in "$top"/tests/points_printer/*.in; do
    "$coder" --printer points <"$input" >"$own/due"
    printed "$input" "$input" "$own/due" --points-line
done
status=0
echo n=8 | "$zbk" print >"$own/out" 2>"$own/said" || status=$?
what='print: lines are missing'
[ $status -eq 1 ] || fail "$what: exit code $status"
said 'SIZE (1): a line is missing or malformed, or the sizes or points are not legal'
passed=$((passed + 1))
try 1 share stock -n 8 -k 4 -d 6 -r 2 --board 8
said 'NODE (5): board 8, but there are boards 0 to 7'
[ "$(cat "$own/out")" = refused=5 ] || fail "$what: another answer"
try 0 share stock -n 8 -k 4 -d 6 -r 2 --board 3 -p first-series -o text
whole text first/board-3.txt

# ---- trial loads: by the archive's calls, and by the coder's own generator and ledger
# by_lines STATUS: the load whose lines are in `load`, read from standard input
by_lines() {
    what="trial - of $(tr '\n' ' ' <load)"
    status=0
    "$coder" --trial <load >"$own/due"
    "$zbk" trial - <load >"$own/out" 2>"$own/said" || status=$?
    [ $status -eq "$1" ] || fail "$what: exit code $status, not $1"
    whole "$own/out" "$own/due"
    passed=$((passed + 1))
}
# loaded WORDS..: the load of these words, and of its lines
loaded() {
    try 0 trial "$@" --lines
    cp "$own/out" load
    by_lines 0
    try 0 trial "$@"
    whole "$own/out" "$own/due"
    [ ! -s "$own/said" ] || fail "$what: it said something"
}
try 0 trial 3081 -n 4 -k 2 -d 2 -r 1 --capacity 1 --length 5 --calls 8
cat >"$own/due" <<'LINES'
op=repair answer=8 moved=0
op=read answer=8 moved=0
op=write answer=0 moved=0
op=lose answer=0 moved=0
op=repair answer=14 moved=0
op=read answer=0 moved=0
op=read answer=9 moved=0
op=repair answer=0 moved=4
LINES
whole "$own/out" "$own/due"
# what is taken where nothing is said
try 0 trial 7 --lines
printf 'n=12\nk=6\nd=8\nr=2\nC=160\nseed=7\nlength=11520\ncalls=1000\n' >"$own/due"
whole "$own/out" "$own/due"
try 0 trial 7 --lines -n 2 -k 1 -d 1 -r 1
printf 'n=2\nk=1\nd=1\nr=1\nC=4096\nseed=7\nlength=8192\ncalls=1000\n' >"$own/due"
whole "$own/out" "$own/due"
try 0 trial 7 --lines -n 4 -k 3 -d 3 -r 1
printf 'n=4\nk=3\nd=3\nr=1\nC=1365\nseed=7\nlength=16380\ncalls=1000\n' >"$own/due"
whole "$own/out" "$own/due"
try 0 trial 7 --lines -n 4 -k 2 -d 3 -r 1 --capacity 9
out 'length=90'
for seed in 0 1 4294967295; do
    loaded $seed --calls 100
    loaded $seed -n 3 -k 1 -d 1 -r 2 --capacity 40 --length 77 --calls 300
done
loaded 5 -n 32 -k 31 -d 31 -r 1 --calls 20
loaded 6 -n 32 -k 8 -d 24 -r 8 --calls 20
loaded 7 --length 0 --calls 60
loaded 8 --capacity 1 --length 72 --calls 60
loaded 9 --capacity 1 --length 73 --calls 60
out 'op=write answer=3 moved=0'
loaded 10 --length 16384 --calls 60
loaded 11 --calls 0
[ ! -s "$own/out" ] || fail "$what: it wrote something"
loaded 11 --calls 1 -q
case=0
met=
while [ $case -lt 80 ]; do
    "$coder" --seed 3 --load $case >load
    if [ "$("$coder" --trial <load)" = refused=1 ]; then
        met="$met refused"
        by_lines 1
        said 'refused, SIZE (1): '
    else
        by_lines 0
        if grep -q '^op=repair .*moved=[1-9]' "$own/out"; then met="$met repaired"; fi
    fi
    case=$((case + 1))
done
case "$met" in *refused*repaired*refused*) ;; *) fail "the drawn loads met too little: $met" ;; esac
# refused, on standard output as the program does, and in words
echo refused=1 >"$own/due"
no_load() {
    words=$1
    shift
    try 1 trial "$@"
    said "refused, SIZE (1): $words"
    whole "$own/out" "$own/due"
    try 1 trial "$@" --lines
    whole "$own/out" "$own/due"
}
no_load 'the seed is at most 4294967295, not 4294967296' 4294967296
no_load 'the seed is at most 4294967295, not 18446744073709551615 or more' 99999999999999999999
no_load '4294967296 calls; a trial has at most 4294967295' 1 --calls 4294967296
no_load 'a file of 16385 bytes; a trial'\''s has at most 16384' 1 --length 16385
no_load 'the capacity is 1 to 4096 stripes, not 0' 1 --capacity 0
no_load 'the capacity is 1 to 4096 stripes, not 4097' 1 -n 2 -k 1 -d 1 -r 1 --capacity 4097
no_load 'the area for 161 stripes has 32844 bytes; a trial'\''s has at most 32768, here for 160 stripes' 1 --capacity 161
no_load 'the area for 331 stripes has 32769 bytes; a trial'\''s has at most 32768, here for 330 stripes' 1 -n 11 -k 1 -d 4 -r 2 --capacity 331
no_load '33 boards are more than 32' 1 -n 33
no_load '8 helpers and 2 fresh boards are more than 8 boards' 1 -n 8
no_load '9 boards read are more than 8 helpers' 1 -k 9
for input in '' 'n=4\n' 'n=4\nk=2\nd=2\nr=1\nC=1\nseed=3081\nlength=5\ncalls=8' 'n=4\nk=2\nd=2\nr=1\nc=1\nseed=3081\nlength=5\ncalls=8\n' \
    'n=4\nk=2\nd=2\nr=1\nC=1\nseed=03081\nlength=5\ncalls=8\n' 'n=4\nk=2\nd=2\nr=1\nC=1\nseed=3081\nlength=5\ncalls=8\n\n'; do
    # shellcheck disable=SC2059 # the format is the input
    printf "$input" >load
    by_lines 1
    said 'the input is not just the lines n=, k=, d=, r=, C=, seed=, length=, calls=, each with a number'
done
# words that make no sense
try 2 trial
said 'name a seed, or - for the lines of a load'
try 2 trial 1 2
try 2 trial one
said 'SEED one: not a number'
try 2 trial 1 --calls many
said '--calls many: not a number'
try 2 trial 1 --calls 1 --calls 2
said 'twice'
try 2 trial 1 -o lines
said '--output and --force are for --file'
try 2 trial 1 --points standard
try 2 trial - --calls 5
said 'the lines of standard input say all numbers'
# the trial file, by awk too: no product has more digits than it keeps
drawn() {
    awk -v state="$1" -v count="$2" 'BEGIN {
        while (count-- > 0) { state = (state * 1664525 + 1013904223) % 4294967296; printf "%02x\n", int(state / 16777216) }
    }'
}
pairs() { od -An -v -tx1 | tr -s ' ' '\n' | sed '/^$/d'; }
for file in '0 0' '0 1' '0 6' '1 6' '4294967295 3' '3081 1000' '5 65535' '6 65536' '7 65537' '8 200000'; do
    # shellcheck disable=SC2086 # a seed and a length
    try 0 trial --file $file
    # shellcheck disable=SC2086
    drawn $file >"$own/due"
    pairs <"$own/out" | cmp -s - "$own/due" || fail "$what: another file"
    mv "$own/out" "$own/file"
    # shellcheck disable=SC2086
    try 0 trial --file $file -o drawn --force
    whole drawn "$own/file"
done
try 0 trial --file 0 6
[ "$(pairs <"$own/out" | tr -d '\n')" = 3c47d1aa629f ] || fail "$what: another file"
try 1 trial --file 1 5 -o drawn
said 'drawn is there already; --force replaces it'
whole drawn "$own/file"
rm drawn
try 0 trial --file 1 5 -o drawn
try 1 trial --file 1 5 -o kept
said 'cannot write kept: it is a folder'
try 1 trial --file 4294967296 5
said 'the seed is at most 4294967295, not 4294967296'
[ ! -s "$own/out" ] || fail "$what: it wrote something"
try 2 trial --file 1
said '--file: name a seed and a length'
try 2 trial --file 1 x
said 'LENGTH x: not a number'
try 2 trial --file 1 5 --calls 5
said '--file takes a seed and a length, and no numbers of a load'
try 2 trial --file 1 5 --lines
if [ -e /dev/full ]; then
    try 1 trial --file 1 5 -o /dev/full
    said 'cannot write /dev/full: no space left'
    for endless in '1 --calls 4294967295' '--file 1 99999999999999'; do
        what="trial $endless to a full device"
        status=0
        # shellcheck disable=SC2086
        timeout 60 "$zbk" trial $endless >/dev/full 2>"$own/said" || status=$?
        [ $status -eq 1 ] || fail "$what: exit code $status"
        said 'cannot write to standard output: no space left'
        passed=$((passed + 1))
    done
fi
# a reader that goes away: it has the first lines as they are made, and the tool ends and says nothing
# first BYTES WORDS..: so many bytes of what the tool writes
first() {
    bytes=$1
    shift
    what="trial $* to a reader of $bytes bytes"
    { status=0; timeout 60 "$zbk" trial "$@" 2>"$own/said" || status=$?; echo $status >"$own/status"; } | head -c "$bytes" >"$own/out"
    [ "$(cat "$own/status")" -eq 1 ] || fail "$what: exit code $(cat "$own/status")"
    [ ! -s "$own/said" ] || fail "$what: it said something"
    [ "$(wc -c <"$own/out")" -eq "$bytes" ] || fail "$what: other bytes"
    passed=$((passed + 1))
}
small='3 -n 4 -k 2 -d 2 -r 1 --capacity 2 --length 9 --calls 4294967295'
# shellcheck disable=SC2086
try 0 trial $small --lines
mv "$own/out" load
"$coder" --trial <load 2>/dev/null | head -c 100000 >"$own/due"
# shellcheck disable=SC2086
first 100000 $small
whole "$own/out" "$own/due"
# shellcheck disable=SC2086
first 1 $small
first 100000 --file 3081 99999999999999
pairs <"$own/out" >"$own/file"
drawn 3081 100000 | cmp -s - "$own/file" || fail "$what: another file"
[ -z "$(find . -name '.*zbk*')" ] || fail "a temporary file is left"

echo "tool: $passed passed, 0 failed"

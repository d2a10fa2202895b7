#!/bin/sh
# Puts the words of docs/REFUSALS.md where programs have them: between the two marks of include/zebrankai_util.h, and in bindings/rust/src/words.rs.
#
#   sh tools/refusals.sh          writes both
#   sh tools/refusals.sh check    writes nothing; exit code 1 where one of them differs
set -eu
cd "$(dirname "$0")/.."
header=include/zebrankai_util.h
rust=bindings/rust/src/words.rs
work=$(mktemp -d)
trap 'rm -rf "$work"' EXIT
case ${1:-write} in write | check) ;; *) echo "usage: sh tools/refusals.sh [check]" >&2 && exit 2 ;; esac

# rows: number, name, meaning, who, what to do of each, with tabs between
rows() {
    awk '
        function ended() { if (number != "") print number "\t" name "\t" means "\t" who "\t" remedy }
        /^## / { ended(); number = $2; name = $3; means = who = remedy = ""; next }
        /^[*][*]Who acts:[*][*] / { who = substr($0, 15); next }
        /^[*][*]What to do:[*][*] / { remedy = substr($0, 17); next }
        number != "" && $0 != "" { means = $0 }
        END { ended() }' docs/REFUSALS.md
}
rows >"$work/rows"
[ -s "$work/rows" ] || { echo "docs/REFUSALS.md has no refusal" >&2 && exit 1; }
if LC_ALL=C grep -n '[^ -~	]\|["\\]' "$work/rows"; then echo "docs/REFUSALS.md: a byte that no string should have" >&2 && exit 1; fi
if grep -n '		\|	$' "$work/rows"; then echo "docs/REFUSALS.md: a part is missing" >&2 && exit 1; fi

# each part is a function; a long string is broken behind a blank
c_words() {
    awk -F '\t' '
        function broken(s,    out, at) {
            while (length(s) > 126) {
                at = 126
                while (substr(s, at, 1) != " ") at--
                out = out "\"" substr(s, 1, at) "\"\n               "
                s = substr(s, at + 1)
            }
            return out "\"" s "\""
        }
        function part(name, column, accepted, comment,    i) {
            print ""
            print "/* " comment " */"
            print "static inline const char *" name "(unsigned number) {"
            print "    switch (number) {"
            print "    case ZBK_ACCEPTED:"
            print "        return \"" accepted "\";"
            for (i = 1; i <= count; i++) {
                print "    case ZBK_" of[i, 2] ":"
                print "        return " broken(of[i, column]) ";"
            }
            print "    default:"
            print "        return \"\";"
            print "    }"
            print "}"
        }
        { count++; for (i = 1; i <= 5; i++) of[count, i] = $i }
        END {
            part("zbk_refusal_name", 2, "ACCEPTED", "The name of a number that zbk_refusal gives: \"DISAGREE\" of 10, \"ACCEPTED\" of 0; \"\" of a number that no call answers.")
            part("zbk_refusal_text", 3, "The call was accepted.", "What it means, in a sentence; \"\" of a number that no call answers.")
            part("zbk_refusal_who", 4, "nobody", "Who acts: \"installer\", \"calling program\" or \"service staff\", and \"nobody\" of 0; \"\" of a number that no call answers.")
            part("zbk_refusal_remedy", 5, "Nothing.", "What to do, in a few sentences; \"\" of a number that no call answers.")
            print ""
        }' "$work/rows"
}

rust_words() {
    awk -F '\t' '
        function variant(name) { return "Refusal::" substr(name, 1, 1) tolower(substr(name, 2)) }
        function broken(s, room,    out, at) {
            while (length(s) > room) {
                at = room
                while (substr(s, at, 1) != " ") at--
                out = out substr(s, 1, at) "\\\n                 "
                s = substr(s, at + 1)
            }
            return out s
        }
        function part(name, column, comment,    i, line) {
            print "    /// " comment
            print "    #[must_use]"
            print "    pub const fn " name "(self) -> &\047static str {"
            print "        match self {"
            for (i = 1; i <= count; i++) {
                line = "            " variant(of[i, 2]) " => \"" of[i, column] "\","
                if (length(line) <= 120) print line
                else print "            " variant(of[i, 2]) " => {\n                \"" broken(of[i, column], 100) "\"\n            }"
            }
            print "        }"
            print "    }"
        }
        { count++; for (i = 1; i <= 5; i++) of[count, i] = $i }
        END {
            print "//! The words of the refusals: those of docs/REFUSALS.md, put here by tools/refusals.sh."
            print ""
            print "use crate::Refusal;"
            print ""
            print "impl Refusal {"
            part("name", 2, "The refusal\047s name.")
            print ""
            part("sentence", 3, "What it means, in one plain sentence.")
            print ""
            part("who", 4, "Who acts: the installer, the calling program or service staff.")
            print ""
            part("remedy", 5, "What to do, in a few sentences.")
            print "}"
        }' "$work/rows"
}

# the header with the words between its marks, which stay
c_words >"$work/c"
awk -v words="$work/c" '
    /^\/\* ---- end of the words of docs\/REFUSALS\.md/ { inside = 0; ends++ }
    !inside { print }
    /^\/\* ---- the words of docs\/REFUSALS\.md/ { inside = 1; begins++; while ((getline line < words) > 0) print line }
    END { if (begins != 1 || ends != 1) exit 1 }' "$header" >"$work/header" || { echo "$header: the two marks do not stand there once each" >&2 && exit 1; }
rust_words >"$work/rust"

if [ "${1:-write}" = check ]; then
    status=0
    diff "$header" "$work/header" || status=1
    diff "$rust" "$work/rust" || status=1
    [ "$status" -eq 0 ] || echo "not the words of docs/REFUSALS.md: 'sh tools/refusals.sh' puts them there" >&2
    exit "$status"
fi
cmp -s "$header" "$work/header" || cat "$work/header" >"$header"
cmp -s "$rust" "$work/rust" || cat "$work/rust" >"$rust"

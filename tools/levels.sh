#!/bin/sh
# tools/levels.sh: prints crates.txt with what each crate names, in the order of proving. Nobody writes these names: a line has the crates that its
# crate's own files name, `Rattle.NAME` in specs/, proofs/ and src/ and `NAME::` in src/ and in an edit, and not what those rest on, which the prover finds by
# their lines (it walks every path of the lists, so that a list of all that lies below costs minutes a command). Names that a line has already
# stay in their order, the others come behind them. A crate stands under a heading, one level above the highest that it names, so that crates of
# one level are proved side by side; a heading names the floors, the boxes of the drawing in docs/ARCHITECTURE.md, that its crates are of.
# What stands between a name and its colon, as `staticlib`, stays.
# A new crate: its name and a colon on a line of crates.txt, below a comment that says what it is; its name in a box of the drawing; then
#   sh tools/levels.sh >crates.new && mv crates.new crates.txt
set -eu
LC_ALL=C
export LC_ALL
cd "$(dirname "$0")/.."
{
    sed -n '/^```mermaid$/,/^```$/s,.*\["<b>\([^<]*\)</b><br/>\(.*\)"\].*,box:\1:\2,p' docs/ARCHITECTURE.md | sed 's,<br/>, ,g'
    # CRATE NAME for each name of another crate that stands in its files, comments of its code and what it takes of std left out
    {
        grep -roE --exclude-dir=out --include='*.antt' --include='*.rt' 'Rattle\.[A-Za-z0-9_]+' crates | sed 's,^crates/\([^/]*\)/[^:]*:Rattle\.,\1 ,'
        grep -rE --exclude-dir=out --include='*.rt' --include='*.edit' '[a-z0-9_]::' crates | sed 's,^crates/\([^/]*\)/[^:]*:,\1 ,; s,//.*,,; s,std::[a-z_:]*,,g' | awk '
            { for (i = 2; i <= NF; i++) { rest = $i; while (match(rest, /[a-z][a-z0-9_]*::/)) { print $1, substr(rest, RSTART, RLENGTH - 2); rest = substr(rest, RSTART + RLENGTH) } } }'
    } | sort -u | sed 's/^/name:/'
} | awk '
    # what a crate names comes before it; the libraries of the kit that a line may list are said here: not std, which is always there, nor libc and
    # os, which no line may list
    BEGIN { kit["io"]; kit["bytes"]; kit["check"] }
    function visit(n,    d, i, m, l) {
        if (n in level) return
        level[n] = 0; l = 1
        m = split(named[n], d, " ")
        for (i = 1; i <= m; i++) {
            names[n, d[i]]
            if (d[i] in kit) continue
            visit(d[i])
            if (level[d[i]] + 1 > l) l = level[d[i]] + 1
        }
        level[n] = l; order[++placed] = n
        if (l > top) top = l
    }
    function put(n, d) { if (!((n, d) in names)) return ""; delete names[n, d]; return " " d }
    NR == FNR && /^box:/ { m = split($0, d, ":"); at = split(d[3], w, " "); for (i = 1; i <= at; i++) box[w[i]] = d[2]; next }
    NR == FNR { sub(/^name:/, ""); pairs[++npairs] = $0; next }
    FNR == 1 { print; next }
    /^# ---- / || /^[ \t]*$/ { next }
    /^#/ { above = above $0 "\n"; next }
    {
        bare = $0; sub(/#.*/, "", bare); at = index(bare, ":")
        n = substr(bare, 1, at - 1); sub(/^[ \t]*/, "", n); sub(/[ \t]*$/, "", n); said = n; sub(/[ \t].*/, "", n)
        had[n] = substr(bare, at + 1); head[n] = above said ":"; above = ""; list[++count] = n
    }
    END {
        for (i = 1; i <= npairs; i++) { split(pairs[i], d, " "); if (d[1] != d[2] && ((d[2] in head) || (d[2] in kit))) named[d[1]] = named[d[1]] " " d[2] }
        for (i = 1; i <= count; i++) visit(list[i])
        for (l = 1; l <= top; l++) for (i = 1; i <= placed; i++) if (level[order[i]] == l) { sorted[++done] = order[i]; last[l] = done }
        for (l = 1; l <= top; l++) {
            floors = ""
            for (i = last[l - 1] + 1; i <= last[l]; i++)
                if (index(floors ", ", " " box[sorted[i]] ", ") == 0) floors = floors (floors == "" ? " " : ", ") box[sorted[i]]
            print "\n# ---- level " l ":" floors
            for (i = last[l - 1] + 1; i <= last[l]; i++) {
                n = sorted[i]; line = ""
                m = split(had[n], d, " ")
                for (j = 1; j <= m; j++) line = line put(n, d[j])
                for (j in kit) line = line put(n, j)
                for (j = 1; j < i; j++) line = line put(n, sorted[j])
                print head[n] (line == "" ? " " : line)
            }
        }
        printf "%s", above
    }' - crates.txt

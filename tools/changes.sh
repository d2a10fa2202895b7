#!/bin/sh
# tools/changes.sh OLD NEW: which definitions, contracts and proofs moved between two commits, and how many stayed, as lines of markdown for a
# section of docs/CHANGES.md. Needs git, tar and awk.
#   Definitions: each name of crates/*/specs/*.antt with its text: signature and clauses, or the whole record.
#   Contracts: each function of crates/*/src with its signature, `requires` and `ensures`; each type and constant.
#   Proofs: each file of crates/*/proofs.
# Imports, comments, blanks and the layout count nowhere. What has the same text in another crate, in another file or under another name is renamed,
# not changed, and so is what only cites a definition by its new name; a crate that is gone is the one that git saw most of its files go to.
set -eu
[ $# -eq 2 ] || { echo "usage: tools/changes.sh OLD NEW (two commits)" >&2; exit 2; }
cd "$(git rev-parse --show-toplevel)"
LC_ALL=C
export LC_ALL
old=$(git rev-parse --verify --quiet "$1^{commit}") || { echo "no commit $1" >&2; exit 2; }
new=$(git rev-parse --verify --quiet "$2^{commit}") || { echo "no commit $2" >&2; exit 2; }
work=$(mktemp -d)
trap 'rm -rf "$work"' EXIT

# units SIDE COMMIT: a line 'SIDE kind crate file name text', parted by tabs, for each definition, contract and proof of a commit
units() {
    mkdir "$work/$1"
    if git cat-file -e "$2:crates" 2>/dev/null; then git archive --format=tar "$2" crates | tar -x -C "$work/$1"; fi
    (cd "$work/$1" && find . -type f \( -path './crates/*/specs/*.antt' -o -path './crates/*/proofs/*.antt' -o -path './crates/*/src/*.rt' \) | sort) >"$work/list"
    awk -v side="$1" -v top="$work/$1/" '
        function squeezed(s) { gsub(/[ \t]+/, " ", s); gsub(/\( /, "(", s); gsub(/,? \)/, ")", s); sub(/^ /, "", s); sub(/ $/, "", s); return s }
        function unit(name, more) {
            if (!((file, name) in text)) { names[++count] = name; text[file, name] = squeezed(more) }
            else text[file, name] = squeezed(text[file, name] " " more)
        }
        function braces(s,    a, b) { a = gsub(/\{/, "", s); b = gsub(/\}/, "", s); return a - b }

        # the line without what does not count; "" where nothing is left
        function counted(s) {
            if (importing > 0) { importing += braces(s); return "" }
            if (s ~ /^[ \t]*$/ || s ~ comment) return ""
            if (s ~ /^[ \t]*(pub |ghost )*(use|mod) /) { importing = braces(s); return "" }
            sub(trailing, "", s)
            return s
        }

        function definition(s,    deep, words, w, i) {
            match(s, /^ */); deep = RLENGTH
            if (deep == 0) inside = 0
            if (s ~ /^module /) { inside = 2; context = s; now = ""; return }
            if (inside && deep == 2 && s ~ /^  open /) { context = context " " s; return }
            if (s ~ /^open /) return
            if (deep == inside) {
                w = split(s, words, " ")
                if (words[1] ~ /^infix/) { unit(words[w], s); return }
                for (i = 1; words[i] ~ /^(pub|abbrev|unfoldable|opaque|record|data|private|instance)$/; i++) ;
                if (i > 1 || words[2] == ":") {
                    now = words[i]
                    if (inside && !((file, now) in text)) s = context " " s
                }
            }
            if (now != "") unit(now, s)
        }

        # the header of a function ends where its body begins
        function header(s,    t) {
            t = squeezed(s)
            if (depth > 0 || t ~ /^(requires|ensures|ghost)/) { depth += braces(t); unit(now, t); return }
            if (t ~ /\{/) { sub(/ *\{.*/, "", t); if (t != "") unit(now, t); now = ""; return }
            unit(now, t)
        }
        function contract(s,    t) {
            if (now != "" && typed) { unit(now, s); if (s ~ /^ *[\]})]*;$/ || s ~ /^ *\}$/) { now = ""; typed = 0 }; return }
            if (now != "") { header(s); return }
            if (s ~ /^impl[ <]/) { owner = s; sub(/^impl */, "", owner); sub(/ *\{.*/, "", owner); owner = owner "::"; return }
            if (s ~ /^\}/) { owner = ""; return }
            if (s !~ /^ *(pub )?(extern "C" )?(fn|struct|enum|const|type) /) return
            t = s; sub(/^ *(pub )?(extern "C" )?[a-z]+ /, "", t); sub(/[^A-Za-z0-9_].*/, "", t)
            now = owner t
            if (s ~ / fn / || s ~ /^fn /) { depth = 0; header(s); return }
            unit(now, s)
            typed = 1
            if (s ~ /[;}]$/) { now = ""; typed = 0 }
        }

        {
            path = $0; sub(/^\.\//, "", path)
            split(path, part, "/"); crate = part[2]; kind = part[3]
            file = path; sub(/^crates\/[^\/]*\/[^\/]*\//, "", file); sub(/\.[a-z]*$/, "", file)
            count = 0; now = ""; inside = 0; importing = 0; owner = ""; typed = 0
            split("", text); split("", names)
            comment = kind == "src" ? "^[ \t]*(//|#!?\\[)" : "^[ \t]*--"
            trailing = kind == "src" ? "[ \t]+//.*$" : "[ \t]+--[ \t].*$"
            whole = ""
            while ((getline line < (top path)) > 0) {
                line = counted(line)
                if (line == "") continue
                if (kind == "specs") definition(line)
                else if (kind == "src") contract(line)
                else whole = whole " " line
            }
            close(top path)
            # a file that only names others says nothing
            if (whole != "") print side "\tproofs\t" crate "\t\t" file "\t" squeezed(whole)
            for (i = 1; i <= count; i++) print side "\t" kind "\t" crate "\t" file "\t" names[i] "\t" text[file, names[i]]
        }' "$work/list"
}

{
    # where the crates that are gone went to
    git diff --no-ext-diff -M -l100000 --name-status --diff-filter=R "$old" "$new" -- crates | awk -F '\t' '
        { split($2, a, "/"); split($3, b, "/"); print "renamed\t" a[2] "\t" b[2] "\t" $2 "\t" $3 }'
    units old "$old"
    units new "$new"
} >"$work/units"

echo "From \`$(git rev-parse --short "$old")\` to \`$(git rev-parse --short "$new")\`:"
echo
awk -F '\t' '
    $1 == "renamed" { if ($2 != $3) { times[$2, $3]++; pairs[++npairs] = $2 SUBSEP $3 }; to[$4] = $5; next }
    {
        id = $2 SUBSEP $3 SUBSEP $4 SUBSEP $5
        text[$1, id] = $6
        if ($1 == "old") { olds[++nold] = id; was[$3] } else { news[++nnew] = id; is[$3] }
    }

    # the text with its own name left out
    function masked(side, id,    p, s, out, at) {
        split(id, p, SUBSEP)
        if (p[1] == "proofs") return text[side, id]
        s = text[side, id]; out = ""
        sub(/.*::/, "", p[4])
        while (at = index(s, p[4])) {
            if ((at == 1 || substr(s, at - 1, 1) ~ /[ (]/) && (at + length(p[4]) > length(s) || substr(s, at + length(p[4]), 1) ~ /[ ()]/))
                out = out substr(s, 1, at - 1) "\001"
            else out = out substr(s, 1, at - 1 + length(p[4]))
            s = substr(s, at + length(p[4]))
        }
        return out s
    }
    function home(crate) { return crate in is ? crate : (crate in went ? went[crate] : crate) }
    # the text word by word, names of renamed definitions in their new form
    function worded(s, renames,    w, i, m, out) {
        gsub(/[(){},;]/, " & ", s)
        m = split(s, w, " ")
        for (i = 1; i <= m; i++) out = out " " ((renames && (w[i] in renamed)) ? renamed[w[i]] : w[i])
        return out
    }
    function alike(o, n) { return worded(text["old", o], 1) == worded(text["new", n], 0) }
    # takes a pair: what became of an old unit
    function pair(o, n) { became[o] = n; came[n] = o }
    # a pair by a key of the old side and of the new one, each with the text; the first that is free
    function keyed(how, side, id,    p, crate) {
        split(id, p, SUBSEP)
        crate = side == "old" ? home(p[2]) : p[2]
        if (how == 1) return p[1] SUBSEP crate SUBSEP p[3] SUBSEP p[4]
        if (how == 2) return p[1] SUBSEP crate SUBSEP p[4] SUBSEP text[side, id]
        if (how == 3) return p[1] SUBSEP p[4] SUBSEP text[side, id]
        if (how == 4) return p[1] SUBSEP crate SUBSEP masked(side, id)
        if (how == 5) return p[1] SUBSEP masked(side, id)
        if (how == 6) return p[1] SUBSEP (p[4] in renamed && side == "old" ? renamed[p[4]] : p[4]) SUBSEP worded(text[side, id], side == "old")
        return p[1] SUBSEP crate SUBSEP p[4]
    }
    function match_by(how,    i, k, n, m, q) {
        split("", first); split("", nextof)
        for (i = nnew; i >= 1; i--) {
            if (news[i] in came) continue
            k = keyed(how, "new", news[i]); nextof[news[i]] = (k in first) ? first[k] : ""; first[k] = news[i]
        }
        for (i = 1; i <= nold; i++) {
            if (olds[i] in became) continue
            k = keyed(how, "old", olds[i])
            if (!(k in first) || first[k] == "") continue
            n = first[k]; first[k] = nextof[n]
            pair(olds[i], n)
        }
    }
    # proof files that git saw renamed, though their text changed
    function by_git(    i, p, o, n) {
        for (i = 1; i <= nold; i++) {
            if (olds[i] in became) continue
            split(olds[i], p, SUBSEP)
            o = "crates/" p[2] "/proofs/" p[4] ".antt"
            if (p[1] != "proofs" || !(o in to) || to[o] !~ /^crates\/[^\/]*\/proofs\/.*\.antt$/) continue
            split(to[o], q, "/"); n = to[o]; sub(/^crates\/[^\/]*\/proofs\//, "", n); sub(/\.antt$/, "", n)
            n = "proofs" SUBSEP q[2] SUBSEP "" SUBSEP n
            if (!(n in came) && (("new", n) in text)) pair(olds[i], n)
        }
    }

    # ---- lists of names by group
    function put(list, group, item) {
        if (!((list, group) in items)) { groups[list] = groups[list] SUBSEP group; items[list, group] = item }
        else items[list, group] = items[list, group] ", " item
        size[list]++; size[list, group]++
    }
    function tell(list, words, counted,    g, m, i, line) {
        if (!size[list]) return
        m = split(substr(groups[list], 2), g, SUBSEP)
        for (i = 1; i <= m; i++) line = line (i > 1 ? "; " : "") g[i] (counted ? " (" size[list, g[i]] ")" : " " items[list, g[i]])
        print "- " words ": " line
    }
    function where(p) { return p[1] == "specs" ? p[2] "/" p[3] : p[2] }

    function report(kind, words,    i, p, q, same, l) {
        split("", groups); split("", items); split("", size); same = 0
        for (i = 1; i <= nold; i++) {
            split(olds[i], p, SUBSEP)
            if (p[1] != kind) continue
            if (!(olds[i] in became)) { put("removed", "`" p[2] "`", p[4]); continue }
            split(became[olds[i]], q, SUBSEP)
            if (p[4] == q[4] && text["old", olds[i]] != text["new", became[olds[i]]]) put(alike(olds[i], became[olds[i]]) ? "citing" : "changed", "`" q[2] "`", q[4])
            else if (p[4] != q[4] && masked("old", olds[i]) != masked("new", became[olds[i]])) put(alike(olds[i], became[olds[i]]) ? "citing" : "changed", "`" q[2] "`", p[4] " → " q[4])
            else if (p[2] == q[2] && p[3] == q[3] && p[4] == q[4]) same++
            else if (p[2] != q[2] && home(p[2]) == q[2] && p[3] == q[3] && p[4] == q[4]) put("crate", "`" p[2] "` → `" q[2] "`", p[4])
            else if (p[4] == q[4]) put("moved", "`" where(p) "` → `" where(q) "`", p[4])
            else put("renamed", (where(p) == where(q)) ? "`" where(q) "`" : "`" where(p) "` → `" where(q) "`", p[4] " → " q[4])
        }
        for (i = 1; i <= nnew; i++) {
            split(news[i], q, SUBSEP)
            if (q[1] == kind && !(news[i] in came)) put("added", "`" q[2] "`", q[4])
        }
        print "**" words "**: " same " stayed, " size["changed"] + 0 " changed, " size["added"] + 0 " added, " size["removed"] + 0 " removed, " \
            size["crate"] + size["moved"] + size["renamed"] + size["citing"] " renamed."
        tell("changed", "changed")
        tell("added", "added")
        tell("removed", "removed")
        tell("crate", "renamed with their crate", 1)
        tell("moved", "in another place, with the same text")
        tell("renamed", "under another name, with the same text")
        tell("citing", "the same but for names that they cite")
    }

    END {
        for (i = 1; i <= npairs; i++) {
            split(pairs[i], p, SUBSEP)
            if (!(p[1] in is) && (p[2] in is) && times[p[1], p[2]] > most[p[1]]) { most[p[1]] = times[p[1], p[2]]; went[p[1]] = p[2] }
        }
        # the same place and name; the same text and name, in the crate and elsewhere; the same text; that but for new names; the same crate and name
        for (how = 1; how <= 5; how++) match_by(how)
        for (i = 1; i <= nold; i++) {
            if (!(olds[i] in became)) continue
            split(olds[i], p, SUBSEP); split(became[olds[i]], q, SUBSEP)
            if (p[1] != "specs" || p[4] == q[4]) continue
            if ((p[4] in renamed) && renamed[p[4]] != q[4]) twofold[p[4]]
            renamed[p[4]] = q[4]
        }
        # a name that another definition has, or that became two, tells nothing where it is cited
        for (i = 1; i <= nnew; i++) { split(news[i], q, SUBSEP); if (q[1] == "specs") twofold[q[4]] }
        for (name in twofold) delete renamed[name]
        match_by(6)
        by_git()
        match_by(7)
        report("specs", "Definitions")
        print ""
        report("src", "Contracts")
        print ""
        report("proofs", "Proofs, by file")
    }' "$work/units"

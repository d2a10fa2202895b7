# tests/made_of.sh, read with `.` from the top folder: what a crate is made of, so that what was proved and built of the same files is not proved again.

# closure NAME...: these crates and those that they rest on, by way of others too (a line has only those that its crate names), in the order of
# crates.txt, one to a line
closure() {
    awk -v tops="$*" '
        function visit(n,    d, i, m) { if (n in seen || !(n in deps)) return; seen[n]; m = split(deps[n], d, " "); for (i = 1; i <= m; i++) visit(d[i]) }
        { sub(/#.*/, ""); at = index($0, ":") }
        at { n = $1; sub(/:.*/, "", n); deps[n] = substr($0, at + 1); list[++count] = n }
        END { m = split(tops, top, " "); for (i = 1; i <= m; i++) visit(top[i]); for (i = 1; i <= count; i++) if (list[i] in seen) print list[i] }' crates.txt
}
# made_of NAME: a sum of the toolchain, of crates.txt, and of every file of this crate and of those that it rests on
made_of() {
    {
        rt version
        uname -m
        sed 's/#.*//; s/[[:blank:]]*$//; /^$/d' crates.txt | LC_ALL=C sort
        for crate in $(closure "$1"); do
            find "crates/$crate/src" "crates/$crate/specs" "crates/$crate/proofs" -type f -exec sha256sum {} + 2>/dev/null | LC_ALL=C sort -k 2
        done
    } | sha256sum
}
# built NAME FILE: whether FILE was proved and built of this crate as it stands; so it is if its page FILE.of says so
built() { [ -f "$2" ] && [ -f "$2.of" ] && [ "$(made_of "$1" && sha256sum <"$2")" = "$(cat "$2.of")" ]; }
# is_built NAME FILE SUM: FILE was proved and built of the crate while its files had this sum; where one changed meanwhile, it is looked at again
is_built() {
    rm -f "$2.of"
    [ "$(made_of "$1")" != "$3" ] || { printf '%s\n' "$3" && sha256sum <"$2"; } >"$2.of"
}

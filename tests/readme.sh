#!/bin/sh
# sh tests/readme.sh PREFIX: the two programs of README.md, cut out of it as they are printed. The C program is built by its own line from what lies below
# PREFIX, the Rust program with the dependency that README.md names; both print what it says. Also that it has at most 2,500 words, that its links lead to
# files and to headings that are there, that its table has the fourteen requests, and that the proved programs print what docs/PROGRAMS.md says. Where
# ZBK_ARCHIVE names another archive than the proved one, the Rust program links that.
set -eu
cd "$(dirname "$0")/.."
top=$PWD
case ${1:-} in '') echo "usage: sh tests/readme.sh PREFIX" >&2 && exit 2 ;; /*) prefix=$1 ;; *) prefix=$top/$1 ;; esac
own=$(mktemp -d)
trap 'rm -rf "$own"' EXIT
fail() { echo "FAIL readme: $*"; exit 1; }
page=${README:-README.md}

# block LANGUAGE: the one fenced block of it
block() {
    [ "$(grep -cxF "\`\`\`$1" "$page")" -eq 1 ] || fail "not one block \`\`\`$1"
    awk -v from="\`\`\`$1" '$0 == from { on = 1; next } on && $0 == "```" { exit } on' "$page"
}
block c >"$own/program.c"
block text >"$own/due"
mkdir -p "$own/rust/src"
block rust >"$own/rust/src/main.rs"

line=$(sed -n 's/^    \(cc program\.c .*\)/\1/p' "$page")
[ "$(printf '%s\n' "$line" | grep -c .)" -eq 1 ] || fail "not one line that compiles program.c"
# with all warnings besides, and those as errors
line=$(printf '%s\n' "$line" | sed "s,PREFIX,'$prefix',; s/^cc /cc -std=c99 -Wall -Wextra -pedantic -Werror /; s, && \./program\$,,")
(cd "$own" && PATH=$(sh "$top/tests/pkg_config.sh" "$own"):$PATH sh -c "$line") || fail "the C program does not compile by: $line"
"$own/program" >"$own/said" || fail "the C program does not run"
diff "$own/due" "$own/said" || fail "the C program prints something else"

dependency=$(sed -n 's/^In Rust, with `\(.*\)` among the dependencies.*/\1/p' "$page")
[ -n "$dependency" ] || fail "no dependency is named for Rust"
printf '%s\n' '[package]' 'name = "program"' 'version = "0.0.0"' 'edition = "2021"' '[dependencies]' "$dependency" '[workspace]' \
    | sed "s,\"bindings/rust\",\"$top/bindings/rust\"," >"$own/rust/Cargo.toml"
grep -qF "$top/bindings/rust" "$own/rust/Cargo.toml" || fail "the dependency is another one: $dependency"
(cd "$own/rust" && RUSTFLAGS='-D warnings' CARGO_TARGET_DIR=$own/cargo cargo run --offline --quiet -j1 >"$own/said") || fail "the Rust program does not compile or run"
diff "$own/due" "$own/said" || fail "the Rust program prints something else"
echo "ok both programs of README.md print what it says"

# the proved programs print what docs/PROGRAMS.md says, where they are built
if [ -x target/bin/share_printer ] && [ -x target/bin/points_printer ] && [ -x target/bin/size_printer ] && [ -x target/bin/trial ]; then
    sed -n 's/^    //p' docs/PROGRAMS.md >"$own/due"
    grep -c '^\$ ' "$own/due" | grep -qx 4 || fail "docs/PROGRAMS.md has not four calls"
    sed -n 's/^\$ //p' "$own/due" | while IFS= read -r line; do printf '$ %s\n' "$line" && sh -c "$line"; done >"$own/said"
    diff "$own/due" "$own/said" || fail "a program prints something else than docs/PROGRAMS.md"
    echo "ok the programs print what docs/PROGRAMS.md says"
else
    echo "skipped: the programs of docs/PROGRAMS.md are not built"
fi

# no word that was to be filled in
! grep -nE '\b(TODO|TBD|XXX|[A-Z]*TIME[A-Z]*|PLACEHOLDER)\b' "$page" || fail "a word that was to be filled in"
words=$(wc -w <"$page")
[ "$words" -le 2500 ] || fail "$words words"
for request in 1 2 3 4 5 6 7 8 9 10 11 12 13 14; do
    [ "$(grep -c "^| A\.$request " "$page")" -eq 1 ] || fail "no row, or more than one, of request A.$request"
done

# links of all pages for readers: file.md and file.md#heading, seen from the page's folder
links=0
for from in "$page" docs/*.md docs/*/*.md; do
    [ -f "$from" ] || continue
    folder=$(dirname "$from")
    for link in $(grep -o '](\([^)]*\))' "$from" | sed 's/^](//; s/)$//' | sort -u); do
        case $link in http*) continue ;; '#'*) to=$from ;; *) to=$folder/${link%%#*} ;; esac
        links=$((links + 1))
        [ -e "$to" ] || fail "$from: $link leads nowhere"
        case $link in
        *'#'*)
            # a heading's name: small letters, blanks as hyphens, no other marks
            sed -n 's/^##* //p' "$to" | tr 'A-Z ' 'a-z-' | sed 's/[^a-z0-9_-]//g' | grep -qxF -- "${link#*#}" || fail "$from: $to has no heading ${link#*#}"
            ;;
        esac
    done
done
[ "$links" -gt 20 ] || fail "only $links links"
echo "ok README.md: $words words, all fourteen requests; $links links of it and of the pages lead somewhere"

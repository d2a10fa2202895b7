#!/bin/sh
# ./dist: that two tarballs of one commit, made in different folders, have the same bytes; that one, unpacked elsewhere, has the files that it must, whose
# sums are right, and is used as it lies (tests/take.sh); what its page PROOF says; and what ./dist says where it cannot. Copies of the tree as it stands
# are tried, with a made-up prover that hands over the archive that is proved, or the one that ZBK_ARCHIVE names, seen from the top folder.
set -eu
cd "$(dirname "$0")/.."
own=$(mktemp -d)
trap 'rm -rf "$own"' EXIT
passed=0
fail() { echo "FAIL dist: $*"; exit 1; }
ok() { passed=$((passed + 1)) && echo "ok dist: $*"; }
. tests/copy.sh
LC_ALL=C
export LC_ALL

sh tests/prove_archive.sh
archive=${ZBK_ARCHIVE:-target/staticlib/libzebrankai.a}
case $archive in /*) ;; *) archive=$PWD/$archive ;; esac
unset ZBK_ARCHIVE
prover "$own/rt" "$archive"
PATH=$own/rt:$PATH
one=$own/one
two="$own/deeper/number two"
copy "$one"
copy "$two"
commit=$(git -C "$one" rev-parse HEAD)
[ "$(git -C "$two" rev-parse HEAD)" = "$commit" ] || fail "the two copies are not one commit"

# dist TREE WORDS: what it says is in out and said
dist() { (cd "$own" && tree=$1 && shift && "$tree/dist" "$@" >"$own/out" 2>"$own/said"); }
# tarball: the path that was printed
tarball() { head -n 1 "$own/out"; }

# ---- two of one commit, made by different people
dist "$one" || fail "$(cat "$own/said")"
first=$(tarball)
version=$(sed -n 's/^version = "\(.*\)"$/\1/p' bindings/rust/Cargo.toml)
name=zebrankai-$version-$(uname -m)-linux
[ "$first" = "$one/target/dist/$name.tar.gz" ] || fail "it prints $(cat "$own/out")"
[ "$(sed -n 's/^sha256 \([0-9a-f]*\);.*/\1/p' "$own/out")" = "$(sha256sum <"$first" | cut -d ' ' -f 1)" ] || fail "another sum is printed"
(umask 077 && TZ=Asia/Tokyo && export TZ && dist "$two" "there/it is") || fail "in another folder: $(cat "$own/said")"
second=$(tarball)
[ "$second" = "$own/there/it is/$name.tar.gz" ] || fail "in another folder it prints $(cat "$own/out")"
cmp "$first" "$second" || fail "two tarballs of one commit differ"
ok "two tarballs of one commit, made in different folders, have the same bytes"
[ -z "$(git -C "$one" status --porcelain)" ] || fail "it wrote in the tree"

# ---- the tarball: names sorted, one owner, the commit's time
TZ=UTC tar --numeric-owner --full-time -tvf "$first" >"$own/listing"
[ "$(awk '{ print $2, $4, $5 }' "$own/listing" | sort -u)" = '0/0 2026-01-02 03:04:05' ] || fail "other owners or times: $(head -n 3 "$own/listing")"
tar -tf "$first" >"$own/names"
sort "$own/names" | diff "$own/names" - || fail "the names are not sorted"
awk '{ print $1 }' "$own/listing" | sort -u | tr '\n' ' ' >"$own/modes"
[ "$(cat "$own/modes")" = '-rw-r--r-- -rwxr-xr-x drwxr-xr-x lrwxrwxrwx ' ] || fail "other modes: $(cat "$own/modes")"
ok "names, owners, times, modes"

# ---- unpacked elsewhere, with what it was made from gone
here="$own/un packed"
mkdir "$here"
tar -x -f "$first" -C "$here"
[ -z "$(find "$one/target" "$two/target" -type l)" ] || fail "a link is left in target/, at which the prover would stop: $(find "$one/target" "$two/target" -type l)"
rm -r "$one/target/product" "$two/target/product"
here="$here/$name"
{
    printf '%s\n' PROOF README SHA256SUMS bin/zbk include/zebrankai.h include/zebrankai_util.h lib/cmake/zebrankai/zebrankai-config-version.cmake \
        lib/cmake/zebrankai/zebrankai-config.cmake lib/libzebrankai.a lib/libzebrankai.so lib/libzebrankai.so.1 lib/pkgconfig/zebrankai-shared.pc \
        lib/pkgconfig/zebrankai.pc share/bash-completion/completions/zbk share/man/man1/zbk.1
    for page in CALLS.md REFUSALS.md TOOL.md USE.md boards.svg bus.svg; do echo "share/doc/zebrankai/$page"; done
    find examples -type f | sed 's,^,share/doc/zebrankai/,'
} | sort >"$own/due"
(cd "$here" && find . ! -type d | sed 's,^\./,,' | sort) | diff "$own/due" - || fail "other files"
cmp "$archive" "$here/lib/libzebrankai.a" || fail "another archive"
for header in zebrankai zebrankai_util; do cmp "include/$header.h" "$here/include/$header.h" || fail "another header"; done
if grep -rqF "$own" "$here"; then fail "the folder that it was made in stands in $(grep -rlF "$own" "$here")"; fi
ok "its files, and no path of where it was made"

sums() { (cd "$1" && sha256sum --quiet --strict -c SHA256SUMS) >"$own/said" 2>&1; }
sums "$here" || fail "sha256sum: $(cat "$own/said")"
[ "$(wc -l <"$here/SHA256SUMS")" -eq "$(($(wc -l <"$own/due") - 2))" ] || fail "SHA256SUMS has not all files"
for file in PROOF lib/libzebrankai.a bin/zbk; do
    cp -R "$here" "$own/altered"
    printf x >>"$own/altered/$file"
    if sums "$own/altered"; then fail "an altered $file is not seen by its sum"; fi
    rm -r "$own/altered"
done
ok "SHA256SUMS: $(wc -l <"$here/SHA256SUMS" | tr -d ' ') files, and an altered one shows"

sh tests/take.sh "$here" || fail "it cannot be used where it lies"
ok "used where it lies"

# ---- PROOF
crates=$(sed 's/#.*//' crates.txt | grep -c :)
edits=$(find crates -name '*.edit' -path '*/must-fail/*' | wc -l | tr -d ' ')
# proof TEXT: a line of the page of the tarball unpacked
proof() { grep -qxF -- "$1" "$here/PROOF" || fail "PROOF does not say '$1': $(cat "$here/PROOF")"; }
proof "Zebrankai $version: what of this tarball is proved, and how it was tried"
proof "commit            $commit, of 2026-01-02"
proof 'toolchain         made-up 1'
proof "crates            $crates in the tree"
proof "must-fail edits   $edits in the tree"
grep -qE '^bin/zbk needs     glibc 2\.[0-9.]+ or later$' "$here/PROOF" || fail "PROOF does not say which glibc zbk needs"
proof 'last whole test   not run on this commit'
proof "$(sha256sum <"$archive" | cut -d ' ' -f 1)"
ok "PROOF, with no test run"

# the verdict of a run is that of its commit alone: kept where the tree was that commit's from beginning to end, and all passed
verdict() {
    (cd "$one" && sh tests/verdict.sh begin >"$own/begun" && eval "$1" && printf 'more\n%s\n' "$2" >"$own/last" && sh tests/verdict.sh end "$own/begun" "$own/last" && eval "$3" && sh tests/verdict.sh "$commit")
}
[ "$(verdict : '7 passed, 0 failed' :)" = '7 passed, 0 failed' ] || fail "a verdict is not kept"
[ "$(cd "$one" && sh tests/verdict.sh "${commit%?}")" = 'not run on this commit' ] || fail "a verdict is given for another commit"
[ "$(verdict : '6 passed, 1 failed' :)" = 'not run on this commit' ] || fail "a run that failed is kept"
[ "$(verdict 'echo more >>README.md' '7 passed, 0 failed' 'git checkout --quiet README.md')" = 'not run on this commit' ] || fail "a run in a changed tree is kept"
(cd "$one" && echo more >>README.md && sh tests/verdict.sh begin >"$own/begun" && git checkout --quiet README.md)
[ ! -s "$own/begun" ] || fail "a run that begins in a changed tree is a commit's"
[ "$(verdict : '8 passed, 0 failed' :)" = '8 passed, 0 failed' ] || fail "a verdict is not kept"
dist "$one" || fail "with a verdict: $(cat "$own/said")"
grep -qF 'last whole test: 8 passed, 0 failed' "$own/out" || fail "the verdict is not printed: $(cat "$own/out")"
rm -r "$here"
tar -x -f "$first" -C "$own/un packed"
proof 'last whole test   8 passed, 0 failed'
ok "PROOF, with a test run of this commit"

# ---- what it says where it cannot; nothing is written then
rm -r "$one/target/dist"
# refuses STATUS TEXT WORDS
refuses() {
    status=0 due=$1 text=$2
    shift 2
    dist "$one" "$@" || status=$?
    [ "$status" -eq "$due" ] || fail "$text: status $status and not $due: $(cat "$own/said")"
    grep -qF -- "$text" "$own/said" || fail "it does not say '$text' but: $(cat "$own/said")"
    [ ! -s "$own/out" ] || fail "$text: it prints $(cat "$own/out")"
    [ -z "$(find "$one/target/dist" "$own/nowhere" -name '*.tar.gz*' 2>/dev/null)" ] || fail "$text: it wrote a tarball"
    ok "refused: $text"
}
refuses 2 'one FOLDER, not 2 words' a b
refuses 2 'the FOLDER is empty' ''
refuses 2 'no option --to' --to=here
[ ! -d /proc/self ] || refuses 1 'cannot make the folder /proc/zebrankai' /proc/zebrankai
echo 'a file' >"$own/a_file"
refuses 1 "cannot make the folder $own/a_file" a_file
echo more >>"$one/include/zebrankai.h"
refuses 1 ' M include/zebrankai.h'
grep -qF 'the tree has changes that are not committed' "$own/said" || fail "a changed file, and it says $(cat "$own/said")"
git -C "$one" checkout --quiet include/zebrankai.h
: >"$one/tools/left_over"
refuses 1 '?? tools/left_over'
rm "$one/tools/left_over"
for tool in git rt cargo gcc; do
    without "$own/without" $tool
    path=$PATH
    # shellcheck disable=SC2123 # the path itself
    PATH=$own/without
    refuses 1 "$tool"
    PATH=$path
    grep -qE "(^|: )${tool}[ ,].*is not on the path" "$own/said" || fail "without $tool it says $(cat "$own/said")"
done
mv "$one/.git" "$own/git"
refuses 1 "$one is not a git checkout"
mv "$own/git" "$one/.git"
# a tree that changes while it is built: a prover that alters a file
sed 's,^lib),& echo more >>../../README.md;,' "$own/rt/rt" >"$own/rt/altering"
mv "$own/rt/rt" "$own/rt/true"
mv "$own/rt/altering" "$own/rt/rt"
chmod +x "$own/rt/rt"
rm -f "$one/target/staticlib/libzebrankai.a.of"
refuses 1 ' M README.md'
git -C "$one" checkout --quiet README.md
mv "$own/rt/true" "$own/rt/rt"

# a zbk that cannot print its page or its completion, from a made-up cargo
mkdir "$own/cargo"
cat >"$own/cargo/cargo" <<'CARGO'
#!/bin/sh
while [ "$1" != --target-dir ]; do shift; done
mkdir -p "$2/release"
printf '#!/bin/sh\ncase $1 in %s) echo "zbk: no command $1" >&2 && exit 2 ;; esac\necho "of zbk"\n' "$LACKS" >"$2/release/zbk"
chmod +x "$2/release/zbk"
CARGO
chmod +x "$own/cargo/cargo"
path=$PATH
PATH=$own/cargo:$PATH
for lacks in --man --completion; do
    rm -rf "$one/target/product"
    LACKS=$lacks refuses 1 "zbk has no '$lacks"
    grep -qF "it says: zbk: no command $lacks" "$own/said" || fail "it does not say why: $(cat "$own/said")"
done
PATH=$path

# an archive that no shared library can be made of: code with an address in it; and one that lacks a call
sed -n 's/^uint[0-9]*_t \(zbk_[a-z0-9_]*\)(.*/\1/p' include/zebrankai.h >"$own/calls"
# product TEXT: of an archive with this code, what is said
product() {
    gcc -c -x assembler "$own/code.s" -o "$own/code.o"
    rm -f "$one/target/staticlib/libzebrankai.a"
    ar rcs "$one/target/staticlib/libzebrankai.a" "$own/code.o"
    if (cd "$one" && PATH=$own/cargo:$PATH LACKS=none sh tools/product.sh "$own/nowhere" /nowhere) >"$own/out" 2>"$own/said"; then [ -z "$1" ] || fail "an archive is taken, and it should say: $1"; return; fi
    [ -n "$1" ] || fail "an archive is not taken: $(cat "$own/said")"
    grep -qF -- "$1" "$own/said" || fail "it does not say '$1' but: $(cat "$own/said")"
    ok "refused: $1"
}
{ echo '.text' && sed 's/.*/.globl &\n.type &, @function\n&: ret/' "$own/calls" && echo '.section .note.GNU-stack,"",@progbits'; } >"$own/right.s"
cp "$own/right.s" "$own/code.s"
product ''
# shellcheck disable=SC2016 # the assembler's sign
sed 's/^zbk_read: ret$/zbk_read: movabs $zbk_share, %rax\nret/' "$own/right.s" >"$own/code.s"
product 'its code is not position independent'
sed '/zbk_read_text\>/d' "$own/right.s" >"$own/code.s"
product "the shared library's calls are not those of the header"
{ cat "$own/right.s" && printf '.text\n.globl zbk_another\n.type zbk_another, @function\nzbk_another: ret\n'; } >"$own/code.s"
product ''
if nm -D --defined-only "$own/nowhere/lib/libzebrankai.so.1" | grep -q zbk_another; then fail "a name that the header does not have is seen from outside"; fi
ok "a name that the header does not have is not seen from outside"

dist "$one" --help || fail "--help"
[ "$(head -n 1 "$own/out")" = 'usage: ./dist [FOLDER]' ] || fail "--help prints $(cat "$own/out" "$own/said")"
echo "dist: $passed passed, 0 failed"

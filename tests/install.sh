#!/bin/sh
# ./install: what it writes and what not, that a C program compiles and runs by the two lines that it prints and by each other way (tests/take.sh), that
# those of README.md do (tests/readme.sh), that
# --uninstall leaves all as it was, and what it says where it cannot. Where pkg-config is not on the machine, the words are read from its file. Proves and
# builds the archive first where that is not done; where ZBK_ARCHIVE names another one, seen from the top folder, a copy of the tree is tried, with a
# made-up prover that hands that one over.
set -eu
cd "$(dirname "$0")/.."
own=$(mktemp -d)
trap 'rm -rf "$own"' EXIT
# where it installs; all else that the test writes is beside it
work=$own/work
mkdir "$work"
fail() { echo "FAIL install: $*"; exit 1; }
. tests/copy.sh

sh tests/prove_archive.sh
tree=$PWD
if [ -n "${ZBK_ARCHIVE:-}" ]; then
    case $ZBK_ARCHIVE in /*) prover "$own/rt" "$ZBK_ARCHIVE" ;; *) prover "$own/rt" "$PWD/$ZBK_ARCHIVE" ;; esac
    PATH=$own/rt:$PATH
    tree=$own/tree
    copy "$tree"
    cd "$tree"
fi
unset ZBK_ARCHIVE DESTDIR
# later than all that the copy has
sleep 1
: >"$own/began"

has_pkg=$(command -v pkg-config || true)
PATH=$(sh tests/pkg_config.sh "$own"):$PATH

# install WORDS: in the folder work; what it says is in out and said
install() { (cd "$work" && "$tree/install" "$@" >"$own/out" 2>"$own/said"); }
# found FOLDER: all that is in it, a line each; nothing where it is missing
found() { [ ! -d "$1" ] || (cd "$1" && find . | LC_ALL=C sort); }

# all that it puts, in this order, but the list
{
    printf '%s\n' bin/zbk include/zebrankai.h include/zebrankai_util.h lib/cmake/zebrankai/zebrankai-config-version.cmake \
        lib/cmake/zebrankai/zebrankai-config.cmake lib/libzebrankai.a lib/libzebrankai.so lib/libzebrankai.so.1 lib/pkgconfig/zebrankai-shared.pc \
        lib/pkgconfig/zebrankai.pc share/bash-completion/completions/zbk share/man/man1/zbk.1
    for page in CALLS.md REFUSALS.md TOOL.md USE.md boards.svg bus.svg; do echo "share/doc/zebrankai/$page"; done
    find examples -type f | sed 's,^,share/doc/zebrankai/,'
} | LC_ALL=C sort >"$own/due"
{ cat "$own/due" && echo share/zebrankai/installed; } | LC_ALL=C sort >"$own/due.all"

# checked BELOW PREFIX WHAT: these files, as they must be
checked() {
    (cd "$1" && find . -type f -o -type l | sed 's,^\./,,' | LC_ALL=C sort) | diff "$own/due.all" - || fail "$3: other files"
    [ "$(cd "$1" && find . -type f ! -perm 644)" = ./bin/zbk ] || fail "$3: a file that not everybody can read, or that is run and should not"
    [ "$(cd "$1" && find bin/zbk -perm 755)" = bin/zbk ] || fail "$3: zbk cannot be run"
    cmp include/zebrankai.h "$1/include/zebrankai.h" || fail "$3: another header"
    cmp include/zebrankai_util.h "$1/include/zebrankai_util.h" || fail "$3: other helpers"
    cmp target/staticlib/libzebrankai.a "$1/lib/libzebrankai.a" || fail "$3: another archive"
    [ "$(readlink "$1/lib/libzebrankai.so")" = libzebrankai.so.1 ] || fail "$3: libzebrankai.so leads elsewhere"
    for module in zebrankai zebrankai-shared; do
        grep -qxF "prefix=$2" "$1/lib/pkgconfig/$module.pc" || fail "$3: another prefix in the file of pkg-config"
    done
    # the list has each of them, and says what it is
    sed 1d "$1/share/zebrankai/installed" | awk '$1 == "file" || $1 == "link" { print $3 }' | diff "$own/due" - || fail "$3: another list"
    sed -n 's/^file \([0-9a-f]*\) /\1  /p' "$1/share/zebrankai/installed" | (cd "$1" && sha256sum --quiet -c -) || fail "$3: other sums in the list"
}
# used WHAT: a program by the two lines that were printed, and with the helpers
used() {
    include=$(sed -n 's/^    \(#include .*\)/\1/p' "$own/out")
    cc=$(sed -n 's/^    \(.*cc program\.c .*\)/\1/p' "$own/out")
    if [ -z "$include" ] || [ -z "$cc" ]; then fail "$1: the two lines are not printed"; fi
    rm -rf "$own/use"
    mkdir "$own/use"
    { printf '%s\n' "$include" && sed '/^#include "zebrankai\.h"$/d' examples/c/shelf.c; } >"$own/use/program.c"
    (cd "$own/use" && sh -c "$cc") || fail "$1: the program does not compile by: $cc"
    "$own/use/program" >"$own/use/out" || fail "$1: the program does not run"
    grep -qF '<zebrankai_util.h>' "$own/out" || fail "$1: the helpers are not named"
    echo "ok installed and used: $1"
}
# taken PREFIX WHAT: each way to use it
taken() {
    if ! sh tests/take.sh "$1" >"$own/taken" 2>&1; then
        cat "$own/taken"
        fail "$2: it cannot be used in each way"
    fi
    sed -n '/^skipped/p' "$own/taken"
    echo "ok used by pkg-config, by CMake, and zbk: $2"
}

install "$work/plain" || fail "a plain PREFIX: $(cat "$own/said")"
checked "$work/plain" "$work/plain" "a plain PREFIX"
used "a plain PREFIX"
taken "$work/plain" "a plain PREFIX"
sh tests/readme.sh "$work/plain" || fail "the programs of README.md"
version=$(sed -n 's/^version = "\(.*\)"$/\1/p' bindings/rust/Cargo.toml)
cat >"$own/expected" <<END
prefix=$work/plain
includedir=\${prefix}/include
libdir=\${prefix}/lib

Name: zebrankai
Description: A proved stock store: a file over n shelf boards, any k give it back, up to r rebuilt together
Version: $version
Cflags: -I"\${includedir}"
Libs: -L"\${libdir}" -l:libzebrankai.a
END
diff "$own/expected" "$work/plain/lib/pkgconfig/zebrankai.pc" || fail "another file of pkg-config"
sed 's/^Name: .*/&-shared/; s/^Description: .*/&; the shared library/; s/-l:.*/-lzebrankai/' "$own/expected" | diff - "$work/plain/lib/pkgconfig/zebrankai-shared.pc" || fail "another file of pkg-config for the shared library"
if [ -n "$has_pkg" ]; then
    for module in zebrankai zebrankai-shared; do
        PKG_CONFIG_PATH=$work/plain/lib/pkgconfig pkg-config --validate $module || fail "pkg-config does not take its file $module"
    done
fi

# moved elsewhere, with the prefix named
if [ -n "$has_pkg" ]; then
    cp -R "$work/plain" "$work/moved"
    words=$(PKG_CONFIG_PATH=$work/moved/lib/pkgconfig pkg-config --define-variable=prefix="$work/moved" --cflags --libs zebrankai)
    [ "${words% }" = "-I$work/moved/include -L$work/moved/lib -l:libzebrankai.a" ] || fail "moved elsewhere: $words"
    rm -r "$work/moved"
fi

install "$work/plain" || fail "a second time: $(cat "$own/said")"
checked "$work/plain" "$work/plain" "a second time"
used "a second time"

install "with a space/and more/" || fail "a PREFIX with a space: $(cat "$own/said")"
checked "$work/with a space/and more" "$work/with a space/and more" "a relative PREFIX with a space"
used "a relative PREFIX with a space"
taken "$work/with a space/and more" "a relative PREFIX with a space"

install ./relative/. || fail "a relative PREFIX: $(cat "$own/said")"
checked "$work/relative" "$work/relative" "a relative PREFIX"
used "a relative PREFIX"

# another archive than the proved one is never installed
ZBK_ARCHIVE=$own/began install "$work/named" || fail "with ZBK_ARCHIVE: $(cat "$own/said")"
checked "$work/named" "$work/named" "with ZBK_ARCHIVE set"
used "with ZBK_ARCHIVE set"

# DESTDIR: all below it, for use at PREFIX, which is not touched
for stage in "$work/stage" stage/; do
    DESTDIR=$stage install "$work/later" || fail "with DESTDIR: $(cat "$own/said")"
    [ ! -e "$work/later" ] || fail "with DESTDIR the PREFIX itself is written"
    checked "$work/stage$work/later" "$work/later" "with DESTDIR"
    grep -qxF "written below $work/stage$work/later, to be used at $work/later." "$own/out" || fail "with DESTDIR it says $(cat "$own/out")"
    cp -R "$work/stage$work/later" "$work/later"
    used "with DESTDIR=$stage"
    rm -r "$work/later"
    DESTDIR=$stage install --uninstall "$work/later" || fail "uninstall with DESTDIR: $(cat "$own/said")"
    [ ! -e "$work/stage" ] || fail "uninstall with DESTDIR leaves $(found "$work/stage")"
done
echo "ok uninstalled: with DESTDIR"

# ---- uninstall: nothing is left where nothing was
count=$(wc -l <"$own/due" | tr -d ' ')
for prefix in plain 'with a space/and more' relative named; do
    install --uninstall "$prefix" || fail "uninstall $prefix: $(cat "$own/said")"
    printf 'removed %s files below %s, and the list of them\n' "$count" "$work/$prefix" | diff - "$own/out" || fail "uninstall $prefix says something else"
done
[ -z "$(found "$work" | sed 1d)" ] || fail "uninstall leaves $(found "$work")"
echo "ok uninstalled: nothing is left"

# what others have there stays, empty folders too; a changed file stays and is named; what an earlier install put and this one does not is removed
mkdir -p "$work/shared/lib" "$work/shared/share/man" "$work/shared/empty"
echo theirs >"$work/shared/lib/theirs"
found "$work" >"$own/before"
install shared || fail "beside others: $(cat "$own/said")"
install --uninstall shared || fail "uninstall beside others: $(cat "$own/said")"
found "$work" | diff "$own/before" - || fail "uninstall beside others"
[ "$(cat "$work/shared/lib/theirs")" = theirs ] || fail "a file of others was altered"
install shared
mkdir "$work/shared/share/zebrankai/earlier"
echo earlier >"$work/shared/share/zebrankai/earlier/page"
echo earlier >"$work/shared/lib/kept"
{
    echo "file $(echo earlier | sha256sum | cut -d ' ' -f 1) share/zebrankai/earlier/page"
    echo "file $(echo another | sha256sum | cut -d ' ' -f 1) lib/kept"
    echo 'folder share/zebrankai/earlier'
} >>"$work/shared/share/zebrankai/installed"
install shared || fail "over an earlier one: $(cat "$own/said")"
[ ! -e "$work/shared/share/zebrankai/earlier/page" ] || fail "what an earlier install put is still there"
[ "$(cat "$work/shared/lib/kept")" = earlier ] || fail "a file that is not as it was put was removed"
rm "$work/shared/lib/kept"
echo '/* mine */' >>"$work/shared/include/zebrankai.h"
ln -sfn elsewhere "$work/shared/lib/libzebrankai.so"
install --uninstall shared || fail "uninstall with a changed file: $(cat "$own/said")"
{
    echo "removed $((count - 2)) files below $work/shared, and the list of them"
    echo "left: $work/shared/include/zebrankai.h, which is not as it was put"
    echo "left: $work/shared/lib/libzebrankai.so, which is not as it was put"
} >"$own/expected"
diff "$own/expected" "$own/out" || fail "uninstall with changed files says something else"
rm "$work/shared/include/zebrankai.h" "$work/shared/lib/libzebrankai.so"
rmdir "$work/shared/include"
found "$work" | diff "$own/before" - || fail "uninstall with changed files"
echo "ok uninstalled: what others have stays"

# a file that is missing is no matter; half an install can be removed
install half || fail "half: $(cat "$own/said")"
rm -r "$work/half/lib" "$work/half/bin/zbk"
install --uninstall half || fail "uninstall of a half: $(cat "$own/said")"
[ ! -e "$work/half" ] || fail "uninstall of a half leaves $(found "$work/half")"
echo "ok uninstalled: a half"
rm -r "$work/shared"

# refuses STATUS TEXT WORDS: ends with the status, says the text, prints nothing
refuses() {
    status=0 due=$1 text=$2
    shift 2
    install "$@" || status=$?
    [ "$status" -eq "$due" ] || fail "$text: status $status and not $due"
    grep -qF -- "$text" "$own/said" || fail "it does not say '$text' but: $(cat "$own/said")"
    [ ! -s "$own/out" ] || fail "$text: it prints $(cat "$own/out")"
    echo "ok refused: $text"
}
install named || fail "named: $(cat "$own/said")"
echo 'a file' >"$work/a_file"
# lists that are none of its own: nothing is removed by them
mkdir -p "$work/listed/share/zebrankai" "$work/forged/share/zebrankai" "$work/odd/share/zebrankai"
echo victim >"$work/victim"
victim=$(sha256sum <"$work/victim" | cut -d ' ' -f 1)
head=$(head -n 1 "$work/named/share/zebrankai/installed")
echo "file $victim ../victim" >"$work/listed/share/zebrankai/installed"
printf '%s\nfile %s ../victim\n' "$head" "$victim" >"$work/forged/share/zebrankai/installed"
printf '%s\nfile %s lib/../../victim\n' "$head" "$victim" >"$work/odd/share/zebrankai/installed"
found "$work" >"$own/before"
refuses 2 'where to? Name a PREFIX'
refuses 2 'one PREFIX, not 2 words' a b
refuses 2 'the PREFIX is empty' ''
refuses 2 'no option --prefix' --prefix=/usr
refuses 2 'uninstall from where? Name a PREFIX' --uninstall
refuses 2 'one PREFIX, not 2 words' --uninstall a b
refuses 2 'no option --uninstall' --uninstall --uninstall
refuses 1 "there is no list $work/empty/share/zebrankai/installed" --uninstall empty
refuses 1 "$work/listed/share/zebrankai/installed is not a list of ./install; nothing is removed" --uninstall listed
refuses 1 "$work/forged/share/zebrankai/installed is not a list of ./install; nothing is removed" --uninstall forged
refuses 1 "$work/odd/share/zebrankai/installed is not a list of ./install; nothing is removed" --uninstall odd
refuses 1 "$work/odd/share/zebrankai/installed is not a list of ./install" odd
refuses 1 'a_file is not a folder' a_file
refuses 1 'a_file is not a folder' a_file/below/it
refuses 1 "$work/named/include/zebrankai.h is not a folder" named/include/zebrankai.h
refuses 1 'would read as something else' 'a"b'
refuses 1 'would read as something else' "a:b"
[ ! -d /proc/self ] || refuses 1 'cannot write in /proc' /proc/zebrankai
if [ "$(id -u)" != 0 ]; then
    mkdir "$work/locked" && chmod 555 "$work/locked"
    refuses 1 "cannot write in $work/locked" locked/below
    rmdir "$work/locked"
fi
for file in include/zebrankai_util.h lib/libzebrankai.a bin/zbk lib/libzebrankai.so.1 share/zebrankai/installed; do
    mkdir -p "$work/full/$file"
    refuses 1 "$work/full/$file is a folder" full
    rm -r "$work/full"
done
# programs that are not there
for tool in rt cargo gcc; do
    without "$own/without" $tool
    path=$PATH
    # shellcheck disable=SC2123 # the path itself
    PATH=$own/without
    refuses 1 "$tool" missing
    PATH=$path
    grep -qE "(^|: )${tool}[ ,].*is not on the path" "$own/said" || fail "without $tool it says $(cat "$own/said")"
done

# where the archive is not proved, nothing is written: a copy, with a prover that proves nothing
mkdir -p "$own/copy/tests" "$own/copy/tools" "$own/copy/crates/zebrankai" "$own/prover"
cp install crates.txt "$own/copy"
cp tests/prove_archive.sh tests/made_of.sh tests/jobs.sh "$own/copy/tests"
cp tools/product.sh "$own/copy/tools"
printf '#!/bin/sh\necho "rt: made-up, proves nothing"\nexit 1\n' >"$own/prover/rt"
chmod +x "$own/prover/rt"
if (cd "$work" && PATH=$own/prover:$PATH "$own/copy/install" "$work/unproved" >"$own/out" 2>"$own/said"); then fail "installed though it is not proved"; fi
grep -q '^the archive could not be proved and built' "$own/said" || fail "not proved, and it says: $(cat "$own/said")"
echo "ok refused: an archive that is not proved"

install --help || fail "--help"
[ "$(head -n 1 "$own/out")" = 'usage: ./install PREFIX' ] || fail "--help prints $(cat "$own/out" "$own/said")"
grep -qF 'DESTDIR' "$own/out" || fail "--help does not name DESTDIR"

found "$work" | diff "$own/before" - || fail "a refused call wrote or removed something"
written=$(find . \( -path ./target -o -path ./.git -o -path './crates/*/out' \) -prune -o -type f -newer "$own/began" -print)
[ -z "$written" ] || fail "written in the repository: $written"
echo "install: all passed"

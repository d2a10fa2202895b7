#!/bin/sh
# sh tools/product.sh FOLDER PREFIX: makes FOLDER anew, with all that ./install and ./dist hand out, as it lies below a prefix: the archive, which is
# there and proved, a shared library made of it, headers, files for pkg-config and CMake, zbk with its page and its completion, docs and examples.
# PREFIX is what the files of pkg-config name as theirs. The same files give the same bytes, in whatever folder they lie.
# sh tools/product.sh --tools: only sees whether the programs are there that it needs, before anything is proved.
set -eu
cd "$(dirname "$0")/.."
fail() { printf 'product: %s\n' "$*" >&2; exit 1; }
command -v cargo >/dev/null || fail "cargo is not on the path; it builds zbk"
for tool in gcc nm readelf; do
    command -v "$tool" >/dev/null || fail "$tool is not on the path; the shared library is made with it"
done
[ "$1" != --tools ] || exit 0
case $1 in /*) out=$1 ;; *) out=$PWD/$1 ;; esac
prefix=$2
archive=$PWD/target/staticlib/libzebrankai.a
[ -f "$archive" ] || fail "there is no archive $archive"
version=$(sed -n 's/^version = "\(.*\)"$/\1/p' bindings/rust/Cargo.toml)
[ -n "$version" ] || fail "no version in bindings/rust/Cargo.toml"
umask 022
rm -rf "$out"
for folder in bin include lib/pkgconfig lib/cmake/zebrankai share/man/man1 share/bash-completion/completions share/doc/zebrankai; do
    mkdir -p "$out/$folder"
done
own=$(mktemp -d)
trap 'rm -rf "$own"' EXIT

cp include/zebrankai.h include/zebrankai_util.h "$out/include"
cp "$archive" "$out/lib/libzebrankai.a"

# ---- the shared library: of the archive's names just the calls that the header declares, each bound to the library's own code, so that what was
# proved is what runs. Code with addresses in it would have to be altered when it is loaded: that is refused (-z text), not patched over.
sed -n 's/^uint[0-9]*_t \(zbk_[a-z0-9_]*\)(.*/\1/p' include/zebrankai.h | LC_ALL=C sort >"$own/calls"
[ -s "$own/calls" ] || fail "no calls in include/zebrankai.h"
{
    echo 'ZEBRANKAI_1 {'
    echo '    global:'
    sed 's/.*/        &;/' "$own/calls"
    echo '    local: *;'
    echo '};'
} >"$own/calls.map"
gcc -shared -o "$out/lib/libzebrankai.so.1" -Wl,-soname,libzebrankai.so.1 -Wl,--version-script="$own/calls.map" -Wl,-Bsymbolic -Wl,-z,text -Wl,-z,defs \
    -Wl,-z,relro -Wl,-z,now -Wl,-z,noexecstack -Wl,--build-id=none -Wl,--gc-sections -s -Wl,--whole-archive "$archive" -Wl,--no-whole-archive 2>"$own/said" || {
    cat "$own/said" >&2
    fail "no shared library can be made of the archive: where the linker names a relocation, its code is not position independent"
}
# the version itself is listed too, as a name of kind A
nm -D --defined-only "$out/lib/libzebrankai.so.1" | awk '$2 != "A" { sub(/@.*/, "", $3); print $3 }' | LC_ALL=C sort | diff "$own/calls" - >&2 ||
    fail "the shared library's calls are not those of the header"
if readelf -d "$out/lib/libzebrankai.so.1" | grep -q TEXTREL; then fail "the shared library has text relocations"; fi
ln -s libzebrankai.so.1 "$out/lib/libzebrankai.so"

# ---- for pkg-config: 'zebrankai' is the archive, which a program carries with it, 'zebrankai-shared' the shared library
# a space in a path stands in quotes; in pkg-config's own name for the folder of its file it is written '\ ' already
case $prefix in
'$'*) quote= ;;
*) quote='"' ;;
esac
pc() {
    cat <<PC
prefix=$prefix
includedir=\${prefix}/include
libdir=\${prefix}/lib

Name: $1
Description: $2
Version: $version
Cflags: -I$quote\${includedir}$quote
Libs: -L$quote\${libdir}$quote $3
PC
}
about='A proved stock store: a file over n shelf boards, any k give it back, up to r rebuilt together'
pc zebrankai "$about" -l:libzebrankai.a >"$out/lib/pkgconfig/zebrankai.pc"
pc zebrankai-shared "$about; the shared library" -lzebrankai >"$out/lib/pkgconfig/zebrankai-shared.pc"

# ---- for CMake
cp tools/package/zebrankai-config.cmake "$out/lib/cmake/zebrankai"
sed "s/@VERSION@/$version/" tools/package/zebrankai-config-version.cmake >"$out/lib/cmake/zebrankai/zebrankai-config-version.cmake"

# ---- zbk, built in a workspace of its own: cargo's names then do not hang on the folder that the tree lies in, and no path of it is in the program
build=$PWD/target/product/build
rm -rf "$build/bindings" "$build/tools"
mkdir -p "$build/bindings" "$build/tools"
cp -Rp bindings/rust "$build/bindings/rust"
cp -Rp tools/zbk "$build/tools/zbk"
for crate in bindings/rust tools/zbk; do
    sed '/^\[workspace\]$/d' "$crate/Cargo.toml" >"$build/$crate/Cargo.toml"
    touch -r "$crate/Cargo.toml" "$build/$crate/Cargo.toml"
    rm -f "$build/$crate/Cargo.lock"
done
# for `readme = "../../README.md"`
cp -p README.md "$build"
printf '[workspace]\nresolver = "2"\nmembers = ["bindings/rust", "tools/zbk"]\n' >"$build/Cargo.toml"
(
    unset RUSTFLAGS CARGO_ENCODED_RUSTFLAGS CARGO_BUILD_RUSTFLAGS CARGO_BUILD_TARGET
    export ZBK_ARCHIVE="$archive" CARGO_INCREMENTAL=0 CARGO_PROFILE_RELEASE_STRIP=symbols
    cd "$build"
    cargo build --offline --quiet --release -j1 --target-dir "$build/target" -p zbk
) || fail "cargo could not build zbk"
zbk=$build/target/release/zbk
cp "$zbk" "$out/bin/zbk"

# printed WORDS..: what zbk prints of itself for these words
printed() {
    if ! "$zbk" "$@" 2>"$own/said" || [ -s "$own/said" ]; then
        fail "zbk has no '$*'; it says: $(head -n 1 "$own/said")"
    fi
}
printed --man >"$out/share/man/man1/zbk.1"
printed --completion bash >"$out/share/bash-completion/completions/zbk"
for page in share/man/man1/zbk.1 share/bash-completion/completions/zbk; do
    [ -s "$out/$page" ] || fail "zbk prints nothing for $page"
done

# ---- pages and examples
# those that a user turns to, with the drawings that they show: no link of one leads out of the folder
for page in CALLS.md REFUSALS.md TOOL.md USE.md boards.svg bus.svg; do cp "docs/$page" "$out/share/doc/zebrankai"; done
cp -R examples "$out/share/doc/zebrankai/examples"

find "$out" -type d -exec chmod 755 {} +
find "$out" -type f -exec chmod 644 {} +
chmod 755 "$out/bin/zbk"

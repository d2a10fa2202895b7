#!/bin/sh
# sh tests/take.sh PREFIX: a C program in a scratch folder, built from what lies below PREFIX as a user would, and run: by pkg-config with the archive and
# with the shared library, by CMake with each of its two targets; and zbk, its page and its completion. Where pkg-config is not on the machine, the words
# are read from its file; CMake and man are used where they are there. One line for each way; ends with exit code 1 where one fails.
set -eu
prefix=$1
cd "$(dirname "$0")/.."
own=$(mktemp -d)
trap 'rm -rf "$own"' EXIT
fail() {
    [ ! -f "$own/said" ] || cat "$own/said"
    echo "FAIL take: $*"
    exit 1
}
LC_ALL=C
export LC_ALL
unset LD_LIBRARY_PATH CPATH LIBRARY_PATH CMAKE_PREFIX_PATH
PATH=$(sh tests/pkg_config.sh "$own"):$PATH

{ printf '#include <zebrankai.h>\n' && sed '/^#include "zebrankai\.h"$/d' examples/c/shelf.c; } >"$own/shelf.c"
gcc -Iinclude "$own/shelf.c" "$prefix/lib/libzebrankai.a" -o "$own/due"
"$own/due" >"$own/due.out" || fail "the example itself"
[ -s "$own/due.out" ] || fail "the example says nothing"
cat >"$own/helpers.c" <<'PROGRAM'
#include <stdio.h>
#include <zebrankai_util.h>
static uint8_t area[ZBK_AREA_LEN(5, 2, 3, 2, 4)], points[ZBK_MAX_BOARDS];
int main(void) {
    uint64_t record[ZBK_RECORD_WORDS], repair[ZBK_REPAIR_WORDS];
    zbk_standard_points(points, 5);
    puts(zbk_refusal_name(zbk_refusal(zbk_set_up(record, ZBK_RECORD_WORDS, repair, ZBK_REPAIR_WORDS, 5, 2, 3, 2, points, sizeof points, 4))));
    return sizeof area != zbk_record_area_len(record);
}
PROGRAM

# needs PROGRAM: whether the program asks for the shared library when it starts
needs() { readelf -d "$1" | grep NEEDED | grep -qF '[libzebrankai.so.1]'; }
# runs WHAT PROGRAM: the example's output is as it must be
runs() {
    "$2" >"$own/out" 2>"$own/said" || fail "$1: the program does not run"
    diff "$own/due.out" "$own/out" >"$own/said" || fail "$1: the program says something else"
}

# by pkg-config
words() { PKG_CONFIG_PATH=$prefix/lib/pkgconfig pkg-config --cflags --libs "$1"; }
for module in zebrankai zebrankai-shared; do
    words=$(words $module) || fail "pkg-config does not take $module"
    for program in shelf helpers; do
        # a space in a path is written as '\ ', which eval reads
        eval "gcc -std=c99 -Wall -Werror '$own/$program.c' $words -o '$own/$program'" >"$own/said" 2>&1 || fail "$program by pkg-config and $module: $words"
    done
    if [ $module = zebrankai ]; then
        if needs "$own/shelf"; then fail "by pkg-config and $module the shared library is linked"; fi
        runs "$module" "$own/shelf"
        [ "$("$own/helpers")" = ACCEPTED ] || fail "$module: the helpers"
    else
        needs "$own/shelf" || fail "by pkg-config and $module the shared library is not linked"
        if "$own/shelf" >/dev/null 2>&1; then fail "$module: it runs with no shared library"; fi
        LD_LIBRARY_PATH=$prefix/lib runs "$module" "$own/shelf"
        [ "$(LD_LIBRARY_PATH=$prefix/lib "$own/helpers")" = ACCEPTED ] || fail "$module: the helpers"
    fi
    echo "ok by pkg-config: $module"
done

# the shared library: its name, its calls, nothing to alter in its code
so=$prefix/lib/libzebrankai.so.1
readelf -d "$so" | grep SONAME | grep -qF '[libzebrankai.so.1]' || fail "another soname"
if readelf -d "$so" | grep -q TEXTREL; then fail "text relocations"; fi
sed -n 's/^uint[0-9]*_t \(zbk_[a-z0-9_]*\)(.*/\1/p' include/zebrankai.h | sort >"$own/calls"
nm -D --defined-only "$so" | awk '$2 != "A" { sub(/@.*/, "", $3); print $3 }' | sort | diff "$own/calls" - || fail "the shared library has other names than the header's calls"
[ "$(wc -l <"$own/calls")" -eq 20 ] || fail "not twenty calls"
echo "ok the shared library's names"

# by CMake
if command -v cmake >/dev/null; then
    mkdir "$own/cmake"
    cat >"$own/cmake/CMakeLists.txt" <<'LISTS'
cmake_minimum_required(VERSION 3.10)
project(use C)
find_package(zebrankai 0.1 REQUIRED)
# twice, as where two parts of a program ask for it
find_package(zebrankai 0.1 REQUIRED)
add_executable(archive ../shelf.c)
target_link_libraries(archive PRIVATE zebrankai::zebrankai)
add_executable(shared ../shelf.c)
target_link_libraries(shared PRIVATE zebrankai::shared)
LISTS
    cmake -S "$own/cmake" -B "$own/built" -DCMAKE_PREFIX_PATH="$prefix" >"$own/said" 2>&1 || fail "CMake does not find it"
    cmake --build "$own/built" >"$own/said" 2>&1 || fail "CMake does not build"
    if needs "$own/built/archive"; then fail "zebrankai::zebrankai is the shared library"; fi
    needs "$own/built/shared" || fail "zebrankai::shared is not the shared library"
    # CMake leaves the library's folder in the program that it builds
    for target in archive shared; do runs "CMake's $target" "$own/built/$target"; done
    # versions that it is not, and one that it is
    for version in 0.1.0:0 0.1:0 0.2:1 0.0:1 1.0:1 0.1.1:1; do
        mkdir -p "$own/asked"
        printf 'cmake_minimum_required(VERSION 3.10)\nproject(use NONE)\nfind_package(zebrankai %s REQUIRED)\n' "${version%:*}" >"$own/asked/CMakeLists.txt"
        rm -rf "$own/asked/built"
        status=0
        cmake -S "$own/asked" -B "$own/asked/built" -DCMAKE_PREFIX_PATH="$prefix" >"$own/said" 2>&1 || status=1
        [ "$status" -eq "${version#*:}" ] || fail "CMake and version ${version%:*}"
    done
    echo "ok by CMake: archive, shared, versions"
else
    echo "skipped CMake: it is not on this machine"
fi

# zbk and its pages
printf 'seven boxes of tea\n' >"$own/stock"
"$prefix/bin/zbk" spread "$own/stock" "$own/boards" --boards 5 --read 2 --helpers 3 --fresh 2 >"$own/said" 2>&1 || fail "zbk does not spread"
"$prefix/bin/zbk" gather "$own/boards/board-3.txt" "$own/boards/board-1.txt" -o "$own/back" >"$own/said" 2>&1 || fail "zbk does not gather"
cmp "$own/stock" "$own/back" || fail "zbk gathers another file"
"$prefix/bin/zbk" --man | cmp -s - "$prefix/share/man/man1/zbk.1" || fail "another page of zbk than its own"
if command -v man >/dev/null; then
    man --warnings -l "$prefix/share/man/man1/zbk.1" >"$own/page" 2>"$own/said" || fail "man does not show zbk's page"
    [ ! -s "$own/said" ] || fail "man warns of zbk's page"
    grep -q zbk "$own/page" || fail "zbk does not stand in its page"
else
    echo "skipped man: it is not on this machine"
fi
if command -v bash >/dev/null; then
    # shellcheck disable=SC2016 # it is bash that reads it
    bash -c '. "$1" && complete -p zbk' bash "$prefix/share/bash-completion/completions/zbk" >"$own/said" 2>&1 || fail "bash does not take zbk's completion"
fi
echo "ok zbk, its page and its completion"

#!/usr/bin/env bash
# Installs into a folder of its own, and checks what a maker's engineer finds there: the files, the example program by
# pkg-config, the exported names, the program with its page, a package's DESTDIR, and that nothing stays after uninstalling.
# A line for each that holds; the first that does not is named in one, and ends it.
set -euo pipefail
cd "$(dirname "$0")/.."
export LC_ALL=C
# What whoever runs this has set for an installation of their own, or for a make around this one, is not for these.
unset PREFIX DESTDIR MAKEFLAGS MAKELEVEL

scripts/needs make gcc g++ nm readelf pkg-config valgrind groff cmp diff
scratch=$(mktemp -d)
trap 'rm -rf "$scratch"' EXIT
prefix=$scratch/usr
export PKG_CONFIG_PATH=$prefix/lib/pkgconfig
strict="-O2 -Wall -Wextra -Wpedantic -Werror"

# By the compiler, not as the Makefile reads it.
interface=$(gcc -E -dM include/avsplus.h | sed -n 's/^#define AVSPLUS_VERSION \([0-9]*\)u$/\1/p')

fail() {
    echo "FAIL $1"
    exit 1
}

# does WHAT COMMAND..: it succeeds; what it says is shown only where it does not.
does() {
    local what=$1
    shift
    "$@" >"$scratch/said" 2>&1 || { cat "$scratch/said"; fail "$what: '$*' failed"; }
}

# answers WHAT STATUS COMMAND..: it ends with that exit status; its output is kept in scratch/out and scratch/err.
answers() {
    local what=$1 wanted=$2 status=0
    shift 2
    "$@" >"$scratch/out" 2>"$scratch/err" || status=$?
    [ "$status" = "$wanted" ] || fail "$what: exit status $status, not $wanted: $(head -1 "$scratch/err")"
}

# equal WHAT WANTED GOT: of texts.
equal() {
    [ "$2" = "$3" ] || fail "$1: '$3', not '$2'"
    echo "ok   $1"
}

# same WHAT WANTED GOT: of files; where they differ, the first line that is only wanted (<) or only got (>).
same() {
    cmp -s "$2" "$3" || fail "$1: $(diff "$2" "$3" | sed -n 2p)"
    echo "ok   $1"
}

# All below a folder that is no folder, with modes, and with what links point to.
files_below() {
    find "$1" -type f -printf '%P %m\n' -o -type l -printf '%P -> %l\n' | sort
}

installed_files() {
    does "make install" make install PREFIX="$prefix"
    cat >"$scratch/wanted" <<END
bin/avsplus 755
include/avsplus.h 644
lib/libavsplus.a 644
lib/libavsplus.so -> libavsplus.so.$interface
lib/libavsplus.so.$interface 644
lib/pkgconfig/avsplus.pc 644
share/doc/avsplus/RULES.md 644
share/man/man1/avsplus.1 644
END
    files_below "$prefix" >"$scratch/found"
    same "make install puts eight files there, and no other" "$scratch/wanted" "$scratch/found"
    same "the installed header is the repository's" include/avsplus.h "$prefix/include/avsplus.h"
    does "make -n install" make -n install PREFIX="$prefix"
    answers "make install, again" 1 grep -E '^(rt|cargo|gcc) ' "$scratch/said"
    echo "ok   make install builds nothing a second time"
}

# runs HOW PROGRAM: the built example answers as it says it does.
runs() {
    answers "$1, a recording" 0 "$2" samples/two-groups.avs
    same "$1: units, headers and the first group" examples/recording.txt "$scratch/out"
    answers "$1, a refused recording" 1 "$2" "$scratch/cut.avs"
    equal "$1: a refused recording" "refused with 11 at byte 658" "$(cat "$scratch/out")"
    answers "$1, a refused field" 1 "$2" "$scratch/rate.avs"
    equal "$1: a refused field" "refused with 25 at byte 0, bit 54 of the body" "$(cat "$scratch/out")"
    answers "$1, a recording without a display extension" 0 "$2" "$scratch/plain.avs"
    equal "$1: display size and colour not given" 2 "$(grep -c ' not given$' "$scratch/out")"
    answers "$1, no argument" 2 "$2"
    equal "$1: no argument, and nothing on standard output" "" "$(cat "$scratch/out")"
    answers "$1, a missing file" 2 "$2" "$scratch/missing.avs"
    equal "$1: a missing file, and nothing on standard output" "" "$(cat "$scratch/out")"
}

# needed PROGRAM: the shared libraries that it asks for, but for C's own.
needed() {
    readelf -d "$1" | sed -n 's/.*(NEEDED).*\[\(.*\)\]/\1/p' | grep -v '^libc\.' || true
}

example_in_c() {
    head -c -8 samples/two-groups.avs >"$scratch/cut.avs"
    local header='\0\0\1\xB0\x48\x40\x0F\x00\x21\xC2\x4C\xC4\xE2\x08\x00\x20\x02\x00\x80'
    local rest='\0\0\1\xB3\x80\0\0\1\0\x80\0\0\1\xB1'
    printf "$header$rest" >"$scratch/plain.avs"
    # Frame rate code 0.
    printf "${header/xC4/x04}$rest" >"$scratch/rate.avs"
    does "the example, shared" gcc -std=c11 $strict examples/recording.c $(pkg-config --cflags --libs avsplus) -o "$scratch/shared"
    equal "shared: the example asks for the installed library" "libavsplus.so.$interface" "$(needed "$scratch/shared")"
    LD_LIBRARY_PATH=$prefix/lib runs shared "$scratch/shared"
    does "the example, static" gcc -std=c11 $strict examples/recording.c $(pkg-config --cflags avsplus) \
        -L"$(pkg-config --variable=libdir avsplus)" -l:libavsplus.a -o "$scratch/static"
    equal "static: the example asks for no library of ours" "" "$(needed "$scratch/static")"
    runs static "$scratch/static"
    does "static, under valgrind" valgrind --quiet --leak-check=full --show-leak-kinds=all --error-exitcode=9 \
        "$scratch/static" samples/two-groups.avs
    echo "ok   static: under valgrind nothing is misread and nothing leaks"
}

# The example, built with the header of another interface, does not go on.
other_header() {
    mkdir "$scratch/other"
    sed "s/^#define AVSPLUS_VERSION .*/#define AVSPLUS_VERSION $((interface + 1))u/" include/avsplus.h >"$scratch/other/avsplus.h"
    does "the example, with another header" gcc -std=c11 $strict examples/recording.c -I"$scratch/other" \
        $(pkg-config --libs avsplus) -o "$scratch/older"
    LD_LIBRARY_PATH=$prefix/lib answers "another interface's header" 2 "$scratch/older" samples/two-groups.avs
    equal "another interface's header: exit 2, and nothing on standard output" "" "$(cat "$scratch/out")"
}

in_cpp() {
    cat >"$scratch/version.cc" <<'END'
#include <avsplus.h>
#include <iostream>

int main() { std::cout << avsplus_version() << " " << AVSPLUS_VERSION << "\n"; }
END
    does "C++" g++ -std=c++11 $strict "$scratch/version.cc" $(pkg-config --cflags --libs avsplus) -o "$scratch/version"
    LD_LIBRARY_PATH=$prefix/lib answers "C++" 0 "$scratch/version"
    equal "C++: library and header have interface $interface" "$interface $interface" "$(cat "$scratch/out")"
}

shared_library() {
    local library=$prefix/lib/libavsplus.so.$interface
    readelf -d "$library" >"$scratch/dynamic"
    equal "the shared library's own name" "libavsplus.so.$interface" "$(sed -n 's/.*(SONAME).*\[\(.*\)\]/\1/p' "$scratch/dynamic")"
    equal "the shared library needs no other, but for C's own" "" "$(needed "$library")"
    equal "of C's own it asks for memset alone" "memset" "$(nm -D --undefined-only "$library" | awk '{ sub(/@.*/, "", $NF); print $NF }')"
    gcc -E -P include/avsplus.h | grep -oE 'avsplus_[a-z0-9_]+\(' | tr -d '(' | sort >"$scratch/wanted"
    nm -D --defined-only "$library" | awk '{ print $NF }' | sort >"$scratch/found"
    same "its $(wc -l <"$scratch/found") names are the functions that the header declares" "$scratch/wanted" "$scratch/found"
    equal "pkg-config: the interface's number" "$interface" "$(pkg-config --variable=interface avsplus)"
}

program() {
    answers "avsplus --version" 0 "$prefix/bin/avsplus" --version
    local version
    version=$(awk 'NR == 1 { sub(/,$/, "", $2); print $2 }' "$scratch/out")
    equal "pkg-config: the version is that of the program" "$version" "$(pkg-config --modversion avsplus)"
    answers "avsplus file" 0 "$prefix/bin/avsplus" file samples/two-groups.avs
    same "the installed program files the sample" samples/two-groups.txt "$scratch/out"
}

# The page, without a warning, with a line that begins with each command that the program's help has a line for.
page() {
    local page=$prefix/share/man/man1/avsplus.1 commands
    answers "the page" 0 groff -Kutf8 -man -Tutf8 -ww -z "$page"
    equal "the page renders without a warning" "" "$(cat "$scratch/err")"
    groff -Kutf8 -man -Tutf8 -P-cbou "$page" >"$scratch/page"
    commands=$("$prefix/bin/avsplus" --help | awk '/^  [a-z]/ { print $1 }')
    [ "$(wc -w <<<"$commands")" -ge 7 ] || fail "avsplus --help names fewer than seven commands"
    for command in $commands; do
        grep -qE "^ *(avsplus )?$command( |$)" "$scratch/page" || fail "the page does not name the command $command"
    done
    echo "ok   the page names each command:" $commands
}

packaged() {
    does "make install with DESTDIR" make install DESTDIR="$scratch/stage" PREFIX="$prefix"
    files_below "$prefix" >"$scratch/wanted"
    files_below "$scratch/stage$prefix" >"$scratch/found"
    same "DESTDIR: the same files" "$scratch/wanted" "$scratch/found"
    files_below "$scratch/stage" | sed "s|^${prefix#/}/||" >"$scratch/found"
    same "DESTDIR: and no other" "$scratch/wanted" "$scratch/found"
    does "DESTDIR" diff -r --no-dereference "$prefix" "$scratch/stage$prefix"
    echo "ok   DESTDIR: the same in each, and pkg-config is told PREFIX alone"
    does "make uninstall with DESTDIR" make uninstall DESTDIR="$scratch/stage" PREFIX="$prefix"
    equal "DESTDIR: nothing stays" "" "$(files_below "$scratch/stage")"
}

# A PREFIX with a space in it; one that is no whole path, which pkg-config could not be told.
other_prefixes() {
    local spaced="$scratch/a maker"
    does "make install with a space" make install PREFIX="$spaced"
    local flags
    flags=$(PKG_CONFIG_PATH=$spaced/lib/pkgconfig pkg-config --cflags --libs avsplus)
    does "the example, with a space" eval "gcc examples/recording.c $flags -o '$scratch/spaced'"
    LD_LIBRARY_PATH=$spaced/lib answers "a space, a recording" 0 "$scratch/spaced" samples/two-groups.avs
    same "a PREFIX with a space in it" examples/recording.txt "$scratch/out"
    does "make uninstall with a space" make uninstall PREFIX="$spaced"
    equal "a PREFIX with a space in it: nothing stays" "" "$(files_below "$spaced")"
    answers "a PREFIX that is no whole path" 2 make install PREFIX=nowhere
    [ ! -e nowhere ] || fail "a PREFIX that is no whole path: something is installed"
    echo "ok   a PREFIX that is no whole path: nothing is installed"
}

uninstalled() {
    touch "$prefix/lib/libother.a"
    does "make uninstall" make uninstall PREFIX="$prefix"
    equal "make uninstall leaves nothing but what is not ours" "lib/libother.a" "$(files_below "$prefix" | cut -d' ' -f1)"
}

installed_files
example_in_c
other_header
in_cpp
shared_library
program
page
packaged
other_prefixes
uninstalled

#!/usr/bin/env bash
# What scripts/install puts into a folder, and what users do with it: the folder is moved, and the examples are compiled from elsewhere by
# pkg-config and by CMake, against the shared and the static library, as C and as C++. Then a second run over an older version, and errors.
set -u
cd "$(dirname "$0")/.." || exit 2
root=$PWD
work=$(mktemp -d)
trap 'rm -rf "$work"' EXIT
mkdir "$work/user" "$work/tmp" "$work/bin"
export TMPDIR=$work/tmp LC_ALL=C
unset CC PKG_CONFIG_PATH
version=$(sed -n 's/^#define TICKPLUME_VERSION "\(.*\)"$/\1/p' include/tickplume.h)
major=${version%%.*}
soname=libtickplume.so.${version%.*} # before 1.0

fail() {
    echo "$1"
    exit 1
}

# same PROGRAM: it writes what the simulators of examples/ write.
same() {
    "$1" 2>/dev/null | diff -u "$root/tests/expected/simulator" - || fail "${1##*/} writes something else"
}

# needs PROGRAM yes|no: whether it needs the shared library when it is run.
needs() {
    local found=no
    ! readelf -d "$1" | grep -q "NEEDED.*\[$soname\]" || found=yes
    [ "$found" = "$2" ] || fail "${1##*/}: needs the shared library: $found, not $2"
}

# no_leftovers FOLDER: nothing that was only on its way is in the folder, or among the temporary files.
no_leftovers() {
    local left
    left=$(find "$1" "$work/tmp" -mindepth 1 -name '.*' -print -o -path "$work/tmp/*" -print)
    [ -z "$left" ] || fail "left behind: $left"
}

# Installed from elsewhere, through links to the script, into a folder that is named from there and has a space.
first_run() {
    ln -s "$root/scripts/install" "$work/bin/real"
    ln -s bin/real "$work/install"
    (cd "$work" && ./install "first place/") >"$work/said" || fail "install failed"
    [ "$(wc -l <"$work/said")" -eq 2 ] || fail "install says: $(cat "$work/said")"
    no_leftovers "$work/first place"
    nm -D --defined-only "$work/first place/lib/libtickplume.so" | awk '{ print $3 }' >"$work/exported"
    sed -n 's/^uint64_t \(tickplume_[a-z_]*\)(.*/\1/p' include/tickplume.h | sort | diff - "$work/exported" || fail "other exports"
}

# The line that install ends with, as a user would copy it.
by_the_line() {
    cp examples/simulator.c "$work/user/program.c"
    (cd "$work/user" && eval "$(tail -n 1 "$work/said")") || fail "the line that install prints fails: $(tail -n 1 "$work/said")"
    same "$work/user/program"
    needs "$work/user/program" no
}

# The same for a folder whose name means much to a shell and to a linker.
odd_place() {
    local odd="$work/it's \$(touch \"run\") \\ a,b:c;\`d\`"
    scripts/install "$odd" >"$work/said" || fail "install into an odd folder failed"
    by_the_line
    if [ -e "$work/user/run" ] || [ -e run ]; then fail "the line runs what stands in the folder's name"; fi
    rm -rf "$odd"
}

by_pkg_config() {
    local flags lib=$work/second\ place/lib
    command -v pkg-config >/dev/null || { echo "skipped: pkg-config is not installed"; return; }
    cd "$work/user" || exit 1
    export PKG_CONFIG_PATH=$lib/pkgconfig
    [ "$(pkg-config --modversion tickplume)" = "$version" ] || fail "pkg-config tells another version"
    eval "flags=($(pkg-config --cflags --libs tickplume))"
    cc "$root/examples/simulator.c" "${flags[@]}" -o c-shared || exit 1
    c++ "$root/examples/simulator.cpp" "${flags[@]}" -o cpp-shared || exit 1
    eval "flags=($(pkg-config --cflags tickplume) $(pkg-config --variable=archive tickplume))"
    cc "$root/examples/simulator.c" "${flags[@]}" -o c-static || exit 1
    c++ "$root/examples/simulator.cpp" "${flags[@]}" -o cpp-static || exit 1
    for program in c-static cpp-static; do needs $program no && same ./$program; done
    for program in c-shared cpp-shared; do
        needs $program yes
        LD_LIBRARY_PATH=$lib same ./$program
    done
    unset PKG_CONFIG_PATH
    cd "$root" || exit 1
}

by_cmake() {
    command -v cmake >/dev/null || { echo "skipped: cmake is not installed"; return; }
    mkdir "$work/cmake"
    cat >"$work/cmake/CMakeLists.txt" <<CMAKE
cmake_minimum_required(VERSION 3.5...3.25)
project(user C CXX)
set(CMAKE_CXX_STANDARD 11)
foreach(other 99 $major.99 $version.1 0.0)
  find_package(tickplume \${other} QUIET)
  if(tickplume_FOUND)
    message(FATAL_ERROR "version \${other} is found in version $version")
  endif()
endforeach()
find_package(tickplume $version EXACT REQUIRED)
find_package(tickplume ${version%.*} REQUIRED)
find_package(tickplume REQUIRED)
foreach(language c cpp)
  add_executable(\${language}-shared "$root/examples/simulator.\${language}")
  target_link_libraries(\${language}-shared PRIVATE tickplume::tickplume)
  add_executable(\${language}-static "$root/examples/simulator.\${language}")
  target_link_libraries(\${language}-static PRIVATE tickplume::static)
endforeach()
CMAKE
    (cmake -S "$work/cmake" -B "$work/cmake/build" "-DCMAKE_PREFIX_PATH=$work/second place" && cmake --build "$work/cmake/build") \
        >"$work/cmake/said" 2>&1 || fail "cmake: $(cat "$work/cmake/said")"
    for program in c cpp; do
        same "$work/cmake/build/$program-shared"
        needs "$work/cmake/build/$program-shared" yes
        same "$work/cmake/build/$program-static"
        needs "$work/cmake/build/$program-static" no
    done
}

# Over an older version: its library goes, and every link leads to this one's.
over_an_older() {
    local place=$work/second\ place
    mv "$place/lib/libtickplume.so.$version" "$place/lib/$soname.99"
    ln -sf "$soname.99" "$place/lib/$soname"
    ln -sf "$soname.99" "$place/lib/libtickplume.so"
    for file in include/tickplume.h include/tickplume.hpp lib/libtickplume.a lib/pkgconfig/tickplume.pc \
        lib/cmake/tickplume/tickplume-config.cmake; do
        echo old >"$place/$file"
    done
    scripts/install "$place" >"$work/said" || fail "a second run failed"
    cmp include/tickplume.h "$place/include/tickplume.h" && cmp include/tickplume.hpp "$place/include/tickplume.hpp" || exit 1
    cmp target/native/libtickplume.a "$place/lib/libtickplume.a" || exit 1
    grep -qx "Version: $version" "$place/lib/pkgconfig/tickplume.pc" || fail "an old file for pkg-config"
    grep -q "^# Tickplume $version:" "$place/lib/cmake/tickplume/tickplume-config.cmake" || fail "an old file for CMake"
    [ "$(cd "$place/lib" && echo libtickplume.*)" = "libtickplume.a libtickplume.so $soname libtickplume.so.$version" ] ||
        fail "libraries: $(ls "$place/lib")"
    for link in libtickplume.so "$soname"; do
        [ "$(readlink -f "$place/lib/$link")" = "$(readlink -f "$place")/lib/libtickplume.so.$version" ] || fail "$link leads elsewhere"
    done
    no_leftovers "$place"
}

# refuses STATUS ARGUMENTS..: install ends with the status and one sentence, and makes no folder.
refuses() {
    local status=$1 got
    shift
    "$tree/scripts/install" "$@" >"$work/out" 2>"$work/err"
    got=$?
    [ "$got" -eq "$status" ] || fail "install $*: status $got, not $status"
    { [ ! -s "$work/out" ] && [ "$(wc -l <"$work/err")" -eq 1 ] && grep -q '^install: .*\.$' "$work/err"; } ||
        fail "install $*: says $(cat "$work/out" "$work/err")"
    [ ! -e "$work/none" ] || fail "install $*: made a folder"
    no_leftovers "$work/user"
}

# All but the last are said before the library is looked at; the last is a library that cannot be built.
errors() {
    local tree=$work/tree
    mkdir -p "$tree/scripts" && cp scripts/install "$tree/scripts" && cp -R include "$tree" || exit 1
    printf '#!/bin/sh\n: >"%s/looked-at"\nexit 1\n' "$work" >"$tree/scripts/native-library"
    refuses 2
    refuses 2 ""
    refuses 2 --prefix
    refuses 2 "$work/none" "$work/none"
    refuses 1 "$work/said"
    refuses 1 "$work/said/none"
    CC=no-such-compiler refuses 1 "$work/none"
    [ "$(id -u)" -eq 0 ] || { mkdir -m 555 "$work/closed" && refuses 1 "$work/closed"; }
    [ ! -e "$work/looked-at" ] || fail "the library was looked at first"
    refuses 1 "$work/none"
    scripts/install --help >"$work/out" || fail "--help fails"
    grep -q '^usage: install PREFIX$' "$work/out" || fail "--help has no usage"
    scripts/install "$work/second place" >/dev/full 2>"$work/err" && fail "lost output is not told"
    { [ "$(wc -l <"$work/err")" -eq 1 ] && grep -q 'it is installed in .* could not be written' "$work/err"; } || fail "says $(cat "$work/err")"
}

# A rename that fails leaves what was there; so does an end by a signal while the compiler runs. Neither leaves anything half done.
cut_short() {
    local place=$work/second\ place pid status
    printf '#!/bin/sh\nexit 1\n' >"$work/bin/mv"
    printf '#!/bin/sh\n: >"%s/begun"\nwhile [ ! -e "%s/killed" ]; do sleep 0.05; done\n' "$work" "$work" >"$work/bin/slow-cc"
    chmod +x "$work/bin/mv" "$work/bin/slow-cc"
    find "$place" -type f -exec cksum {} + | sort >"$work/before"
    PATH=$work/bin:$PATH scripts/install "$place" >"$work/out" 2>"$work/err" && fail "a rename failed unseen"
    no_leftovers "$place"
    CC=$work/bin/slow-cc scripts/install "$place" >"$work/out" 2>"$work/err" &
    pid=$!
    for _ in $(seq 200); do [ -e "$work/begun" ] || sleep 0.05; done
    kill -TERM "$pid"
    : >"$work/killed"
    wait "$pid"
    status=$?
    [ "$status" -eq 143 ] || fail "ended by a signal: status $status"
    no_leftovers "$place"
    find "$place" -type f -exec cksum {} + | sort | diff "$work/before" - || fail "a run that was cut short changed something"
}

first_run
by_the_line
mv "$work/first place" "$work/second place"
by_pkg_config
by_cmake
odd_place
over_an_older
errors
cut_short

#!/usr/bin/env bash
# The library as C and C++ programs meet it: both headers under every standard, with and without optimisation, by each compiler that is
# there, free of warnings and right; programs that must not compile; programs of several files; the examples; how much stack the calls use;
# and what the archive exports and wants. gcc and g++ must be there, clang and clang++ may be.
set -u
cd "$(dirname "$0")/.." || exit 2

. tests/need
need gcc gcc
need g++ g++

sh scripts/native-library tickplume || exit 1

build=$(mktemp -d)
trap 'rm -rf "$build"' EXIT
export LC_ALL=C
strict=(-Wall -Wextra -Wpedantic -Wconversion -Wshadow -Werror -Iinclude)
library=(-Ltarget/native -ltickplume)
c=(gcc)
cpp=(g++)
if command -v clang >/dev/null; then c+=(clang); else echo "skipped: clang is not installed"; fi
if command -v clang++ >/dev/null; then cpp+=(clang++); else echo "skipped: clang++ is not installed"; fi

# later NAME COMMAND..: runs a check beside others, as many at a time as there are processors. What it says is printed if it fails.
cores=$(getconf _NPROCESSORS_ONLN 2>/dev/null || echo 2)
later() {
    local name=$1
    shift
    while [ "$(jobs -rp | wc -l)" -ge "$cores" ]; do wait -n; done
    (
        "$@" >"$build/$name.said" 2>&1 && exit
        { echo "failed: $name"; cat "$build/$name.said"; } >"$build/$name.failed"
    ) &
}

language() {
    case $1 in *++) echo c++ ;; *) echo c ;; esac
}

# built SOURCE PROGRAM COMPILER FLAGS..: compiles a source, a .c too as C++ where the compiler is one for C++, and links it.
built() {
    local source=$1 program=$2 compiler=$3
    shift 3
    "$compiler" "$@" "${strict[@]}" -x "$(language "$compiler")" "$source" -x none "${library[@]}" -o "$program"
}

# face SOURCE COMPILER FLAGS..: one of the two tests of the headers, built and run.
face() {
    local program
    program=$(mktemp "$build/face.XXXXXX")
    built "$1" "$program" "${@:2}" && "$program"
}

# example SOURCE EXPECTED COMPILER FLAGS..: builds an example and compares what it writes.
example() {
    local program
    program=$(mktemp "$build/example.XXXXXX")
    built "$1" "$program" "${@:3}" && "$program" 2>/dev/null | diff -u "tests/expected/$2" -
}

# keeps_apart COMPILER SOURCE CALL ENGINE OTHER..: the source with the call compiles where ASKED is the engine, and not where it is one of
# the others.
keeps_apart() {
    local try=("$1" -Iinclude -fsyntax-only "-DCALL=$3" -x "$(language "$1")" "$2") other
    "${try[@]}" "-DASKED=$4" || { echo "an engine is not taken"; return 1; }
    for other in "${@:5}"; do
        if "${try[@]}" "-DASKED=$other" 2>/dev/null; then
            echo "$other is taken for an engine"
            return 1
        fi
    done
}

# files_together C CPP: a program of two C files and one of two C++ files and a C file, all of which use the headers.
files_together() {
    local at
    at=$(mktemp -d "$build/files.XXXXXX")
    "$1" "${strict[@]}" -c "$build/other.c" -o "$at/other.o" &&
        "$1" "${strict[@]}" "$build/main.c" "$at/other.o" "${library[@]}" -o "$at/of-c" && "$at/of-c" &&
        "$2" "${strict[@]}" "$build/main.cpp" "$build/other.cpp" "$at/other.o" "${library[@]}" -o "$at/of-cpp" && "$at/of-cpp"
}

stack() {
    gcc -std=c11 "${strict[@]}" -O1 tests/stack.c "${library[@]}" -pthread -o "$build/stack" && "$build/stack" && return 0
    echo "a call was refused, or uses too much stack"
    return 1
}

# The archive exports what the header declares, wants memcpy and memset alone, and has no data that a call could change.
archive() {
    local declared exported wanted kept
    declared=$(sed -n 's/^uint64_t \(tickplume_[a-z_]*\)(.*/\1/p' include/tickplume.h | sort)
    exported=$(nm -g --defined-only target/native/libtickplume.a | awk 'NF == 3 { print $3 }' | sort)
    wanted=$(nm -u target/native/libtickplume.a | awk '$1 == "U" { print $2 }' | grep -vxE "memcpy|memset|${declared//$'\n'/|}")
    kept=$(size target/native/libtickplume.a | awk 'NR > 1 { sum += $2 + $3 } END { print sum + 0 }')
    [ "$(wc -l <<<"$declared")" -eq 9 ] || { echo "the header declares other than nine calls: $declared"; return 1; }
    [ "$declared" = "$exported" ] || { echo "the header declares: $declared; the archive exports: $exported"; return 1; }
    [ -z "$wanted" ] || { echo "the archive wants: $wanted"; return 1; }
    [ "$kept" -eq 0 ] || { echo "the archive has $kept bytes of data that may change"; return 1; }
}

versions() {
    local header crate
    header=$(sed -n 's/^#define TICKPLUME_VERSION "\(.*\)"$/\1/p' include/tickplume.h)
    crate=$(sed -n 's/^version = "\(.*\)"$/\1/p' rust/Cargo.toml)
    [ -n "$header" ] && [ "$header" = "$crate" ] && return 0
    echo "the header's version is '$header', the Rust crate's '$crate'"
    return 1
}

cat >"$build/asks.c" <<'C'
#include "tickplume.h"
int main(void) {
    const tickplume_duty_t duty = {1, 1};
    const tickplume_table_t table = {0, 0};
    const tickplume_engine_t engine = tickplume_engine(0);
    const tickplume_row_t row = {0};
    tickplume_dispatcher_t dispatcher = {{0}};
    (void)engine, (void)row, (void)duty, (void)dispatcher, (void)table;
    return (int)CALL.refusal.kind;
}
C
for call in 'tickplume_table_at(table, ASKED, 0)' 'tickplume_dispatcher_row(&dispatcher, table, ASKED)' \
    'tickplume_shares_at(1, &duty, 1, ASKED, 0)'; do
    for compiler in "${c[@]}" "${cpp[@]}"; do
        later "rows-$compiler-${call%%(*}" keeps_apart "$compiler" "$build/asks.c" "$call" engine row 0
    done
done
cat >"$build/asks.cpp" <<'CPP'
#include "tickplume.hpp"
int main() {
    const tickplume::Table table = tickplume::Table::build(1, {{1, 1}});
    return CALL.idle();
}
CPP
for compiler in "${cpp[@]}"; do
    later "rows-$compiler" keeps_apart "$compiler" "$build/asks.cpp" 'table.at(ASKED, 0)' 'tickplume::Engine(0)' 'tickplume::Row(0)' 0u
done

cat >"$build/other.c" <<'C'
#include "tickplume.h"
uint32_t duty_in_c(void);
uint32_t duty_in_c(void) {
    const tickplume_duty_t duties[] = {{2, 3}, {2, 3}, {2, 3}};
    uint8_t room[TICKPLUME_MOST_BYTES];
    return tickplume_table_at(tickplume_table_build(2, duties, 3, 0, room, sizeof room).table, tickplume_engine(0), 5).duty;
}
C
cat >"$build/main.c" <<'C'
#include "tickplume.h"
uint32_t duty_in_c(void);
int main(void) {
    const tickplume_duty_t duties[] = {{2, 3}, {2, 3}, {2, 3}};
    return tickplume_shares_at(2, duties, 3, tickplume_engine(0), 0).duty != 0 || duty_in_c() != 2;
}
C
cat >"$build/other.cpp" <<'CPP'
#include "tickplume.hpp"
std::uint32_t duty_in_cpp();
std::uint32_t duty_in_cpp() { return tickplume::Table::build(2, {{2, 3}, {2, 3}, {2, 3}}).at(tickplume::Engine(0), 5).duty(); }
CPP
cat >"$build/main.cpp" <<'CPP'
#include "tickplume.hpp"
extern "C" std::uint32_t duty_in_c();
std::uint32_t duty_in_cpp();
int main() {
    const tickplume::Table table = tickplume::Table::build(2, {{2, 3}, {2, 3}, {2, 3}});
    return table.at(tickplume::Engine(0), 5).duty() != duty_in_c() || duty_in_cpp() != 2;
}
CPP
for i in "${!cpp[@]}"; do later "files-${cpp[i]}" files_together "${c[i]:-gcc}" "${cpp[i]}"; done

for level in -O2 -O0; do
    for compiler in "${cpp[@]}"; do
        for standard in c++11 c++14 c++17 c++20; do
            later "c-face-$compiler-$standard$level" face tests/c-face.c "$compiler" "-std=$standard" "$level" -Wold-style-cast
            case $standard$level in c++14-O2 | c++17-O2) continue ;; esac # they take seconds and have what the two beside them have
            later "cpp-face-$compiler-$standard$level" face tests/cpp-face.cpp "$compiler" "-std=$standard" "$level" -Wold-style-cast
        done
    done
    for compiler in "${c[@]}"; do
        for standard in c99 c11 c17; do
            later "c-face-$compiler-$standard$level" face tests/c-face.c "$compiler" "-std=$standard" "$level" -Wstrict-prototypes
        done
    done
done
oldest() {
    case $1 in *++) echo -std=c++11 ;; *) echo -std=c99 ;; esac
}
for compiler in "${c[@]}" "${cpp[@]}"; do
    later "simulator-c-$compiler" example examples/simulator.c simulator "$compiler" "$(oldest "$compiler")"
    later "shares-c-$compiler" example examples/shares.c shares-c "$compiler" "$(oldest "$compiler")"
done
for compiler in "${cpp[@]}"; do later "simulator-cpp-$compiler" example examples/simulator.cpp simulator "$compiler" -std=c++11; done
later stack stack
later archive archive
later versions versions
wait

cat "$build/stack.said"
failed=$(find "$build" -name '*.failed' | sort)
if [ -n "$failed" ]; then
    while read -r file; do head -n 12 "$file"; done <<<"$failed" | head -n 200
    exit 1
fi
echo "C and C++: $(find "$build" -name '*.said' | wc -l) checks with ${c[*]} ${cpp[*]}"

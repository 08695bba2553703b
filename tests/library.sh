#!/usr/bin/env bash
# The library as Rust programs link it, natively on this machine: the Rust crate's tests, the comparison with the planners written apart,
# the search over every schedule, and both with errors planted, which must be seen. tests/c-and-cpp.sh has C and C++.
set -u
cd "$(dirname "$0")/.." || exit 2

. tests/need
need gcc gcc
need cargo cargo

sh scripts/native-library tickplume || exit 1

build=$(mktemp -d)
trap 'rm -rf "$build"' EXIT

(cd rust && cargo test --offline --release -q 2>&1) || exit 1
for program in boundaries stretches shares orders capacity; do
    (cd rust && cargo run --offline --release -q --example "$program") | diff -u "tests/expected/$program" - || {
        echo "other output of $program"
        exit 1
    }
done
(cd rust && cargo run --offline --release -q --example compare) || exit 1

# plant PROGRAM ERROR..: the program with each error, which it must see and tell by status 1.
plant() {
    local program=$1 error
    shift
    for error in "$@"; do
        (cd rust && cargo run --offline --release -q --example "$program" -- --plant "$error") >"$build/planted"
        [ $? -eq 1 ] || {
            echo "a planted error, $error, was not seen"
            exit 1
        }
        echo "planted $error: $(head -n 1 "$build/planted" | cut -c1-160)"
    done
}

plant compare backwards one-ring never ignores-length length-late greatest-alone last-chosen forgets-need negative-as-0
plant capacity exact-fit one-late two-engines jobs-late jobs-early

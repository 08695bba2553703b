#!/usr/bin/env bash
# The Rust crate as its users meet it: its layout, lints and pages; the simulator's loop; the README's program in a crate of its own, linked
# with a library that stands elsewhere; a row where an engine is asked, and the other way round, which must not compile; and a missing
# library, which is one sentence. The crate's own tests are run by tests/library.sh.
set -u
cd "$(dirname "$0")/.." || exit 2
unset TICKPLUME_LIB_DIR DOCS_RS

# fail WORDS: ends the test.
fail() {
    printf '%s\n' "$*"
    exit 1
}

. tests/need
need cargo cargo
sh scripts/native-library tickplume || exit 1
build=$(mktemp -d)
trap 'rm -rf "$build"' EXIT

# in_crate COMMAND..: cargo in the crate's folder, silent unless it fails.
in_crate() {
    (cd rust && cargo "$@") >"$build/said" 2>&1 && return
    cat "$build/said"
    fail "cargo $*"
}
if cargo fmt --version >/dev/null 2>&1; then in_crate fmt --check; else echo "cargo fmt is not installed: the layout is not checked"; fi
if cargo clippy --version >/dev/null 2>&1; then
    in_crate clippy --offline --release --all-targets -- -D warnings
else
    echo "cargo clippy is not installed: the lints are not checked"
fi
RUSTDOCFLAGS="-D warnings" in_crate doc --offline --release --no-deps
if grep -q '^license' rust/Cargo.toml && ! ls LICEN[CS]E* COPYING* >/dev/null 2>&1; then
    fail "rust/Cargo.toml claims a licence that the repository does not have"
fi

(cd rust && cargo run --offline --release -q --example simulator) | diff -u tests/expected/simulator - || fail "other output of simulator"

# block LANGUAGE: the first block of code in that language of the crate's README.
block() {
    awk -v start="\`\`\`$1" '/^```/ { if (inside) exit; inside = $0 == start; next } inside' rust/README.md
}

# A crate of a user's own: the README's dependency, with the path to here, and its first program.
mkdir -p "$build/user/src" "$build/lib" "$build/empty"
cp target/native/libtickplume.a "$build/lib/"
{
    printf '[package]\nname = "user"\nversion = "0.1.0"\nedition = "2021"\n\n'
    block toml | sed "s|\"[^\"]*/rust\"|\"$PWD/rust\"|"
} >"$build/user/Cargo.toml"
block rust >"$build/user/src/main.rs"
# user COMMAND..: cargo in that crate.
user() {
    (cd "$build/user" && CARGO_TARGET_DIR="$build/target" cargo "$@")
}
TICKPLUME_LIB_DIR="$build/lib" user run --offline -q | diff -u tests/expected/readme-rust - || fail "other output of the README's program"

# refused_type FILE: each program in a doc comment there that is marked as failing with E0308 has this error and no other. (rustdoc looks at
# the number on nightly alone.)
refused_type() {
    local programs=0 program
    awk -v out="$build/wrong" '
        /^ *\/\/\/ ```compile_fail,E0308$/ { n++; file = out n ".rs"; print "fn main() -> Result<(), tickplume::Refusal> {" >file; next }
        /^ *\/\/\/ ```$/ && file { print "}" >file; close(file); file = "" }
        file { sub(/^ *\/\/\/ ?/, ""); sub(/^# /, ""); print >file }' "$1"
    for program in "$build"/wrong*.rs; do
        programs=$((programs + 1))
        rustc --edition 2021 -L "$build/target/debug/deps" --extern tickplume --emit metadata -o "$build/none" "$program" 2>"$build/said" &&
            fail "it compiles: $(cat "$program")"
        [ "$(grep -o '^error\[.*\]' "$build/said")" = "error[E0308]" ] || fail "not E0308 alone: $(cat "$program" "$build/said")"
    done
    [ "$programs" -eq 2 ] || fail "$programs programs with E0308 in $1, not 2"
}
refused_type rust/src/plan.rs

# A missing library: cargo's own error with the sentence, and nothing from a linker.
sentence="$build/empty/libtickplume.a is missing: run \`scripts/install PREFIX\` in $PWD and set TICKPLUME_LIB_DIR=PREFIX/lib"
TICKPLUME_LIB_DIR="$build/empty" user build --offline >"$build/said" 2>&1 && fail "it builds without the library"
grep -qF "$sentence" "$build/said" || fail "another sentence: $(cat "$build/said")"
! grep -qiE 'linking|linker|ld:|native static library|panicked' "$build/said" || fail "more than the sentence: $(cat "$build/said")"
# An older cargo, which would pass over the line that stops a newer one: there the script itself fails.
rustc --edition 2021 -o "$build/script" rust/build.rs || fail "build.rs does not compile alone"
env -u CARGO_MANIFEST_PATH CARGO_MANIFEST_DIR="$PWD/rust" TICKPLUME_LIB_DIR="$build/empty" "$build/script" >"$build/out" 2>"$build/said" &&
    fail "an older cargo would go on to the linker"
grep -qxF "error: $sentence" "$build/said" || fail "another sentence: $(cat "$build/said")"
# A path that is not full would mean one folder to the script and another to the linker.
TICKPLUME_LIB_DIR=lib user build --offline >"$build/said" 2>&1 && fail "a path that is not full is taken"
grep -qF "TICKPLUME_LIB_DIR is lib, but it has to be a full path" "$build/said" || fail "another sentence: $(cat "$build/said")"
# The pages alone need no library.
TICKPLUME_LIB_DIR="$build/empty" DOCS_RS=1 user doc --offline -q || fail "no pages without the library"

#!/usr/bin/env bash
# What a person meets at a shell: ./plan and scripts/native-library with the kit and without, twice at once, through a link, on a terminal,
# interrupted, refused, with output that is lost. Where proving comes into it, a stand-in for rt proves nothing and takes a moment; the rest
# is the program itself.
set -u
cd "$(dirname "$0")/.." || exit 2
repository=$PWD
work=$(mktemp -d)
trap 'rm -rf "$work"' EXIT
failed=0
checks=0

# fault WORDS..: a check that failed, with what was seen.
fault() {
    failed=1
    echo "shell: $*"
    sed 's/^/  out: /' "$work/out" | head -n 5
    sed 's/^/  err: /' "$work/err" | head -n 5
}

# ends STATUS WORDS COMMAND..: the command's status, and one line on standard error that has WORDS, an extended regular expression; where they
# are empty nothing is said there at all, but for the progress of a slow machine.
ends() {
    local status=$1 words=$2 got
    shift 2
    checks=$((checks + 1))
    "$@" >"$work/out" 2>"$work/err"
    got=$?
    [ "$got" -eq "$status" ] || fault "status $got, not $status: $*"
    if [ -z "$words" ]; then
        ! grep -q -v 'proving, once' "$work/err" || fault "said on standard error, and should say nothing: $*"
    elif [ "$(grep -c -E "$words" "$work/err")" -ne 1 ]; then
        fault "not said on standard error: '$words': $*"
    fi
}

# is WORDS TEST..: a test of what was left.
is() {
    local words=$1
    shift
    checks=$((checks + 1))
    "$@" || fault "$words"
}

# ---- the program itself: files, links, refusals, lost output

./plan examples/p1 >/dev/null 2>&1 || { echo "shell: the plan program is not there"; exit 1; }
ends 0 '' ./plan examples/p1
is "a file name is not taken as standard input is" diff -q "$work/out" tests/expected/plan-p1
ends 0 '' sh -c './plan < examples/p1'
is "standard input is not taken" diff -q "$work/out" tests/expected/plan-p1
ends 0 '' sh -c './plan - < examples/p1'
mkdir "$work/elsewhere"
ln -s "$repository/plan" "$work/elsewhere/planner"
cp examples/p1 "$work/elsewhere/my set"
ends 0 '' sh -c "cd '$work/elsewhere' && ./planner 'my set'"
is "a link to the script prints something else" diff -q "$work/out" tests/expected/plan-p1
ends 0 '' ./plan --help
is "no help" grep -q '^usage: plan' "$work/out"
ends 2 'there is no option --halp; see ./plan --help' ./plan --halp
ends 2 'one file at a time' ./plan examples/p1 examples/p8
ends 2 "there is no file 'nowhere'" ./plan nowhere
ends 2 "there is no file ''" ./plan ''
ends 2 'examples is a folder' ./plan examples
ends 2 'standard input is a folder' sh -c './plan < examples'
ends 2 'the input could not be read' sh -c './plan <&-'
ends 2 'the input could not be read' sh -c "./plan 0>'$work/out'"
ends 0 '' ./plan -- examples/p1

for lost in '> /dev/full' '>&-'; do
    ends 4 'plan: the output could not be written' sh -c "./plan examples/p1 $lost"
    ends 4 'plan: the output could not be written' sh -c "./plan examples/overload $lost"
    ends 4 'plan: the output could not be written' sh -c "./plan --help $lost"
done
# the program by itself: it has no status to tell it by, but it says it
tools=$(sed -n 1p target/ready/plan)/toolchain
program=("$tools/lib/ld-linux-x86-64.so.2" --library-path "$tools/lib" target/bin/plan)
ends 0 'plan: the output could not be written' bash -c '"$@" < examples/p1 > /dev/full' bash "${program[@]}"
ends 0 '' bash -c '"$@" < examples/p1' bash "${program[@]}"

# refused INPUT LINE WORDS: the line on standard output, its meaning on standard error, status 1.
refused() {
    ends 1 "^plan: refused ${2%% *}.*: $3 \(docs/REFUSALS.md\)\$" sh -c "printf '$1' | ./plan"
    is "another line than 'refused $2'" test "$(cat "$work/out")" = "refused $2"
}
refused '0\n1 1\n' '1 0' 'the number of engines is not between 1 and 32'
refused '1\n' '3 0' 'the number of duties is not between 1 and 64'
refused '1\n1 1\n1 0\n' '4 1' "a duty's period is not between 1 and 1,000,000"
refused '1\n0 1\n' '5 0' "a duty's service is not between 1 and its period"
refused '1\n1 1\n1 2\n' '6 1' "a duty's share of a block is not a whole number of ticks"
refused '1\n1 1\n1 1\n' '7 0' 'the duties need more than the engines can serve'
refused '1\nx\n' '9 2' "a line of the plan program's input is faulty.*"
ends 1 'refused 6, duty 1: ' sh -c "printf '1\n1 1\n1 2\n' | ./plan"

# ---- proving: a house with a stand-in for rt, whose check takes $PACE seconds for each of four crates and fails where two run at once; what
# it makes, it makes where rt does

house="$work/the house"
mkdir -p "$house/crates" "$work/kit" "$work/bin" "$work/bare" "$work/room"
cp -r plan scripts include examples "$house/"
printf '%s\n' '# three and a program' 'one:' 'two: one' 'three: two' 'plan: two anyhow' 'tickplume staticlib: three' >"$house/crates.txt"
for crate in one two three tickplume; do mkdir -p "$house/crates/$crate/src" && : >"$house/crates/$crate/src/lib.rt"; done
mkdir -p "$house/crates/plan/src" && : >"$house/crates/plan/src/main.rt"
echo kit-1 >"$work/kit/KIT-ID"
cat >"$work/bin/uname" <<'UNAME'
#!/bin/sh
echo "${MACHINE:-x86_64}"
UNAME
cat >"$work/bin/rt" <<'RT'
#!/bin/sh
case $1 in
doc) echo "$KIT/START-HERE.md" && exit ;;
version) cat "$KIT/KIT-ID" && exit ;;
esac
name=$(basename "$PWD")
echo "$name $*" >>"$KIT/calls"
mkdir "$KIT/at-work" 2>/dev/null || { echo "rt: two at once: $name NOT PROVED" && exit 1; }
trap 'rmdir "$KIT/at-work"' EXIT
trap 'exit 1' TERM INT
mktemp -d >/dev/null
mkdir -p out
case $1 in
run) printf '#!/bin/sh\ncat >/dev/null\necho plan 1 1 1\n' >out/plan && chmod +x out/plan && exit ;;
lib) echo archive >out/libtickplume.a && exit ;;
esac
for crate in one two three four; do
    sleep "$PACE" &
    wait
    echo "== $crate"
    echo "fn $crate::f: proved"
done
[ ! -e "$KIT/broken" ] || { echo "four/Proof.antt:1:1: error: no" && echo "== summary" && echo "four: failed (1)" && exit 1; }
RT
chmod +x "$work/bin/uname" "$work/bin/rt"
export KIT=$work/kit PACE=0.01 TMPDIR=$work/room
# tools without rt; and the same with it
for tool in sh awk basename cat chmod cp cut date dirname env find flock grep head mkdir mktemp mv readlink rm rmdir script sed setsid sleep \
    touch uname wc; do
    ln -s "$(type -P $tool)" "$work/bare/$tool"
done
# shellcheck disable=SC2317 # called by name
bare() { PATH=$work/bare "$@"; }
full() { PATH=$work/bin:$work/bare "$@"; }
# how often something was proved
calls() {
    local n
    n=$(grep -s -c ' all check' "$KIT/calls")
    echo "${n:-0}"
}
anew() { rm -rf "$house"/target "$house"/crates/*/out "$KIT/calls" "$KIT/broken"; }
rooms() { find "$work/room" -maxdepth 1 -name 'tickplume.*' | wc -l; }
cd "$house" || exit 2

# without the kit
ends 3 "^plan: rt, the Rattle kit's command, is not on the PATH" bare ./plan examples/p1
is "more than one sentence" test "$(wc -l <"$work/err")" -eq 1
ends 3 "^native-library: rt, the Rattle kit's command, is not on the PATH" bare sh scripts/native-library tickplume
ends 0 '' bare ./plan --help

# on a machine that the kit is not for
MACHINE=aarch64 ends 3 '^plan: the Rattle kit is for x86-64, and this machine is aarch64' full ./plan examples/p1
MACHINE=aarch64 ends 3 '^native-library: the Rattle kit is for x86-64' full sh scripts/native-library tickplume

# with it: once, quiet where it is quick, and then never again
ends 0 '' full ./plan examples/p1
is "not proved once" test "$(calls)" -eq 1
ends 0 '' full ./plan examples/p1
is "proved again though nothing changed" test "$(calls)" -eq 1
ends 0 '' bare ./plan examples/p1
touch crates/two/src/lib.rt
ends 3 "the Rattle kit's command, is not on the PATH" bare ./plan examples/p1
ends 0 '' full ./plan examples/p1
is "not proved again though a source changed" test "$(calls)" -eq 2
touch crates/three/src/lib.rt
ends 0 '' full ./plan examples/p1
is "proved again though what changed is not below it" test "$(calls)" -eq 2
: >crates/two/src/more.rt && rm crates/two/src/more.rt
ends 0 '' full ./plan examples/p1
is "not proved again though a file went" test "$(calls)" -eq 3
echo kit-2 >"$KIT/KIT-ID"
ends 0 '' full ./plan examples/p1
is "not proved again by another kit" test "$(calls)" -eq 4
mkdir crates/two/out
touch crates/plan/out/plan
ends 0 '' full ./plan examples/p1
is "proved again though only what rt left changed" test "$(calls)" -eq 4
mkdir crates/two/specs
ends 0 '' full ./plan examples/p1
is "not proved again though a folder came" test "$(calls)" -eq 5
rmdir crates/two/specs
ends 0 '' full ./plan examples/p1
is "not proved again though a folder went" test "$(calls)" -eq 6

# a program that does not come to its end
printf '#!/bin/sh\n' >target/bin/plan
ends 3 'the program printed nothing' full ./plan examples/p1
printf '#!/bin/sh\necho plan 1 1 1\nkill -9 $$\n' >target/bin/plan
ends 3 'the program could not be run' full ./plan examples/p1
is "something on standard output" test ! -s "$work/out"

# a read that fails after a part that is well written, whether the program prints once it has all, or what it has by then
cat >"$work/bin/head" <<HEAD
#!/bin/sh
[ "\$1" != -c ] || { printf '2\n2 3\n' && sleep 0.2 && exit 1; }
exec $(type -P head) "\$@"
HEAD
chmod +x "$work/bin/head"
# .. but not where the program ended before it took what was read
printf '#!/bin/sh\n' >target/bin/plan
ends 3 'the program printed nothing' full ./plan examples/p1
# shellcheck disable=SC2016 # the stand-in's own text
for program in 'text=$(cat) && echo "$text"' cat; do
    printf '#!/bin/sh\n%s\n' "$program" >target/bin/plan
    ends 2 'the input could not be read' full ./plan examples/p1
    is "a plan of a part" test ! -s "$work/out"
done
rm "$work/bin/head"

# the library: quiet, once
ends 0 '' full sh scripts/native-library tickplume
is "something on standard output" test ! -s "$work/out"
is "no archive" test -s target/native/libtickplume.a
was=$(calls)
ends 0 '' full sh scripts/native-library tickplume
is "the library was made again though nothing changed" test "$(calls)" -eq "$was"
ends 2 "there is no library 'tickplum' in crates.txt" full sh scripts/native-library tickplum
ends 2 "there is no library 'two/../two' in crates.txt" full sh scripts/native-library two/../two
ends 2 'two is a library for other crates, and no static library' full sh scripts/native-library two
ends 2 'plan is a program, not a library' full sh scripts/native-library plan
ends 0 '' full sh scripts/native-library --help
ends 2 'usage: native-library NAME' full sh scripts/native-library

# where nothing may be written
anew
: >target
ends 3 'the house/target may not be written' full ./plan examples/p1
is "more than one sentence" test "$(wc -l <"$work/err")" -eq 1
rm target

# what is not proved is said in a few lines, keeps its log, and is tried again
anew
: >"$KIT/broken"
ends 3 'plan: not proved; target/proving.log has all' full ./plan examples/p1
is "the error is not told" grep -q 'Proof.antt:1:1: error: no' "$work/err"
is "the crate is not told" grep -q '^four: failed' "$work/err"
is "more lines than a few" test "$(wc -l <"$work/err")" -le 5
rm "$KIT/broken"
ends 0 '' full ./plan examples/p1

# progress, on a terminal and elsewhere
anew
export PACE=0.9
ends 0 '' full ./plan examples/p1
is "no progress" grep -q 'plan: proving, once: [123] of 3 crates' "$work/err"
is "more lines than five" test "$(wc -l <"$work/err")" -le 5
anew
ends 0 '' full script -qec "./plan examples/p1" "$work/typed"
is "no progress on a terminal" grep -q "$(printf '\r')plan: proving, once: [123] of 3 crates" "$work/out"
# shellcheck disable=SC2317 # called by name
typed() { printf '1\n1 1\n\004' | full script -qec ./plan "$work/typed"; }
ends 0 '' typed
is "a person at a terminal is not told what is wanted" grep -q "reading the duty set from the terminal" "$work/out"

# until_at_work: waits until the stand-in is at work, for five seconds at the most.
until_at_work() {
    for _ in $(seq 50); do [ -d "$KIT/at-work" ] || sleep 0.1; done
}

# three at once: each waits for the one before, and says so
anew
export PACE=0.4
for name in first second; do full ./plan examples/p1 >"$work/$name" 2>&1 & done
until_at_work
ends 0 'waiting for it' full sh scripts/native-library tickplume
wait
is "two at once disturbed one another" test "$(grep -h -v -e waiting -e 'proving, once' "$work/first" "$work/second")" = "plan 1 1 1
plan 1 1 1"
is "the second proved what the first had proved" test "$(grep -c '^plan all check' "$KIT/calls")" -eq 1

# interrupted SIGNAL COMMAND..: the signal, to all that a terminal would send it to: nothing goes on, no file stays, the next finds no lock.
interrupted() {
    local signal=$1
    shift
    anew
    PACE=5 PATH=$work/bin:$work/bare env --default-signal=INT setsid "$@" >"$work/out" 2>"$work/err" &
    until_at_work
    is "nothing was at work" test -d "$KIT/at-work"
    is "no temporary folder while it was at work" test "$(rooms)" -eq 1
    kill -s "$signal" -- "-$!"
    wait
    is "after $signal something is still at work: $*" test ! -d "$KIT/at-work"
    is "after $signal temporary files stay: $*" test "$(rooms)" -eq 0
    ends 0 '' full "$@"
}
export PACE=0.01
for signal in INT TERM HUP; do interrupted "$signal" ./plan examples/p1; done
interrupted INT sh scripts/native-library tickplume

echo "shell: $checks checks"
exit "$failed"

#!/usr/bin/env bash
# What the plan program prints: each set of examples/, and inputs at every edge of what it reads, with stored output. How the script ends
# and what it says besides is looked at by tests/shell.sh.
set -u
cd "$(dirname "$0")/.." || exit 2
failed=0

# same NAME: what stands on standard input is the stored output of that name.
same() {
    if ! diff -u "tests/expected/$1" -; then
        echo "the plan program: other output for $1"
        failed=1
    fi
}

for set in p1 p8 full-32-engines overload share-not-whole; do
    ./plan <"examples/$set" 2>/dev/null | same "plan-$set"
done

# line N: N lines of `1 64` after the engines
lines() {
    echo 32
    for _ in $(seq "$1"); do echo "1 64"; done
}
{
    printf '' | ./plan                        # a missing first line
    printf '2' | ./plan                       # a line without its line feed
    printf '2\n' | ./plan                     # no duty
    printf '%s\n' - '2 3' '2 3' | ./plan | head -n 1   # the default number of engines
    printf '%s\n' 02 '2 3' | ./plan           # a leading zero
    printf '%s\n' 0 '2 3' | ./plan            # 0 itself is a number
    printf '%s\n' 1234567890 | ./plan         # ten digits
    printf '%s\n' 999999999 '1 1' | ./plan    # nine digits
    printf '%s\n' 2 '2  3' | ./plan           # two spaces
    printf '%s\n' 2 '2 3 ' | ./plan           # a space at the end
    printf '%s\n' 2 '2 3' '' | ./plan         # an empty line
    printf '2\r\n2 3\r\n' | ./plan            # carriage returns
    printf '2\n2\0003\n' | ./plan             # a zero byte
    printf '2\n\377 3\n' | ./plan             # a byte above 127
    printf '%s\n' 1 '1 1000000' | ./plan      # the longest period
    printf '%s\n' 1 '1 1000001' | ./plan      # one more
    printf '%s\n' 1 '3 2' '1 0' | ./plan      # P10: 5 before 4, duty by duty
    printf '%s\n' 33 '1 1' | ./plan           # 33 engines
    lines 64 | ./plan | head -n 1             # 64 duties
    lines 65 | ./plan                         # 65: line 66
    head -c 4096 /dev/zero | tr '\0' 1 | ./plan     # as long as may be
    head -c 4097 /dev/zero | tr '\0' 1 | ./plan     # longer
    head -c 100000 /dev/zero | ./plan               # much longer
} 2>/dev/null | same plan-edges

exit "$failed"

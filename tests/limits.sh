#!/usr/bin/env bash
# Every range, record length and array length has its name in crates/paper/src/limits.rt and crates/paper/specs/Limits.antt and nowhere stands
# as a bare number in code, in a contract or in a definition of ours. What is left are the digits up to 6 (a field's bytes and its place in a
# record), refusal numbers in definitions and where the code's refusals get them (paper/src/lib.rt), and the bases 10 and 256 with what a
# byte and two of them hold. Also: no line is longer than a screen.
set -u
cd "$(dirname "$0")/.." || exit 2
failed=0

bare=$(grep -nE '(^|[^0-9A-Za-z_.])([7-9]|[1-9][0-9_]+)($|[^0-9A-Za-z_.])' crates/*/src/*.rt crates/*/specs/*.antt |
    grep -vE '^crates/(paper/src/limits.rt|paper/specs/(Limits|Cases|LengthCases|ShareCases|Text).antt|laws/)' |
    grep -vE '^[^:]*:[0-9]+: *(//|--|ghost use|use)' |
    sed -E "s/b'.'//g" |
    sed -E 's/(refused |fault |(Fault|Refusal)::[A-Za-z]+(\(_\))? => |^(crates\/paper\/specs\/Outcome.antt:[0-9]+:)(fault_number|number_of) [^=]*= )[0-9]+/\4/g; s/2 \^ (32|64)//g; s/(^|[^0-9])(10|255|256|65536)($|[^0-9])/\1\3/g' |
    grep -E '^[^:]*:[0-9]+:.*(^|[^0-9A-Za-z_.])([7-9]|[1-9][0-9_]+)($|[^0-9A-Za-z_.])' |
    grep -E ':[0-9]+:.*[^0-9A-Za-z_.:]([7-9]|[1-9][0-9_]+)')
if [ -n "$bare" ]; then
    printf 'bare numbers outside limits.rt and Limits.antt:\n%s\n' "$bare"
    failed=1
fi

# an array's length, however small: [u64; 3], [0; 4]
lengths=$(grep -nE '; *[0-9]+\]' crates/*/src/*.rt | grep -vE '^[^:]*:[0-9]+: *//')
if [ -n "$lengths" ]; then
    printf 'bare array lengths:\n%s\n' "$lengths"
    failed=1
fi

# 140 columns, counted in characters
long=$(LC_ALL=C.UTF-8 grep -nE '^.{141,}$' $(git ls-files 'crates/*.rt' 'crates/*.antt'))
if [ -n "$long" ]; then
    printf 'longer than 140 columns:\n%s\n' "$long" | cut -c1-200
    failed=1
fi
exit "$failed"

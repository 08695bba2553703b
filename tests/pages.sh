#!/usr/bin/env bash
# tests/pages.sh [PAGE..]: runs every example of the pages (paths from the repository's root), and compares the lists on docs/REFUSALS.md
# and docs/FORMATS.md with the header.
#
# An example is a line that begins with `$ `, in a block that is indented by four spaces or fenced and whose first line begins so. What
# follows, up to the next one or the block's end, must be all that the command prints on standard output; nothing, if nothing follows. A
# block is one shell (sh): what a command sets, later ones of the block have. Standard error is not looked at, unless the command redirects
# it. Blocks that do not begin with `$ ` are not run; a `$ ` inside one is a fault of the page. A fenced block of C that begins with
# `/* NAME.c */` is that file, for the examples after it. A `git clone` is a link to this repository. HOME is an empty folder, which the
# pages call /home/you.
set -u
cd "$(dirname "$0")/.." || exit 2
pages=("$@")
if [ $# -eq 0 ]; then
    pages=(README.md docs/FORMATS.md docs/REFUSALS.md docs/SHARES.md docs/CAPACITY.md)
fi
export REPOSITORY=$PWD
failed=0
room=$(mktemp -d)
trap 'rm -rf "$room"' EXIT
stage=$room/stage

# fault TEXT: tells it, and that the test has failed.
fault() {
    printf '%s\n' "$1"
    failed=1
}

# same EXPECTED GOT: are two texts one? If not, `at` is the first line in which they differ, from 0, and `told` what each has there.
same() {
    [ "$1" = "$2" ] && return
    local wanted got
    mapfile -t wanted < <(printf '%s' "$1")
    mapfile -t got < <(printf '%s' "$2")
    for ((at = 0; at < ${#wanted[@]} && at < ${#got[@]}; at++)); do [ "${wanted[at]}" = "${got[at]}" ] || break; done
    told="expected '${wanted[at]-(nothing more)}', got '${got[at]-(nothing more)}'"
    [ "$at" -lt "${#wanted[@]}" ] || [ "$at" -lt "${#got[@]}" ] || told="expected a line feed at the end, got none"
    return 1
}

# text_is WHAT EXPECTED GOT: the text is as expected.
text_is() {
    same "$2" "$3" || fault "$1, line $((at + 1)): $told"
}

# ---- The place where the examples run: the repository's files by links, and an ask of its own

compile='cc -Iinclude examples/ask.c -Ltarget/native -ltickplume -o ask'

set_stage() {
    sh scripts/native-library tickplume || exit 1
    mkdir "$stage" "$room/home"
    ln -s "$PWD"/* "$stage"
    rm -f "$stage/ask"
    (cd "$stage" && sh -c "$compile") || exit 1
}

# ---- Examples

commands=() # of the block at hand
places=()   # the line of the page on which each stands
printed=()  # what the page has each print

# run_block PAGE: runs the block at hand, if any, and compares. What a command prints begins on the page one line below it.
run_block() {
    [ "${#commands[@]}" -gt 0 ] || return
    local k got
    {
        # shellcheck disable=SC2016 # for that shell
        echo 'git() { ln -s "$REPOSITORY" tickplume; }'
        for k in "${!commands[@]}"; do printf '{ %s\n} >"%s" 2>/dev/null </dev/null\n' "${commands[k]}" "$room/printed.$k"; done
    } >"$room/block"
    (cd "$stage" && HOME=$room/home timeout 300 sh "$room/block") 2>"$room/complaint" </dev/null
    for k in "${!commands[@]}"; do
        if [ ! -e "$room/printed.$k" ]; then
            fault "$1:${places[k]}: was not run: ${commands[k]} ($(head -n 1 "$room/complaint"))"
            continue
        fi
        got=$(cat "$room/printed.$k" && echo .)
        got=${got//"$room/home"//home/you}
        same "${printed[k]}" "${got%.}" || fault "$1:$((places[k] + 1 + at)): $told from: ${commands[k]}"
    done
    rm -f "$room"/printed.*
    commands=() places=() printed=()
}

# run_page PAGE: cuts the page into blocks and runs them.
run_page() {
    local text n fenced=0 inside=0 session=0 examples=0 file='' page
    mapfile -t page <"$1"
    for n in "${!page[@]}"; do
        text=${page[n]}
        if [[ $text == '```'* ]]; then
            fenced=$((1 - fenced)) inside=0 session=0 file=''
            continue
        elif [ "$fenced" -eq 1 ] && [[ $text =~ ^/\*\ ([a-z]+\.c)\ \*/$ ]]; then
            file=$stage/${BASH_REMATCH[1]}
            : >"$file"
        elif [ "$fenced" -eq 0 ] && [[ $text == '    '* ]]; then
            text=${text:4}
        elif [ "$fenced" -eq 0 ]; then
            inside=0 session=0
        fi
        if [ "$inside" -eq 0 ] && { [ "$fenced" -eq 1 ] || [ "$text" != "${page[n]}" ]; }; then
            run_block "$1"
            inside=1
            [[ $text == '$ '* ]] && session=1
        fi
        if [ "$session" -eq 1 ] && [[ $text == '$ '* ]]; then
            commands+=("${text:2}") places+=($((n + 1))) printed+=('')
            examples=$((examples + 1))
        elif [[ $text =~ ^[[:blank:]]*\$\  ]]; then
            fault "$1:$((n + 1)): a command that is not run, since its block does not begin with one: ${page[n]}"
        elif [ "$session" -eq 1 ]; then
            printed[-1]+=$text$'\n'
        elif [ -n "$file" ]; then
            printf '%s\n' "$text" >>"$file"
        fi
    done
    run_block "$1"
    echo "$1: $examples examples"
    [ "$examples" -gt 0 ] || fault "$1: no example"
    if grep -q '^ *\$ .*\./ask' "$1" && ! grep -Fqx "    $compile" "$1"; then fault "$1: does not say how ./ask is compiled: $compile"; fi
}

# ---- What the header says

# header_words: `refusal|NUMBER|NAME|PLACE|MEANING` for each refusal and `limit|MACRO|VALUE` for each limit, as the compiler has them.
header_words() {
    {
        printf '%s\n' '#include <inttypes.h>' '#include <stdio.h>' '#include "tickplume.h"'
        printf '%s\n' '#define SAID(name, number, place, meaning) printf("refusal|%d|%s|%s|%s\n", number, #name, place, meaning);'
        printf '%s\n' 'int main(void) {' 'TICKPLUME_REFUSALS(SAID)'
        sed -nE 's/^#define (TICKPLUME_(MOST_[A-Z_]+|STATE)) .*/printf("limit|\1|%" PRIu64 "\\n", (uint64_t)\1);/p' include/tickplume.h
        echo 'return 0; }'
    } >"$room/words.c"
    cc -Iinclude "$room/words.c" -o "$room/words" && "$room/words" >"$room/header-words" || exit 1
}

# numbers TEXT: the numbers of `1 to 5, 22, 7`, a line each.
numbers() {
    local text=$1
    while [[ $text =~ ([0-9]+)( to ([0-9]+))?(.*) ]]; do
        text=${BASH_REMATCH[4]}
        seq "${BASH_REMATCH[1]}" "${BASH_REMATCH[3]:-${BASH_REMATCH[1]}}"
    done
}

# said_of CALL: what the header's comment says after `Refusals:` of a raw call.
said_of() {
    awk -v call="uint64_t tickplume_$1(" '/^ \* Refusals: / { said = $0 } index($0, call) == 1 { print said; exit }' include/tickplume.h |
        sed -e 's/^ \* Refusals: //' -e 's/\..*//'
}

# ---- docs/REFUSALS.md

refusals=docs/REFUSALS.md
all_calls='build, judge, question, start, row, next, count, shares, share_at'
table_calls='judge, question, start, row, next, count'
declare -A orders # for each call and the plan program, the numbers of its row in the table of orders, a line each

# line_is LINE TEXT: the line of docs/REFUSALS.md is the text.
line_is() {
    same "$2" "$(sed -n "$1p" "$refusals")" || fault "$refusals:$1: $told"
}

# given_by NUMBER: the calls whose orders have the number, as the first table tells them.
given_by() {
    local call calls=
    for call in ${all_calls//,/} plan; do
        [[ $'\n'${orders[$call]}$'\n' == *$'\n'$1$'\n'* ]] && calls+=", $call"
    done
    calls=${calls#, }
    [ "$calls" = "$all_calls" ] && calls="every call"
    [ "$calls" = "$table_calls" ] && calls="every call with a table"
    echo "$calls"
}

# refusal_is NUMBER NAME PLACE MEANING: its row in the first table, and its section with an example.
refusal_is() {
    local place=${3:-none} row section part low camel=
    for part in ${2//_/ }; do low=${part,,} && camel+=${low^}; done
    row=$(grep -n "^| \[$1\](" "$refusals" | cut -d: -f1)
    section=$(grep -n "^## $1 " "$refusals" | cut -d: -f1)
    if ! [[ $row =~ ^[0-9]+$ && $section =~ ^[0-9]+$ ]]; then
        fault "$refusals: expected one row and one section for $1, got lines '$row' and '$section'"
        return
    fi
    line_is "$row" "| [$1](#$1-${2,,}) | $4 | $place | $(given_by "$1") |"
    line_is "$section" "## $1 $2"
    line_is $((section + 2)) "> $4"
    local words="C: \`TICKPLUME_REFUSED_$2\`. Rust: \`RefusalKind::$camel\`. Place: $place" got
    got=$(sed -n "$((section + 4))p" "$refusals")
    [[ $got == "$words"[.,]* ]] || fault "$refusals:$((section + 4)): expected '$words', got '$got'"
    sed -e "1,${section}d" "$refusals" | sed '/^## /,$d' | grep -qE "^    refused $1 [0-9]+\$" ||
        fault "$refusals:$section: no example is refused with $1"
}

refusals_page() {
    local number name place meaning call
    for call in ${all_calls//,/} plan; do
        orders[$call]=$(numbers "$(sed -n "s/^| $call | \([0-9].*\) |\$/\1/p" "$refusals")")
    done
    for call in ${all_calls//,/}; do
        text_is "$refusals: the order of $call, beside the header's" "$(numbers "255, $(said_of "$call")")" "${orders[$call]}"
    done
    while IFS='|' read -r _ number name place meaning; do
        refusal_is "$number" "$name" "$place" "$meaning"
    done < <(grep '^refusal' "$room/header-words")
    for number in $(sed -nE -e 's/^## ([0-9]+) .*/\1/p' -e 's/^\| \[([0-9]+)\].*/\1/p' "$refusals") ${orders[plan]} \
        $(grep -ohE 'refused [0-9]+' "$refusals" docs/FORMATS.md | cut -d' ' -f2); do
        grep -q "^refusal|$number|" "$room/header-words" || fault "$refusals or docs/FORMATS.md: the header has no refusal $number"
    done
}

# ---- docs/FORMATS.md

# cells COLUMN: the column of the table of bytes, without its marks.
cells() {
    grep -E '^\| [0-9]+ \| `[0-9a-f]{2} ' docs/FORMATS.md | cut -d'|' -f"$1" | tr -d '`' | sed -e 's/^ *//' -e 's/ *$//' -e '/^$/d'
}

formats_page() {
    local bytes offset=0 offsets='' record macro value rows
    bytes=$(cd "$stage" && ./ask build 2 2,2,2 3,3,3)
    while read -r record; do
        offsets+=$offset$'\n'
        offset=$((offset + (${#record} + 1) / 3))
    done <<<"$bytes"
    text_is "docs/FORMATS.md: the table's bytes" "$bytes" "$(cells 3)"
    text_is "docs/FORMATS.md: the offsets beside the bytes" "${offsets%$'\n'}" "$(cells 2)"
    text_is "docs/FORMATS.md: the lines beside the bytes" "$(cd "$stage" && ./plan <examples/p1 | grep -E '^(plan|duty|run) ')" "$(cells 4)"
    grep -q "^So a table has .* of the plan above, $offset bytes" docs/FORMATS.md || fault "docs/FORMATS.md: the table has $offset bytes"
    while IFS='|' read -r _ macro value; do
        rows=$(sed -nE "s/^\| [^|]* \|[^|]*\| ([0-9,]+) \| \`$macro\` \|\$/\1/p" docs/FORMATS.md | tr -d ,)
        text_is "docs/FORMATS.md: $macro among the limits" "$value" "$rows"
    done < <(grep '^limit' "$room/header-words")
}

# names_known: the library's names on both pages are in the header; those of refusals are compared above.
names_known() {
    local name
    while read -r name; do
        grep -qw "$name" include/tickplume.h || fault "$refusals or docs/FORMATS.md: the header has no $name"
    done < <(grep -ohE 'tickplume_[a-z_]+|TICKPLUME_[A-Z_]+' "$refusals" docs/FORMATS.md | grep -v '^TICKPLUME_REFUSED_' | sort -u)
}

# ---- README.md

# picture: the engines' duties on it are those that examples/simulator.c prints, and in block 0 engine i runs row i.
picture() {
    local engine duties drawn
    while IFS=: read -r engine duties; do
        drawn=$(sed -nE "s/^ .* $engine +([0-9 ]+)\$/ \1/p" README.md | tr -s ' ')
        text_is "README.md: the picture's $engine" "$duties" "$drawn"
        drawn=$(sed -nE "s/^ +row ${engine#* } +([0-9]( [0-9])+) .*/\1/p" README.md)
        text_is "README.md: the picture's row ${engine#* }" "${duties:1:7}" "$drawn"
    done < <(grep '^engine' tests/expected/simulator)
}

# ---- examples/ask.c itself

# ask_is STATUS OUTPUT COMPLAINT ARGUMENT..: how ask ends and what it says.
ask_is() {
    local outcome=$1$'\n'$2$'\n'$3 said status
    shift 3
    said=$("$stage/ask" "$@" 2>"$room/complaint")
    status=$?
    text_is "ask $*: status, output, complaint" "$outcome" "$status"$'\n'"$said"$'\n'"$(cat "$room/complaint")"
}

ask_itself() {
    local standard strict='-Wall -Wextra -Wpedantic -Wconversion -Werror -fsyntax-only -Iinclude'
    # shellcheck disable=SC2086
    for standard in c99 c17; do cc -std=$standard $strict examples/ask.c || fault "ask.c: warnings as $standard"; done
    # shellcheck disable=SC2086
    for standard in c++11 c++20; do c++ -std=$standard $strict -x c++ examples/ask.c || fault "ask.c: warnings as $standard"; done
    ask_is 1 'refused 6 1' "ask: a duty's share of a block is not a whole number of ticks (duty 1)" build 2 1,1 1,2
    ask_is 1 'refused 18 0' 'ask: there is no such engine' share_at 1 1 1 1 0
    ask_is 1 'refused 24 0' 'ask: the wanted block length does not divide every period' build 1 1 1 2
    ask_is 1 'refused 8 30' 'ask: what was lent is shorter than what is to be written (needed 30)' build 1 1 1 0 29
    ask_is 2 '' "ask: '4294967296': a number is too large here" build 1 1 1 4294967296
    ask_is 2 '' "ask: '01': a number is written in digits, without a leading zero" build 01 1 1
    ask_is 2 '' "ask: '4294967296': a number is too large here" build 4294967296 1 1
    ask_is 2 '' "ask: '1,': a list is numbers with a comma between" build 1 1, 1
    ask_is 2 '' "ask: '0 1': a byte is two hexadecimal digits" judge '0 1'
    ask_is 2 '' "ask: 'judge': this call takes other arguments; ask --help lists them" judge
    ask_is 2 '' "ask: 'plan': there is no such call; ask --help lists them" plan
    [ -e /dev/full ] || return
    "$stage/ask" --help >/dev/full 2>&1
    [ $? -eq 4 ] || fault "ask: an output that cannot be written is not told by status 4"
}

set_stage
header_words
for page in "${pages[@]}"; do run_page "$page"; done
refusals_page
formats_page
names_known
picture
ask_itself
exit "$failed"

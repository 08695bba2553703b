#!/usr/bin/env bash
# What it is that a schedule meets duties (crates/paper/specs/Capacity.antt) is said without tables, blocks, rows or slices, so that refusal
# 7 can be read as "impossible" by whoever does not know how plans are made. Looks at every file of definitions that its `use` lines reach,
# and at the declared types that these name: duties and engines.
set -u
cd "$(dirname "$0")/.." || exit 2
specs=crates/paper/specs

# used FILE: the files of definitions that it uses, and the declared types, as declared.NAME.
used() {
    sed -n -e 's/^use Rattle\.paper\.specs\.\(declared\.[A-Za-z]*\).*/\1/p' \
        -e 's/^use Rattle\.paper\.specs\.\([A-Z][A-Za-z0-9]*\).*/\1/p' "$specs/$1.antt"
}

files=(Capacity)
types=()
for ((k = 0; k < ${#files[@]}; k++)); do
    while read -r name; do
        case " ${files[*]} ${types[*]-} " in
        *" $name "*) ;;
        *) if [[ $name == declared.* ]]; then types+=("$name"); else files+=("$name"); fi ;;
        esac
    done < <(used "${files[k]}")
done

reached=$(printf '%s\n' "${files[@]}" "${types[@]}" | LC_ALL=C sort | tr '\n' ' ')
expected='Capacity Duties Schedule declared.Duty declared.Engine '
[ "$reached" = "$expected" ] || {
    printf 'what meeting duties means reaches\n%s\nand not\n%s\n' "$reached" "$expected"
    exit 1
}
echo "what meeting duties means reaches $reached"

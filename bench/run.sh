#!/bin/bash
# Compares `ubxlist` with a plain Rust program that does the same (baseline.rs): their output has to be equal on each line, and the median of
# five runs is told. It needs rustc. bench/run.sh [UBXLIST] takes another build of ubxlist.
set -eu
here=$(cd "$(dirname "$0")" && pwd)
work=$(mktemp -d)
trap 'rm -rf "$work"' EXIT
rustc -O --edition 2024 -o "$work/lines" "$here/lines.rs"
rustc -O --edition 2024 -o "$work/baseline" "$here/baseline.rs"
ubxlist=${1:-}
if [ -z "$ubxlist" ]; then
    "$here/../ubx" ubxlist --help > /dev/null
    ubxlist=$here/../crates/ubxlist/out/ubxlist
fi

# milliseconds of processor time, the median of five runs
median() {
    TIMEFORMAT='%U %S'
    for _ in 1 2 3 4 5; do
        { time "$1" < "$work/line" > "$work/out"; } 2>&1 | awk '{ printf "%d\n", ($1 + $2) * 1000 }'
    done | sort -n | sed -n 3p
}

printf '%-14s %8s %9s %6s\n' line ubxlist baseline ratio
for line in starts twins preambles random clean usual short sets gets transactions; do
    "$work/lines" "$line" > "$work/line"
    proved=$(median "$ubxlist")
    cp "$work/out" "$work/proved"
    plain=$(median "$work/baseline")
    cmp -s "$work/proved" "$work/out" || { echo "$line: the outputs differ" >&2; exit 1; }
    awk -v l="$line" -v a="$proved" -v b="$plain" 'BEGIN { printf "%-14s %6d ms %6d ms %6.2f\n", l, a, b, a / (b > 0 ? b : 1) }'
done

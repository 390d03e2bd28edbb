#!/usr/bin/env bash
# Shows that misuse of the host's transactions does not compile. Each source of crates/host/misuse is tried as a program, in a folder of its own with
# copies of the crates that it needs: it must be refused with the error that its line `// error: ` names, at a line of that source; one that names none
# must be accepted and run.
set -euo pipefail
cd "$(dirname "$0")/.."
work=$(mktemp -d)
trap 'rm -rf "$work"' EXIT
below=$(sed -n 's/^host: *//p' crates.txt)
mkdir "$work/crates"
for crate in $below host; do
    # what crates/ does not have is the toolchain's
    if [ -d "crates/$crate" ]; then
        mkdir "$work/crates/$crate"
        cp -r "crates/$crate/src" "crates/$crate/specs" "crates/$crate/proofs" "$work/crates/$crate"
        grep "^$crate:" crates.txt >> "$work/crates.txt"
    fi
done
for source in crates/host/misuse/*.rt.txt; do
    name=$(basename "$source" .rt.txt)
    mkdir -p "$work/crates/$name/src"
    cp "$source" "$work/crates/$name/src/main.rt"
    echo "$name: $below host" >> "$work/crates.txt"
done
git -C "$work" init -q

try() {
    (cd "$work/crates/$1" && rt try) > "$work/$1.log" 2>&1
}
for source in crates/host/misuse/*.rt.txt; do
    try "$(basename "$source" .rt.txt)" &
done
for job in $(jobs -p); do
    wait "$job" || true
done

bad=0
for source in crates/host/misuse/*.rt.txt; do
    name=$(basename "$source" .rt.txt)
    error=$(sed -n 's|^// error: ||p' "$source")
    if [ -n "$error" ] && grep -q "^src/main.rt:[0-9:]* error\[$error\]" "$work/$name.log"; then
        echo "misuse: $name is refused: $error"
    elif [ -z "$error" ] && grep -q '^run=ended status=0' "$work/$name.log"; then
        echo "misuse: $name is accepted"
    else
        echo "misuse: $name does not do what it should:"
        cat "$work/$name.log"
        bad=1
    fi
done
exit $bad

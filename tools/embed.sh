#!/usr/bin/env bash
# Proves and builds the receiver for C (crates/embed), compiles examples/c/bench.c and stack.c with the machine's C compiler ($CC or cc), and runs them. It exits
# with 1 if anything is not proved, does not compile, or answers otherwise than wanted. In a clean clone the crates below are proved first: some minutes.
set -euo pipefail
root=$(cd "$(dirname "$0")/.." && pwd)
cc=${CC:-cc}
work=$(mktemp -d)
trap 'rm -rf "$work"' EXIT

echo "embed: proving and building the static library"
if ! (cd "$root/crates/embed" && rt lib) > "$work/lib.log" 2>&1; then
    tail -n 20 "$work/lib.log"
    exit 1
fi
tail -n 1 "$work/lib.log"

# the heap of the toolchain's C library, which `Global` asks: it stands beside the guides, to whose first page `rt doc` names the path
heap=$(dirname "$(rt doc)")
while [ ! -f "$heap/c/liblibc_c.a" ]; do
    [ "$heap" != / ] || { echo "embed: the toolchain has no c/liblibc_c.a"; exit 1; }
    heap=$(dirname "$heap")
done

for level in -O0 -O2; do
    echo "embed: $("$cc" --version | head -n 1), $level"
    "$cc" -std=c11 "$level" -Wall -Wextra -Werror -Wl,--wrap=malloc,--wrap=realloc,--wrap=free -o "$work/bench" \
        "$root/examples/c/bench.c" "$root/crates/embed/out/libembed.a" "$heap/c/liblibc_c.a"
    "$work/bench"
done
"$cc" -std=c11 -O2 -Wall -Wextra -Werror -o "$work/stack" "$root/examples/c/stack.c" "$root/crates/embed/out/libembed.a" "$heap/c/liblibc_c.a"
"$work/stack"
echo "embed: a library of $(stat -c %s "$root/crates/embed/out/libembed.a") bytes"

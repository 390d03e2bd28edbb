#!/usr/bin/env bash
# Lists the lines of src/ in which an older form may stand, point by point, as docs/DESIGN-PASS.md counts them. Each line is then read: many of
# them are no such place. `tools/places.sh` prints counts, `tools/places.sh -v` the lines too.
set -uo pipefail
cd "$(dirname "$0")/.."
verbose=${1:-}

show() {
    local name=$1 lines
    lines=$(cat)
    if [ -z "$lines" ]; then echo "$name: 0"; else echo "$name: $(wc -l <<< "$lines")"; fi
    if [ "$verbose" = -v ]; then sed 's/^/    /' <<< "$lines"; fi
}
in_src() { grep -rnE "$1" crates/*/src; }

in_src '^ *(pub(\(crate\))? )?enum ' | show "1a enums"
in_src '^ *(pub(\(crate\))? )?[a-z_]+: bool,' | show "1b flags in structs and parameters"
in_src '\b(kind|action|layer|verdict|number|refusal|id): u8|-> (\()?u8' | show "1c bytes that may stand for a kind or a refusal"
in_src '(Some|Ok|Err)\(([a-z_]+|\(\))\) => ((Some|Ok|Err)\(|true|false|[a-z_]+,|return Err)|None => (None|false|true|Err|Ok)|_ => None' |
    show "1d arms that take an Option or Result apart and make one again"
grep -rhoE '\bfn [a-z_0-9]+' crates/*/src | sort | uniq -d | show "2a names of functions that stand twice"
copy=$(mktemp -d)
trap 'rm -rf "$copy"' EXIT
find crates -path '*/src/*' -name '*.rt' -not -path '*/out/*' | while read -r file; do
    mkdir -p "$copy/$(dirname "$file")"
    cp "$file" "$copy/${file%.rt}.rs"
done
if command -v duplicates > /dev/null; then
    duplicates --repo "$copy" --most 200 --seconds 100 | grep -E '^D[0-9]' | show "2b pairs of places of six like lines"
fi
in_src '^ *(while|loop|.[a-z]+: loop)|for [a-z_]+ in [^{]*\.\.' | show "3 loops with while or loop, or over a range"
in_src '==.*&&.*==|\bfn (same_[a-z]+|copied|lent|selector_of|size_of|number|layer|key|item|place|entry|word|moved)\b|impl fmt::Display' |
    show "4 equality, copies, conversions and printing"
grep -rhoE 'requires [a-z]* ?\{.*\}' crates/*/src | sed -E 's/requires [a-z]* ?//' | sort | uniq -c | awk '$1 > 2' |
    show "5a premises that stand in three or more contracts"
for word in 'state_of B\.Store' 'step_of B\.Store' 'store_of [BFS]\.Store' 'parts_of entries' 'Kept self'; do
    in_src "$word" | show "5b lines with $word"
done
in_src '\[[A-Za-z0-9_]+; [A-Z0-9_]+\]' | grep -v '_tests/' | grep -vE '\b(const|let)\b' | show "6 arrays in types, and literals of them"
in_src '\bdyn |\bfn\(|match (name|layer|id|action|kind|number)\b|if (id|action|kind)\b' | show "7 switches on a step, and tables of functions"
find crates -path '*/proofs/*' -name Answers.antt -not -path '*/out/*' | xargs grep -hE '^pub [a-z]' | show "8 answers"

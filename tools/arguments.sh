#!/usr/bin/env bash
# Shows what the programs do with their arguments, with an input of several pieces, and where reading or writing fails: of each call the status, what
# is written and what is said are compared with what is expected, and only a difference is told. The programs are those that `rt ci` has linked; one
# that is not, or that is older than its sources, is linked first.
set -euo pipefail
cd "$(dirname "$0")/.."
work=$(mktemp -d)
trap 'rm -rf "$work"' EXIT
bad=0
into=$work/out

# expects STATUS FILE SAID PROGRAM [ARGUMENTS]: it ends with this status, writes what the file has, and says this on standard error.
expects() {
    local status=$1 file=$2 said=$3 ended=0
    shift 3
    : > "$work/out"
    "crates/$1/out/$1" "${@:2}" > "$into" 2> "$work/said" || ended=$?
    if [ "$ended" = "$status" ] && cmp -s "$file" "$work/out" && [ "$said" = "$(cat "$work/said")" ]; then
        return
    fi
    echo "arguments: $*: status $ended where $status is wanted, said '$(cat "$work/said")' where '$said' is wanted; what is wanted (<) and what is written (>):"
    diff "$file" "$work/out" | head -n 6 || true
    bad=1
}

# the text that a program's help.rt has
help_of() {
    sed -n '/"/,/^";$/{ s/^[^"]*"//; /^;$/d; s/\\\\/\\/g; p; }' "crates/$1/src/help.rt"
}

nothing=/dev/null
missing=$work/missing
listings='ubxmon ubxlist'
readers="$listings ubxreplay"
programs="$readers ubxweek"
for program in $programs; do
    ./ubx "$program" --help > /dev/null < /dev/null || true
done

# the help alone, and what is asked for wrongly
for program in $programs; do
    help_of "$program" > "$work/help"
    expects 0 "$work/help" '' "$program" --help < examples/valley.bin
    expects 1 $nothing "$program: one file at most; see --help" "$program" README.md README.md < examples/valley.bin
    expects 1 $nothing "$program: one file at most; see --help" "$program" --help README.md < examples/valley.bin
    expects 1 $nothing "$program: no such option: --list; see --help" "$program" --list < examples/valley.bin
    expects 1 $nothing "$program: $missing: No such file or directory (os error 2)" "$program" "$missing" < examples/valley.bin
    into=/dev/full expects 1 $nothing "$program: No space left on device (os error 28)" "$program" --help < examples/valley.bin
done

# a file is read as standard input is
expects 0 crates/ubxmon/stdout '' ubxmon examples/valley.bin < /dev/null
expects 0 crates/ubxlist/stdout '' ubxlist examples/bench.bin < /dev/null
expects 0 crates/ubxreplay/stdout '' ubxreplay crates/ubxreplay/stdin < /dev/null
expects 1 $nothing 'ubxreplay: examples/bench.bin: stream did not contain valid UTF-8' ubxreplay examples/bench.bin < /dev/null
expects 1 $nothing 'ubxweek: no file is read: examples/bench.bin; see --help' ubxweek examples/bench.bin < /dev/null

# 5000 ACKs, which are more than one piece
count=5000
acks=$work/acks
printf '\xb5\x62\x05\x01\x02\x00\x06\x8a\x98\xc1%.0s' $(seq $count) > "$acks"
places=$(seq 0 10 $((10 * count - 10)))
printf '%s\n' 'place class id length' "${places//$'\n'/ 05 01 2$'\n'} 05 01 2" "frames $count noise 0 held 0" > "$work/ubxmon"
printf '%s\n' 'place class id verdict number' "${places//$'\n'/ 05 01 out 0$'\n'} 05 01 out 0" 'noise 0 held 0' > "$work/ubxlist"
for program in $listings; do
    expects 0 "$work/$program" '' "$program" "$acks" < /dev/null
    expects 0 "$work/$program" '' "$program" < <(head -c 25 "$acks"; sleep 0.1; tail -c +26 "$acks")
    into=/dev/full expects 1 $nothing "$program: No space left on device (os error 28)" "$program" "$acks" < /dev/null
    # the heading is written before the input is read
    head -n 1 "$work/$program" > "$work/heading"
    expects 1 "$work/heading" "$program: Is a directory (os error 21)" "$program" examples < /dev/null
done

# the example of the help
printf '%s\n' 'make 0' 'look 65' > "$work/example"
expects 0 "$work/example" '' ubxreplay < <(printf '%s\n' 'entry 20510001 0 65 8 119' make 'look 0 20510001')

exit $bad

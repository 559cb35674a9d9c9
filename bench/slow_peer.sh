#!/bin/bash
# Times connections whose octets come in small pieces, in processor time: heads of 65,536 octets that never end, which are refused, and
# connections of 1,048,576 octets, in heads of several shapes. The program is crates/connection_bench; what it makes is compared.
#
#   bench/slow_peer.sh
#
# It fails where a head takes more than 0.2 s or a connection more than 3 s.
set -eu

here=$(CDPATH= cd -- "$(dirname -- "$0")/.." && pwd)
. "$here/bench/timing.sh"
need_program connection_bench small 0 0 1
failed=0

# Serves a connection of these words, and compares what it came to, and its seconds of processor time with the most that they may be.
serve() {
    most=$1
    wanted=$2
    shift 2
    TIMEFORMAT='%U %S'
    seconds=$( { time "$program" "$@" > "$room/said"; } 2>&1 | awk '{ printf "%.3f", $1 + $2 }')
    said=$(cat "$room/said")
    if [ "$said" != "$wanted" ]; then
        echo "FAILED: $*: $said, wanted: $wanted"
        failed=1
    elif awk "BEGIN { exit !($seconds > $most) }"; then
        echo "FAILED: $*: $seconds s, at most $most"
        failed=1
    else
        echo "$*: $seconds s"
    fi
}

room=$(mktemp -d)
trap 'rm -rf "$room"' EXIT

echo "SHAPE HEAD TOTAL CUT: a head that never ends, refused at 65,536 octets"
for shape in method target name value blank lines; do
    serve 0.2 'end, heard 65536, said 110' "$shape" 70000 70000 1
done

echo "SHAPE HEAD TOTAL CUT: 1,048,576 octets, each head answered"
for cut in 1 7 4096; do
    for shape in target name value blank lines short; do
        serve 3 "budget 1048576, heard 1048576, said $((16 * 109))" "$shape" 65536 1048576 "$cut"
    done
    serve 3 "budget 1048576, heard 1048576, said $((16 * 117))" method 65536 1048576 "$cut"
    serve 3 "budget 1048576, heard 1048576, said $((55188 * 109))" small 19 1048576 "$cut"
done
exit $failed

#!/bin/sh
# Times `boxes door`: RUNS runs that each begin with an empty store, and RUNS runs over a store of 10,000 messages.
# Prints for both the median time of a run, its peak memory and its sync calls.
#
#   bench/door.sh [RUNS]        RUNS is 200 where it isn't given
#
# TMPDIR names the disk that is measured. A figure whose tool is missing is skipped with a word.
set -eu

here=$(CDPATH= cd -- "$(dirname -- "$0")/.." && pwd)
runs=${1:-200}
messages=10000
header=16 # octets of an area in front of its first unit
program=$here/crates/boxes/out/boxes
request=$here/examples/hello.http
answer="3: Queued for later delivery"

room=$(mktemp -d)
trap 'rm -rf "$room"' EXIT
cd "$room"
cp "$here/examples/gate.conf" .

# (the script `boxes` builds the program where it isn't built)
[ -x "$program" ] || "$here/boxes" door gate.conf < "$request" > /dev/null

door() { "$program" door gate.conf < "$request"; }

expect_202() {
    case $(door) in
        *"$answer") ;;
        *) echo "door.sh: the request wasn't answered 202" >&2; exit 1 ;;
    esac
}

empty_store() { rm -f gate.store.*; }

# Repeats the one unit of a store of one message: header, units, closed gate.
large_store() {
    empty_store
    door > /dev/null
    size=$(wc -c < gate.store.a)
    head -c "$header" gate.store.a > head.bin
    tail -c +$((header + 1)) gate.store.a | head -c $((size - header - 1)) > unit.bin
    awk -v n="$messages" 'BEGIN { for (i = 0; i < n; i++) print "unit.bin" }' | xargs cat > units.bin
    { cat head.bin units.bin; printf '\000'; } > gate.store.a
    rm -f head.bin unit.bin units.bin
}

. "$here/bench/timing.sh"

# Prints the median of RUNS runs, in microseconds; the words given run before each.
median_of() {
    i=0
    while [ "$i" -lt "$runs" ]; do
        "$@"
        start=$(now)
        door > /dev/null
        end=$(now)
        echo $(((end - start) / 1000))
        i=$((i + 1))
    done | median
}

peak_memory() {
    if [ -x /usr/bin/time ]; then
        /usr/bin/time -f %M -o peak "$program" door gate.conf < "$request" > /dev/null
        echo "$(cat peak) KB"
    else
        echo "skipped (no /usr/bin/time)"
    fi
}

syncs() {
    if command -v strace > /dev/null 2>&1; then
        strace -f -c -o calls -e trace=fsync,fdatasync "$program" door gate.conf < "$request" > /dev/null
        awk '$NF == "fsync" || $NF == "fdatasync" { n += $4 } END { print n + 0 }' calls
    else
        echo "skipped (no strace)"
    fi
}

empty_store
expect_202
echo "empty store:            $(median_of empty_store) microseconds a run (median of $runs), peak memory $(empty_store; peak_memory), sync calls $(empty_store; syncs)"
large_store
expect_202
echo "store of $messages messages: $(median_of :) microseconds a run (median of $runs), peak memory $(peak_memory), sync calls $(syncs)"

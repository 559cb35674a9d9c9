#!/bin/sh
# Reads and writes entries of each kind once for each allocation that this makes, with that allocation refused: each run has to end with the
# status 9 (want of memory), with nothing said but lines that are right. It needs a C compiler, and the program of crates/entry_runs.
#
#   bench/entry_allocations.sh
set -eu

here=$(CDPATH= cd -- "$(dirname -- "$0")/.." && pwd)
tests=$here/crates/entry_runs
program=$tests/out/entry_runs
command -v cc > /dev/null 2>&1 || { echo "entry_allocations.sh: skipped (no cc)"; exit 0; }
[ -x "$program" ] || (cd "$tests" && rt run < /dev/null > /dev/null)

room=$(mktemp -d)
trap 'rm -rf "$room"' EXIT
cc -shared -fPIC -o "$room/refuse.so" "$here/bench/refuse.c" -ldl
cd "$room"
grep '^read' "$tests/stdin" > asked
"$program" < asked > right

# Refuses one allocation after the other, until a run makes none of that number.
number=0
while :; do
    number=$((number + 1))
    status=0
    REFUSE=$number COUNT=$room/count LD_PRELOAD=$room/refuse.so "$program" < asked > said || status=$?
    [ "$(cat count)" -ge "$number" ] || break
    [ "$status" = 9 ] || { echo "entry_allocations.sh: allocation $number: status $status"; exit 1; }
    head -c "$(wc -c < said)" right | cmp -s - said || { echo "entry_allocations.sh: allocation $number: something else was said"; exit 1; }
done
echo "entry_allocations.sh: $((number - 1)) allocations, each refused in turn: status 9 each time, nothing wrong said"

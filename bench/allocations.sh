#!/bin/sh
# Runs `boxes door` once for each allocation that a run makes, with that allocation refused, and counts what was answered:
# the status, the status lines said, and how many messages the store holds then. It needs a C compiler.
#
#   bench/allocations.sh [REQUEST]      REQUEST is examples/hello.http where it isn't given; its messages have texts of 5 characters
set -eu

here=$(CDPATH= cd -- "$(dirname -- "$0")/.." && pwd)
conf=$here/examples/gate.conf
request=$here/examples/hello.http
[ $# -eq 0 ] || request=$(CDPATH= cd -- "$(dirname -- "$1")" && pwd)/${1##*/}
unit=71   # octets that a message of 5 characters adds to an area
header=17 # octets of an area without a message
command -v cc > /dev/null 2>&1 || { echo "allocations.sh: skipped (no cc)"; exit 0; }

room=$(mktemp -d)
trap 'rm -rf "$room"' EXIT
cc -shared -fPIC -o "$room/refuse.so" "$here/bench/refuse.c" -ldl
program=$here/crates/boxes/out/boxes
[ -x "$program" ] || "$here/boxes" > /dev/null || true

cd "$room"
cp "$conf" gate.conf

# One run with the allocation of this number refused: prints the row of the table.
one() {
    rm -f gate.store.* said
    status=0
    REFUSE=$1 COUNT=$room/count LD_PRELOAD=$room/refuse.so "$program" door gate.conf < "$request" > said 2> told || status=$?
    lines=$(tr -d '\r' < said | sed 's/HTTP\/1\.1 /\n&/g' | grep '^HTTP/1\.1 ' | sed 's/^HTTP\/1\.1 //' | paste -s -d ,)
    size=$( { wc -c < gate.store.a; } 2> /dev/null || echo 0)
    stored=none
    [ "$size" -gt "$header" ] && stored=$(((size - header) / unit))
    echo "status $status | ${lines:-nothing said} | $(cat told) | messages stored: $stored"
}

echo "without a refusal: $(one 0)"
most=$(cat count)
echo "allocations in a run: $most"
number=1
while [ "$number" -le "$most" ]; do
    one "$number"
    number=$((number + 1))
done | sort | uniq -c

#!/bin/sh
# Runs `boxes door` under a limit on the size of a file until an append is cut short by it, as a full disk would, and then once
# without the limit: the store must open again, with each message that was answered 202 and the last one, and no other.
#
#   bench/full_disk.sh
set -eu

here=$(CDPATH= cd -- "$(dirname -- "$0")/.." && pwd)
request=$here/examples/hello.http
unit=71   # octets that the message of examples/hello.http adds to an area
header=17 # octets of an area without a message
program=$here/crates/boxes/out/boxes

room=$(mktemp -d)
trap 'rm -rf "$room"' EXIT
cd "$room"
cp "$here/examples/gate.conf" .

# (the script `boxes` builds the program where it isn't built)
[ -x "$program" ] || "$here/boxes" > /dev/null || true

# The first line that is said, and the status behind it.
door() {
    said=$("$program" door gate.conf < "$request" 2>> errors) && status=0 || status=$?
    echo "$(echo "$said" | head -n 1 | tr -d '\r') (status $status)"
}

# The same where no file may grow over one block.
door_in_little_room() (
    trap '' XFSZ
    ulimit -f 1
    door
)

accepted=0
while answer=$(door_in_little_room) && [ "$answer" = "HTTP/1.1 202 Accepted (status 0)" ]; do
    accepted=$((accepted + 1))
    [ "$accepted" -lt 1000 ] || { echo "full_disk.sh: no append was cut short" >&2; exit 1; }
done
echo "answered 202: $accepted, and then: $answer, $(tail -n 1 errors)"

answer=$(door)
size=$(wc -c < gate.store.a)
echo "with room again: $answer"
[ "$answer" = "HTTP/1.1 202 Accepted (status 0)" ] && [ "$size" -eq $((header + (accepted + 1) * unit)) ] || {
    echo "full_disk.sh: the area has $size octets" >&2
    exit 1
}
echo "the store holds all of them"

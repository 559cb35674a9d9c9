#!/bin/sh
# Times the commits of a store: COUNT messages in one process (`boxes door`, one connection, so one commit a message), beside what the same
# disk allows for two writes with a sync behind each and nothing else (bench/commit.c). What a request costs beside its commit is known from
# as many requests in which all is the same but that no link may carry the message, so that nothing is committed. The three take turns, RUNS
# times, and the medians are compared: the ratios are what of the disk's pace a commit reaches, and a whole request.
#
#   bench/commit.sh [COUNT] [RUNS]      200 and 41 where they aren't given (a disk's pace changes from one second to the next)
#
# TMPDIR names the disk that is measured. Without a C compiler the script says so and does nothing.
set -eu

here=$(CDPATH= cd -- "$(dirname -- "$0")/.." && pwd)
program=$here/crates/boxes/out/boxes
count=${1:-200}
runs=${2:-41}
unit=71 # octets that the message of a request here adds to an area

command -v cc > /dev/null 2>&1 || { echo "commit.sh: skipped (no C compiler)"; exit 0; }

room=$(mktemp -d)
trap 'rm -rf "$room"' EXIT
cd "$room"
cp "$here/examples/gate.conf" .
sed 's/^smsc = smpp$/&\ndenied-prefix = 0123456/' gate.conf > refusing.conf
cc -O2 -o commit "$here/bench/commit.c"

# (the script `boxes` builds the program where it isn't built)
[ -x "$program" ] || "$here/boxes" > /dev/null 2>&1 || true

awk -v n="$count" 'BEGIN {
    target = "/cgi-bin/sendsms?username=tester&password=foobar&from=123&to=0123456&text=hello"
    for (i = 1; i <= n; i++) printf "GET %s HTTP/1.1\r\nHost: h\r\n%s\r\n", target, i == n ? "Connection: close\r\n" : ""
}' > requests.http

. "$here/bench/timing.sh"

# Puts last in the file NAME.times the time of a run of all requests under a configuration, each of which is answered by this status, less that of a
# run of none over the same store, in microseconds a request.
#   timed NAME CONFIGURATION STATUS
timed() {
    rm -f gate.store.*
    "$program" door gate.conf < "$here/examples/hello.http" > /dev/null
    start=$(now)
    "$program" door "$2" < /dev/null > /dev/null
    opened=$(now)
    "$program" door "$2" < requests.http > said
    end=$(now)
    answered=$(grep -o "HTTP/1.1 $3 " said | wc -l)
    [ "$answered" -eq "$count" ] || { echo "commit.sh: $answered of $count were answered $3" >&2; exit 1; }
    echo $((((end - opened) - (opened - start)) / 1000 / count)) >> "$1.times"
}

i=0
while [ "$i" -lt "$runs" ]; do
    timed store gate.conf 202
    timed refused refusing.conf 403
    ./commit disk.bin "$count" "$unit" >> disk.times
    i=$((i + 1))
done
store=$(median < store.times)
refused=$(median < refused.times)
disk=$(median < disk.times)
ratio() { awk -v a="$1" -v b="$2" 'BEGIN { printf "%.2f", a / b }'; }
echo "a request with its commit: $store microseconds; without it: $refused; two writes with two syncs: $disk (medians of $runs runs of $count)"
echo "a commit reaches $(ratio "$disk" $((store - refused))) of the disk's pace, a whole request $(ratio "$disk" "$store")"

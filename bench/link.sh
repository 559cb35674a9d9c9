#!/bin/sh
# Times a link: COUNT waiting messages go to a centre on the loopback (bench/centre.c), which takes each at once, with windows of 1, 10 and 50;
# over a store in memory (a folder of /dev/shm) and over one on the disk of TMPDIR, beside what that disk allows for a commit (bench/commit.c: two
# writes with a sync behind each). Each acknowledgement is a commit of its own. What the store counts behind each run is compared.
#
#   bench/link.sh [COUNT] [RUNS]      10,000 and 3 where they aren't given
set -eu

here=$(CDPATH= cd -- "$(dirname -- "$0")/.." && pwd)
program=$here/crates/boxes/out/boxes
count=${1:-10000}
runs=${2:-3}
port=${PORT:-27750}

command -v cc > /dev/null 2>&1 || { echo "link.sh: skipped (no C compiler)"; exit 0; }
[ -x "$program" ] || "$here/boxes" > /dev/null 2>&1 || true
[ -x "$program" ] || { echo "link.sh: skipped (no program: run ./boxes once)"; exit 0; }

disk=$(mktemp -d)
memory=$(mktemp -d /dev/shm/link.XXXXXX 2> /dev/null || mktemp -d)
trap 'rm -rf "$disk" "$memory"' EXIT
cc -O2 -o "$disk/centre" "$here/bench/centre.c"
cc -O2 -o "$disk/commit" "$here/bench/commit.c"

# Requests for the messages, at most 50 receivers each.
awk -v n="$count" 'BEGIN {
    while (n > 0) {
        to = "0123456"
        for (i = 1; i < 50 && i < n; i++) to = to "+0123456"
        n -= i
        target = "/cgi-bin/sendsms?username=tester&password=foobar&from=123&to=" to "&text=hello"
        printf "GET %s HTTP/1.1\r\nHost: h\r\n%s\r\n", target, (n > 0 ? "" : "Connection: close\r\n")
    }
}' > "$disk/requests.http"

. "$here/bench/timing.sh"

# The microseconds of one run in a folder with a window.
run() {
    cd "$1"
    rm -f gate.store.*
    sed "s/^port = 2775\$/port = $port\nmax-pending-submits = $2/" "$here/examples/gate.conf" > link.conf
    "$program" door link.conf < "$disk/requests.http" > /dev/null
    "$disk/centre" "$port" "$count" > centre.said &
    centre=$!
    sleep 0.2
    "$program" link link.conf main || echo "link.sh: link ended with $?" >&2
    wait "$centre"
    [ "$("$program" show link.conf | grep -E '^(acked|waiting) ' | tr '\n' ' ')" = "acked $count waiting 0 " ] || echo "link.sh: not all were acknowledged" >&2
    cut -d ' ' -f 1 centre.said
}

for window in 1 10 50; do
    for folder in "$memory" "$disk"; do
        i=0
        while [ "$i" -lt "$runs" ]; do
            run "$folder" "$window"
            i=$((i + 1))
        done | median > "$disk/median"
        case $folder in
            "$memory") where="in memory" ;;
            *) where="on the disk" ;;
        esac
        awk -v w="$window" -v n="$count" -v t="$(cat "$disk/median")" -v where="$where" \
            'BEGIN { printf "window %d, a store %s: %.0f messages a second, %.1f microseconds each\n", w, where, n / t * 1e6, t / n }'
    done
done
cd "$disk"
echo "the disk allows one commit in $(./commit disk.bin 1000 50) microseconds"

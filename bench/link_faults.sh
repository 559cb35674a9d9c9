#!/bin/sh
# Runs `boxes link` over a store with one message that asks for all reports, beside a centre that takes it and reports that it was delivered (centre.c): once
# with each of its allocations refused (refuse.c), and, by strace, killed at each call by which it writes, syncs, says or hears, and with each of these failing. Behind each run the
# store opens; the message waits or is acknowledged, once; the reports that are awaited and the jobs are those of what is recorded; and a report that was
# answered is recorded.
#
#   bench/link_faults.sh
#
# PORT names the port of the centre, 12780 where it isn't set. It needs a C compiler; without strace the calls are left out, with a word.
set -eu

here=$(CDPATH= cd -- "$(dirname -- "$0")/.." && pwd)
program=$here/crates/boxes/out/boxes
port=${PORT:-12780}
most=200 # a run has fewer calls of a name than that, or the script itself is wrong
command -v cc > /dev/null 2>&1 || { echo "link_faults.sh: skipped (no cc)"; exit 0; }

room=$(mktemp -d)
centre=
trap 'kill $centre 2> /dev/null || true; rm -rf "$room"' EXIT
cd "$room"
cc -O2 -o centre "$here/bench/centre.c"
cc -shared -fPIC -o refuse.so "$here/bench/refuse.c" -ldl
sed "s/^port = .*/port = $port/" "$here/examples/gate.conf" > gate.conf

# (the script `boxes` builds the program where it isn't built)
[ -x "$program" ] || "$here/boxes" > /dev/null 2>&1 || true

wrong() { echo "link_faults.sh: $*" >&2; exit 1; }

mkdir waiting
printf 'GET /cgi-bin/sendsms?username=tester&password=foobar&from=123&to=0123456&text=hello&dlr-mask=31&dlr-url=http%%3A%%2F%%2Fh%%2F HTTP/1.0\r\n\r\n' > one.http
"$program" door gate.conf < one.http > said
grep -q '^HTTP/1.* 202 ' said || wrong "the message wasn't taken"
mv gate.store.* waiting/

# A run of `link` by these words before it, beside a centre; leaves its status, and how many reports the centre has an answer to in `answered`.
beside_centre() {
    cp waiting/gate.store.* .
    ./centre "$port" 1 reports > centre.said &
    centre=$!
    sleep 0.1
    status=0
    "$@" "$program" link gate.conf main > said 2> errors || status=$?
    sleep 0.05
    kill "$centre" 2> /dev/null || true
    wait "$centre" 2> /dev/null || true
    answered=$(awk '{ print $3 }' centre.said)
}

# Puts what the store counts behind a run into `left`: acked, waiting, awaited, jobs.
look() {
    "$program" show gate.conf > shown 2> show.errors || wrong "$1: show ended with status $?: $(cat show.errors)"
    left=$(awk '$1 ~ /^(acked|waiting|awaited|jobs)$/ { printf "%s ", $2 }' shown)
    case $left in
        '0 1 0 0 ' | '1 0 1 1 ' | '1 0 0 2 ') ;;
        *) wrong "$1: acked, waiting, awaited and jobs are $left" ;;
    esac
    [ "${answered:-0}" -eq 0 ] || [ "$left" = '1 0 0 2 ' ] || wrong "$1: the report was answered, and isn't recorded: $left"
    [ "$status" -ne 0 ] || [ "$left" = '1 0 0 2 ' ] || wrong "$1: status 0, and $left"
}

beside_centre env
look 'without a fault'
[ "$status" -eq 0 ] || wrong "without a fault: status $status: $(cat errors)"

# Each allocation refused.
beside_centre env COUNT="$room/count" LD_PRELOAD="$room/refuse.so"
allocations=$(cat count)
number=1
while [ "$number" -le "$allocations" ]; do
    beside_centre env REFUSE="$number" LD_PRELOAD="$room/refuse.so"
    look "allocation $number refused"
    echo "status $status | $(cat errors) | acked, waiting, awaited, jobs: $left"
    number=$((number + 1))
done > outcomes
echo "allocations in a run: $allocations"
sort outcomes | uniq -c

command -v strace > /dev/null 2>&1 || { echo "link_faults.sh: no stops (no strace)"; exit 0; }

# Each call of a name, with a fault, until a run has fewer. (strace counts the calls of each name by themselves.)
each_call() {
    number=1
    while :; do
        beside_centre strace -f -o traced -e trace="$2" -e inject="$2:$1:when=$number"
        case $1 in
            signal=KILL) [ "$status" -ne 0 ] || break ;;
            *) grep -q INJECTED traced || break ;;
        esac
        look "$1, $2 $number"
        number=$((number + 1))
        [ "$number" -lt "$most" ] || wrong "$1, $2: too many calls"
    done
    [ "$number" -gt 1 ] || wrong "$1, $2: no call was met"
    echo "$1: $((number - 1)) calls of $2, and the store opens behind each"
}

for fault in signal=KILL error=EIO error=ENOSPC; do
    each_call "$fault" write
    each_call "$fault" fsync
done
for fault in signal=KILL error=ECONNRESET; do
    each_call "$fault" sendto
    each_call "$fault" recvfrom
done

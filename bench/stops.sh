#!/bin/sh
# Stops `boxes door` at each of its write and sync calls in turn, over an empty store and over one with a message, and opens the store
# behind each stop: no message that was answered 202 may be gone, and at most one more may be there. Then the same with each of these calls
# failing (EIO, ENOSPC) instead: the run ends with a status that it has, and the store opens.
#
#   bench/stops.sh
#
# A run is stopped by strace, which kills it at the call of that number. Without strace the script says so and does nothing.
set -eu

here=$(CDPATH= cd -- "$(dirname -- "$0")/.." && pwd)
program=$here/crates/boxes/out/boxes
most=200 # a run has fewer calls of a name than that, or the script itself is wrong

command -v strace > /dev/null 2>&1 || { echo "stops.sh: skipped (no strace)"; exit 0; }

room=$(mktemp -d)
trap 'rm -rf "$room"' EXIT
cd "$room"
cp "$here/examples/gate.conf" .

# (the script `boxes` builds the program where it isn't built)
[ -x "$program" ] || "$here/boxes" > /dev/null 2>&1 || true

# Three requests on one connection, the last of which closes it.
target='/cgi-bin/sendsms?username=tester&password=foobar&from=123&to=0123456&text=hello'
{
    printf 'GET %s HTTP/1.1\r\nHost: h\r\n\r\n' "$target"
    printf 'GET %s HTTP/1.1\r\nHost: h\r\n\r\n' "$target"
    printf 'GET %s HTTP/1.0\r\n\r\n' "$target"
} > three.http

wrong() { echo "stops.sh: $*" >&2; exit 1; }

# How many messages the store of this folder holds by `show`.
accepted() {
    "$program" show gate.conf > shown 2> show.errors || wrong "$1: show ended with status $?: $(cat show.errors)"
    awk '$1 == "accepted" { print $2 }' shown
}

# Runs `door` under strace with a fault put into a call; the number of 202s that were heard is left in `heard`. (An answer's body has no
# line feed behind it, so the next answer begins in its line.)
run_with() {
    status=0
    strace -f -o traced -e trace="${1%%:*}" -e inject="$1" "$program" door gate.conf < three.http > said 2> errors || status=$?
    heard=$(grep -o 'HTTP/1.1 202 ' said | wc -l)
}

# The store from which each run begins.
fresh() {
    rm -f gate.store.*
    [ ! -d "$1" ] || cp "$1"/gate.store.* .
}

# What stands behind a run: at least the messages from before and those answered 202, and at most one more.
compare() {
    now=$(accepted "$1")
    least=$((before + heard))
    [ "$now" -ge "$least" ] || wrong "$1: $heard were answered 202 over $before messages, and $now are stored"
    [ "$now" -le $((least + 1)) ] || wrong "$1: $heard were answered 202 over $before messages, and $now are stored"
    [ "$now" -eq "$least" ] || more=$((more + 1))
}

# Each call of a name in turn, until a run has fewer. (strace counts the calls of each name by themselves.)
each_call() {
    name="$1, $3"
    kind=$2
    call=$3
    store=$4
    number=1
    more=0
    while :; do
        fresh "$store"
        run_with "$call:$kind:when=$number"
        case $kind in
            signal=KILL) [ "$status" -ne 0 ] || break ;;
            *) grep -q INJECTED traced || break ;;
        esac
        case $kind:$status in
            signal=KILL:*) ;;
            *:0 | *:5 | *:6) ;;
            *) wrong "$name, $kind at call $number: status $status: $(cat errors)" ;;
        esac
        compare "$name, $kind at call $number"
        number=$((number + 1))
        [ "$number" -lt "$most" ] || wrong "$name, $kind: more than $most calls"
    done
    [ "$number" -gt 1 ] || wrong "$name, $kind: no call was met"
    total=$((total + number - 1))
    echo "$name, $kind: $((number - 1)) calls in turn, no 202 lost, one message more in $more"
}

# One message in a store, from which the second round begins.
fresh none
"$program" door gate.conf < "$here/examples/hello.http" > /dev/null
mkdir one
mv gate.store.* one/

# The program writes by `write` and syncs by `fsync`; a run that makes a call of another name for either fails here.
for other in pwrite64 writev fdatasync sync_file_range; do
    fresh none
    run_with "$other:signal=KILL:when=1"
    [ "$status" -eq 0 ] || wrong "a run makes the call $other, which isn't tried"
    [ "$heard" -eq 3 ] || wrong "$heard of 3 requests were answered 202 where nothing was put in"
done

total=0
for kind in signal=KILL error=EIO error=ENOSPC; do
    for call in write fsync; do
        before=0
        each_call "an empty store" "$kind" "$call" none
        before=1
        each_call "a store of one message" "$kind" "$call" one
    done
done
echo "$total faults in turn"

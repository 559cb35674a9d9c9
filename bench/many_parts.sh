#!/bin/sh
# Times one request for 5,000 messages: a text of 100 parts to each of 50 receivers, which `boxes door` accepts as one entry. Beside it a request for one
# message. Prints the median time of a run, its peak memory and the octets of the store.
#
#   bench/many_parts.sh [RUNS]        RUNS is 20 where it isn't given
#
# TMPDIR names the disk that is measured. A figure whose tool is missing is skipped with a word.
set -eu

here=$(CDPATH= cd -- "$(dirname -- "$0")/.." && pwd)
runs=${1:-20}
program=$here/crates/boxes/out/boxes
. "$here/bench/timing.sh"

room=$(mktemp -d)
trap 'rm -rf "$room"' EXIT
cd "$room"
sed 's/^password = foobar$/&\nmax-messages = 100/' "$here/examples/gate.conf" > gate.conf
[ -x "$program" ] || "$here/boxes" show gate.conf > /dev/null

receivers=$(i=0; while [ "$i" -lt 50 ]; do printf '+01234%05d' "$i"; i=$((i + 1)); done)
text=$(head -c 15300 /dev/zero | tr '\0' a)
url=$(head -c 2048 /dev/zero | tr '\0' u)
ask() { printf 'GET /cgi-bin/sendsms?username=tester&password=foobar&from=123&%s HTTP/1.0\r\n\r\n' "$1"; }
ask "to=${receivers#+}&text=$text" > many.http
ask "to=${receivers#+}&text=$text&dlr-mask=31&dlr-url=$url" > longest.http
ask "to=0123456&text=hello" > one.http

measure() {
    rm -f gate.store.*
    case $("$program" door gate.conf < "$1") in
        *"3: Queued for later delivery") ;;
        *) echo "many_parts.sh: $1 wasn't answered 202" >&2; exit 1 ;;
    esac
    octets=$(wc -c < gate.store.a)
    time=$(i=0
        while [ "$i" -lt "$runs" ]; do
            rm -f gate.store.*
            start=$(now)
            "$program" door gate.conf < "$1" > /dev/null
            end=$(now)
            echo $(((end - start) / 1000))
            i=$((i + 1))
        done | median)
    if [ -x /usr/bin/time ]; then
        rm -f gate.store.*
        /usr/bin/time -f %M -o peak "$program" door gate.conf < "$1" > /dev/null
        peak="$(cat peak) KB"
    else
        peak="skipped (no /usr/bin/time)"
    fi
    echo "$2: $time microseconds, peak memory $peak, $octets octets stored"
}

measure one.http "one message"
measure many.http "5,000 messages"
measure longest.http "5,000 messages, each with a URL of 2,048 octets"
"$program" show gate.conf | head -1

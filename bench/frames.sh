#!/bin/bash
# Times frames of SMPP 3.4: COUNT submit_sm of 67 octets and as many answers of 25 are written, each with a sequence number of its own; and the same,
# each read again. The program is crates/frame_bench; what it counts is compared. Processor time, the median of RUNS runs.
#
#   bench/frames.sh [COUNT] [RUNS]      1,000,000 and 9 where they aren't given
set -eu

here=$(CDPATH= cd -- "$(dirname -- "$0")/.." && pwd)
count=${1:-1000000}
runs=${2:-9}
. "$here/bench/timing.sh"
need_program frame_bench both 1
room=$(mktemp -d)
trap 'rm -rf "$room"' EXIT
octets=$((count * 92))

for course in write both; do
    took=$(processor_time "$runs" "submits $((count * 67)), replies $((count * 25))" "$course" "$count")
    case $took in
        wrong) echo "frames.sh: $course counts otherwise than it must"; exit 1 ;;
        0) echo "$course: too short to time" ;;
        *) echo "$course: $octets octets in $took microseconds, $((octets / took)) octets a microsecond" ;;
    esac
done

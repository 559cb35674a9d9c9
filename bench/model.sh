#!/bin/bash
# Times messages that go through a gate, 1,000, 10,000 and 1,000,000 of them, in processor time: accepted one an entry; then taken by
# one link with a window of 10, and acknowledged in their order; the same, but each full window in another order; in their order again, where each
# asks for reports and gets an id; then with a thousand reports on the last of them, each of which makes a job; and read from entries. Short runs
# are made nine times, for their median. The program is crates/model_bench; what it counts is compared.
#
#   bench/model.sh
#
# It fails where a message among a million takes more than twice the time that it takes among ten thousand, where a million that ask
# for no report take 600 MB or more, where a million entries take more than 4 s to read, or where a report among ten thousand awaited ones takes more than 0.1 ms.
set -eu

here=$(CDPATH= cd -- "$(dirname -- "$0")/.." && pwd)
. "$here/bench/timing.sh"
need_program model_bench accept 1
[ -x /usr/bin/time ] || echo "model.sh: no peak memory (no /usr/bin/time)" >&2
failed=0
reports=1000 # that come in the course `reported`
declare -A took # the microseconds of each course over so many messages

# What a course of so many messages must count.
counts() {
    case $1 in
        accept | load) echo "accepted $2, acked 0, waiting $2, awaited 0, jobs 0, entries $2" ;;
        awaited) echo "accepted $2, acked $2, waiting 0, awaited $2, jobs 0, entries $((2 * $2))" ;;
        reported) echo "accepted $2, acked $2, waiting 0, awaited $2, jobs $reports, entries $((2 * $2 + reports))" ;;
        *) echo "accepted $2, acked $2, waiting 0, awaited 0, jobs 0, entries $((2 * $2))" ;;
    esac
}

# Says that a wish doesn't hold.
fail() {
    echo "FAILED: $*"
    failed=1
}

# The peak memory of a course, in KiB, or nothing.
peak() {
    if [ -x /usr/bin/time ]; then
        /usr/bin/time -f %M -o "$room/peak" "$program" "$1" "$2" > "$room/said"
        cat "$room/peak"
    fi
}

# Runs a course over so many messages, and leaves its time in `total` and in `took`, in microseconds, and its memory in `memory`, in KiB.
run() {
    total=$(processor_time "$3" "$(counts "$1" "$2")" "$1" "$2")
    memory=$(peak "$1" "$2")
    if [ "$total" = wrong ]; then
        fail "$1 $2: wanted $(counts "$1" "$2")"
        total=0
    fi
    took[$1 $2]=$total
    awk -v course="$1" -v count="$2" -v runs="$3" -v total="$total" -v memory="$memory" 'BEGIN {
        printf "%s %d: %.2f microseconds a message, %.3f s in all (runs: %d)", course, count, total / count, total / 1000000, runs
        if (memory != "") printf ", peak %.1f MB", memory * 1024 / 1000000
        printf "\n"
    }'
}

room=$(mktemp -d)
trap 'rm -rf "$room"' EXIT

for course in accept in_order shuffled awaited load; do
    run "$course" 1000 9
    run "$course" 10000 9
    few=$total
    run "$course" 1000000 1
    awk "BEGIN { exit !($total > 200 * $few) }" && fail "$course: a message among a million takes more than twice the time"
    [ "$course" = awaited ] && continue
    awk "BEGIN { exit !(1024 * ${memory:-0} >= 600000000) }" && fail "$course: a million take 600 MB or more"
done
awk "BEGIN { exit !($total > 4000000) }" && fail "a million entries take more than 4 s to read"

# What a report costs among so many awaited ones: the time of a course with reports, less that of the same without, by the number of reports. Its
# message is the newest, so that all keys are looked at, and it is looked for twice: for its URL, and to count the report.
for count in 1000 10000 1000000; do
    runs=9
    [ "$count" -lt 1000000 ] || runs=1
    run reported "$count" "$runs"
    each=$(awk "BEGIN { printf \"%.1f\", ($total - ${took[awaited $count]}) / $reports }")
    echo "a report among $count awaited ones: $each microseconds"
    [ "$count" -eq 10000 ] && awk "BEGIN { exit !($each > 100) }" && fail "a report among ten thousand awaited ones takes more than 0.1 ms"
done
exit $failed

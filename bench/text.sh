#!/bin/sh
# Times the cutting of long texts: a text of 15,300 septets is cut into its 100 parts and each part is packed, 66 times
# over, which makes a million septets. The program is crates/text_bench; what it makes is checked by its status.
#
#   bench/text.sh [RUNS]        RUNS is 20 where it isn't given
set -eu

here=$(CDPATH= cd -- "$(dirname -- "$0")/.." && pwd)
runs=${1:-20}
. "$here/bench/timing.sh"
need_program text_bench

i=0
while [ "$i" -lt "$runs" ]; do
    start=$(now)
    "$program"
    end=$(now)
    echo $(((end - start) / 1000))
    i=$((i + 1))
done | median | awk -v runs="$runs" '{ printf "1,009,800 septets: %d microseconds (median of %d), %d septets a microsecond\n", $1, runs, 1009800 / $1 }'

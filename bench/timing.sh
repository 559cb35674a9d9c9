# What the scripts that time a program share; each sources it behind setting `here`, the folder of the repository.

# The middle one of numbers, a line each.
median() { sort -n | awk '{ t[NR] = $1 } END { print t[int((NR + 1) / 2)] }'; }

# Now, in nanoseconds.
now() { date +%s%N; }

# Names the program of a crate in `program`. Where it isn't built, it is, by a run with these words; where nothing can build it, the script skips.
#   need_program CRATE WORDS..
need_program() {
    crate=$1
    shift
    program=$here/crates/$crate/out/$crate
    [ -x "$program" ] && return
    command -v rt > /dev/null 2>&1 || { echo "skipped: no rt to build $crate"; exit 0; }
    echo "building $crate" >&2
    (cd "$here/crates/$crate" && rt run -- "$@" < /dev/null > /dev/null 2>&1)
}

# The median of so many runs of the program with these words, in microseconds of processor time, or `wrong` where one says otherwise than it must. In
# bash; `room` is a folder of the script's.
#   processor_time RUNS WANTED WORDS..
processor_time() {
    runs=$1
    wanted=$2
    shift 2
    TIMEFORMAT='%3U %3S'
    for _ in $(seq "$runs"); do
        { time "$program" "$@" > "$room/said"; } 2>&1
        [ "$(cat "$room/said")" = "$wanted" ] || echo wrong
    done > "$room/times"
    if grep -q wrong "$room/times"; then
        echo wrong
    else
        awk '{ print ($1 + $2) * 1000000 }' "$room/times" | median
    fi
}

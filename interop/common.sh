# What the scripts with a centre share; each sources it behind setting `here`, the folder of the repository, and `port`, that of its centre. It makes the
# script fail where a comparison did.

failed=0

# Skips the script where Net::SMPP is missing.
needs_net_smpp() {
    perl -MNet::SMPP -e 1 2> /dev/null || { echo "skipped: Net::SMPP isn't installed (Debian's package libnet-smpp-perl)"; exit 0; }
}

# Says whether what was seen is what was wanted.
same() {
    if [ "$2" = "$3" ]; then echo "ok: $1"; else echo "FAILED: $1: $2, wanted: $3"; failed=1; fi
}

# Goes to a folder of its own, with a configuration whose centre is at the port; the program is that of the name, or the repository's `boxes`.
begin() {
    program=$(realpath -- "${1:-$here/boxes}") || exit 1
    room=$(mktemp -d) || exit 1
    trap 'kill "$centre" 2> /dev/null; rm -rf "$room"' EXIT
    cd "$room" || exit 1
    sed "s/^port = .*/port = $port/" "$here/examples/gate.conf" > gate.conf
    # (the first run builds the program)
    "$program" > /dev/null 2>&1
}

# Asks for a message over HTTP, by the variables behind the user's.
ask() {
    said=$(printf 'GET /cgi-bin/sendsms?username=tester&password=foobar&%s HTTP/1.0\r\n\r\n' "$2" | "$program" door gate.conf 2>&1 | tail -n 1)
    same "door: $1" "$said" '3: Queued for later delivery'
}

# What `show` counts, on one line.
counts() { "$program" show gate.conf | tr '\n' ' '; }

# Runs `link` by a configuration beside a centre, by its script and what it is told behind the port; leaves what `link` says in `said`, its status in
# `status`, and what the centre says in `heard`.
link() {
    conf=$1
    script=$2
    shift 2
    rm -f heard
    case $script in
        *.py) language=python3 ;;
        *) language=perl ;;
    esac
    "$language" "$here/interop/$script" "$port" "$@" > heard 2>&1 &
    centre=$!
    for i in 1 2 3 4 5 6 7 8 9 10; do
        grep -q listening heard 2> /dev/null && break
        sleep 0.5
    done
    "$program" link "$conf" main > said 2>&1
    status=$?
    wait "$centre" || { echo "FAILED: the centre"; failed=1; }
    sed 's/^/    centre: /' heard
}

# Captures what goes over the loopback by a filter, in the folder of the run, where tshark may; else says why not.
capture() {
    tshark=
    command -v tshark > /dev/null 2>&1 || { echo "not dissected: tshark isn't installed (Debian's package tshark)"; return; }
    tshark -q -i lo -f "$1" -w talk.pcap 2> errors &
    tshark=$!
    for i in 1 2 3 4 5 6 7 8 9 10 11 12 13 14 15 16 17 18 19 20; do
        [ -s talk.pcap ] && break
        sleep 0.5
    done
    sleep 2
    kill -0 "$tshark" 2> /dev/null && return
    echo "not dissected: tshark may not capture on the loopback: $(tail -n 1 errors)"
    tshark=
}

# Ends the capture. Whether there is one.
captured() {
    [ -n "$tshark" ] || return 1
    sleep 2
    kill -INT "$tshark" && wait "$tshark" 2> /dev/null
    return 0
}

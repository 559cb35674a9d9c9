#!/bin/sh
# Has others read the frames that a link says over SMPP, those of the cases in crates/link_runs: Net::SMPP, whose fields are compared with what
# each case asks for, and tshark, which is to find none malformed.
# It is outside the gate: it needs Debian's packages libnet-smpp-perl and tshark, and skips with a word where one is missing.
here=$(CDPATH= cd -- "$(dirname -- "$0")/.." && pwd) || exit 1
cases="$here/crates/link_runs/stdout"
failed=0

if perl -MNet::SMPP -e 1 2> /dev/null; then
    perl "$here/interop/frames.pl" "$cases" || failed=1
else
    echo "skipped: Net::SMPP isn't installed (Debian's package libnet-smpp-perl)"
fi

if command -v tshark > /dev/null 2>&1 && command -v text2pcap > /dev/null 2>&1; then
    room=$(mktemp -d) || exit 1
    trap 'rm -rf "$room"' EXIT
    # (each frame is a segment of its own, to the port that tshark knows as SMPP's)
    sed -n 's/^    \([0-9A-F]\{32,\}\)$/\1/p' "$cases" | sed 's/../& /g; s/^/000000 /' > "$room/frames"
    text2pcap -q -T 40000,2775 "$room/frames" "$room/frames.pcap" 2> /dev/null || exit 1
    frames=$(wc -l < "$room/frames")
    read=$(tshark -r "$room/frames.pcap" -d tcp.port==2775,smpp -Y smpp 2> /dev/null | wc -l)
    bad=$(tshark -r "$room/frames.pcap" -d tcp.port==2775,smpp -Y '_ws.malformed || _ws.expert.severity >= 0x600000' 2> /dev/null | wc -l)
    if [ "$read" -eq "$frames" ] && [ "$bad" -eq 0 ] && [ "$frames" -gt 0 ]; then
        echo "ok: tshark reads $read frames, none malformed"
    else
        echo "FAILED: tshark reads $read of $frames frames, $bad of them malformed"
        failed=1
    fi
else
    echo "skipped: tshark isn't installed (Debian's package tshark)"
fi
exit $failed

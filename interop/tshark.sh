#!/bin/sh
# Captures what `boxes link` and a centre of Net::SMPP's say to each other in smpp.sh and in receipts.sh, and has tshark dissect it: no frame is malformed, and
# each field is as it was meant.
# It is outside the gate: it needs Debian's packages libnet-smpp-perl and tshark and rights to capture on the loopback, and skips with a word where one is missing.
#
#   interop/tshark.sh [PROGRAM]   PORT names the port of the centre of smpp.sh, 12775 where it isn't set; that of receipts.sh is the next one
here=$(CDPATH= cd -- "$(dirname -- "$0")/.." && pwd) || exit 1
port=${PORT:-12775}
reports=$((port + 1))
. "$here/interop/common.sh"
needs_net_smpp
program=$(realpath -- "${1:-$here/boxes}") || exit 1
room=$(mktemp -d) || exit 1
trap 'kill "$tshark" 2> /dev/null; rm -rf "$room"' EXIT
cd "$room" || exit 1
capture "tcp port $port or tcp port $reports"
[ -n "$tshark" ] || exit 0
for run in "$port smpp.sh" "$reports receipts.sh"; do
    PORT=${run% *} "$here/interop/${run#* }" "$program" > "$room/run" 2>&1 || { cat "$room/run"; echo "FAILED: ${run#* }"; exit 1; }
done
captured

# Fields of the frames that a filter takes, a line a packet; several frames of a packet have commas between them.
dissect() { filter=$1; shift; tshark -r "$room/talk.pcap" -d "tcp.port==$port,smpp" -d "tcp.port==$reports,smpp" -Y "$filter" -T fields "$@" 2> /dev/null; }

bad=$(dissect '_ws.malformed || (smpp && _ws.expert.severity >= 0x600000)' -e frame.number | wc -l)
same 'tshark finds no frame malformed' "$bad" 0
said="tcp.dstport == $port && smpp"
# (what link says, in its order, as numbers of SMPP 3.4's commands)
count() { dissect "$said" -e smpp.command_id | tr ',' '\n' | grep -c "^$1\$"; }
same 'logins' "$(count 0x00000009)" 2
same 'messages, one of them twice' "$(count 0x00000004)" 8
same 'answers to a message' "$(count 0x80000005)" 1
same 'answers to a question' "$(count 0x80000015)" 1
same 'answers to the end' "$(count 0x80000006)" 1
each() { tr ',' '\n' | grep -v '^$' | sort | uniq -c | sed 's/^ *//' | tr '\n' ';'; }
list() { dissect "$said && smpp.command_id == 0x00000004" -e "$1" | each; }
same 'senders' "$(list smpp.source_addr)" '6 123;2 Shop;'
same 'receivers' "$(list smpp.destination_addr)" '7 0123456;1 4912345;'
same 'types of number of receivers' "$(list smpp.dest_addr_ton)" '7 0x00;1 0x01;'
same 'data codings' "$(list smpp.data_coding)" '5 0x00;2 0x04;1 0x08;'
same 'classes of message' "$(list smpp.esm.submit.features)" '5 0x00;3 0x01;'
same 'lengths' "$(list smpp.sm_length)" '1 111;2 158;2 3;2 4;1 8;'
same 'passwords' "$(dissect "$said" -e smpp.password | tr -d '\n')" 'wrongsecret'

# The receipts: ten messages, of which nine ask for them, and eleven that the centre sends and `link` answers well.
said="tcp.dstport == $reports && smpp"
same 'messages that ask for receipts' "$(list smpp.regdel.receipt)" '1 0x00;9 0x01;'
heard="tcp.srcport == $reports && smpp.command_id == 0x00000005"
same 'receipts, by their type of message' "$(dissect "$heard" -e smpp.esm.submit.msg_type | each)" '11 0x01;'
same 'answers to a receipt' "$(count 0x80000005)" 11
same 'their status' "$(dissect "$said && smpp.command_id == 0x80000005" -e smpp.command_status | each)" '11 0x00000000;'
exit $failed

#!/bin/sh
# Has `boxes door` store messages, and `boxes link` send them to a centre of Net::SMPP's (centre.pl), which compares each field of what it hears with
# what was asked for; and looks what `boxes show` counts before and after. Then a login with a wrong password, and a centre that isn't there.
# It is outside the gate: it needs Debian's package libnet-smpp-perl, and skips with a word where it is missing.
#
#   interop/smpp.sh [PROGRAM]   PORT names the port of the centre, 12775 where it isn't set; PROGRAM is ./boxes of the repository where it isn't named
here=$(CDPATH= cd -- "$(dirname -- "$0")/.." && pwd) || exit 1
port=${PORT:-12775}
. "$here/interop/common.sh"
needs_net_smpp
begin "$1"
sed 's/^smsc-password = .*/smsc-password = wrong/' gate.conf > wrong.conf

long=$(head -c 400 /dev/zero | tr '\0' a)
ask '7 bits with a euro sign' 'from=123&to=0123456&text=5%E2%82%AC+each'
ask '8 bits' 'from=Shop&to=0123456&coding=1&text=%00%01%FE'
ask 'UCS-2' 'from=123&to=0123456&coding=2&text=%20%AC%04%16'
ask 'three parts with a header' "from=123&to=0123456&coding=0&udh=%03p%01x&text=$long"
ask 'validity' 'from=123&to=%2B4912345&validity=60&text=soon'
same 'show before' "$(counts)" 'accepted 7 acked 0 rejected 0 waiting 7 awaited 0 unmatched 0 jobs 0 called 0 dropped 0 arrived 0 arrivals 0 entries 5 '

link wrong.conf centre.pl secret
same 'link with a wrong password: status' "$status" 10
same 'link with a wrong password: line' "$(cat said)" 'boxes: link: login refused 14'
same 'show behind it' "$(counts)" 'accepted 7 acked 0 rejected 0 waiting 7 awaited 0 unmatched 0 jobs 0 called 0 dropped 0 arrived 0 arrivals 0 entries 5 '

link gate.conf centre.pl secret
same 'link: status' "$status" 0
same 'link: nothing on standard output and error' "$(cat said)" ''
same 'link: the message of 8 bits is sent again' "$(grep -c 'message 8 bits: status' heard)" 2
same 'show after' "$(counts)" 'accepted 7 acked 6 rejected 1 waiting 0 awaited 0 unmatched 0 jobs 0 called 0 dropped 0 arrived 1 arrivals 1 entries 13 '

"$program" link gate.conf main > said 2>&1
same 'link where no centre is: status' "$?" 6
same 'link where no centre is: line' "$(cat said)" 'boxes: connection fault'
"$program" link gate.conf other > said 2>&1
same 'link with an id that no link has' "$? $(cat said)" '3 boxes: configuration: no such link'
exit $failed

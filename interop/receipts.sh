#!/bin/sh
# Has `boxes door` store messages that ask for reports, and `boxes link` send them to a centre of Net::SMPP's (receipts.pl), which sends receipts: one for each final
# state, one twice, one of an id that is no message's, one before its message's acknowledgement. What `boxes show` counts behind it is compared, and so are the URLs
# of the jobs (crates/job_list), with those that the user guide of Kannel gives for them: `%d` is 1 delivered, 2 undelivered, 4 held back, 8 taken by the centre, 16 refused.
# It is outside the gate: it needs Debian's package libnet-smpp-perl, and skips with a word where it is missing.
#
#   interop/receipts.sh [PROGRAM]   PORT names the port of the centre, 12776 where it isn't set; PROGRAM is ./boxes of the repository where it isn't named
here=$(CDPATH= cd -- "$(dirname -- "$0")/.." && pwd) || exit 1
port=${PORT:-12776}
. "$here/interop/common.sh"
needs_net_smpp
begin "$1"

# Asks for a message with a text and a mask, and a URL that names both.
ask_reports() { ask "$1" "from=123&to=0123456&text=$1&dlr-mask=$2&dlr-url=http%3A%2F%2Flocalhost%2F$1%3Fkind%3D%25d%26id%3D%25F"; }

# Each row: a text, its mask, and the reports that are to become jobs, of what the centre says.
ask_reports one 31    # sent, delivered
ask_reports two 3     # undelivered
ask_reports three 7   # buffered, delivered
ask_reports four 1    # (undelivered, which isn't asked for)
ask_reports five 2    # undelivered
ask_reports six 3     # undelivered; the second receipt is no message's
ask_reports seven 3   # (none comes)
ask_reports eight 3   # (the receipt comes before the acknowledgement, and is no message's)
ask_reports nine 24   # refused
ask_reports ten 7     # buffered

link gate.conf receipts.pl
same 'link: status' "$status" 0
same 'link: nothing on standard output and error' "$(cat said)" ''
same 'show' "$(counts)" 'accepted 10 acked 9 rejected 1 waiting 0 awaited 3 unmatched 3 jobs 9 called 0 dropped 0 arrived 0 arrivals 0 entries 31 '

list=$here/crates/job_list/out/job_list
[ -x "$list" ] || { echo "skipped: the jobs' URLs (crates/job_list isn't built; the gate builds it)"; exit $failed; }
same 'URLs of the jobs' "$("$list" gate.store | sed -n 's/^[0-9]* http/http/p' | sort)" 'http://localhost/five?kind=2&id=id-five
http://localhost/nine?kind=16&id=
http://localhost/one?kind=1&id=id-one
http://localhost/one?kind=8&id=id-one
http://localhost/six?kind=2&id=id-six
http://localhost/ten?kind=4&id=id-ten
http://localhost/three?kind=1&id=id-three
http://localhost/three?kind=4&id=id-three
http://localhost/two?kind=2&id=id-two'
exit $failed

#!/bin/sh
# Runs `boxes door` behind a listener that hands it one connection at a time, and asks it what a requester would, with curl: over
# HTTP/1.0, and over HTTP/1.1 with connections that are kept.
# It is outside the gate: it needs curl and either socat or systemd-socket-activate, and skips with a word where one is missing.
#
#   interop/curl.sh             PORT names the port to listen on, 13613 where it isn't set
here=$(CDPATH= cd -- "$(dirname -- "$0")/.." && pwd) || exit 1
port=${PORT:-13613}
command -v curl > /dev/null 2>&1 || { echo "skipped: curl isn't installed (Debian's package curl)"; exit 0; }
room=$(mktemp -d) || exit 1
trap 'kill "$listener" 2> /dev/null; rm -rf "$room"' EXIT
cd "$room" || exit 1
# (the first run builds the program)
"$here/boxes" > /dev/null 2>&1
if command -v socat > /dev/null 2>&1; then
    socat "TCP-LISTEN:$port,bind=127.0.0.1,reuseaddr,fork" "EXEC:$here/boxes door $here/examples/gate.conf" 2> "$room/errors" &
elif command -v systemd-socket-activate > /dev/null 2>&1; then
    systemd-socket-activate --accept --inetd -l "127.0.0.1:$port" "$here/boxes" door "$here/examples/gate.conf" 2> "$room/errors" &
else
    echo "skipped: neither socat nor systemd-socket-activate is installed (Debian's packages socat, systemd)"
    exit 0
fi
listener=$!
sleep 1
failed=0

# Asks with these words of curl, and compares with what is wanted: for each request, one behind the other with `; ` between them, the body,
# the status, what the answer says of the connection, and how many connections curl made for it.
asks() {
    what=$1
    wanted=$2
    shift 2
    # (a run that is still ending has the store)
    sleep 0.3
    said=$(curl -s -w ' %{http_code} %header{connection} %{num_connects}\n' "$@" | sed -n 'H; ${ x; s/\n//; s/\n/; /g; p; }')
    if [ "$said" = "$wanted" ]; then
        echo "ok: $what: $said"
    else
        echo "FAILED: $what: $said, wanted: $wanted"
        failed=1
    fi
}

url="http://127.0.0.1:$port/cgi-bin/sendsms"
other="http://127.0.0.1:$port/cgi-bin/other"
form='username=tester&password=foobar&from=123&to=0123456'
wrong='username=tester&password=wrong&from=123&to=0123456&text=hello'
queued='3: Queued for later delivery 202'
stored=17 # a header of 16 octets and a closed gate

# ---- HTTP/1.0: a connection a request
asks "a message" "$queued close 1" --http1.0 "$url?$form&text=hello"
stored=$((stored + 71))
asks "a text that curl writes as a form" "$queued close 1" --http1.0 -G "$url" \
    -d username=tester -d password=foobar -d from=123 -d to=0123456 --data-urlencode 'text=hello world'
stored=$((stored + 77))
asks "a wrong password" 'Authorization failed for sendsms 403 close 1' --http1.0 "$url?$wrong"
asks "another path" 'Unknown path. 404 close 1' --http1.0 "$other?$form&text=hello"

# ---- HTTP/1.1: connections are kept
asks "two messages in one connection" "$queued keep-alive 1; $queued keep-alive 0" "$url?$form&text=hello" "$url?$form&text=world"
stored=$((stored + 2 * 71))
asks "refusals between messages" \
    "$queued keep-alive 1; Authorization failed for sendsms 403 keep-alive 0; Unknown path. 404 keep-alive 0; $queued keep-alive 0" \
    "$url?$form&text=hello" "$url?$wrong" "$other" "$url?$form&text=world"
stored=$((stored + 2 * 71))
asks "a request that closes" "$queued close 1" -H 'Connection: close' "$url?$form&text=hello"
stored=$((stored + 71))
asks "escapes in a name and a text" "$queued keep-alive 1" "$url?user%6eame=%74ester&password=foobar&from=123&to=0123456&text=%68ello%20world"
stored=$((stored + 77))
asks "a form in the body, which curl posts" 'Bad request: method 400 close 1' "$url" -d "$form&text=hello"
asks "the same as a GET" 'Bad request: body 400 close 1' -X GET "$url" -d "$form&text=hello"
asks "a HEAD" ' 400 keep-alive 1' -I -o /dev/null "$url?$form&text=hello"

# ---- each variable: it is taken, and what it may not hold is named
user='username=tester&password=foobar'
long() { head -c "$1" /dev/zero | tr '\0' a; }
asks "every variable" "$queued keep-alive 1" -G "$url?$form&text=hello&coding=1&mclass=1&charset=utf-8&validity=60&deferred=5&dlr-mask=31" \
    --data-urlencode 'udh='"$(printf '\003p\001x')" -d smsc=main -d dlr-url=u -d account=shop
stored=$((stored + 71 + 4 + 4 + 1 + 4))
asks "two receivers of a text in two parts" "$queued keep-alive 1" "$url?$user&from=123&to=0123456+42&text=$(long 161)"
stored=$((stored + 5 + 11 + 50 + 153 + 50 + 8 + 45 + 153 + 45 + 8))
refuses() { asks "$1 that is wrong" "Bad request: $1 400 keep-alive 1" "$url?$user&$2"; }
refuses to "to=0123456+x&from=123"
refuses from "to=0123456&from=a_b"
refuses coding "$form&coding=3"
refuses mclass "$form&mclass=4"
refuses charset "$form&charset=latin1"
refuses udh "$form&udh=%05"
refuses smsc "$form&smsc=$(long 65)"
refuses validity "$form&validity=43201"
refuses deferred "$form&deferred=43201"
refuses dlr-mask "$form&dlr-mask=32"
refuses dlr-url "$form&dlr-url=$(long 2049)"
refuses account "$form&account=$(long 65)"
refuses text "$form&text=%FF"

sleep 0.3
size=$(wc -c < gate.store.a)
if [ "$size" = "$stored" ]; then
    echo "ok: the messages that were answered 202 are stored, and no other ($size octets)"
else
    echo "FAILED: gate.store.a has $size octets, wanted: $stored"
    failed=1
fi
exit $failed

#!/bin/sh
# Runs each example in a folder of its own with an empty store, and compares what is said with what README.md here says of it.
here=$(CDPATH= cd -- "$(dirname -- "$0")" && pwd) || exit 1
room=$(mktemp -d) || exit 1
trap 'rm -rf "$room"' EXIT
cd "$room" || exit 1
# (the first run builds the program)
"$here/../boxes" > /dev/null 2>&1
failed=0

# Runs `door` over a configuration and a request, and compares the answers, as `CODE connection body` with `; ` between them.
tries() {
    conf=$1
    request=$2
    wanted=$3
    rm -f gate.store.*
    said=$("$here/../boxes" door "$here/$conf" < "$here/$request" | tr -d '\r' | sed 's/HTTP\/1\.1 /\n&/g' | awk '
        /^HTTP\/1\.1 / { code = $2; in_body = 0; next }
        /^Connection: / { connection = $2; next }
        /^$/ { in_body = 1; next }
        in_body { printf "%s%s %s %s", (count++ ? "; " : ""), code, connection, $0 }')
    if [ "$said" = "$wanted" ]; then
        echo "ok: $request over $conf: $said"
    else
        echo "FAILED: $request over $conf: $said, wanted: $wanted"
        failed=1
    fi
}

queued='3: Queued for later delivery'
tries gate.conf hello.http "202 close $queued"
tries gate.conf two-in-one-connection.http "202 keep-alive $queued; 202 close $queued"
tries full.conf two-in-one-connection.http "202 keep-alive $queued; 503 close Temporal failure, try again later."
tries long.conf hello.http "202 close $queued"
tries long.conf shop.http "202 close $queued"
tries long.conf no-route.http '403 close Not routable. Do not try again.'
tries gate.conf wrong-password.http '403 close Authorization failed for sendsms'
tries gate.conf unknown-path.http '404 close Unknown path.'
tries gate.conf wrong-method.http '400 close Bad request: method'
tries gate.conf with-a-body.http '400 close Bad request: body'
tries gate.conf no-head.http '400 close Bad request: head'
tries gate.conf long-text.http "202 close $queued"
tries gate.conf with-reports.http "202 close $queued"
tries gate.conf wrong-receiver.http '400 close Bad request: to'
tries gate.conf wrong-text.http '400 close Bad request: text'
exit $failed

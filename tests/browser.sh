#!/usr/bin/env bash
# Tries the two live pages of examples/ in headless Chromium: their lines arrive, a message sent from them is answered, and
# the one from a folder comes with its style sheet, script and icon. A picture of the latter stands in the temporary
# folder, or in the file that PICTURE names, which is kept. It wants the program that `rt ci` leaves.
. "$(dirname "$0")/common.sh"
. "$root/tests/server.sh"
for chromium in chromium chromium-browser google-chrome chrome; do
    command -v "$chromium" >/dev/null && break
    chromium=
done
[ -n "$chromium" ] || {
    echo 'skipped: no chromium'
    exit 0
}
command -v curl >/dev/null || {
    echo 'skipped: no curl'
    exit 0
}

picture=${PICTURE:-$folder/page.png}

# A page at a path, of a site file of examples/, with the paths of what it takes beside itself.
shows() {
    local name=$1 path=$2 shaken _
    port=$(free_port)
    url=http://127.0.0.1:$port
    sed "s|/srv/cgi|$root/examples|; s|/srv/page|$root/examples/page|; s|8080|$port|g" "$root/examples/$name.toml" >site
    start

    # A server that speaks WebSocket says so to a handshake.
    shaken=$(curl -s -m 2 -o answer -w '%{http_code}' -H 'Connection: Upgrade' -H 'Upgrade: websocket' -H 'Sec-WebSocket-Version: 13' \
        -H 'Sec-WebSocket-Key: dGhlIHNhbXBsZSBub25jZQ==' -H "Origin: $url" "$url/$name/echo")
    if [ "$shaken" = 101 ]; then ok; else bad "$name: a handshake is answered with $shaken"; fi

    rm -f "$picture"
    if python3 "$root/tests/browser.py" "$chromium" "$url$path" "$picture" "${@:3}" 2>wrong; then ok; else bad "$name: $(tail -n 1 wrong)"; fi
    if [ "$(head -c 8 "$picture" | od -An -tx1 | tr -d ' ')" = 89504e470d0a1a0a ]; then ok; else bad "$name: there is no picture of it"; fi

    # Its programs end once the page is gone: one at once, the other with the line that it can't print.
    for _ in $(seq 100); do
        [ "$(children)" = 0 ] && break
        sleep 0.1
    done
    if [ "$(children)" = 0 ]; then ok; else bad "$name: $(children) programs are left"; fi
    end_server
}

shows live /live
shows page /page/ /page/icon.svg /page/page.css /page/page.js

count

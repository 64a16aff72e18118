#!/usr/bin/env bash
# Tries what docs/deploy.md says: the installation, the units, the tables of limits, and each server in front that is
# installed, with its configuration as it stands there but for the ports. It wants the program that `rt ci` leaves, and
# works in a temporary folder.
. "$(dirname "$0")/common.sh"
. "$root/tests/server.sh"
for needed in curl install; do
    command -v "$needed" >/dev/null || {
        echo "skipped: no $needed"
        exit 0
    }
done
front=
trap 'end_front; end_server; rm -rf "$folder"' EXIT

# The block of the page in some language; of several the one of this number.
block() {
    awk -v opens="\`\`\`$1" -v wanted="${2:-1}" '
        /^```/ { inside = $0 == opens; count += inside; next }
        inside && count == wanted
    ' "$root/docs/deploy.md"
}

# ---- the installation: the program, the pages, the examples, and nothing else
CGIHOST=$program "$root/packaging/install.sh" "$folder/prefix"
{
    printf 'bin/%s\n' cgihost cgihost-run
    (cd "$root/examples" && find . -type f | sed 's|^\.|share/doc/cgihost/examples|')
    printf 'share/man/man%s\n' 1/cgihost.1 1/cgihost-run.1 5/cgihost.toml.5
} | sort >wanted
same 'what is installed' "$(cd prefix && find . -type f | sed 's|^\./||' | sort)" "$(cat wanted)"
same 'the installed program' "$(prefix/bin/cgihost check prefix/share/doc/cgihost/examples/site.toml 2>said)" 'ok: 6 scripts'
same 'an installed example may be run' "$([ -x prefix/share/doc/cgihost/examples/hello ] && echo yes)" yes
same 'a prefix is wanted' "$("$root/packaging/install.sh" 2>&1)" 'usage: packaging/install.sh [--uninstall] PREFIX'
# .. and what was installed is taken away, and what isn't ours stays
cp -R prefix other
"$root/packaging/install.sh" --uninstall "$folder/other" || bad 'nothing was taken away'
same 'what is left' "$(cd other && find . -type f)" ''
same 'the folder of the examples' "$([ -e other/share/doc/cgihost ] && echo is there)" ''
cp -R prefix/. other
echo mine >other/share/doc/cgihost/examples/mine
"$root/packaging/install.sh" --uninstall "$folder/other" 2>/dev/null || bad 'nothing was taken away beside a file of its own'
same 'what is left beside it' "$(cd other && find . -type f)" ./share/doc/cgihost/examples/mine

# ---- the units
if command -v systemd-analyze >/dev/null; then
    mkdir units
    for unit in cgihost.service cgihost.socket; do
        sed "s|/usr/local/bin/cgihost|$folder/prefix/bin/cgihost|; /^Documentation=/d" "$root/packaging/$unit" >"units/$unit"
    done
    same 'the units' "$(SYSTEMD_LOG_LEVEL=warning systemd-analyze verify units/cgihost.service units/cgihost.socket 2>&1)" ''
else
    echo 'skipped: no systemd-analyze'
fi

# ---- the limits
for number in 1 2; do
    { printf 'version = 1\n'; block toml "$number"; printf '[[script]]\npath = "/hello"\nprogram = "/bin/cat"\n'; } >limits
    same "the table of limits $number" "$("$program" check limits 2>said)" 'ok: 1 scripts'
done

# ---- orders by a FIFO that is open for writing too, as the unit and the shell have it
port=$(free_port)
"$program" upgrade "/hello=$root/examples/hello" | sed "s/^port = .*/port = $port/" >site
mkfifo fifo
: >said
"$program" serve site <>fifo 2>said &
server=$!
for _ in $(seq 500); do
    grep -q listening said && break
    sleep 0.02
done
echo drain >fifo
ends 'drain by a FIFO' 0 10

# ---- the wrapper for containers and supervisors: a signal drains, and a second one stops
script slow 'sleep 3
printf "Content-Type: text/plain\n\nslept\n"'
wrapped() {
    port=$(free_port)
    "$program" upgrade "/slow=$folder/slow" | sed "s/^port = .*/port = $port/" >site
    : >said
    CGIHOST=$program "$root/packaging/cgihost-run" serve site >out 2>said &
    server=$!
    for _ in $(seq 500); do
        grep -q listening said && break
        sleep 0.02
    done
    curl -s -m 20 "http://127.0.0.1:$port/slow" >slept &
    asked=$!
    sleep 0.5
    kill -TERM "$server"
}
wrapped
wait "$asked"
same 'what runs at a signal comes to its end' "$(cat slept)" slept
ends 'the wrapper, drained' 0 10
wrapped
sleep 0.2
kill -TERM "$server"
ends 'the wrapper, stopped by a second signal' 0 2
wait "$asked"
same 'the wrapper gives the status on' "$(CGIHOST=$program "$root/packaging/cgihost-run" serve none 2>/dev/null; echo $?)" 4

# ---- behind other servers
script echoed 'printf "Content-Type: text/plain\n\n%s %s %s\n" "$HTTP_HOST" "$REMOTE_ADDR" "$HTTP_X_FORWARDED_FOR"
cat'
port=$(free_port)
sed "s|/srv/cgi|$root/examples|; s|8080|$port|g" "$root/examples/live.toml" >site
cat >>site <<END

[[script]]
path = "/echoed"
program = "$folder/echoed"

[[script]]
path = "/counter"
program = "$root/examples/counter"
END
start

# Whether it answers a handshake, at a port.
speaks_websocket() {
    [ "$(curl -s -m 2 -o got -w '%{http_code}' -H 'Connection: Upgrade' -H 'Upgrade: websocket' -H 'Sec-WebSocket-Version: 13' \
        -H 'Sec-WebSocket-Key: dGhlIHNhbXBsZSBub25jZQ==' -H "Origin: http://127.0.0.1:$port" "http://127.0.0.1:$1/live/echo")" = 101 ]
}
if speaks_websocket "$port"; then ok; else bad 'no WebSocket is served'; fi

end_front() {
    [ -z "$front" ] || { kill "$front" && wait "$front"; } 2>/dev/null
    front=
}

# Asks by the server in front, which a command starts that goes on until it is ended.
behind() {
    local name=$1 url=http://127.0.0.1:$front_port times _
    shift
    "$@" >"$name.log" 2>&1 &
    front=$!
    for _ in $(seq 100); do
        curl -s -m 5 -o got "$url/none" && break
        kill -0 "$front" 2>/dev/null || break
        sleep 0.1
    done
    same "$name: no script" "$(curl -s -m 20 "$url/none")" 'no script for this path'
    same "$name: a page" "$(curl -s -m 20 "$url/live")" "$(cat "$root/examples/live.html")"
    same "$name: HEAD" "$(curl -s -m 20 -I -o got -w '%{http_code} %{content_type}' "$url/live")" '200 text/html; charset=utf-8'
    same "$name: host, peer and client" "$(curl -s -m 20 -H 'Host: a.example' "$url/echoed")" 'a.example 127.0.0.1 127.0.0.1'
    head -c 300000 /dev/zero | tr '\0' b >body
    curl -s -m 20 --data-binary @body "$url/echoed" | tail -n 1 >got
    if cmp -s got body; then ok; else bad "$name: a body of 300,000 bytes"; fi
    curl -s -m 20 -H 'Transfer-Encoding: chunked' --data-binary @body "$url/echoed" | tail -n 1 >got
    if cmp -s got body; then ok; else bad "$name: a body in chunks"; fi
    times=$(curl -s -N -m 20 -o got -w '%{time_starttransfer} %{time_total}' "$url/counter")
    same "$name: what is counted" "$(tr '\n' ' ' <got)" '1 2 3 4 5 '
    if awk '{ exit !($1 < $2 - 1) }' <<<"$times"; then ok; else bad "$name: the first byte and the end came at $times s"; fi
    if speaks_websocket "$front_port"; then ok; else bad "$name: no WebSocket"; fi
    [ "$failed" = 0 ] || sed 's/^/    /' "$name.log" | tail -n 5
    end_front
}

front_port=$(free_port)
if command -v nginx >/dev/null; then
    {
        printf 'daemon off;\npid %s/nginx.pid;\nerror_log stderr;\nevents {}\nhttp {\naccess_log off;\n' "$folder"
        for kind in client_body proxy fastcgi uwsgi scgi; do printf '%s_temp_path %s/%s;\n' "$kind" "$folder" "$kind"; done
        block nginx | sed "s/listen 80;/listen 127.0.0.1:$front_port;/; s/127.0.0.1:8080/127.0.0.1:$port/"
        echo '}'
    } >nginx.conf
    chmod 755 "$folder"
    behind nginx nginx -c "$folder/nginx.conf"
else
    echo 'skipped: no nginx'
fi

front_port=$(free_port)
if command -v lighttpd >/dev/null; then
    {
        printf 'server.document-root = "%s"\nserver.bind = "127.0.0.1"\nserver.port = %s\n' "$folder" "$front_port"
        block lighttpd | sed "s/8080/$port/"
    } >lighttpd.conf
    behind lighttpd lighttpd -D -f lighttpd.conf
else
    echo 'skipped: no lighttpd'
fi

front_port=$(free_port)
if command -v haproxy >/dev/null; then
    block haproxy | sed "s/bind :80$/bind 127.0.0.1:$front_port/; s/127.0.0.1:8080/127.0.0.1:$port/" >haproxy.cfg
    behind haproxy haproxy -db -f haproxy.cfg
else
    echo 'skipped: no haproxy'
fi
end_server

count

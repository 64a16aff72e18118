#!/usr/bin/env bash
# What `serve --log` writes: the form of a line and what each kind of reply leaves in it, one line for each reply over four
# loops, a file that takes nothing, a FIFO that nobody reads, clients that try to write a line of their own, and rotation.
# It wants the program that `rt ci` leaves, and works in a temporary folder.
. "$(dirname "$0")/common.sh"
. "$root/tests/server.sh"

script hello 'printf "Content-Type: text/plain\n\nhi\n"'
script nap 'sleep 0.3
printf "Content-Type: text/plain\n\nup\n"'
script missing 'printf "Status: 404\nContent-Type: text/plain\n\nno such page\n"'
script empty 'printf "Status: 204\n\n"'
script silent 'true'
script moved 'printf "Location: /hello\n\n"'
script long 'printf "Content-Type: text/plain\n\nbegun\n"
exec sleep 60'
script large 'printf "Content-Type: text/plain\n\n"
exec head -c 1000000 /dev/zero'
script chatty 'printf "Content-Type: text/plain\n\nbegun\n"
while sleep 0.1; do
    echo more
done'
script echo 'exec cat'

# A site on a free port, with these limits.
site() {
    port=$(free_port)
    {
        printf 'version = 1\nport = %s\n\n[limits]\n%b\n' "$port" "$1"
        for name in hello nap missing empty silent moved long chatty large none:"$folder/none" echo; do
            printf '\n[[script]]\npath = "/%s"\nprogram = "%s/%s"\n' "${name%%:*}" "$folder" "${name%%:*}"
        done
        printf 'kind = "websocket"\n'
    } >site
}

# A line of the log: that of the common log format, the script, the milliseconds, and what is remarked. No byte in it but those
# that can be shown, and no quotation mark within a text.
text='"[][ !#-Z^-~]*(\\x[0-9A-F]{2}[][ !#-Z^-~]*)*"'
line="^[0-9.]+ - - \[[0-3][0-9]/[A-Z][a-z]{2}/[0-9]{4}(:[0-9]{2}){3} \+0000\] $text ([1-5][0-9]{2}|-) [0-9]+ $text [0-9]+ (-|$text)( dropped=[0-9]+)?\$"

# All of a file are lines.
are_lines() {
    if [ "$(grep -cvE "$line" "$2")" = 0 ] && [ "$(tail -c 1 "$2" | od -An -tx1 | tr -d ' ')" = 0a ]; then
        ok
    else
        bad "$1: no line of a log: $(grep -vE "$line" "$2" | head -n 1)"
    fi
}

# Waits until a file has so many lines, and a moment for one too many.
waits() {
    local _
    for _ in $(seq 500); do
        [ "$(cat "$1" 2>/dev/null | wc -l)" -ge "$2" ] && break
        sleep 0.02
    done
    sleep 0.2
    same "the lines of $1" "$(cat "$1" 2>/dev/null | wc -l)" "$2"
}

# Has `newest` say what the newest line does, without its client, time and milliseconds; so many lines are new, or one.
lines=0
newest=
look() {
    lines=$((lines + ${1:-1}))
    waits log "$lines"
    newest=$(tail -n 1 log | sed -E "s|^[0-9.]+ - - \[[^]]*\] ||; s/ [0-9]+ (-|\"[^\"]*\")( dropped=[0-9]+)?\$/ \1\2/; s|$folder||g")
}

# Sends what stands in `in`, or the text of a word, to the server, and reads to the end into `got`.
sends() {
    exec 5<>"/dev/tcp/127.0.0.1/$port"
    if [ $# = 0 ]; then cat in >&5; else printf '%b' "$1" >&5; fi
    timeout 20 cat <&5 >got
    exec 5>&-
}

# The reply to a request is told so; `@` is the number of bytes that came.
tells() {
    local name=$1 request=$2 wanted=$3
    sends "$request"
    look
    same "$name" "$newest" "${wanted/@/$(wc -c <got)}"
}

# So many requests of these paths, in turn, on 16 connections; each reply is read.
cat >load.py <<'END'
import sys
sys.path.insert(0, sys.argv[1])
from client import Connection, get
port, count, paths = int(sys.argv[2]), int(sys.argv[3]), sys.argv[4:]
them = [Connection(port) for _ in range(16)]
for first in range(0, count, 16):
    wave = range(first, min(first + 16, count))
    for number in wave:
        them[number % 16].send(get(paths[number // 16 % len(paths)]))
    for number in wave:
        them[number % 16].reply()
END
load() {
    timeout 100 python3 load.py "$root/tests" "$port" "$@" 2>wrong || bad "the load: $(tail -n 1 wrong)"
}

# ---- what each kind of reply leaves
site 'run_ticks = 30\nidle_ticks = 10\noutput = 100000\nchildren = 1'
start --log log
same 'a log of nothing' "$(cat log)" ''
before=$(date +%s)
tells 'a script' 'GET /hello/a?b HTTP/1.0\r\n\r\n' '"GET /hello/a?b HTTP/1.0" 200 @ "/hello" -'
after=$(date +%s)
are_lines 'a line' log
told=$(sed -E 's|^127\.0\.0\.1 - - \[([0-9]+)/([A-Z][a-z]+)/([0-9]+):([0-9:]+) (\+0000)\] .*|\1 \2 \3 \4 \5|' log)
told=$(date -d "$told" +%s)
if [ "$told" -ge "$before" ] && [ "$told" -le "$after" ]; then ok; else bad "the time is $told, between $before and $after"; fi
tells 'a script that takes long' 'GET /nap HTTP/1.0\r\n\r\n' '"GET /nap HTTP/1.0" 200 @ "/nap" -'
took=$(tail -n 1 log | awk '{ print $(NF - 1) }')
if [ "$took" -ge 300 ] && [ "$took" -lt 20000 ]; then ok; else bad "a script of 0.3 s took $took ms"; fi
tells 'HEAD' 'HEAD /hello HTTP/1.0\r\n\r\n' '"HEAD /hello HTTP/1.0" 200 @ "/hello" -'
tells 'a status of the script' 'GET /missing HTTP/1.0\r\n\r\n' '"GET /missing HTTP/1.0" 404 @ "/missing" -'
tells 'no document' 'GET /empty HTTP/1.0\r\n\r\n' '"GET /empty HTTP/1.0" 204 @ "/empty" -'
tells 'a local redirect' 'GET /moved HTTP/1.0\r\n\r\n' '"GET /moved HTTP/1.0" 200 @ "/hello" -'
tells 'no script' 'GET /nothing HTTP/1.0\r\n\r\n' '"GET /nothing HTTP/1.0" 404 @ "-" "no script for this path"'
tells 'no script, and no body' 'HEAD /nothing HTTP/1.0\r\n\r\n' '"HEAD /nothing HTTP/1.0" 404 @ "-" "own reply"'
tells 'no output' 'GET /silent HTTP/1.0\r\n\r\n' '"GET /silent HTTP/1.0" 502 @ "/silent" "script gave no output"'
tells 'no program' 'GET /none HTTP/1.0\r\n\r\n' '"GET /none HTTP/1.0" 502 @ "/none" "script could not be started"'
tells 'an output that is too large' 'GET /large HTTP/1.1\r\nHost: a\r\n\r\n' '"GET /large HTTP/1.1" 200 @ "/large" "cut off: script output too large"'
tells 'a script that takes too long' 'GET /long HTTP/1.1\r\nHost: a\r\n\r\n' '"GET /long HTTP/1.1" 200 @ "/long" "cut off: script took too long"'
tells 'half a head' 'GET /hello HTTP/1.1\r\nHo' '"GET /hello HTTP/1.1" 408 @ "-" "request took too long"'
sends ''
sleep 0.3
same 'a connection without a request' "$(wc -l <log)" "$lines"

# .. a body, an answer to come, which is no reply, and two requests at once
tells 'a body' 'POST /hello HTTP/1.0\r\nContent-Length: 20\r\n\r\nGET /a HTTP/1.0\r\n\r\n.' '"POST /hello HTTP/1.0" 200 @ "/hello" -'
tells 'a body in chunks' 'POST /hello HTTP/1.1\r\nHost: a\r\nConnection: close\r\nTransfer-Encoding: chunked\r\n\r\n3\r\nabc\r\n0\r\n\r\n' \
    '"POST /hello HTTP/1.1" 200 @ "/hello" -'
sends 'POST /hello HTTP/1.1\r\nHost: a\r\nExpect: 100-continue\r\nContent-Length: 3\r\n\r\nabcGET /nothing HTTP/1.1\r\nHost: a\r\nConnection: close\r\n\r\n'
look 2
same 'the second of two' "${newest% * \"-\" *}" '"GET /nothing HTTP/1.1" 404'
same 'the first of two' "$(tail -n 2 log | head -n 1 | cut -d ' ' -f 6-9)" '"POST /hello HTTP/1.1" 200'
told=$(tail -n 2 log | awk '{ sum += $10 } END { print sum }')
same 'the bytes of both, and of 100 Continue' "$((told + 25))" "$(wc -c <got)"

# .. a WebSocket, whose texts are counted without their frames, and one more program than may run
exec 6<>"/dev/tcp/127.0.0.1/$port"
{
    printf 'GET /echo HTTP/1.1\r\nHost: a\r\nConnection: Upgrade\r\nUpgrade: websocket\r\nSec-WebSocket-Version: 13\r\n'
    printf 'Sec-WebSocket-Key: dGhlIHNhbXBsZSBub25jZQ==\r\n\r\n\201\204\0\0\0\0abcd'
} >&6
until_text() {
    timeout 20 python3 -c 'import os, sys
seen = b""
while sys.argv[1].encode() not in seen:
    seen += os.read(6, 1)
sys.stdout.buffer.write(seen)' "$1"
}
until_text abcd >talked
tells 'one program too many' 'GET /hello HTTP/1.0\r\n\r\n' '"GET /hello HTTP/1.0" 503 @ "/hello" "children running: "'
printf '\210\202\0\0\0\0\003\350' >&6
timeout 20 cat <&6 >closed
exec 6>&-
look
same 'a WebSocket' "$newest" "\"GET /echo HTTP/1.1\" 101 $(($(wc -c <talked) - 2)) \"/echo\" -"

# .. a client that goes, and a server that is stopped
begin() {
    for _ in $(seq 500); do
        [ "$(children)" = 0 ] && break
        sleep 0.02
    done
    exec 6<>"/dev/tcp/127.0.0.1/$port"
    printf 'GET /%s HTTP/1.1\r\nHost: a\r\n\r\n' "$1" >&6
    until_text begun >begun
}
begin chatty
exec 6>&-
look
same 'a client that goes' "$(cut -d ' ' -f 1-4,6- <<<"$newest")" '"GET /chatty HTTP/1.1" 200 "/chatty" "client gone"'
begin long
echo stop >&9
ends 'stop' 0 10
exec 6>&-
look
same 'a server that is stopped' "$(cut -d ' ' -f 1-4,6- <<<"$newest")" '"GET /long HTTP/1.1" 200 "/long" "server stopped"'
are_lines 'lines of all kinds' log

# ---- clients that try to write a line of their own: each leaves one, and what can't be shown is escaped
site 'idle_ticks = 10'
rm log
lines=0
start --log log
tells 'a quotation mark' 'GET /a"b HTTP/1.0\r\n\r\n' '"GET /a\x22b HTTP/1.0" 404 @ "-" "no script for this path"'
tells 'a backslash' 'GET /a\\x0Ab HTTP/1.0\r\n\r\n' '"GET /a\x5Cx0Ab HTTP/1.0" 404 @ "-" "no script for this path"'
tells 'UTF-8' 'GET /\0303\0251 HTTP/1.0\r\n\r\n' '"GET /\xC3\xA9 HTTP/1.0" 404 @ "-" "no script for this path"'
tells 'a line end in the path' 'GET /%0A127.0.0.1 HTTP/1.0\r\n\r\n' '"GET /%0A127.0.0.1 HTTP/1.0" 404 @ "-" "no script for this path"'
tells 'a carriage return' 'GET /a\rb HTTP/1.0\r\n\r\n' '"GET /a\x0Db HTTP/1.0" 400 @ "-" "bad request head"'
tells 'a line end' 'GET /a\n127.0.0.1 - - [] "GET / HTTP/1.0" 200 0 "-" 0 -\n\n' '"GET /a" 400 @ "-" "bad request head"'
tells 'a NUL' 'GET /a\0000b HTTP/1.0\r\n\r\n' '"GET /a\x00b HTTP/1.0" 400 @ "-" "bad request head"'
tells 'an escape' 'GET /\0033[2J HTTP/1.0\r\n\r\n' '"GET /\x1B[2J HTTP/1.0" 400 @ "-" "bad request head"'
tells 'a delete' 'GET /\0177 HTTP/1.0\r\n\r\n' '"GET /\x7F HTTP/1.0" 400 @ "-" "bad request head"'
tells 'no HTTP' '\0026\0003\0001\0000\r\n\r\n' '"\x16\x03\x01\x00" 400 @ "-" "bad request head"'
tells 'a space' 'GET /hello  HTTP/1.0\r\n\r\n' '"GET /hello  HTTP/1.0" 400 @ "-" "bad request head"'
tells 'an empty line before it' '\r\nGET /hello HTTP/1.0\r\n\r\n' '"GET /hello HTTP/1.0" 200 @ "/hello" -'
tells 'the fields of a request' 'GET /nothing HTTP/1.0\r\nX: "\r\nX-Forwarded-For: 1.2.3.4 - -\r\n\r\n' '"GET /nothing HTTP/1.0" 404 @ "-" "no script for this path"'
{ printf 'GET /'; head -c 20000 /dev/zero | tr '\0' '\377'; printf ' HTTP/1.0\r\n\r\n'; } >in
sends
look
same 'a line that is too long' "$(sed -E 's/^"GET \/((\\xFF)+)" ([0-9]+) .*/\3/' <<<"$newest")" 431
same 'what is told of it' "$(grep -o '\\xFF' <<<"$newest" | wc -l)" 8187
head -c 5000 /dev/urandom >in
sends
look
are_lines 'hostile heads' log
end_server

# ---- one line for each reply, over four loops
site 'children = 256'
rm log
start --loops 4 --log log
load 10000 /nothing /nothing /nothing /hello /nothing
waits log 10000
are_lines '10,000 lines' log
same 'lines of no script' "$(grep -c '"GET /nothing HTTP/1.1" 404 [0-9]* "-" [0-9]* "no script for this path"$' log)" 8000
same 'lines of a script' "$(grep -c "\"GET /hello HTTP/1.1\" 200 [0-9]* \"$folder/hello\" [0-9]* -\$" log)" 2000
echo drain >&9
ends 'drain' 0 10
same 'what was said' "$(cat said)" "cgihost: listening on 127.0.0.1:$port"

# ---- what waits for the writer is written before the end
rm log
start --log log
load 100 /nothing
echo stop >&9
ends 'stop behind 100 replies' 0 10
same 'lines at the end' "$(wc -l <log)" 100
# .. and the file is added to
start --log log
load 1 /nothing
waits log 101
end_server

# ---- rotation under load: the file goes to another name, and a line `log` opens it anew
rm log
start --loops 4 --log log
load 8000 /nothing /nothing /hello /nothing &
loader=$!
for number in 1 2 3; do
    for _ in $(seq 500); do
        [ "$(wc -l <log)" -ge 1000 ] && break
        kill -0 "$loader" 2>/dev/null || break
        sleep 0.02
    done
    mv log "log.$number"
    echo log >&9
    for _ in $(seq 500); do
        [ -e log ] && break
        sleep 0.02
    done
done
wait "$loader"
waits log "$((8000 - $(cat log.? | wc -l)))"
same 'the lines of all files' "$(cat log.? log | wc -l)" 8000
for file in log.? log; do
    [ ! -s "$file" ] || are_lines "$file" "$file"
done
same 'nothing was dropped' "$(cat log.? log | grep -c dropped)" 0
# .. an order with another line end, and one that can't be done: the file is kept
mv log log.4
printf 'log\r\n' >&9
for _ in $(seq 500); do
    [ -e log ] && break
    sleep 0.02
done
same 'an order that ends by CR LF' "$([ -e log ] && echo anew)" anew
echo stop >&9
ends 'a server whose log was rotated' 0 10
mkdir logs
start --log logs/log
load 1 /nothing
waits logs/log 1
mv logs kept
echo log >&9
for _ in $(seq 500); do
    grep -q 'not opened' said && break
    sleep 0.02
done
same 'a file that can not be opened anew' "$(tail -n 1 said)" 'cgihost: log not opened: logs/log: No such file or directory (os error 2)'
load 1 /nothing
waits kept/log 2
end_server

# ---- a server without a log passes the order over
start
echo log >&9
load 1 /nothing
echo stop >&9
ends 'an order for no log' 0 10

# ---- a full disk: it is said once, and requests are served
start --log /dev/full
load 200 /nothing /hello
for _ in $(seq 500); do
    grep -q 'not written' said && break
    sleep 0.02
done
sleep 0.3
same 'a full disk' "$(sed 1d said)" 'cgihost: log not written: /dev/full: No space left on device (os error 28)'
load 10 /hello
echo stop >&9
ends 'a server whose disk is full' 0 10

# ---- a FIFO that nobody reads: requests are served, and it ends
mkfifo fifo
start --log fifo
load 2000 /nothing
sends 'GET /hello HTTP/1.0\r\n\r\n'
same 'a FIFO that nobody reads' "$(tail -n 1 got)" hi
echo drain >&9
ends 'a server whose FIFO nobody reads' 0 15

# .. lines that find no room are dropped, and how many were stands in the next one
python3 - >long_path <<'END'
print("/" + "~" * 20 + "\\" * 7000)
END
start --log fifo
load 160 "$(cat long_path)"
cat fifo >taken &
reader=$!
for _ in $(seq 500); do
    before=$(wc -l <taken)
    sleep 0.5
    [ "$(wc -l <taken)" != "$before" ] || break
done
load 1 /nothing
for _ in $(seq 500); do
    grep -q '/nothing' taken && break
    sleep 0.02
done
are_lines 'lines of a FIFO' taken
dropped=$(sed -n 's/.* dropped=\([0-9]*\)$/\1/p' taken | awk '{ sum += $1 } END { print sum + 0 }')
same 'lines and those that were dropped' "$(($(wc -l <taken) + dropped))" 161
if [ "$dropped" -gt 0 ]; then ok; else bad 'no line was dropped'; fi
if tail -n 1 taken | grep -q '"no script for this path" dropped=[1-9][0-9]*$'; then ok; else bad "the next line: $(tail -n 1 taken)"; fi
load 1 /nothing
for _ in $(seq 500); do
    [ "$(grep -c '/nothing' taken)" = 2 ] && break
    sleep 0.02
done
same 'the one behind it says nothing' "$(tail -n 1 taken | sed 's/.*"no script for this path"//')" ''
end_server
kill "$reader" 2>/dev/null
wait "$reader" 2>/dev/null

# ---- a file that can't be opened, and the words
says() {
    local wanted=$1 said=$2
    shift 2
    timeout 20 "$program" "$@" </dev/null >out 2>err
    same "$*: its status" "$?" "$wanted"
    same "$*" "$(cat err)" "$said"
}
usage='cgihost: usage: once SITE, serve SITE, check SITE, explain SITE, sample SEED N, upgrade SITE'
says 5 $'cgihost: log not opened: none/log: No such file or directory (os error 2)\ncgihost: could not begin' serve site --log none/log
says 5 $'cgihost: log not opened: kept: Is a directory (os error 21)\ncgihost: could not begin' serve --log kept site
says 2 "$usage" serve site --log
says 2 "$usage" serve site --log a --log b
says 2 "$usage" serve --log a
says 2 "$usage" check site --log a
says 2 "$usage" once site --log a
for words in '--log LOG site --loops 2 --turns 1000' 'site --turns 1000 --log LOG --loops 2' 'site --loops 2 --turns 1000 --log LOG'; do
    rm -f LOG
    mkfifo words
    # shellcheck disable=SC2086
    "$program" serve $words <words >out 2>said &
    server=$!
    exec 9>words
    rm words
    for _ in $(seq 500); do
        grep -q listening said && break
        sleep 0.02
    done
    load 1 /nothing
    waits LOG 1
    echo stop >&9
    ends "$words" 0 10
done

count

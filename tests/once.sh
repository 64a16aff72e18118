#!/usr/bin/env bash
# Drives the built program as a user would: one connection over standard input and output, with scripts of its own.
# It wants the program that `rt ci` leaves, and works in a temporary folder.
. "$(dirname "$0")/common.sh"
# A script with a name and a body for sh.
script() {
    printf '#!/bin/sh\n%s\n' "$2" >"$1"
    chmod +x "$1"
}

# The lines of a head, each ended by CRLF, and the empty one behind them.
head_of() {
    printf '%b\r\n' "$@" ''
}

# A GET for a path that closes, as its bytes.
get() {
    head_of "GET $1 HTTP/1.1" 'Host: a' 'Connection: close'
}

# A reply that closes, of some status, with a text of so many bytes and a line.
reply() {
    head_of "HTTP/1.1 $1" 'Content-Type: text/plain' "Content-Length: $2" 'Connection: close'
    [ $# -lt 3 ] || printf '%s\n' "$3"
}

# The same of a reply that leaves the connection open.
kept() {
    head_of "HTTP/1.1 $1" 'Content-Type: text/plain' "Content-Length: $2"
    [ $# -lt 3 ] || printf '%s\n' "$3"
}

# Compares what was written with what is wanted, and the status.
answers() {
    local name=$1 wanted_status=$2
    none_dropped err
    if [ "$status" != "$wanted_status" ]; then
        bad "$name: status $status, wanted $wanted_status"
    elif ! cmp -s out wanted; then
        bad "$name: wrote"
        head -c 400 out | sed 's/^/    /'
    else
        ok
    fi
}

# Runs the program on what stands in the file `in`, with a variable of its own in the environment.
run() {
    SECRET=do-not-hand-on timeout 60 "$program" "$@" <in >out 2>err
    status=$?
}

# The request in `in` is answered by what stands in `wanted`.
gives() {
    run once "$2"
    answers "$1" 0
}

# What stands behind the head of the reply in `out`, in the place of the reply.
body() {
    sed '1,/^\r$/d' out >seen
    mv seen out
}

# The data of the chunks of the body in `out`, in the place of the body; and that they are chunks, with an end mark. No
# data here has a CRLF in it.
unchunk() {
    awk -v RS='\r\n' -v ORS= '
        ended { bad = 1; exit }
        NR % 2 { size = $0; next }
        sprintf("%x", length($0)) != size { bad = 1; exit }
        size == "0" { ended = 1; next }
        { print }
        END { exit bad || !ended }
    ' out >data && mv data out
}

script hello 'printf "Content-Type: text/plain\n\nhi\n"'
hello="/hello=$folder/hello"
script said "cat '$folder/output'"
said="/said=$folder/said"
cat=/cat=/bin/cat

# ---- a document, from a request in one piece and in single bytes over a pipe
get /hello >in
reply '200 OK' 3 hi >wanted
gives 'a document' "$hello"
{ while IFS= read -r -n1 -d '' byte; do printf '%s' "$byte"; done <in; } |
    timeout 60 "$program" once "$hello" >out 2>err
status=$?
answers 'a document, asked for in single bytes' 0

# ---- what outputs derive (RFC 3875 section 6)
get /said >in
derives() {
    printf '%b' "$1" >output
    gives "the output $1" "$said"
}
reply '200 OK' 3 hi >wanted
derives 'Content-Type: text/plain\n\nhi\n'
derives 'Content-Type:text/plain \r\n\r\nhi\n'
derives 'X-Empty:\nContent-Type: text/plain\n\nhi\n'
derives 'Content-Type: text/plain\nContent-Length: 99\nTransfer-Encoding: x\nX-CGI-A: 1\n\nhi\n'
derives 'Connection: x\nKeep-Alive: x\nProxy-Connection: x\nTE: x\nTrailer: x\nUpgrade: x\nContent-Type: text/plain\n\nhi\n'
derives 'Status: 200\nContent-Type: text/plain\n\nhi\n'

head_of 'HTTP/1.1 204 No Content' 'Connection: close' >wanted
derives 'Status: 204\nContent-Length: 99\n\nstray'
head_of 'HTTP/1.1 304 Not Modified' 'Connection: close' >wanted
derives 'Status: 304\n\nstray'
head_of 'HTTP/1.1 205 Reset Content' 'Content-Type: text/plain' 'Content-Length: 0' 'Connection: close' >wanted
derives 'Status: 205\nContent-Type: text/plain\n\nstray'

head_of 'HTTP/1.1 405 Method Not Allowed' 'Allow: GET' 'Content-Type: text/plain' 'Content-Length: 3' 'Connection: close' >wanted
printf 'no\n' >>wanted
derives 'Status: 405\nAllow: GET\nContent-Type: text/plain\n\nno\n'
derives 'Status: 405 Method Not Allowed\nAllow: GET\nContent-Type: text/plain\n\nno\n'
head_of 'HTTP/1.1 404 Not Found' 'Content-Length: 3' 'Connection: close' >wanted
printf 'no\n' >>wanted
derives 'Status: 404\n\nno\n'
head_of "HTTP/1.1 418 I'm a teapot" 'Content-Length: 0' 'Connection: close' >wanted
derives "Status: 418 I'm a teapot\n\n"
head_of 'HTTP/1.1 299 Status' 'Content-Length: 0' 'Connection: close' >wanted
derives 'Status: 299\n\n'

head_of 'HTTP/1.1 302 Found' 'Location: http://x/y' 'Set-Cookie: a=1' 'Content-Length: 0' 'Connection: close' >wanted
derives 'Location: http://x/y\nSet-Cookie: a=1\n\nbody'
head_of 'HTTP/1.1 302 Found' 'Location: /x#y' 'Content-Length: 0' 'Connection: close' >wanted
derives 'Location: /x#y\n\nbody'
head_of 'HTTP/1.1 302 Found' 'Location: http://x/y' 'Content-Type: text/plain' 'Content-Length: 3' 'Connection: close' >wanted
printf 'hi\n' >>wanted
derives 'Location: http://x/y\nContent-Type: text/plain\n\nhi\n'
head_of 'HTTP/1.1 301 Moved Permanently' 'Location: http://x/y' 'Content-Length: 3' 'Connection: close' >wanted
printf 'hi\n' >>wanted
derives 'Status: 301\nLocation: http://x/y\n\nhi\n'

head_of 'HTTP/1.1 200 OK' 'Content-Type: text/plain' 'Date: x' 'Set-Cookie: a=1' 'set-cookie: b=2' 'Content-Length: 3' \
    'Connection: close' >wanted
printf 'hi\n' >>wanted
derives 'Content-Type: text/plain\nDate: x\nSet-Cookie: a=1\nset-cookie: b=2\n\nhi\n'

# ---- outputs that are refused
breaks() {
    reply '502 Bad Gateway' "$1" "$2" >wanted
    derives "$3"
}
breaks 22 'script gave no output' ''
breaks 25 'script header incomplete' 'Content-Type: text/plain\n'
breaks 27 'script header line refused' 'hello, world\n\n'
breaks 27 'script header line refused' 'Content-Type: text/plain\n folded\n\n'
breaks 27 'script header line refused' 'Content-Type: text/plain\0177\n\n'
breaks 29 'script header field repeated' 'Status: 200 OK\nStatus: 404 X\n\n'
breaks 29 'script header field repeated' 'Content-Type: a/b\ncontent-type: a/b\n\n'
for status_text in 199 600 99 20x '200OK' 'OK'; do
    breaks 22 'script status refused' "Status: $status_text\n\n"
done
breaks 24 'script location refused' 'Location: /a b\n\n'
breaks 40 'script sent no type, status or location' 'X-A: 1\n\nhi\n'
breaks 40 'script sent no type, status or location' '\nhi\n'
breaks 24 'script header too large' "X-A: $(printf 'a%.0s' $(seq 8200))\nContent-Type: text/plain\n\nhi\n"

# ---- programs that can't be started
get /none >in
reply '502 Bad Gateway' 28 'script could not be started' >wanted
gives 'a program that is missing' "/none=$folder/missing"
printf 'text' >plain
gives 'a file that may not be run' "/none=$folder/plain"
gives 'a folder' "/none=/bin"

# ---- HEAD, and the end of a reply to it
head_of 'HEAD /hello HTTP/1.1' 'Host: a' 'Connection: close' >in
head_of 'HTTP/1.1 200 OK' 'Content-Type: text/plain' 'Connection: close' >wanted
gives 'HEAD' "$hello"
head_of 'HEAD /none HTTP/1.1' 'Host: a' 'Connection: close' >in
head_of 'HTTP/1.1 404 Not Found' 'Content-Type: text/plain' 'Connection: close' >wanted
gives 'HEAD of a path without a script' "$hello"

# ---- HTTP/1.0, and a target with its host
head_of 'GET /hello HTTP/1.0' >in
reply '200 OK' 3 hi >wanted
gives 'HTTP/1.0' "$hello"
head_of 'GET http://b.example:80/x/../hello HTTP/1.1' 'Host: a' 'Connection: close' >in
gives 'an absolute target with dot segments' "$hello"

# ---- requests that are refused, as they are read
refused() {
    local status_line=$1 length=$2 text=$3
    shift 3
    head_of "$@" >in
    reply "$status_line" "$length" "$text" >wanted
    gives "refused: $1 ${*:2}" "$hello"
}
refused '400 Bad Request' 17 'bad request head' 'GET /hello HTTP/2.0' 'Host: a'
refused '400 Bad Request' 17 'bad request head' 'GET  /hello HTTP/1.1' 'Host: a'
refused '400 Bad Request' 17 'bad request head' 'GET /hello HTTP/1.1' 'Host: a' ' folded'
refused '400 Bad Request' 17 'bad request head' '' '' 'GET /hello HTTP/1.1'
refused '400 Bad Request' 9 'bad host' 'GET /hello HTTP/1.1'
refused '400 Bad Request' 9 'bad host' 'GET /hello HTTP/1.1' 'Host: a' 'Host: a'
refused '400 Bad Request' 9 'bad host' 'GET /hello HTTP/1.1' 'Host: user@a'
refused '400 Bad Request' 11 'bad target' 'GET hello HTTP/1.1' 'Host: a'
refused '400 Bad Request' 11 'bad target' 'GET http:///hello HTTP/1.1' 'Host: a'
refused '400 Bad Request' 11 'bad target' 'GET https://a/hello HTTP/1.1' 'Host: a'
refused '400 Bad Request' 17 'bad body framing' 'POST /hello HTTP/1.1' 'Host: a' 'Content-Length: x'
refused '400 Bad Request' 17 'bad body framing' 'POST /hello HTTP/1.1' 'Host: a' 'Content-Length: 3, 3'
refused '400 Bad Request' 17 'bad body framing' 'POST /hello HTTP/1.1' 'Host: a' 'Content-Length: 3' 'Content-Length: 4'
refused '400 Bad Request' 17 'bad body framing' 'POST /hello HTTP/1.1' 'Host: a' 'Content-Length: 3' 'Transfer-Encoding: chunked'
refused '400 Bad Request' 17 'bad body framing' 'POST /hello HTTP/1.1' 'Host: a' 'Transfer-Encoding: chunked, chunked'
refused '400 Bad Request' 17 'bad body framing' 'POST /hello HTTP/1.0' 'Transfer-Encoding: chunked'
refused '501 Not Implemented' 27 'transfer coding not served' 'POST /hello HTTP/1.1' 'Host: a' 'Transfer-Encoding: gzip, chunked'
refused '501 Not Implemented' 28 'method or target not served' 'OPTIONS * HTTP/1.1' 'Host: a'
refused '501 Not Implemented' 28 'method or target not served' 'CONNECT a:80 HTTP/1.1' 'Host: a'
refused '417 Expectation Failed' 20 'expectation not met' 'POST /hello HTTP/1.1' 'Host: a' 'Expect: x' 'Content-Length: 3'
refused '413 Content Too Large' 23 'request body too large' 'POST /hello HTTP/1.1' 'Host: a' 'Expect: 100-continue' 'Content-Length: 1048577'

# .. at their limits
long() { printf "$1%.0s" $(seq "$2"); }
{ printf 'GET /hello HTTP/1.1\r\nHost: a\r\nX: '; head -c 20000 /dev/zero | tr '\0' x; } | head -c 16384 >in
reply '431 Request Header Fields Too Large' 23 'request head too large' >wanted
gives 'a head of 16,384 bytes without an end' "$hello"
head -c 16383 in >shorter
mv shorter in
reply '400 Bad Request' 20 'request ended early' >wanted
gives 'one of 16,383 bytes, and the end' "$hello"
get "/$(long a 7999)" >in
reply '404 Not Found' 24 'no script for this path' >wanted
gives 'a target of 8,000 bytes' "$hello"
get "/$(long a 8000)" >in
reply '414 URI Too Long' 16 'target too long' >wanted
gives 'a target of 8,001 bytes' "$hello"
fields=()
for _ in $(seq 98); do fields+=('X: x'); done
head_of 'GET /hello HTTP/1.1' 'Host: a' 'Connection: close' "${fields[@]}" >in
reply '200 OK' 3 hi >wanted
gives '100 fields' "$hello"
head_of 'GET /hello HTTP/1.1' 'Host: a' 'Connection: close' "${fields[@]}" 'X: x' >in
reply '431 Request Header Fields Too Large' 23 'too many header fields' >wanted
gives '101 fields' "$hello"

# .. in their chunks
chunks='POST /hello HTTP/1.1\r\nHost: a\r\nTransfer-Encoding: chunked\r\n\r\n'
reply '400 Bad Request' 10 'bad chunk' >wanted
for broken in 'x\r\n' '3\r\nabcd' '3\n' '00000000000000000'; do
    printf '%b' "$chunks$broken" >in
    gives "the chunks $broken" "$hello"
done
printf '%b' "$chunks"'100001\r\n' >in
reply '413 Content Too Large' 23 'request body too large' >wanted
gives 'a chunk over the limit' "$hello"

# .. by their path
refuses_path() {
    get "$4" >in
    reply "$1" "$2" "$3" >wanted
    gives "the path $4" "$hello"
}
for path in / /none /hello2 /%2e%2e/hello /hello/a%2Fb /hello/%00; do
    refuses_path '404 Not Found' 24 'no script for this path' "$path"
done
for path in /a%zz /hello/%ff; do
    refuses_path '400 Bad Request' 9 'bad path' "$path"
done

# ---- requests cut short
reply '400 Bad Request' 20 'request ended early' >wanted
printf 'GET /hello HT' >in
gives 'a head cut short' "$hello"
{ head_of 'POST /cat HTTP/1.1' 'Host: a' 'Content-Length: 3'; printf x; } >in
gives 'a body cut short' "$cat"
printf '%b' "${chunks/hello/cat}"'3\r\nab' >in
gives 'chunks cut short' "$cat"
: >wanted
: >in
gives 'no request' "$hello"
printf '\r\n' >in
gives 'an empty line' "$hello"

# ---- bodies by their length, in chunks, none
script length 'printf "Content-Type: text/plain\n\n%s:" "${CONTENT_LENGTH-none}"
cat'
length="/length=$folder/length"
post() {
    head_of 'POST /length HTTP/1.1' 'Host: a' 'Connection: close' "$@"
}
{ post 'Content-Length: 3'; printf 'x=1 and what is behind it'; } >in
{ reply '200 OK' 5; printf '3:x=1'; } >wanted
gives 'a body by its length' "$length"
{ post 'Content-Length: 03' 'Content-Length: 3'; printf 'x=1'; } >in
gives 'a body by one length said twice' "$length"
{ post 'Transfer-Encoding: chunked'; printf '1\r\nx\r\n02;a=b\r\n=1\r\n0\r\nX: y\r\n\r\n'; } >in
gives 'a body in chunks' "$length"
post 'Content-Length: 0' >in
{ reply '200 OK' 2; printf '0:'; } >wanted
gives 'a body of no bytes' "$length"
{ post 'Transfer-Encoding: chunked'; printf '0\r\n\r\n'; } >in
gives 'no chunks' "$length"
post >in
{ reply '200 OK' 5; printf 'none:'; } >wanted
gives 'no body' "$length"
{ head_of 'POST /cat HTTP/1.1' 'Host: a' 'Connection: close' 'Content-Length: 29'; printf 'Content-Type: text/plain\n\nhi\n'; } >in
reply '200 OK' 3 hi >wanted
gives 'a body that is the output' "$cat"

# .. of as many bytes as may be
{ printf 'Content-Type: text/plain\n\n'; head -c 1048550 /dev/zero | tr '\0' a; } >mib
head -c 1048550 /dev/zero | tr '\0' a >wanted
{ head_of 'POST /cat HTTP/1.1' 'Host: a' 'Connection: close' 'Content-Length: 1048576'; cat mib; } >in
run once "$cat"
head -n 3 out | tr -d '\r' >first
body
if unchunk; then answers 'a body of 1 MiB' 0; else bad 'a body of 1 MiB: no chunks'; fi
printf 'HTTP/1.1 200 OK\nContent-Type: text/plain\nTransfer-Encoding: chunked\n' >wanted
mv first out
answers 'the head of its reply' 0

# ---- 100 Continue: before the body comes, and beside one that came
head_of 'HTTP/1.1 100 Continue' >wanted
{ reply '200 OK' 5; printf '3:x=1'; } >>wanted
{ post 'Content-Length: 3' 'Expect: 100-continue'; printf 'x=1'; } >in
gives '100 Continue beside its body' "$length"
{ post 'Transfer-Encoding: chunked' 'Expect: 100-Continue'; printf '3\r\nx=1\r\n0\r\n\r\n'; } >in
gives '100 Continue beside chunks' "$length"
mkfifo asks answers
timeout 60 "$program" once "$length" <asks >answers &
exec 3>asks 4<answers
post 'Content-Length: 3' 'Expect: 100-continue' >&3
IFS= read -r -t 30 line <&4
IFS= read -r -t 30 empty <&4
printf 'x=1' >&3
{ printf '%s\n' "$line" "$empty"; timeout 30 cat <&4; } >out
exec 3>&- 4<&-
wait $!
status=$?
answers '100 Continue before its body' 0
{ post 'Content-Length: 0' 'Expect: 100-continue'; } >in
{ reply '200 OK' 2; printf '0:'; } >wanted
gives 'no 100 Continue without a body' "$length"
head_of 'POST /length HTTP/1.0' 'Expect: 100-continue' 'Content-Length: 3' >in
printf 'x=1' >>in
{ reply '200 OK' 5; printf '3:x=1'; } >wanted
gives 'none in HTTP/1.0' "$length"

# ---- several requests on one connection, in one piece
{
    head_of 'GET /length?1 HTTP/1.1' 'Host: a'
    head_of 'POST /length HTTP/1.1' 'Host: a' 'Content-Length: 3'
    printf 'x=1'
    head_of 'HEAD /length HTTP/1.1' 'Host: a'
    head_of 'GET /none HTTP/1.1' 'Host: a'
    head_of 'POST /length HTTP/1.1' 'Host: a' 'Transfer-Encoding: chunked'
    printf '2\r\nhi\r\n0\r\n\r\n'
} >in
{
    kept '200 OK' 5
    printf 'none:'
    kept '200 OK' 5
    printf '3:x=1'
    head_of 'HTTP/1.1 200 OK' 'Content-Type: text/plain'
    kept '404 Not Found' 24 'no script for this path'
    kept '200 OK' 4
    printf '2:hi'
} >wanted
gives 'five requests' "$length"
post >>in
{ reply '200 OK' 5; printf 'none:'; } >>wanted
{ head_of 'GET /length HTTP/1.1' 'Host: a'; printf 'and more'; } >>in
gives 'a request that closes, and what is behind it' "$length"
{ head_of 'GET /hello HTTP/1.1' 'Host: a'; printf 'nonsense\r\n\r\n'; } >in
{ kept '200 OK' 3 hi; reply '400 Bad Request' 17 'bad request head'; } >wanted
gives 'a request and nonsense' "$hello"

# ---- local redirects, and a script whose output is the whole reply
script form 'cat >form.input
printf "Location: /hello?from=form\n\n"'
script seen 'printf "Content-Type: text/plain\n\n%s %s %s %s\n" "$REQUEST_METHOD" "$QUERY_STRING" "${CONTENT_LENGTH-none}" "$HTTP_X_A"'
script round 'printf x >>rounds
printf "Location: /round\n\n"'
script away 'printf "Location: /none\n\n"'
script raw 'printf "HTTP/1.0 200 OK\r\n\r\nx"'
script silent 'exit 0'
script much_raw 'head -c 20000 /dev/zero | tr "\0" r'
cat >site <<END
version = 1
[[script]]
path = "/form"
program = "$folder/form"
[[script]]
path = "/hello"
program = "$folder/seen"
[[script]]
path = "/round"
program = "$folder/round"
[[script]]
path = "/away"
program = "$folder/away"
[[script]]
path = "/raw"
program = "$folder/raw"
kind = "nph"
[[script]]
path = "/silent"
program = "$folder/silent"
kind = "nph"
[[script]]
path = "/much_raw"
program = "$folder/much_raw"
kind = "nph"
[[script]]
path = "/missing"
program = "$folder/missing"
kind = "nph"
[[script]]
path = "/ws"
program = "/bin/cat"
kind = "websocket"
origins = ["http://a.example"]
END
{ head_of 'POST /form HTTP/1.1' 'Host: a' 'Connection: close' 'X-A: 1' 'Content-Length: 3'; printf 'x=1'; } >in
reply '200 OK' 21 'GET from=form none 1' >wanted
gives 'a local redirect' site
if [ "$(cat form.input)" = x=1 ]; then ok; else bad "the form had the input $(cat form.input)"; fi
get /round >in
reply '500 Internal Server Error' 25 'too many local redirects' >wanted
gives 'a local redirect without an end' site
if [ "$(cat rounds)" = xxxxxxxxxxx ]; then ok; else bad "it ran $(wc -c <rounds) times"; fi
get /away >in
reply '404 Not Found' 24 'no script for this path' >wanted
gives 'a local redirect to nowhere' site

printf 'HTTP/1.0 200 OK\r\n\r\nx' >wanted
get /raw >in
gives 'a whole reply' site
head_of 'GET /raw HTTP/1.1' 'Host: a' >in
get /hello >>in
gives 'a whole reply closes' site
get /silent >in
reply '502 Bad Gateway' 22 'script gave no output' >wanted
gives 'a whole reply of nothing' site
get /missing >in
reply '502 Bad Gateway' 28 'script could not be started' >wanted
gives 'a whole reply of a program that is missing' site
get /much_raw >in
head -c 20000 /dev/zero | tr '\0' r >wanted
gives 'a long whole reply' site

# ---- handshakes that are refused
upgrade_required() {
    head_of 'HTTP/1.1 426 Upgrade Required' 'Upgrade: websocket' 'Connection: Upgrade' 'Sec-WebSocket-Version: 13' \
        'Content-Type: text/plain' 'Content-Length: 30'
    printf 'websocket version 13 required\n'
}
shakes() {
    head_of 'GET /ws HTTP/1.1' 'Host: a' "$@" >in
}
upgrade_required >wanted
shakes
gives 'no handshake at a WebSocket' site
shakes 'Upgrade: websocket' 'Connection: Upgrade' 'Sec-WebSocket-Key: dGhlIHNhbXBsZSBub25jZQ==' 'Sec-WebSocket-Version: 8'
gives 'a handshake of version 8' site
kept '400 Bad Request' 24 'bad websocket handshake' >wanted
shakes 'Upgrade: websocket' 'Connection: Upgrade' 'Sec-WebSocket-Key: short' 'Sec-WebSocket-Version: 13'
gives 'a handshake with a bad key' site
kept '403 Forbidden' 15 'origin refused' >wanted
shakes 'Upgrade: websocket' 'Connection: Upgrade' 'Sec-WebSocket-Key: dGhlIHNhbXBsZSBub25jZQ==' 'Sec-WebSocket-Version: 13' \
    'Origin: http://b.example'
gives 'a handshake from elsewhere' site

# ---- a talk: its client says a text, hears it, and closes; or its input ends without a close
masked() {
    printf '\x81\x85\x37\xfa\x21\x3d\x7f\x9f\x4d\x51\x58'
}
accepted() {
    head_of 'HTTP/1.1 101 Switching Protocols' 'Upgrade: websocket' 'Connection: Upgrade' \
        'Sec-WebSocket-Accept: s3pPLMBiTxaQ9kYGzzhZRbK+xOo='
    printf '\x81\x05Hello'
}
shakes 'Upgrade: websocket' 'Connection: Upgrade' 'Sec-WebSocket-Key: dGhlIHNhbXBsZSBub25jZQ==' 'Sec-WebSocket-Version: 13' \
    'Origin: http://a.example'
for how in closed cut_off; do
    {
        cat in
        masked
        sleep 0.5
        [ "$how" = cut_off ] || printf '\x88\x82\0\0\0\0\x03\xe8'
    } | timeout 60 "$program" once site >out 2>err
    status=$?
    { accepted; [ "$how" = cut_off ] || printf '\x88\x02\x03\xe8'; } >wanted
    answers "a talk that is $how" 0
done

# ---- virtual hosts
script name 'printf "Content-Type: text/plain\n\n%s\n" "$SERVER_NAME"'
cat >hosts <<END
version = 2
[[host]]
name = "a.example"
aliases = ["www.a.example"]
[[host.script]]
path = "/s"
program = "$folder/name"
[[host]]
name = "b.example"
[[host.script]]
path = "/t"
program = "$folder/name"
END
at_host() {
    head_of 'GET /s HTTP/1.1' "Host: $1" >in
}
kept '200 OK' 14 WWW.A.example >wanted
at_host 'WWW.A.example:8080'
gives 'an alias' hosts
kept '404 Not Found' 24 'no script for this path' >wanted
at_host b.example
gives 'a script of another host' hosts
kept '421 Misdirected Request' 16 'host not served' >wanted
at_host c
gives 'a host that is not served' hosts
head_of 'GET /s HTTP/1.0' >in
reply '200 OK' 10 a.example >wanted
gives 'no host' hosts

# ---- arguments
script arguments 'printf "Content-Type: text/plain\n\n%s:" $#
[ $# = 0 ] || printf " <%s>" "$@"'
arguments() {
    get "/words?$1" >in
    { reply '200 OK' ${#2}; printf '%s' "$2"; } >wanted
    gives "the query $1" "/words=$folder/arguments"
}
arguments 'a+b%2Fc' '2: <a> <b/c>'
arguments '%3D' '1: <=>'
arguments '*;$(id)' '1: <*;$(id)>'
for query in '' a=b a++b %00 a+%zz; do
    arguments "$query" '0:'
done
get '/e?Content-Type:%20text/plain%0A%0Ahi' >in
reply '200 OK' 3 hi >wanted
gives 'a document from the query' /e=/bin/echo

# ---- the environment is that of the launch, whole, in the program's own folder
script environment 'printf "Content-Type: text/plain\n\n"
pwd
tr "\0" "\n" </proc/$$/environ | sort'
{
    head_of 'POST /environment/a%20b/?x=1 HTTP/1.1' 'Host: example.com:8080' 'Connection: close' 'Content-Type: text/x' \
        'Content-Length: 3' 'Authorization: secret' 'Proxy: http://elsewhere' 'Cookie: a=1' 'X-A: 1' 'cookie: b=2' 'x-a:  2 ' \
        'X-Empty:' 'X_Y: 1' 'X-Latin: \0351'
    printf 'x=1'
} >in
{
    echo "$folder"
    LC_ALL=C sort <<END
CONTENT_LENGTH=3
CONTENT_TYPE=text/x
GATEWAY_INTERFACE=CGI/1.1
HTTP_COOKIE=a=1; b=2
HTTP_HOST=example.com:8080
HTTP_X_A=1, 2
HTTP_X_LATIN=$(printf '\303\251')
PATH_INFO=/a b/
PATH_TRANSLATED=/srv/www/a b/
QUERY_STRING=x=1
REMOTE_ADDR=127.0.0.1
REMOTE_HOST=127.0.0.1
REQUEST_METHOD=POST
SCRIPT_NAME=/environment
SERVER_NAME=example.com
SERVER_PORT=8080
SERVER_PROTOCOL=HTTP/1.1
SERVER_SOFTWARE=cgihost/1
END
} >wanted
run once "/environment=$folder/environment"
body
answers 'the environment' 0

# ---- nothing is open in a child but its three streams and what the shell itself opens, which is the script
script descriptors 'printf "Content-Type: text/plain\n\n"
ls -l /proc/$$/fd'
get /descriptors >in
exec 7<in
run once "/descriptors=$folder/descriptors"
exec 7<&-
body
sed -n '/descriptors$/!s/.* \([0-9]*\) -> .*/\1/p' out >seen
mv seen out
printf '0\n1\n2\n' >wanted
answers 'open descriptors' 0

# ---- replies that are streamed: of more than 8,192 bytes of output, and no fewer
of_length() {
    { printf 'Content-Type: text/plain\n\n'; head -c $(($1 - 26)) /dev/zero | tr '\0' x; } >output
    head -c $(($1 - 26)) /dev/zero | tr '\0' x >text
}
of_length 8192
get /said >in
{ reply '200 OK' 8166; cat text; } >wanted
gives 'an output of 8,192 bytes' "$said"
for length in 8193 1048576; do
    of_length "$length"
    run once "$said"
    head -n 5 out >first
    body
    mv text wanted
    if unchunk; then answers "an output of $length bytes" 0; else bad "an output of $length bytes: no chunks"; fi
    head_of 'HTTP/1.1 200 OK' 'Content-Type: text/plain' 'Transfer-Encoding: chunked' 'Connection: close' >wanted
    mv first out
    answers "the head of an output of $length bytes" 0
done
of_length 9000
head_of 'GET /said HTTP/1.0' >in
{ head_of 'HTTP/1.1 200 OK' 'Content-Type: text/plain' 'Connection: close'; cat text; } >wanted
gives 'a streamed reply in HTTP/1.0' "$said"
head_of 'HEAD /said HTTP/1.1' 'Host: a' 'Connection: close' >in
head_of 'HTTP/1.1 200 OK' 'Content-Type: text/plain' 'Connection: close' >wanted
gives 'HEAD of a streamed reply' "$said"

# .. as the output comes: the script goes on only once its first bytes have been read
script stream "cat '$folder/output'
while [ ! -e '$folder/go_on' ]; do sleep 0.01; done
echo end"
get /stream >in
mkfifo streamed
timeout 60 "$program" once "/stream=$folder/stream" <in >streamed &
exec 3<streamed
timeout 30 head -c 8000 <&3 >out
: >go_on
timeout 30 cat <&3 >>out
exec 3<&-
wait $!
status=$?
body
{ cat text; echo end; } >wanted
if unchunk; then answers 'a streamed reply while its script runs' 0; else bad 'a streamed reply: no chunks'; fi

# ---- a client that takes nothing
of_length 1048576
get /said >in
: >wanted
: >out
timeout 60 "$program" once "$said" <in >/dev/full 2>err
status=$?
answers 'standard output that takes nothing' 0

# ---- the command line
usage='cgihost: usage: once SITE, serve SITE, check SITE, explain SITE, sample SEED N, upgrade SITE'
refused() {
    local name=$1
    shift
    run "$@"
    if [ "$status" = 2 ] && [ ! -s out ] && [ "$(cat err)" = "$usage" ]; then
        ok
    else
        bad "$name: status $status, said $(head -c 200 err)"
    fi
}
: >in
refused 'no words'
refused 'once alone' once
refused 'a path without a slash' once x=/bin/cat
refused 'a word too many' once /hello=/bin/cat more
refused 'once with no name' once ''
refused 'a command that is none' twice /hello=/bin/cat
refused 'a word that is not UTF-8' once $'/hello=/bin/\xff'

count

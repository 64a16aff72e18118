#!/usr/bin/env bash
# Drives the folders of documents of the built program: once over standard input and output, byte for byte, and then
# over sockets with curl and with a client of its own. It listens on free ports of 127.0.0.1, each server that is
# started here is ended here, and all files lie in the temporary folder.
. "$(dirname "$0")/common.sh"
. "$root/tests/server.sh"
client=$root/tests/documents.py
loops=${LOOPS:-}

# ---- the folder, and what lies beside it
mkdir docs docs/sub docs/bare docs/dir.txt docs2 other outside
printf hello >docs/a.txt
printf 'not for you' | tee secret docs2/secret outside/secret other/secret >docs/.txt
printf other >other/a.txt
: >docs/empty.txt
printf '<p>index</p>\n' >docs/index.html
printf '<p>sub</p>\n' >docs/sub/index.html
printf b >docs/sub/b.TXT
printf c >docs/dir.txt/c
printf x | tee docs/none docs/dot. docs/two.txt.gz docs/... docs/..a >'docs/a b+c.txt'
printf x >"docs/gr$(printf '\303\274\303\237')e.txt"
head -c 8000 /dev/urandom >docs/short
head -c 9000 /dev/urandom >docs/long
# The longest file that is answered with a length: with what stands before it in the output it has 8,192 bytes.
before=$(printf 'Status: 200\nContent-Type: application/octet-stream\nAccept-Ranges: bytes\n\n' | wc -c)
head -c $((8192 - before)) /dev/urandom >docs/told
{ cat docs/told; printf x; } >docs/untold
head -c 1048576 /dev/urandom >docs/mib
head -c 8388608 /dev/urandom >docs/most
{ cat docs/most; printf x; } >docs/more
truncate -s 1T docs/huge 2>/dev/null || cp docs/more docs/huge
ln -s ../secret docs/out.txt
ln -s ../outside docs/outside
ln -s ../docs2 docs/beside
ln -s / docs/top
ln -s a.txt docs/in.txt
ln -s sub docs/within
ln -s "$folder/docs/a.txt" docs/whole.txt
ln -s nowhere docs/dangling
ln -s loop docs/loop
ln -s docs link
mkfifo docs/fifo
python3 -c 'import socket; socket.socket(socket.AF_UNIX).bind("docs/socket")'

script hi 'printf "Content-Type: text/plain\n\nhi\n"'
script echo 'printf "Content-Type: text/plain\n\n"
exec cat'
script to 'printf "Location: %s\n\n" "$QUERY_STRING"'
script long 'printf "Content-Type: text/plain\n\n%s\n" $$
exec sleep 60'
cp hi documents:0

# A site on a free port, with these limits: of a first host that takes every name, with scripts beside and below its
# documents, and of a second one with documents alone.
site() {
    port=$(free_port)
    url=http://127.0.0.1:$port
    {
        printf 'version = 2\nport = %s\n\n[limits]\n%s\n\n[[host]]\nname = "a"\nany = true\n' "$port" "$1"
        for name in hi echo to long documents:0; do
            printf '\n[[host.script]]\npath = "/%s"\nprogram = "%s/%s"\n' "$name" "$folder" "$name"
        done
        printf '\n[[host.script]]\npath = "/d/script"\nprogram = "%s/hi"\n' "$folder"
        printf '\n[[host.script]]\npath = "/top"\nprogram = "/documents:0"\n'
        printf '\n[[host.script]]\npath = "/ws"\nprogram = "/bin/cat"\nkind = "websocket"\n'
        printf '\n[[host.documents]]\npath = "/d"\nroot = "%s/docs"\n' "$folder"
        printf '\n[host.documents.types]\ntxt = "text/plain"\nhtml = "text/html;charset=utf-8"\ngz = "application/gzip"\n'
        printf '\n[[host.documents]]\npath = "/link"\nroot = "%s/link"\n' "$folder"
        printf '\n[[host.documents]]\npath = "/gone"\nroot = "%s/gone"\n' "$folder"
        printf '\n[[host]]\nname = "b"\n\n[[host.documents]]\npath = "/d"\nroot = "%s/other"\n' "$folder"
    } >site
}

# ---- once: replies byte for byte, without a clock and so without a date

# The lines of a head, each ended by CRLF, and the empty one behind them.
head_of() {
    printf '%b\r\n' "$@" ''
}

# The request in `in` is answered by what stands in `wanted`.
gives() {
    timeout 60 "$program" once site <in >got 2>err
    status=$?
    if [ "$status" = 0 ] && cmp -s got wanted; then
        ok
    else
        bad "$1: status $status, wrote $(head -c 400 got | tr '\r\n' '. ')"
    fi
}

# A request line with fields behind it, and how its reply begins that closes: a status, and fields before the last one.
asks() {
    head_of "$1 HTTP/1.1" 'Host: a' 'Connection: close' "${@:2}" >in
}
replies() {
    head_of "HTTP/1.1 $1" "${@:2}" 'Connection: close' >wanted
}

site ''
text='Content-Type: text/plain'
ranges='Accept-Ranges: bytes'
asks 'GET /d/a.txt'
{ replies '200 OK' "$text" "$ranges" 'Content-Length: 5'; printf hello >>wanted; }
gives 'a document'
asks 'GET /d/a.txt' 'Range: bytes=1-2'
{ replies '206 Partial Content' "$text" 'Content-Range: bytes 1-2/5' "$ranges" 'Content-Length: 2'; printf el >>wanted; }
gives 'a range of it'
asks 'GET /d/a.txt' 'Range: bytes=5-'
replies '416 Range Not Satisfiable' 'Content-Range: bytes */5' 'Content-Length: 0'
gives 'a range behind its end'
asks 'HEAD /d/a.txt' 'Range: bytes=1-2'
replies '200 OK' "$text" "$ranges"
gives 'HEAD, with a range'
asks 'GET /d/missing'
{ replies '404 Not Found' "$text" 'Content-Length: 12'; echo 'no document' >>wanted; }
gives 'no document'
asks 'HEAD /d/missing'
replies '404 Not Found' "$text"
gives 'HEAD of no document'
for method in DELETE OPTIONS get BREW; do
    asks "$method /d/a.txt"
    { replies '405 Method Not Allowed' 'Allow: GET, HEAD' "$text" 'Content-Length: 19'; echo 'method not allowed' >>wanted; }
    gives "$method"
done
for path in a.txt missing ''; do
    asks "POST /d/$path" 'Content-Length: 3'
    printf x=1 >>in
    gives "POST of /d/$path"
done
asks 'PUT /d/a.txt' 'Transfer-Encoding: chunked'
printf '3\r\nx=1\r\n0\r\n\r\n' >>in
gives 'PUT in chunks'
asks 'GET /d/a.txt' 'Content-Length: 3'
printf x=1 >>in
{ replies '200 OK' "$text" "$ranges" 'Content-Length: 5'; printf hello >>wanted; }
gives 'GET with a body'
asks 'GET /d/empty.txt'
replies '200 OK' "$text" "$ranges" 'Content-Length: 0'
gives 'an empty document'
asks 'GET /d/more'
{ replies '502 Bad Gateway' "$text" 'Content-Length: 28'; echo 'script could not be started' >>wanted; }
gives 'one that is too long'
asks 'HEAD /d/more'
replies '502 Bad Gateway' "$text"
gives 'HEAD of it'
head_of 'GET /d/a.txt HTTP/1.0' >in
{ replies '200 OK' "$text" "$ranges" 'Content-Length: 5'; printf hello >>wanted; }
gives 'HTTP/1.0'
head_of 'GET /d/long HTTP/1.0' >in
{ replies '200 OK' 'Content-Type: application/octet-stream' "$ranges"; cat docs/long >>wanted; }
gives 'a long one in HTTP/1.0, up to the close'
# Several requests of one client, in one piece: documents and a script.
{
    head_of 'GET /d/a.txt HTTP/1.1' 'Host: a'
    head_of 'GET /hi HTTP/1.1' 'Host: a'
    head_of 'GET /d/a.txt HTTP/1.1' 'Host: b'
    head_of 'GET /d/index.html HTTP/1.1' 'Host: a' 'Connection: close'
} >in
{
    head_of 'HTTP/1.1 200 OK' "$text" "$ranges" 'Content-Length: 5'
    printf hello
    head_of 'HTTP/1.1 200 OK' "$text" 'Content-Length: 3'
    echo hi
    head_of 'HTTP/1.1 200 OK' 'Content-Type: application/octet-stream' "$ranges" 'Content-Length: 5'
    printf other
    head_of 'HTTP/1.1 200 OK' 'Content-Type: text/html;charset=utf-8' "$ranges" 'Content-Length: 13' 'Connection: close'
    cat docs/index.html
} >wanted
gives 'documents and a script, pipelined'

# ---- explain shows which folder a request is for, and reads nothing
mv docs hidden
asks 'GET /d/sub/a.txt?x' 'Range: bytes=0-0'
printf '%s\n' 'program documents:0' 'dir /' 'arg x' >wanted
for pair in GATEWAY_INTERFACE=CGI/1.1 PATH_INFO=/sub/a.txt PATH_TRANSLATED=/srv/www/sub/a.txt QUERY_STRING=x \
    REMOTE_ADDR=127.0.0.1 REMOTE_HOST=127.0.0.1 REQUEST_METHOD=GET SCRIPT_NAME=/d SERVER_NAME=a "SERVER_PORT=$port" \
    SERVER_PROTOCOL=HTTP/1.1 SERVER_SOFTWARE=cgihost/1 HTTP_HOST=a HTTP_RANGE=bytes=0-0; do
    echo "env $pair" >>wanted
done
timeout 60 "$program" explain site <in >got 2>err
status=$?
if [ "$status" = 0 ] && cmp -s got wanted; then ok; else bad "explain: status $status, wrote $(head -c 800 got)"; fi
head_of 'GET /d/a.txt HTTP/1.1' 'Host: b' | timeout 60 "$program" explain site >got 2>err
same 'explain, of the second host' "$(head -n 1 got)" 'program documents:3'
mv hidden docs

# ---- nobody else's program is taken for a folder
refused() {
    timeout 60 "$program" "$@" </dev/null >got 2>err
    status=$?
}
sed "s|^program = \"/bin/cat\"|program = \"documents:0\"|" site >bent
refused check bent
same 'a script with the name of a folder' "$status $(cat err)" '3 cgihost: site refused: out of range host[0].script[7].program'
refused once /s=documents:0
same 'a word with it' "$status" 2

# ---- a server, by curl
command -v curl >/dev/null || {
    echo 'skipped: no curl'
    count
    exit
}

# What curl is answered with these words has this status, and the bytes of this file.
served() {
    local name=$1 code=$2 file=$3 came
    : >got
    came=$(curl -s -m 30 --path-as-is -o got -D fields -w '%{http_code}' "${@:4}")
    if [ "$came" = "$code" ] && cmp -s got "$file"; then
        ok
    else
        bad "$name: $came with $(head -c 60 got | tr '\0' ' '), where $code with the bytes of $file was wanted"
    fi
}

# .. and has this field.
field() {
    same "$1: $2" "$(tr -d '\r' <fields | sed -n "s/^$2: //Ip")" "$3"
}

echo 'no document' >missing
echo 'no script for this path' >unmapped
echo 'bad path' >bad_path
echo 'script could not be started' >failed
echo 'method not allowed' >not_allowed
echo hi >hi.text
: >nothing

serve() {
    start $loops
}

# What a client sees, on the site that is served.
drive() {
    served 'a document' 200 docs/a.txt "$url/d/a.txt"
    field 'a document' Content-Type text/plain
    field 'a document' Content-Length 5
    field 'a document' Accept-Ranges bytes
    field 'a document' Last-Modified ''
    field 'a document' ETag ''
    same 'HEAD' "$(curl -s -m 30 -I -o fields -w '%{http_code}' "$url/d/a.txt")" 200
    field 'HEAD' Content-Type text/plain
    field 'HEAD' Accept-Ranges bytes
    field 'HEAD' Content-Length ''

    # The path below the folder.
    served 'the path alone' 200 docs/index.html "$url/d"
    served 'a path that ends by /' 200 docs/index.html "$url/d/"
    served 'a folder below, with /' 200 docs/sub/index.html "$url/d/sub/"
    served 'a folder below, without /' 404 missing "$url/d/sub"
    served 'a folder without index.html' 404 missing "$url/d/bare/"
    served 'a missing file' 404 missing "$url/d/missing"
    served 'a file with a / behind it' 404 missing "$url/d/a.txt/"
    served 'a file with a path behind it' 404 missing "$url/d/a.txt/x"
    served 'a query' 200 docs/a.txt "$url/d/a.txt?x=1"
    served 'a name beside' 404 unmapped "$url/da.txt"
    served 'a name with a blank' 200 'docs/a b+c.txt' "$url/d/a%20b+c.txt"
    served 'a name in UTF-8' 200 "docs/gr$(printf '\303\274\303\237')e.txt" "$url/d/gr%C3%BC%C3%9fe.txt"
    served 'a long name' 404 missing "$url/d/$(printf 'x%.0s' $(seq 300))"
    served 'a long path' 404 missing "$url/d$(printf "/$(printf 'x%.0s' $(seq 249))%.0s" $(seq 20))"
    served 'the folder of another host' 200 other/a.txt -H 'Host: b' "$url/d/a.txt"
    served 'a folder that is a link' 200 docs/a.txt "$url/link/a.txt"
    served 'a folder that is not there' 404 missing "$url/gone/a.txt"

    # Its type.
    local path type
    while read -r path type; do
        served "the type of $path" 200 "docs/$path" "$url/d/$path"
        field "$path" Content-Type "$type"
    done <<END
a.txt text/plain
sub/b.TXT text/plain
index.html text/html;charset=utf-8
two.txt.gz application/gzip
.txt text/plain
none application/octet-stream
dot. application/octet-stream
dir.txt/c application/octet-stream
short application/octet-stream
END

    # Links, and what is no regular file.
    served 'a link within' 200 docs/a.txt "$url/d/in.txt"
    served 'a link within, of a whole path' 200 docs/a.txt "$url/d/whole.txt"
    served 'a link to a folder within' 200 docs/sub/b.TXT "$url/d/within/b.TXT"
    served 'a link out of the folder' 404 missing "$url/d/out.txt"
    served 'a link to a folder out of it' 404 missing "$url/d/outside/secret"
    served 'a link to a folder whose name begins alike' 404 missing "$url/d/beside/secret"
    served 'a link to the top' 404 missing "$url/d/top/etc/passwd"
    served 'a link to nothing' 404 missing "$url/d/dangling"
    served 'a link to itself' 404 missing "$url/d/loop"
    served 'a socket' 404 missing "$url/d/socket"
    # Who opens a FIFO for writing waits until somebody reads it: nobody does.
    sh -c 'exec 9>&-; echo x >docs/fifo' &
    local writer=$!
    served 'a FIFO' 404 missing "$url/d/fifo"
    same 'a FIFO, by HEAD' "$(curl -s -m 30 -I -o fields -w '%{http_code}' "$url/d/fifo")" 404
    sleep 0.2
    if kill -0 "$writer" 2>/dev/null; then ok; else bad 'a FIFO was opened'; fi
    kill "$writer" 2>/dev/null
    wait "$writer" 2>/dev/null

    # Ways out, and escapes.
    served 'dots that lead out' 404 unmapped "$url/d/../secret"
    served 'dots that lead out, to the top' 404 unmapped "$url/d/../../../../etc/passwd"
    served 'dots at the end' 404 unmapped "$url/d/.."
    served 'dots within' 200 docs/a.txt "$url/d/sub/../a.txt"
    served 'one dot' 200 docs/a.txt "$url/d/./a.txt"
    served 'a name of three dots' 200 docs/... "$url/d/..."
    served 'a name that begins by dots' 200 docs/..a "$url/d/..a"
    for path in %2e%2e/secret %2E./secret .%2e/secret sub/%2e%2e/a.txt %2e/a.txt ..%2fsecret %2e%2e%2fsecret sub%2Fb.TXT %2Fetc/passwd \
        a.txt%00 %00 sub/%2e%2e/%2e%2e/secret; do
        served "the path $path" 404 unmapped "$url/d/$path"
    done
    for path in '..%5csecret' '..;/secret' '.../secret' 'a.txt%20' 'a.txt;x' 'A.TXT' 'top//etc/passwd' '/etc/passwd' '%252e%252e/secret'; do
        served "the path $path" 404 missing "$url/d/$path"
    done
    served 'an escaped letter' 200 docs/a.txt "$url/d/%61%2Etxt"
    served 'two slashes, as the system has paths' 200 docs/a.txt "$url/d//a.txt"
    served 'two slashes at the front' 404 unmapped "$url//etc/passwd"
    served 'no hex digits' 400 bad_path "$url/d/%zz"
    served 'no UTF-8' 400 bad_path "$url/d/%ff"

    # Ranges, of which 5 bytes are five.
    local range code from
    while read -r range code from; do
        case $code in
            206) printf hello | cut -c "$((${from%-*} + 1))-$((${from#*-} + 1))" | tr -d '\n' >wanted ;;
            416) : >wanted ;;
            *) printf hello >wanted ;;
        esac
        served "Range: $range" "$code" wanted -H "Range: $range" "$url/d/a.txt"
        case $code in
            206) field "Range: $range" Content-Range "bytes $from/5" ;;
            416) field "Range: $range" Content-Range 'bytes */5' ;;
            *) field "Range: $range" Content-Range '' ;;
        esac
    done <<END
bytes=0-0 206 0-0
bytes=1-2 206 1-2
bytes=4- 206 4-4
bytes=0-999999999999999999 206 0-4
bytes=-1 206 4-4
bytes=-5 206 0-4
bytes=-6 206 0-4
bytes=-0 416
bytes=5- 416
bytes=5-9 416
bytes=999999999999999999- 416
bytes=2-1 200
bytes=0-1000000000000000000 200
bytes=0000000000000000000-1 200
bytes=-1000000000000000000 200
bytes=0-1,3-4 200
bytes=- 200
bytes= 200
Bytes=0-1 200
items=0-1 200
bytes=+0-1 200
END
    served 'Range: bytes= 0-1' 200 docs/a.txt -H 'Range: bytes= 0-1' "$url/d/a.txt"
    served 'two fields' 200 docs/a.txt -H 'Range: bytes=0-0' -H 'Range: bytes=1-1' "$url/d/a.txt"
    served 'If-Range, a date' 200 docs/a.txt -H 'Range: bytes=0-0' -H 'If-Range: Wed, 02 Dec 2026 00:00:00 GMT' "$url/d/a.txt"
    served 'If-Range, a tag' 200 docs/a.txt -H 'Range: bytes=9-' -H 'If-Range: "x"' "$url/d/a.txt"
    served 'a range of a missing file' 404 missing -H 'Range: bytes=0-0' "$url/d/missing"
    served 'an empty file' 200 nothing "$url/d/empty.txt"
    for range in 0-0 0- -1; do
        served "$range of an empty file" 416 nothing -r "$range" "$url/d/empty.txt"
        field "$range of an empty file" Content-Range 'bytes */0'
    done
    # What ends at a byte and what begins behind it are the file.
    local at
    for at in 0 1 2 3; do
        { curl -s -m 30 -r "0-$at" "$url/d/a.txt"; curl -s -m 30 -r "$((at + 1))-" "$url/d/a.txt"; } >joined
        if cmp -s joined docs/a.txt; then ok; else bad "the ranges 0-$at and $((at + 1))- are $(cat joined)"; fi
    done

    # Long ones.
    served '8,000 bytes' 200 docs/short "$url/d/short"
    field '8,000 bytes' Content-Length 8000
    served '8,192 bytes of output' 200 docs/told "$url/d/told"
    field '8,192 bytes of output' Content-Length "$((8192 - before))"
    served '8,193 bytes of output' 200 docs/untold "$url/d/untold"
    field '8,193 bytes of output' Content-Length ''
    field '8,193 bytes of output' Transfer-Encoding chunked
    served '9,000 bytes' 200 docs/long "$url/d/long"
    field '9,000 bytes' Content-Length ''
    field '9,000 bytes' Transfer-Encoding chunked
    served '9,000 bytes in HTTP/1.0' 200 docs/long -0 "$url/d/long"
    field '9,000 bytes in HTTP/1.0' Content-Length ''
    field '9,000 bytes in HTTP/1.0' Transfer-Encoding ''
    served '8 MiB' 200 docs/most "$url/d/most"
    tail -c 608 docs/most >wanted
    served 'the end of 8 MiB' 206 wanted -r 8388000- "$url/d/most"
    field 'the end of 8 MiB' Content-Range 'bytes 8388000-8388607/8388608'
    served 'the last bytes of 8 MiB' 206 wanted -r -608 "$url/d/most"
    head -c 5000000 docs/most | tail -c 3999999 >wanted
    served 'the middle of 8 MiB' 206 wanted -r 1000001-4999999 "$url/d/most"
    field 'the middle of 8 MiB' Content-Range 'bytes 1000001-4999999/8388608'
    head -c 3000000 docs/most >resumed
    curl -s -m 30 -C - -o resumed "$url/d/most"
    if cmp -s resumed docs/most; then ok; else bad 'what curl goes on with'; fi
    served '8 MiB and a byte' 502 failed "$url/d/more"
    served 'a range of it' 502 failed -r 0-0 "$url/d/more"
    served 'far more' 502 failed "$url/d/huge"

    # Other methods.
    for path in a.txt missing fifo; do
        served "POST of $path" 405 not_allowed -d x=1 "$url/d/$path"
        field "POST of $path" Allow 'GET, HEAD'
        served "PUT of $path" 405 not_allowed -T docs/short "$url/d/$path"
        field "PUT of $path" Allow 'GET, HEAD'
    done
    served 'POST of 1 MiB' 405 not_allowed --data-binary @docs/mib "$url/d/a.txt"

    # Beside scripts and WebSockets.
    served 'a script beside' 200 hi.text "$url/hi"
    served 'a script below' 200 hi.text "$url/d/script"
    served 'a script with the name of a folder' 200 hi.text "$url/documents:0"
    served 'a program that is not there, with the name of a folder' 502 failed "$url/top/a.txt"
    served 'a redirect to a document' 200 docs/a.txt "$url/to?/d/a.txt"
    served 'a redirect to a document, by POST' 200 docs/a.txt -d x=1 "$url/to?/d/a.txt"
    served 'a redirect to no document' 404 missing "$url/to?/d/missing"
    printf el >wanted
    served 'a range behind a redirect' 206 wanted -r 1-2 "$url/to?/d/a.txt"
    served 'a handshake' 200 docs/a.txt -H 'Connection: Upgrade' -H 'Upgrade: websocket' -H 'Sec-WebSocket-Version: 13' \
        -H 'Sec-WebSocket-Key: dGhlIHNhbXBsZSBub25jZQ==' "$url/d/a.txt"
    plays talks
    plays kept
    plays pipelined
    plays bytewise
    plays at_once 64
}

site ''
serve
drive

# ---- files that change
plays swapped
plays grown
plays overwritten
plays leaves
same 'programs that are left' "$(children)" 0
rests 'behind the documents'
end_server

# ---- 10,000 requests leave nothing behind
site ''
serve
plays often 1000
before=$(memory)
plays often 10000
if [ "$(memory)" -le $((before + 1024)) ]; then ok; else bad "10,000 requests: $before KiB became $(memory)"; fi
end_server

# ---- several loops, on the site as `upgrade` writes it
if [ -z "$loops" ]; then
    site ''
    "$program" upgrade site >upgraded && mv upgraded site
    start --loops 2
    served 'two loops' 200 docs/mib "$url/d/mib"
    plays at_once 64
    plays talks
    end_server
fi

# ---- documents are none of the programs that run at a time, and the limit of an output is theirs too
site 'children = 1
output = 8192'
serve
plays beside_long
served '8,000 bytes of 8,192' 200 docs/short "$url/d/short"
if curl -s -f -m 30 -o got "$url/d/long"; then bad 'a document of more than the limit of an output'; else ok; fi
served 'one behind it' 200 docs/a.txt "$url/d/a.txt"
end_server

# ---- the end, while a client takes a document
site ''
serve
{ timeout 60 python3 "$client" under_way "$port" drain 2>wrong && touch drained; } >&9
if [ -e drained ]; then ok; else bad "drain with a document under way: $(tail -n 1 wrong)"; fi
ends 'drain with a document under way' 0 10

# ---- files that the server may not read: file modes don't bind root
chmod 755 . docs
printf x >docs/locked
mkdir docs/closed
printf x >docs/closed/a
chmod 000 docs/locked docs/closed
if [ "$(id -u)" = 0 ] && command -v setpriv >/dev/null; then
    cp "$program" program.copy
    printf '#!/bin/sh\nexec setpriv --reuid=65534 --regid=65534 --clear-groups -- "%s" "$@"\n' "$folder/program.copy" >as_nobody
    chmod 755 as_nobody program.copy
    program=$folder/as_nobody
fi
if [ "$(id -u)" = 0 ] && [ "${program##*/}" != as_nobody ]; then
    echo 'skipped: unreadable files, for root without setpriv'
else
    site ''
    chmod 644 site docs/a.txt
    serve
    served 'a readable file' 200 docs/a.txt "$url/d/a.txt"
    served 'an unreadable file' 502 failed "$url/d/locked"
    served 'a file in an unreadable folder' 502 failed "$url/d/closed/a"
    served 'another method' 502 failed -X DELETE "$url/d/locked"
    end_server
fi
chmod 755 docs/closed

count

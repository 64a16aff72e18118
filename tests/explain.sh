#!/usr/bin/env bash
# Drives `explain` of the built program: what is reported of requests at standard input, and that nothing is started
# and nothing answered. It wants the program that `rt ci` leaves, and works in a temporary folder.
. "$(dirname "$0")/common.sh"

# A request from its lines.
request() {
    printf '%b\r\n' "$@" ''
}

# Explains the request in the file `in`: what was reported stands in `out`.
run() {
    timeout 60 "$program" explain "$1" <in >out 2>err
    status=$?
}

# What is reported for the request in the file `in` is what stands in `wanted`.
explains() {
    run "$2"
    if [ "$status" = 0 ] && cmp -s out wanted && [ ! -s err ]; then
        ok
    else
        bad "$1: status $status, wrote $(head -c 800 out), said $(head -c 200 err)"
    fi
}

# The request in the file `in` is refused for this.
refused() {
    printf 'refused: %s\n' "$1" >wanted
    explains "refused: $1" "$small"
}

# The words end with a status and what is said on standard error, and report nothing.
says() {
    local wanted=$1 line=$2
    shift 2
    timeout 60 "$program" "$@" <in >out 2>err
    status=$?
    if [ "$status" = "$wanted" ] && [ "$(cat err)" = "cgihost: $line" ] && [ ! -s out ]; then
        ok
    else
        bad "$*: status $status, wrote $(head -c 200 out), said $(head -c 300 err)"
    fi
}

small=$root/examples/small.toml

# ---- a request with a path behind its script and a query that is no search string
request 'GET /cgi-bin/hello/a%20b/?x=1 HTTP/1.1' 'Host: example.com:8080' >in
cat >wanted <<END
program /srv/cgi/hello
dir /srv/cgi
env GATEWAY_INTERFACE=CGI/1.1
env PATH_INFO=/a b/
env PATH_TRANSLATED=/srv/www/a b/
env QUERY_STRING=x=1
env REMOTE_ADDR=127.0.0.1
env REMOTE_HOST=127.0.0.1
env REQUEST_METHOD=GET
env SCRIPT_NAME=/cgi-bin/hello
env SERVER_NAME=example.com
env SERVER_PORT=8080
env SERVER_PROTOCOL=HTTP/1.1
env SERVER_SOFTWARE=cgihost/1
env HTTP_HOST=example.com:8080
END
explains 'a whole request' "$small"
explains 'a site of one script' /cgi-bin/hello=/srv/cgi/hello

# .. in single bytes, over a pipe
{ while IFS= read -r -n1 -d '' byte; do printf '%s' "$byte"; done <in; } |
    timeout 60 "$program" explain "$small" >out 2>err
status=$?
if [ "$status" = 0 ] && cmp -s out wanted; then
    ok
else
    bad "a request in single bytes: status $status, wrote $(head -c 400 out)"
fi

# ---- a form with a body, over a client that leaves its input open: it ends with the request
request 'POST /cgi-bin/form HTTP/1.1' 'Host: a' 'Content-Type: text/plain' 'Content-Length: 3' 'Cookie: a=1' \
    'Proxy: x' 'cookie: b=2' >in
printf 'x=1and more' >>in
cat >wanted <<END
program /srv/cgi/form
dir /srv/cgi
env CONTENT_LENGTH=3
env CONTENT_TYPE=text/plain
env GATEWAY_INTERFACE=CGI/1.1
env QUERY_STRING=
env REMOTE_ADDR=127.0.0.1
env REMOTE_HOST=127.0.0.1
env REQUEST_METHOD=POST
env SCRIPT_NAME=/cgi-bin/form
env SERVER_NAME=a
env SERVER_PORT=8080
env SERVER_PROTOCOL=HTTP/1.1
env SERVER_SOFTWARE=cgihost/1
env HTTP_HOST=a
env HTTP_COOKIE=a=1; b=2
END
mkfifo pipe
timeout 60 "$program" explain "$small" <pipe >out 2>err &
explainer=$!
exec 3>pipe
cat in >&3
wait "$explainer"
status=$?
exec 3>&-
if [ "$status" = 0 ] && cmp -s out wanted; then
    ok
else
    bad "a form over an open pipe: status $status, wrote $(head -c 800 out)"
fi

# ---- arguments, and bytes that a line can't show
request 'GET /cgi-bin/hello/%0A?a+b%5Cc HTTP/1.1' 'Host: a' 'X-Y: 1\t\\' 'X-Y: \0351' >in
cat >wanted <<'END'
program /srv/cgi/hello
dir /srv/cgi
arg a
arg b\x5Cc
env GATEWAY_INTERFACE=CGI/1.1
env PATH_INFO=/\x0A
env PATH_TRANSLATED=/srv/www/\x0A
env QUERY_STRING=a+b%5Cc
env REMOTE_ADDR=127.0.0.1
env REMOTE_HOST=127.0.0.1
env REQUEST_METHOD=GET
env SCRIPT_NAME=/cgi-bin/hello
env SERVER_NAME=a
env SERVER_PORT=8080
env SERVER_PROTOCOL=HTTP/1.1
env SERVER_SOFTWARE=cgihost/1
env HTTP_HOST=a
END
printf 'env HTTP_X_Y=1\\x09\\x5C, \303\251\n' >>wanted
explains 'arguments, and bytes that a line can not show' "$small"

# ---- a form in the manner of a browser's, with a length and in chunks
form() {
    request 'POST /cgi-bin/form HTTP/1.1' 'Host: www.example.com' 'User-Agent: Mozilla/5.0' 'Accept: text/html,*/*;q=0.8' \
        'Accept-Language: en' 'Accept-Encoding: gzip, deflate' 'Content-Type: application/x-www-form-urlencoded' \
        "$1" 'Origin: http://www.example.com' 'DNT: 1' 'Connection: keep-alive' 'Referer: http://www.example.com/form' \
        "$2" 'Upgrade-Insecure-Requests: 1' 'Cache-Control: max-age=0' 'Priority: u=0, i'
}
cat >wanted <<'END'
program /srv/cgi/form
dir /srv/cgi
env CONTENT_LENGTH=3
env CONTENT_TYPE=application/x-www-form-urlencoded
env GATEWAY_INTERFACE=CGI/1.1
env QUERY_STRING=
env REMOTE_ADDR=127.0.0.1
env REMOTE_HOST=127.0.0.1
env REQUEST_METHOD=POST
env SCRIPT_NAME=/cgi-bin/form
env SERVER_NAME=www.example.com
env SERVER_PORT=8080
env SERVER_PROTOCOL=HTTP/1.1
env SERVER_SOFTWARE=cgihost/1
env HTTP_HOST=www.example.com
env HTTP_USER_AGENT=Mozilla/5.0
env HTTP_ACCEPT=text/html,*/*;q=0.8
env HTTP_ACCEPT_LANGUAGE=en
env HTTP_ACCEPT_ENCODING=gzip, deflate
env HTTP_ORIGIN=http://www.example.com
env HTTP_DNT=1
env HTTP_REFERER=http://www.example.com/form
env HTTP_COOKIE=a=1; b=2
env HTTP_UPGRADE_INSECURE_REQUESTS=1
env HTTP_CACHE_CONTROL=max-age=0
env HTTP_PRIORITY=u=0, i
END
{ form 'Content-Length: 3' 'Cookie: a=1; b=2'; printf 'x=1'; } >in
explains 'a form' "$small"
{ form 'Transfer-Encoding: chunked' 'Cookie: a=1\r\nCookie: b=2'; printf '3\r\nx=1\r\n0\r\n\r\n'; } >in
explains 'a form in chunks' "$small"

# ---- the host of a request, or the site's own
server_name() {
    run "$small"
    if [ "$status" = 0 ] && [ "$(grep '^env SERVER_NAME=' out)" = "env SERVER_NAME=$1" ]; then
        ok
    else
        bad "SERVER_NAME $1: status $status, wrote $(head -c 400 out)"
    fi
}
request 'GET /cgi-bin/hello HTTP/1.1' 'Host: [::1]:8080' >in
server_name '[::1]'
request 'GET http://b.example:80/cgi-bin/hello HTTP/1.1' 'Host: a' >in
server_name b.example
request 'GET /cgi-bin/hello HTTP/1.0' >in
server_name localhost

# ---- at most 64 arguments, or none
arguments() {
    run "$small"
    if [ "$status" = 0 ] && [ "$(head -n 1 out)" = 'program /srv/cgi/hello' ] && [ "$(grep -c '^arg ' out)" = "$1" ]; then
        ok
    else
        bad "$1 arguments: status $status, wrote $(head -c 400 out)"
    fi
}
words=$(printf '+w%.0s' $(seq 63))
request "GET /cgi-bin/hello?w$words HTTP/1.1" 'Host: a' >in
arguments 64
request "GET /cgi-bin/hello?w$words+w HTTP/1.1" 'Host: a' >in
arguments 0
for query in 'a++b' 'a=b' '' '%00' 'a+%zz' '%C3%28' '+a' 'a+' '++'; do
    request "GET /cgi-bin/hello?$query HTTP/1.1" 'Host: a' >in
    arguments 0
done
request 'POST /cgi-bin/hello?a+b HTTP/1.1' 'Host: a' 'Content-Length: 0' >in
arguments 0

# ---- the kind of a script isn't looked at, hosts are told apart, and documents are scripts
request 'GET /live/echo HTTP/1.1' 'Host: a' >in
run "$root/examples/live.toml"
if [ "$status" = 0 ] && [ "$(head -2 out)" = $'program /srv/cgi/echo\ndir /srv/cgi' ]; then
    ok
else
    bad "a plain GET of a WebSocket's script: status $status, wrote $(head -c 200 out)"
fi
request 'GET /t HTTP/1.1' 'Host: B.example' >in
run "$root/examples/hosts.toml"
if [ "$status" = 0 ] && [ "$(head -1 out)" = 'program /srv/cgi/hello' ]; then
    ok
else
    bad "a script of the second host: status $status, wrote $(head -c 200 out)"
fi
printf 'version = 2\n[[host]]\nname = "a"\n[[host.documents]]\npath = "/c"\n[[host.documents]]\npath = "/d"\n' >documents
request 'GET /d/x.txt HTTP/1.1' 'Host: a' >in
run documents
if [ "$status" = 0 ] && [ "$(head -1 out)" = 'program documents:1' ]; then
    ok
else
    bad "a folder of documents: status $status, wrote $(head -c 200 out)"
fi

# ---- requests that are refused: by the head, by the body that it announces, by the script of its target
request 'GET /cgi-bin/hello HTTP/2.0' >in
refused '400 bad request head'
request 'GET /cgi-bin/hello HTTP/1.1' 'Host: a' 'X: a' ' b' >in
refused '400 bad request head'
request 'GET /cgi-bin/hello HTTP/1.1' >in
refused '400 bad host'
request 'POST /cgi-bin/hello HTTP/1.1' 'Host: a' 'Content-Length: 1048577' >in
refused '413 request body too large'
request 'POST /cgi-bin/hello HTTP/1.1' 'Host: a' 'Transfer-Encoding: chunked' >in
printf 'x\r\n' >>in
refused '400 bad chunk'
request 'GET /none HTTP/1.1' 'Host: a' >in
refused '404 no script for this path'
request 'GET /a%zz HTTP/1.1' 'Host: a' >in
refused '400 bad path'

# ---- requests that don't end
printf 'GET /cgi-bin/hello HT' >in
refused '400 request ended early'
request 'POST /cgi-bin/form HTTP/1.1' 'Host: a' 'Content-Length: 3' >in
printf 'x=' >>in
refused '400 request ended early'
printf 'no request\n' >wanted
: >in
explains 'no byte at all' "$small"
printf '\r\n' >in
explains 'an empty line' "$small"

# ---- nothing is started
printf '#!/bin/sh\n: >"%s/started"\n' "$folder" >script
chmod +x script
request 'GET /s HTTP/1.1' 'Host: a' >in
run "/s=$folder/script"
if [ "$status" = 0 ] && [ "$(head -1 out)" = "program $folder/script" ] && [ ! -e started ]; then
    ok
else
    bad "the program was started, or status $status, wrote $(head -c 200 out)"
fi

# ---- sites and reports
says 3 'site refused: missing version' explain /dev/null
says 4 $'none: No such file or directory (os error 2)\ncgihost: site file not read' explain none
usage='usage: once SITE, serve SITE, check SITE, explain SITE, sample SEED N, upgrade SITE'
says 2 "$usage" explain
says 2 "$usage" explain s=/bin/cat
says 2 "$usage" explain "$small" more
timeout 60 "$program" explain "$small" <in >/dev/full 2>err
status=$?
if [ "$status" = 7 ] && [ "$(cat err)" = 'cgihost: report not written' ]; then
    ok
else
    bad "explain to a full device: status $status, said $(head -c 200 err)"
fi

count

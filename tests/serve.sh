#!/usr/bin/env bash
# Drives the built server over sockets as its users do: with ordinary clients where they are installed, and with one
# that is hard on it. It listens on free ports of 127.0.0.1, and each server that is started here is ended here.
. "$(dirname "$0")/common.sh"
. "$root/tests/server.sh"
loops=${LOOPS:-}

script hi 'printf "Content-Type: text/plain\n\nhi\n"'
script query 'printf "Content-Type: text/plain\n\n%s\n" "$QUERY_STRING"'
script sum 'printf "Content-Type: text/plain\n\n"
exec md5sum'
script echo 'printf "Content-Type: application/octet-stream\n\n"
exec cat'
script slow 'printf "Content-Type: text/plain\n\none\n"
sleep 0.5
echo two'
script nap 'sleep 1
printf "Content-Type: text/plain\n\nup\n"'
script long 'printf "Content-Type: text/plain\n\n%s\n" $$
exec sleep 60'
script zeros 'printf "Content-Type: application/octet-stream\n\n"
exec head -c 8388608 /dev/zero'
script lingers 'printf "Content-Type: text/plain\n\nhi\n"
exec >&-
exec sleep 4'
script clock '#!/usr/bin/env python3
import sys, time
sys.stdout.write("Content-Type: text/plain\n\nbegun\n")
sys.stdout.flush()
time.sleep(0.4)
for _ in range(20):
    sys.stdout.write(f"{time.time():.6f}\n")
    sys.stdout.flush()
    time.sleep(0.02)'
script chatty 'printf "Content-Type: text/plain\n\n%s\n" $$
while sleep 0.2; do
    echo more
done'
script outlives 'printf "Content-Type: text/plain\n\n%s\n" $$
exec >&-
exec sleep 60'
script signals 'printf "Content-Type: text/plain\n\n"
exec grep "^Sig[BI]" /proc/self/status'
script open 'printf "Content-Type: text/plain\n\n"
ls -l /proc/$$/fd'

# A site of two hosts on a free port, with these limits.
site() {
    port=$(free_port)
    {
        printf 'version = 2\nport = %s\n\n[limits]\n%s\n\n' "$port" "$1"
        printf '[[host]]\nname = "a.example"\naliases = ["www.a.example", "127.0.0.1"]\n'
        for name in hi query sum echo slow nap long chatty zeros lingers clock outlives signals open; do
            printf '\n[[host.script]]\npath = "/%s"\nprogram = "%s/%s"\n' "$name" "$folder" "$name"
        done
        printf '\n[[host.documents]]\npath = "/docs"\nroot = "%s"\n' "$folder"
        printf '\n[[host]]\nname = "b.example"\n\n[[host.script]]\npath = "/b"\nprogram = "%s/hi"\n' "$folder"
    } >site
}

serve() {
    start $loops "$@"
}

has() {
    command -v "$1" >/dev/null && return
    echo "skipped: no $1"
    return 1
}

# ---- a client that takes nothing of what is left for it is given up after 150 ticks: this goes on beside the rest
mkdir late
(
    cd late || exit
    site ''
    serve
    timeout 60 python3 "$client" takes_nothing "$port" >&9 2>wrong &
    idler=$!
    sleep 1
    begun=$SECONDS
    ends 'a client that takes nothing' 0 25
    kill "$idler"
    took=$((SECONDS - begun))
    if [ "$took" -ge 13 ]; then ok; else bad "a client that takes nothing was given up after $took s"; fi
    [ "$failed" = 0 ] && touch given_up
) &
late=$!

# ---- it says where it listens, and ordinary clients are answered
site 'connections = 1024
children = 256'
serve
if [ "$(cat said)" = "cgihost: listening on 127.0.0.1:$port" ]; then ok; else bad "it said $(cat said)"; fi
url=http://127.0.0.1:$port
if has curl; then
    if [ "$(curl -s -m 20 "$url/hi")" = hi ]; then ok; else bad 'curl'; fi
    if [ "$(curl -s -m 20 "$url/hi" "$url/query?x" | tr '\n' ' ')" = 'hi x ' ]; then ok; else bad 'curl, twice'; fi
    if [ "$(curl -s -m 20 -v "$url/hi" "$url/hi" 2>&1 | grep -c 'Connected to')" = 1 ]; then ok; else bad 'curl connects again'; fi
    if curl -s -m 20 -I "$url/hi" | head -n 1 | grep -q '^HTTP/1.1 200 OK'; then ok; else bad 'curl -I'; fi
    head -c 1048576 /dev/urandom >mib
    wanted=$(md5sum <mib)
    if [ "$(curl -s -m 20 --data-binary @mib "$url/sum")" = "$wanted" ]; then ok; else bad 'curl, 1 MiB'; fi
    if [ "$(curl -s -m 20 -H 'Transfer-Encoding: chunked' --data-binary @mib "$url/sum")" = "$wanted" ]; then ok; else bad 'curl, 1 MiB in chunks'; fi
    if curl -s -m 20 --data-binary @mib "$url/echo" | cmp -s - mib; then ok; else bad 'curl, 1 MiB echoed'; fi
    if [ "$(curl -s -m 20 -0 "$url/hi")" = hi ]; then ok; else bad 'curl, HTTP/1.0'; fi
    if [ "$(curl -s -m 20 -o got -w '%{http_code}' -H 'Host: other.example' "$url/hi")" = 421 ]; then ok; else bad 'curl, another host'; fi
fi
if has wget; then
    if [ "$(wget -q -T 20 -t 1 -O - "$url/hi")" = hi ]; then ok; else bad 'wget'; fi
fi
if has wrk; then
    wrk -t 2 -c 16 -d 1s "$url/hi" >wrked 2>&1
    if grep -q ' requests in ' wrked && ! grep -q 'Non-2xx\|Socket errors\| 0 requests in ' wrked; then ok; else bad "wrk: $(tail -n 3 wrked | tr '\n' ' ')"; fi
fi
if [ "$(python3 -c 'import sys, urllib.request
print(urllib.request.urlopen(sys.argv[1], timeout=20).read() + urllib.request.urlopen(sys.argv[2], b"x" * 100000, 20).read()[:32])' "$url/hi" "$url/sum")" = "b'hi\\n$(head -c 100000 /dev/zero | tr '\0' x | md5sum | head -c 32)'" ]; then ok; else bad 'urllib'; fi

# ---- once its programs have exited a loop sleeps little more often than its clock ticks
if [ -z "$loops" ]; then
    slept=0
    for _ in 1 2 3 4 5; do
        plays kept
        before=$(sleeps)
        sleep 0.4
        slept=$((slept + $(sleeps) - before))
    done
    if [ "$slept" -le 28 ]; then ok; else bad "it slept $slept times in 2 s behind programs that had exited"; fi
fi

# ---- requests of all kinds
plays kept
plays bytewise
plays pipelined
plays pipelined_far
plays heads
plays hosts
plays streamed
plays promptly
plays half_closed
plays reads_late
plays leaves
plays half_heads 200
plays descriptors 50
plays signals
plays documents
rests 'after all these'
end_server

# ---- bodies
site 'body = 16777216'
serve
plays upload length 16
plays upload chunked 16
plays echo 8
plays expects
plays refused
plays refused_upload
rests 'after bodies'
end_server

# ---- it rests beside clients and programs that do nothing: half a head, a kept connection, a program that is silent, one that
# lives on behind its output, and clients that don't read, also where more of theirs lies unread, or their end
site 'connections = 1024'
serve
plays idles /long /lingers /zeros &
sleep 2
rests 'beside what does nothing' 100
wait $!
end_server

# ---- more programs than may run
site 'children = 3'
serve
plays many 8 3
end_server

# ---- more connections than may be held; and a program that lives on behind its output
site 'connections = 2'
serve
[ -n "$loops" ] || plays full
plays outlives
end_server
if [ -z "$loops" ]; then
    site 'connections = 1'
    serve
    plays turned_away
    end_server
fi

# ---- a client that sends nothing is let go
site 'idle_ticks = 5'
serve
plays idle_ends
end_server

# ---- the end: while a request is under way, and without one
for what in stop drain; do
    site ''
    serve
    { timeout 60 python3 "$client" under_way "$port" "$what" 2>wrong && touch "done.$what"; } >&9
    if [ -e "done.$what" ]; then ok; else bad "$what with requests under way: $(tail -n 1 wrong)"; fi
    ends "$what with requests under way" 0 10
    plays closed 1
done

# ---- several loops, of which one has a program that runs on: the others are over first
site ''
start --loops 4
{ timeout 60 python3 "$client" over_first "$port" 2>wrong && touch over; } >&9
if [ -e over ]; then ok; else bad "loops that are over first: $(tail -n 1 wrong)"; fi
ends 'stop behind drain' 0 5

# ---- while what is under way is served to its end, another server can have the port
site ''
serve
{ timeout 60 python3 "$client" under_way "$port" drain 2>wrong && touch drained; } >&9 &
drains=$!
beside=no
for _ in $(seq 100); do
    "$program" serve site $loops --turns 1 </dev/null >again 2>&1
    status=$?
    [ "$status" = 5 ] || break
    sleep 0.02
done
[ "$status" = 6 ] && kill -0 "$server" 2>/dev/null && beside=yes
if [ "$beside" = yes ]; then ok; else bad "no other server while one drains: status $status, $(tail -n 1 again)"; fi
wait "$drains"
if [ -e drained ]; then ok; else bad "drain: $(tail -n 1 wrong)"; fi
ends 'drain beside another server' 0 10

# ---- whoever starts the server may have the signal of ended children ignored: more programs than may run at a time end
site 'children = 4'
trap '' CHLD
serve
trap - CHLD
for _ in $(seq 20); do curl -s -m 10 -o got -w '%{http_code}\n' "http://127.0.0.1:$port/hi"; done | sort | uniq -c >answers
if [ "$(awk '{ print $1, $2 }' answers)" = '20 200' ]; then ok; else bad "with SIGCHLD ignored: $(tr '\n' ';' <answers)"; fi
echo stop >&9
ends 'stop with SIGCHLD ignored' 0 10

site ''
serve
echo stop >&9
ends 'stop without a client' 0 2
site ''
serve
printf 'stop\r\n' >&9
ends 'stop with CR' 0 2
site ''
serve --turns 100
echo drain >&9
ends 'drain without a client' 0 8
site ''
serve --turns 20
echo x >&9
ends 'a line that is no order' 6 10
site ''
"$program" serve site $loops --turns 20 </dev/null 2>said
status=$?
if [ "$status" = 6 ]; then ok; else bad "the end of standard input: status $status"; fi

# ---- descriptors 0 to 2 that are closed at the start, each alone and together: nothing that is opened takes their place
without() {
    local number
    for number in $1; do
        eval "exec $number>&-"
    done
    exec "$program" "${@:2}"
}
printf 'GET /open HTTP/1.1\r\nHost: a.example\r\nConnection: close\r\n\r\n' >request
for closed in 0 1 2 '0 1' '0 2' '1 2' '0 1 2'; do
    site ''
    : >said
    without "$closed" serve site $loops </dev/null >out 2>said &
    server=$!
    plays answers 10
    plays streams
    end_server
    (without "$closed" once site <request >out 2>said)
    status=$?
    case $closed in
        2) if [ "$status" = 0 ] && head -n 1 out | grep -q '^HTTP/1.1 200 OK' && ! grep -Eq '/site|socket|anon_inode' out; then ok; else bad "once without 2: status $status, $(cat out)"; fi ;;
        *) if [ "$status" = 0 ] && [ ! -s out ] && [ ! -s said ]; then ok; else bad "once without $closed: status $status, $(cat out said)"; fi ;;
    esac
    (without "$closed" check site </dev/null >out 2>said)
    status=$?
    case $closed in
        *1*) wanted='7 ' ;;
        *) wanted='0 ok: 16 scripts' ;;
    esac
    same "check without $closed" "$status $(cat out)" "$wanted"
done

# ---- a port that is taken
site ''
serve
"$program" serve site $loops </dev/null >again 2>&1
status=$?
if [ "$status" = 5 ] && [ "$(tail -n 1 again)" = 'cgihost: could not begin' ]; then ok; else bad "a port that is taken: status $status, $(cat again)"; fi
plays kept
# Once it has ended the port is free again, though its connections are hardly closed.
echo stop >&9
ends 'stop' 0 2
serve
plays kept
end_server

# ---- 10,000 requests leave nothing behind, once as many programs at once have run as there are threads kept
site 'connections = 1024
children = 256'
serve
requests() {
    if command -v ab >/dev/null; then
        ab -q -n "$1" -c "$2" -s 20 ${3:-} "$url/hi" >abbed 2>&1
        if grep -q '^Failed requests: *0$' abbed && ! grep -q '^Non-2xx' abbed && grep -q "^Complete requests: *$1\$" abbed; then
            ok
        else
            bad "ab: $(grep -E 'Failed|Non-2xx|Complete|apr_' abbed | tr '\n' ' ')"
        fi
    else
        plays load "$1" "$2"
    fi
}
url=http://127.0.0.1:$port
plays crowd /nap 200 200
requests 1000 64
requests 1000 64 -k
sleep 1
threads=$(entries task)
descriptors=$(entries fd)
memory=$(memory)
requests 5000 8
requests 5000 64 -k
sleep 1
if [ "$(children)" = 0 ]; then ok; else bad "10,000 requests: $(children) programs are left"; fi
# What reads the orders, and each loop with so many threads that wait for a program.
of=${loops:-1}
if [ "$(entries task)" -le $((65 * ${of##* } + 1)) ]; then ok; else bad "10,000 requests: $threads threads became $(entries task)"; fi
if [ "$(entries fd)" -le "$descriptors" ]; then ok; else bad "10,000 requests: $descriptors descriptors became $(entries fd)"; fi
if [ "$(memory)" -le $((memory + 1024)) ]; then ok; else bad "10,000 requests: $memory KiB became $(memory)"; fi
rests 'after 10,000 requests'
end_server

wait "$late"
if [ -e late/given_up ]; then ok; else bad 'a client that takes nothing of what is left for it'; fi

count

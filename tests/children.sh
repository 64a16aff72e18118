#!/usr/bin/env bash
# Drives the built program with children that are hard on a host: they write and never read, read slowly, close their
# output and live on, leave a grandchild behind, or are killed. In each case no process of the server's is left, running
# or as a zombie, and it has no more threads, descriptors and memory at once than one child needs.
. "$(dirname "$0")/common.sh"
command -v python3 >/dev/null || {
    echo 'skipped: no python3'
    exit 0
}
watch=$root/tests/watch.py

script() {
    printf '#!/bin/sh\n%s\n' "$2" >"$1"
    chmod +x "$1"
}

printf 'GET /x HTTP/1.1\r\nHost: a\r\nConnection: close\r\n\r\n' >request

# What may be kept of an output, 16 MiB, and 4 MiB, in KiB.
most_memory=$(((16 + 4) * 1024))

# Three streams and two pipes, of which a start has both ends for a moment, and the folder that is looked at; and what
# each of the three threads waits by, a poll and what ends its wait.
most_descriptors=14

# The loop, the pump of standard input, and the two of a child.
most_threads=4

# Runs a command and watches it, on the request; keeps what was written.
watched() {
    python3 "$watch" seen 60 "$@" <request >out 2>err
    read -r status threads descriptors memory left <seen
    none_dropped err
}

run() {
    watched "$program" once "/x=$folder/$1"
}

# What the server used, and that it left nothing but perhaps processes of this name, which are not its own children.
used() {
    local name=$1 other=${2:-}
    local own=$left
    [ -z "$other" ] || own=$(printf '%s\n' $left | grep -vx "$other")
    if [ -n "$own" ]; then bad "$name: left $own"; else ok; fi
    if [ "$threads" -le "$most_threads" ]; then ok; else bad "$name: $threads threads"; fi
    if [ "$descriptors" -le "$most_descriptors" ]; then ok; else bad "$name: $descriptors descriptors"; fi
    if [ "$memory" -lt "$most_memory" ]; then ok; else bad "$name: $memory KiB of memory"; fi
}

# The first line of what was written, and the status.
gave() {
    local name=$1 first=$2
    if [ "$status" != 0 ]; then
        bad "$name: status $status"
    elif [ "$(head -n 1 out | tr -d '\r')" != "$first" ]; then
        bad "$name: wrote $(head -c 200 out)"
    else
        ok
    fi
}

# ---- 64 MiB, more than the limit of 16 MiB: the reply is streamed, and is cut off by the piece of at most 65,536 bytes
# with which the output passes its limit, so without an end mark
script much 'printf "Content-Type: text/plain\n\n"
exec head -c 67108864 /dev/zero'
run much
gave '64 MiB' 'HTTP/1.1 200 OK'
if python3 - <<'END'; then ok; else bad '64 MiB: the reply is not one that was cut off'; fi
head, rest = open("out", "rb").read().split(b"\r\n\r\n", 1)
assert b"Transfer-Encoding: chunked" in head
count = 0
while rest:
    line, rest = rest.split(b"\r\n", 1)
    size = int(line, 16)
    assert size > 0 and rest[:size] == bytes(size) and rest[size : size + 2] == b"\r\n"
    count, rest = count + size, rest[size + 2 :]
limit = 16777216 - len("Content-Type: text/plain\n\n")
assert limit - 65536 < count <= limit, count
END
used '64 MiB'

# ---- a program that reads nothing and writes
script deaf 'printf "Content-Type: text/plain\n\nhi\n"'
run deaf
gave 'a program that reads nothing' 'HTTP/1.1 200 OK'
used 'a program that reads nothing'

# ---- one that reads slowly
script slow 'sleep 0.3
cat >/dev/null
sleep 0.3
printf "Content-Type: text/plain\n\nhi\n"'
run slow
gave 'a program that reads slowly' 'HTTP/1.1 200 OK'
used 'a program that reads slowly'

# ---- one that closes its output and lives on: it is waited for
script lingers 'printf "Content-Type: text/plain\n\nhi\n"
exec >&-
sleep 1'
begun=$(date +%s%N)
run lingers
took=$((($(date +%s%N) - begun) / 1000000))
gave 'a program that closes its output and lives on' 'HTTP/1.1 200 OK'
if [ "$took" -ge 900 ]; then ok; else bad "it was not waited for: $took ms"; fi
used 'a program that closes its output and lives on'

# ---- one that leaves a grandchild with its pipe open: its output ends with the grandchild, which is not the server's
script leaves 'printf "Content-Type: text/plain\n\nhi\n"
sleep 1 &
exit 0'
begun=$(date +%s%N)
run leaves
took=$((($(date +%s%N) - begun) / 1000000))
gave 'a grandchild with the pipe open' 'HTTP/1.1 200 OK'
if [ "$took" -ge 900 ]; then ok; else bad "its output ended before it: $took ms"; fi
used 'a grandchild with the pipe open' sleep

# ---- one that kills itself, and one that is killed from outside: what they wrote stands
script killed 'printf "Content-Type: text/plain\n\nhi\n"
kill -KILL $$'
run killed
gave 'a program that kills itself' 'HTTP/1.1 200 OK'
used 'a program that kills itself'

script victim 'printf "Content-Type: text/plain\n\nhi\n"
echo $$ >victim.pid
exec sleep 30'
kill_victim() {
    local _
    for _ in $(seq 500); do
        [ -s victim.pid ] && break
        sleep 0.01
    done
    kill -KILL "$(cat victim.pid)"
}
kill_victim &
begun=$(date +%s%N)
run victim
wait $!
took=$((($(date +%s%N) - begun) / 1000000))
gave 'a program that is killed from outside' 'HTTP/1.1 200 OK'
if [ "$took" -lt 20000 ]; then ok; else bad "it was not killed: $took ms"; fi
used 'a program that is killed from outside'

# ---- 200 runs one after the other, and 16 at once
script small 'printf "Content-Type: text/plain\n\nhi\n"'
script serial 'for at in $(seq 200); do
    "$1" once "/x=$2" <request || exit
done'
watched ./serial "$program" "$folder/small"
good=$(grep -cx hi out)
if [ "$status" = 0 ] && [ "$good" = 200 ]; then ok; else bad "200 runs: status $status, $good were answered"; fi
if [ -z "$left" ]; then ok; else bad "200 runs: left $left"; fi

script parallel 'for at in $(seq 16); do
    "$1" once "/x=$2" <request >"out.$at" &
done
wait'
watched ./parallel "$program" "$folder/small"
good=$(cat out.* | grep -cx hi)
if [ "$status" = 0 ] && [ "$good" = 16 ]; then ok; else bad "16 at once: status $status, $good were answered"; fi
if [ -z "$left" ]; then ok; else bad "16 at once: left $left"; fi

count

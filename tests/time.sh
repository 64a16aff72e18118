#!/usr/bin/env bash
# Drives the built server where time and room are short: limits beside programs that never pause, clients beyond its
# slots, and the order to drain. It listens on free ports of 127.0.0.1, and each server that is started here is ended
# here.
. "$(dirname "$0")/common.sh"
. "$root/tests/server.sh"
client=$root/tests/clock.py
loops=${LOOPS:-}

script hi 'printf "Content-Type: text/plain\n\nhi\n"'
script peer 'printf "Content-Type: text/plain\n\n%s\n" "$REMOTE_ADDR"'
script streams 'printf "Content-Type: text/plain\n\n"
exec yes "a line of an endless stream"'
script sleeps 'exec sleep 60'
script naps 'printf "Content-Type: text/plain\n\n"
sleep "$QUERY_STRING"
echo done'
script long 'printf "Content-Type: application/octet-stream\n\n"
exec head -c 8000000 /dev/zero'
script outlives "cat >/dev/null
sleep 0.7
echo over >>'$folder/outlived'"

# A site with these limits.
site() {
    port=$(free_port)
    {
        printf 'version = 1\nname = "a.example"\nport = %s\n\n[limits]\n%s\n' "$port" "$1"
        for name in hi peer streams sleeps naps long; do
            printf '\n[[script]]\npath = "/%s"\nprogram = "%s/%s"\n' "$name" "$folder" "$name"
        done
        printf '\n[[script]]\npath = "/outlives"\nprogram = "%s/outlives"\nkind = "websocket"\n' "$folder"
    } >site
}

# ---- a client that reads little, and still reads, is not given up: this goes on beside the rest
mkdir late
(
    cd late || exit
    site ''
    start $loops
    plays slow_reader 8000000
    end_server
    [ "$failed" = 0 ] && touch read_all
) &
late=$!

# ---- limits hold beside programs that always have more to tell, and so does a stop
site 'run_ticks = 30
idle_ticks = 30'
start $loops
plays limit 3
plays stopped "$server" 3
end_server

# ---- ordinary clients beside them; dates and addresses
site ''
start $loops
plays beside
plays date
plays peers
plays outlives "$folder/outlived"
end_server

# ---- slots
site 'connections = 3'
start
plays room 3
plays lingering 3
end_server

# ---- the order to drain
site ''
start $loops
plays drained "$folder"
ends 'drain' 0 10

wait "$late"
if [ -e late/read_all ]; then ok; else bad 'a client that reads slowly'; fi
count

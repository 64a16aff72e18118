#!/usr/bin/env bash
# Drives the WebSockets of the built server: with a client of its own, and with Python's `websockets` where that is
# installed. It listens on free ports of 127.0.0.1, and each server that is started here is ended here.
. "$(dirname "$0")/common.sh"
. "$root/tests/server.sh"
client=$root/tests/talker.py
loops=${LOOPS:-}

script lines 'printf "one\r\n\ntwo words\nlast"'
script endless 'exec head -c 70000 /dev/zero'
script empty 'exec yes ""'
script pid 'echo $$
exec cat'
script stays 'echo $$
exec sleep 60'
script many '#!/usr/bin/env python3
import sys
for at in range(8192):
    sys.stdout.write("%07d" % at + "y" * 1016 + "\n")'

site() {
    port=$(free_port)
    {
        printf 'version = 1\nname = "a.example"\nport = %s\n' "$port"
        printf '\n[[script]]\npath = "/cat"\nprogram = "/bin/cat"\nkind = "websocket"\n'
        for name in lines endless empty pid stays many; do
            printf '\n[[script]]\npath = "/%s"\nprogram = "%s/%s"\nkind = "websocket"\n' "$name" "$folder" "$name"
        done
        printf '\n[[script]]\npath = "/picky"\nprogram = "/bin/cat"\nkind = "websocket"\norigins = ["http://a.example"]\n'
    } >site
}

site
start $loops
plays sample
plays at_once
plays refused
plays lines
plays fragments
plays ends
plays gone
plays cut_off
plays unread 65536
plays unread 262144
plays full_speed 20000 100
plays full_speed 2000 16000
plays late_reader
before=$(memory)
plays empty_lines
after=$(memory)
if [ "$after" -lt $((before + 16384)) ]; then ok; else bad "empty lines: $before kB before, $after behind"; fi
plays rounds 50 100
sleep 1
if [ "$(children)" = 0 ]; then ok; else bad "$(children) programs are left"; fi
rests 'behind the talks'
if /usr/bin/python3 -c 'import websockets' 2>/dev/null; then
    /usr/bin/python3 - "$port" >said_by_it 2>&1 <<'END'
import asyncio
import sys

import websockets


async def talk():
    async with websockets.connect(f"ws://127.0.0.1:{sys.argv[1]}/cat") as it:
        for at in range(1000):
            await it.send(f"message {at}")
        print(all([await it.recv() == f"message {at}" for at in range(1000)]))


asyncio.run(asyncio.wait_for(talk(), 60))
END
    if [ "$(cat said_by_it)" = True ]; then ok; else bad "websockets: $(tail -n 1 said_by_it)"; fi
else
    echo 'skipped: no python3-websockets'
fi
end_server

# ---- the end while a talk is under way
site
start $loops
{ timeout 60 python3 "$client" at_stop "$port" 2>wrong && touch stopped; } >&9
if [ -e stopped ]; then ok; else bad "stop with a talk under way: $(tail -n 1 wrong)"; fi
ends 'stop with a talk under way' 0 10

count

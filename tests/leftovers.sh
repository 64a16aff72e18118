#!/usr/bin/env bash
# Drives the built server with scripts that leave other programs behind, which hold their pipes: a shell that runs a
# program without exec does, where it is killed. After each case another script is answered, and the server has no child,
# running or as a zombie, and no more threads, descriptors and memory than before. What is left behind can't be ended by
# the server, so it is ended here. It listens on free ports of 127.0.0.1.
. "$(dirname "$0")/common.sh"
. "$root/tests/server.sh"
talker=$root/tests/talker.py
loops=${LOOPS:-}

# Programs that work in this folder are those of the scripts, and no other.
mkdir cgi
echo first >followed

left() {
    find /proc/[0-9]*/cwd -maxdepth 0 -lname "$folder/cgi" 2>/dev/null | cut -d/ -f3
}
end_left() {
    local pids
    pids=$(left)
    # shellcheck disable=SC2086
    [ -z "$pids" ] || kill -KILL $pids 2>/dev/null
}
trap 'end_server; end_left; rm -rf "$folder"' EXIT

head='printf "Content-Type: text/plain\n\n"'
script cgi/hi "$head
echo hi"
script cgi/nap "$head
sleep 1
echo up"
script cgi/sleeps "$head
sleep 30
echo up"
script cgi/silent 'sleep 30
echo up'
script cgi/follows "$head
tail -f $folder/followed
echo end"
script cgi/chatters "$head
sh -c 'while :; do echo more; sleep 0.1; done
echo end'
echo end"
script cgi/shuts "$head
exec >&-
sleep 30
echo end"
script cgi/deaf "$head
sleep 1
echo end"
script cgi/tails "tail -f $folder/followed
echo end"

site() {
    port=$(free_port)
    {
        printf 'version = 1\nname = "a.example"\nport = %s\n\n[limits]\n%s\n' "$port" "$1"
        for name in hi nap sleeps silent follows chatters shuts deaf; do
            printf '\n[[script]]\npath = "/%s"\nprogram = "%s/cgi/%s"\n' "$name" "$folder" "$name"
        done
        printf '\n[[script]]\npath = "/tails"\nprogram = "%s/cgi/tails"\nkind = "websocket"\n' "$folder"
    } >site
}

# What the server may have once its threads have worked, whichever loop has them.
noted() {
    local of=${loops:-1}
    plays crowd /nap 200 200
    plays answers 10
    sleep 1
    most_threads=$((65 * ${of##* } + 1))
    most_descriptors=$(($(entries fd) + 2 * (most_threads - $(entries task))))
    memory=$(memory)
}

is_back() {
    [ "$(children)" = 0 ] && [ "$(entries task)" -le "$most_threads" ] &&
        [ "$(entries fd)" -le "$most_descriptors" ] && [ "$(memory)" -le "$most_memory" ]
}

# Another script is answered, and within some seconds the server has what it had before the case, but for so many KiB:
# where many had much at once, the C library keeps what lies between what is still used.
back() {
    local name=$1 _
    most_memory=$((memory + ${2:-4096}))
    plays answers 10
    for _ in $(seq 200); do
        is_back && break
        sleep 0.05
    done
    if is_back; then
        ok
    else
        bad "$name: $(children) children, $(entries task) threads of $most_threads, $(entries fd) descriptors of $most_descriptors, $(memory) KiB of $most_memory"
    fi
    memory=$(memory)
}

# At least so many programs were left behind.
leaves() {
    local count
    count=$(left | wc -l)
    if [ "$count" -ge "$2" ]; then ok; else bad "$1: $count programs were left behind"; fi
}

# What was left behind and writes has ended, within some seconds.
none_left() {
    local _
    for _ in $(seq 200); do
        [ -z "$(left)" ] && break
        sleep 0.05
    done
    if [ -z "$(left)" ]; then ok; else bad "$1: $(left | wc -l) that write are left"; fi
    end_left
}

site 'connections = 1024
children = 256
linger_ticks = 5'
start $loops
noted

# ---- clients that hang up
plays resets /sleeps 200
back 'scripts that sleep, reset'
plays resets /sleeps 200 begun
leaves 'scripts that sleep, reset once they have begun' 1
back 'scripts that sleep, reset once they have begun'
end_left
plays resets /follows 200
back 'scripts that follow a file, reset'
plays resets /follows 200 begun
back 'scripts that follow a file, reset once they have begun'
echo more >>followed
none_left 'scripts that follow a file'
plays resets /chatters 200 begun
back 'scripts whose programs write, reset'
none_left 'scripts whose programs write'

# ---- WebSockets
echo first >followed
client=$talker
plays come_and_go /tails 150
client=$root/tests/client.py
back 'WebSockets that follow a file' 16384
echo more >>followed
none_left 'WebSockets that follow a file'

# ---- scripts that close their output and live, and that ignore their input
plays crowd /shuts 100 200
leaves 'scripts that close their output and live' 1
back 'scripts that close their output and live'
end_left
# The bodies of the first time have the server's memory grow to what they take.
plays unread /shuts 100
memory=$(memory)
end_left
plays unread /shuts 100
back 'scripts that close their output, ignore their input and live' 16384
end_left
plays unread /deaf 100
back 'scripts that ignore their input' 16384
end_left

# ---- programs that are killed while they start, and 500 clients that come and are gone
plays kills "$server" 300
back 'programs killed from outside'
plays storm /sleeps 500
back '500 starts and stops at once' 16384
end_left
plays crowd /nap 200 200
back 'after all these'
rests 'after all these'

# ---- the end, while what was left behind holds pipes
plays resets /sleeps 50 begun
echo stop >&9
ends 'stop with what was left behind' 0 10
end_left

# ---- scripts that run longer than they may
site 'connections = 1024
children = 256
run_ticks = 15'
start $loops
noted
plays crowd /silent 200 504
leaves 'scripts that took too long' 1
back 'scripts that took too long'
end_left
plays resets /sleeps 200
back 'scripts that took too long, reset'
end_left
end_server

# ---- one program at a time, after so many that left others behind
site 'children = 1'
start $loops
for _ in $(seq 5); do
    plays resets /sleeps 25
    plays answers 10
done
leaves 'one program at a time' 1
end_server

count

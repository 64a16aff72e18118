# What the scripts have in common that drive the built server. Each names this file behind common.sh.
command -v python3 >/dev/null || {
    echo 'skipped: no python3'
    exit 0
}
client=$root/tests/client.py
server=
trap 'end_server; rm -rf "$folder"' EXIT

# A program in sh, or in what its first line says.
script() {
    case $2 in
        '#!'*) printf '%s\n' "$2" >"$1" ;;
        *) printf '#!/bin/sh\n%s\n' "$2" >"$1" ;;
    esac
    chmod +x "$1"
}

free_port() {
    python3 -c 'import socket
it = socket.socket()
it.bind(("127.0.0.1", 0))
print(it.getsockname()[1])'
}

# Ends the server, if one runs: by its order, where it hears one, so that it says what it dropped.
end_server() {
    local _
    if [ -n "$server" ]; then
        if (echo stop >&9); then
            for _ in $(seq 100); do
                kill -0 "$server" || break
                sleep 0.02
            done
        fi
        kill -KILL "$server"
        wait "$server"
        none_dropped said
    fi 2>/dev/null
    exec 9>&-
    server=
}

# Starts the server on the site file `site` with these words, and waits until it listens. Its orders are what is
# written to descriptor 9.
start() {
    rm -f orders
    : >said
    mkfifo orders
    "$program" serve site "$@" <orders >out 2>said &
    server=$!
    exec 9>orders
    local _
    for _ in $(seq 500); do
        grep -q listening said && return
        kill -0 "$server" 2>/dev/null || break
        sleep 0.02
    done
    bad "the server doesn't listen: $(cat said)"
}

# The server ends by itself, within so many seconds and with a status.
ends() {
    local name=$1 wanted=$2 seconds=$3 status _
    for _ in $(seq $((seconds * 50))); do
        kill -0 "$server" 2>/dev/null || break
        sleep 0.02
    done
    if kill -0 "$server" 2>/dev/null; then
        bad "$name: it still runs after $seconds s"
        kill -KILL "$server"
        wait "$server" 2>/dev/null
        status=$wanted
    else
        wait "$server"
        status=$?
    fi
    server=
    exec 9>&-
    if [ "$status" = "$wanted" ]; then ok; else bad "$name: status $status, said $(cat said)"; fi
    none_dropped said
}

# Plays a case of the client's.
plays() {
    if timeout 100 python3 "$client" "$1" "$port" "${@:2}" 2>wrong; then
        ok
    else
        bad "$*: $(tail -n 1 wrong)"
    fi
}

# How many entries of a folder of the server's in /proc there are.
entries() {
    ls "/proc/$server/$1" | wc -l
}

# The server's own children, running or not waited for.
children() {
    cat /proc/"$server"/task/*/children 2>/dev/null | tr ' ' '\n' | grep -c .
}

# How often its threads have been switched to, and the hundredths of a second that they have run.
switches() {
    awk '/ctxt_switches/ { sum += $2 } END { print sum }' /proc/"$server"/task/*/status
}
ran() {
    awk '{ print $14 + $15 }' "/proc/$server/stat"
}

# How often its first thread has gone to sleep.
sleeps() {
    awk '/^voluntary/ { print $2 }' "/proc/$server/task/$server/status"
}

memory() {
    awk '/VmRSS/ { print $2 }' "/proc/$server/status"
}

# For two seconds the server is woken some ten times a second for each of its loops and for a tick of what it waits
# for, and no more.
rests() {
    local name=$1 of=${loops:-1} most=${2:-50} before begun
    most=$((most * ${of##* }))
    before=$(switches)
    begun=$(ran)
    sleep 2
    before=$(($(switches) - before))
    begun=$(($(ran) - begun))
    if [ "$before" -le "$most" ]; then ok; else bad "$name: $before switches in 2 s"; fi
    if [ "$begun" -le 5 ]; then ok; else bad "$name: it ran $begun hundredths of a second in 2 s"; fi
}

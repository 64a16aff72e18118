#!/usr/bin/env bash
# Prints what the access log costs: requests a second without `--log` and with it, and the server's own processor time for a
# request, in microseconds, side by side in the same run, with how many per cent the one is less and the other more, and by how
# many two servers without a log differ, which is what the numbers are worth; for a small static program and for a path of no
# script, which starts nothing, each for 8 clients on kept connections, with one loop and with four. The three servers run
# beside each other the whole time, and are measured in turn, for SECONDS_EACH seconds (2), in ROUNDS rounds (9); the median of
# the rounds' quotients counts. It says also how many lines were dropped, and how much memory a server without a log and the one
# with it had at their end. The aim: less than 3 % of the requests to programs.
. "$(dirname "$0")/../common.sh"
. "$root/tests/server.sh"
for tool in wrk cc; do
    command -v "$tool" >/dev/null || {
        echo "log.sh: skipped, there is no $tool"
        exit 0
    }
done
seconds=${SECONDS_EACH:-2}
rounds=${ROUNDS:-9}
cat >small.c <<'END'
#include <unistd.h>
int main(void) { return write(1, "Content-Type: text/plain\n\nhi\n", 29) != 29; }
END
cc -O2 -static -o small small.c

# A server on a port of its own, whose orders are written to this descriptor.
serves() {
    local descriptor=$1 loops=$2 port
    shift 2
    port=$(free_port)
    printf 'version = 1\nport = %s\n\n[limits]\nchildren = 256\n\n[[script]]\npath = "/small"\nprogram = "%s/small"\n' "$port" "$folder" >"site.$port"
    mkfifo "orders.$port"
    "$program" serve "site.$port" --loops "$loops" "$@" <"orders.$port" 2>"said.$port" &
    eval "exec $descriptor>orders.$port"
    for _ in $(seq 500); do
        grep -q listening "said.$port" && break
        sleep 0.02
    done
    served=$!:$port
}
# Of the server PID:PORT, the requests a second and the microseconds of its processor time for each.
rate() {
    local pid=${1%%:*} before
    before=$(awk '{ print $14 + $15 }' "/proc/$pid/stat")
    wrk -t 2 -c 8 -d "$seconds" "http://127.0.0.1:${1#*:}" >wrk.out
    awk -v before="$before" -v ticks="$(getconf CLK_TCK)" '
        FILENAME == "wrk.out" && / requests in / { count = $1 }
        FILENAME == "wrk.out" && /^Requests\/sec/ { rate = $2 }
        FILENAME != "wrk.out" { print rate, ($14 + $15 - before) / ticks * 1e6 / count }' wrk.out "/proc/$pid/stat"
}

# By how many per cent one column of the rounds is less than another: the row of the median.
median() {
    awk -v a="$1" -v b="$2" '{ print $a, $b, 100 * (1 - $b / $a) }' rounds | sort -g -k 3 | awk -v rounds="$rounds" 'NR == int((rounds + 1) / 2)'
}

printf '%-16s %31s   %31s\n' '' 'requests a second' 'microseconds a request'
printf '%-16s %8s %8s %7s %5s   %8s %8s %7s %5s\n' '' without with 'less %' noise without with 'more %' noise
for loops in 1 4; do
    rm -f log
    serves 7 "$loops"
    one=$served
    serves 8 "$loops"
    other=$served
    serves 9 "$loops" --log log
    logged=$served
    for path in /small /none; do
        for server in $one $other $logged; do
            rate "$server$path" >/dev/null
        done
        for round in $(seq "$rounds"); do
            # The order changes from round to round.
            case $((round % 3)) in
                0) a=$(rate "$one$path") b=$(rate "$other$path") c=$(rate "$logged$path") ;;
                1) c=$(rate "$logged$path") a=$(rate "$one$path") b=$(rate "$other$path") ;;
                2) b=$(rate "$other$path") c=$(rate "$logged$path") a=$(rate "$one$path") ;;
            esac
            echo "$a $b $c"
        done >rounds
        {
            median 1 5
            median 1 3
            median 2 6
            median 2 4
        } | awk -v name="$path, loops $loops" '
            { first[NR] = $1; second[NR] = $2; less[NR] = $3 }
            END {
                printf "%-16s %8.0f %8.0f %7.1f %5.1f   ", name, first[1], second[1], less[1], less[2]
                printf "%8.1f %8.1f %7.1f %5.1f\n", first[3], second[3], -less[3], -less[4]
            }'
    done
    for server in $one $logged; do awk '/VmRSS/ { printf "%s ", $2 }' "/proc/${server%%:*}/status"; done >memory
    for descriptor in 7 8 9; do eval "echo stop >&$descriptor; exec $descriptor>&-"; done
    wait
    awk -v loops="$loops" -v memory="$(cat memory)" 'match($0, / dropped=[0-9]+$/) { dropped += substr($0, RSTART + 9) }
        END { printf "loops %d: %d lines, %d dropped; kB of memory without and with: %s\n", loops, NR, dropped, memory }' log
done

#!/usr/bin/env bash
# Prints how fast the built server is, side by side in one run with lighttpd and its mod_cgi where that is installed, with
# the least server that there can be, and with a bare loop of spawn, read to the end and wait, which has no network and as
# many threads as there are clients: small static programs a second for 1, 8 and 64 clients, on a new connection each and
# on kept ones; MB/s of replies of 8 MiB, and of 1 MiB sent and echoed; how late the lines of a program are at the client
# once its reply has begun; and messages a second to /bin/cat and back, over 1 and 50 WebSockets with one message under way
# and over 50 with 32, beside websocketd where that is installed. A second table, in the same run, has as many busy processes
# as processors beside, which are started and ended here, and nothing goes before them: small programs and scripts of sh for
# 8 and 64 clients, one client on a kept connection, and WebSockets a second from their handshake to the first message there
# and back, beside bare starts. At last stands what processor time a server takes by itself while 64 programs live on behind
# their output.
#
# The aims: 1.4 times lighttpd with one loop and 1.8 with four, in the mean of the six rows of small programs, which is printed
# behind them (single rows miss them: with one client the bare loop itself, which has no network, makes 1.6 to 1.7 times as
# many as lighttpd); 0.75 of the bare loop for 8 clients on kept connections with four; 0.5 of the bare copy for uploads; 2 ms
# for a line; as many messages over one WebSocket as websocketd. For 8 and 64 clients 1.6 times lighttpd with one loop, idle and
# busy, 1.4 for scripts of sh, and with four loops not less; as many WebSockets as half of the bare starts; one hundredth of a
# processor for 64 programs that live on. The least server says how much of an aim there is to be had:
# it has a thread for each of 64 connections, which does nothing but accept, read, spawn, read, wait and write, and checks
# nothing. A number of a busy machine says little. Each is measured for SECONDS_EACH seconds (3), one after the other, in
# ROUNDS rounds (3), of which the median counts.
. "$(dirname "$0")/../common.sh"
. "$root/tests/server.sh"
for tool in wrk cc; do
    command -v "$tool" >/dev/null || {
        echo "serve.sh: skipped, there is no $tool"
        exit 0
    }
done
seconds=${SECONDS_EACH:-3}
rounds=${ROUNDS:-3}
lighttpd=$(command -v lighttpd || ls /usr/sbin/lighttpd 2>/dev/null)

# ---- the programs: a small one, one that writes 8 MiB, and one that gives its input back
cat >small.c <<'END'
#include <unistd.h>
int main(void) { return write(1, "Content-Type: text/plain\n\nhi\n", 29) != 29; }
END
cat >large.c <<'END'
#include <unistd.h>
static char bytes[65536];
int main(void) {
    write(1, "Content-Type: application/octet-stream\n\n", 40);
    for (int at = 0; at < 128; at++)
        for (long sent = 0, count; sent < 65536; sent += count)
            if ((count = write(1, bytes + sent, 65536 - sent)) <= 0) return 1;
    return 0;
}
END
cat >echo.c <<'END'
#include <unistd.h>
static char bytes[65536];
int main(void) {
    write(1, "Content-Type: application/octet-stream\n\n", 40);
    for (long count; (count = read(0, bytes, 65536)) > 0;)
        for (long sent = 0, more; sent < count; sent += more)
            if ((more = write(1, bytes + sent, count - sent)) <= 0) return 1;
    return 0;
}
END

# The bare loop: THREADS threads spawn PROGRAM for SECONDS seconds, feed it BYTES bytes, read its output to the end and wait
# for it. It prints how many ran a second.
cat >bare.c <<'END'
#define _GNU_SOURCE
#include <fcntl.h>
#include <poll.h>
#include <pthread.h>
#include <spawn.h>
#include <stdio.h>
#include <stdlib.h>
#include <sys/wait.h>
#include <time.h>
#include <unistd.h>
static char *program, fed[65536];
static long bytes, total;
static double end;
static double now(void) {
    struct timespec it;
    clock_gettime(CLOCK_MONOTONIC, &it);
    return it.tv_sec + it.tv_nsec / 1e9;
}
static void once(char *got) {
    int in[2], out[2], status;
    pid_t pid;
    char *words[] = {program, NULL}, *none[] = {NULL};
    posix_spawn_file_actions_t acts;
    if (pipe2(in, O_CLOEXEC) || pipe2(out, O_CLOEXEC)) exit(1);
    posix_spawn_file_actions_init(&acts);
    posix_spawn_file_actions_adddup2(&acts, in[0], 0);
    posix_spawn_file_actions_adddup2(&acts, out[1], 1);
    if (posix_spawn(&pid, program, &acts, NULL, words, none)) exit(1);
    posix_spawn_file_actions_destroy(&acts);
    close(in[0]), close(out[1]);
    long left = bytes;
    fcntl(in[1], F_SETFL, O_NONBLOCK);
    if (!left) close(in[1]);
    for (;;) {
        struct pollfd both[2] = {{out[0], POLLIN, 0}, {left ? in[1] : -1, POLLOUT, 0}};
        if (left) poll(both, 2, -1);
        if (left && both[1].revents) {
            long count = write(in[1], fed, left < 65536 ? left : 65536);
            if (count > 0 && !(left -= count)) close(in[1]);
        }
        if (!left || both[0].revents)
            if (read(out[0], got, 65536) <= 0) break;
    }
    close(out[0]);
    waitpid(pid, &status, 0);
}
static void *many(void *none) {
    char *got = malloc(65536);
    long count = 0;
    while (now() < end) once(got), count++;
    __atomic_fetch_add(&total, count, __ATOMIC_SEQ_CST);
    return none;
}
int main(int count, char **words) {
    int threads = atoi(words[1]);
    double seconds = atof(words[2]);
    pthread_t all[64];
    (void)count;
    program = words[3], bytes = atol(words[4]), end = now() + seconds;
    for (int at = 0; at < threads; at++) pthread_create(&all[at], NULL, many, NULL);
    for (int at = 0; at < threads; at++) pthread_join(all[at], NULL);
    printf("%.1f\n", total / seconds);
}
END
# The least server: 64 threads at PORT, each of which accepts, reads a request, spawns PROGRAM, reads its output to the end,
# waits for it and writes a reply.
cat >least.c <<'END'
#define _GNU_SOURCE
#include <arpa/inet.h>
#include <fcntl.h>
#include <netinet/tcp.h>
#include <pthread.h>
#include <spawn.h>
#include <stdio.h>
#include <stdlib.h>
#include <string.h>
#include <sys/socket.h>
#include <sys/wait.h>
#include <unistd.h>
static char *program;
static int listener;
static void answer(int it, int closes) {
    char out[8192], head[256];
    char *words[] = {program, NULL}, *variables[] = {"GATEWAY_INTERFACE=CGI/1.1", NULL};
    int in[2], from[2], status;
    long total = 0, more;
    pid_t pid;
    posix_spawn_file_actions_t acts;
    if (pipe2(in, O_CLOEXEC) || pipe2(from, O_CLOEXEC)) exit(1);
    posix_spawn_file_actions_init(&acts);
    posix_spawn_file_actions_adddup2(&acts, in[0], 0);
    posix_spawn_file_actions_adddup2(&acts, from[1], 1);
    if (posix_spawn(&pid, program, &acts, NULL, words, variables)) exit(1);
    posix_spawn_file_actions_destroy(&acts);
    close(in[0]), close(in[1]), close(from[1]);
    while ((more = read(from[0], out + 256 + total, sizeof out - 256 - total)) > 0) total += more;
    close(from[0]);
    waitpid(pid, &status, 0);
    char *body = memmem(out + 256, total, "\n\n", 2);
    if (!body) exit(1);
    int length = sprintf(head, "HTTP/1.1 200 OK\r\nContent-Type: text/plain\r\nContent-Length: %ld\r\n%s\r\n",
                         total - (body + 2 - (out + 256)), closes ? "Connection: close\r\n" : "");
    memcpy(body + 2 - length, head, length);
    write(it, body + 2 - length, length + total - (body + 2 - (out + 256)));
}
static void *serve(void *none) {
    char got[8192];
    for (;;) {
        int it = accept4(listener, NULL, NULL, SOCK_CLOEXEC), one = 1, closes = 0;
        setsockopt(it, IPPROTO_TCP, TCP_NODELAY, &one, sizeof one);
        while (!closes) {
            long length = 0, more = 1;
            for (got[0] = 0; !strstr(got, "\r\n\r\n"); got[length += more] = 0)
                if ((more = read(it, got + length, sizeof got - 1 - length)) <= 0) break;
            if (more <= 0) break;
            closes = strstr(got, "Connection: close") != NULL;
            answer(it, closes);
        }
        close(it);
    }
    return none;
}
int main(int count, char **words) {
    int one = 1;
    pthread_t thread;
    struct sockaddr_in at = {.sin_family = AF_INET, .sin_port = htons(atoi(words[1]))};
    (void)count;
    at.sin_addr.s_addr = htonl(INADDR_LOOPBACK);
    program = words[2];
    listener = socket(AF_INET, SOCK_STREAM | SOCK_CLOEXEC, 0);
    setsockopt(listener, SOL_SOCKET, SO_REUSEADDR, &one, sizeof one);
    if (bind(listener, (struct sockaddr *)&at, sizeof at) || listen(listener, 1024)) return 1;
    for (int made = 0; made < 64; made++) pthread_create(&thread, NULL, serve, NULL);
    for (;;) pause();
}
END
# The client of new WebSockets: THREADS threads each make one after the other at PORT for SECONDS seconds, and break it off once
# its first message came back. It prints how many there were a second.
cat >setups.c <<'END'
#include <arpa/inet.h>
#include <netinet/tcp.h>
#include <pthread.h>
#include <stdio.h>
#include <stdlib.h>
#include <string.h>
#include <sys/socket.h>
#include <time.h>
#include <unistd.h>
static const char asked[] =
    "GET /cat HTTP/1.1\r\nHost: 127.0.0.1\r\nUpgrade: websocket\r\nConnection: Upgrade\r\n"
    "Sec-WebSocket-Version: 13\r\nSec-WebSocket-Key: dGhlIHNhbXBsZSBub25jZQ==\r\n\r\n"
    "\x81\x8f\0\0\0\0fifteen letters";
static struct sockaddr_in to;
static double end;
static long total, failed;
static double now(void) {
    struct timespec it;
    clock_gettime(CLOCK_MONOTONIC, &it);
    return it.tv_sec + it.tv_nsec / 1e9;
}
static int once(void) {
    char got[4096];
    int one = 1, it = socket(AF_INET, SOCK_STREAM, 0);
    long length = 0, more = 1;
    struct linger broken = {1, 0};
    struct timeval most = {20, 0};
    setsockopt(it, IPPROTO_TCP, TCP_NODELAY, &one, sizeof one);
    setsockopt(it, SOL_SOCKET, SO_RCVTIMEO, &most, sizeof most);
    if (connect(it, (struct sockaddr *)&to, sizeof to) || write(it, asked, sizeof asked - 1) < 0) more = 0;
    // What comes last is a frame with the text.
    while (more > 0 && !(length > 15 && !memcmp(got + length - 15, "fifteen letters", 15)))
        if ((more = read(it, got + length, sizeof got - length)) > 0) length += more;
    setsockopt(it, SOL_SOCKET, SO_LINGER, &broken, sizeof broken);
    close(it);
    return more > 0;
}
static void *many(void *none) {
    while (now() < end)
        if (once()) __atomic_fetch_add(&total, 1, __ATOMIC_SEQ_CST);
        else __atomic_fetch_add(&failed, 1, __ATOMIC_SEQ_CST);
    return none;
}
int main(int count, char **words) {
    int threads = atoi(words[2]);
    double seconds = atof(words[3]);
    pthread_t all[64];
    (void)count;
    to.sin_family = AF_INET, to.sin_port = htons(atoi(words[1])), to.sin_addr.s_addr = htonl(INADDR_LOOPBACK);
    end = now() + seconds;
    for (int at = 0; at < threads; at++) pthread_create(&all[at], NULL, many, NULL);
    for (int at = 0; at < threads; at++) pthread_join(all[at], NULL);
    printf("%.1f\n", total / seconds);
    if (failed) fprintf(stderr, "serve.sh: %ld new WebSockets failed\n", failed);
}
END
# The WebSocket client: over SOCKETS sockets to PORT, each with so many messages of 15 bytes UNDER_WAY, for SECONDS seconds.
# It prints how many messages came back a second. Those that came back together are followed by as many in one write.
cat >talk.c <<'END'
#include <arpa/inet.h>
#include <netinet/tcp.h>
#include <poll.h>
#include <stdio.h>
#include <stdlib.h>
#include <string.h>
#include <sys/socket.h>
#include <time.h>
#include <unistd.h>
static const char asked[] =
    "GET /cat HTTP/1.1\r\nHost: 127.0.0.1\r\nUpgrade: websocket\r\nConnection: Upgrade\r\n"
    "Sec-WebSocket-Version: 13\r\nSec-WebSocket-Key: dGhlIHNhbXBsZSBub25jZQ==\r\n\r\n";
static const char frame[] = "\x81\x8f\0\0\0\0fifteen letters";
static double now(void) {
    struct timespec it;
    clock_gettime(CLOCK_MONOTONIC, &it);
    return it.tv_sec + it.tv_nsec / 1e9;
}
int main(int count, char **words) {
    int sockets = atoi(words[2]), under_way = atoi(words[4]), at;
    double seconds = atof(words[3]), end;
    long heard[64] = {0}, total = 0;
    static char frames[64 * 21];
    struct pollfd all[64];
    (void)count;
    for (at = 0; at < sockets; at++) {
        struct sockaddr_in to = {.sin_family = AF_INET, .sin_port = htons(atoi(words[1]))};
        char head[4096] = "";
        int one = 1, it = socket(AF_INET, SOCK_STREAM, 0);
        to.sin_addr.s_addr = htonl(INADDR_LOOPBACK);
        if (connect(it, (struct sockaddr *)&to, sizeof to)) return 1;
        setsockopt(it, IPPROTO_TCP, TCP_NODELAY, &one, sizeof one);
        if (write(it, asked, sizeof asked - 1) < 0) return 1;
        for (long length = 0, more; !strstr(head, "\r\n\r\n"); length += more)
            if ((more = read(it, head + length, 1)) <= 0 || length > 4000) return 1;
        all[at] = (struct pollfd){it, POLLIN, 0};
    }
    end = now() + seconds;
    for (at = 0; at < 64; at++) memcpy(frames + at * 21, frame, 21);
    for (at = 0; at < sockets; at++)
        if (write(all[at].fd, frames, under_way * 21) != under_way * 21) return 1;
    while (now() < end) {
        if (poll(all, sockets, 1000) <= 0) return 1;
        for (at = 0; at < sockets; at++) {
            char got[64 * 17];
            long more = all[at].revents ? read(all[at].fd, got, sizeof got) : 0, whole;
            if (all[at].revents && more <= 0) return 1;
            // A message that comes back is 17 bytes long.
            heard[at] += more;
            whole = heard[at] / 17;
            heard[at] %= 17;
            total += whole;
            if (whole && write(all[at].fd, frames, whole * 21) != whole * 21) return 1;
        }
    }
    printf("%.1f\n", total / seconds);
}
END
mkdir cgi
for name in small large echo; do
    cc -O2 -static -w -o "cgi/$name" "$name.c" 2>/dev/null || cc -O2 -w -o "cgi/$name" "$name.c"
done
cc -O2 -w -pthread -o bare bare.c
cc -O2 -w -pthread -o least least.c
cc -O2 -w -o talk talk.c
cc -O2 -w -pthread -o setups setups.c
script cgi/shell 'printf "Content-Type: text/plain\n\nhi\n"'
script lingers 'printf "Content-Type: text/plain\n\nhi\n"
exec >&-
exec sleep 50'
cat >clock <<'END'
#!/usr/bin/env python3
import sys, time
sys.stdout.write("Content-Type: text/plain\n\nbegun\n")
sys.stdout.flush()
time.sleep(0.4)
for _ in range(100):
    sys.stdout.write(f"{time.time():.6f}\n")
    sys.stdout.flush()
    time.sleep(0.01)
END
chmod +x clock
printf 'wrk.method = "POST"\nwrk.body = string.rep("x", 1048576)\n' >post.lua

. "$root/tests/bench/awake.sh"
# What is measured goes before all other work from here on, where the system allows that. Among the loops that keep the
# processors awake a program whose parent waits for its start takes several times as long to start as alone.
chrt -f -p 10 $$ >/dev/null 2>&1 || true

# ---- the servers
{
    port=$(free_port)
    printf 'version = 1\nport = %s\n\n[limits]\nconnections = 1024\nchildren = 256\nlinger_ticks = 600\n' "$port"
    for name in small large echo shell; do
        printf '\n[[script]]\npath = "/%s"\nprogram = "%s/cgi/%s"\n' "$name" "$folder" "$name"
    done
    for name in clock lingers; do
        printf '\n[[script]]\npath = "/%s"\nprogram = "%s/%s"\n' "$name" "$folder" "$name"
    done
    printf '\n[[script]]\npath = "/cat"\nprogram = "/bin/cat"\nkind = "websocket"\n'
} >site
light=$(free_port)
other=
least=$(free_port)
leasts=
busy=
{
    printf 'server.document-root = "%s/cgi"\nserver.bind = "127.0.0.1"\nserver.port = %s\n' "$folder" "$light"
    printf 'server.modules = ("mod_cgi")\ncgi.assign = ("" => "")\nserver.max-keep-alive-requests = 1000000\n'
    printf 'server.upload-dirs = ("%s")\nserver.errorlog = "%s/light.log"\n' "$folder" "$folder"
} >light.conf
talked=
trap 'end_server; kill $leasts $other $talked $busy 2>/dev/null; rm -rf "$folder"' EXIT
[ -n "$lighttpd" ] || echo 'serve.sh: there is no lighttpd'

# Starts lighttpd anew, where it is installed: it forks for each program, which takes longer once it has held large bodies.
start_lighttpd() {
    [ -n "$lighttpd" ] || return 0
    [ -z "$other" ] || { kill "$other"; wait "$other"; } 2>/dev/null
    "$lighttpd" -D -f light.conf >light.said 2>&1 &
    other=$!
    sleep 0.3
}

start_least() {
    [ -z "$leasts" ] || { kill "$leasts"; wait "$leasts"; } 2>/dev/null
    ./least "$least" "$folder/cgi/small" &
    leasts=$!
}
talks=$(free_port)
if command -v websocketd >/dev/null; then
    websocketd --address=127.0.0.1 --port="$talks" --loglevel=fatal /bin/cat >/dev/null 2>&1 &
    talked=$!
else
    echo 'serve.sh: there is no websocketd'
fi

# Requests a second by so many clients, for a path of the server at a port.
asked() {
    local at=$1 clients=$2 path=$3
    shift 3
    wrk -t 1 -c "$clients" -d "${seconds}s" --timeout 20s "$@" "http://127.0.0.1:$at/$path" >wrked 2>&1
    if grep -q 'Non-2xx\|Socket errors' wrked; then
        echo "serve.sh: $at /$path, $clients clients: $(grep 'Non-2xx\|Socket' wrked | tr -s ' ')" >&2
    fi
    awk '/^Requests\/sec/ { print $2 }' wrked
}

median() {
    sort -n | awk '{ all[NR] = $1 } END { print all[int((NR + 1) / 2)] }'
}

# A row: what each of the three does in a round after the other, and the ratios of the medians.
row() {
    local name=$1 clients=$2 path=$3 bytes=$4 scale=$5 unit=$6 _
    shift 6
    rm -f ours theirs bare.times least.times
    for _ in $(seq "$rounds"); do
        asked "$port" "$clients" "$path" "$@" >>ours
        [ -z "$other" ] || asked "$light" "$clients" "$path" "$@" >>theirs
        ./bare "$clients" "$seconds" "$folder/cgi/$path" "$bytes" >>bare.times
        [ "$path" != small ] || asked "$least" "$clients" "$path" "$@" >>least.times
    done
    [ -n "$other" ] || echo 0 >theirs
    [ "$path" = small ] || echo 0 >least.times
    awk -v name="$name" -v ours="$(median <ours)" -v theirs="$(median <theirs)" -v bare="$(median <bare.times)" \
        -v least="$(median <least.times)" -v scale="$scale" -v unit="$unit" 'BEGIN {
        printf "%-44s %8.0f %s, lighttpd %8.0f (%5.2f), bare %8.0f (%5.2f)", name, ours * scale, unit,
            theirs * scale, theirs ? ours / theirs : 0, bare * scale, bare ? ours / bare : 0
        if (least) printf ", least %8.0f (%5.2f; itself %5.2f of lighttpd)", least, ours / least, theirs ? least / theirs : 0
        if (theirs) print ours / theirs >>"means"
        print ""
    }'
}

# The mean of the rows behind the last one.
mean() {
    [ ! -s means ] || awk -v name="$1" '{ sum += $1 } END { printf "%s: %.2f of lighttpd\n", name, sum / NR }' means
    rm -f means
}

# Rows of a program for 8 and 64 clients.
rows_of() {
    local name=$1 path=$2 clients
    rm -f means
    for clients in 8 64; do
        row "$name, $clients clients, new connections" "$clients" "$path" 0 1 '/s' -H 'Connection: close'
        row "$name, $clients clients, kept connections" "$clients" "$path" 0 1 '/s'
    done
    mean "$name, mean of these four"
}

# A row of WebSockets that are made, by eight clients at once, beside bare starts of their program.
row_of_setups() {
    local name=$1 _
    rm -f ours theirs
    for _ in $(seq "$rounds"); do
        ./setups "$port" 8 "$seconds" >>ours
        ./bare 8 "$seconds" /bin/cat 0 >>theirs
    done
    awk -v name="$name" -v ours="$(median <ours)" -v theirs="$(median <theirs)" 'BEGIN {
        printf "%-44s %8.0f /s, bare starts %8.0f (%5.2f)\n", name, ours, theirs, theirs ? ours / theirs : 0
    }'
}

# A row of messages over so many WebSockets, with so many under way in each.
row_of_talks() {
    local name=$1 sockets=$2 under_way=$3 _
    rm -f ours theirs
    for _ in $(seq "$rounds"); do
        ./talk "$port" "$sockets" "$seconds" "$under_way" >>ours
        [ -z "$talked" ] || ./talk "$talks" "$sockets" "$seconds" "$under_way" >>theirs
    done
    [ -n "$talked" ] || echo 0 >theirs
    awk -v name="$name" -v ours="$(median <ours)" -v theirs="$(median <theirs)" 'BEGIN {
        printf "%-44s %8.0f /s, websocketd %8.0f (%5.2f)\n", name, ours, theirs, theirs ? ours / theirs : 0
    }'
}

# All rows, of a server with so many loops.
measured() {
    local loops=$1 clients
    shift
    rm -f means
    start_lighttpd
    start_least
    start "$@"
    [ "$failed" = 0 ] || return
    for clients in 1 8 64; do
        row "$loops, $clients clients, new connections" "$clients" small 0 1 '/s' -H 'Connection: close'
        row "$loops, $clients clients, kept connections" "$clients" small 0 1 '/s'
    done
    mean "$loops, mean of these six"
    rows_of "$loops, sh" shell
    row_of_setups "$loops, new WebSockets"
    for clients in 1 8; do
        row "$loops, $clients clients, replies of 8 MiB" "$clients" large 0 8.388608 'MB/s'
        row "$loops, $clients clients, 1 MiB echoed" "$clients" echo 1048576 1.048576 'MB/s' -s post.lua
    done
    python3 -c 'import sys
sys.path.insert(0, sys.argv[2])
from client import *
print("lines of a begun reply: half within %.2f ms, nine of ten within %.2f ms (aim: 2)" % lateness(int(sys.argv[1])))' \
        "$port" "$root/tests"
    for clients in 1 50; do
        row_of_talks "$loops, $clients WebSockets, messages" "$clients" 1
    done
    row_of_talks "$loops, 50 WebSockets, 32 messages under way" 50 32
    end_server
}

# The rows of a server with so many loops beside busy processes.
measured_beside() {
    local loops="busy, $1" _
    shift
    start_lighttpd
    start_least
    start "$@"
    [ "$failed" = 0 ] || return
    for _ in $(seq "$(nproc)"); do
        sh -c 'while :; do :; done' &
        busy="$busy $!"
    done
    row "$loops, 1 client, kept connections" 1 small 0 1 '/s'
    rows_of "$loops" small
    rows_of "$loops, sh" shell
    row_of_setups "$loops, new WebSockets"
    # shellcheck disable=SC2086
    { kill $busy; wait $busy; } 2>/dev/null
    busy=
    end_server
}

# The processor time that a server takes by itself, in hundredths of a processor over ten seconds.
by_itself() {
    local begun
    begun=$(ran)
    sleep 10
    echo "$begun $(ran)" | awk -v each="$(getconf CLK_TCK)" '{ printf "%.2f", ($2 - $1) / each * 10 }'
}

# .. without a program, and with 64 that live on behind their output.
measured_lingering() {
    local loops=$1 alone
    shift
    start "$@"
    [ "$failed" = 0 ] || return
    alone=$(by_itself)
    python3 "$client" crowd "$port" /lingers 64 200 || return
    sleep 1
    echo "$loops, $(children) programs that live on: $(by_itself) hundredths of a processor, $alone with none"
    end_server
}

echo "load before: $(cut -d' ' -f1-3 /proc/loadavg), $(nproc) processors"
four=
if "$program" serve site --loops 4 --turns 1 </dev/null >tried 2>&1 || [ $? = 6 ]; then four=yes; fi
measured 'one loop'
[ -z "$four" ] || measured 'four loops' --loops 4
chrt -o -p 0 $$ >/dev/null 2>&1 || true
measured_beside 'one loop'
[ -z "$four" ] || measured_beside 'four loops' --loops 4
measured_lingering 'one loop'
[ -z "$four" ] || measured_lingering 'four loops' --loops 4
echo "load behind: $(cut -d' ' -f1-3 /proc/loadavg)"
[ "$failed" = 0 ]

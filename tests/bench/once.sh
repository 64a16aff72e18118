#!/usr/bin/env bash
# Prints how much longer a request by `cgihost once` with /bin/cat takes than a run of /bin/cat by a shell, and the same of
# the least host that there can be, each RUNS times (1,000) and by turns, each of them as often first, second and third: at
# the tenth percentile, which other work on the machine touches least, and at the median. The aim is 1.0 times or less at
# the tenth percentile.
#
# The least host says how much of the aim there is to be had. It is in C, has a thread for the program's output as the host
# has, and checks nothing: it reads a request, makes the thread, spawns the program, reads to the end, waits for it and
# writes a reply.
#
# It is measured in the language that the machine is set to, as a user runs both, and in none (LC_ALL=C): a shell hands
# its language on, and cat then reads the files of that language, where a script of the host gets no more variables than
# RFC 3875 names.
set -eu
top=$(cd "$(dirname "$0")/../.." && pwd)
program=${CGIHOST:-$top/crates/cgihost/out/cgihost}
runs=${RUNS:-1000}
command -v cc >/dev/null || { echo 'once.sh: skipped, there is no cc'; exit 0; }
folder=$(mktemp -d)
trap 'rm -rf "$folder"' EXIT
cd "$folder"
printf 'GET /hello HTTP/1.1\r\nHost: a\r\nConnection: close\r\n\r\n' >request

cat >least.c <<'END'
#define _GNU_SOURCE
#include <fcntl.h>
#include <pthread.h>
#include <spawn.h>
#include <sys/wait.h>
#include <unistd.h>
static char got[4096], out[65536];
static int from[2];
static pthread_mutex_t spawned = PTHREAD_MUTEX_INITIALIZER;
static void *take(void *none) {
    pthread_mutex_lock(&spawned);
    while (read(from[0], out, sizeof out) > 0) {
    }
    return none;
}
int main(void) {
    int in[2], status;
    pid_t pid;
    pthread_t thread;
    char *words[] = {"/bin/cat", NULL}, *variables[] = {"GATEWAY_INTERFACE=CGI/1.1", NULL};
    posix_spawn_file_actions_t acts;
    pthread_mutex_lock(&spawned);
    if (read(0, got, sizeof got) <= 0 || pthread_create(&thread, NULL, take, NULL)) return 1;
    if (pipe2(in, O_CLOEXEC) || pipe2(from, O_CLOEXEC)) return 1;
    posix_spawn_file_actions_init(&acts);
    posix_spawn_file_actions_adddup2(&acts, in[0], 0);
    posix_spawn_file_actions_adddup2(&acts, from[1], 1);
    if (posix_spawn(&pid, "/bin/cat", &acts, NULL, words, variables)) return 1;
    close(in[0]), close(in[1]), close(from[1]);
    pthread_mutex_unlock(&spawned);
    pthread_join(thread, NULL);
    waitpid(pid, &status, 0);
    return write(1, "HTTP/1.1 502 Bad Gateway\r\n\r\n", 28) != 28;
}
END
# turns RUNS HOST LEAST: runs the host, the shell and the least host by turns, and prints, for each of them, the tenth
# percentile and the median of the microseconds that a run took from its start until it was waited for.
cat >turns.c <<'END'
#define _GNU_SOURCE
#include <fcntl.h>
#include <spawn.h>
#include <stdio.h>
#include <stdlib.h>
#include <sys/wait.h>
#include <time.h>
#include <unistd.h>
extern char **environ;
static double now(void) {
    struct timespec it;
    clock_gettime(CLOCK_MONOTONIC, &it);
    return it.tv_sec * 1e6 + it.tv_nsec / 1e3;
}
static double run(char **words, const char *input) {
    int status;
    pid_t pid;
    posix_spawn_file_actions_t acts;
    posix_spawn_file_actions_init(&acts);
    posix_spawn_file_actions_addopen(&acts, 0, input, O_RDONLY, 0);
    posix_spawn_file_actions_addopen(&acts, 1, "/dev/null", O_WRONLY, 0);
    double begun = now();
    if (posix_spawnp(&pid, words[0], &acts, NULL, words, environ)) exit(1);
    if (waitpid(pid, &status, 0) != pid || !WIFEXITED(status)) exit(1);
    double took = now() - begun;
    posix_spawn_file_actions_destroy(&acts);
    return took;
}
static int less(const void *one, const void *other) {
    return *(const double *)one < *(const double *)other ? -1 : *(const double *)one > *(const double *)other;
}
int main(int count, char **words) {
    int runs = atoi(words[1]);
    char *all[3][4] = {{words[2], "once", "/hello=/bin/cat", NULL}, {"sh", "-c", "/bin/cat", NULL}, {words[3], NULL}};
    const char *inputs[3] = {"request", "/dev/null", "request"};
    double *took[3];
    (void)count;
    for (int one = 0; one < 3; one++) took[one] = malloc(runs * sizeof(double));
    for (int at = -10; at < runs; at++)
        for (int turn = 0; turn < 3; turn++) {
            // Each order of the three comes as often as each other.
            static const int orders[6][3] = {{0, 1, 2}, {0, 2, 1}, {1, 0, 2}, {1, 2, 0}, {2, 0, 1}, {2, 1, 0}};
            int one = orders[(at + 12) % 6][turn];
            double it = run(all[one], inputs[one]);
            if (at >= 0) took[one][at] = it;
        }
    for (int one = 0; one < 3; one++) {
        qsort(took[one], runs, sizeof(double), less);
        printf("%.0f %.0f\n", took[one][runs / 10], took[one][runs / 2]);
    }
}
END
cc -O2 -w -pthread -o least least.c
cc -O2 -w -o turns turns.c

measured() {
    ./turns "$runs" "$program" ./least >took
    LC_ALL=C awk -v name="$1" '{ tenth[NR] = $1; half[NR] = $2 } END {
        printf "%s, 10 of 100: cgihost once %d us, sh -c /bin/cat %d us, %.2f times (aim: 1.0); the least host %d us, %.2f times\n",
            name, tenth[1], tenth[2], tenth[1] / tenth[2], tenth[3], tenth[3] / tenth[2]
        printf "%s, 50 of 100: cgihost once %d us, sh -c /bin/cat %d us, %.2f times; the least host %d us, %.2f times\n",
            name, half[1], half[2], half[1] / half[2], half[3], half[3] / half[2]
    }' took
}

. "$top/tests/bench/awake.sh"
# What is measured goes before all other work from here on, where the system allows that.
chrt -f -p 10 $$ >/dev/null 2>&1 || true
measured "language ${LC_ALL:-${LANG:-none}}"
export LC_ALL=C
measured 'LC_ALL=C'

#!/usr/bin/env bash
# Drives the command sample of the built program: its reports against counts of the kinds that its generator draws,
# the greatest sample, and reports that can't be written. It wants the program that `rt ci` leaves, and works in a
# temporary folder.
. "$(dirname "$0")/common.sh"

# The report of a seed and so many connections, by the kinds alone: 0 and 2 are answered with 200, 1 with 404, 3 and 4
# with 502, and 5 with nothing; 1 has no program, and that of 4 doesn't start.
counts() {
    awk -v seed="$1" -v n="$2" 'BEGIN {
        x = seed % 65537
        for (i = 0; i < n; i++) {
            x = (x * 75 + 74) % 65537
            k[int(x / 16) % 6]++
        }
        printf "connections %d\nnone %d\n", n, k[5]
        if (k[0] + k[2]) printf "status 200 %d\n", k[0] + k[2]
        if (k[1]) printf "status 404 %d\n", k[1]
        if (k[3] + k[4]) printf "status 502 %d\n", k[3] + k[4]
        printf "starts %d\nreaps %d\n", n - k[1], k[0] + k[2] + k[3] + k[5]
    }'
}

# A sample ends with status 0, says nothing and reports these counts.
reports() {
    timeout 120 "$program" sample "$1" "$2" </dev/null >out 2>err
    status=$?
    counts "$1" "$2" >wanted
    if [ "$status" = 0 ] && cmp -s out wanted && [ ! -s err ]; then
        ok
    else
        bad "sample $1 $2: status $status, wrote $(tr '\n' ',' <out), said $(head -c 200 err)"
    fi
}

# ---- small samples
printf 'connections 6\nnone 1\nstatus 404 2\nstatus 502 3\nstarts 4\nreaps 4\n' >first
counts 1 6 >wanted
if cmp -s first wanted; then ok; else bad "the counts of this script: $(tr '\n' ',' <wanted)"; fi
for seed in 0 1 7 65536 65537 4294967295; do
    for count in 1 6 7 8 9 16 17 257; do
        reports "$seed" "$count"
    done
done
reports 0000001 0006

# ---- the greatest, twice, each within 20 seconds
for run in first second; do
    begun=$(date +%s%N)
    reports 1 100000
    took=$((($(date +%s%N) - begun) / 1000000))
    mv out "$run"
    if [ "$took" -lt 20000 ]; then ok; else bad "the $run run of 100000 connections took $took ms"; fi
    echo "sample 1 100000: $took ms"
done
if cmp -s first second; then ok; else bad 'two runs of one sample differ'; fi
# Each connection is answered or was written nothing.
if awk '/^connections/ { n = $2 } /^none/ { sum += $2 } /^status/ { sum += $3 } END { exit !(n == 100000 && sum == n) }' first; then
    ok
else
    bad "counts that don't add up: $(tr '\n' ',' <first)"
fi

# ---- reports that can't be written
for output in full closed; do
    if [ "$output" = full ]; then
        timeout 60 "$program" sample 1 6 </dev/null >/dev/full 2>err
    else
        timeout 60 "$program" sample 1 6 </dev/null >&- 2>err
    fi
    status=$?
    if [ "$status" = 7 ] && [ "$(cat err)" = 'cgihost: report not written' ]; then
        ok
    else
        bad "a $output output: status $status, said $(head -c 200 err)"
    fi
done

# ---- words that have no form
usage='cgihost: usage: once SITE, serve SITE, check SITE, explain SITE, sample SEED N, upgrade SITE'
refused() {
    timeout 60 "$program" "$@" </dev/null >out 2>err
    status=$?
    if [ "$status" = 2 ] && [ "$(cat err)" = "$usage" ] && [ ! -s out ]; then
        ok
    else
        bad "$*: status $status, said $(head -c 200 err)"
    fi
}
refused sample
refused sample 1
refused sample 1 0
refused sample 1 100001
refused sample 4294967296 1
refused sample -1 1
refused sample +1 1
refused sample 1 1.0
refused sample '' 1
refused sample 1 ''
refused sample 1 1 1
refused sample 1 00000000000000000001
refused sample /s=/bin/cat 1

count

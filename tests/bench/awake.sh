# Sourced by the benchmarks in which processes wait for each other: on each processor a loop runs until the benchmark is
# over, in the class that runs only where nothing else would. A processor of a virtual machine that sleeps wakes up late,
# by up to a millisecond, and then that is what is measured.
if command -v chrt >/dev/null; then
    for _ in $(seq "$(nproc)"); do
        chrt -i 0 sh -c 'while kill -0 "$0"; do at=0; while [ $at -lt 200000 ]; do at=$((at + 1)); done; done' $$ >/dev/null 2>&1 &
        disown
    done
fi

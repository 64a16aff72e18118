#!/usr/bin/env bash
# Prints how many megabytes a second one pump and its ring move from a pipe, beside `cat` on the same pipe in the same
# run. The aim is 0.8 times what cat moves. The program that measures is built by `rt` in a folder of its own, over
# copies of the crates.
set -eu
. "$(dirname "$0")/crates.sh"
copy_crates pump_speed 'host_base loop_bell pipe_pump pump_pool std_spawner crossbeam_utils'
cat >"$speed/src/main.rt" <<'END_OF_PROGRAM'
// Reads standard input to its end by a pump in a thread, through a ring, and prints how many bytes came.
#![tactic(auto)]

ghost use Rattle.std.specs.Prelude.{◌≡◌, IfOk};

use crossbeam_utils::sync::Parker;
use host_base::NoMemory;
use loop_bell::Bell;
use pipe_pump::{PumpRing, Tap, rings};
use pump_pool::{OutPump, Station};
use std::alloc::Global;
use std::io;
use std::io::{ErrorKind, Stdin};
use std::sync::Wait;
use std::thread::yield_now;
use std_spawner::{PumpJob, StandardInput, StdSpawner, ThreadStarter};

const RING: usize = 65_536;

/// How often the loop lets others run before it sleeps, as that of `once` does.
const TURNS: u32 = 16;

// Sleeps, or first lets others run.
fn wait<R: Wait>(rt: &R, sleeper: &Parker, turns: &mut u32) {
    if *turns < TURNS {
        *turns += 1;
        yield_now();
    } else {
        sleeper.park(rt);
    }
}

fn drain<R: Wait>(
    rt: &R,
    sleeper: &Parker,
    tap: &mut Tap,
    pump: &mut OutPump<StandardInput>,
    buffer: &mut [u8],
) -> u64 {
    let mut count: u64 = 0;
    let mut ended = false;
    let mut turns = 0;
    for _ in rt.forever() {
        if !ended {
            ended = pump.done().is_some();
        }
        let taken = tap.take(buffer);
        count = count.wrapping_add(taken as u64);
        if taken > 0 {
            turns = 0;
        } else if ended {
            return count;
        } else {
            wait(rt, sleeper, &mut turns);
        }
    }
    unreachable!()
}

fn spawner<R: Wait + Copy + Drop>(
    rt: &R,
    alloc: Global,
    sleeper: &Parker,
    starter: ThreadStarter,
) -> Result<StdSpawner<R, ThreadStarter>, NoMemory> {
    StdSpawner::new(*rt, alloc, Bell::at(sleeper)?, starter, 1)
}

fn through_ring<R: Wait + Copy + Drop>(
    rt: &R,
    alloc: Global,
    input: Stdin,
    starter: ThreadStarter,
) -> Result<Option<u64>, NoMemory> {
    let sleeper = Parker::new(alloc)?;
    let mut spawner = spawner(rt, alloc, &sleeper, starter)?;
    let mut buffer = vec![in alloc; 0u8; RING]?;
    let (ring, tap) = rings(alloc, RING)?;
    let mut tap = tap;
    match spawner.read_input(input, ring) {
        Ok(mut pump) => Ok(Some(drain(rt, &sleeper, &mut tap, &mut pump, buffer.as_mut_slice()))),
        Err(_) => Ok(None),
    }
}

fn main(rt: HostRuntime) -> io::Result<()> {
    let alloc = rt.alloc();
    let start: Box<dyn Fn(Station<PumpJob>) -> bool + Send> = Box::new(
        alloc,
        move |station: Station<PumpJob>| PumpJob::start_thread(&rt, station),
    )?;
    match through_ring(&rt, alloc, rt.stdin(), ThreadStarter::new(start)) {
        Ok(Some(count)) => println!(rt; "{count}"),
        _ => Err(io::Error::from(ErrorKind::Other)),
    }
}
END_OF_PROGRAM
(cd "$speed" && rt run </dev/null) >"$folder/out" 2>"$folder/log" || { tail -n 30 "$folder/log"; exit 1; }
pump=$speed/out/pump_speed
size=2147483648
. "$top/tests/bench/awake.sh"
# What is measured goes before all other work from here on, where the system allows that.
chrt -f -p 10 $$ >/dev/null 2>&1 || true

now() {
    date +%s%N
}

# Milliseconds that all bytes take.
by_pump() {
    local begun=$(now) count
    count=$(head -c "$size" /dev/zero | "$pump")
    [ "$count" = "$size" ] || { echo "pump.sh: $count bytes came" >&2; exit 1; }
    echo $((($(now) - begun) / 1000000))
}

by_cat() {
    local begun=$(now)
    head -c "$size" /dev/zero | cat >/dev/null
    echo $((($(now) - begun) / 1000000))
}

# By turns: the first turn fills the caches, and of the others the least counts.
by_pump >/dev/null
by_cat >/dev/null
for _ in 1 2 3 4 5; do
    by_pump >>"$folder/pump"
    by_cat >>"$folder/cat"
done
least() {
    sort -n "$1" | head -n 1
}
awk -v size="$size" -v pump="$(least "$folder/pump")" -v cat="$(least "$folder/cat")" 'BEGIN {
    printf "pump and ring: %d MB/s, cat: %d MB/s, %.2f times (aim: 0.8)\n", size / pump / 1000, size / cat / 1000, cat / pump
}'

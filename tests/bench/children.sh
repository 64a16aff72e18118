#!/usr/bin/env bash
# Prints how many small programs a second run through a set of real children, with no sockets, beside a bare loop of
# spawn, read to the end and wait in the same run: 1, 8 and 64 at a time. The aim is 0.85 times the bare loop. Both
# start their programs from one thread. The program that measures is built by `rt` in a folder of its own, over copies
# of the crates.
set -eu
[ -x /bin/echo ] || { echo 'children.sh: skipped, there is no /bin/echo'; exit 0; }
. "$(dirname "$0")/crates.sh"
copy_crates children_speed 'host_base host_trace loop_bell pipe_pump child_edge pump_pool std_spawner crossbeam_utils'
mkdir -p "$speed/proofs/through_set"
cat >"$speed/src/main.rt" <<'END_OF_PROGRAM'
// Small programs through a set of real children, beside a bare loop of spawn, read to the end and wait.
#![tactic(auto)]

ghost use Rattle.std.specs.Prelude.{◌≡◌, ◌<◌, [], count_by, IfOk};
ghost use Rattle.child_edge.specs.Rows.{AllSound, is_kept};
ghost use Rattle.std_spawner.specs.Kids.{kid_tells};

use child_edge::{ChildSet, SpawnFault};
use crossbeam_utils::sync::Parker;
use host_base::{Launch, NoMemory, Pairs, Text, Texts};
use host_trace::Event;
use loop_bell::Bell;
use pump_pool::Station;
use std::alloc::Global;
use std::io;
use std::io::{ErrorKind, Read};
use std::process::{Child, Command, Processes, Stdio, SystemProcess};
use std::sync::Wait;
use std::time::{Clock, Duration, Instant};
use std_spawner::{PumpJob, StdSpawner, ThreadStarter};

const PROGRAM: &str = "/bin/echo";

const TOTAL: u64 = 1000;

// ---- the bare loop

fn start<R: Processes<Started = SystemProcess>>(
    rt: &R,
    alloc: Global,
) -> io::Result<Child<SystemProcess>> {
    let mut command = Command::new(alloc, PROGRAM)?;
    command.env_clear();
    command.current_dir("/")?;
    command.arg("hello")?;
    command.stdin(Stdio::piped());
    command.stdout(Stdio::piped());
    command.spawn(rt)
}

// How many bytes it wrote.
fn end(child: Child<SystemProcess>, buffer: &mut Vec<u8>) -> io::Result<u64> {
    let mut child = child;
    drop(child.stdin.take());
    buffer.clear();
    let count = match child.stdout.take() {
        Some(mut output) => output.read_to_end(buffer)?,
        None => 0,
    };
    child.wait()?;
    Ok(count as u64)
}

fn bare<R: Processes<Started = SystemProcess>>(
    rt: &R,
    alloc: Global,
    at_once: usize,
) -> io::Result<u64> {
    let mut buffer = Vec::new(alloc);
    let mut running: Vec<Child<SystemProcess>> = Vec::with_capacity(alloc, at_once)?;
    let mut count: u64 = 0;
    for _ in 0..TOTAL {
        if running.len() >= at_once && !running.is_empty() {
            count = count.wrapping_add(end(running.remove(0), &mut buffer)?);
        }
        let child = start(rt, alloc)?;
        if running.push(child).is_err() {
            return Ok(0);
        }
    }
    for child in running {
        count = count.wrapping_add(end(child, &mut buffer)?);
    }
    Ok(count)
}

// ---- the set

#[derive(Drop)]
struct Counts {
    started: u64,
    exited: u64,
    /// How many came to the end of their output.
    ended: u64,
    bytes: u64,
    /// Microseconds of the next sleep.
    pause: u64,
}

fn begin<R: Processes<Started = SystemProcess> + Wait + Clock + Copy + Drop>(
    set: &mut ChildSet<StdSpawner<R, ThreadStarter>>,
    k: u64,
    launch: &Launch,
) -> Result<(), SpawnFault>
    requires sound { AllSound kid_tells set.old.rows.items }
    requires room { count_by is_kept set.old.rows.items < set.old.cap }
    ensures sound { AllSound kid_tells set.new.rows.items }
{
    set.start(k, 0, launch)?;
    set.end_input(k);
    set.want(k);
    Ok(())
}

fn hear<R: Processes<Started = SystemProcess> + Wait + Clock + Copy + Drop>(
    set: &mut ChildSet<StdSpawner<R, ThreadStarter>>,
    counts: &mut Counts,
    event: &Event,
)
    requires sound { AllSound kid_tells set.old.rows.items }
    ensures sound { AllSound kid_tells set.new.rows.items }
{
    counts.pause = 100;
    match event {
        Event::ChildBytes { k, bytes } => {
            counts.bytes = counts.bytes.wrapping_add(bytes.len() as u64);
            set.want(*k);
        }
        Event::ChildEof { .. } => counts.ended = counts.ended.wrapping_add(1),
        Event::Exited { .. } => counts.exited = counts.exited.wrapping_add(1),
        _ => {}
    }
}

// Starts one where there is room, or hears what one of them has to tell, or sleeps.
fn turn<R: Processes<Started = SystemProcess> + Wait + Clock + Copy + Drop>(
    rt: &R,
    sleeper: &Parker,
    set: &mut ChildSet<StdSpawner<R, ThreadStarter>>,
    counts: &mut Counts,
    launch: &Launch,
) -> Result<(), SpawnFault>
    requires sound { AllSound kid_tells set.old.rows.items }
    ensures sound { AllSound kid_tells set.new.rows.items }
{
    if counts.started < TOTAL && set.has_room() {
        begin(set, counts.started, launch)?;
        counts.started = counts.started.wrapping_add(1);
        return Ok(());
    }
    match set.poll() {
        Some(event) => hear(set, counts, &event),
        None => {
            sleeper.park_timeout(rt, Duration::from_micros(counts.pause));
            counts.pause = counts.pause.saturating_mul(2).min(100_000);
        }
    }
    Ok(())
}

fn through_set<R: Processes<Started = SystemProcess> + Wait + Clock + Copy + Drop>(
    rt: &R,
    sleeper: &Parker,
    set: &mut ChildSet<StdSpawner<R, ThreadStarter>>,
    launch: &Launch,
) -> Result<u64, SpawnFault>
    requires sound { AllSound kid_tells set.old.rows.items }
{
    let mut counts = Counts {
        started: 0,
        exited: 0,
        ended: 0,
        bytes: 0,
        pause: 100,
    };
    for _ in rt.forever() {
        if counts.exited >= TOTAL && counts.ended >= TOTAL {
            return Ok(counts.bytes);
        }
        turn(rt, sleeper, set, &mut counts, launch)?;
    }
    unreachable!()
}

fn launch(alloc: Global) -> Result<Launch, NoMemory> {
    let mut args = Vec::new(alloc);
    args.push(Text::copy_of(alloc, "hello")?)?;
    Ok(Launch {
        program: Text::copy_of(alloc, PROGRAM)?,
        dir: Text::copy_of(alloc, "/")?,
        args: Texts::from_vec(args),
        env: Pairs::from_vec(Vec::new(alloc)),
    })
}

fn set_of<R: Processes<Started = SystemProcess> + Wait + Clock + Copy + Drop>(
    rt: R,
    alloc: Global,
    sleeper: &Parker,
    starter: ThreadStarter,
    at_once: u32,
) -> Result<ChildSet<StdSpawner<R, ThreadStarter>>, NoMemory>
    ensures { IfOk result (λ set. set.rows.items ≡ []) }
{
    let bell = Bell::at(sleeper)?;
    let spawner = StdSpawner::new(rt, alloc, bell, starter, at_once as usize)?;
    ChildSet::new(alloc, spawner, at_once)
}

fn set_bytes<R: Processes<Started = SystemProcess> + Wait + Clock + Copy + Drop>(
    rt: &R,
    alloc: Global,
    starter: ThreadStarter,
    at_once: u32,
) -> Result<u64, SpawnFault> {
    let (Ok(sleeper), Ok(launch)) = (Parker::new(alloc), launch(alloc)) else {
        return Err(SpawnFault::NoMemory);
    };
    let Ok(set) = set_of(*rt, alloc, &sleeper, starter, at_once) else {
        return Err(SpawnFault::NoMemory);
    };
    let mut set = set;
    through_set(rt, &sleeper, &mut set, &launch)
}

// ---- both by turns

fn micros(spent: Duration) -> u64 {
    spent
        .as_secs()
        .wrapping_mul(1_000_000)
        .wrapping_add(u64::from(spent.subsec_micros()))
}

fn failed() -> io::Error {
    io::Error::from(ErrorKind::Other)
}

fn round<R: Processes<Started = SystemProcess> + Wait + Clock + Print + AllocGlobal + Copy + Drop>(
    rt: &R,
    starter: ThreadStarter,
    at_once: u32,
) -> io::Result<()> {
    let alloc = rt.alloc();
    let begun = Instant::now(rt)?;
    let count = bare(rt, alloc, at_once as usize)?;
    let bare = micros(begun.elapsed(rt)?);
    let begun = Instant::now(rt)?;
    let Ok(bytes) = set_bytes(rt, alloc, starter, at_once) else {
        return Err(failed());
    };
    let set = micros(begun.elapsed(rt)?);
    println!(rt; "{at_once} {count} {bytes} {bare} {set}")
}

fn main(rt: HostRuntime) -> io::Result<()> {
    let alloc = rt.alloc();
    let sizes: [u32; 3] = [1, 8, 64];
    for turn in 0..15 {
        let start: Box<dyn Fn(Station<PumpJob>) -> bool + Send> = Box::new(
            alloc,
            move |station: Station<PumpJob>| PumpJob::start_thread(&rt, station),
        )?;
        round(&rt, ThreadStarter::new(start), sizes[turn % 3])?;
    }
    Ok(())
}
END_OF_PROGRAM
cat >"$speed/proofs/through_set/Invariants.antt" <<'END_OF_PROOF'
use Rattle.child_edge.specs.Rows.{AllSound}
use Rattle.std_spawner.specs.Kids.{kid_tells}
use Rattle.children_speed.proofs.through_set.Given as goal

abbrev pub invariant-loop : goal.invariant-loop
invariant-loop g l =
    (goal.iterator-loop g).can_next l.iterator' × (goal.iterator-loop g).is_finite l.iterator'
    × AllSound kid_tells l.set.rows.items
END_OF_PROOF
(cd "$speed" && rt run) >/dev/null 2>"$folder/log" || { tail -n 30 "$folder/log"; exit 1; }
. "$top/tests/bench/awake.sh"
# What is measured goes before all other work from here on, where the system allows that.
chrt -f -p 10 $$ >/dev/null 2>&1 || true
"$speed/out/children_speed" >"$folder/out"
# Each line: how many at a time, the bytes that each of the two read, and the microseconds that each took. The first
# round of each size fills the caches, and of the others the least counts.
awk '
    NF != 5 || $2 != 6000 || $3 != 6000 { print "children.sh: " $0; bad = 1; exit 1 }
    seen[$1]++ { if (!bare[$1] || $4 < bare[$1]) bare[$1] = $4; if (!set[$1] || $5 < set[$1]) set[$1] = $5 }
    END {
        if (bad) exit 1
        for (n = 1; n <= 64; n *= 8)
            printf "children, %2d at a time: %d/s, bare loop: %d/s, %.2f times (aim: 0.85)\n", n, 1000 / set[n] * 1000000, 1000 / bare[n] * 1000000, bare[n] / set[n]
    }' "$folder/out"

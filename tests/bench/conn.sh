#!/usr/bin/env bash
# Prints the processor time (the program's own, without the system's) of one connection over memory: for a request of
# a keep-alive GET whose reply has a body of 100 bytes, for a MiB of a request's body on its way from the client to its
# program's input, and for a MiB of output on its way to the client in chunks, both in pieces of 65,536 bytes; each
# beside a plain copy of the same bytes in the same run. The time that it takes to make what is heard is taken off. The
# program that measures is built by `rt` in a folder of its own, over copies of the crates.
set -eu
export LC_ALL=C
. "$(dirname "$0")/crates.sh"
copy_crates conn_speed 'host_base host_trace reply_writer site_file http_conn'
mkdir -p "$speed/proofs/drive"
cat >"$speed/src/main.rt" <<'END'
//! Events of one connection, that are handed to it, copied, or dropped.
#![tactic(auto)]

ghost use Rattle.host_base.specs.SiteRules.{IsServed};
ghost use Rattle.reply_writer.specs.WholeRules.{IsStamp};

mod counter;

use http_conn::{Conn, Onward, step};
use counter::Counter;
use host_base::{Bytes, NoMemory, Peer, Site, Text};
use host_trace::Event;
use site_file::read_site;
use std::alloc::Global;
use std::env;
use std::io;

const GETS: u64 = 20_000;
// Of 16 MiB each.
const LONG: u64 = 4;
const PIECE: usize = 65_536;
const PIECES: u64 = 256;

const SITE: &str = "version = 1
[limits]
body = 16777216
[[script]]
path = \"/s\"
program = \"/srv/s\"
";

const GET: &str = "GET /s HTTP/1.1\r\nHost: a\r\n\r\n";
const POST: &str = "POST /s HTTP/1.1\r\nHost: a\r\nContent-Length: 16777216\r\n\r\n";
const HEADER: &str = "Content-Type: text/plain\n\n";

fn filled(alloc: Global, front: &str, count: usize) -> Result<Bytes, NoMemory> {
    let mut bytes = Bytes::from_slice(alloc, front.as_bytes())?;
    for _ in 0..count {
        bytes.push(b'a')?;
    }
    Ok(bytes)
}

fn client(alloc: Global, bytes: &[u8]) -> Result<Event, NoMemory> {
    let bytes = Bytes::from_slice(alloc, bytes)?;
    Ok(Event::ClientBytes { c: 0, bytes })
}

fn child(alloc: Global, k: u64, bytes: &[u8]) -> Result<Event, NoMemory> {
    let bytes = Bytes::from_slice(alloc, bytes)?;
    Ok(Event::ChildBytes { k, bytes })
}

fn get(alloc: Global, events: &mut Vec<Event>, k: u64, reply: &[u8]) -> Result<(), NoMemory> {
    events.push(client(alloc, GET.as_bytes())?)?;
    events.push(Event::Started { k })?;
    events.push(child(alloc, k, reply)?)?;
    events.push(Event::ChildEof { k })?;
    events.push(Event::Exited { k })?;
    events.push(Event::Wrote { c: 0, n: 166 })?;
    Ok(())
}

fn body(alloc: Global, events: &mut Vec<Event>, k: u64, piece: &[u8]) -> Result<(), NoMemory> {
    events.push(client(alloc, POST.as_bytes())?)?;
    events.push(Event::Started { k })?;
    for _ in 0..PIECES {
        events.push(client(alloc, piece)?)?;
        events.push(Event::Took { k, n: 65_536 })?;
    }
    events.push(child(alloc, k, HEADER.as_bytes())?)?;
    events.push(Event::ChildEof { k })?;
    events.push(Event::Exited { k })?;
    Ok(())
}

// One piece less than 16 MiB, since the header counts too.
fn output(alloc: Global, events: &mut Vec<Event>, k: u64, piece: &[u8]) -> Result<(), NoMemory> {
    events.push(client(alloc, GET.as_bytes())?)?;
    events.push(Event::Started { k })?;
    events.push(child(alloc, k, HEADER.as_bytes())?)?;
    for _ in 1..PIECES {
        events.push(child(alloc, k, piece)?)?;
        events.push(Event::Wrote { c: 0, n: 65_545 })?;
    }
    events.push(Event::ChildEof { k })?;
    events.push(Event::Exited { k })?;
    Ok(())
}

fn events_of(alloc: Global, what: &str) -> Result<Vec<Event>, NoMemory> {
    let mut events = Vec::new(alloc);
    let peer = Peer(Text::copy_of(alloc, "192.0.2.1")?);
    events.push(Event::Accepted { peer })?;
    let reply = filled(alloc, HEADER, 100)?;
    let piece = filled(alloc, "", PIECE)?;
    let count = if what == "get" { GETS } else { LONG };
    for k in 0..count {
        if what == "get" {
            get(alloc, &mut events, k, reply.as_slice())?;
        } else if what == "body" {
            body(alloc, &mut events, k, piece.as_slice())?;
        } else {
            output(alloc, &mut events, k, piece.as_slice())?;
        }
    }
    Ok(events)
}

fn no_clock() -> Option<u64>
    ensures { IsStamp result }
{
    None
}

fn drive(alloc: Global, site: &Site, events: Vec<Event>) -> Counter
    requires { IsServed site.now }
{
    let mut conn = Conn::new(alloc, site, 0);
    let mut out = Counter { wrote: 0, fed: 0, shut: 0 };
    let mut children = 0u64;
    for event in events {
        match step(&mut conn, event, no_clock(), &mut children, &mut out) {
            Onward::Http => {}
            Onward::Talk(_) | Onward::Shut => return out,
        }
    }
    out
}

#[inline(never)]
fn copy(alloc: Global, bytes: &[u8]) -> Result<u64, NoMemory> {
    Ok(Bytes::from_slice(alloc, bytes)?.len() as u64)
}

fn copy_piece(alloc: Global, event: &Event, out: &mut Counter) -> Result<(), NoMemory> {
    match event {
        Event::ClientBytes { bytes, .. } => {
            out.fed = out.fed.wrapping_add(copy(alloc, bytes.as_slice())?);
        }
        Event::ChildBytes { bytes, .. } => {
            out.wrote = out.wrote.wrapping_add(copy(alloc, bytes.as_slice())?);
        }
        _ => {}
    }
    Ok(())
}

fn copied(alloc: Global, events: Vec<Event>) -> Result<Counter, NoMemory> {
    let mut out = Counter { wrote: 0, fed: 0, shut: 0 };
    for event in events {
        copy_piece(alloc, &event, &mut out)?;
    }
    Ok(out)
}

fn by(alloc: Global, how: &str, events: Vec<Event>) -> Result<Counter, NoMemory> {
    if how == "copy" {
        return copied(alloc, events);
    }
    match read_site(alloc, SITE.as_bytes()) {
        Ok(site) if how == "conn" => Ok(drive(alloc, &site, events)),
        _ => Ok(Counter { wrote: 0, fed: 0, shut: 0 }),
    }
}

fn measured(alloc: Global, words: &str) -> Result<Counter, NoMemory> {
    match words.split_once(',') {
        Some((what, how)) => by(alloc, how, events_of(alloc, what)?),
        None => Err(NoMemory),
    }
}

fn main(rt: HostRuntime) -> io::Result<()> {
    for words in env::args(&rt)?.skip(1) {
        match measured(rt.alloc(), words.as_str()) {
            Ok(out) => println!(rt; "{} {} {}", out.wrote, out.fed, out.shut)?,
            Err(NoMemory) => println!(rt; "no memory")?,
        }
    }
    Ok(())
}
END
cat >"$speed/src/counter.rt" <<'END'
// An outside that counts bytes, and tells no trace.
ghost use Rattle.std.specs.Prelude.{None};

use host_trace::{Act, Acted, Event, Outside};

#[derive(Drop)]
pub struct Counter {
    pub wrote: u64,
    pub fed: u64,
    pub shut: u64,
}

impl Outside for Counter {
    ghost trace = { λ o. None };

    ghost faults = { λ o. 0 };

    ghost full_books = { λ o. 0 };

    ghost limit = { λ o. 64 };

    fn next(&mut self) -> Event {
        Event::Stop
    }

    fn act(&mut self, act: &Act) -> Acted {
        match act {
            Act::Write { bytes, .. } => self.wrote = self.wrote.wrapping_add(bytes.len() as u64),
            Act::Feed { bytes, .. } => self.fed = self.fed.wrapping_add(bytes.len() as u64),
            Act::Shut { .. } => self.shut = self.shut.wrapping_add(1),
            _ => {}
        }
        Acted::Done
    }
}
END
cat >"$speed/proofs/drive/Invariants.antt" <<'END'
use Rattle.host_base.specs.SiteRules.{IsServed}
use Rattle.http_conn.specs.Kept.{site_of}
use Rattle.conn_speed.proofs.drive.Given as goal

abbrev pub invariant-loop-event : goal.invariant-loop-event
invariant-loop-event l = IsServed (site_of l.conn)
END
(cd "$speed" && rt run) >"$folder/log" 2>&1 || { tail -n 30 "$folder/log"; exit 1; }

# Each is run five times, eight times over in a run, and the least counts. The system's part of the time is left out: it
# is that of memory got for what is heard, and swings by more than what is measured.
TIMEFORMAT='%U %S'
for what in get body output; do
    for how in none copy conn; do
        word=$what,$how
        for _ in 1 2 3 4 5; do
            spent=$({ time "$speed/out/conn_speed" $word $word $word $word $word $word $word $word >"$folder/said"; } 2>&1)
            echo "$what $how $spent $(sort -u "$folder/said")"
        done
    done
done >"$folder/times"
# A reply of the GET has 166 bytes. An output in chunks has for each piece its size and two line ends, and at its ends a
# head and the last chunk, together less than 200 bytes.
awk '
    NF != 7 || $7 != 0 { wrong() }
    $2 == "conn" && $1 == "get" && $5 != 20000 * 166 { wrong() }
    $2 == "conn" && $1 == "body" && $6 != 67108864 { wrong() }
    $2 == "conn" && $1 == "output" && ($5 < 4 * 255 * 65545 || $5 > 4 * (255 * 65545 + 200)) { wrong() }
    { at = $1 " " $2 }
    !(at in least) || $3 < least[at] { least[at] = $3 }
    function wrong() { print "conn.sh: " $0; bad = 1; exit 1 }
    function row(text, what, count,    conn, copy) {
        conn = (least[what " conn"] - least[what " none"]) / 8 / count * 1000000
        copy = (least[what " copy"] - least[what " none"]) / 8 / count * 1000000
        printf "%s: %.2f us; a plain copy of the same bytes: %.2f us\n", text, conn, copy
    }
    END {
        if (bad) exit 1
        row("processor time of a keep-alive GET with a reply of 100 bytes", "get", 20000)
        row("of a MiB of body, from the client to Feed", "body", 64)
        row("of a MiB of output, to Write", "output", 63.75)
    }' "$folder/times"

#!/usr/bin/env bash
# Prints how fast a reply of 64 MiB is written in chunks, told in pieces of 16 KiB, beside a plain copy of the
# same pieces in the same run. The aim is 0.5 times the copy's speed or more. The program that measures is built
# by `rt` in a folder of its own, over copies of the crates.
set -eu
. "$(dirname "$0")/crates.sh"
copy_crates stream_speed 'host_base reply_stream'
cat >"$speed/src/main.rt" <<'END'
#![tactic(auto)]

use host_base::{Bytes, NoMemory, ScriptKind, Version};
use reply_stream::{Asked, Last, Stream};
use std::alloc::Global;
use std::io;
use std::time::{Duration, Instant};

fn pieces(alloc: Global) -> Result<Vec<Bytes>, NoMemory> {
    let mut piece = Vec::new(alloc);
    for _ in 0..16384 {
        piece.push(b'a')?;
    }
    let mut pieces = Vec::new(alloc);
    for _ in 0..4096 {
        pieces.push(Bytes::from_slice(alloc, piece.as_slice())?)?;
    }
    Ok(pieces)
}

fn copied(alloc: Global, pieces: Vec<Bytes>) -> Result<usize, NoMemory> {
    let mut count: usize = 0;
    for piece in pieces {
        let copy = Bytes::from_slice(alloc, piece.as_slice())?;
        count = count.wrapping_add(copy.len());
    }
    Ok(count)
}

fn streamed(alloc: Global, pieces: Vec<Bytes>) -> Result<usize, NoMemory> {
    let asked = Asked {
        kind: ScriptKind::Cgi,
        version: Version::V11,
        head_only: false,
    };
    let mut stream = Stream::new(alloc, asked);
    let header = Bytes::from_slice(alloc, b"Content-Type: text/plain\n\n")?;
    let mut count = stream.hear(header, false, None)?.len();
    for piece in pieces {
        count = count.wrapping_add(stream.hear(piece, false, None)?.len());
    }
    match stream.end(false, None)? {
        Last::Written(text) => Ok(count.wrapping_add(text.len())),
        _ => Ok(0),
    }
}

fn micros(spent: Duration) -> u64 {
    spent
        .as_secs()
        .wrapping_mul(1_000_000)
        .wrapping_add(u64::from(spent.subsec_micros()))
}

fn turn(rt: &(impl Print + AllocGlobal + std::rt::Clock)) -> io::Result<()> {
    let alloc = rt.alloc();
    let (Ok(first), Ok(second)) = (pieces(alloc), pieces(alloc)) else {
        return println!(rt; "no memory");
    };
    let begun = Instant::now(rt)?;
    let copied = copied(alloc, first);
    let copy = micros(begun.elapsed(rt)?);
    let begun = Instant::now(rt)?;
    let streamed = streamed(alloc, second);
    let stream = micros(begun.elapsed(rt)?);
    match (copied, streamed) {
        (Ok(count), Ok(length)) => println!(rt; "{count} {length} {copy} {stream}"),
        _ => println!(rt; "no memory"),
    }
}

fn main(rt: HostRuntime) -> io::Result<()> {
    for _ in 0..6 {
        turn(&rt)?;
    }
    Ok(())
}
END
(cd "$speed" && rt run) >"$folder/out" 2>"$folder/log" || { tail -n 30 "$folder/log"; exit 1; }
# The first turn fills the caches, and of the others the least counts. Each piece is a chunk: its size, two line
# ends and itself; the head and the end mark add 95 bytes.
awk '
    NF != 4 || $1 != 67108864 { print "stream.sh: " $0; bad = 1; exit 1 }
    $2 < 67108864 + 4095 * 8 || $2 > 67108864 + 4096 * 8 + 200 { print "stream.sh: written " $2; bad = 1; exit 1 }
    NR > 1 { if (!copy || $3 < copy) copy = $3; if (!stream || $4 < stream) stream = $4 }
    END {
        if (bad) exit 1
        printf "stream: %d MB/s, plain copy: %d MB/s, %.2f times (aim: 0.5)\n", 67.108864 / stream * 1000000, 67.108864 / copy * 1000000, copy / stream
    }' "$folder/out"

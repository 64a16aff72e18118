#!/usr/bin/env bash
# Prints the processor time a byte of a request's body of 16 MiB and of 1 MiB, by length and in chunks of 1
# KiB, in pieces of 65,536 bytes and of 1 byte: as a multiple of copying the same pieces onto one list in the
# same run, and in nanoseconds. A body by length is measured twice, taken out as it comes and gathered for its
# request; one in chunks is gathered. The aims: 4 in large pieces, 40 in single bytes, and the same at 1 MiB
# as at 16. The program that measures is built by `rt` in a folder of its own, over copies of the crates. It
# reads how long it has run from /proc (Linux), which is exact to some milliseconds, and does each thing often.
set -eu
[ -r /proc/self/schedstat ] || { echo 'body.sh: skipped, there is no /proc/self/schedstat'; exit 0; }
. "$(dirname "$0")/crates.sh"
copy_crates body_speed 'host_base request_reader'
cat >"$speed/src/main.rt" <<'END_OF_PROGRAM'
// Bodies of requests by length and in chunks, in large and in small pieces, beside copies of them.
#![tactic(auto)]

use host_base::{Limits, NoMemory};
use request_reader::{ReqReader, ReqStep};
use std::alloc::Global;
use std::fs;
use std::fs::Files;
use std::io;

const MIB: usize = 1_048_576;
const CHUNK: usize = 1024;

fn limits() -> Limits {
    Limits {
        body: 33_554_432,
        ..Limits::default()
    }
}

fn fill(body: &mut Vec<u8>, count: usize) -> Result<(), NoMemory> {
    for _ in 0..count {
        body.push(b'a')?;
    }
    Ok(())
}

// Content-Length of 1 or 16 MiB, and so many bytes.
fn by_length(alloc: Global, mib: usize) -> Result<Vec<u8>, NoMemory> {
    let head: &[u8] = if mib == 16 {
        b"POST / HTTP/1.0\r\nContent-Length: 16777216\r\n\r\n"
    } else {
        b"POST / HTTP/1.0\r\nContent-Length: 1048576\r\n\r\n"
    };
    let mut text = Vec::from_slice(alloc, head)?;
    for _ in 0..mib {
        fill(&mut text, MIB)?;
    }
    Ok(text)
}

// The same bytes in chunks of 1 KiB.
fn in_chunks(alloc: Global, mib: usize) -> Result<Vec<u8>, NoMemory> {
    let mut text = Vec::from_slice(
        alloc,
        b"POST / HTTP/1.1\r\nHost: a\r\nTransfer-Encoding: chunked\r\n\r\n",
    )?;
    for _ in 0..mib {
        for _ in 0..MIB / CHUNK {
            text.extend_from_slice(b"400\r\n")?;
            fill(&mut text, CHUNK)?;
            text.extend_from_slice(b"\r\n")?;
        }
    }
    text.extend_from_slice(b"0\r\n\r\n")?;
    Ok(text)
}

// How many bytes the body has that is taken out piece by piece.
fn streamed(alloc: Global, text: &[u8], size: usize) -> Result<usize, NoMemory> {
    let mut reader = ReqReader::new(alloc, &limits());
    let (head, body) = text.split_at(text.len() % CHUNK);
    reader.feed(head)?;
    let mut count: usize = 0;
    if reader.early()?.is_some() {
        for piece in body.chunks(size.max(1)) {
            reader.feed(piece)?;
            count = count.wrapping_add(reader.take_body().len());
        }
    }
    if let ReqStep::Whole(request) = reader.step()? {
        count = count.wrapping_add(request.body.len());
    }
    Ok(count)
}

// How many bytes the body has that is gathered.
fn gathered(alloc: Global, text: &[u8], size: usize) -> Result<usize, NoMemory> {
    let mut reader = ReqReader::new(alloc, &limits());
    for piece in text.chunks(size.max(1)) {
        reader.feed(piece)?;
        match reader.step()? {
            ReqStep::Whole(request) => return Ok(request.body.len()),
            ReqStep::More { .. } => (),
            ReqStep::Bad { .. } => return Ok(0),
        }
    }
    Ok(0)
}

#[inline(never)]
fn add(copy: &mut Vec<u8>, piece: &[u8]) -> Result<(), NoMemory> {
    copy.extend_from_slice(piece).map_err(|_| NoMemory)
}

// How many bytes a copy of them has, piece by piece.
fn copied(alloc: Global, text: &[u8], size: usize) -> Result<usize, NoMemory> {
    let mut copy = Vec::new(alloc);
    for piece in text.chunks(size.max(1)) {
        add(&mut copy, piece)?;
    }
    Ok(copy.len())
}

fn leading_number(text: &[u8]) -> u64 {
    let mut number: u64 = 0;
    for byte in text {
        if !byte.is_ascii_digit() {
            break;
        }
        number = number.wrapping_mul(10).wrapping_add(u64::from(byte & 15));
    }
    number
}

// Nanoseconds of the processor that the program has used.
fn spent(rt: &(impl Files + AllocGlobal)) -> io::Result<u64> {
    let text = fs::read(rt, "/proc/self/schedstat")?;
    Ok(leading_number(text.as_slice()))
}

#[derive(Clone, Copy)]
enum Way {
    Copied,
    Streamed,
    Gathered,
}

fn count_of(alloc: Global, way: Way, text: &[u8], size: usize) -> usize {
    let count = match way {
        Way::Copied => copied(alloc, text, size),
        Way::Streamed => streamed(alloc, text, size),
        Way::Gathered => gathered(alloc, text, size),
    };
    count.unwrap_or(0)
}

// Does it so often, and prints the time of one and how many bytes the body had.
fn report(
    rt: &(impl Print + AllocGlobal + Files),
    name: &str,
    way: Way,
    mib: usize,
    text: &[u8],
    size: usize,
    times: u64,
) -> io::Result<()> {
    let begun = spent(rt)?;
    let mut count: usize = 0;
    for _ in 0..times {
        count = count_of(rt.alloc(), way, text, size);
    }
    let nanoseconds = spent(rt)?.wrapping_sub(begun) / times.max(1);
    println!(rt; "{name} {mib} {size} {nanoseconds} {count}")
}

fn turn(
    rt: &(impl Print + AllocGlobal + Files),
    mib: usize,
    size: usize,
    times: u64,
    length: &[u8],
    chunks: &[u8],
) -> io::Result<()> {
    report(rt, "copy", Way::Copied, mib, length, size, times)?;
    report(rt, "streamed", Way::Streamed, mib, length, size, times)?;
    report(rt, "gathered", Way::Gathered, mib, length, size, times)?;
    report(rt, "chunks", Way::Gathered, mib, chunks, size, times)
}

fn main(rt: HostRuntime) -> io::Result<()> {
    for (mib, often) in [(1, 16), (16, 1)] {
        let (Ok(length), Ok(chunks)) = (by_length(rt.alloc(), mib), in_chunks(rt.alloc(), mib)) else {
            return println!(rt; "no memory");
        };
        for (size, times) in [(65_536, 64), (1, 4)] {
            for _ in 0..3 {
                turn(&rt, mib, size, often * times, &length, &chunks)?;
            }
        }
    }
    Ok(())
}
END_OF_PROGRAM
(cd "$speed" && rt run) >"$folder/times" 2>"$folder/log" || { tail -n 30 "$folder/log"; exit 1; }
# The least of three counts.
awk '
    $5 != $2 * 1048576 && ($1 != "copy" || $5 < $2 * 1048576) { print "body.sh: " $0; bad = 1; exit 1 }
    { at = $1 " " $2 " " $3 }
    !(at in least) || $4 < least[at] { least[at] = $4 }
    function row(text, name, size,    long, short) {
        long = least[name " 16 " size]
        short = least[name " 1 " size]
        printf "%s, in pieces of %d: %.2f times copying them (aim: %d), %.2f ns a byte; at 1 MiB %.2f times, %.2f ns\n", text, size,
            long / least["copy 16 " size], size == 1 ? 40 : 4, long / 16777216, short / least["copy 1 " size], short / 1048576
    }
    END {
        if (bad) exit 1
        for (turn = 0; turn < 2; turn++) {
            size = turn ? 1 : 65536
            row("body by length, taken out", "streamed", size)
            row("body by length, gathered", "gathered", size)
            row("body in chunks of 1 KiB", "chunks", size)
        }
    }' "$folder/times"

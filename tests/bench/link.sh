#!/usr/bin/env bash
# Prints the time of 100,000 texts of 32 bytes that come through a link and are said by it, as a multiple of
# copying the same bytes in as many calls, of masking the bytes that come, and of tungstenite alone, which
# reads the same frames from one slice and writes into one buffer. The aim: tungstenite's own time. So it
# also prints what the rest is made of: the second read of each turn, which finds that nothing is left, and
# what a link does itself, which is to hold what came, to hand on the text and to begin a new buffer for what
# it sends.
set -eu
. "$(dirname "$0")/crates.sh"
copy_crates link_speed 'host_base ws_link tungstenite'
cat >"$speed/src/main.rt" <<'END'
// Texts of 32 bytes both ways through a link, through tungstenite alone, copied, and masked.
#![tactic(auto)]

use host_base::{Bytes, NoMemory};
use std::alloc::Global;
use std::io;
use std::time::Instant;
use tungstenite::{Duplex, Message, NoMask, Role, WebSocket};
use ws_link::{Link, Linked, Said};

const ROUNDS: u32 = 100_000;
const KEY: [u8; 4] = [0x37, 0xfa, 0x21, 0x3d];
const TEXT: &str = "abcdefghijklmnopqrstuvwxyz012345";

// A masked frame with the text.
fn frame() -> [u8; 38] {
    let mut frame = [0u8; 38];
    frame[0] = 0x81;
    frame[1] = 0xa0;
    frame[2..6].copy_from_slice(&KEY);
    frame[6..].copy_from_slice(TEXT.as_bytes());
    mask(&mut frame[6..]);
    frame
}

#[inline(never)]
fn mask(bytes: &mut [u8]) {
    for (place, byte) in bytes.iter_mut().enumerate() {
        *byte ^= KEY[place % 4];
    }
}

#[inline(never)]
fn copy(buffer: &mut Vec<u8>, bytes: &[u8]) -> Result<usize, NoMemory> {
    buffer.clear();
    buffer.extend_from_slice(bytes)?;
    Ok(buffer.len())
}

// Feeds a frame, reads its text and, where asked, that no more has come, says the text, and takes its frame.
#[inline(never)]
fn by_link(alloc: Global, frame: &[u8], twice: bool) -> Result<usize, NoMemory> {
    let mut link = Link::new(alloc, b"")?;
    let mut count: usize = 0;
    for _ in 0..ROUNDS {
        link.feed(frame)?;
        if let Linked::Text(text) = link.next() {
            count = count.wrapping_add(text.len());
        }
        if twice {
            if let Linked::NotYet = link.next() {
                count = count.wrapping_add(1);
            }
        }
        if let Said::Done = link.say(TEXT) {
            count = count.wrapping_add(link.take_out().len());
        }
    }
    Ok(count)
}

// What a link does itself of the same: the frame is held and read from there, its text is handed on, and
// what is sent begins a new buffer.
#[inline(never)]
fn by_hand(alloc: Global, frame: &[u8; 38]) -> Result<usize, NoMemory> {
    let mut held = Vec::new(alloc);
    let mut read = Vec::new(alloc);
    let mut count: usize = 0;
    for _ in 0..ROUNDS {
        count = count.wrapping_add(copy(&mut held, frame)?);
        count = count.wrapping_add(copy(&mut read, &held)?);
        let text = Bytes::from_slice(alloc, &read[..read.len().min(32)])?;
        count = count.wrapping_add(text.len());
        let mut going = Vec::new(alloc);
        count = count.wrapping_add(copy(&mut going, &frame[..34])?);
    }
    Ok(count)
}

// The same frames by tungstenite, from a slice with all of them and into one buffer.
#[inline(never)]
fn by_tungstenite(alloc: Global, frame: &[u8]) -> Result<usize, NoMemory> {
    let mut frames = Vec::new(alloc);
    for _ in 0..ROUNDS {
        frames.extend_from_slice(frame)?;
    }
    let stream = Duplex {
        reader: frames.as_slice(),
        writer: Vec::new(alloc),
    };
    let mut socket = WebSocket::from_raw_socket(alloc, stream, NoMask, Role::Server, None);
    let mut count: usize = 0;
    for _ in 0..ROUNDS {
        if let Ok(Message::Text(text)) = socket.read() {
            count = count.wrapping_add(text.len());
        }
        if socket.send(Message::text(alloc, TEXT)?).is_ok() {
            count = count.wrapping_add(1);
        }
    }
    Ok(count)
}

// The same bytes in as many calls.
fn by_copies(alloc: Global, frame: &[u8; 38]) -> Result<usize, NoMemory> {
    let mut buffer = Vec::new(alloc);
    let mut count: usize = 0;
    for _ in 0..ROUNDS {
        count = count.wrapping_add(copy(&mut buffer, frame)?);
        count = count.wrapping_add(copy(&mut buffer, TEXT.as_bytes())?);
        count = count.wrapping_add(copy(&mut buffer, b"")?);
        count = count.wrapping_add(copy(&mut buffer, TEXT.as_bytes())?);
        count = count.wrapping_add(copy(&mut buffer, &frame[..34])?);
    }
    Ok(count)
}

// The bytes of the texts that come.
fn by_masks(frame: &[u8; 38]) -> usize {
    let mut frame = *frame;
    let mut count: usize = 0;
    for _ in 0..ROUNDS {
        mask(&mut frame[6..]);
        count = count.wrapping_add(frame[6] as usize);
    }
    count
}

fn report(rt: &(impl Print + std::rt::Clock), name: &str, begun: Instant, count: usize) -> io::Result<()> {
    let nanoseconds = begun.elapsed(rt)?.as_nanos();
    println!(rt; "{name} {nanoseconds} {count}")
}

fn main(rt: HostRuntime) -> io::Result<()> {
    let frame = frame();
    for _ in 0..5 {
        let begun = Instant::now(&rt)?;
        let count = by_link(rt.alloc(), &frame, true).unwrap_or(0);
        report(&rt, "link", begun, count)?;
        let begun = Instant::now(&rt)?;
        let count = by_link(rt.alloc(), &frame, false).unwrap_or(0);
        report(&rt, "once", begun, count)?;
        let begun = Instant::now(&rt)?;
        let count = by_hand(rt.alloc(), &frame).unwrap_or(0);
        report(&rt, "hand", begun, count)?;
        let begun = Instant::now(&rt)?;
        let count = by_tungstenite(rt.alloc(), &frame).unwrap_or(0);
        report(&rt, "tungstenite", begun, count)?;
        let begun = Instant::now(&rt)?;
        let count = by_copies(rt.alloc(), &frame).unwrap_or(0);
        report(&rt, "copies", begun, count)?;
        let begun = Instant::now(&rt)?;
        let count = by_masks(&frame);
        report(&rt, "masks", begun, count)?;
    }
    Ok(())
}
END
cd "$speed"
rt run >"$folder/times" 2>"$folder/log" || { tail -n 20 "$folder/log"; exit 1; }

# Each is run five times, and the least counts.
awk '!($1 in least) || $2 < least[$1] { least[$1] = $2 } END {
    link = least["link"]
    printf "link: %.0f ns for a text both ways, %.1f times copying, %.1f times masking, %.2f times tungstenite alone (aim: 1)\n", link / 100000, link / least["copies"], link / least["masks"], link / least["tungstenite"]
    alone = least["tungstenite"]
    empty = link - least["once"]
    printf "its parts: %.0f ns tungstenite alone, %.0f ns the read that finds nothing, %.0f ns what a link does itself, together %.0f ns\n", alone / 100000, empty / 100000, least["hand"] / 100000, (alone + empty + least["hand"]) / 100000
}' "$folder/times"

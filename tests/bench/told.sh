#!/usr/bin/env bash
# Prints how many nanoseconds it takes to tell an item: a question to a client and its answer, over 10, 100, 1,000 and
# 10,000 open connections that are asked in turn by a stride, beside the same run over the bare outside, which is taken off.
# The aim: at most some 40 ns an item, and with 1,000 connections no more than half as much again as with 10. The program
# that measures is built by `rt` in a folder of its own, over copies of the crates.
set -eu
export LC_ALL=C
. "$(dirname "$0")/crates.sh"
copy_crates told_speed 'host_base host_trace told_outside'
mkdir -p "$speed/proofs" "$speed/specs"
: >"$speed/proofs/Lib.antt"
: >"$speed/specs/Lib.antt"
cat >"$speed/src/fake.rt" <<'END'
// An outside that lets in so many, and then answers each question with an end.
use host_base::{Peer, Text};
use host_trace::{Act, Acted, Event, Outside};
use std::alloc::Global;

#[derive(Drop)]
pub struct Fake {
    alloc: Global,
    left: u64,
    asked: u64,
}

impl Fake {
    pub fn new(alloc: Global, rows: u64) -> Self {
        Fake {
            alloc,
            left: rows,
            asked: 0,
        }
    }
}

impl Outside for Fake {
    ghost use Rattle.std.specs.Prelude.{None};

    ghost trace = { λ _. None };

    ghost faults = { λ _. 0 };

    ghost full_books = { λ _. 0 };

    ghost limit = { λ _. 8 };

    fn next(&mut self) -> Event {
        if self.left > 0 {
            self.left -= 1;
            return Event::Accepted {
                peer: Peer(Text::from_string(String::new(self.alloc))),
            };
        }
        Event::ClientEof { c: self.asked }
    }

    fn act(&mut self, act: &Act) -> Acted {
        if let Act::WantClient { c } = act {
            self.asked = *c;
        }
        Acted::Done
    }
}
END
cat >"$speed/src/main.rt" <<'END'
//! `told_speed MODE ROWS PAIRS`: so many questions and answers over as many connections, told where MODE is 1.
#![tactic(auto)]

use host_trace::{Act, Event, Outside};
use std::env;
use std::process::ExitCode;
use told_outside::ToldOutside;

mod fake;

use fake::Fake;

fn drive<O: Outside>(out: &mut O, rows: u64, pairs: u64) -> u64 {
    let mut heard = 0u64;
    for _ in 0..rows {
        heard = heard.wrapping_add(mark(&out.next()));
    }
    for i in 0..pairs {
        let c = i.wrapping_mul(7919).checked_rem(rows).unwrap_or(0);
        let _ = out.act(&Act::WantClient { c });
        heard = heard.wrapping_add(mark(&out.next()));
    }
    heard
}

fn mark(event: &Event) -> u64 {
    match event {
        Event::ClientEof { c } => *c,
        _ => 1,
    }
}

fn number(word: Option<String>) -> u64 {
    match word {
        Some(text) => text.as_str().parse::<u64>().unwrap_or(0),
        None => 0,
    }
}

fn main(rt: HostRuntime) -> ExitCode {
    let Ok(words) = env::args(&rt) else {
        return ExitCode::from(2);
    };
    let mut words = words;
    let _ = words.next();
    let mode = number(words.next());
    let rows = number(words.next());
    let pairs = number(words.next());
    let mut fake = Fake::new(rt.alloc(), rows);
    let heard = if mode == 0 {
        drive(&mut fake, rows, pairs)
    } else {
        let mut told = ToldOutside::new(rt, rt.alloc(), fake, 8);
        let heard = drive(&mut told, rows, pairs);
        let dropped = told.dropped();
        let _ = told.into_parts();
        if dropped > 0 {
            return ExitCode::from(3);
        }
        heard
    };
    let _ = println!(rt; "{heard}");
    ExitCode::from(0)
}
END
(cd "$speed" && rt run -- 1 2 2) >"$folder/log" 2>&1 || { tail -n 30 "$folder/log"; exit 1; }
program=$speed/out/told_speed
pairs=4000000
TIMEFORMAT=%U
for rows in 10 100 1000 10000; do
    for mode in 0 1; do
        for _ in 1 2 3 4 5; do
            spent=$({ time "$program" $mode $rows $pairs >"$folder/said$mode"; } 2>&1)
            echo "$rows $mode $spent"
        done
    done
    cmp -s "$folder/said0" "$folder/said1" || { echo "told.sh: the two heard something else"; exit 1; }
done >"$folder/times"
awk -v pairs=$pairs '
    { at = $1 " " $2 }
    !(at in least) || $3 < least[at] { least[at] = $3 }
    END {
        for (rows = 10; rows <= 10000; rows *= 10)
            printf "%d connections: %.0f ns an item told, %.0f ns one of the bare outside\n", rows,
                (least[rows " 1"] - least[rows " 0"]) / pairs / 2 * 1e9, least[rows " 0"] / pairs / 2 * 1e9
    }' "$folder/times"

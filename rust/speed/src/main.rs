//! The static library beside decoders written in Rust with the same recursion, one for any table and three hard-wired to one code each: frames of
//! 512 bits, both coders ending at zero, eight iterations, everything sent. All decode the same frames and must say the same. Rounds are
//! interleaved, and each figure is a median over the rounds. Lists are made once; the library's checks, its clearing of the working list and, for
//! the Rust decoders, the sorting of the frame's values by pass are part of what is timed.
//!
//!     speed [ROUNDS [TABLE]]
//!     speed passes [ROUNDS]
//!     speed samples [ROUNDS]
//!
//! A table is house (the house code), taps8 (3GPP's code, taps 13 and 11), taps16 (taps 19 and 29), drawn8 or drawn16; without one all five. With 0
//! rounds each decoder only decodes the 8 frames once, for a count of instructions: by_library, by_any_table, by_house_only, by_taps8_only and
//! by_taps16_only are functions of their own. With `passes` the library alone, lone passes of 1024 sections by end. With `samples` lists of 4096
//! samples made channel values, by the library and by Rust with the same tests, which rounds by `round_ties_even` or by a sum.
mod any_table;
mod code;
mod decoders;
mod draw;
mod hard_wired;
mod house_only;
mod iterations;
mod passes;
mod samples;
mod stats;
mod taps16_only;
mod taps8_only;
mod trial;

use code::{drawn, from_taps, house, Code};
use decoders::Decode;
use draw::Draw;
use std::process::exit;
use trial::Trial;

const K: usize = 512;
// The end of both coders.
const ZERO: u32 = 0;
const ITERATIONS: usize = 8;
// Frames decoded by each decoder in a round.
const FRAMES: usize = 8;

struct Table {
    name: &'static str,
    title: &'static str,
    // Another is drawn where one is not taken.
    drawn: bool,
    code: fn(&mut Draw) -> Code,
    // The tail sections of each coder.
    tail: usize,
    // The decoder hard-wired to it.
    only: Option<fn(&Trial) -> Decode<'_>>,
}

const TABLES: [Table; 5] = [
    Table { name: "house", title: "house code", drawn: false, code: |_| house(), tail: 2, only: Some(decoders::house_only) },
    Table { name: "taps8", title: "taps 13 and 11", drawn: false, code: |_| from_taps(3, 13, 11), tail: 3, only: Some(decoders::taps8_only) },
    Table { name: "taps16", title: "taps 19 and 29", drawn: false, code: |_| from_taps(4, 19, 29), tail: 4, only: Some(decoders::taps16_only) },
    Table { name: "drawn8", title: "drawn table", drawn: true, code: |d| drawn(d, 8), tail: 2, only: None },
    Table { name: "drawn16", title: "drawn table", drawn: true, code: |d| drawn(d, 16), tail: 2, only: None },
];

// False where coder or decoder does not take frames of this shape.
fn measured(table: &Table, d: &mut Draw, rounds: usize) -> bool {
    let code = (table.code)(d);
    let Some(trial) = Trial::new(d, code, table.tail) else { return false };
    let mut decoders = vec![("library", decoders::library(&trial)), ("any table", decoders::any_table(&trial))];
    decoders.extend(table.only.map(|decoder| ("hard-wired", decoder(&trial))));
    let taken = trial.agree(&mut decoders);
    if taken && rounds > 0 {
        trial.measure(table.title, &mut decoders, rounds);
    }
    taken
}

fn measure(table: &Table, rounds: usize) {
    let mut d = Draw(1);
    while !measured(table, &mut d, rounds) {
        assert!(table.drawn, "{}: frames are refused", table.name);
    }
}

fn usage() -> ! {
    eprintln!("usage: speed [ROUNDS [TABLE]], speed passes [ROUNDS], or speed samples [ROUNDS]; tables: {}", TABLES.map(|t| t.name).join(" "));
    exit(2)
}

fn main() {
    let mut words = std::env::args().skip(1).peekable();
    let other: Option<fn(usize)> = match words.next_if(|word| word == "passes" || word == "samples").as_deref() {
        Some("passes") => Some(passes::measure_all),
        Some(_) => Some(samples::measure_all),
        None => None,
    };
    let rounds = words.next().map_or(100, |w| w.parse().unwrap_or_else(|_| usage()));
    let only = words.next();
    if words.next().is_some() || other.is_some() && only.is_some() {
        usage();
    }
    if let Some(measure_all) = other {
        return measure_all(rounds.max(1));
    }
    let wanted = |table: &&Table| only.as_ref().map_or(true, |name| name == table.name);
    if !TABLES.iter().any(|table| wanted(&table)) {
        usage();
    }
    println!("{K} bits, {ITERATIONS} iterations; {rounds} rounds of {FRAMES} frames");
    TABLES.iter().filter(wanted).for_each(|table| measure(table, rounds));
}

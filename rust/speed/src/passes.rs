// Lone passes of the library by end. A ring takes a sweep forwards and one back from every state, where the others start in one alone.
use crate::code::{from_taps, house, Code};
use crate::draw::Draw;
use crate::stats::{median, ratio};
use std::hint::black_box;
use std::time::Instant;
use turbo::{raw, End};

const N: usize = 1024;
// Passes of each end in a round.
const PASSES: usize = 8;
const ENDS: [End; 3] = [End::Zero, End::Open, End::Ring];

struct Lists {
    marks: Vec<u8>,
    margins: Vec<i32>,
    extrinsics: Vec<i32>,
    work: Vec<i32>,
}

#[inline(never)]
fn by_end(code: &Code, end: End, channel: &[i16], apriori: &[i16], lists: &mut Lists) -> u32 {
    let Code { states, next, words } = code;
    let Lists { marks, margins, extrinsics, work } = lists;
    raw::lone_decode(*states, 2, next, words, end.number(), N, channel, apriori, marks, margins, extrinsics, work, &mut 0)
}

fn measure(name: &str, code: &Code, rounds: usize) {
    let mut d = Draw(1);
    let channel: Vec<i16> = (0..2 * N).map(|_| d.below(201) as i16 - 100).collect();
    let apriori: Vec<i16> = (0..N).map(|_| d.below(201) as i16 - 100).collect();
    let mut lists = Lists { marks: vec![0; N], margins: vec![0; N], extrinsics: vec![0; N], work: vec![0; (N + 1) * code.states] };
    let mut times = [Vec::new(), Vec::new(), Vec::new()];
    for _ in 0..rounds {
        for (times, end) in times.iter_mut().zip(ENDS) {
            let start = Instant::now();
            for _ in 0..PASSES {
                assert_eq!(by_end(black_box(code), end, &channel, &apriori, &mut lists), 0);
            }
            times.push(start.elapsed().as_secs_f64() * 1e6 / PASSES as f64);
        }
    }
    let [zero, open, ring] = &times;
    println!("{name}: microseconds a pass: zero {:.1}, open {:.1}, ring {:.1}", median(zero), median(open), median(ring));
    for (name, times) in [("open", open), ("ring", ring)] {
        println!("  {name} / zero: {}", ratio(times, zero));
    }
}

pub fn measure_all(rounds: usize) {
    println!("{N} sections; {rounds} rounds of {PASSES} passes of each end");
    measure("house code, 4 states", &house(), rounds);
    measure("taps 13 and 11, 8 states", &from_taps(3, 13, 11), rounds);
    measure("taps 19 and 29, 16 states", &from_taps(4, 19, 29), rounds);
}

//! Random calls of the static library against the plain receiver: tables of every size, frames short and long, sheets of every K, valid and
//! damaged calls, each end and each pair of ends; small frames against passes that write every path out; frames whose values have the right signs;
//! calls and sheets with their answers written out; every table from taps, every polynomial pattern of up to 200 entries, and frames over such
//! tables; butterflies, and tables close to one; samples of a radio on each channel, by their bits. The number returned, the index told with it, every
//! list written, every list read and what stands beside each list are compared. Exit status 1 on any difference, or where a number that an entry can
//! give, by any end or pair of ends too, or a line that it must tell, was never given, or where one was given that it must not give.
//!
//!     compare                   120,000 short calls and 261 long ones; 10,000 small frames by all their paths; 2,000 right-signed frames after 1 to
//!                               8 iterations; 105 calls with their answers; 20,000 with values out of range; all 680 tables from taps and 20,000
//!                               damaged calls for one; the patterns of all 2,686,700 polynomials with K up to 200, and 20,000 drawn and damaged
//!                               ones up to 4,096; 20,000 frames over tables from taps; 60,000 passes and 20,000 frames over butterflies and
//!                               tables close to one; 3,400,000 calls for samples, of which those that are done have more than 10,000,000 samples,
//!                               and 68 with their answers; 1,024 sheets of every K, 515 with a fault in each line, 16,383 with each set of
//!                               values of a small sheet out of range, 1,544 with each value of the largest, 35,000 damaged ones; hints on
//!                               40,000 drawn texts and 10,000 damaged sheets
//!     compare --long            twenty times the calls, and each of the 2^32 samples once under one setting (the stage samples-all)
//!     compare --seed N          other calls; the seed is printed
//!     compare --only STAGE      one stage
//!     compare --call STAGE I    one call again, by the index that a difference names
mod butterflies;
mod call_cases;
mod calls;
mod draw;
mod ends;
mod hints;
mod lent;
mod right_signed;
mod sample_cases;
mod samples;
mod sheet_cases;
mod sheet_faults;
mod sheets;
mod taps;

use calls::{Answer, NUMBERS};
use draw::Draw;
use ends::{PAIRS, SINGLE};
use sheet_cases::CASES;
use std::ops::Range;
use std::process::exit;
use std::time::{Duration, Instant};

struct Stage {
    name: &'static str,
    calls: u64,
    run: fn(&mut Draw, u64) -> Answer,
    // The numbers that may be given.
    numbers: &'static [u32],
    // Each of them must be given; in stages of few calls only 0 must.
    all: bool,
    // The lines that must each be told with 1, and those with 6.
    lines: Range<usize>,
    value_lines: Range<usize>,
    // How many places ends have, each of which must be answered by 0; none where ends are not asked for.
    ends: usize,
    // The channel values of samples that must be compared at least.
    values: u64,
    // There are no more calls than these.
    once: bool,
    // Only in the long run, or where it is named.
    long: bool,
}

// What most stages have in common.
const EACH: Stage = Stage {
    name: "",
    calls: 0,
    run: |_, _| unreachable!(),
    numbers: &[],
    all: true,
    lines: 0..0,
    value_lines: 0..0,
    ends: 0,
    values: 0,
    once: false,
    long: false,
};

const LONE: &[u32] = &[0, 2, 3, 4, 5, 6, 12, 16];
const CODER: &[u32] = &[0, 2, 3, 4, 5, 7, 8, 9, 11, 14];
const DECODER: &[u32] = &[0, 2, 3, 4, 5, 6, 8, 9, 10, 11, 12, 13];
const TABLE: &[u32] = &[0, 2, 15];
const PATTERN: &[u32] = &[0, 4, 5, 8, 15];
const SAMPLES: &[u32] = &[0, 5, 17, 18];
const CALLS: &[u32] = &[0, 2, 3, 4, 5, 6, 7, 8, 9, 10, 11, 12, 13, 14, 15, 16];
const SHEET: &[u32] = &[0, 1, 6, 8];
// Hints have numbers of their own.
const HINT: &[u32] = &[0, 1, 2, 3, 4, 5, 6, 7, 8, 9];

const STAGES: &[Stage] = &[
    Stage { name: "house", calls: 21, run: |d, i| calls::house(d, i as usize), numbers: &[0, 5], once: true, ..EACH },
    Stage { name: "lone", calls: 40_000, run: |d, _| calls::lone_decode(d), numbers: LONE, ends: SINGLE, ..EACH },
    Stage { name: "coder", calls: 40_000, run: |d, _| calls::encode(d), numbers: CODER, ends: PAIRS, ..EACH },
    Stage { name: "decoder", calls: 40_000, run: |d, _| calls::decode(d), numbers: DECODER, ends: PAIRS, ..EACH },
    Stage { name: "decoder-listed", calls: 10_000, run: |d, _| calls::decode_listed(d), numbers: DECODER, ends: PAIRS, ..EACH },
    // A coded frame has a path, so never 12.
    Stage { name: "right-signed", calls: 2_000, run: |d, _| right_signed::after_each(d), numbers: &[0, 13], all: false, ends: PAIRS, ..EACH },
    Stage { name: "call-cases", calls: call_cases::CASES.len() as u64, run: call_cases::case, numbers: CALLS, once: true, ..EACH },
    Stage { name: "lone-values", calls: 10_000, run: |d, _| calls::lone_values(d), numbers: &[6, 16], ..EACH },
    Stage { name: "decoder-values", calls: 10_000, run: |d, _| calls::decode_values(d), numbers: &[6], ..EACH },
    Stage { name: "lone-long", calls: 99, run: calls::lone_long, numbers: LONE, all: false, ends: SINGLE, ..EACH },
    Stage { name: "coder-long", calls: 99, run: calls::encode_long, numbers: CODER, all: false, ends: PAIRS, ..EACH },
    Stage { name: "decoder-long", calls: 63, run: calls::decode_long, numbers: DECODER, all: false, ends: PAIRS, ..EACH },
    Stage { name: "taps", calls: taps::CODES, run: taps::every_table, numbers: &[0], once: true, ..EACH },
    Stage { name: "taps-damaged", calls: 20_000, run: |d, _| taps::damaged_table(d), numbers: TABLE, ..EACH },
    Stage { name: "polynomials", calls: taps::POLYNOMIALS, run: taps::every_pattern, numbers: &[0, 8], once: true, ..EACH },
    Stage { name: "polynomials-drawn", calls: 20_000, run: |d, _| taps::drawn_pattern(d), numbers: PATTERN, ..EACH },
    // Two zero ends and as many tail sections as register bits: no frame is refused, so never by 12, 13 or 14.
    Stage { name: "taps-coder", calls: 10_000, run: |d, _| taps::encode(d), numbers: &[0], ..EACH },
    Stage { name: "taps-decoder", calls: 10_000, run: |d, _| taps::decode(d), numbers: &[0], ..EACH },
    Stage { name: "butterflies", calls: 60_000, run: |d, _| butterflies::lone_decode(d), numbers: LONE, ends: SINGLE, ..EACH },
    Stage { name: "butterflies-decoder", calls: 20_000, run: |d, _| butterflies::decode(d), numbers: DECODER, ends: PAIRS, ..EACH },
    Stage { name: "samples", calls: 3_400_000, run: |d, _| samples::drawn(d), numbers: SAMPLES, values: 10_000_000, ..EACH },
    Stage { name: "samples-cases", calls: sample_cases::CASES.len() as u64, run: sample_cases::case, numbers: SAMPLES, once: true, ..EACH },
    Stage { name: "samples-all", calls: samples::LISTS, run: samples::every, numbers: &[0, 18], values: samples::FINITE, once: true, long: true, ..EACH },
    Stage { name: "sheet-cases", calls: CASES.len() as u64, run: sheets::case, numbers: SHEET, lines: 0..5, value_lines: 2..5, once: true, ..EACH },
    Stage { name: "sheet", calls: 1_024, run: |d, i| sheets::valid(d, i as usize % 512 + 1), numbers: &[0], ..EACH },
    Stage { name: "sheet-lines", calls: 515, run: |d, i| sheets::faulty(d, i as usize % 515), numbers: &[1], lines: 1..516, ..EACH },
    Stage { name: "sheet-values", calls: sheets::VALUE_SETS, run: sheets::value_set, numbers: &[6], value_lines: 2..6, ..EACH },
    Stage { name: "sheet-values-lines", calls: sheets::VALUE_PLACES, run: sheets::value_place, numbers: &[6], value_lines: 2..516, ..EACH },
    Stage { name: "sheet-damaged", calls: 35_000, run: sheets::damaged, numbers: SHEET, lines: 0..9, value_lines: 2..9, ..EACH },
    Stage { name: "hints", calls: 40_000, run: |d, _| hints::drawn(d), numbers: HINT, ..EACH },
    Stage { name: "hints-damaged", calls: 10_000, run: hints::damaged, numbers: HINT, all: false, ..EACH },
];

fn usage() -> ! {
    eprintln!("usage: compare [--long] [--seed N] [--only STAGE] [--call STAGE INDEX]");
    exit(2)
}

fn stage(name: Option<String>) -> &'static Stage {
    name.and_then(|n| STAGES.iter().find(|s| s.name == n)).unwrap_or_else(|| {
        eprintln!("stages: {}", STAGES.iter().map(|s| s.name).collect::<Vec<_>>().join(" "));
        usage()
    })
}

fn number(word: Option<String>) -> u64 {
    word.and_then(|w| w.parse().ok()).unwrap_or_else(|| usage())
}

// Runs a stage and says whether all is well.
fn run(s: &Stage, seed: u64, times: u64) -> bool {
    let times = if s.once { 1 } else { times };
    let calls = s.calls * times;
    let (mut given, mut lines, mut value_lines) = (vec![0u64; NUMBERS as usize + 1], vec![0u64; 1 << 10], vec![0u64; 1 << 10]);
    let mut by_ends = vec![vec![0u64; NUMBERS as usize + 1]; s.ends + 1];
    let (mut differing, mut values, mut told) = (0, 0, Instant::now());
    for i in 0..calls {
        let answer = (s.run)(&mut Draw::for_call(seed, s.name, i), i);
        given[answer.number.min(NUMBERS) as usize] += 1;
        lines[answer.line.min(1023)] += (answer.number == 1) as u64;
        value_lines[answer.line.min(1023)] += (answer.number == 6) as u64;
        values += answer.values as u64;
        by_ends[answer.ends.unwrap_or(s.ends).min(s.ends)][answer.number.min(NUMBERS) as usize] += 1;
        if !answer.differences.is_empty() {
            differing += 1;
            if differing <= 3 {
                println!("{}: call {i} of seed {seed} differs: {}", s.name, answer.differences.join("; "));
            }
        }
        if told.elapsed() > Duration::from_secs(5) {
            eprintln!("{}: {} of {calls} calls", s.name, i + 1);
            told = Instant::now();
        }
    }
    let counts: Vec<String> = (0..given.len()).filter(|&n| given[n] > 0).map(|n| format!("{n}:{}", given[n])).collect();
    println!("{}: seed {seed}, {calls} calls, {differing} differ; numbers given {}", s.name, counts.join(" "));
    let lines_told = all_told(s.name, 1, &s.lines, &lines) & all_told(s.name, 6, &s.value_lines, &value_lines);
    let ends_answered = s.ends == 0 || ends::all_answered(s.name, s.numbers, s.all, &by_ends);
    all_given(s, &given) & lines_told & ends_answered & all_compared(s.name, s.values * times, values) & (differing == 0)
}

// The numbers given are those of the stage.
fn all_given(s: &Stage, given: &[u64]) -> bool {
    let mut good = true;
    for n in 0..given.len() {
        let wanted = s.numbers.contains(&(n as u32));
        if wanted && given[n] == 0 && (s.all || n == 0) {
            println!("{}: {n} was never given", s.name);
            good = false;
        }
        if !wanted && given[n] > 0 {
            println!("{}: {n} was given", s.name);
            good = false;
        }
    }
    good
}

// The channel values of samples that were compared are at least those of the stage; one that must have none is not asked.
fn all_compared(stage: &str, wanted: u64, values: u64) -> bool {
    if wanted > 0 {
        println!("{stage}: {values} values of samples compared, asked {wanted} or more");
    }
    values >= wanted
}

// The lines told with a number are at least those of the stage; one that must tell none is not asked.
fn all_told(stage: &str, number: u32, wanted: &Range<usize>, lines: &[u64]) -> bool {
    if wanted.is_empty() {
        return true;
    }
    let told = |l: usize| format!("{l}:{}", lines[l]);
    let first: Vec<String> = (0..10).filter(|&l| lines[l] > 0).map(told).collect();
    let after = lines[10..].iter().filter(|&&n| n > 0).count();
    println!("{stage}: lines told with {number} {} and {after} more lines", first.join(" "));
    let never: Vec<usize> = wanted.clone().filter(|&l| lines[l] == 0).collect();
    for line in &never {
        println!("{stage}: {number} was never told with line {line}");
    }
    never.is_empty()
}

fn main() {
    let (mut seed, mut times, mut only, mut call) = (1, 1, None, None);
    let mut words = std::env::args().skip(1);
    while let Some(word) = words.next() {
        match word.as_str() {
            "--long" => times = 20,
            "--seed" => seed = number(words.next()),
            "--only" => only = Some(stage(words.next()).name),
            "--call" => call = Some((stage(words.next()), number(words.next()))),
            _ => usage(),
        }
    }
    if let Some((s, i)) = call {
        let answer = (s.run)(&mut Draw::for_call(seed, s.name, i), i);
        println!("{}: call {i} of seed {seed}: number {}; differences: {:?}", s.name, answer.number, answer.differences);
        exit(!answer.differences.is_empty() as i32);
    }
    let mut good = true;
    for s in STAGES.iter().filter(|s| only.map_or(times > 1 || !s.long, |n| n == s.name)) {
        good &= run(s, seed, times);
    }
    println!("{}", if good { "no difference" } else { "DIFFERENT" });
    exit(!good as i32);
}

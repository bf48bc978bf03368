//! The trials behind docs/SHAFT.md, on shafts drawn by the seeded model.
//!
//! ```text
//! trial weak      does margin, margin/sound, heard or the mark find one weak row? And how often is one and the same position the lowest
//!                 margin of a sound shaft?
//! trial rule      other rules for marking: weak rows found, and sound rows marked falsely
//! trial time N    the library's own time for N answers, K = 64, on one thread
//! ```
use shaft::frame::Frame;
use shaft::group::{groups, Group, Position};
use shaft::mark::{marked, BELOW};
use shaft::model::{weak_row, Model, Shaft};
use shaft::sound::SoundFrames;
use std::hint::black_box;
use std::time::Instant;

const SHAFTS: u64 = 30;
const FRAMES: usize = 20;

// The frames received from a shaft, and how many of them have a wrong bit.
fn received(model: &Model, seed: u64, count: usize) -> (Vec<Frame>, usize) {
    let mut shaft = Shaft::new(model.clone(), seed);
    let sound_frames = SoundFrames::default();
    let mut wrong = 0;
    let frames = (0..count).map(|_| {
        let (message, sheet) = shaft.receive();
        let frame = Frame::of(sheet.text().as_bytes(), &sound_frames).expect("the model's sheets are decoded");
        wrong += usize::from(frame.bits != message);
        frame
    });
    (frames.collect(), wrong)
}

fn grouped(frames: &[Frame]) -> Group<'_> {
    groups(frames.iter().enumerate(), BELOW).pop().expect("a shaft has one pattern")
}

fn named(masks: &[u8]) -> String {
    let names: Vec<String> = masks.iter().map(u8::to_string).collect();
    names.join(" ")
}

// Whether no other position has less.
fn lowest(group: &Group, row: usize, of: impl Fn(&Position) -> f64) -> bool {
    group.positions.iter().all(|p| of(&group.positions[row]) <= of(p))
}

#[derive(Default)]
struct Found {
    by_median: usize,
    by_over_sound: usize,
    by_heard: usize,
    by_mark: usize,
    falsely: usize,
    wrong: usize,
}

fn found(model: &Model) -> Found {
    let mut found = Found::default();
    for seed in 1..=SHAFTS {
        let (frames, wrong) = received(model, seed, FRAMES);
        let group = grouped(&frames);
        let weak = model.weak;
        found.by_median += usize::from(lowest(&group, weak, |p| p.twice_median as f64));
        found.by_over_sound += usize::from(lowest(&group, weak, |p| p.over_sound.unwrap_or(f64::INFINITY)));
        found.by_heard += usize::from(lowest(&group, weak, |p| p.mean_heard.unwrap_or(f64::INFINITY)));
        let marked = group.marked();
        found.by_mark += usize::from(marked.contains(&weak));
        found.falsely += marked.iter().filter(|&&row| row != weak).count();
        found.wrong += wrong;
    }
    found
}

// Which sizes, masks and noises are tried: everything sent, and half of the parities.
const SHAPES: [(usize, &[u8], &[i64]); 4] =
    [(64, &[7], &[30, 60, 90]), (64, &[6, 5], &[30, 60]), (512, &[7], &[30, 60, 90]), (512, &[6, 5], &[30, 60])];
const GAINS: [i64; 5] = [100, 50, 30, 12, -50];

fn models(gain: i64) -> impl Iterator<Item = Model> {
    let model = move |bits, masks: &[u8], noise| Model { bits, masks: masks.to_vec(), weak: weak_row(bits), gain, noise };
    SHAPES.into_iter().flat_map(move |(bits, masks, noises)| noises.iter().map(move |&noise| model(bits, masks, noise)))
}

// The position that has the lowest margin most often: in how many frames.
fn most_often_lowest(frames: &[Frame]) -> usize {
    let mut times = vec![0; frames[0].bits.len()];
    for frame in frames {
        let sizes = frame.margins.iter().map(|m| m.abs());
        let (_, lowest) = sizes.zip(0..).min().expect("a frame has positions");
        times[lowest] += 1;
    }
    times.into_iter().max().unwrap_or(0)
}

// The least, the middle one and the most of that over the shafts of a model.
fn same_lowest(model: &Model) -> String {
    let mut times: Vec<usize> = (1..=SHAFTS).map(|seed| most_often_lowest(&received(model, seed, FRAMES).0)).collect();
    times.sort_unstable();
    format!("{} {} {}", times[0], times[times.len() / 2], times[times.len() - 1])
}

// With gain 100 the weak row is a row like any other.
fn weak() {
    println!("| K | Masks | Noise | {} | Others marked | Wrong | Same lowest |", GAINS.map(|gain| format!("{gain} %")).join(" | "));
    println!("|---|---|---|{}---|---|---|", "---|".repeat(GAINS.len()));
    for sound in models(100) {
        let found = GAINS.map(|gain| found(&Model { gain, ..sound.clone() }));
        let by_gain = found.each_ref().map(|f| format!("{} {} {} {}", f.by_median, f.by_over_sound, f.by_heard, f.by_mark));
        let falsely: usize = found.iter().map(|f| f.falsely).sum();
        let wrong: usize = found.iter().map(|f| f.wrong).sum();
        print!("| {} | {} | {} | {} |", sound.bits, named(&sound.masks), sound.noise, by_gain.join(" | "));
        let (rows, frames) = (GAINS.len() * SHAFTS as usize * (sound.bits - 1), GAINS.len() * SHAFTS as usize * FRAMES);
        println!(" {falsely} of {rows} | {wrong} of {frames} | {} |", same_lowest(&sound));
    }
}

// Rules that take the numbers of frames below the limit and not below it, and the number that the program's rule needs.
type Rule = (&'static str, fn(usize, usize, Option<usize>) -> bool);
const RULES: [Rule; 4] = [
    ("half, at least 3", |below, not, _| below >= 3 && below >= not),
    ("two thirds, at least 5", |below, not, _| below >= 5 && below >= 2 * not),
    ("4 more than not", |below, not, _| below >= not + 4),
    ("as many more as chance asks for", |below, not, needed| marked(below, below + not, needed)),
];

// Under each rule, in how many shafts the weak row is marked, and how many other rows in all.
fn by_rule(model: &Model, frames: usize) -> [(usize, usize); RULES.len()] {
    let mut counts = [(0, 0); RULES.len()];
    for seed in 1..=SHAFTS {
        let (received, _) = received(model, seed, frames);
        let group = grouped(&received);
        for (count, (_, rule)) in counts.iter_mut().zip(RULES) {
            let marked: Vec<usize> = group.positions.iter().filter(|p| rule(p.below, p.heard - p.below, group.needed)).map(|p| p.at).collect();
            let weak = usize::from(marked.contains(&model.weak));
            *count = (count.0 + weak, count.1 + marked.len() - weak);
        }
    }
    counts
}

// Over all shapes together.
fn rule() {
    let runs = [(12, 4), (12, 6), (12, 10), (12, 20), (30, 20), (30, 100)];
    println!("| Rule | {} |", runs.map(|(gain, frames)| format!("{gain} %, {frames} frames")).join(" | "));
    println!("|---|{}", "---|".repeat(runs.len()));
    let mut lines = RULES.map(|(name, _)| format!("| {name} |"));
    for (gain, frames) in runs {
        let mut sums = [(0, 0); RULES.len()];
        for model in models(gain) {
            for (sum, count) in sums.iter_mut().zip(by_rule(&model, frames)) {
                *sum = (sum.0 + count.0, sum.1 + count.1);
            }
        }
        for (line, (weak, falsely)) in lines.iter_mut().zip(sums) {
            *line += &format!(" {weak}, {falsely} |");
        }
    }
    println!("{}", lines.join("\n"));
}

fn time(count: usize) {
    let mut shaft = Shaft::new(Model { bits: 64, masks: vec![7], weak: weak_row(64), gain: 12, noise: 30 }, 1);
    let sheets: Vec<String> = (0..count).map(|_| shaft.receive().1.text()).collect();
    let start = Instant::now();
    for sheet in &sheets {
        black_box(turbo::sheet(black_box(sheet.as_bytes())));
    }
    println!("{count} answers in {} ms on one thread", start.elapsed().as_millis());
}

fn main() {
    let args: Vec<String> = std::env::args().skip(1).collect();
    match args.iter().map(String::as_str).collect::<Vec<_>>()[..] {
        ["weak"] => weak(),
        ["rule"] => rule(),
        ["time", count] if count.parse::<usize>().is_ok() => time(count.parse().unwrap_or(0)),
        _ => {
            eprintln!("usage: trial weak | rule | time N");
            std::process::exit(2);
        }
    }
}

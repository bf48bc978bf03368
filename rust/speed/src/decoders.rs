// The decoders that are measured. Each is a function of its own, so that a count of instructions tells them apart.
use crate::any_table::AnyTable;
use crate::code::Code;
use crate::hard_wired::HardWired;
use crate::house_only::House;
use crate::iterations::{Decoder, Pass, Said};
use crate::taps16_only::Taps16;
use crate::taps8_only::Taps8;
use crate::trial::Trial;
use crate::{ITERATIONS, K, ZERO};
use turbo::raw;

// Decodes a frame, and says whether it was taken.
pub type Decode<'a> = Box<dyn FnMut(&[i16], &mut Said) -> bool + 'a>;

#[inline(never)]
fn by_library(trial: &Trial, work: &mut [i32], frame: &[i16], said: &mut Said) -> u32 {
    let Trial { code: Code { states, next, words }, tail, pattern, .. } = trial;
    let Said { bits, margins, extrinsics } = said;
    raw::decode(*states, 2, next, words, ZERO, ZERO, K, *tail, pattern, &[7], frame, ITERATIONS, bits, margins, extrinsics, work, &mut 0)
}

#[inline(never)]
fn by_any_table(d: &mut Decoder<AnyTable>, pattern: &[u32], frame: &[i16], said: &mut Said) {
    d.decode(frame, pattern, said);
}

#[inline(never)]
fn by_house_only(d: &mut Decoder<HardWired<House, 4>>, pattern: &[u32], frame: &[i16], said: &mut Said) {
    d.decode(frame, pattern, said);
}

#[inline(never)]
fn by_taps8_only(d: &mut Decoder<HardWired<Taps8, 8>>, pattern: &[u32], frame: &[i16], said: &mut Said) {
    d.decode(frame, pattern, said);
}

#[inline(never)]
fn by_taps16_only(d: &mut Decoder<HardWired<Taps16, 16>>, pattern: &[u32], frame: &[i16], said: &mut Said) {
    d.decode(frame, pattern, said);
}

pub fn library(trial: &Trial) -> Decode<'_> {
    let mut work = vec![0; (trial.sections() + 1) * trial.code.states];
    Box::new(move |frame, said| by_library(trial, &mut work, frame, said) == 0)
}

// A decoder in Rust takes every frame.
fn in_rust<'a, P: Pass + 'a>(trial: &'a Trial, pass: P, by: fn(&mut Decoder<P>, &[u32], &[i16], &mut Said)) -> Decode<'a> {
    let mut d = Decoder::new(pass, trial.sections());
    Box::new(move |frame, said| {
        by(&mut d, &trial.pattern, frame, said);
        true
    })
}

pub fn any_table(trial: &Trial) -> Decode<'_> {
    in_rust(trial, AnyTable::new(&trial.code, trial.sections()), by_any_table)
}

pub fn house_only(trial: &Trial) -> Decode<'_> {
    in_rust(trial, HardWired::new(trial.sections()), by_house_only)
}

pub fn taps8_only(trial: &Trial) -> Decode<'_> {
    in_rust(trial, HardWired::new(trial.sections()), by_taps8_only)
}

pub fn taps16_only(trial: &Trial) -> Decode<'_> {
    in_rust(trial, HardWired::new(trial.sections()), by_taps16_only)
}

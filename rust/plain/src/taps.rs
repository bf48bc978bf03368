//! Tables of codes named by their taps, and patterns given by polynomials.
use crate::{rules, Table};
use std::collections::VecDeque;

/// A code's memory and its two tap numbers, in which bit i is the coefficient of D^i.
#[derive(Clone, Copy, Debug)]
pub struct Code {
    pub memory: usize,
    pub feedback: u32,
    pub parity: u32,
}

/// A pattern of K = `bits` entries, given by its factors.
#[derive(Clone, Copy, Debug)]
pub struct Polynomial {
    pub bits: usize,
    pub f1: usize,
    pub f2: usize,
}

fn tapped(taps: u32, age: usize) -> bool {
    taps >> age & 1 == 1
}

// The coder's shift register, the youngest bit in front.
struct Register(VecDeque<bool>);

impl Register {
    // Before a step the youngest bit is one step old, and it is bit 0 of the state.
    fn in_state(state: usize, memory: usize) -> Register {
        Register((0..memory).map(|i| state >> i & 1 == 1).collect())
    }

    fn state(&self) -> u8 {
        self.0.iter().rev().fold(0, |state, &bit| 2 * state + bit as u8)
    }

    // Takes in one input and says the parity: each one under a tap turns the sum over.
    fn step(&mut self, code: &Code, input: bool) -> bool {
        let mut new = input;
        for (i, &bit) in self.0.iter().enumerate() {
            if bit && tapped(code.feedback, i + 1) {
                new = !new;
            }
        }
        self.0.push_front(new);
        let mut parity = false;
        for (age, &bit) in self.0.iter().enumerate() {
            if bit && tapped(code.parity, age) {
                parity = !parity;
            }
        }
        self.0.pop_back();
        parity
    }
}

/// The table of a code, for lists of next states and words of these lengths.
pub fn table(code: &Code, lengths: [usize; 2]) -> Result<Table, u32> {
    let applying = [(2, rules::tap_lists(code, lengths)), (15, rules::taps(code))];
    if let Some(number) = rules::lowest(&applying) {
        return Err(number);
    }
    let mut t = Table { states: 1 << code.memory, outputs: 2, next: Vec::new(), words: Vec::new() };
    for state in 0..t.states {
        for input in [false, true] {
            let mut register = Register::in_state(state, code.memory);
            let parity = register.step(code, input);
            t.next.push(register.state());
            t.words.push(input as u8 + 2 * parity as u8);
        }
    }
    Ok(t)
}

/// The pattern of a polynomial, for a list of this length.
pub fn pattern(p: &Polynomial, length: usize) -> Result<Vec<u32>, u32> {
    let applying = [(15, rules::factors(p)), (4, rules::sections(p.bits)), (5, rules::lists(&[(length, p.bits as u128)]))];
    if let Some(number) = rules::lowest(&applying) {
        return Err(number);
    }
    let mut seen = vec![false; p.bits];
    let mut entries = Vec::with_capacity(p.bits);
    for i in 0..p.bits as u128 {
        let entry = ((p.f1 as u128 * i + p.f2 as u128 * i * i) % p.bits as u128) as usize;
        // As many entries as there are numbers below K: each comes once unless one comes twice.
        if std::mem::replace(&mut seen[entry], true) {
            return Err(8);
        }
        entries.push(entry as u32);
    }
    Ok(entries)
}

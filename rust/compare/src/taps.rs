// Tables from taps and patterns from polynomials, all the small ones, drawn ones and damaged calls; and frames over such tables.
use crate::calls::{self, answer, Answer, Differences};
use crate::draw::{self, Draw};
use crate::lent::List;
use plain::taps::{self, Code, Polynomial};
use plain::{coder, frame_decoder, End, Frame};
use turbo::raw;

const EIGHT_STATES: Code = Code { memory: 3, feedback: 13, parity: 11 };

// For each memory every odd feedback number with every parity number.
pub const CODES: u64 = 8 + 32 + 128 + 512;

const MOST_EVERY: u64 = 200;

// For each K every f1 and f2: the sum of the squares up to the most.
pub const POLYNOMIALS: u64 = MOST_EVERY * (MOST_EVERY + 1) * (2 * MOST_EVERY + 1) / 6;

// The branches of a table, two a state. There are as many tap numbers.
fn branches(memory: usize) -> usize {
    2 << memory
}

fn code(index: u64) -> Code {
    let mut at = index as usize;
    for memory in 1..=4 {
        let numbers = branches(memory);
        let codes = numbers / 2 * numbers;
        if at < codes {
            return Code { memory, feedback: (at / numbers * 2 + 1) as u32, parity: (at % numbers) as u32 };
        }
        at -= codes;
    }
    panic!("there is no code {index}")
}

fn polynomial(index: u64) -> Polynomial {
    let mut at = index as usize;
    for bits in 1..=MOST_EVERY as usize {
        if at < bits * bits {
            return Polynomial { bits, f1: at / bits, f2: at % bits };
        }
        at -= bits * bits;
    }
    panic!("there is no polynomial {index}")
}

pub fn table(d: &mut Draw, code: Code, lengths: [usize; 2]) -> Answer {
    let asked = taps::table(&code, lengths);
    let mut next = List::any("next", d, lengths[0]);
    let mut words = List::any("words", d, lengths[1]);
    let number = raw::taps_table(code.memory, code.feedback, code.parity, next.entries_mut(), words.entries_mut());
    let mut x = Differences::new(number, asked.as_ref().err().copied().unwrap_or(0));
    x.add(next.check(asked.as_ref().ok().map(|t| &t.next[..])));
    x.add(words.check(asked.as_ref().ok().map(|t| &t.words[..])));
    answer(number, x, (code, lengths))
}

pub fn every_table(d: &mut Draw, index: u64) -> Answer {
    let code = code(index);
    table(d, code, [branches(code.memory); 2])
}

pub fn damaged_table(d: &mut Draw) -> Answer {
    let mut code = code(d.below(CODES as usize) as u64);
    let numbers = branches(code.memory);
    let mut lengths = [numbers; 2];
    for _ in 0..calls::faults(d) {
        match d.below(7) {
            0 => {
                // Another memory, sometimes with the lists that would be its own; of the larger ones the low bits are in range.
                let memory = code.memory % 8;
                code.memory = d.of(&[0, 5, 6, memory + 1, memory + 64, memory + 256, memory + (1 << 32)]);
                if code.memory < 8 && d.chance(2) {
                    lengths = [branches(code.memory); 2];
                }
            }
            1 => code.memory = d.of(&draw::WILD),
            2 => {
                let which = d.below(2);
                lengths[which] = draw::off(d, lengths[which]);
            }
            3 => lengths = [draw::off(d, lengths[0]); 2],
            4 => code.feedback &= !1,
            5 => code.feedback = too_large(d, code.feedback, numbers),
            _ => code.parity = too_large(d, code.parity, numbers),
        }
    }
    table(d, code, lengths)
}

// A tap number that is out of range, the least of them included; cut to fewer bits some are in range.
fn too_large(d: &mut Draw, taps: u32, numbers: usize) -> u32 {
    let least = numbers as u32;
    d.of(&[least, least + 1, least | taps, taps | 256, taps | 1 << 16, taps | 1 << 31, u32::MAX])
}

pub fn pattern(d: &mut Draw, p: Polynomial, length: usize) -> Answer {
    let asked = taps::pattern(&p, length);
    let mut pattern = List::any("pattern", d, length);
    let number = raw::polynomial_pattern(p.bits, p.f1, p.f2, pattern.entries_mut());
    let mut x = Differences::new(number, asked.as_ref().err().copied().unwrap_or(0));
    x.add(pattern.check(asked.as_deref().ok()));
    answer(number, x, (p, length))
}

pub fn every_pattern(d: &mut Draw, index: u64) -> Answer {
    let p = polynomial(index);
    pattern(d, p, p.bits)
}

fn product_of_primes(n: usize) -> usize {
    (2..=n).filter(|p| n % p == 0 && (2..*p).all(|q| p % q != 0)).product()
}

// Any factors; or an f2 that all primes of K divide, 0 among them, with which most f1 make a permutation.
fn drawn_polynomial(d: &mut Draw, bits: usize) -> Polynomial {
    let f1 = d.below(bits);
    let primes = product_of_primes(bits);
    let f2 = if d.chance(4) { d.below(bits) } else { primes * d.below(bits / primes) };
    Polynomial { bits, f1, f2 }
}

pub fn drawn_pattern(d: &mut Draw) -> Answer {
    let bits = match d.below(5) {
        0 => 1 << d.below(13),
        1 => d.size(4090, 4096),
        2 => d.size(1, 40),
        _ => d.size(1, 4096),
    };
    let mut p = drawn_polynomial(d, bits);
    // The largest sums are near the limits.
    if d.chance(10) {
        (p.f1, p.f2) = (bits - 1, bits.saturating_sub(2));
    }
    let mut length = bits;
    for _ in 0..calls::faults(d) {
        match d.below(6) {
            0 => {
                p.bits = d.of(&[0, 4097, 4098, 5000, bits + 1, bits - 1]);
                if d.chance(2) {
                    length = p.bits;
                }
            }
            1 => p.bits = d.of(&draw::WILD),
            2 | 3 => length = draw::off(d, length),
            4 => p.f1 = d.of(&[p.bits, p.bits.wrapping_add(1), p.f1.wrapping_add(1 << 32), usize::MAX, usize::MAX - 1]),
            _ => p.f2 = d.of(&[p.bits, p.bits.wrapping_add(1), p.f2.wrapping_add(1 << 32), usize::MAX, usize::MAX - 1]),
        }
    }
    pattern(d, p, length)
}

fn permuting(d: &mut Draw, bits: usize) -> Vec<u32> {
    loop {
        let p = drawn_polynomial(d, bits);
        if let Ok(pattern) = taps::pattern(&p, bits) {
            return pattern;
        }
    }
}

// A frame with two zero ends and as many tail sections as register bits, every fourth with the eight-state code, and half with a polynomial pattern.
fn frame(d: &mut Draw) -> Frame {
    let code = if d.chance(4) { EIGHT_STATES } else { code(d.below(CODES as usize) as u64) };
    let table = taps::table(&code, [branches(code.memory); 2]).expect("a code in range");
    let most = if d.chance(500) { 4096 } else { calls::short(d) };
    let bits = d.size(1, most - code.memory);
    let pattern = if d.chance(2) { permuting(d, bits) } else { draw::permutation(d, bits) };
    Frame { table, ends: [End::Zero; 2], bits, tail: code.memory, pattern, masks: draw::masks(d) }
}

pub fn encode(d: &mut Draw) -> Answer {
    let frame = frame(d);
    let message = (0..frame.bits).map(|_| d.below(2) as u8).collect();
    let length = frame.length();
    calls::encoded(d, &coder::Call { frame, message }, length)
}

pub fn decode(d: &mut Draw) -> Answer {
    let frame = frame(d);
    let iterations = if d.chance(8) { d.size(1, 32) } else { d.size(1, 4) };
    let received = calls::received(d, &frame);
    let lent = calls::lent_for(&frame);
    calls::decoded(d, &frame_decoder::Call { frame, received, iterations }, lent)
}

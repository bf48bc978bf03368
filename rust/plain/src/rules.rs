// The conditions of document 01's table and of document 02, one function each. They may be asked in any order and of any call.
use crate::samples::{Channel, Setting};
use crate::taps::{Code, Polynomial};
use crate::{End, Frame, Table};

pub const CHANNEL_LIMIT: i32 = 1023;
pub const APRIORI_LIMIT: i32 = 8191;
pub const MOST_SECTIONS: u128 = 4096;

// The numbers from the lowest on: 15 stands straight after 2, 17 and 18 straight before 6, and 16 straight after 6.
const ORDER: [u32; 18] = [1, 2, 15, 3, 4, 5, 17, 18, 6, 16, 7, 8, 9, 10, 11, 12, 13, 14];

pub fn lowest(applying: &[(u32, bool)]) -> Option<u32> {
    let place = |number: &u32| ORDER.iter().position(|n| n == number).expect("a number of the order");
    applying.iter().filter(|a| a.1).map(|a| a.0).min_by_key(place)
}

fn differs(length: usize, asked: u128) -> bool {
    length as u128 != asked
}

// 2
pub fn shape(t: &Table) -> bool {
    let s = t.states as u128;
    !(1..=16).contains(&s) || !(1..=4).contains(&t.outputs) || differs(t.next.len(), 2 * s) || differs(t.words.len(), 2 * s)
}

// 2, for ends
pub fn ends(ends: &[End]) -> bool {
    ends.iter().any(|end| !End::ALL.contains(end))
}

// 2, for the lists of a table from taps: measured only where the memory is in range
pub fn tap_lists(code: &Code, lengths: [usize; 2]) -> bool {
    let branches = match code.memory {
        1 => 4,
        2 => 8,
        3 => 16,
        4 => 32,
        _ => return false,
    };
    lengths != [branches; 2]
}

// 15, of a code and of a polynomial
pub fn taps(code: &Code) -> bool {
    let most = match code.memory {
        1 => 0b11,
        2 => 0b111,
        3 => 0b1111,
        4 => 0b11111,
        _ => return true,
    };
    code.feedback > most || code.parity > most || code.feedback & 1 == 0
}

pub fn factors(p: &Polynomial) -> bool {
    p.f1 >= p.bits || p.f2 >= p.bits
}

// 3
pub fn branch(t: &Table) -> bool {
    let words = 1u128 << t.outputs.min(100);
    t.next.iter().any(|&s| s as usize >= t.states) || t.words.iter().any(|&w| w as u128 >= words)
}

// 4, of a lone pass and of a frame
pub fn sections(n: usize) -> bool {
    n < 1 || n as u128 > MOST_SECTIONS
}

pub fn sizes(f: &Frame) -> bool {
    f.bits < 1 || f.tail > 4 || f.bits as u128 + f.tail as u128 > MOST_SECTIONS
}

// 5, for lists that are paired with the lengths asked of them
pub fn lists(pairs: &[(usize, u128)]) -> bool {
    pairs.iter().any(|&(length, asked)| differs(length, asked))
}

// 5, for the frame's list: measured only where 9 does not apply. Where 4 applies the length needn't be worked out.
pub fn frame_list(f: &Frame, length: usize) -> bool {
    !mask(f) && !sizes(f) && length != f.length()
}

// 17, of the numbers that the setting holds; -0 is not below 0
pub fn setting(s: &Setting) -> bool {
    let outside = |x: f32| !x.is_finite() || !(0.0..=1024.0).contains(&x);
    let of_channel = match s.channel {
        Channel::Steady { ratio } => outside(ratio),
        Channel::Fading { amplitude, ratio } => outside(amplitude) || outside(ratio),
        Channel::Silent => false,
    };
    of_channel || outside(s.scale)
}

// 18
pub fn samples(samples: &[f32]) -> bool {
    samples.iter().any(|s| !s.is_finite())
}

// 6 and 16: the indices of all values that are out of range
pub fn outside(values: &[i16], limit: i32) -> Vec<usize> {
    let outside = |v: i16| (v as i32) < -limit || v as i32 > limit;
    values.iter().enumerate().filter(|(_, &v)| outside(v)).map(|(i, _)| i).collect()
}

// 7
pub fn bit(message: &[u8]) -> bool {
    message.iter().any(|&b| b != 0 && b != 1)
}

// 8
pub fn pattern(f: &Frame) -> bool {
    let mut sorted = f.pattern.clone();
    sorted.sort_unstable();
    sorted.len() != f.bits || sorted.iter().enumerate().any(|(i, &p)| p as usize != i)
}

// 9
pub fn mask(f: &Frame) -> bool {
    f.masks.is_empty() || f.masks.len() > 16 || f.masks.iter().any(|&m| m > 7)
}

// 10
pub fn iterations(n: usize) -> bool {
    !(1..=32).contains(&n)
}

// 11
pub fn coder(f: &Frame) -> bool {
    !f.table.systematic() || f.table.outputs != 2
}

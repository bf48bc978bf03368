//! A seeded shaft: one drawn pattern, drawn messages, noise made of integers, and one weak row. The sheets of the tests and of docs/SHAFT.md.
use crate::sheet::Sheet;
use turbo::{encode, End, Frame, Table};

/// The size of a value sent through a sound feeder, without noise.
pub const SENT_LEVEL: i64 = 80;
const LARGEST: i64 = 1023;
// The noise is a sum of 12 whole numbers from -500 to 500: its deviation is sqrt(4·500·501), 1001 to the nearest.
const TERMS: usize = 12;
const TERM: i64 = 500;
const DEVIATION: i64 = 1001;

/// SplitMix64.
pub struct Draw(u64);

impl Draw {
    pub fn new(seed: u64) -> Draw {
        Draw(seed)
    }

    fn next(&mut self) -> u64 {
        self.0 = self.0.wrapping_add(0x9e37_79b9_7f4a_7c15);
        let mut z = self.0;
        z = (z ^ (z >> 30)).wrapping_mul(0xbf58_476d_1ce4_e5b9);
        z = (z ^ (z >> 27)).wrapping_mul(0x94d0_49bb_1331_11eb);
        z ^ (z >> 31)
    }

    pub fn below(&mut self, n: u64) -> u64 {
        self.next() % n
    }

    pub fn bits(&mut self, count: usize) -> Vec<u8> {
        (0..count).map(|_| self.below(2) as u8).collect()
    }

    pub fn pattern(&mut self, bits: usize) -> Vec<u32> {
        let mut pattern: Vec<u32> = (0..bits as u32).collect();
        for i in (1..bits).rev() {
            pattern.swap(i, self.below(i as u64 + 1) as usize);
        }
        pattern
    }

    fn noise(&mut self) -> i64 {
        (0..TERMS).map(|_| self.below(2 * TERM as u64 + 1) as i64 - TERM).sum()
    }
}

/// What a shaft is like.
#[derive(Clone)]
pub struct Model {
    pub bits: usize,
    /// 4·systematic + 2·parity 1 + parity 2, repeated over the positions: what is sent.
    pub masks: Vec<u8>,
    /// All that is sent in this row comes through with this share of its size, in percent.
    pub weak: usize,
    pub gain: i64,
    /// The deviation of the noise on every value.
    pub noise: i64,
}

/// The row that is weak where none is named: 37 of 64.
pub fn weak_row(bits: usize) -> usize {
    bits * 37 / 64
}

pub struct Shaft {
    model: Model,
    draw: Draw,
    pattern: Vec<u32>,
}

impl Shaft {
    pub fn new(model: Model, seed: u64) -> Shaft {
        let mut draw = Draw::new(seed);
        let pattern = draw.pattern(model.bits);
        Shaft { model, draw, pattern }
    }

    // A bit as it is received: one rounding, a half upwards.
    fn received(&mut self, bit: u8, gain: i64) -> i16 {
        let sent = if bit == 1 { SENT_LEVEL } else { -SENT_LEVEL };
        let hundredfold = sent * gain * DEVIATION + 100 * self.draw.noise() * self.model.noise;
        let unit = 100 * DEVIATION;
        let value = (2 * hundredfold + unit).div_euclid(2 * unit);
        value.clamp(-LARGEST, LARGEST) as i16
    }

    /// The next message, and the sheet received of it.
    pub fn receive(&mut self) -> (Vec<u8>, Sheet) {
        let bits = self.model.bits;
        let message = self.draw.bits(bits);
        let ends = (End::Zero, End::Zero);
        let frame = Frame { table: Table::house(), ends, tail: 2, pattern: self.pattern.clone(), masks: vec![7] };
        let sent = encode(&frame, &message).expect("a message and a pattern");
        let rows = (0..bits)
            .map(|at| {
                let mask = self.model.masks[at % self.model.masks.len()];
                let gain = if at == self.model.weak { self.model.gain } else { 100 };
                std::array::from_fn(|i| (mask >> (2 - i) & 1 == 1).then(|| self.received(sent[3 * at + i], gain)))
            })
            .collect();
        // The frame has tail 1, then tail 2, each systematic then parity; a sheet's row has sys and par of tail 1, then par2 and sys2 of tail 2.
        let tail: Vec<i16> = sent[3 * bits..].iter().map(|&bit| self.received(bit, 100)).collect();
        let tails = [[tail[0], tail[1], tail[5], tail[4]], [tail[2], tail[3], tail[7], tail[6]]];
        (message, Sheet { pattern: self.pattern.clone(), rows, tails })
    }
}

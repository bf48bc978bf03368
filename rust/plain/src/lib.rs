//! The receiver again, written plainly from document 01 and requests 1, 2, 4, 5 and 7 of document 02, with code and structure of its own: to compare
//! with, not to use. Where a sentence about sheets or ends is unclear, it is read as docs/DECISIONS.md says.
//!
//! Refusals are rule by rule: every number that applies is gathered, and the lowest is given. Sizes are compared as 128-bit numbers, so no
//! product wraps. Metrics are 64-bit, and an unreached state has none.

pub mod coder;
pub mod frame_decoder;
pub mod hint;
pub mod house;
pub mod listing;
pub mod lone;
mod rules;
pub mod samples;
pub mod sheet;
pub mod taps;

/// From which states to which the paths of a coder lead.
#[derive(Clone, Copy, Debug, PartialEq, Eq)]
pub enum End {
    /// From state 0 to state 0.
    Zero,
    /// From state 0 to any state.
    Open,
    /// From any state back to the same one.
    Ring,
    /// A number that names no end.
    Unknown(u32),
}

impl End {
    pub const ALL: [End; 3] = [End::Zero, End::Open, End::Ring];

    pub fn number(self) -> u32 {
        match self {
            End::Zero => 0,
            End::Open => 1,
            End::Ring => 2,
            End::Unknown(number) => number,
        }
    }

    /// Whether a path from the first state to the last is one of this end.
    fn leads(self, first: usize, last: usize) -> bool {
        match self {
            End::Zero => first == 0 && last == 0,
            End::Open => first == 0,
            End::Ring => first == last,
            End::Unknown(_) => false,
        }
    }
}

/// S states and n outputs, as told, and the lists of next states and words, which hold the branch of state s and bit b at 2·s + b.
#[derive(Clone, Debug)]
pub struct Table {
    pub states: usize,
    pub outputs: usize,
    pub next: Vec<u8>,
    pub words: Vec<u8>,
}

impl Table {
    fn next_state(&self, s: usize, b: usize) -> usize {
        self.next[2 * s + b] as usize
    }

    /// Output l, counted from 1, is bit l-1 of the word.
    fn output(&self, s: usize, b: usize, l: usize) -> usize {
        (self.words[2 * s + b] as usize >> (l - 1)) & 1
    }

    /// Output 1 of every branch is its input bit.
    fn systematic(&self) -> bool {
        (0..self.words.len()).all(|i| self.words[i] & 1 == (i & 1) as u8)
    }
}

/// What coder and decoder of a frame are both told. The ends are those of coder 1 and of coder 2.
#[derive(Clone, Debug)]
pub struct Frame {
    pub table: Table,
    pub ends: [End; 2],
    pub bits: usize,
    pub tail: usize,
    pub pattern: Vec<u32>,
    pub masks: Vec<u8>,
}

impl Frame {
    fn mask(&self, k: usize) -> u8 {
        self.masks[k % self.masks.len()]
    }

    /// The tail sections of coder 1 and of coder 2: only one that ends at zero has any.
    pub fn tails(&self) -> [usize; 2] {
        self.ends.map(|end| if end == End::Zero { self.tail } else { 0 })
    }

    /// Over the K positions, the number of ones in the masks, plus two for each tail section of either coder.
    pub fn length(&self) -> usize {
        let mut ones = 0;
        for k in 0..self.bits {
            let m = self.mask(k) as usize;
            ones += (m & 1) + (m >> 1 & 1) + (m >> 2 & 1);
        }
        let [tail1, tail2] = self.tails();
        ones + 2 * tail1 + 2 * tail2
    }

    /// The entries of the decoder's working list: (L+1)·S, L being the sections of the longer coder. Out of limits it is only large.
    pub fn work(&self) -> u128 {
        let [tail1, tail2] = self.tails();
        let longer = self.bits as u128 + tail1.max(tail2) as u128;
        (longer + 1).saturating_mul(self.table.states as u128)
    }
}

/// Why a decoder refuses a call: the number, and the index of the first value out of range in its list for 6 and 16; else 0.
#[derive(Clone, Copy, Debug, PartialEq, Eq)]
pub struct Refused {
    pub number: u32,
    pub index: usize,
}

// A number that tells no index.
impl From<u32> for Refused {
    fn from(number: u32) -> Refused {
        Refused { number, index: 0 }
    }
}

/// The working list is all zeros after success, 12 and 13, and untouched by the others. 0 stands for success.
pub fn clears_work(number: u32) -> bool {
    number == 0 || number == 12 || number == 13
}

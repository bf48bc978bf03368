//! The proved turbo frame receiver, safely.
//!
//! [`Table`] and [`Frame`] hold what coder and decoder agree on; a table may be built from a code's taps ([`Table::from_taps`]) and a pattern from a
//! polynomial ([`polynomial_pattern`]), and each coder has an [`End`]. [`encode`], [`decode`] and [`lone_decode`] make every list that the library
//! writes, of the right length; what is left to refuse is told as a [`Refusal`]. [`sample_values`] makes channel values of a radio's samples under a
//! [`Setting`]. [`sheet()`] answers a sheet's text with text, and [`hint()`] says what is easy to see of a text that is refused by 1. The library
//! itself makes every check, so none is made twice and in another way here. [`raw`] has the same calls on the caller's own lists.

mod end;
mod ffi;
mod hint;
pub mod raw;
mod refusal;
mod samples;

pub use end::End;
pub use hint::{hint, Hint};
pub use refusal::Refusal;
pub use samples::{sample_values, Channel, Setting};

/// A table: the branch of state s and input bit b stands at 2·s + b of its next states and of its words.
#[derive(Clone, Debug, PartialEq, Eq)]
pub struct Table {
    outputs: usize,
    next: Vec<u8>,
    words: Vec<u8>,
}

impl Table {
    /// A table of `branches.len()` states. Each state has the branch for bit 0, then the one for bit 1, each a next state and a word.
    pub fn new(outputs: usize, branches: &[[(u8, u8); 2]]) -> Table {
        Table {
            outputs,
            next: branches.iter().flatten().map(|b| b.0).collect(),
            words: branches.iter().flatten().map(|b| b.1).collect(),
        }
    }

    /// The house code: four states, two outputs.
    pub fn house() -> Table {
        let mut next = vec![0; 8];
        let mut words = vec![0; 8];
        let told = (raw::house_next(&mut next), raw::house_words(&mut words));
        assert_eq!(told, (0, 0), "lists of eight entries are taken");
        Table { outputs: 2, next, words }
    }

    /// The code whose feedback and parity taps are given as numbers, bit i being the coefficient of D^i: 2^memory states, two outputs. Memory 3
    /// with taps 13 and 11 is the eight-state code of 3GPP TS 36.212.
    pub fn from_taps(memory: usize, feedback: u32, parity: u32) -> Result<Table, Refusal> {
        // A memory out of limits is refused before the lists are measured.
        let long = if memory > MOST_MEMORY { 0 } else { 2 << memory };
        let mut next = vec![0; long];
        let mut words = vec![0; long];
        told(raw::taps_table(memory, feedback, parity, &mut next, &mut words), 0)?;
        Ok(Table { outputs: 2, next, words })
    }

    pub fn states(&self) -> usize {
        self.next.len() / 2
    }

    pub fn outputs(&self) -> usize {
        self.outputs
    }
}

/// What coder and decoder of a frame agree on. K, the number of message bits, is the length of the pattern.
#[derive(Clone, Debug, PartialEq, Eq)]
pub struct Frame {
    pub table: Table,
    /// The ends of the first coder and of the second.
    pub ends: (End, End),
    /// The tail sections of each coder that ends at zero, 0..4. The limits hold whatever the ends.
    pub tail: usize,
    /// The second coder's input i is message bit `pattern[i]`.
    pub pattern: Vec<u32>,
    /// 4·systematic + 2·parity 1 + parity 2, repeated over the message positions.
    pub masks: Vec<u8>,
}

// No list is longer than these limits need.
const MOST_STATES: usize = 16;
const MOST_MEMORY: usize = 4;
const MOST_SECTIONS: usize = 4096;
const ANSWER_ROOM: usize = 24_600;

impl Frame {
    pub fn bits(&self) -> usize {
        self.pattern.len()
    }

    /// The length of the frame's list: the ones in the masks of the K positions, and two values a tail section of each coder that ends at zero.
    pub fn frame_len(&self) -> usize {
        let sent: usize = (0..self.bits()).filter_map(|k| self.masks.get(k % self.masks.len().max(1))).map(|m| m.count_ones() as usize).sum();
        let (tail1, tail2) = self.tails();
        sent.saturating_add(tail1.saturating_mul(2)).saturating_add(tail2.saturating_mul(2))
    }

    fn tails(&self) -> (usize, usize) {
        let tail = |end: End| if end == End::Zero { self.tail } else { 0 };
        (tail(self.ends.0), tail(self.ends.1))
    }

    // Of the longer coder.
    fn sections(&self) -> usize {
        let (tail1, tail2) = self.tails();
        self.bits().saturating_add(tail1.max(tail2))
    }
}

/// What the frame decoder says of each message bit.
#[derive(Clone, Debug, PartialEq, Eq)]
pub struct Decoded {
    pub bits: Vec<u8>,
    pub margins: Vec<i32>,
    pub extrinsics: Vec<i32>,
}

/// What the lone decoder says of one position.
#[derive(Clone, Copy, Debug, PartialEq, Eq)]
pub enum Position {
    Free { margin: i32, extrinsic: i32 },
    Forced(u8),
}

// The index is that beside 6 and 16; calls that give neither have none.
fn told(number: u32, index: u64) -> Result<(), Refusal> {
    match number {
        0 => Ok(()),
        n => Err(Refusal::from_reply(n, index).expect("a number of the table")),
    }
}

// More states or sections than the limits are refused before the working list is measured, so it is not made for them.
fn working_list(sections: usize, states: usize) -> Vec<i32> {
    if states > MOST_STATES || sections > MOST_SECTIONS {
        return Vec::new();
    }
    vec![0; (sections + 1) * states]
}

/// The pattern of K = `bits` entries whose entry i is (f1·i + f2·i²) mod K.
pub fn polynomial_pattern(bits: usize, f1: usize, f2: usize) -> Result<Vec<u32>, Refusal> {
    // More bits than the limit are refused before the list is measured.
    let mut pattern = vec![0; if bits > MOST_SECTIONS { 0 } else { bits }];
    told(raw::polynomial_pattern(bits, f1, f2, &mut pattern), 0)?;
    Ok(pattern)
}

/// The frame sent for a message of K bits, a bit an entry.
pub fn encode(frame: &Frame, message: &[u8]) -> Result<Vec<u8>, Refusal> {
    let t = &frame.table;
    // A tail out of limits is refused before the frame's list is measured.
    let long = if frame.sections() > MOST_SECTIONS { 0 } else { frame.frame_len() };
    let mut sent = vec![0; long];
    let number = raw::encode(
        t.states(),
        t.outputs,
        &t.next,
        &t.words,
        frame.ends.0.number(),
        frame.ends.1.number(),
        frame.bits(),
        frame.tail,
        message,
        &frame.pattern,
        &frame.masks,
        &mut sent,
    );
    told(number, 0)?;
    Ok(sent)
}

/// Bits, margins and extrinsics after so many iterations, from the channel values of a frame. The index that [`Refusal::Value`] tells is one of
/// `received`.
pub fn decode(frame: &Frame, received: &[i16], iterations: usize) -> Result<Decoded, Refusal> {
    let t = &frame.table;
    let k = frame.bits();
    let mut out = Decoded { bits: vec![0; k], margins: vec![0; k], extrinsics: vec![0; k] };
    let mut work = working_list(frame.sections(), t.states());
    let mut index = 0;
    let number = raw::decode(
        t.states(),
        t.outputs,
        &t.next,
        &t.words,
        frame.ends.0.number(),
        frame.ends.1.number(),
        k,
        frame.tail,
        &frame.pattern,
        &frame.masks,
        received,
        iterations,
        &mut out.bits,
        &mut out.margins,
        &mut out.extrinsics,
        &mut work,
        &mut index,
    );
    told(number, index)?;
    Ok(out)
}

/// One pass over a table, by the paths of an end. There are as many sections as a-priori values, and `outputs` channel values a section. The index
/// that [`Refusal::Value`] tells is one of `channel`, and that of [`Refusal::Apriori`] one of `apriori`.
pub fn lone_decode(table: &Table, end: End, channel: &[i16], apriori: &[i16]) -> Result<Vec<Position>, Refusal> {
    let n = apriori.len();
    let mut marks = vec![0; n];
    let mut margins = vec![0; n];
    let mut extrinsics = vec![0; n];
    let mut work = working_list(n, table.states());
    let mut index = 0;
    let number = raw::lone_decode(
        table.states(),
        table.outputs,
        &table.next,
        &table.words,
        end.number(),
        n,
        channel,
        apriori,
        &mut marks,
        &mut margins,
        &mut extrinsics,
        &mut work,
        &mut index,
    );
    told(number, index)?;
    Ok((0..n)
        .map(|i| match marks[i] {
            2 => Position::Free { margin: margins[i], extrinsic: extrinsics[i] },
            bit => Position::Forced(bit),
        })
        .collect())
}

/// What the program prints for a sheet: its header and a line for each message position, or `refused line` and the number with its line.
pub fn sheet(sheet: &[u8]) -> Vec<u8> {
    let mut answer = vec![0; ANSWER_ROOM];
    let length = raw::sheet(sheet, &mut answer);
    assert_ne!(length, 0, "such a list has room for every answer");
    answer.truncate(length);
    answer
}

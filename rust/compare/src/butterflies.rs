// Calls over butterflies, which the library may decode by a way of their own, and over tables that miss being one by little: what it says must not
// depend on the way.
use crate::calls::{self, Answer};
use crate::draw::{self, Draw};
use plain::{lone, Frame, Table};

// States i and i + half both lead to 2i and 2i + 1: the first by `bit` and by the other bit, the second the other way round. The words of a
// state's bits are opposite, and those of both states of a pair the same.
fn butterfly(d: &mut Draw, states: usize) -> Table {
    let half = states / 2;
    let mut t = Table { states, outputs: 2, next: vec![0; 2 * states], words: vec![0; 2 * states] };
    for i in 0..half {
        let (bit, word) = (d.below(2), 2 * d.below(2) as u8);
        for (s, bit) in [(i, bit), (i + half, 1 - bit)] {
            t.next[2 * s + bit] = 2 * i as u8;
            t.next[2 * s + 1 - bit] = 2 * i as u8 + 1;
            t.words[2 * s] = word;
            t.words[2 * s + 1] = 3 - word;
        }
    }
    t
}

// Any number below n but this one.
fn another(d: &mut Draw, number: u8, n: usize) -> u8 {
    let other = d.below(n - 1) as u8;
    other + (other >= number) as u8
}

// The same table with its states under other numbers, state 0 too.
fn renumbered(d: &mut Draw, t: &mut Table) {
    let number = draw::permutation(d, t.states);
    let of = t.clone();
    for i in 0..2 * t.states {
        let to = 2 * number[i / 2] as usize + i % 2;
        t.next[to] = number[of.next[i] as usize] as u8;
        t.words[to] = of.words[i];
    }
}

// Breaks a rule of butterflies, or several: each is broken alone now and then.
fn damage(d: &mut Draw, t: &mut Table) {
    let (at, s) = (d.below(2 * t.states), d.below(t.states));
    match d.below(11) {
        0 | 1 => t.next[at] = another(d, t.next[at], t.states),
        2 => t.words[at] = another(d, t.words[at], 4),
        // One branch has the other parity, or both of one state.
        3 => t.words[at] ^= 2,
        4 => (2 * s..2 * s + 2).for_each(|i| t.words[i] ^= 2),
        // A state's bits change places in where they lead, so that its pair is led alike.
        5 => t.next.swap(2 * s, 2 * s + 1),
        // No branch leads to state s.
        6 => {
            let other = another(d, s as u8, t.states);
            t.next.iter_mut().filter(|next| **next == s as u8).for_each(|next| *next = other);
        }
        // Every branch leads from an even state to an odd one or back, so that an odd number of sections leads no state to itself.
        7 => t.next.iter_mut().enumerate().for_each(|(i, next)| *next = *next & !1 | (i / 2 % 2 == 0) as u8),
        8 => renumbered(d, t),
        // The outputs change places.
        9 => t.words.iter_mut().for_each(|w| *w = *w >> 1 | (*w & 1) << 1),
        // Output 1 is the other bit.
        _ => t.words.iter_mut().for_each(|w| *w ^= 3),
    }
}

// More than half are butterflies of 4, 8 or 16 states.
fn table(d: &mut Draw) -> Table {
    let states = if d.chance(12) { d.of(&[2, 6, 10, 12, 14]) } else { d.of(&[4, 8, 16]) };
    let mut t = butterfly(d, states);
    if d.below(5) < 2 {
        damage(d, &mut t);
    }
    t
}

// Output 1 alone, or others beside the two.
fn with_outputs(d: &mut Draw, outputs: usize, t: &mut Table) {
    t.outputs = outputs;
    for w in &mut t.words {
        *w = (*w | 4 * d.below(4) as u8) % (1 << outputs);
    }
}

fn memory(t: &Table) -> usize {
    t.states.ilog2() as usize
}

// The sections of a pass. Near either end of it, for as many as the memory, some states are not reached; most passes have few others.
fn sections(d: &mut Draw, t: &Table) -> usize {
    match d.below(300) {
        0 => d.size(4086, 4096),
        1..=20 => d.size(1, 300),
        21..=120 => d.size(1, 40),
        _ => d.size(1, 2 * memory(t) + 2),
    }
}

fn signed(bit: u8, size: i16) -> i16 {
    if bit == 1 { size } else { -size }
}

// The channel and a-priori values of a path, as large as can be: its metric grows by the most that a section can add.
fn of_path(d: &mut Draw, t: &Table, sections: usize) -> (Vec<i16>, Vec<i16>) {
    let (mut channel, mut apriori) = (Vec::new(), Vec::new());
    let mut s = if d.chance(2) { 0 } else { d.below(t.states) };
    for _ in 0..sections {
        let branch = 2 * s + d.below(2);
        channel.extend((0..t.outputs).map(|l| signed(t.words[branch] >> l & 1, 1023)));
        apriori.push(signed(branch as u8 & 1, 8191));
        s = t.next[branch] as usize;
    }
    (channel, apriori)
}

fn values(d: &mut Draw, t: &Table, sections: usize) -> (Vec<i16>, Vec<i16>) {
    match d.below(6) {
        // All values as large as can be and of one sign, or those of each list.
        0 => {
            let sides: [i16; 2] = d.of(&[[1, 1], [-1, -1], [1, -1], [-1, 1]]);
            (vec![1023 * sides[0]; t.outputs * sections], vec![8191 * sides[1]; sections])
        }
        1 => of_path(d, t, sections),
        _ => (draw::values(d, t.outputs * sections, 1023), draw::values(d, sections, 8191)),
    }
}

// A quarter of the calls are damaged.
pub fn lone_decode(d: &mut Draw) -> Answer {
    let (end, mut table) = (draw::end(d), table(d));
    if d.chance(12) {
        let outputs = d.of(&[1, 3, 4]);
        with_outputs(d, outputs, &mut table);
    }
    let sections = sections(d, &table);
    let (channel, apriori) = values(d, &table, sections);
    let mut call = lone::Call { table, end, sections, channel, apriori };
    let mut lent = calls::lent_for_lone(&call);
    if d.chance(2) {
        calls::damage_lone(d, &mut call, &mut lent);
    }
    calls::lone_decoded(d, &call, lent)
}

// Half of the frames have as many tail sections as the code has memory.
fn frame(d: &mut Draw) -> Frame {
    let table = table(d);
    let tail = if d.chance(2) { memory(&table) } else { d.below(5) };
    let bits = sections(d, &table).min(4096 - tail);
    Frame { table, ends: draw::ends(d), bits, tail, pattern: draw::permutation(d, bits), masks: draw::masks(d) }
}

// All values as large as can be, of one sign or those of a message; or others.
fn received(d: &mut Draw, frame: &Frame) -> Vec<i16> {
    match d.below(4) {
        0 => vec![d.of(&[-1023, 1023]); frame.length()],
        1 => match calls::sent(d, frame) {
            Some(sent) => sent.iter().map(|&b| signed(b, 1023)).collect(),
            None => calls::received(d, frame),
        },
        _ => calls::received(d, frame),
    }
}

pub fn decode(d: &mut Draw) -> Answer {
    let frame = frame(d);
    let iterations = if d.chance(8) { d.size(1, 32) } else { d.size(1, 4) };
    let received = received(d, &frame);
    let faults = if d.chance(2) { calls::faults(d) } else { 0 };
    calls::decode_damaged(d, frame, received, iterations, faults)
}

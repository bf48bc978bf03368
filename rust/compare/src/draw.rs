// Drawn numbers, tables, values and lists. Everything comes from the seed of the call.
use plain::{house, End, Frame, Table};

// SplitMix64.
pub struct Draw(u64);

impl Draw {
    // Calls of one stage differ in their index, and stages in their name.
    pub fn for_call(seed: u64, stage: &str, index: u64) -> Draw {
        let mut d = Draw(seed);
        for b in stage.bytes() {
            d.0 ^= d.next().wrapping_add(b as u64);
        }
        d.0 = d.next() ^ index.wrapping_mul(0x2545_f491_4f6c_dd1d);
        d.next();
        d
    }

    pub fn next(&mut self) -> u64 {
        self.0 = self.0.wrapping_add(0x9e37_79b9_7f4a_7c15);
        let mut z = self.0;
        z = (z ^ (z >> 30)).wrapping_mul(0xbf58_476d_1ce4_e5b9);
        z = (z ^ (z >> 27)).wrapping_mul(0x94d0_49bb_1331_11eb);
        z ^ (z >> 31)
    }

    pub fn below(&mut self, n: usize) -> usize {
        (self.next() % n as u64) as usize
    }

    // both ends included
    pub fn within(&mut self, low: i64, high: i64) -> i64 {
        low + (self.next() % (high - low + 1) as u64) as i64
    }

    pub fn size(&mut self, low: usize, high: usize) -> usize {
        low + self.below(high - low + 1)
    }

    pub fn chance(&mut self, one_in: usize) -> bool {
        self.below(one_in) == 0
    }

    pub fn of<T: Copy>(&mut self, items: &[T]) -> T {
        items[self.below(items.len())]
    }
}

pub fn permutation(d: &mut Draw, n: usize) -> Vec<u32> {
    let mut p: Vec<u32> = (0..n as u32).collect();
    for i in (1..n).rev() {
        p.swap(i, d.below(i + 1));
    }
    p
}

pub fn end(d: &mut Draw) -> End {
    d.of(&End::ALL)
}

pub fn ends(d: &mut Draw) -> [End; 2] {
    [end(d), end(d)]
}

// A number that names no end; cut to fewer bits some do.
pub fn no_end(d: &mut Draw) -> End {
    End::Unknown(d.of(&[3, 4, 5, 7, 255, 256, 257, 258, 1 << 16, (1 << 16) + 1, 1 << 31, (1 << 31) + 2, u32::MAX]))
}

fn next_states(d: &mut Draw, states: usize) -> Vec<u8> {
    match d.below(9) {
        // any table
        0..=2 => (0..2 * states).map(|_| d.below(states) as u8).collect(),
        // each bit permutes the states, as in a code of the trade
        3 | 4 => {
            let (zero, one) = (permutation(d, states), permutation(d, states));
            (0..states).flat_map(|s| [zero[s] as u8, one[s] as u8]).collect()
        }
        // a shift register with feedback, where the number of states is a power of two
        5 => {
            let feedback = d.below(states);
            (0..2 * states).map(|i| ((2 * (i / 2) + (i % 2 ^ ((i / 2) & feedback).count_ones() as usize % 2)) % states) as u8).collect()
        }
        // the next state is the input
        6 => (0..2 * states).map(|i| (i % 2 % states) as u8).collect(),
        // groups of states follow each other in a circle, so that none comes back but after a multiple of their number of sections
        7 => {
            let groups = d.size(1, 4).min(states);
            let of_group = |d: &mut Draw, group: usize| group + groups * d.below((states - group).div_ceil(groups));
            (0..2 * states).map(|i| of_group(d, (i / 2 + 1) % groups) as u8).collect()
        }
        // few states are reached, so that there may be no path or a forced position
        _ => {
            let few = [d.below(states), d.below(states)];
            (0..2 * states).map(|_| d.of(&few) as u8).collect()
        }
    }
}

pub fn table(d: &mut Draw, outputs: usize, systematic: bool) -> Table {
    if outputs == 2 && systematic && d.chance(4) {
        return house::table();
    }
    let states = d.size(1, 16);
    let next = next_states(d, states);
    let words = (0..2 * states)
        .map(|i| {
            let w = d.below(1 << outputs);
            (if systematic { w & !1 | i % 2 } else { w }) as u8
        })
        .collect();
    Table { states, outputs, next, words }
}

// Values up to a limit in size: any, small, as large as can be, or all on one side.
pub fn values(d: &mut Draw, n: usize, limit: i64) -> Vec<i16> {
    let style = d.below(6);
    let side = d.of(&[-1, 1]);
    (0..n)
        .map(|_| match style {
            0 | 1 => d.within(-limit, limit),
            2 => d.within(-3, 3),
            3 => d.of(&[-limit, limit]),
            4 => side * d.within(limit / 2, limit),
            _ => d.of(&[-limit, -1, 0, 0, 1, limit]),
        } as i16)
        .collect()
}

pub fn masks(d: &mut Draw) -> Vec<u8> {
    let period = d.size(1, 16);
    match d.below(4) {
        0 => vec![7],
        1 => vec![6, 5],
        _ => (0..period).map(|_| d.below(8) as u8).collect(),
    }
}

// A frame in limits. `most` bounds K + T.
pub fn frame(d: &mut Draw, ends: [End; 2], most: usize) -> Frame {
    let tail = d.below(5).min(most - 1);
    let bits = d.size(1, most - tail);
    let masks = masks(d);
    Frame { table: table(d, 2, true), ends, bits, tail, pattern: permutation(d, bits), masks }
}

// A frame of the house code that is surely coded and decoded: two or more tail sections lead back from every state, and where K is no multiple of
// three every message brings one state back to itself.
pub fn sure_frame(d: &mut Draw, ends: [End; 2], most: usize) -> Frame {
    let tail = if ends.contains(&End::Zero) { d.size(2, 4) } else { d.below(5) };
    let bits = if d.chance(2) { most - tail } else { d.size(2, most - tail) };
    let bits = if bits % 3 == 0 { bits - 1 } else { bits };
    Frame { table: house::table(), ends, bits, tail, pattern: permutation(d, bits), masks: masks(d) }
}

pub const WILD: [usize; 5] = [1 << 63, usize::MAX, usize::MAX - 1, 1 << 32, (1 << 63) + 1];

// Another length for a list.
pub fn off(d: &mut Draw, length: usize) -> usize {
    match d.below(4) {
        0 => length + 1,
        1 => length.saturating_sub(1),
        2 => 0,
        _ => length + d.size(1, 20),
    }
}

// One fault of a table.
pub fn damage_table(d: &mut Draw, t: &mut Table) {
    match d.below(9) {
        0 => t.states = d.of(&[0, 17, 18, 255, 256]),
        1 => {
            // 2·S wraps to the length of an empty list
            t.states = d.of(&WILD);
            if d.chance(2) {
                t.next.clear();
                t.words.clear();
            }
        }
        2 => t.outputs = d.of(&[0, 5, 8, 64, usize::MAX]),
        3 => {
            let n = off(d, t.next.len());
            t.next.resize(n, 0);
        }
        4 => {
            let n = off(d, t.words.len());
            t.words.resize(n, 0);
        }
        5 | 6 if !t.next.is_empty() => {
            let at = d.below(t.next.len());
            t.next[at] = d.of(&[t.states.min(255) as u8, 16, 255]);
        }
        _ if !t.words.is_empty() => {
            let at = d.below(t.words.len());
            t.words[at] = d.of(&[1 << t.outputs.min(7), 16, 255]);
        }
        _ => {}
    }
}

// Values out of range at one place or at several, the first and the last among them more often than others.
pub fn damage_values(d: &mut Draw, values: &mut [i16], limit: i16) {
    let Some(last) = values.len().checked_sub(1) else { return };
    for _ in 0..d.of(&[1, 1, 2, 3, 6]) {
        let at = match d.below(8) {
            0 => 0,
            1 => last,
            _ => d.size(0, last),
        };
        values[at] = d.of(&[limit + 1, -limit - 1, i16::MAX, i16::MIN]);
    }
}

// One fault of a frame, the table's and its own list's aside.
pub fn damage_frame(d: &mut Draw, f: &mut Frame) {
    match d.below(14) {
        0 => f.bits = d.of(&[0, 4097, 4096, f.bits.wrapping_add(1), f.bits.wrapping_sub(1), usize::MAX, usize::MAX - 3]),
        1 => f.tail = d.of(&[5, 4, 6, usize::MAX, usize::MAX - 1]),
        2 => {
            // K + T wraps to what the lists have
            f.tail = usize::MAX;
            f.bits = f.bits.wrapping_add(1);
        }
        3 => {
            let n = off(d, f.pattern.len());
            f.pattern.resize(n, 0);
        }
        4 | 5 if !f.pattern.is_empty() => {
            let at = d.below(f.pattern.len());
            let other = d.of(&f.pattern);
            f.pattern[at] = d.of(&[other, f.bits as u32, f.pattern[at].wrapping_add(65536), f.pattern[at].wrapping_add(1 << 31), u32::MAX]);
        }
        6 => f.masks.clear(),
        7 => f.masks.resize(d.of(&[17, 18, 32]), 7),
        8 if !f.masks.is_empty() => {
            let at = d.below(f.masks.len());
            f.masks[at] = d.of(&[8, 15, 128, 255]);
        }
        9 => f.table.outputs = d.of(&[1, 3, 4]),
        10 => f.ends[d.below(2)] = no_end(d),
        // The lists stay as the other end asked for them.
        11 | 12 => f.ends[d.below(2)] = end(d),
        _ if !f.table.words.is_empty() => {
            let at = d.below(f.table.words.len());
            f.table.words[at] ^= 1;
        }
        _ => {}
    }
}

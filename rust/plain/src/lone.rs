//! The lone decoder.
use crate::{rules, End, Refused, Table};

#[derive(Clone, Debug)]
pub struct Call {
    pub table: Table,
    pub end: End,
    pub sections: usize,
    pub channel: Vec<i16>,
    pub apriori: Vec<i16>,
}

/// The lengths of the lists lent for the results.
#[derive(Clone, Copy, Debug)]
pub struct Lent {
    pub marks: usize,
    pub margins: usize,
    pub extrinsics: usize,
    pub work: usize,
}

/// What a pass says of one position.
#[derive(Clone, Copy, Debug, PartialEq, Eq)]
pub enum Outcome {
    Free(i64),
    Forced(u8),
}

// Starts are kept apart: a path is in a pair, the state that it started in and the one that it has come to. A row has a metric for each pair, at
// start·S + state, and none where no path is in it.
type Row = Vec<Option<i64>>;

// What a branch does to a path of some start: from pair to pair. `branch` is 2·state + bit.
struct Move {
    from: usize,
    to: usize,
    branch: usize,
}

// Only a ring's paths start in other states than 0.
fn starts(t: &Table, end: End) -> usize {
    if end == End::Ring { t.states } else { 1 }
}

fn moves(t: &Table, end: End) -> Vec<Move> {
    let of_start = |start: usize| {
        let pair = move |s: usize| start * t.states + s;
        (0..2 * t.states).map(move |branch| Move { from: pair(branch / 2), to: pair(t.next_state(branch / 2, branch % 2)), branch })
    };
    (0..starts(t, end)).flat_map(of_start).collect()
}

// A metric of 0 for the pairs that are asked for by start and state.
fn row_of(t: &Table, end: End, asked: impl Fn(usize, usize) -> bool) -> Row {
    let pairs = (0..starts(t, end)).flat_map(|start| (0..t.states).map(move |s| (start, s)));
    pairs.map(|(start, s)| asked(start, s).then_some(0)).collect()
}

// What each branch adds to a metric in section k.
fn gains(t: &Table, k: usize, channel: &[i16], apriori: &[i16]) -> Vec<i64> {
    let signed = |bit: usize, v: i16| if bit == 1 { v as i64 } else { -(v as i64) };
    let of_branch = |branch: usize| {
        let (s, b) = (branch / 2, branch % 2);
        let mut sum = signed(b, apriori[k]);
        for l in 1..=t.outputs {
            sum += signed(t.output(s, b, l), channel[t.outputs * k + l - 1]);
        }
        sum
    };
    (0..2 * t.states).map(of_branch).collect()
}

fn better(held: &mut Option<i64>, m: i64) {
    if held.map_or(true, |h| m > h) {
        *held = Some(m);
    }
}

// From a row after a section to the row before it, backwards.
fn before(moves: &[Move], gains: &[i64], after: &Row) -> Row {
    let mut row = vec![None; after.len()];
    for m in moves {
        if let Some(rest) = after[m.to] {
            better(&mut row[m.from], rest + gains[m.branch]);
        }
    }
    row
}

fn outcome(best: [Option<i64>; 2]) -> Option<Outcome> {
    match best {
        [Some(zero), Some(one)] => {
            assert_eq!((one - zero) % 2, 0, "all metrics of a pass have the same parity");
            Some(Outcome::Free((one - zero) / 2))
        }
        [Some(_), None] => Some(Outcome::Forced(0)),
        [None, Some(_)] => Some(Outcome::Forced(1)),
        [None, None] => None,
    }
}

/// The outcomes of all positions, or none where there is no path. The table and the lengths are right.
pub fn pass(t: &Table, end: End, sections: usize, channel: &[i16], apriori: &[i16]) -> Option<Vec<Outcome>> {
    let moves = moves(t, end);
    let gains: Vec<Vec<i64>> = (0..sections).map(|k| gains(t, k, channel, apriori)).collect();
    // rest[i]: from each pair, the best way on to where a path of its start may end, i sections before the end.
    let mut rest = vec![row_of(t, end, |start, s| end.leads(start, s))];
    for g in gains.iter().rev() {
        rest.push(before(&moves, g, rest.last().expect("a row for the end")));
    }
    // The best way to each pair, section by section, meets the best way on from it.
    let mut way = row_of(t, end, |start, s| s == start);
    let mut outcomes = Vec::with_capacity(sections);
    for (k, g) in gains.iter().enumerate() {
        let on = &rest[sections - k - 1];
        let mut after = vec![None; way.len()];
        let mut best = [None, None];
        for m in &moves {
            if let Some(x) = way[m.from] {
                better(&mut after[m.to], x + g[m.branch]);
                if let Some(y) = on[m.to] {
                    better(&mut best[m.branch % 2], x + g[m.branch] + y);
                }
            }
        }
        way = after;
        outcomes.push(outcome(best)?);
    }
    Some(outcomes)
}

/// Margin minus a-priori, and minus the channel value of output 1 if the table is systematic; 0 where the position is forced.
pub fn extrinsic(t: &Table, outcome: Outcome, k: usize, channel: &[i16], apriori: &[i16]) -> i64 {
    match outcome {
        Outcome::Forced(_) => 0,
        Outcome::Free(margin) => {
            let own = if t.systematic() { channel[t.outputs * k] as i64 } else { 0 };
            margin - apriori[k] as i64 - own
        }
    }
}

#[derive(Clone, Debug)]
pub struct Lists {
    pub marks: Vec<u8>,
    pub margins: Vec<i32>,
    pub extrinsics: Vec<i32>,
}

pub fn lists(call: &Call, outcomes: &[Outcome]) -> Lists {
    let mut l = Lists { marks: Vec::new(), margins: Vec::new(), extrinsics: Vec::new() };
    for (k, &o) in outcomes.iter().enumerate() {
        let (mark, margin) = match o {
            Outcome::Free(m) => (2, m),
            Outcome::Forced(b) => (b, 0),
        };
        l.marks.push(mark);
        l.margins.push(i32::try_from(margin).unwrap());
        l.extrinsics.push(i32::try_from(extrinsic(&call.table, o, k, &call.channel, &call.apriori)).unwrap());
    }
    l
}

pub fn decode(call: &Call, lent: Lent) -> Result<Lists, Refused> {
    let t = &call.table;
    let n = call.sections as u128;
    let channel = rules::outside(&call.channel, rules::CHANNEL_LIMIT);
    let apriori = rules::outside(&call.apriori, rules::APRIORI_LIMIT);
    let applying = [
        (2, rules::shape(t) || rules::ends(&[call.end])),
        (3, rules::branch(t)),
        (4, rules::sections(call.sections)),
        (
            5,
            // A product of two 64-bit numbers fits 128 bits.
            rules::lists(&[
                (call.channel.len(), t.outputs as u128 * n),
                (call.apriori.len(), n),
                (lent.marks, n),
                (lent.margins, n),
                (lent.extrinsics, n),
                (lent.work, (n + 1) * t.states as u128),
            ]),
        ),
        (6, !channel.is_empty()),
        (16, !apriori.is_empty()),
    ];
    match rules::lowest(&applying) {
        Some(6) => return Err(Refused { number: 6, index: channel[0] }),
        Some(16) => return Err(Refused { number: 16, index: apriori[0] }),
        Some(number) => return Err(number.into()),
        None => {}
    }
    let outcomes = pass(t, call.end, call.sections, &call.channel, &call.apriori).ok_or(12u32)?;
    Ok(lists(call, &outcomes))
}

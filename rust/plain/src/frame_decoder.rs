//! The frame decoder.
use crate::lone::{self, Outcome};
use crate::{listing, rules, End, Frame, Refused, Table};

#[derive(Clone, Debug)]
pub struct Call {
    pub frame: Frame,
    pub received: Vec<i16>,
    pub iterations: usize,
}

/// The lengths of the lists lent for the results.
#[derive(Clone, Copy, Debug)]
pub struct Lent {
    pub bits: usize,
    pub margins: usize,
    pub extrinsics: usize,
    pub work: usize,
}

#[derive(Clone, Debug)]
pub struct Lists {
    pub bits: Vec<u8>,
    pub margins: Vec<i32>,
    pub extrinsics: Vec<i32>,
}

// What was received, by what it belongs to; an unsent value is 0.
struct Received {
    systematic: Vec<i16>,
    parity1: Vec<i16>,
    parity2: Vec<i16>,
    tail1: Vec<i16>,
    tail2: Vec<i16>,
}

fn sorted_out(f: &Frame, received: &[i16]) -> Received {
    let mut left = received.iter().copied();
    let mut r = Received { systematic: vec![0; f.bits], parity1: vec![0; f.bits], parity2: vec![0; f.bits], tail1: Vec::new(), tail2: Vec::new() };
    for k in 0..f.bits {
        let m = f.mask(k);
        if m & 4 != 0 {
            r.systematic[k] = left.next().unwrap();
        }
        if m & 2 != 0 {
            r.parity1[k] = left.next().unwrap();
        }
        if m & 1 != 0 {
            r.parity2[k] = left.next().unwrap();
        }
    }
    let [tail1, tail2] = f.tails();
    r.tail1.extend(left.by_ref().take(2 * tail1));
    r.tail2.extend(left.by_ref().take(2 * tail2));
    assert!(left.next().is_none());
    r
}

// Three quarters of an extrinsic, rounded towards zero, then limited.
fn handed_over(e: i64) -> i16 {
    let limit = rules::APRIORI_LIMIT as i64;
    (3 * e / 4).clamp(-limit, limit) as i16
}

// One of the two coders as its pass sees it: its end, and systematic and parity of each of its sections.
struct Coder {
    end: End,
    channel: Vec<i16>,
}

fn coders(f: &Frame, received: &[i16]) -> [Coder; 2] {
    let r = sorted_out(f, received);
    let channel1 = (0..f.bits).flat_map(|i| [r.systematic[i], r.parity1[i]]).chain(r.tail1.iter().copied()).collect();
    let channel2 = (0..f.bits).flat_map(|i| [r.systematic[f.pattern[i] as usize], r.parity2[i]]).chain(r.tail2.iter().copied()).collect();
    [Coder { end: f.ends[0], channel: channel1 }, Coder { end: f.ends[1], channel: channel2 }]
}

// How the outcomes of a pass are found: by the recursion, or by writing every path out.
type Pass = fn(&Table, End, usize, &[i16], &[i16]) -> Option<Vec<Outcome>>;

// A pass over a coder. `handed` are its first a-priori values; the others are 0.
fn pass(by: Pass, f: &Frame, c: &Coder, handed: &[i16]) -> Option<Vec<(Outcome, i64)>> {
    let sections = c.channel.len() / 2;
    let mut apriori = handed.to_vec();
    apriori.resize(sections, 0);
    let outcomes = by(&f.table, c.end, sections, &c.channel, &apriori)?;
    Some((0..sections).map(|k| (outcomes[k], lone::extrinsic(&f.table, outcomes[k], k, &c.channel, &apriori))).collect())
}

// 12 and 13, by a pass over each coder: which paths there are depends on no value, so whatever was received and handed over will do.
fn settled(by: Pass, f: &Frame, coders: &[Coder; 2]) -> Option<u32> {
    let passes = [pass(by, f, &coders[0], &[]), pass(by, f, &coders[1], &[])];
    let forced = |p: &Vec<(Outcome, i64)>| p[..f.bits].iter().any(|(o, _)| matches!(o, Outcome::Forced(_)));
    rules::lowest(&[(12, passes.iter().any(Option::is_none)), (13, passes.iter().flatten().any(forced))])
}

// The margins and extrinsics of the K message positions of a pass, in its own order.
fn soft(by: Pass, f: &Frame, c: &Coder, handed: &[i16]) -> Vec<(i64, i64)> {
    let positions = pass(by, f, c, handed).expect("a path, as settled");
    let free = |&(outcome, extrinsic): &(Outcome, i64)| match outcome {
        Outcome::Free(margin) => (margin, extrinsic),
        Outcome::Forced(_) => unreachable!("a forced position, though settled"),
    };
    positions[..f.bits].iter().map(free).collect()
}

fn refused(call: &Call, lent: Lent) -> Result<(), Refused> {
    let f = &call.frame;
    let k = f.bits as u128;
    let outside = rules::outside(&call.received, rules::CHANNEL_LIMIT);
    let lists = [(f.pattern.len(), k), (lent.bits, k), (lent.margins, k), (lent.extrinsics, k), (lent.work, f.work())];
    let applying = [
        (2, rules::shape(&f.table) || rules::ends(&f.ends)),
        (3, rules::branch(&f.table)),
        (4, rules::sizes(f)),
        (5, rules::lists(&lists) || rules::frame_list(f, call.received.len())),
        (6, !outside.is_empty()),
        (8, rules::pattern(f)),
        (9, rules::mask(f)),
        (10, rules::iterations(call.iterations)),
        (11, rules::coder(f)),
    ];
    match rules::lowest(&applying) {
        Some(6) => Err(Refused { number: 6, index: outside[0] }),
        Some(number) => Err(number.into()),
        None => Ok(()),
    }
}

pub fn decode(call: &Call, lent: Lent) -> Result<Lists, Refused> {
    decode_by(lone::pass, call, lent)
}

/// The same by passes that write every path out, for few sections.
pub fn decode_listed(call: &Call, lent: Lent) -> Result<Lists, Refused> {
    decode_by(listing::pass, call, lent)
}

fn decode_by(by: Pass, call: &Call, lent: Lent) -> Result<Lists, Refused> {
    refused(call, lent)?;
    let f = &call.frame;
    let coders = coders(f, &call.received);
    if let Some(number) = settled(by, f, &coders) {
        return Err(number.into());
    }
    // In message order, what pass 2 last handed to pass 1.
    let mut handed_back = vec![0i16; f.bits];
    let mut last = Vec::new();
    for _ in 0..call.iterations {
        let first = soft(by, f, &coders[0], &handed_back);
        let handed_on: Vec<i16> = f.pattern.iter().map(|&p| handed_over(first[p as usize].1)).collect();
        last = soft(by, f, &coders[1], &handed_on);
        for (i, &p) in f.pattern.iter().enumerate() {
            handed_back[p as usize] = handed_over(last[i].1);
        }
    }

    let mut l = Lists { bits: vec![0; f.bits], margins: vec![0; f.bits], extrinsics: vec![0; f.bits] };
    for (i, &p) in f.pattern.iter().enumerate() {
        let (margin, extrinsic) = last[i];
        l.bits[p as usize] = (margin >= 0) as u8;
        l.margins[p as usize] = i32::try_from(margin).unwrap();
        l.extrinsics[p as usize] = i32::try_from(extrinsic).unwrap();
    }
    Ok(l)
}

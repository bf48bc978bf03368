//! The coder.
use crate::{rules, End, Frame, Table};

#[derive(Clone, Debug)]
pub struct Call {
    pub frame: Frame,
    pub message: Vec<u8>,
}

fn walked(t: &Table, start: usize, inputs: &[u8]) -> usize {
    inputs.iter().fold(start, |s, &b| t.next_state(s, b as usize))
}

/// A coder's start and its tail, if it has both: of the states from 0 up the first from which a tail makes a path of the end, and of its tails the
/// first in dictionary order. All are tried in that order.
fn start_and_tail(t: &Table, end: End, inputs: &[u8], tail: usize) -> Option<(usize, Vec<u8>)> {
    (0..t.states).find_map(|start| {
        let state = walked(t, start, inputs);
        (0..1u32 << tail).find_map(|number| {
            let tail: Vec<u8> = (0..tail).map(|i| (number >> (tail - 1 - i) & 1) as u8).collect();
            end.leads(start, walked(t, state, &tail)).then_some((start, tail))
        })
    })
}

/// The inputs and parities of a coder's sections, its tail's included.
fn coded(t: &Table, end: End, inputs: &[u8], tail: usize) -> Option<(Vec<u8>, Vec<u8>)> {
    let (mut s, tail) = start_and_tail(t, end, inputs, tail)?;
    let all: Vec<u8> = inputs.iter().copied().chain(tail).collect();
    let mut parities = Vec::new();
    for &b in &all {
        parities.push(t.output(s, b as usize, 2) as u8);
        s = t.next_state(s, b as usize);
    }
    Some((all, parities))
}

pub fn encode(call: &Call, sent_len: usize) -> Result<Vec<u8>, u32> {
    let f = &call.frame;
    let k = f.bits as u128;
    let applying = [
        (2, rules::shape(&f.table) || rules::ends(&f.ends)),
        (3, rules::branch(&f.table)),
        (4, rules::sizes(f)),
        (5, rules::lists(&[(f.pattern.len(), k), (call.message.len(), k)]) || rules::frame_list(f, sent_len)),
        (7, rules::bit(&call.message)),
        (8, rules::pattern(f)),
        (9, rules::mask(f)),
        (11, rules::coder(f)),
    ];
    if let Some(number) = rules::lowest(&applying) {
        return Err(number);
    }
    let interleaved: Vec<u8> = f.pattern.iter().map(|&p| call.message[p as usize]).collect();
    let ([end1, end2], [tail1, tail2]) = (f.ends, f.tails());
    let (first, parity1) = coded(&f.table, end1, &call.message, tail1).ok_or(14u32)?;
    let (second, parity2) = coded(&f.table, end2, &interleaved, tail2).ok_or(14u32)?;
    let mut sent = Vec::new();
    for i in 0..f.bits {
        let m = f.mask(i);
        if m & 4 != 0 {
            sent.push(first[i]);
        }
        if m & 2 != 0 {
            sent.push(parity1[i]);
        }
        if m & 1 != 0 {
            sent.push(parity2[i]);
        }
    }
    for (inputs, parities) in [(first, parity1), (second, parity2)] {
        for i in f.bits..inputs.len() {
            sent.push(inputs[i]);
            sent.push(parities[i]);
        }
    }
    Ok(sent)
}

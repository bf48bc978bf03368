// Frames received with every value on the side of the bit sent or 0, and no systematic value of the message 0: after each number of iterations from 1
// to 8 the bits are the message, and each margin has its bit's sign. Nothing here asks the plain decoder.
use crate::calls::Answer;
use crate::draw::{self, Draw};
use crate::ends;
use plain::{coder, house, End, Frame};
use turbo::raw;

const ITERATIONS: usize = 8;

// Masks that send the systematic bit.
fn masks(d: &mut Draw) -> Vec<u8> {
    (0..d.size(1, 16)).map(|_| 4 + d.below(4) as u8).collect()
}

// Half of the frames have the house code and up to 4,096 sections, most of them few; the others a drawn table.
fn frame(d: &mut Draw) -> Frame {
    let ends = draw::ends(d);
    let most = match d.below(400) {
        0 => 4096,
        1..=40 => 400,
        _ => 40,
    };
    let mut frame = draw::frame(d, ends, most);
    if d.chance(2) {
        frame.table = house::table();
    }
    frame.masks = masks(d);
    frame
}

// A frame, a message of it and what is sent, drawn until the coder takes it.
fn coded(d: &mut Draw) -> (Frame, Vec<u8>, Vec<u8>) {
    loop {
        let frame = frame(d);
        let message: Vec<u8> = (0..frame.bits).map(|_| d.below(2) as u8).collect();
        let call = coder::Call { frame, message };
        if let Ok(sent) = coder::encode(&call, call.frame.length()) {
            return (call.frame, call.message, sent);
        }
    }
}

fn signed(bit: u8, size: usize) -> i16 {
    (2 * bit as i16 - 1) * size as i16
}

// Sizes are 0 and 1 in a third of the frames. A systematic value is the first of its position.
fn received(d: &mut Draw, frame: &Frame, sent: &[u8]) -> Vec<i16> {
    let largest = d.of(&[1, 1023, 1023]);
    let mut values: Vec<i16> = sent.iter().map(|&bit| signed(bit, d.size(0, largest))).collect();
    let mut at = 0;
    for k in 0..frame.bits {
        if values[at] == 0 {
            values[at] = signed(sent[at], 1);
        }
        at += frame.masks[k % frame.masks.len()].count_ones() as usize;
    }
    values
}

// The reply, bits and margins of the library.
fn decoded(f: &Frame, received: &[i16], iterations: usize) -> (u32, Vec<u8>, Vec<i32>) {
    let (k, t) = (f.bits, &f.table);
    let (mut bits, mut margins, mut extrinsics) = (vec![9; k], vec![0; k], vec![0; k]);
    let (mut work, mut index) = (vec![0; f.work() as usize], 0);
    let [end1, end2] = f.ends.map(End::number);
    let number = raw::decode(
        t.states, t.outputs, &t.next, &t.words, end1, end2, k, f.tail, &f.pattern, &f.masks, received, iterations, &mut bits, &mut margins,
        &mut extrinsics, &mut work, &mut index,
    );
    (number, bits, margins)
}

// A coded frame has a path, so that 13 is the only refusal, and that whatever the iterations.
pub fn after_each(d: &mut Draw) -> Answer {
    let (frame, message, sent) = coded(d);
    let received = received(d, &frame, &sent);
    let first = decoded(&frame, &received, 1).0;
    let mut differences = Vec::new();
    for iterations in 1..=ITERATIONS {
        let (number, bits, margins) = decoded(&frame, &received, iterations);
        let right = |k: usize| bits[k] == message[k] && margins[k].signum() == signed(message[k], 1) as i32;
        if number != first {
            differences.push(format!("number {number} after {iterations} iterations, {first} after one"));
        } else if let (0, Some(k)) = (number, (0..frame.bits).find(|&k| !right(k))) {
            differences.push(format!("after {iterations} iterations position {k}: bit {}, margin {}, sent {}", bits[k], margins[k], message[k]));
        }
    }
    Answer { number: first, ends: ends::place(&frame.ends), differences, ..Answer::default() }
}

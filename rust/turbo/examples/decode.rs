//! Codes a message with the house code, disturbs the frame and decodes it; then shows how refusals read.
//!
//!     scripts/library && cd rust && cargo run --release --example decode
use turbo::{decode, encode, End, Frame, Refusal, Table};

fn main() -> Result<(), Refusal> {
    let message = [1, 0, 1, 1, 0, 0, 1, 0];
    let ends = (End::Zero, End::Zero);
    let frame = Frame { table: Table::house(), ends, tail: 2, pattern: vec![3, 0, 6, 1, 4, 7, 2, 5], masks: vec![6, 5] };
    let sent = encode(&frame, &message)?;
    let mut received: Vec<i16> = sent.iter().map(|&bit| if bit == 1 { 40 } else { -40 }).collect();
    received[2] = -received[2];

    let decoded = decode(&frame, &received, 8)?;
    println!("at bit margin extrinsic");
    for at in 0..frame.bits() {
        println!("{at} {} {} {}", decoded.bits[at], decoded.margins[at], decoded.extrinsics[at]);
    }
    assert_eq!(decoded.bits, message);

    received[5] = 2000;
    match decode(&frame, &received, 8) {
        Err(refusal @ Refusal::Value { index: 5 }) => println!("one value out of range: {refusal}"),
        other => panic!("one value out of range: {other:?}"),
    }

    received.pop();
    match decode(&frame, &received, 8) {
        Err(refusal @ Refusal::Lists) => println!("one value less: {refusal}"),
        other => panic!("one value less: {other:?}"),
    }
    Ok(())
}

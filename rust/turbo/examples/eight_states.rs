//! Codes a message of five letters with the eight-state code of 3GPP TS 36.212 and its interleaver for 40 bits, lets the channel turn every ninth
//! bit, and decodes the frame; then shows how taps that name no code are refused.
//!
//!     scripts/library && cd rust && cargo run --release --example eight_states
use turbo::{decode, encode, polynomial_pattern, End, Frame, Refusal, Table};

fn main() -> Result<(), Refusal> {
    // Feedback 1 + D² + D³ is 13 and parity 1 + D + D³ is 11; three tail sections empty the three register bits.
    let ends = (End::Zero, End::Zero);
    let frame = Frame { table: Table::from_taps(3, 13, 11)?, ends, tail: 3, pattern: polynomial_pattern(40, 3, 10)?, masks: vec![7] };
    let message: Vec<u8> = b"LIFT5".iter().flat_map(|letter| (0..8).rev().map(move |i| letter >> i & 1)).collect();
    let sent = encode(&frame, &message)?;
    let mut received: Vec<i16> = sent.iter().map(|&bit| if bit == 1 { 40 } else { -40 }).collect();
    for at in (0..received.len()).step_by(9) {
        received[at] = -received[at] / 2;
    }

    let decoded = decode(&frame, &received, 8)?;
    println!("at bit margin extrinsic");
    for at in 0..frame.bits() {
        println!("{at} {} {} {}", decoded.bits[at], decoded.margins[at], decoded.extrinsics[at]);
    }
    assert_eq!(decoded.bits, message);

    match Table::from_taps(3, 12, 11) {
        Err(refusal @ Refusal::Polynomial) => println!("even feedback: {refusal}"),
        other => panic!("even feedback: {other:?}"),
    }
    Ok(())
}

//! Codes a message of eight bits with the house code, both coders closing a ring, lets the channel turn one bit, and decodes the frame; then shows a
//! message that closes no ring.
//!
//!     scripts/library && cd rust && cargo run --release --example ring
use turbo::{decode, encode, End, Frame, Refusal, Table};

fn main() -> Result<(), Refusal> {
    // Where the number of bits is no multiple of three, every message brings one state of the house code back to itself. A ring has no tail.
    let message = [1, 0, 1, 1, 0, 0, 1, 0];
    let ends = (End::Ring, End::Ring);
    let frame = Frame { table: Table::house(), ends, tail: 0, pattern: vec![3, 0, 6, 1, 4, 7, 2, 5], masks: vec![7] };
    let sent = encode(&frame, &message)?;
    let mut received: Vec<i16> = sent.iter().map(|&bit| if bit == 1 { 40 } else { -40 }).collect();
    received[3] = -received[3];

    let decoded = decode(&frame, &received, 8)?;
    println!("at bit margin extrinsic");
    for at in 0..frame.bits() {
        println!("{at} {} {} {}", decoded.bits[at], decoded.margins[at], decoded.extrinsics[at]);
    }
    assert_eq!(decoded.bits, message);

    let three = Frame { pattern: vec![0, 1, 2], ..frame };
    match encode(&three, &[1, 0, 0]) {
        Err(refusal @ Refusal::NoTail) => println!("the message 1 0 0 closes no ring: refused {}", refusal.number()),
        other => panic!("the message 1 0 0 closes no ring: {other:?}"),
    }
    Ok(())
}

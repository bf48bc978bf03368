//! Codes a message of three bits with the house code, makes a radio's samples of the frame, of which noise turns one, and goes from the samples to
//! channel values and from these to bits and margins; then shows the two other channels, and how a sample that is infinite is told.
//!
//!     scripts/library && cd rust && cargo run --release --example samples
use turbo::{decode, encode, sample_values, Channel, End, Frame, Refusal, Setting, Table};

// The fourth is that of the second message bit, a 0, whose sample comes out above 0.
const NOISE: [f32; 17] =
    [0.31, -0.22, 0.47, 1.18, 0.08, -0.35, -0.41, 0.26, -0.13, 0.19, -0.52, 0.37, -0.06, 0.44, -0.28, 0.15, -0.33];

fn main() -> Result<(), Refusal> {
    let message = [1, 0, 1];
    let ends = (End::Zero, End::Zero);
    let frame = Frame { table: Table::house(), ends, tail: 2, pattern: vec![2, 0, 1], masks: vec![7] };
    let sent = encode(&frame, &message)?;
    let mut samples: Vec<f32> = sent.iter().zip(NOISE).map(|(&bit, noise)| 2.0 * bit as f32 - 1.0 + noise).collect();

    // Noise of a variance of 1/4, so that Ec/N0 is 2; a sample of 1 becomes the value 4·2·8 = 64.
    let (scale, ratio) = (8.0, 2.0);
    let setting = Setting { scale, channel: Channel::Steady { ratio } };
    let received = sample_values(setting, &samples)?;
    let decoded = decode(&frame, &received, 8)?;
    println!("at sample value bit margin");
    for at in 0..frame.bits() {
        // Everything is sent, so that a position has three values, the systematic one first.
        println!("{at} {:.2} {} {} {}", samples[3 * at], received[3 * at], decoded.bits[at], decoded.margins[at]);
    }
    assert_eq!(decoded.bits, message);

    // Half the amplitude halves the reliability; a silent channel says nothing.
    let fading = Setting { scale, channel: Channel::Fading { amplitude: 0.5, ratio } };
    println!("the first value on a channel that fades to 0.5: {}", sample_values(fading, &samples)?[0]);
    let silent = Setting { scale, channel: Channel::Silent };
    println!("on a silent one: {}", sample_values(silent, &samples)?[0]);

    samples[16] = f32::INFINITY;
    match sample_values(setting, &samples) {
        Err(refusal @ Refusal::Sample) => println!("the last sample is infinite: {refusal}"),
        other => panic!("the last sample is infinite: {other:?}"),
    }
    Ok(())
}

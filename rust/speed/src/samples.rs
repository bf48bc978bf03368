// Samples as channel values: the library beside plain Rust that makes the same tests, all of them before the first value is written.
use crate::draw::Draw;
use crate::stats::{median, ratio};
use std::hint::black_box;
use std::time::Instant;
use turbo::{raw, Channel, Setting};

const N: usize = 4096;
// Lists by each in a round.
const LISTS: usize = 32;

type By = fn(&Setting, &[f32], &mut [i16]) -> u32;

// The library is the first of several.
const EACH: [(&str, By); 3] = [("library", by_library), ("plain Rust", by_plain_rust), ("Rust by a sum", by_sum)];

#[inline(never)]
fn by_library(s: &Setting, samples: &[f32], values: &mut [i16]) -> u32 {
    match s.channel {
        Channel::Steady { ratio } => raw::steady_values(ratio, s.scale, samples, values),
        Channel::Fading { amplitude, ratio } => raw::fading_values(amplitude, ratio, s.scale, samples, values),
        Channel::Silent => raw::silent_values(s.scale, samples, values),
    }
}

// Without SSE 4.1, which not every x86-64 has, `round_ties_even` is a call for each sample.
#[inline(never)]
fn by_plain_rust(s: &Setting, samples: &[f32], values: &mut [i16]) -> u32 {
    in_rust(s, samples, values, |product| product.round_ties_even().clamp(-1023.0, 1023.0))
}

// Limited before it is rounded, which comes to the same, a product may be rounded by a sum too large for digits after the point.
#[inline(never)]
fn by_sum(s: &Setting, samples: &[f32], values: &mut [i16]) -> u32 {
    const LARGE: f32 = (3 << 22) as f32;
    in_rust(s, samples, values, |product| product.clamp(-1023.0, 1023.0) + LARGE - LARGE)
}

#[inline(always)]
fn in_rust(s: &Setting, samples: &[f32], values: &mut [i16], whole: impl Fn(f32) -> f32) -> u32 {
    if samples.len() != values.len() {
        return 5;
    }
    let Some(factor) = factor(s) else { return 17 };
    if samples.iter().any(|sample| !sample.is_finite()) {
        return 18;
    }
    for (value, sample) in values.iter_mut().zip(samples) {
        *value = whole(factor * sample) as i16;
    }
    0
}

// Reliability times scale; none where a number is outside 0..1,024.
fn factor(s: &Setting) -> Option<f32> {
    let inside = |x: f32| (0.0..=1024.0).contains(&x);
    let (reliability, right) = match s.channel {
        Channel::Steady { ratio } => (4.0 * ratio, inside(ratio)),
        Channel::Fading { amplitude, ratio } => ((4.0 * amplitude) * ratio, inside(amplitude) && inside(ratio)),
        Channel::Silent => (0.0, true),
    };
    (right && inside(s.scale)).then_some(reliability * s.scale)
}

// Nanoseconds a sample over the lists of a round.
fn time(by: By, s: &Setting, samples: &[f32], values: &mut [i16]) -> f64 {
    let start = Instant::now();
    for _ in 0..LISTS {
        assert_eq!(by(black_box(s), samples, values), 0);
        black_box(&values);
    }
    start.elapsed().as_secs_f64() * 1e9 / (LISTS * N) as f64
}

// What was sent, -1 or 1, beside noise of up to 4 in size.
fn received() -> Vec<f32> {
    let mut d = Draw(1);
    (0..N).map(|_| 2.0 * d.below(2) as f32 - 1.0 + (d.below(1 << 20) as f32 / (1 << 17) as f32 - 4.0)).collect()
}

fn measure(name: &str, s: Setting, rounds: usize) {
    let samples = received();
    let mut values = [(); EACH.len()].map(|_| vec![0; N]);
    let mut times = [(); EACH.len()].map(|_| Vec::new());
    for _ in 0..rounds {
        for ((_, by), (values, times)) in EACH.iter().zip(values.iter_mut().zip(&mut times)) {
            times.push(time(*by, &s, &samples, values));
        }
    }
    assert!(values.iter().all(|v| v == &values[0]), "{name}: the values differ");
    let each: Vec<String> = EACH.iter().zip(&times).map(|((name, _), t)| format!("{name} {:.2}", median(t))).collect();
    println!("{name}: nanoseconds a sample: {}", each.join(", "));
    for ((name, _), other) in EACH.iter().zip(&times).skip(1) {
        println!("  {} / {name}: {}", EACH[0].0, ratio(&times[0], other));
    }
}

// Products reach the limit of values.
pub fn measure_all(rounds: usize) {
    println!("{N} samples; {rounds} rounds of {LISTS} lists by each");
    measure("steady", Setting { scale: 8.0, channel: Channel::Steady { ratio: 7.3 } }, rounds);
    measure("fading", Setting { scale: 8.0, channel: Channel::Fading { amplitude: 0.7, ratio: 9.1 } }, rounds);
}

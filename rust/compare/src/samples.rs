// Samples of a radio as channel values. Settings and samples are drawn by their bits as well as by their size, so that what is rare among floats
// comes often; and every sample there is, under one setting.
use crate::calls::{self, answer, Answer, Differences};
use crate::draw::{self, Draw};
use crate::lent::{Entry, List};
use plain::samples::{self, Channel, Setting};
use turbo::raw;

// The lists that hold every float: one for each upper half of its bits.
pub const LISTS: u64 = 1 << 16;

// The floats that are neither infinite nor not a number: of 2^32 all but those with the highest exponent.
pub const FINITE: u64 = (1 << 32) - (1 << 24);

// A sample is multiplied by 0.732: products of neighbours are neighbours or equal, so that most halves are met.
const EVERY: Setting = Setting { scale: 0.61, channel: Channel::Steady { ratio: 0.3 } };

// The bits of 1,024, of infinity and of -0.
const MOST: u32 = 0x4480_0000;
const INFINITE: u32 = 0x7f80_0000;
const SIGN: u32 = 0x8000_0000;

// Where a setting's numbers end and where subnormals do, and two that leave samples as they are.
const LIMITS: [f32; 9] = [
    0.0,
    -0.0,
    f32::from_bits(1),
    f32::from_bits(0x007f_ffff),
    f32::MIN_POSITIVE,
    0.25,
    1.0,
    f32::from_bits(MOST - 1),
    f32::from_bits(MOST),
];

const OUTSIDE: [f32; 6] = [f32::from_bits(MOST + 1), f32::from_bits(SIGN + 1), -f32::MIN_POSITIVE, -1.0, -1024.0, f32::MAX];

const NOT_FINITE: [f32; 6] = [
    f32::INFINITY,
    f32::NEG_INFINITY,
    f32::NAN,
    f32::from_bits(INFINITE + 1),
    f32::from_bits(SIGN + INFINITE + 1),
    f32::from_bits(u32::MAX),
];

fn subnormal(d: &mut Draw) -> f32 {
    f32::from_bits(d.below(1 << 23) as u32)
}

// Below 4, with all its digits.
fn of_usual_size(d: &mut Draw) -> f32 {
    d.below(1 << 24) as f32 / (1 << 22) as f32
}

fn not_finite(d: &mut Draw) -> f32 {
    if d.chance(2) { d.of(&NOT_FINITE) } else { f32::from_bits(d.next() as u32 | INFINITE) }
}

// A number that a setting may hold.
fn number(d: &mut Draw) -> f32 {
    match d.below(10) {
        0 => d.of(&LIMITS),
        1 => subnormal(d),
        2 => f32::from_bits(d.size(0, MOST as usize) as u32),
        // Powers of two and eighths: products without rounding.
        3 | 4 => f32::from_bits((d.size(127 - 12, 127 + 10) as u32) << 23),
        5 => d.below(65) as f32 / 8.0,
        _ => of_usual_size(d),
    }
}

// A number that no setting may hold.
fn no_number(d: &mut Draw) -> f32 {
    match d.below(4) {
        0 => f32::from_bits(d.size(MOST as usize + 1, INFINITE as usize - 1) as u32),
        1 => f32::from_bits(d.size(SIGN as usize + 1, u32::MAX as usize) as u32),
        2 => not_finite(d),
        _ => d.of(&OUTSIDE),
    }
}

fn setting(d: &mut Draw) -> Setting {
    let channel = match d.below(9) {
        0 => Channel::Silent,
        1..=4 => Channel::Steady { ratio: number(d) },
        _ => Channel::Fading { amplitude: number(d), ratio: number(d) },
    };
    Setting { scale: number(d), channel }
}

// A product to aim at: a half, most often a small one; about the limit of values; or about the largest float.
fn product(d: &mut Draw) -> f32 {
    match d.below(8) {
        0 => f32::MAX,
        1 | 2 => d.of(&[1022.5, 1023.0, 1023.5, 1024.0]),
        3..=5 => d.below(4) as f32 + 0.5,
        _ => d.below(1024) as f32 + 0.5,
    }
}

// Up to two floats further, either way.
fn beside(d: &mut Draw, x: f32) -> f32 {
    f32::from_bits(x.to_bits().wrapping_add(d.within(-2, 2) as u32))
}

fn sample(d: &mut Draw, factor: f32) -> f32 {
    let drawn = match d.below(8) {
        0 => f32::drawn(d),
        1 => subnormal(d),
        2 => of_usual_size(d),
        _ => {
            let aim = product(d);
            beside(d, aim / factor)
        }
    };
    let sign = d.of(&[1.0, -1.0]);
    sign * if drawn.is_finite() { drawn } else { d.of(&[0.0, 1.0, f32::MAX]) }
}

// One of the numbers that a setting holds.
fn held<'a>(d: &mut Draw, s: &'a mut Setting) -> &'a mut f32 {
    match (&mut s.channel, d.below(3)) {
        (Channel::Steady { ratio }, 0) => ratio,
        (Channel::Fading { amplitude, .. }, 0) => amplitude,
        (Channel::Fading { ratio, .. }, 1) => ratio,
        _ => &mut s.scale,
    }
}

// The first, the last or any.
fn damage_samples(d: &mut Draw, samples: &mut [f32]) {
    let Some(last) = samples.len().checked_sub(1) else { return };
    let at = match d.below(3) {
        0 => 0,
        1 => last,
        _ => d.size(0, last),
    };
    samples[at] = not_finite(d);
}

// Up to eight samples. A quarter of the calls are damaged.
pub fn drawn(d: &mut Draw) -> Answer {
    let mut setting = setting(d);
    let factor = setting.factor().unwrap_or(1.0);
    let mut samples: Vec<f32> = (0..d.below(9)).map(|_| sample(d, factor)).collect();
    let mut length = samples.len();
    let faults = if d.chance(2) { calls::faults(d) } else { 0 };
    for _ in 0..faults {
        match d.below(5) {
            0 | 1 => {
                let number = no_number(d);
                *held(d, &mut setting) = number;
            }
            2 | 3 => damage_samples(d, &mut samples),
            _ => length = draw::off(d, length),
        }
    }
    compared(d, &setting, &samples, length)
}

fn by_library(s: &Setting, samples: &[f32], values: &mut [i16]) -> u32 {
    match s.channel {
        Channel::Steady { ratio } => raw::steady_values(ratio, s.scale, samples, values),
        Channel::Fading { amplitude, ratio } => raw::fading_values(amplitude, ratio, s.scale, samples, values),
        Channel::Silent => raw::silent_values(s.scale, samples, values),
    }
}

// With a list for so many values.
pub fn compared(d: &mut Draw, setting: &Setting, samples: &[f32], length: usize) -> Answer {
    let asked = samples::values(setting, samples, length);
    let given = List::of("samples", d, samples);
    let mut values = List::any("values", d, length);
    let number = by_library(setting, given.entries(), values.entries_mut());
    let mut x = Differences::new(number, asked.as_ref().err().copied().unwrap_or(0));
    x.add(given.check(None));
    x.add(values.check(asked.as_deref().ok()));
    let few = &samples[..samples.len().min(16)];
    Answer { values: asked.map_or(0, |values| values.len()), ..answer(number, x, (setting, few, samples.len(), length)) }
}

// All samples with this upper half of their bits. Of those that are not finite the first would hide the others, so each is lent alone.
pub fn every(d: &mut Draw, index: u64) -> Answer {
    let samples: Vec<f32> = (0..1 << 16).map(|low| f32::from_bits((index as u32) << 16 | low)).collect();
    let together = if samples[0].is_finite() { samples.len() } else { 1 };
    let mut answers = samples.chunks(together).map(|list| compared(d, &EVERY, list, list.len()));
    let first = answers.next().expect("a list");
    if first.differences.is_empty() {
        return answers.find(|answer| !answer.differences.is_empty()).unwrap_or(first);
    }
    first
}

//! Samples of a radio as channel values, as document 02 asks, through the binding.
use turbo::{decode, encode, raw, sample_values, Channel, End, Frame, Refusal, Setting, Table};

fn steady(ratio: f32, scale: f32) -> Setting {
    Setting { scale, channel: Channel::Steady { ratio } }
}

fn fading(amplitude: f32, ratio: f32, scale: f32) -> Setting {
    Setting { scale, channel: Channel::Fading { amplitude, ratio } }
}

fn silent(scale: f32) -> Setting {
    Setting { scale, channel: Channel::Silent }
}

// Four times a quarter: a sample is its own product.
fn as_it_is() -> Setting {
    steady(0.25, 1.0)
}

// The first float above 1,024, and the first below 0.
const ABOVE: f32 = f32::from_bits(0x4480_0001);
const BELOW: f32 = f32::from_bits(0x8000_0001);

// Floats that no setting may hold, and such as no sample may be.
const NO_NUMBERS: [f32; 9] =
    [ABOVE, BELOW, -1.0, 2000.0, f32::MAX, f32::INFINITY, f32::NEG_INFINITY, f32::NAN, f32::from_bits(0xff80_0001)];

const NO_SAMPLES: [f32; 5] = [f32::INFINITY, f32::NEG_INFINITY, f32::NAN, f32::from_bits(0x7f80_0001), f32::from_bits(0xffff_ffff)];

// The values of these samples, and that the opposite samples give the opposite values.
fn values(setting: Setting, samples: &[f32]) -> Vec<i16> {
    let values = sample_values(setting, samples).unwrap();
    let opposite: Vec<f32> = samples.iter().map(|s| -s).collect();
    let negated: Vec<i16> = values.iter().map(|v| -v).collect();
    assert_eq!(sample_values(setting, &opposite), Ok(negated), "the opposites under {setting:?}");
    values
}

#[test]
fn halves_to_even() {
    assert_eq!(values(as_it_is(), &[0.5, 1.5, 2.5, 3.5]), [0, 2, 2, 4]);
    assert_eq!(values(as_it_is(), &[0.49999997, 0.50000006, 1.4999999, 1.5000001, 2.4999998, 2.5000002]), [0, 1, 1, 2, 2, 3]);
    assert_eq!(values(as_it_is(), &[1021.5, 1022.5]), [1022, 1022]);
    assert_eq!(values(as_it_is(), &[0.0, 0.25, 1.0, 7.75]), [0, 0, 1, 8]);
}

#[test]
fn limits_of_values() {
    assert_eq!(values(as_it_is(), &[1022.4999, 1022.50006, 1023.0, 1023.4999, 1023.5, 1023.50006]), [1022, 1023, 1023, 1023, 1023, 1023]);
    // Cut to 16, 32 or 64 bits these would be 0 or of the other sign.
    for size in [1024.0, 32_768.0, 65_536.0, 2_147_483_648.0, 4_294_967_296.0, 9_223_372_036_854_775_808.0, f32::MAX] {
        assert_eq!(values(as_it_is(), &[size]), [1023], "{size}");
    }
    // The product is infinite.
    assert_eq!(values(steady(1024.0, 1024.0), &[f32::MAX]), [1023]);
    assert_eq!(values(fading(1024.0, 1024.0, 1024.0), &[f32::MAX]), [1023]);
}

#[test]
fn products_in_their_order() {
    // Scale times sample first would be 99, and reliability times sample first 5.
    assert_eq!(values(steady(0.25468937, 3.4183307), &[28.284687]), [98]);
    assert_eq!(values(steady(0.7342022, 1.2850046), &[1.4574119]), [6]);
    assert_eq!(values(fading(1.0, 0.25468937, 3.4183307), &[28.284687]), [98]);
    assert_eq!(values(fading(0.25468937, 1.0, 3.4183307), &[28.284687]), [98]);
    assert_eq!(values(fading(0.5, 3.0, 10.0), &[1.0, 0.25]), [60, 15]);
}

#[test]
fn subnormals_are_kept() {
    let (largest, smallest) = (f32::from_bits(0x007f_ffff), f32::from_bits(1));
    assert_eq!(values(as_it_is(), &[smallest, largest]), [0, 0]);
    assert_eq!(values(steady(1024.0, 1024.0), &[smallest, largest]), [0, 0]);
    // 2^-130, 2^10 and 2^127, where 4·2^-130 is subnormal too.
    let (ratio, sample) = (f32::from_bits(1 << 19), f32::from_bits(0x7f00_0000));
    assert_eq!(values(steady(ratio, 1024.0), &[sample]), [512]);
    assert_eq!(values(fading(ratio, 1.0, 1024.0), &[sample]), [512]);
    // 1401/1024 and a quarter of a last digit that amplitude times ratio would lose: 700.5 and a little.
    let (amplitude, ratio) = (f32::from_bits(62 << 23 | 3_088_388), f32::from_bits(62 << 23));
    assert_eq!(values(fading(amplitude, ratio, 1024.0), &[sample]), [701]);
}

#[test]
fn silent_gives_zero() {
    assert_eq!(values(silent(3.0), &[0.0, 1.0, 1023.0, f32::MAX]), [0; 4]);
    assert_eq!(values(silent(1024.0), &[]), []);
    assert_eq!(values(silent(-0.0), &[1.0]), [0]);
}

#[test]
fn numbers_of_a_setting_at_their_limits() {
    // 4 times 1,024, and what makes 1 of it.
    let small = 1.0 / 4096.0;
    assert_eq!(values(steady(1024.0, small), &[7.0]), [7]);
    assert_eq!(values(steady(small, 1024.0), &[7.0]), [7]);
    assert_eq!(values(fading(1024.0, small, 1.0), &[7.0]), [7]);
    assert_eq!(values(fading(small, 1024.0, 1.0), &[7.0]), [7]);
    assert_eq!(values(fading(small, 1.0, 1024.0), &[7.0]), [7]);
    // -0.0 is not below 0.
    for zero in [0.0, -0.0] {
        assert_eq!(values(steady(zero, 1.0), &[5.0, f32::MAX]), [0, 0]);
        assert_eq!(values(steady(1.0, zero), &[5.0]), [0]);
        assert_eq!(values(fading(zero, 1.0, 1.0), &[5.0]), [0]);
        assert_eq!(values(fading(1.0, zero, 1.0), &[5.0]), [0]);
    }
}

#[test]
fn numbers_of_a_setting_out_of_range() {
    for number in NO_NUMBERS {
        let settings = [
            steady(number, 1.0),
            steady(1.0, number),
            fading(number, 1.0, 1.0),
            fading(1.0, number, 1.0),
            fading(1.0, 1.0, number),
            fading(0.0, number, 1.0),
            silent(number),
        ];
        for setting in settings {
            assert_eq!(sample_values(setting, &[1.0]), Err(Refusal::Setting), "{setting:?}");
            // also where there is no sample, and before a bad one
            assert_eq!(sample_values(setting, &[]), Err(Refusal::Setting), "{setting:?}");
            assert_eq!(sample_values(setting, &[f32::NAN]), Err(Refusal::Setting), "{setting:?}");
        }
    }
}

#[test]
fn samples_that_are_not_finite() {
    for sample in NO_SAMPLES {
        for setting in [as_it_is(), steady(0.0, 0.0), fading(1.0, 1.0, 1.0), silent(1.0), silent(0.0)] {
            assert_eq!(sample_values(setting, &[sample]), Err(Refusal::Sample), "{sample} under {setting:?}");
            assert_eq!(sample_values(setting, &[1.0, sample, 1.0]), Err(Refusal::Sample), "{sample} under {setting:?}");
        }
    }
}

type Call = fn(f32, f32, &[f32], &mut [i16]) -> u32;

// Steady, fading at amplitude 1, and silent, which has no ratio.
const CALLS: [Call; 3] = [
    raw::steady_values,
    |ratio, scale, samples, values| raw::fading_values(1.0, ratio, scale, samples, values),
    |_, scale, samples, values| raw::silent_values(scale, samples, values),
];

// The number that each channel gives, with a list of values of this length, which is untouched by a refusal.
fn numbers(ratio: f32, scale: f32, samples: &[f32], length: usize) -> [u32; 3] {
    CALLS.map(|call| {
        let mut values = vec![77; length];
        let number = call(ratio, scale, samples, &mut values);
        assert!(number == 0 || values.iter().all(|&v| v == 77), "a refused list was written");
        number
    })
}

#[test]
fn refusals_in_their_order() {
    assert_eq!(numbers(1.0, 1.0, &[1.0, 2.0], 2), [0; 3]);
    assert_eq!(numbers(1.0, 1.0, &[1.0, 2.0], 1), [5; 3]);
    assert_eq!(numbers(1.0, 1.0, &[1.0, 2.0], 3), [5; 3]);
    assert_eq!(numbers(1.0, 1.0, &[1.0, 2.0], 0), [5; 3]);
    assert_eq!(numbers(1.0, 1.0, &[], 1), [5; 3]);
    assert_eq!(numbers(1.0, 1.0, &[], 0), [0; 3]);
    assert_eq!(numbers(-1.0, f32::NAN, &[f32::NAN, 2.0], 1), [5; 3]);
    assert_eq!(numbers(1.0, f32::NAN, &[f32::NAN, 2.0], 2), [17; 3]);
    assert_eq!(numbers(-1.0, 1.0, &[1.0, 2.0], 1), [5; 3]);
    assert_eq!(numbers(-1.0, 1.0, &[1.0, 2.0], 2), [17, 17, 0]);
    assert_eq!(numbers(-1.0, 1.0, &[1.0, f32::NAN], 2), [17, 17, 18]);
    assert_eq!(numbers(-1.0, 1.0, &[], 0), [17, 17, 0]);
}

#[test]
fn a_bad_sample_late_in_the_list() {
    let mut samples = vec![1.0; 4096];
    for at in [0, 1, 7, 4094, 4095] {
        samples[at] = f32::NEG_INFINITY;
        assert_eq!(numbers(1.0, 1.0, &samples, 4096), [18; 3], "at {at}");
        samples[at] = 1.0;
    }
    assert_eq!(numbers(1.0, 1.0, &samples, 4096), [0; 3]);
}

#[test]
fn a_refusal_says_what_to_look_at() {
    assert_eq!(Refusal::Setting.to_string(), "refused 17: amplitude, ratio and scale must each be a number within 0..1024");
    assert_eq!(Refusal::Sample.to_string(), "refused 18: a sample is infinite or not a number");
}

#[test]
fn a_frame_of_samples() {
    let ends = (End::Zero, End::Zero);
    let frame = Frame { table: Table::house(), ends, tail: 2, pattern: vec![2, 0, 1], masks: vec![7] };
    let message = [1, 0, 1];
    let samples: Vec<f32> = encode(&frame, &message).unwrap().iter().map(|&bit| if bit == 1 { 0.75 } else { -0.75 }).collect();
    // However large a value would be, the decoder takes it.
    for scale in [8.0, 1024.0] {
        let received = sample_values(steady(1024.0, scale), &samples).unwrap();
        assert_eq!(decode(&frame, &received, 8).unwrap().bits, message);
    }
    // Without a signal all margins are 0.
    let received = sample_values(silent(8.0), &samples).unwrap();
    assert_eq!(decode(&frame, &received, 8).unwrap().margins, [0; 3]);
}

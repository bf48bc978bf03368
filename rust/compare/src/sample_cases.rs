// Samples with their values written out: halves, limits, the order of the products, and which number comes first.
use crate::call_cases::words;
use crate::calls::Answer;
use crate::draw::Draw;
use crate::samples::compared;
use plain::samples::{values, Channel, Setting};

// The setting, the samples, the length of the list for values, and the values or the number.
pub type Case = (&'static str, Setting, &'static [f32], usize, &'static str);

// Both sides give the answer that is written out.
pub fn case(d: &mut Draw, index: u64) -> Answer {
    let (name, setting, samples, length, asked) = CASES[index as usize % CASES.len()];
    let said = values(&setting, samples, length).map_or_else(|number| format!("refused {number}"), |values| words(&values));
    let mut answer = compared(d, &setting, samples, length);
    if said != asked {
        answer.differences.push(format!("plain side: {said}, asked {asked}"));
    }
    if !answer.differences.is_empty() {
        answer.differences.insert(0, format!("case \"{name}\""));
    }
    answer
}

const fn steady(ratio: f32, scale: f32) -> Setting {
    Setting { scale, channel: Channel::Steady { ratio } }
}

const fn fading(amplitude: f32, ratio: f32, scale: f32) -> Setting {
    Setting { scale, channel: Channel::Fading { amplitude, ratio } }
}

const fn silent(scale: f32) -> Setting {
    Setting { scale, channel: Channel::Silent }
}

// A sample is its own product.
const AS_IT_IS: Setting = steady(0.25, 1.0);

// 2^e
const fn power(e: i32) -> f32 {
    f32::from_bits(((127 + e) as u32) << 23)
}

const MAX: f32 = f32::MAX;
const INFINITE: f32 = f32::INFINITY;
const NAN: f32 = f32::NAN;
const SIGNALLING: f32 = f32::from_bits(0x7f80_0001);
const NEGATIVE_NAN: f32 = f32::from_bits(0xffff_ffff);

// The first floats above 1,024 and below 0.
const ABOVE: f32 = f32::from_bits(0x4480_0001);
const BELOW: f32 = f32::from_bits(0x8000_0001);

// Subnormals, of which one is 2^-130.
const SMALLEST: f32 = f32::from_bits(1);
const TO_MINUS_130: f32 = f32::from_bits(1 << 19);
const LARGEST_SUBNORMAL: f32 = f32::from_bits(0x007f_ffff);

#[rustfmt::skip]
pub const CASES: &[Case] = &[
    ("halves", AS_IT_IS, &[0.5, 1.5, 2.5, 3.5], 4, "0 2 2 4"),
    ("halves below 0", AS_IT_IS, &[-0.5, -1.5, -2.5, -3.5], 4, "0 -2 -2 -4"),
    ("beside halves", AS_IT_IS, &[0.49999997, 0.50000006, 1.4999999, 1.5000001, 2.4999998, 2.5000002], 6, "0 1 1 2 2 3"),
    ("beside halves below 0", AS_IT_IS, &[-0.49999997, -0.50000006, -1.4999999, -1.5000001, -2.4999998, -2.5000002], 6, "0 -1 -1 -2 -2 -3"),
    ("whole numbers", AS_IT_IS, &[0.0, -0.0, 1.0, -1.0, 512.0, -1022.0], 6, "0 0 1 -1 512 -1022"),
    ("about the limit", AS_IT_IS, &[1021.5, 1022.4999, 1022.5, 1022.50006, 1023.0, 1023.4999, 1023.5, 1024.0], 8,
        "1022 1022 1022 1023 1023 1023 1023 1023"),
    ("about the limit below 0", AS_IT_IS, &[-1021.5, -1022.4999, -1022.5, -1022.50006, -1023.0, -1023.4999, -1023.5, -1024.0], 8,
        "-1022 -1022 -1022 -1023 -1023 -1023 -1023 -1023"),
    ("products that 16, 32 and 64 bits cut", AS_IT_IS, &[32768.0, 65536.0, 65537.0, power(31), power(32), power(63), power(64), MAX], 8,
        "1023 1023 1023 1023 1023 1023 1023 1023"),
    ("the same below 0", AS_IT_IS, &[-32768.0, -65536.0, -65537.0, -power(31), -power(32), -power(63), -power(64), -MAX], 8,
        "-1023 -1023 -1023 -1023 -1023 -1023 -1023 -1023"),
    ("an infinite product", steady(1024.0, 1024.0), &[MAX, -MAX, 1.0], 3, "1023 -1023 1023"),
    ("an infinite product, fading", fading(1024.0, 1024.0, 1024.0), &[MAX, -MAX], 2, "1023 -1023"),

    // Scale times sample first would be 99, reliability times sample first 5
    ("the order of the products", steady(0.25468937, 3.4183307), &[28.284687, -28.284687], 2, "98 -98"),
    ("the order of the products, again", steady(0.7342022, 1.2850046), &[1.4574119, -1.4574119], 2, "6 -6"),
    ("the same, fading", fading(0.25468937, 1.0, 3.4183307), &[28.284687], 1, "98"),
    ("4 times amplitude times ratio", fading(0.5, 3.0, 10.0), &[1.0, -0.25], 2, "60 -15"),

    // Subnormals: 4 * 2^-130 is one too; amplitude times ratio first would lose the digit that makes 700.5 more than a half
    ("a subnormal ratio", steady(TO_MINUS_130, 1024.0), &[power(127), -power(127)], 2, "512 -512"),
    ("a subnormal amplitude", fading(TO_MINUS_130, 1.0, 1024.0), &[power(127)], 1, "512"),
    ("a subnormal product of amplitude and ratio", fading(f32::from_bits(62 << 23 | 3_088_388), power(-65), 1024.0), &[power(127)], 1, "701"),
    ("subnormal samples", AS_IT_IS, &[SMALLEST, -SMALLEST, LARGEST_SUBNORMAL, power(-126)], 4, "0 0 0 0"),
    ("subnormal samples times 2^22", steady(1024.0, 1024.0), &[SMALLEST, -LARGEST_SUBNORMAL], 2, "0 0"),

    // The limits of a setting
    ("ratio 1024", steady(1024.0, power(-12)), &[7.0], 1, "7"),
    ("ratio above 1024", steady(ABOVE, power(-12)), &[7.0], 1, "refused 17"),
    ("ratio -0.0", steady(-0.0, 1.0), &[5.0, -5.0, MAX], 3, "0 0 0"),
    ("ratio below 0", steady(BELOW, 1.0), &[5.0], 1, "refused 17"),
    ("ratio -1", steady(-1.0, 1.0), &[5.0], 1, "refused 17"),
    ("ratio infinite", steady(INFINITE, 1.0), &[5.0], 1, "refused 17"),
    ("ratio minus infinite", steady(-INFINITE, 1.0), &[5.0], 1, "refused 17"),
    ("ratio not a number", steady(NAN, 1.0), &[5.0], 1, "refused 17"),
    ("ratio not a number, signalling", steady(SIGNALLING, 1.0), &[5.0], 1, "refused 17"),
    ("scale 1024", steady(power(-12), 1024.0), &[7.0], 1, "7"),
    ("scale above 1024", steady(power(-12), ABOVE), &[7.0], 1, "refused 17"),
    ("scale -0.0", steady(1.0, -0.0), &[5.0], 1, "0"),
    ("scale below 0", steady(1.0, BELOW), &[5.0], 1, "refused 17"),
    ("scale infinite", steady(1.0, INFINITE), &[5.0], 1, "refused 17"),
    ("scale not a number", steady(1.0, NAN), &[5.0], 1, "refused 17"),
    ("amplitude 1024", fading(1024.0, power(-12), 1.0), &[7.0], 1, "7"),
    ("amplitude above 1024", fading(ABOVE, power(-12), 1.0), &[7.0], 1, "refused 17"),
    ("amplitude -0.0", fading(-0.0, 1.0, 1.0), &[5.0], 1, "0"),
    ("amplitude below 0", fading(BELOW, 1.0, 1.0), &[5.0], 1, "refused 17"),
    ("amplitude not a number, negative", fading(NEGATIVE_NAN, 1.0, 1.0), &[5.0], 1, "refused 17"),
    ("fading, ratio above 1024", fading(1.0, ABOVE, 1.0), &[5.0], 1, "refused 17"),
    ("fading, ratio infinite beside amplitude 0", fading(0.0, INFINITE, 1.0), &[5.0], 1, "refused 17"),
    ("fading, scale not a number", fading(1.0, 1.0, NAN), &[5.0], 1, "refused 17"),

    ("silent", silent(1.0), &[1.0, -1.0, MAX, -0.0], 4, "0 0 0 0"),
    ("silent, scale 1024", silent(1024.0), &[1.0], 1, "0"),
    ("silent, scale -0.0", silent(-0.0), &[1.0], 1, "0"),
    ("silent, scale above 1024", silent(ABOVE), &[1.0], 1, "refused 17"),
    ("silent, scale not a number", silent(NAN), &[1.0], 1, "refused 17"),
    ("silent, a sample infinite", silent(1.0), &[INFINITE], 1, "refused 18"),
    ("silent, the last sample not a number", silent(1.0), &[1.0, 2.0, NAN], 3, "refused 18"),
    ("silent, scale not a number and a sample infinite", silent(NAN), &[INFINITE], 1, "refused 17"),
    ("silent, unequal lengths and scale not a number", silent(NAN), &[INFINITE], 2, "refused 5"),

    ("the first sample infinite", AS_IT_IS, &[INFINITE, 1.0, 2.0], 3, "refused 18"),
    ("the last sample minus infinite", AS_IT_IS, &[1.0, 2.0, -INFINITE], 3, "refused 18"),
    ("the last sample not a number", AS_IT_IS, &[1.0, 2.0, SIGNALLING], 3, "refused 18"),
    ("a sample not a number, negative", AS_IT_IS, &[1.0, NEGATIVE_NAN, 2.0], 3, "refused 18"),
    ("a sample infinite, times 0", steady(0.0, 1.0), &[INFINITE], 1, "refused 18"),
    ("ratio -1 and a sample not a number", steady(-1.0, 1.0), &[1.0, NAN], 2, "refused 17"),
    ("unequal lengths and ratio -1", steady(-1.0, 1.0), &[1.0, 2.0], 1, "refused 5"),
    ("unequal lengths, ratio -1 and a sample not a number", steady(-1.0, 1.0), &[NAN, 2.0], 3, "refused 5"),
    ("one value more than samples", AS_IT_IS, &[1.0, 2.0], 3, "refused 5"),
    ("one value less", AS_IT_IS, &[1.0, 2.0], 1, "refused 5"),
    ("a sample and no list for it", AS_IT_IS, &[1.0], 0, "refused 5"),
    ("a list and no sample", AS_IT_IS, &[], 1, "refused 5"),
    ("no sample", AS_IT_IS, &[], 0, ""),
    ("no sample, fading", fading(1.0, 1.0, 1.0), &[], 0, ""),
    ("no sample, silent", silent(1.0), &[], 0, ""),
    ("no sample and ratio -1", steady(-1.0, 1.0), &[], 0, "refused 17"),
];

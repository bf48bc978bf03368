// One table's trial: frames coded with it and received with noise, decoded by several decoders.
use crate::code::Code;
use crate::decoders::Decode;
use crate::draw::Draw;
use crate::iterations::Said;
use crate::stats::{median, ratio};
use crate::{FRAMES, K, ZERO};
use std::hint::black_box;
use std::time::Instant;
use turbo::raw;

pub struct Trial {
    pub code: Code,
    pub tail: usize,
    pub pattern: Vec<u32>,
    frames: Vec<Vec<i16>>,
}

// A decoder by its name; the library is the first of several.
pub type Named<'a> = (&'static str, Decode<'a>);

impl Trial {
    // None where the table has no tail for too many messages.
    pub fn new(d: &mut Draw, code: Code, tail: usize) -> Option<Trial> {
        let mut pattern: Vec<u32> = (0..K as u32).collect();
        for i in (1..K).rev() {
            pattern.swap(i, d.below(i + 1));
        }
        let mut trial = Trial { code, tail, pattern, frames: Vec::new() };
        for _ in 0..1000 * FRAMES {
            let frame = trial.frame(d);
            trial.frames.extend(frame);
            if trial.frames.len() == FRAMES {
                return Some(trial);
            }
        }
        None
    }

    pub fn sections(&self) -> usize {
        K + self.tail
    }

    // A coded message with noise, or none where the table has no tail for it.
    fn frame(&self, d: &mut Draw) -> Option<Vec<i16>> {
        let Trial { code: Code { states, next, words }, tail, pattern, .. } = self;
        let message: Vec<u8> = (0..K).map(|_| d.below(2) as u8).collect();
        let mut sent = vec![0u8; 3 * K + 4 * tail];
        let number = raw::encode(*states, 2, next, words, ZERO, ZERO, K, *tail, &message, pattern, &[7], &mut sent);
        (number == 0).then(|| sent.iter().map(|&b| (40 * (2 * b as i32 - 1) + d.below(121) as i32 - 60) as i16).collect())
    }

    // Every decoder decodes each frame once, and all must say the same; false where the first refuses.
    pub fn agree(&self, decoders: &mut [Named]) -> bool {
        let (first, others) = decoders.split_first_mut().expect("a decoder");
        let (mut said, mut said_by_other) = (Said::new(K), Said::new(K));
        for frame in &self.frames {
            if !first.1(frame, &mut said) {
                return false;
            }
            for (name, decode) in others.iter_mut() {
                assert!(decode(frame, &mut said_by_other));
                assert_eq!(said, said_by_other, "{} and {name} differ", first.0);
            }
        }
        true
    }

    // Microseconds a frame of each decoder in each round.
    fn times(&self, decoders: &mut [Named], rounds: usize) -> Vec<Vec<f64>> {
        let mut times = vec![Vec::new(); decoders.len()];
        let mut said = Said::new(K);
        for _ in 0..rounds {
            for ((_, decode), times) in decoders.iter_mut().zip(&mut times) {
                let start = Instant::now();
                for frame in &self.frames {
                    decode(black_box(frame), &mut said);
                    black_box(&said);
                }
                times.push(start.elapsed().as_secs_f64() * 1e6 / FRAMES as f64);
            }
        }
        times
    }

    // Prints each decoder's time, and the ratios of the first to the others.
    pub fn measure(&self, title: &str, decoders: &mut [Named], rounds: usize) {
        let times = self.times(decoders, rounds);
        let each: Vec<String> = decoders.iter().zip(&times).map(|((name, _), t)| format!("{name} {:.1}", median(t))).collect();
        println!("{title}, {} states, {} tail sections: microseconds a frame: {}", self.code.states, self.tail, each.join(", "));
        for ((name, _), other) in decoders.iter().zip(&times).skip(1) {
            println!("  {} / {name}: {}", decoders[0].0, ratio(&times[0], other));
        }
    }
}

// Iterations of two passes that hand over to each other: what the decoders written in Rust have in common, whatever their pass.
use crate::ITERATIONS;

// Full 32-bit metrics. An unreached state counts as far below every metric, which is good enough for frames of a few hundred sections and quicker
// than asking.
pub const UNREACHED: i32 = i32::MIN / 4;

// State 0 alone is reached.
pub fn at_zero<const STATES: usize>() -> [i32; STATES] {
    let mut metrics = [UNREACHED; STATES];
    metrics[0] = 0;
    metrics
}

// What a pass says of each section.
pub struct Soft {
    pub margins: Vec<i32>,
    pub extrinsics: Vec<i32>,
}

pub trait Pass {
    // Max-log-MAP from state 0 to state 0; `values` has systematic and parity of each section.
    fn run(&mut self, values: &[[i16; 2]], apriori: &[i16], soft: &mut Soft);
}

// What a decoder says of a frame.
#[derive(Clone, PartialEq, Debug)]
pub struct Said {
    pub bits: Vec<u8>,
    pub margins: Vec<i32>,
    pub extrinsics: Vec<i32>,
}

impl Said {
    pub fn new(k: usize) -> Said {
        Said { bits: vec![0; k], margins: vec![0; k], extrinsics: vec![0; k] }
    }
}

// Systematic and parity of each section, tails included, of pass 1 and of pass 2.
struct Received {
    first: Vec<[i16; 2]>,
    second: Vec<[i16; 2]>,
}

impl Received {
    // Everything is sent: three values a position, then the tails.
    fn of(frame: &[i16], pattern: &[u32]) -> Received {
        let k = pattern.len();
        let tails = &frame[3 * k..];
        let pairs = |values: &[i16]| values.chunks(2).map(|p| [p[0], p[1]]).collect::<Vec<_>>();
        let mut first: Vec<[i16; 2]> = (0..k).map(|i| [frame[3 * i], frame[3 * i + 1]]).collect();
        let mut second: Vec<[i16; 2]> = (0..k).map(|i| [frame[3 * pattern[i] as usize], frame[3 * i + 2]]).collect();
        first.extend(pairs(&tails[..tails.len() / 2]));
        second.extend(pairs(&tails[tails.len() / 2..]));
        Received { first, second }
    }
}

// What an extrinsic hands over.
fn handed_over(e: i32) -> i16 {
    (3 * e / 4).clamp(-8191, 8191) as i16
}

pub struct Decoder<P> {
    pass: P,
    soft: Soft,
}

impl<P: Pass> Decoder<P> {
    pub fn new(pass: P, sections: usize) -> Decoder<P> {
        Decoder { pass, soft: Soft { margins: vec![0; sections], extrinsics: vec![0; sections] } }
    }

    #[inline(always)]
    pub fn decode(&mut self, frame: &[i16], pattern: &[u32], said: &mut Said) {
        let r = Received::of(frame, pattern);
        let k = pattern.len();
        let mut apriori = vec![0i16; r.first.len()];
        let mut other = vec![0i16; r.first.len()];
        for _ in 0..ITERATIONS {
            self.pass.run(&r.first, &apriori, &mut self.soft);
            for i in 0..k {
                other[i] = handed_over(self.soft.extrinsics[pattern[i] as usize]);
            }
            self.pass.run(&r.second, &other, &mut self.soft);
            for i in 0..k {
                apriori[pattern[i] as usize] = handed_over(self.soft.extrinsics[i]);
            }
        }
        for i in 0..k {
            let p = pattern[i] as usize;
            said.bits[p] = (self.soft.margins[i] >= 0) as u8;
            said.margins[p] = self.soft.margins[i];
            said.extrinsics[p] = self.soft.extrinsics[i];
        }
    }
}

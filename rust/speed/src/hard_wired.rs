// The pass of a decoder hard-wired to one code, but for the code's branches, which each code writes out.
use crate::iterations::{at_zero, Pass, Soft};
use std::marker::PhantomData;

// Of a section `x` is the gain of input 1 with parity 1, and `y` that of input 1 with parity 0; the other two are their opposites.
pub trait Branches<const STATES: usize> {
    // The metrics after a section from those before it.
    fn forwards(before: [i32; STATES], x: i32, y: i32) -> [i32; STATES];

    // From the metrics after a section, each state's way on by input 0 and by input 1.
    fn backwards(after: [i32; STATES], x: i32, y: i32) -> [[i32; 2]; STATES];
}

pub struct HardWired<B, const STATES: usize> {
    forward: Vec<[i32; STATES]>,
    branches: PhantomData<B>,
}

// The best of all ways through a section by an input: those to a state before it, and on from there.
#[inline(always)]
fn best<const STATES: usize>(input: usize, to: &[i32; STATES], on: &[[i32; 2]; STATES]) -> i32 {
    (1..STATES).fold(to[0] + on[0][input], |m, s| m.max(to[s] + on[s][input]))
}

impl<B: Branches<STATES>, const STATES: usize> HardWired<B, STATES> {
    pub fn new(sections: usize) -> HardWired<B, STATES> {
        HardWired { forward: vec![[0; STATES]; sections], branches: PhantomData }
    }
}

impl<B: Branches<STATES>, const STATES: usize> Pass for HardWired<B, STATES> {
    fn run(&mut self, values: &[[i16; 2]], apriori: &[i16], soft: &mut Soft) {
        let n = values.len();
        let (forward, apriori) = (&mut self.forward[..n], &apriori[..n]);
        let gains = |k: usize| {
            let own = apriori[k] as i32 + values[k][0] as i32;
            let parity = values[k][1] as i32;
            (own + parity, own - parity)
        };
        let mut row = at_zero();
        for k in 0..n {
            forward[k] = row;
            let (x, y) = gains(k);
            row = B::forwards(row, x, y);
        }
        let mut row = at_zero();
        let (margins, extrinsics) = (&mut soft.margins[..n], &mut soft.extrinsics[..n]);
        for k in (0..n).rev() {
            let (x, y) = gains(k);
            let (to, on) = (forward[k], B::backwards(row, x, y));
            let (zero, one) = (best(0, &to, &on), best(1, &to, &on));
            row = on.map(|[zero, one]| zero.max(one));
            let margin = (one - zero) / 2;
            margins[k] = margin;
            extrinsics[k] = margin - apriori[k] as i32 - values[k][0] as i32;
        }
    }
}

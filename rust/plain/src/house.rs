//! The house code by its state equations.
use crate::Table;

pub fn table() -> Table {
    let mut t = Table { states: 4, outputs: 2, next: Vec::new(), words: Vec::new() };
    for s in 0..4u8 {
        let (s0, s1) = (s & 1, s >> 1);
        for x in 0..2u8 {
            let parity = x ^ s0;
            let next_s0 = x ^ s0 ^ s1;
            let next_s1 = s0;
            t.next.push(next_s0 + 2 * next_s1);
            t.words.push(x + 2 * parity);
        }
    }
    t
}

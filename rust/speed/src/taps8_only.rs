// 3GPP's code, memory 3 with taps 13 and 11: next states 0 1 2 3 5 4 7 6 1 0 3 2 4 5 6 7, words 0 3 2 1 2 1 0 3 twice.
use crate::hard_wired::Branches;

pub struct Taps8;

impl Branches<8> for Taps8 {
    #[inline(always)]
    fn forwards([a0, a1, a2, a3, a4, a5, a6, a7]: [i32; 8], x: i32, y: i32) -> [i32; 8] {
        [
            (a0 - x).max(a4 + x),
            (a0 + x).max(a4 - x),
            (a1 - y).max(a5 + y),
            (a1 + y).max(a5 - y),
            (a2 + y).max(a6 - y),
            (a2 - y).max(a6 + y),
            (a3 + x).max(a7 - x),
            (a3 - x).max(a7 + x),
        ]
    }

    #[inline(always)]
    fn backwards([b0, b1, b2, b3, b4, b5, b6, b7]: [i32; 8], x: i32, y: i32) -> [[i32; 2]; 8] {
        [
            [b0 - x, b1 + x],
            [b2 - y, b3 + y],
            [b5 - y, b4 + y],
            [b7 - x, b6 + x],
            [b1 - x, b0 + x],
            [b3 - y, b2 + y],
            [b4 - y, b5 + y],
            [b6 - x, b7 + x],
        ]
    }
}

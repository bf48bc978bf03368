// The code of memory 4 with taps 19 and 29: next states 0 1 3 2 4 5 7 6 8 9 11 10 12 13 15 14 1 0 2 3 5 4 6 7 9 8 10 11 13 12 14 15,
// words 0 3 2 1 2 1 0 3 2 1 0 3 0 3 2 1 twice.
use crate::hard_wired::Branches;

pub struct Taps16;

impl Branches<16> for Taps16 {
    #[inline(always)]
    fn forwards([a0, a1, a2, a3, a4, a5, a6, a7, a8, a9, a10, a11, a12, a13, a14, a15]: [i32; 16], x: i32, y: i32) -> [i32; 16] {
        [
            (a0 - x).max(a8 + x),
            (a0 + x).max(a8 - x),
            (a1 + y).max(a9 - y),
            (a1 - y).max(a9 + y),
            (a2 - y).max(a10 + y),
            (a2 + y).max(a10 - y),
            (a3 + x).max(a11 - x),
            (a3 - x).max(a11 + x),
            (a4 - y).max(a12 + y),
            (a4 + y).max(a12 - y),
            (a5 + x).max(a13 - x),
            (a5 - x).max(a13 + x),
            (a6 - x).max(a14 + x),
            (a6 + x).max(a14 - x),
            (a7 + y).max(a15 - y),
            (a7 - y).max(a15 + y),
        ]
    }

    #[inline(always)]
    fn backwards([b0, b1, b2, b3, b4, b5, b6, b7, b8, b9, b10, b11, b12, b13, b14, b15]: [i32; 16], x: i32, y: i32) -> [[i32; 2]; 16] {
        [
            [b0 - x, b1 + x],
            [b3 - y, b2 + y],
            [b4 - y, b5 + y],
            [b7 - x, b6 + x],
            [b8 - y, b9 + y],
            [b11 - x, b10 + x],
            [b12 - x, b13 + x],
            [b15 - y, b14 + y],
            [b1 - x, b0 + x],
            [b2 - y, b3 + y],
            [b5 - y, b4 + y],
            [b6 - x, b7 + x],
            [b9 - y, b8 + y],
            [b10 - x, b11 + x],
            [b13 - x, b12 + x],
            [b14 - y, b15 + y],
        ]
    }
}

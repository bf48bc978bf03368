//! The library's calls on the caller's own lists, with the number returned: 0 for done, else that of the refusal; [`sheet`] returns a length
//! instead. include/turbo.h says what each list is. They are safe for any arguments: slices have their lengths, and those that are written
//! overlap nothing.
//!
//! An end is told by its number, [`End::number`](crate::End::number); any other number is refused by 2.
//!
//! Both decoders always write `index`: with 6 and 16 it is that of the first value out of range in its list, counted from 0, and else 0.
//! [`Refusal::from_reply`](crate::Refusal::from_reply) makes an error of the number and the index.
#![allow(clippy::too_many_arguments)]

use crate::ffi;

pub fn lone_decode(
    states: usize,
    outputs: usize,
    next: &[u8],
    words: &[u8],
    end: u32,
    sections: usize,
    channel: &[i16],
    apriori: &[i16],
    marks: &mut [u8],
    margins: &mut [i32],
    extrinsics: &mut [i32],
    work: &mut [i32],
    index: &mut u64,
) -> u32 {
    // SAFETY: each pointer is that of a slice with its own length, or of one number that is lent, and the function has no `requires`.
    unsafe {
        ffi::turbo_lone_decode(
            states,
            outputs,
            next.as_ptr(),
            next.len(),
            words.as_ptr(),
            words.len(),
            end,
            sections,
            channel.as_ptr(),
            channel.len(),
            apriori.as_ptr(),
            apriori.len(),
            marks.as_mut_ptr(),
            marks.len(),
            margins.as_mut_ptr(),
            margins.len(),
            extrinsics.as_mut_ptr(),
            extrinsics.len(),
            work.as_mut_ptr(),
            work.len(),
            index,
        )
    }
}

pub fn encode(
    states: usize,
    outputs: usize,
    next: &[u8],
    words: &[u8],
    end1: u32,
    end2: u32,
    bits: usize,
    tail: usize,
    message: &[u8],
    pattern: &[u32],
    masks: &[u8],
    sent: &mut [u8],
) -> u32 {
    // SAFETY: as above.
    unsafe {
        ffi::turbo_encode(
            states,
            outputs,
            next.as_ptr(),
            next.len(),
            words.as_ptr(),
            words.len(),
            end1,
            end2,
            bits,
            tail,
            message.as_ptr(),
            message.len(),
            pattern.as_ptr(),
            pattern.len(),
            masks.as_ptr(),
            masks.len(),
            sent.as_mut_ptr(),
            sent.len(),
        )
    }
}

pub fn decode(
    states: usize,
    outputs: usize,
    next: &[u8],
    words: &[u8],
    end1: u32,
    end2: u32,
    bits: usize,
    tail: usize,
    pattern: &[u32],
    masks: &[u8],
    received: &[i16],
    iterations: usize,
    decided: &mut [u8],
    margins: &mut [i32],
    extrinsics: &mut [i32],
    work: &mut [i32],
    index: &mut u64,
) -> u32 {
    // SAFETY: as above.
    unsafe {
        ffi::turbo_decode(
            states,
            outputs,
            next.as_ptr(),
            next.len(),
            words.as_ptr(),
            words.len(),
            end1,
            end2,
            bits,
            tail,
            pattern.as_ptr(),
            pattern.len(),
            masks.as_ptr(),
            masks.len(),
            received.as_ptr(),
            received.len(),
            iterations,
            decided.as_mut_ptr(),
            decided.len(),
            margins.as_mut_ptr(),
            margins.len(),
            extrinsics.as_mut_ptr(),
            extrinsics.len(),
            work.as_mut_ptr(),
            work.len(),
            index,
        )
    }
}

/// The length of the answer, or 0 where its list has no room for it and is left as it was.
pub fn sheet(sheet: &[u8], answer: &mut [u8]) -> usize {
    // SAFETY: as above.
    unsafe { ffi::turbo_sheet(sheet.as_ptr(), sheet.len(), answer.as_mut_ptr(), answer.len()) }
}

/// The number of a [`Hint`](crate::Hint) about a sheet's text; its line is always written.
pub fn hint(sheet: &[u8], line: &mut u64) -> u32 {
    // SAFETY: as above.
    unsafe { ffi::turbo_hint(sheet.as_ptr(), sheet.len(), line) }
}

pub fn house_next(list: &mut [u8]) -> u32 {
    // SAFETY: as above.
    unsafe { ffi::turbo_house_next(list.as_mut_ptr(), list.len()) }
}

pub fn house_words(list: &mut [u8]) -> u32 {
    // SAFETY: as above.
    unsafe { ffi::turbo_house_words(list.as_mut_ptr(), list.len()) }
}

pub fn taps_table(memory: usize, feedback: u32, parity: u32, next: &mut [u8], words: &mut [u8]) -> u32 {
    // SAFETY: as above.
    unsafe { ffi::turbo_taps_table(memory, feedback, parity, next.as_mut_ptr(), next.len(), words.as_mut_ptr(), words.len()) }
}

pub fn polynomial_pattern(bits: usize, f1: usize, f2: usize, pattern: &mut [u32]) -> u32 {
    // SAFETY: as above.
    unsafe { ffi::turbo_polynomial_pattern(bits, f1, f2, pattern.as_mut_ptr(), pattern.len()) }
}

pub fn steady_values(ratio: f32, scale: f32, samples: &[f32], values: &mut [i16]) -> u32 {
    // SAFETY: as above.
    unsafe { ffi::turbo_steady_values(ratio, scale, samples.as_ptr(), samples.len(), values.as_mut_ptr(), values.len()) }
}

pub fn fading_values(amplitude: f32, ratio: f32, scale: f32, samples: &[f32], values: &mut [i16]) -> u32 {
    // SAFETY: as above.
    unsafe { ffi::turbo_fading_values(amplitude, ratio, scale, samples.as_ptr(), samples.len(), values.as_mut_ptr(), values.len()) }
}

pub fn silent_values(scale: f32, samples: &[f32], values: &mut [i16]) -> u32 {
    // SAFETY: as above.
    unsafe { ffi::turbo_silent_values(scale, samples.as_ptr(), samples.len(), values.as_mut_ptr(), values.len()) }
}

// The functions of crates/capi/src/lib.rt. Nothing checks these declarations against it: a slice is a pointer and a length, and `index` or `line`
// a pointer alone.
#[link(name = "capi", kind = "static")]
extern "C" {
    pub fn turbo_lone_decode(
        states: usize,
        outputs: usize,
        next: *const u8,
        next_len: usize,
        words: *const u8,
        words_len: usize,
        end: u32,
        sections: usize,
        channel: *const i16,
        channel_len: usize,
        apriori: *const i16,
        apriori_len: usize,
        marks: *mut u8,
        marks_len: usize,
        margins: *mut i32,
        margins_len: usize,
        extrinsics: *mut i32,
        extrinsics_len: usize,
        work: *mut i32,
        work_len: usize,
        index: *mut u64,
    ) -> u32;

    pub fn turbo_encode(
        states: usize,
        outputs: usize,
        next: *const u8,
        next_len: usize,
        words: *const u8,
        words_len: usize,
        end1: u32,
        end2: u32,
        bits: usize,
        tail: usize,
        message: *const u8,
        message_len: usize,
        pattern: *const u32,
        pattern_len: usize,
        masks: *const u8,
        masks_len: usize,
        sent: *mut u8,
        sent_len: usize,
    ) -> u32;

    pub fn turbo_decode(
        states: usize,
        outputs: usize,
        next: *const u8,
        next_len: usize,
        words: *const u8,
        words_len: usize,
        end1: u32,
        end2: u32,
        bits: usize,
        tail: usize,
        pattern: *const u32,
        pattern_len: usize,
        masks: *const u8,
        masks_len: usize,
        received: *const i16,
        received_len: usize,
        iterations: usize,
        decided: *mut u8,
        decided_len: usize,
        margins: *mut i32,
        margins_len: usize,
        extrinsics: *mut i32,
        extrinsics_len: usize,
        work: *mut i32,
        work_len: usize,
        index: *mut u64,
    ) -> u32;

    pub fn turbo_sheet(sheet: *const u8, sheet_len: usize, answer: *mut u8, answer_len: usize) -> usize;

    pub fn turbo_hint(sheet: *const u8, sheet_len: usize, line: *mut u64) -> u32;

    pub fn turbo_house_next(list: *mut u8, list_len: usize) -> u32;

    pub fn turbo_house_words(list: *mut u8, list_len: usize) -> u32;

    pub fn turbo_taps_table(memory: usize, feedback: u32, parity: u32, next: *mut u8, next_len: usize, words: *mut u8, words_len: usize) -> u32;

    pub fn turbo_polynomial_pattern(bits: usize, f1: usize, f2: usize, pattern: *mut u32, pattern_len: usize) -> u32;

    pub fn turbo_steady_values(ratio: f32, scale: f32, samples: *const f32, samples_len: usize, values: *mut i16, values_len: usize) -> u32;

    pub fn turbo_fading_values(
        amplitude: f32,
        ratio: f32,
        scale: f32,
        samples: *const f32,
        samples_len: usize,
        values: *mut i16,
        values_len: usize,
    ) -> u32;

    pub fn turbo_silent_values(scale: f32, samples: *const f32, samples_len: usize, values: *mut i16, values_len: usize) -> u32;
}

//! One sheet by itself: its answer, its sound frame, and how its rows were heard.
use crate::heard::heard;
use crate::hint::hint;
use crate::sheet::{Answer, Sheet};
use crate::sound::{Level, SoundFrames};
use std::sync::Arc;

/// A refused sheet.
#[derive(Clone, Debug, PartialEq, Eq)]
pub struct Refused {
    pub number: u32,
    pub line: usize,
    pub hint: Option<String>,
}

/// A decoded sheet. All lists have an entry a position.
#[derive(Clone, Debug, PartialEq)]
pub struct Frame {
    pub pattern: Vec<u32>,
    pub bits: Vec<u8>,
    pub margins: Vec<i32>,
    pub extrinsics: Vec<i32>,
    /// The sizes of the sound frame's margins.
    pub sound: Arc<[i32]>,
    pub heard: Vec<Option<f64>>,
}

impl Frame {
    pub fn of(text: &[u8], sound_frames: &SoundFrames) -> Result<Frame, Refused> {
        match Answer::to(text) {
            Answer::Refused { number, line } => Err(Refused { number, line, hint: hint(number, text) }),
            Answer::Decoded { bits, margins, extrinsics } => {
                let sheet = Sheet::of_decoded(text);
                let level = Level::of(&sheet);
                let sound = sound_frames.margins(&sheet, level);
                let heard = heard(&sheet, &bits, level);
                Ok(Frame { pattern: sheet.pattern, bits, margins, extrinsics, sound, heard })
            }
        }
    }

    /// The margin that the position has in a sound frame of the message decided.
    pub fn sound_margin(&self, at: usize) -> i32 {
        if self.bits[at] == 1 {
            self.sound[at]
        } else {
            -self.sound[at]
        }
    }

    /// The size of the margin over that of the sound margin, which must not be 0.
    pub fn over_sound(&self, at: usize) -> Option<f64> {
        (self.sound[at] != 0).then(|| f64::from(self.margins[at].abs()) / f64::from(self.sound[at]))
    }

    /// By position, whether fewer than a tenth of the frame's positions, rounded up, have a margin smaller in size. So of equal sizes at the
    /// tenth's end all are among the lowest.
    pub fn lowest_tenth(&self) -> Vec<bool> {
        let mut sizes: Vec<i32> = self.margins.iter().map(|m| m.abs()).collect();
        sizes.sort_unstable();
        let last = sizes[sizes.len().div_ceil(10) - 1];
        self.margins.iter().map(|m| m.abs() <= last).collect()
    }
}

//! The sound frame: what the margins of a sheet would be without noise and without a weak place.
use crate::sheet::{Answer, Sheet};
use std::collections::HashMap;
use std::sync::{Arc, Mutex};

/// The level of a sheet, the mean size of its values: the sum of the sizes of all values that were sent, the tails' too, and their number.
#[derive(Clone, Copy, Debug, PartialEq, Eq)]
pub struct Level {
    pub total: i64,
    pub count: i64,
}

impl Level {
    pub fn of(sheet: &Sheet) -> Level {
        // The tails are always sent, so the count is at least 8.
        sheet.sent().fold(Level { total: 0, count: 0 }, |l, v| Level { total: l.total + i64::from(v).abs(), count: l.count + 1 })
    }

    /// The mean size to the nearest whole number, a half upwards, and at least 1: the size of every value of the sound frame.
    pub fn rounded(self) -> i16 {
        (((2 * self.total + self.count) / (2 * self.count)) as i16).max(1)
    }
}

/// The sheet of the message of zeros with every value that was sent at -`size`: a noise-free frame with the pattern and the `-` of `like`.
///
/// That one message does for all. The code is linear: turning the signs of the values where another message's frame has ones carries every path
/// to a path with the same metric, and so turns a margin's sign where the message has a one, and no margin's size.
pub fn sheet(like: &Sheet, size: i16) -> Sheet {
    let rows = like.rows.iter().map(|row| row.map(|value| value.map(|_| -size))).collect();
    Sheet { pattern: like.pattern.clone(), rows, tails: [[-size; 4]; 2] }
}

#[derive(PartialEq, Eq, Hash)]
struct Key {
    pattern: Vec<u32>,
    // A bit a value of the row: whether it was sent.
    masks: Vec<u8>,
    size: i16,
}

impl Key {
    fn new(sheet: &Sheet, size: i16) -> Key {
        let mask = |row: &[Option<i16>; 3]| row.iter().fold(0, |mask, value| 2 * mask + u8::from(value.is_some()));
        Key { pattern: sheet.pattern.clone(), masks: sheet.rows.iter().map(mask).collect(), size }
    }
}

/// The sizes of the sound frames' margins, each worked out once for a pattern, what was sent of it, and a mean size.
#[derive(Default)]
pub struct SoundFrames(Mutex<HashMap<Key, Arc<[i32]>>>);

impl SoundFrames {
    /// By position, the size of the margin of the sheet's sound frame.
    pub fn margins(&self, like: &Sheet, level: Level) -> Arc<[i32]> {
        let size = level.rounded();
        let key = Key::new(like, size);
        if let Some(known) = self.0.lock().expect("no thread has failed").get(&key) {
            return known.clone();
        }
        // Not under the lock: two threads may work out the same margins, but none waits.
        let Answer::Decoded { margins, .. } = Answer::to(sheet(like, size).text().as_bytes()) else {
            unreachable!("a sound sheet is decoded");
        };
        let sizes: Arc<[i32]> = margins.iter().map(|m| m.abs()).collect();
        self.0.lock().expect("no thread has failed").entry(key).or_insert(sizes).clone()
    }
}

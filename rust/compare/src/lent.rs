// Lists lent to the library, each inside a larger buffer: what stands beside it must stay as it was, and so must a list that is only read.
use crate::draw::Draw;

const BESIDE: usize = 9;

pub trait Entry: Copy + PartialEq + std::fmt::Debug {
    fn drawn(d: &mut Draw) -> Self;

    fn same(self, other: Self) -> bool {
        self == other
    }
}

macro_rules! entry {
    ($($t:ty)*) => { $(impl Entry for $t { fn drawn(d: &mut Draw) -> $t { d.next() as $t } })* };
}
entry!(u8 i16 u32 i32 u64);

// By their bits: what is not a number is drawn too, and 0.0 is not -0.0.
impl Entry for f32 {
    fn drawn(d: &mut Draw) -> f32 {
        f32::from_bits(d.next() as u32)
    }

    fn same(self, other: f32) -> bool {
        self.to_bits() == other.to_bits()
    }
}

pub struct List<T> {
    name: &'static str,
    now: Vec<T>,
    before: Vec<T>,
}

impl<T: Entry> List<T> {
    // A list of the given entries.
    pub fn of(name: &'static str, d: &mut Draw, entries: &[T]) -> List<T> {
        let mut now: Vec<T> = (0..entries.len() + 2 * BESIDE).map(|_| T::drawn(d)).collect();
        now[BESIDE..BESIDE + entries.len()].copy_from_slice(entries);
        List { name, before: now.clone(), now }
    }

    // A list to write to: what is in it means nothing.
    pub fn any(name: &'static str, d: &mut Draw, length: usize) -> List<T> {
        let entries: Vec<T> = (0..length).map(|_| T::drawn(d)).collect();
        List::of(name, d, &entries)
    }

    pub fn entries(&self) -> &[T] {
        &self.now[BESIDE..self.now.len() - BESIDE]
    }

    pub fn entries_mut(&mut self) -> &mut [T] {
        let end = self.now.len() - BESIDE;
        &mut self.now[BESIDE..end]
    }

    // The list holds `asked`, or is as it was where nothing is asked; beside it nothing changed.
    pub fn check(&self, asked: Option<&[T]>) -> Result<(), String> {
        let mut whole = self.before.clone();
        if let Some(entries) = asked {
            if entries.len() != self.entries().len() {
                return Err(format!("{}: {} entries, asked {}", self.name, self.entries().len(), entries.len()));
            }
            whole[BESIDE..BESIDE + entries.len()].copy_from_slice(entries);
        }
        match (0..whole.len()).find(|&i| !whole[i].same(self.now[i])) {
            None => Ok(()),
            Some(i) => Err(format!("{} at {}: {:?}, asked {:?}", self.name, i as i64 - BESIDE as i64, self.now[i], whole[i])),
        }
    }
}

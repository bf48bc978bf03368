//! The frames of one pattern together: what is said of each position over all of them.
use crate::frame::Frame;
use crate::mark::{marked, needed};
use std::collections::HashMap;

/// The sheets of one pattern. Positions of different patterns are not to be compared.
pub struct Group<'a> {
    /// Where each frame stands in the run's order.
    pub places: Vec<usize>,
    pub frames: Vec<&'a Frame>,
    /// By position.
    pub positions: Vec<Position>,
    /// In how many more frames below the limit than not a row is marked.
    pub needed: Option<usize>,
}

/// What the frames of a group say of a position.
#[derive(Clone, Debug, PartialEq)]
pub struct Position {
    pub at: usize,
    /// The least size of its margin, and twice the median size.
    pub least: i32,
    pub twice_median: i64,
    /// In how many frames it is among the lowest tenth.
    pub lowest_tenth: usize,
    /// The median of margin over sound margin.
    pub over_sound: Option<f64>,
    /// The mean of heard, in how many frames it is heard at all, and in how many of these below the limit.
    pub mean_heard: Option<f64>,
    pub heard: usize,
    pub below: usize,
    pub is_marked: bool,
}

/// The two in the middle of a sorted list that is not empty; of an odd number of entries twice the same.
fn middle<T: Copy>(sorted: &[T]) -> (T, T) {
    (sorted[(sorted.len() - 1) / 2], sorted[sorted.len() / 2])
}

fn position(at: usize, frames: &[&Frame], tenths: &[Vec<bool>], limit: f64) -> Position {
    let mut sizes: Vec<i32> = frames.iter().map(|f| f.margins[at].abs()).collect();
    sizes.sort_unstable();
    let mut ratios: Vec<f64> = frames.iter().filter_map(|f| f.over_sound(at)).collect();
    ratios.sort_by(f64::total_cmp);
    let heard: Vec<f64> = frames.iter().filter_map(|f| f.heard[at]).collect();
    let (low, high) = middle(&sizes);
    Position {
        at,
        least: sizes[0],
        twice_median: i64::from(low) + i64::from(high),
        lowest_tenth: tenths.iter().filter(|t| t[at]).count(),
        over_sound: (!ratios.is_empty()).then(|| middle(&ratios)).map(|(low, high)| (low + high) / 2.0),
        mean_heard: (!heard.is_empty()).then(|| heard.iter().sum::<f64>() / heard.len() as f64),
        heard: heard.len(),
        below: heard.iter().filter(|&&h| h < limit).count(),
        // Settled when all rows are known.
        is_marked: false,
    }
}

impl<'a> Group<'a> {
    fn new(members: Vec<(usize, &'a Frame)>, limit: f64) -> Group<'a> {
        let (places, frames): (Vec<usize>, Vec<&Frame>) = members.into_iter().unzip();
        let tenths: Vec<Vec<bool>> = frames.iter().map(|f| f.lowest_tenth()).collect();
        let mut positions: Vec<Position> = (0..frames[0].bits.len()).map(|at| position(at, &frames, &tenths, limit)).collect();
        let needed = needed(&positions.iter().map(|p| (p.below, p.heard)).collect::<Vec<_>>());
        for p in &mut positions {
            p.is_marked = marked(p.below, p.heard, needed);
        }
        Group { places, frames, positions, needed }
    }

    pub fn bits(&self) -> usize {
        self.positions.len()
    }

    pub fn marked(&self) -> Vec<usize> {
        self.positions.iter().filter(|p| p.is_marked).map(|p| p.at).collect()
    }

    /// The marked positions first, then the others, each by mean heard from low to high; those never heard come last.
    pub fn ranked(&self) -> Vec<&Position> {
        let mut ranked: Vec<&Position> = self.positions.iter().collect();
        let heard = |p: &Position| p.mean_heard.unwrap_or(f64::INFINITY);
        ranked.sort_by(|p, q| q.is_marked.cmp(&p.is_marked).then(heard(p).total_cmp(&heard(q))));
        ranked
    }
}

/// The groups of the decoded sheets, each with its place in the run, in the order of their first sheets.
pub fn groups<'a>(decoded: impl Iterator<Item = (usize, &'a Frame)>, limit: f64) -> Vec<Group<'a>> {
    let mut found: HashMap<&[u32], usize> = HashMap::new();
    let mut members: Vec<Vec<(usize, &Frame)>> = Vec::new();
    for (place, frame) in decoded {
        let at = *found.entry(&frame.pattern).or_insert(members.len());
        if at == members.len() {
            members.push(Vec::new());
        }
        members[at].push((place, frame));
    }
    members.into_iter().map(|m| Group::new(m, limit)).collect()
}

//! When a row is marked. docs/SHAFT.md has the trials behind the rule.
//!
//! A row that is below the limit in a share p of its frames by chance alone is ever n frames more below than not with the chance (p/(1-p))^n,
//! however many frames there are. So a row is marked from that n on for which this is at most one in a hundred shafts, all rows taken together.

/// Heard below this counts, unless the caller says otherwise.
pub const BELOW: f64 = 0.5;
/// A marked row is below in at least so many more frames than it is not, however rarely the others are.
const LEAST_MORE: usize = 4;
const SHAFTS: f64 = 100.0;

/// In how many more frames below the limit than not below it a row of the group is marked, from the frames in which each row was below and in
/// which it was heard at all. p is the share of frames below over all rows but that tenth, rounded up, which has the largest shares: weak rows
/// are to be among these. There is no such number where p is a half or more, or nothing was heard.
pub fn needed(rows: &[(usize, usize)]) -> Option<usize> {
    let mut heard: Vec<(usize, usize)> = rows.iter().copied().filter(|&(_, heard)| heard > 0).collect();
    heard.sort_by(|(b, h), (c, i)| (b * i).cmp(&(c * h)));
    let others = heard.len() - heard.len().div_ceil(10);
    let (below, of) = heard[..others].iter().fold((0, 0), |(b, h), (c, i)| (b + c, h + i));
    if heard.is_empty() || 2 * below >= of.max(1) {
        return None;
    }
    let ratio = below as f64 / (of - below).max(1) as f64;
    let (mut chance, mut more) = (1.0, 0);
    while more < LEAST_MORE || chance * SHAFTS * heard.len() as f64 > 1.0 {
        chance *= ratio;
        more += 1;
    }
    Some(more)
}

/// Whether a row is marked that was below in `below` of `heard` frames.
pub fn marked(below: usize, heard: usize, needed: Option<usize>) -> bool {
    needed.is_some_and(|more| below >= heard - below + more)
}

//! Outcomes by writing every path out, its start too, for few sections: nothing of the recursion.
use crate::lone::Outcome;
use crate::{End, Table};

// The state in which a path ends, and its metric.
fn walked(t: &Table, start: usize, inputs: u32, channel: &[i16], apriori: &[i16]) -> (usize, i64) {
    let (mut s, mut metric) = (start, 0i64);
    for k in 0..apriori.len() {
        let b = (inputs >> k & 1) as usize;
        metric += (2 * b as i64 - 1) * apriori[k] as i64;
        for l in 1..=t.outputs {
            metric += (2 * t.output(s, b, l) as i64 - 1) * channel[t.outputs * k + l - 1] as i64;
        }
        s = t.next_state(s, b);
    }
    (s, metric)
}

pub fn pass(t: &Table, end: End, sections: usize, channel: &[i16], apriori: &[i16]) -> Option<Vec<Outcome>> {
    let mut best = vec![[None::<i64>; 2]; sections];
    let starts = if end == End::Ring { 0..t.states } else { 0..1 };
    for (start, inputs) in starts.flat_map(|start| (0..1u32 << sections).map(move |inputs| (start, inputs))) {
        let (last, metric) = walked(t, start, inputs, channel, apriori);
        let counts = match end {
            End::Zero => last == 0,
            End::Open => true,
            End::Ring => last == start,
            End::Unknown(_) => false,
        };
        if counts {
            for (k, b) in best.iter_mut().enumerate() {
                let class = &mut b[(inputs >> k & 1) as usize];
                *class = Some(class.map_or(metric, |m| m.max(metric)));
            }
        }
    }
    best.iter()
        .map(|b| match *b {
            [Some(zero), Some(one)] => Some(Outcome::Free((one - zero) / 2)),
            [Some(_), None] => Some(Outcome::Forced(0)),
            [None, Some(_)] => Some(Outcome::Forced(1)),
            [None, None] => None,
        })
        .collect()
}

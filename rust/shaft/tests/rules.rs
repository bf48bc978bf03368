//! The rules by themselves.
use shaft::csv::field;
use shaft::frame::Frame;
use shaft::group::groups;
use shaft::mark::{marked, needed};
use shaft::sources::by_number;
use std::cmp::Ordering::{Equal, Less};

fn frame(margins: &[i32]) -> Frame {
    let k = margins.len();
    let sound = margins.iter().map(|m| 2 * m.abs()).collect();
    Frame { pattern: (0..k as u32).collect(), bits: vec![1; k], margins: margins.to_vec(), extrinsics: vec![0; k], sound, heard: vec![Some(1.0); k] }
}

#[test]
fn names_go_by_their_numbers() {
    let pairs = [
        ("frame-2", "frame-10"),
        ("a2b9", "a2b10"),
        ("a", "a1"),
        ("9", "a"),
        ("a09", "a10"),
        ("a01", "a1"),
        ("a99999999999999999998", "a99999999999999999999"),
    ];
    for (low, high) in pairs {
        assert_eq!(by_number(low.as_bytes(), high.as_bytes()), Less, "{low} {high}");
        assert_eq!(by_number(high.as_bytes(), low.as_bytes()), Less.reverse(), "{high} {low}");
        assert_eq!(by_number(low.as_bytes(), low.as_bytes()), Equal);
    }
}

#[test]
fn fields_are_quoted_where_needed() {
    assert_eq!(field("a & b"), "a & b");
    assert_eq!(field("a,b"), "\"a,b\"");
    assert_eq!(field("a\"b"), "\"a\"\"b\"");
    assert_eq!(field("a\nb"), "\"a\nb\"");
}

#[test]
fn the_lowest_tenth_with_its_ties() {
    let lowest = |margins: &[i32]| -> Vec<usize> { frame(margins).lowest_tenth().iter().enumerate().filter(|(_, &l)| l).map(|(at, _)| at).collect() };
    assert_eq!(lowest(&[5]), [0]);
    assert_eq!(lowest(&[9, -3, 4, 5, 6, 7, 8, 9, 10, 11]), [1]);
    assert_eq!(lowest(&[9, -3, 4, 5, 3, 7, 8, 9, 10, 11]), [1, 4]);
    // A tenth of eleven, rounded up, is two.
    assert_eq!(lowest(&[9, -3, 4, 5, 6, 7, 8, 9, 10, 11, -4]), [1, 2, 10]);
}

#[test]
fn least_and_median() {
    let frames = [frame(&[9, 1]), frame(&[-4, -8]), frame(&[6, 3]), frame(&[11, 4])];
    let of = |count: usize| {
        let group = groups(frames[..count].iter().enumerate(), 0.5).remove(0);
        group.positions.iter().map(|p| (p.least, p.twice_median, p.over_sound)).collect::<Vec<_>>()
    };
    assert_eq!(of(3), [(4, 12, Some(0.5)), (1, 6, Some(0.5))]);
    assert_eq!(of(4), [(4, 15, Some(0.5)), (1, 7, Some(0.5))]);
    let silent = [frame(&[0, 5])];
    let group = groups(silent.iter().enumerate(), 0.5).remove(0);
    assert_eq!(group.positions.iter().map(|p| p.over_sound).collect::<Vec<_>>(), [None, Some(0.5)]);
}

#[test]
fn heard_at_the_limit_is_not_below_it() {
    let heard = |heard: &[Option<f64>]| Frame { heard: heard.to_vec(), ..frame(&[1, 1, 1]) };
    let frames = [heard(&[Some(0.5), Some(0.25), None]), heard(&[Some(0.49), Some(0.75), None])];
    let group = groups(frames.iter().enumerate(), 0.5).remove(0);
    let said: Vec<_> = group.positions.iter().map(|p| (p.below, p.heard, p.mean_heard)).collect();
    assert_eq!(said, [(1, 2, Some(0.495)), (1, 2, Some(0.5)), (0, 0, None)]);
    assert_eq!(group.ranked().iter().map(|p| p.at).collect::<Vec<_>>(), [0, 1, 2]);
}

#[test]
fn what_is_needed_for_a_mark() {
    // The others are never below: four frames more are enough, whatever the weak rows do, if they are a tenth of the rows.
    let mut rows = vec![(0, 20); 64];
    rows[30..37].fill((20, 20));
    assert_eq!(needed(&rows), Some(4));
    // Of 20 more weak rows in 64, 7 are left out and 13 of 57 count: (13/44)^n is at most 1/6400 from 8 on.
    rows[0..13].fill((20, 20));
    assert_eq!(needed(&rows), Some(8));
    // (1/9)^4 is below 1/6400, and above 1/51200.
    assert_eq!(needed(&[(2, 20); 64]), Some(4));
    assert_eq!(needed(&[(2, 20); 512]), Some(5));
    // (1/3)^8 is 1/6561.
    assert_eq!(needed(&[(5, 20); 64]), Some(8));
    assert_eq!(needed(&[(9, 20); 64]), Some(44));
    assert_eq!(needed(&[(10, 20); 64]), None);
    // Rows that were never heard do not count, and one row alone is compared with nothing.
    assert_eq!(needed(&[(0, 0); 64]), None);
    assert_eq!(needed(&[(0, 0), (0, 0), (5, 20), (5, 20)]), needed(&[(5, 20); 2]));
    assert_eq!(needed(&[(20, 20)]), Some(4));
    assert!(marked(12, 20, Some(4)) && !marked(11, 20, Some(4)) && marked(4, 4, Some(4)) && !marked(3, 3, Some(4)));
    assert!(!marked(20, 20, None) && !marked(0, 0, Some(4)));
}

//! Which value is out of range, as document 02 asks, through the binding.
use turbo::{decode, lone_decode, raw, sheet, End, Frame, Refusal, Table};

// One state and two outputs, systematic: every path is one.
fn one_state() -> Table {
    Table::new(2, &[[(0, 0), (0, 3)]])
}

fn lone(channel: &[i16], apriori: &[i16]) -> Result<(), Refusal> {
    lone_decode(&one_state(), End::Zero, channel, apriori).map(|_| ())
}

#[test]
fn the_first_value_out_of_range_of_each_list() {
    assert_eq!(lone(&[1023, -1023, 0, 0], &[8191, -8191]), Ok(()));
    for value in [1024, -1024, i16::MAX, i16::MIN] {
        assert_eq!(lone(&[value, 0, 0, 0], &[0, 0]), Err(Refusal::Value { index: 0 }));
        assert_eq!(lone(&[0, 0, 0, value], &[0, 0]), Err(Refusal::Value { index: 3 }));
        assert_eq!(lone(&[0, value, value, 0], &[0, 0]), Err(Refusal::Value { index: 1 }));
    }
    for value in [8192, -8192, i16::MAX, i16::MIN] {
        assert_eq!(lone(&[0; 4], &[0, value]), Err(Refusal::Apriori { index: 1 }));
        assert_eq!(lone(&[0; 4], &[value, value]), Err(Refusal::Apriori { index: 0 }));
    }
}

#[test]
fn a_channel_value_comes_before_an_apriori_value() {
    assert_eq!(lone(&[0, 0, 0, 1024], &[8192, 0]), Err(Refusal::Value { index: 3 }));
    // a value that is right in one list is not in the other
    assert_eq!(lone(&[0, 0, 5000, 0], &[0, 5000]), Err(Refusal::Value { index: 2 }));
    assert_eq!(lone(&[0; 4], &[5000, 0]), Ok(()));
}

#[test]
fn the_numbers_beside_them() {
    // 5 comes before both, and 12 after both
    assert_eq!(lone(&[1024, 0, 0], &[8192, 0]), Err(Refusal::Lists));
    let to_one = Table::new(1, &[[(1, 0), (1, 1)], [(1, 0), (1, 1)]]);
    assert_eq!(lone_decode(&to_one, End::Zero, &[0, 0], &[0, 0]), Err(Refusal::NoPath));
    assert_eq!(lone_decode(&to_one, End::Zero, &[0, 0], &[0, 8192]), Err(Refusal::Apriori { index: 1 }));
    assert_eq!(lone_decode(&to_one, End::Zero, &[0, 1024], &[8192, 0]), Err(Refusal::Value { index: 1 }));
}

#[test]
fn the_index_is_one_of_the_list_received() {
    // Of each position two values are sent, so tail 1 starts at 4 and tail 2 at 8.
    let ends = (End::Zero, End::Zero);
    let frame = Frame { table: Table::house(), ends, tail: 2, pattern: vec![1, 0], masks: vec![6, 5] };
    assert_eq!(frame.frame_len(), 12);
    for at in 0..12 {
        let mut received = [0; 12];
        received[at] = 1024;
        assert_eq!(decode(&frame, &received, 8), Err(Refusal::Value { index: at }));
        received[at..].fill(-1024);
        assert_eq!(decode(&frame, &received, 8), Err(Refusal::Value { index: at }));
    }
    // 6 comes before 8 and 10
    let mut received = [0; 12];
    received[7] = 1024;
    let no_pattern = Frame { pattern: vec![1, 1], ..frame };
    assert_eq!(decode(&no_pattern, &received, 33), Err(Refusal::Value { index: 7 }));
    assert_eq!(decode(&no_pattern, &[0; 12], 33), Err(Refusal::Pattern));
}

// The number and the index that a lone call gives over the table of one state, the index having been another.
fn lone_reply(sections: usize, channel: &[i16], apriori: &[i16]) -> (u32, u64) {
    let n = apriori.len();
    let (mut marks, mut margins, mut extrinsics, mut work) = (vec![0; n], vec![0; n], vec![0; n], vec![0; n + 1]);
    let mut index = u64::MAX;
    let number =
        raw::lone_decode(1, 2, &[0, 0], &[0, 3], 0, sections, channel, apriori, &mut marks, &mut margins, &mut extrinsics, &mut work, &mut index);
    (number, index)
}

#[test]
fn the_index_is_always_written() {
    assert_eq!(lone_reply(2, &[0; 4], &[0; 2]), (0, 0));
    assert_eq!(lone_reply(2, &[0, 0, 1024, 0], &[0; 2]), (6, 2));
    assert_eq!(lone_reply(2, &[0; 4], &[0, 8192]), (16, 1));
    assert_eq!(lone_reply(3, &[0, 1024, 0, 0], &[0, 8192]), (5, 0));
    assert_eq!(lone_reply(0, &[0, 1024, 0, 0], &[0, 8192]), (4, 0));
}

#[test]
fn the_line_of_a_value_out_of_range() {
    let four_rows = |line3: &str, line4: &str, line7: &str| {
        sheet(format!("at to sys par par2 sys2\n0 0 1 1 1 -\n{line3}\n{line4}\n3 3 1 1 1 -\n4 - 1 1 1 1\n{line7}\n").as_bytes())
    };
    assert_eq!(four_rows("1 1 1 1 -2000 -", "2 2 2000 1 1 -", "5 - 1 1 1 1"), b"refused line\n6 3\n");
    assert_eq!(four_rows("1 1 1 1 1 -", "2 2 2000 1 1 -", "5 - 1 1 1 1"), b"refused line\n6 4\n");
    assert_eq!(four_rows("1 1 1 1 1 -", "2 2 1 1 1 -", "5 - 1 1 1 2000"), b"refused line\n6 7\n");
    // The frame's list has all of tail 1 before tail 2; a reader comes to the row above first.
    let tails = |first: &str, second: &str| sheet(format!("at to sys par par2 sys2\n0 0 1 1 1 -\n1 - {first}\n2 - {second}\n").as_bytes());
    assert_eq!(tails("1 1 1 2000", "2000 1 1 1"), b"refused line\n6 3\n");
    assert_eq!(tails("2000 1 1 1", "1 1 1 2000"), b"refused line\n6 3\n");
    assert_eq!(tails("1 1 1 1", "2000 1 1 2000"), b"refused line\n6 4\n");
}

#[test]
fn a_refusal_says_where_to_look() {
    let said = |number, index| Refusal::from_reply(number, index).unwrap().to_string();
    assert_eq!(said(6, 5), "refused 6: the channel value at index 5, counted from 0, is outside -1023..1023");
    assert_eq!(said(16, 0), "refused 16: the a-priori value at index 0, counted from 0, is outside -8191..8191");
    assert_eq!(said(9, 5), said(9, 0));
}

#[test]
fn the_least_refusal_is_told() {
    let order = [1, 2, 15, 3, 4, 5, 17, 18, 6, 16, 7, 8, 9, 10, 11, 12, 13, 14];
    for pair in order.windows(2) {
        assert!(Refusal::from_reply(pair[0], 9) < Refusal::from_reply(pair[1], 0), "{pair:?}");
    }
    assert!(Refusal::Value { index: 1 } < Refusal::Value { index: 2 });
}

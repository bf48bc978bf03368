//! Bench cases of document 01, through the binding.
use turbo::{decode, encode, lone_decode, raw, sheet, End, Frame, Position, Refusal, Table};

fn house_frame(bits: u32, tail: usize, masks: &[u8]) -> Frame {
    Frame { table: Table::house(), ends: (End::Zero, End::Zero), tail, pattern: (0..bits).collect(), masks: masks.to_vec() }
}

// The next state is the input, and so is the one output.
fn two_states() -> Table {
    Table::new(1, &[[(0, 0), (1, 1)], [(0, 0), (1, 1)]])
}

#[test]
fn p1_margins_and_extrinsics() {
    let channel = [4, -1, -2, 2, 1, -5, 3, 6];
    let said = lone_decode(&Table::house(), End::Zero, &channel, &[0; 4]).unwrap();
    let asked = [(-1, -5), (1, 3), (1, 0), (10, 7)].map(|(margin, extrinsic)| Position::Free { margin, extrinsic });
    assert_eq!(said, asked);
}

#[test]
fn p2_one_bit() {
    let said = decode(&house_frame(1, 2, &[6]), &[-3, 5, 2, -4, 1, 7, -6, 1, 4, 3], 8).unwrap();
    assert_eq!((said.bits, said.margins, said.extrinsics), (vec![1], vec![9], vec![1]));
}

const P2: &[u8] = b"at to sys par par2 sys2\n0 0 -3 5 - -\n1 - 2 -4 1 -6\n2 - 1 7 3 4\n";

#[test]
fn p2_as_a_sheet() {
    assert_eq!(sheet(P2), b"at bit margin extrinsic\n0 1 9 1\n");
}

#[test]
fn refused_sheets() {
    assert_eq!(sheet(b""), b"refused line\n1 0\n");
    assert_eq!(sheet(&P2[..P2.len() - 1]), b"refused line\n1 4\n");
    assert_eq!(sheet(b"at to sys par par2 sys2\n0 0 1024 5 - -\n1 - 2 -4 1 -6\n2 - 1 7 3 4\n"), b"refused line\n6 2\n");
    assert_eq!(sheet(b"at to sys par par2 sys2\n0 1 -3 5 - -\n1 - 2 -4 1 -6\n2 - 1 7 3 4\n"), b"refused line\n8 0\n");
}

#[test]
fn a_list_without_room_for_the_answer() {
    let mut answer = [7; 32];
    assert_eq!(raw::sheet(P2, &mut answer[..31]), 0);
    assert_eq!(answer, [7; 32]);
    assert_eq!(raw::sheet(P2, &mut answer), 32);
    assert_eq!(&answer, b"at bit margin extrinsic\n0 1 9 1\n");
}

#[test]
fn p3_p4_p5_forced_and_no_path() {
    assert_eq!(lone_decode(&two_states(), End::Zero, &[3, -7], &[1, 0]), Ok(vec![Position::Free { margin: 4, extrinsic: 0 }, Position::Forced(0)]));
    assert_eq!(lone_decode(&two_states(), End::Zero, &[3], &[0]), Ok(vec![Position::Forced(0)]));
    let to_one = Table::new(1, &[[(1, 0), (1, 1)], [(1, 0), (1, 1)]]);
    assert_eq!(lone_decode(&to_one, End::Zero, &[3, -7], &[1, 0]), Err(Refusal::NoPath));
}

#[test]
fn p7_p8_tails() {
    assert_eq!(encode(&house_frame(1, 2, &[7]), &[1]), Ok(vec![1, 1, 1, 1, 0, 1, 1, 1, 0, 1, 1]));
    assert_eq!(encode(&house_frame(1, 0, &[7]), &[1]), Err(Refusal::NoTail));
    assert_eq!(decode(&house_frame(1, 0, &[7]), &[0; 3], 1), Err(Refusal::ForcedPosition));
}

#[test]
fn p9_lengths() {
    let frame = house_frame(3, 2, &[6, 5]);
    assert_eq!(frame.frame_len(), 14);
    assert_eq!(decode(&frame, &[0; 13], 8), Err(Refusal::Lists));
    // an all-zero frame gives all ones
    assert_eq!(decode(&frame, &[0; 14], 8).unwrap().bits, [1, 1, 1]);
}

#[test]
fn limits() {
    let one = |v: i16| lone_decode(&Table::new(1, &[[(0, 0), (0, 1)]]), End::Zero, &[v], &[0]).map(|_| ());
    assert_eq!(one(1023), Ok(()));
    assert_eq!(one(1024), Err(Refusal::Value { index: 0 }));
    let long = |n: usize| lone_decode(&two_states(), End::Zero, &vec![0; n], &vec![0; n]).map(|_| ());
    assert_eq!(long(4096), Ok(()));
    assert_eq!(long(4097), Err(Refusal::Length));
    assert_eq!(long(0), Err(Refusal::Length));
    let frame = house_frame(3, 2, &[7]);
    let iterations = |n: usize| decode(&frame, &[0; 17], n).map(|_| ());
    assert_eq!(iterations(32), Ok(()));
    assert_eq!(iterations(33), Err(Refusal::Iterations));
    assert_eq!(iterations(0), Err(Refusal::Iterations));
}

#[test]
fn sizes_out_of_limits_are_refused_and_not_made() {
    assert_eq!(encode(&house_frame(3, usize::MAX, &[7]), &[0; 3]), Err(Refusal::Length));
    assert_eq!(decode(&house_frame(4093, 4, &[7]), &[], 1), Err(Refusal::Length));
    assert_eq!(encode(&house_frame(1, 2, &[]), &[1]), Err(Refusal::Mask));
    assert_eq!(lone_decode(&Table::new(1, &[]), End::Zero, &[], &[]), Err(Refusal::Shape));
    assert_eq!(lone_decode(&Table::new(1, &[[(0, 0), (0, 1)]; 17]), End::Zero, &[0], &[0]), Err(Refusal::Shape));
}

#[test]
fn refusals_have_the_numbers_of_the_table() {
    for number in 1..=18 {
        assert_eq!(Refusal::from_reply(number, 0).map(Refusal::number), Some(number));
    }
    assert_eq!(Refusal::from_reply(0, 0), None);
    assert_eq!(Refusal::from_reply(19, 0), None);
}

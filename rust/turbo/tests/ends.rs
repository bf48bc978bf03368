//! Frames and passes that end at zero, openly or in a ring, as document 02 asks, through the binding.
use turbo::End::{Open, Ring, Zero};
use turbo::{decode, encode, lone_decode, raw, End, Frame, Position, Refusal, Table};

const ENDS: [End; 3] = [Zero, Open, Ring];

fn pairs() -> impl Iterator<Item = (End, End)> {
    ENDS.into_iter().flat_map(|first| ENDS.into_iter().map(move |second| (first, second)))
}

fn house_frame(ends: (End, End), bits: u32, tail: usize) -> Frame {
    Frame { table: Table::house(), ends, tail, pattern: (0..bits).collect(), masks: vec![7] }
}

// The frame sent over the house code with two rings, or the refusal.
fn rings(message: &[u8]) -> Result<Vec<u8>, Refusal> {
    encode(&house_frame((Ring, Ring), message.len() as u32, 2), message)
}

#[test]
fn the_paths_of_each_end() {
    // The next state is the input, and so is the one output: back to 0 only by 0, but anywhere or around by either.
    let two_states = Table::new(1, &[[(0, 0), (1, 1)], [(0, 0), (1, 1)]]);
    let one = |end: End| lone_decode(&two_states, end, &[3], &[0]);
    assert_eq!(one(Zero), Ok(vec![Position::Forced(0)]));
    assert_eq!(one(Open), Ok(vec![Position::Free { margin: 3, extrinsic: 0 }]));
    assert_eq!(one(Ring), Ok(vec![Position::Free { margin: 3, extrinsic: 0 }]));
}

#[test]
fn the_best_of_a_ring_is_over_all_starts() {
    // In one section input 0 leads state 0 back with parity 0, and input 1 state 3 with parity 0.
    let said = |end: End| lone_decode(&Table::house(), end, &[4, -1], &[2]);
    assert_eq!(said(Ring), Ok(vec![Position::Free { margin: 6, extrinsic: 0 }]));
    assert_eq!(said(Zero), Ok(vec![Position::Forced(0)]));
    // From state 0 alone the parity is the input.
    assert_eq!(said(Open), Ok(vec![Position::Free { margin: 5, extrinsic: -1 }]));
}

#[test]
fn a_ring_without_a_path() {
    // Every branch leads to the other state, so that no state comes back in an odd number of sections.
    let swap = Table::new(1, &[[(1, 0), (1, 1)], [(0, 0), (0, 1)]]);
    let said = |end: End, sections: usize| lone_decode(&swap, end, &vec![0; sections], &vec![0; sections]).map(|_| ());
    assert_eq!(said(Ring, 3), Err(Refusal::NoPath));
    assert_eq!(said(Ring, 4), Ok(()));
    assert_eq!(said(Zero, 3), Err(Refusal::NoPath));
    assert_eq!(said(Open, 3), Ok(()));
}

#[test]
fn twelve_and_thirteen_in_either_coder() {
    // As a ring input 1 alone leads back, and to state 0 there is no way in one section.
    let table = Table::new(2, &[[(1, 0), (1, 3)], [(0, 0), (1, 3)]]);
    let said = |ends: (End, End)| decode(&Frame { table: table.clone(), ..house_frame(ends, 1, 0) }, &[0; 3], 1).map(|_| ());
    assert_eq!(said((Ring, Zero)), Err(Refusal::NoPath));
    assert_eq!(said((Zero, Ring)), Err(Refusal::NoPath));
    assert_eq!(said((Zero, Open)), Err(Refusal::NoPath));
    assert_eq!(said((Open, Zero)), Err(Refusal::NoPath));
    assert_eq!(said((Ring, Open)), Err(Refusal::ForcedPosition));
    assert_eq!(said((Open, Ring)), Err(Refusal::ForcedPosition));
    assert_eq!(said((Open, Open)), Ok(()));

    let house = |ends: (End, End)| decode(&house_frame(ends, 1, 0), &[0; 3], 1).map(|_| ());
    assert_eq!(house((Zero, Open)), Err(Refusal::ForcedPosition));
    assert_eq!(house((Open, Zero)), Err(Refusal::ForcedPosition));
    assert_eq!(house((Ring, Open)), Ok(()));
}

#[test]
fn a_ring_starts_in_the_lowest_state_that_comes_back() {
    // Only state 3 comes back by input 1, with parity 0.
    assert_eq!(rings(&[1]), Ok(vec![1, 0, 0]));
    assert_eq!(rings(&[1, 0, 0]), Err(Refusal::NoTail));
    // All four states come back; from state 0 the parities are 1 0 1.
    assert_eq!(rings(&[1, 1, 1]), Ok(vec![1, 1, 1, 1, 0, 0, 1, 1, 1]));
}

#[test]
fn each_ring_has_a_start_of_its_own() {
    // Inputs 1 0 0 0 bring state 3 back, with parities 0 1 0 1, and 0 1 0 0 state 1, with parities 1 0 1 0.
    let frame = Frame { pattern: vec![1, 0, 2, 3], ..house_frame((Ring, Ring), 4, 2) };
    assert_eq!(encode(&frame, &[1, 0, 0, 0]), Ok(vec![1, 0, 1, 0, 1, 0, 0, 0, 1, 0, 1, 0]));
    // Inputs 1 1 1 0 0 0 bring every state back, and 1 1 0 1 0 0 none.
    let frame = |ends: (End, End)| Frame { pattern: vec![0, 1, 3, 2, 4, 5], ..house_frame(ends, 6, 0) };
    let coded = |ends: (End, End)| encode(&frame(ends), &[1, 1, 1, 0, 0, 0]).map(|_| ());
    assert_eq!(coded((Ring, Ring)), Err(Refusal::NoTail));
    assert_eq!(coded((Open, Ring)), Err(Refusal::NoTail));
    assert_eq!(coded((Ring, Open)), Ok(()));
}

#[test]
fn lengths() {
    let length = |ends: (End, End)| house_frame(ends, 3, 2).frame_len();
    let asked = [17, 13, 13, 13, 9, 9, 13, 9, 9];
    assert!(pairs().map(length).eq(asked));
    for (ends, length) in pairs().zip(asked) {
        for values in 0..=length + 4 {
            let asked = if values == length { Ok(()) } else { Err(Refusal::Lists) };
            assert_eq!(decode(&house_frame(ends, 3, 2), &vec![1; values], 1).map(|_| ()), asked, "{ends:?}, {values} values");
        }
    }
}

#[test]
fn a_tail_follows_only_where_its_coder_ends_at_zero() {
    let sent = |ends: (End, End)| encode(&Frame { pattern: vec![1, 0], ..house_frame(ends, 2, 2) }, &[1, 0]).unwrap();
    let (message, tail1, tail2) = ([1, 1, 0, 0, 1, 1], [0, 1, 1, 1], [1, 0, 1, 1]);
    assert_eq!(sent((Zero, Zero)), [&message[..], &tail1, &tail2].concat());
    assert_eq!(sent((Zero, Open)), [&message[..], &tail1].concat());
    assert_eq!(sent((Open, Zero)), [&message[..], &tail2].concat());
    assert_eq!(sent((Open, Open)), message);
}

// The number of a decoding by the house code, K = 3 and T = 2, with a working list of so many entries.
fn with_working_list(ends: (End, End), entries: usize) -> u32 {
    let (next, words) = ([0, 1, 3, 2, 1, 0, 2, 3], [0, 3, 2, 1, 0, 3, 2, 1]);
    let received = vec![0; house_frame(ends, 3, 2).frame_len()];
    let (mut bits, mut margins, mut extrinsics, mut work, mut index) = ([0; 3], [0; 3], [0; 3], vec![7; entries], 0);
    let (end1, end2) = (ends.0.number(), ends.1.number());
    let number = raw::decode(
        4, 2, &next, &words, end1, end2, 3, 2, &[0, 1, 2], &[7], &received, 1, &mut bits, &mut margins, &mut extrinsics, &mut work, &mut index,
    );
    assert!(work.iter().all(|&entry| entry == if number == 0 { 0 } else { 7 }), "{ends:?}");
    number
}

#[test]
fn the_working_list_is_that_of_the_longer_coder() {
    for ends in pairs() {
        let entries = if ends.0 == Zero || ends.1 == Zero { 24 } else { 16 };
        assert_eq!(with_working_list(ends, entries), 0, "{ends:?}");
        for other in [entries - 1, entries + 1, 40 - entries] {
            assert_eq!(with_working_list(ends, other), 5, "{ends:?}");
        }
    }
}

#[test]
fn limits_hold_for_every_pair_of_ends() {
    for ends in pairs() {
        for (bits, tail) in [(4096, 4), (4096, 1), (4093, 4), (1, 5), (1, usize::MAX), (0, 2)] {
            let frame = house_frame(ends, bits, tail);
            assert_eq!(encode(&frame, &vec![0; bits as usize]), Err(Refusal::Length), "{ends:?}, {bits} bits, tail {tail}");
            assert_eq!(decode(&frame, &vec![0; 3 * bits as usize], 1), Err(Refusal::Length), "{ends:?}, {bits} bits, tail {tail}");
        }
    }
    let longest = house_frame((Open, Ring), 4096, 0);
    assert_eq!(decode(&longest, &[0; 3 * 4096], 1).map(|said| said.bits.len()), Ok(4096));
}

#[test]
fn a_number_that_is_no_end() {
    let (mut marks, mut margins, mut extrinsics, mut work, mut index) = ([77; 1], [77; 1], [77; 1], [77; 2], 77);
    let (mut sent, mut bits) = ([77; 3], [77; 1]);
    for other in [3, 4, 256, 257, 1 << 16, 1 << 31, u32::MAX] {
        // Everything else is wrong too: two branches to a state that is not there, no section, a value out of range, a mask of 8.
        let (next, words, values) = ([1, 1], [4, 4], [1024]);
        let number = raw::lone_decode(1, 1, &next, &words, other, 0, &values, &values, &mut marks, &mut margins, &mut extrinsics, &mut work, &mut index);
        assert_eq!((number, index), (2, 0));
        for (end1, end2) in [(other, 0), (2, other), (other, other)] {
            assert_eq!(raw::encode(1, 1, &next, &words, end1, end2, 0, 5, &[2], &[1], &[8], &mut sent), 2);
            index = 77;
            let number = raw::decode(
                1, 1, &next, &words, end1, end2, 0, 5, &[1], &[8], &values, 33, &mut bits, &mut margins, &mut extrinsics, &mut work, &mut index,
            );
            assert_eq!((number, index), (2, 0));
        }
        index = 77;
    }
    assert_eq!((marks, margins, extrinsics, work, sent, bits), ([77; 1], [77; 1], [77; 1], [77; 2], [77; 3], [77; 1]));
}

#[test]
fn a_right_call_with_a_number_that_is_no_end() {
    let (next, words) = ([0, 0], [0, 3]);
    let (mut sent, mut bits, mut margins, mut extrinsics, mut work, mut index) = ([7; 3], [7; 1], [7; 1], [7; 1], [7; 2], 7);
    for (end1, end2, asked) in [(0, 0, 0), (1, 2, 0), (3, 0, 2), (0, 3, 2)] {
        assert_eq!(raw::encode(1, 2, &next, &words, end1, end2, 1, 0, &[1], &[0], &[7], &mut sent), asked);
        let number = raw::decode(
            1, 2, &next, &words, end1, end2, 1, 0, &[0], &[7], &[1, 1, 1], 1, &mut bits, &mut margins, &mut extrinsics, &mut work, &mut index,
        );
        assert_eq!((number, index), (asked, 0));
    }
}

#[test]
fn every_pair_of_ends_there_and_back() {
    let message: Vec<u8> = (0..40).map(|i| (i * i / 7 % 2) as u8).collect();
    for ends in pairs() {
        let pattern = (0..40).map(|i| (3 * i + 10 * i * i) % 40).collect();
        let frame = Frame { pattern, ..house_frame(ends, 40, 2) };
        let sent = encode(&frame, &message).unwrap();
        assert_eq!(sent.len(), frame.frame_len());
        let mut received: Vec<i16> = sent.iter().map(|&bit| if bit == 1 { 9 } else { -9 }).collect();
        for iterations in [1, 8, 32] {
            let said = decode(&frame, &received, iterations).unwrap();
            assert_eq!(said.bits, message, "{ends:?}");
            assert!(said.margins.iter().zip(&message).all(|(&margin, &bit)| (margin > 0) == (bit == 1) && margin != 0), "{ends:?}");
        }
        // One value turned over is mended.
        received[7] = -received[7];
        assert_eq!(decode(&frame, &received, 8).unwrap().bits, message, "{ends:?}");
    }
}

#[test]
fn zero_is_the_usual_end() {
    assert_eq!(End::default(), Zero);
    assert_eq!(ENDS.map(End::number), [0, 1, 2]);
}

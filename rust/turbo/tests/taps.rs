//! Codes named by their taps and patterns given by polynomials, as document 02 asks, through the binding.
use turbo::{decode, encode, polynomial_pattern, raw, End, Frame, Refusal, Table};

// Feedback 1 + D² + D³, parity 1 + D + D³, written out: the state is the last three register bits, the youngest lowest.
fn eight_states() -> Table {
    Table::new(
        2,
        &[
            [(0, 0), (1, 3)],
            [(2, 2), (3, 1)],
            [(5, 2), (4, 1)],
            [(7, 0), (6, 3)],
            [(1, 0), (0, 3)],
            [(3, 2), (2, 1)],
            [(4, 2), (5, 1)],
            [(6, 0), (7, 3)],
        ],
    )
}

#[test]
fn seven_and_five_are_the_house_code() {
    assert_eq!(Table::from_taps(2, 7, 5), Ok(Table::house()));
}

#[test]
fn thirteen_and_eleven_are_the_eight_states() {
    assert_eq!(Table::from_taps(3, 13, 11), Ok(eight_states()));
}

#[test]
fn the_highest_tap_may_be_missing() {
    // Nothing is fed back and no parity is taken: the register holds the last two inputs.
    let register = Table::new(2, &[[(0, 0), (1, 1)], [(2, 0), (3, 1)], [(0, 0), (1, 1)], [(2, 0), (3, 1)]]);
    assert_eq!(Table::from_taps(2, 1, 0), Ok(register));
}

#[test]
fn a_register_bit_doubles_the_states() {
    for memory in 1..=4 {
        let most = (2 << memory) - 1;
        let table = Table::from_taps(memory, most, most).unwrap();
        assert_eq!((table.states(), table.outputs()), (1 << memory, 2));
    }
}

#[test]
fn taps_out_of_range() {
    for memory in [0, 5, 61, 64, 256 + 2, (1 << 32) + 2, usize::MAX] {
        assert_eq!(Table::from_taps(memory, 1, 1), Err(Refusal::Polynomial), "memory {memory}");
    }
    for (feedback, parity) in [(8, 5), (9, 5), (7, 8), (6, 5), (0, 5), (u32::MAX, 5), (7, u32::MAX), (7 + 256, 5), (7, 5 + 256)] {
        assert_eq!(Table::from_taps(2, feedback, parity), Err(Refusal::Polynomial), "taps {feedback} and {parity}");
    }
}

// The number of a table with lists of these lengths, which are untouched by a refusal.
fn table_number(memory: usize, feedback: u32, parity: u32, lengths: (usize, usize)) -> u32 {
    let (mut next, mut words) = (vec![77; lengths.0], vec![88; lengths.1]);
    let number = raw::taps_table(memory, feedback, parity, &mut next, &mut words);
    if number != 0 {
        assert!(next.iter().all(|&n| n == 77) && words.iter().all(|&w| w == 88), "a refused table was written");
    }
    number
}

#[test]
fn table_lists_are_measured_where_the_memory_is_in_range() {
    assert_eq!(table_number(2, 7, 5, (8, 8)), 0);
    assert_eq!(table_number(2, 7, 5, (7, 8)), 2);
    assert_eq!(table_number(2, 7, 5, (8, 9)), 2);
    assert_eq!(table_number(2, 7, 5, (16, 16)), 2);
    assert_eq!(table_number(2, 6, 5, (7, 7)), 2);
    assert_eq!(table_number(2, 6, 5, (8, 8)), 15);
    assert_eq!(table_number(2, 7, 8, (8, 0)), 2);
    assert_eq!(table_number(2, 7, 8, (8, 8)), 15);
    assert_eq!(table_number(0, 1, 1, (2, 2)), 15);
    assert_eq!(table_number(0, 1, 1, (3, 0)), 15);
    assert_eq!(table_number(5, 7, 5, (3, 3)), 15);
    assert_eq!(table_number(5, 7, 5, (64, 64)), 15);
    assert_eq!(table_number(usize::MAX, 7, 5, (8, 8)), 15);
}

#[test]
fn forty_three_ten() {
    let pattern = polynomial_pattern(40, 3, 10).unwrap();
    assert_eq!(pattern.len(), 40);
    assert_eq!(pattern[..5], [0, 13, 6, 19, 12]);
}

#[test]
fn sums_past_32_bits() {
    // Modulo 4,095 = 3·1,365 the factors are -1 and -1,365. With K = 4,096 alone a sum cut to 32 bits would not show: 4,096 divides 2^32.
    let asked: Vec<u32> = (0..4095u32).map(|i| (4095 - i + 4095 - 1365 * (i * i % 3)) % 4095).collect();
    assert_eq!(polynomial_pattern(4095, 4094, 2730), Ok(asked));
    // Modulo 4,096 they are -1 and -2.
    let asked: Vec<u32> = (0..4096u64).map(|i| ((i + 2 * i * i) * 4095 % 4096) as u32).collect();
    assert_eq!(polynomial_pattern(4096, 4095, 4094), Ok(asked));
}

#[test]
fn polynomials_out_of_range() {
    assert_eq!(polynomial_pattern(1, 0, 0), Ok(vec![0]));
    assert_eq!(polynomial_pattern(0, 0, 0), Err(Refusal::Polynomial));
    assert_eq!(polynomial_pattern(40, 40, 10), Err(Refusal::Polynomial));
    assert_eq!(polynomial_pattern(40, 3, 40), Err(Refusal::Polynomial));
    assert_eq!(polynomial_pattern(40, 3 + (1 << 32), 10), Err(Refusal::Polynomial));
    assert_eq!(polynomial_pattern(40, 3, usize::MAX), Err(Refusal::Polynomial));
    assert_eq!(polynomial_pattern(5000, 5000, 0), Err(Refusal::Polynomial));
    assert_eq!(polynomial_pattern(usize::MAX, usize::MAX, 0), Err(Refusal::Polynomial));
    assert_eq!(polynomial_pattern(4097, 1, 0), Err(Refusal::Length));
    assert_eq!(polynomial_pattern(usize::MAX, 1, 0), Err(Refusal::Length));
    assert_eq!(polynomial_pattern(40, 2, 10), Err(Refusal::Pattern));
}

// The number of a pattern with a list of this length, which is untouched by a refusal.
fn pattern_number(bits: usize, f1: usize, f2: usize, length: usize) -> u32 {
    let mut pattern = vec![99; length];
    let number = raw::polynomial_pattern(bits, f1, f2, &mut pattern);
    if number != 0 {
        assert!(pattern.iter().all(|&p| p == 99), "a refused pattern was written");
    }
    number
}

#[test]
fn pattern_refusals_in_their_order() {
    assert_eq!(pattern_number(40, 3, 10, 40), 0);
    assert_eq!(pattern_number(40, 2, 10, 40), 8);
    assert_eq!(pattern_number(40, 2, 10, 39), 5);
    assert_eq!(pattern_number(40, 3, 10, 41), 5);
    assert_eq!(pattern_number(40, 3, 10, 0), 5);
    assert_eq!(pattern_number(40, 40, 10, 0), 15);
    assert_eq!(pattern_number(4097, 1, 0, 4097), 4);
    assert_eq!(pattern_number(4097, 1, 0, 0), 4);
    assert_eq!(pattern_number(4097, 1, 4097, 4097), 15);
    assert_eq!(pattern_number(5000, 5000, 0, 5000), 15);
    assert_eq!(pattern_number(0, 0, 0, 0), 15);
}

#[test]
fn as_many_tail_sections_as_register_bits() {
    for (memory, feedback, parity) in [(1, 3, 2), (2, 7, 5), (3, 13, 11), (4, 19, 29), (4, 1, 0)] {
        let table = Table::from_taps(memory, feedback, parity).unwrap();
        let ends = (End::Zero, End::Zero);
        let frame = Frame { table, ends, tail: memory, pattern: polynomial_pattern(40, 3, 10).unwrap(), masks: vec![7] };
        let message: Vec<u8> = (0..40).map(|i| (i * i / 7 % 2) as u8).collect();
        let received: Vec<i16> = encode(&frame, &message).unwrap().iter().map(|&bit| if bit == 1 { 9 } else { -9 }).collect();
        assert_eq!(decode(&frame, &received, 2).unwrap().bits, message);
    }
}

// Calls with their answers written out: limits, sizes that would wrap, which number comes first, and small frames that tell apart the ways in which
// the rules could be read.
use crate::calls::{self, Answer};
use crate::draw::Draw;
use crate::taps;
use plain::taps::{Code, Polynomial};
use plain::{coder, frame_decoder, house, lone, End, Frame, Table};

pub enum Call {
    Lone(lone::Call, lone::Lent),
    // With the length of the list for the frame.
    Coder(coder::Call, usize),
    Decoder(frame_decoder::Call, frame_decoder::Lent),
    // With the lengths of the lists for next states and words, or for the pattern.
    Taps(Code, [usize; 2]),
    Pattern(Polynomial, usize),
}

// The answer as `by_plain` writes it; one that ends in `..` goes on.
pub type Case = (&'static str, fn() -> Call, &'static str);

const LARGEST: usize = usize::MAX;
const HALF: usize = 1 << 63;

pub fn words<T: ToString>(list: &[T]) -> String {
    list.iter().map(T::to_string).collect::<Vec<_>>().join(" ")
}

// Position by position: mark or bit, margin, extrinsic.
fn positions(first: &[u8], margins: &[i32], extrinsics: &[i32]) -> String {
    let one = |k: usize| format!("{} {} {}", first[k], margins[k], extrinsics[k]);
    (0..first.len()).map(one).collect::<Vec<_>>().join(", ")
}

fn refused(number: u32, index: usize) -> String {
    if [6, 16].contains(&number) { format!("refused {number} at {index}") } else { format!("refused {number}") }
}

// What the plain side says to a call.
fn by_plain(call: &Call) -> String {
    match call {
        Call::Lone(call, lent) => lone::decode(call, *lent).map_or_else(|r| refused(r.number, r.index), |l| positions(&l.marks, &l.margins, &l.extrinsics)),
        Call::Coder(call, length) => coder::encode(call, *length).map_or_else(|number| refused(number, 0), |sent| words(&sent)),
        Call::Decoder(call, lent) => {
            frame_decoder::decode(call, *lent).map_or_else(|r| refused(r.number, r.index), |l| positions(&l.bits, &l.margins, &l.extrinsics))
        }
        Call::Taps(code, lengths) => {
            plain::taps::table(code, *lengths).map_or_else(|number| refused(number, 0), |t| format!("{}, {}", words(&t.next), words(&t.words)))
        }
        Call::Pattern(p, length) => plain::taps::pattern(p, *length).map_or_else(|number| refused(number, 0), |pattern| words(&pattern)),
    }
}

// Both sides give the answer that is written out.
pub fn case(d: &mut Draw, index: u64) -> Answer {
    let (name, call, asked) = CASES[index as usize % CASES.len()];
    let call = call();
    let said = by_plain(&call);
    let mut answer = match &call {
        Call::Lone(call, lent) => calls::lone_decoded(d, call, *lent),
        Call::Coder(call, length) => calls::encoded(d, call, *length),
        Call::Decoder(call, lent) => calls::decoded(d, call, *lent),
        Call::Taps(code, lengths) => taps::table(d, *code, *lengths),
        Call::Pattern(p, length) => taps::pattern(d, *p, *length),
    };
    let right = asked.strip_suffix("..").map_or(said == asked, |front| said.starts_with(front) && !said.starts_with("refused"));
    if !right {
        answer.differences.push(format!("plain side: {}, asked {asked}", said.chars().take(300).collect::<String>()));
    }
    if !answer.differences.is_empty() {
        answer.differences.insert(0, format!("case \"{name}\""));
    }
    answer
}

// ---- calls of the lone decoder

fn lone_call(table: Table, end: End, sections: usize, channel: &[i16], apriori: &[i16]) -> Call {
    let n = apriori.len();
    let lent = lone::Lent { marks: n, margins: n, extrinsics: n, work: (n + 1) * table.next.len() / 2 };
    Call::Lone(lone::Call { table, end, sections, channel: channel.to_vec(), apriori: apriori.to_vec() }, lent)
}

// The house code, with lists for four sections.
fn house_pass(sections: usize, channel: [i16; 8], apriori: [i16; 4]) -> Call {
    lone_call(house::table(), End::Zero, sections, &channel, &apriori)
}

// The house code, with lists for 4,096 sections.
fn long_pass(sections: usize) -> Call {
    lone_call(house::table(), End::Zero, sections, &[1; 8192], &[-1; 4096])
}

// So many states, told with empty lists.
fn empty_pass(states: usize, sections: usize) -> Call {
    lone_call(Table { states, outputs: 1, next: vec![], words: vec![] }, End::Zero, sections, &[], &[])
}

const LARGE: [i16; 8] = [1023, -1023, 1023, -1023, 1023, -1023, 1023, -1023];
const SURE: [i16; 4] = [8191, -8191, 8191, -8191];

// ---- frames

// Mask 7, two zero ends, and the pattern that keeps the order. Where K is told as the largest number, the lists are those of one bit.
fn frame(bits: usize, tail: usize) -> Frame {
    let mut frame = Frame { table: house::table(), ends: [End::Zero; 2], bits, tail, pattern: vec![], masks: vec![7] };
    frame.pattern = (0..lists_for(&frame) as u32).collect();
    frame
}

// One bit, T = 2, so many masks.
fn masked(masks: &[u8]) -> Frame {
    Frame { masks: masks.to_vec(), ..frame(1, 2) }
}

// The house code's lists, told as so many states.
fn told(states: usize) -> Frame {
    Frame { table: Table { states, ..house::table() }, ..frame(1, 2) }
}

// One bit, T = `tail`, two states and two outputs.
fn two_states(outputs: usize, tail: usize, next: [u8; 4], words: [u8; 4]) -> Frame {
    Frame { table: Table { states: 2, outputs, next: next.to_vec(), words: words.to_vec() }, ..frame(1, tail) }
}

const TO_INPUT: [u8; 4] = [0, 1, 0, 1];
const REPEATS: [u8; 4] = [0, 3, 0, 3];

fn code(frame: Frame, message: &[u8], length: usize) -> Call {
    Call::Coder(coder::Call { frame, message: message.to_vec() }, length)
}

// A message of zeros, with a list for so many values.
fn code_zeros(frame: Frame, length: usize) -> Call {
    let message = vec![0; frame.pattern.len()];
    code(frame, &message, length)
}

// The bits that the lists are for.
fn lists_for(frame: &Frame) -> usize {
    if frame.bits == LARGEST { 1 } else { frame.bits }
}

fn decode(frame: Frame, received: &[i16], iterations: usize) -> Call {
    let k = lists_for(&frame);
    let work = (k + frame.tail + 1) * frame.table.next.len() / 2;
    let lent = frame_decoder::Lent { bits: k, margins: k, extrinsics: k, work };
    Call::Decoder(frame_decoder::Call { frame, received: received.to_vec(), iterations }, lent)
}

// As many zeros as the frame is long, by one iteration.
fn decode_zeros(frame: Frame) -> Call {
    let values = 3 * lists_for(&frame) + 4 * frame.tail;
    decode(frame, &vec![0; values], 1)
}

// K = 2, T = 2 under one mask: number and index.
fn decode_two(mask: u8, received: &[i16]) -> Call {
    decode(Frame { masks: vec![mask], pattern: vec![1, 0], ..frame(2, 2) }, received, 1)
}

// What pass 1 hands over is of parity 1 alone; pass 2 adds systematic 4 and its own extrinsic, 2.
fn handed(parity1: i16) -> Call {
    decode(two_states(2, 1, TO_INPUT, REPEATS), &[4, parity1, 2, -3, 5, 6, 7], 1)
}

// With other lists for the results.
fn lent(call: Call, change: fn(&mut frame_decoder::Lent)) -> Call {
    match call {
        Call::Decoder(call, mut lent) => {
            change(&mut lent);
            Call::Decoder(call, lent)
        }
        _ => unreachable!("a call of the frame decoder"),
    }
}

fn patterned(pattern: &[u32]) -> Call {
    decode(Frame { pattern: pattern.to_vec(), ..frame(2, 2) }, &[0; 14], 1)
}

fn taps_of(memory: usize, feedback: u32, parity: u32, lengths: [usize; 2]) -> Call {
    Call::Taps(Code { memory, feedback, parity }, lengths)
}

fn polynomial(bits: usize, f1: usize, f2: usize, length: usize) -> Call {
    Call::Pattern(Polynomial { bits, f1, f2 }, length)
}

#[rustfmt::skip]
pub const CASES: &[Case] = &[
    // The lone decoder: limits of values, and the index of the first one outside
    ("values as large as can be", || house_pass(4, LARGE, SURE), "2 .."),
    ("channel -1024 at 0", || house_pass(4, [-1024, 0, 0, 0, 0, 0, 0, 0], SURE), "refused 6 at 0"),
    ("channel 1024 at 7", || house_pass(4, [0, 0, 0, 0, 0, 0, 0, 1024], SURE), "refused 6 at 7"),
    ("channel -32768 at 3, 1024 at 6", || house_pass(4, [0, 0, 1023, -32768, 0, 0, 1024, 0], SURE), "refused 6 at 3"),
    ("a-priori -8192 at 0", || house_pass(4, LARGE, [-8192, 0, 0, 0]), "refused 16 at 0"),
    ("a-priori 8192 at 1", || house_pass(4, LARGE, [8191, 8192, -8191, 0]), "refused 16 at 1"),
    ("a-priori 8192 at 3", || house_pass(4, LARGE, [0, 0, 0, 8192]), "refused 16 at 3"),
    ("a-priori -8192 at 2, 32767 at 3", || house_pass(4, LARGE, [0, 0, -8192, 32767]), "refused 16 at 2"),
    ("channel 1024 at 5, a-priori 8192 at 0", || house_pass(4, [0, 0, 0, 0, 0, 1024, 0, 0], [8192, 0, 0, 0]), "refused 6 at 5"),
    ("the same in 3 sections", || house_pass(3, [0, 0, 0, 0, 0, 1024, 0, 0], [8192, 0, 0, 0]), "refused 5"),
    ("4096 sections", || long_pass(4096), "2 .."),
    ("4097 sections", || long_pass(4097), "refused 4"),
    ("no section", || long_pass(0), "refused 4"),
    ("states 2^63, and 2·S wraps to 0", || empty_pass(HALF, 1), "refused 2"),
    ("sections 2^64 - 1 of no states", || empty_pass(0, LARGEST), "refused 2"),
    ("document 001's Table 2",
        || lone_call(Table { states: 4, outputs: 2, next: vec![0, 2, 0, 2, 1, 3, 1, 3], words: vec![0, 3, 3, 0, 1, 2, 2, 1] }, End::Zero, 6,
            &[3, 1, -5, 2, 8, 5, -5, 3, 1, -7, 15, -4], &[0; 6]),
        "2 3 3, 2 1 1, 2 -3 -3, 2 11 11, 0 0 0, 0 0 0"),

    // The coder
    ("coder K 4094 T 2", || code_zeros(frame(4094, 2), 12290), "0 0 0 .."),
    ("coder K 4095 T 2", || code_zeros(frame(4095, 2), 12293), "refused 4"),
    ("coder K 4096 T 0", || code_zeros(frame(4096, 0), 12288), "0 0 0 .."),
    ("coder K 4093 T 4", || code_zeros(frame(4093, 4), 12295), "refused 4"),
    ("coder K 0 T 2", || code_zeros(frame(0, 2), 8), "refused 4"),
    ("coder K 1 T 5", || code_zeros(frame(1, 5), 23), "refused 4"),
    ("coder K 2^64 - 1 T 2", || code_zeros(frame(LARGEST, 2), 11), "refused 4"),
    ("coder states 2^63", || code_zeros(told(HALF), 11), "refused 2"),
    ("coder states 2^63 + 4", || code_zeros(told(HALF + 4), 11), "refused 2"),
    ("coder 16 masks", || code(masked(&[7; 16]), &[1], 11), "1 1 1 1 0 1 1 1 0 1 1"),
    ("coder 17 masks", || code(masked(&[7; 17]), &[1], 11), "refused 9"),
    ("coder no mask", || code(masked(&[]), &[1], 11), "refused 9"),
    ("coder mask 8, a list of 3", || code(masked(&[8]), &[1], 3), "refused 9"),
    ("coder mask 8, a list of 11", || code(masked(&[8]), &[1], 11), "refused 9"),
    ("coder mask 8, a pattern of 2", || code(Frame { pattern: vec![0, 0], ..masked(&[8]) }, &[1], 11), "refused 5"),
    ("coder message 1, T 0", || code(frame(1, 0), &[1], 3), "refused 14"),
    ("coder message 0, T 0, mask 0", || code(Frame { masks: vec![0], ..frame(1, 0) }, &[0], 0), ""),
    ("coder message 1, T 2", || code(frame(1, 2), &[1], 11), "1 1 1 1 0 1 1 1 0 1 1"),
    ("coder message 2", || code(frame(1, 2), &[2], 11), "refused 7"),

    // Tables from taps
    ("taps 7 5 m 2, the house table", || taps_of(2, 7, 5, [8; 2]), "0 1 3 2 1 0 2 3, 0 3 2 1 0 3 2 1"),
    ("taps 13 11 m 3", || taps_of(3, 13, 11, [16; 2]), "0 1 2 3 5 4 7 6 1 0 3 2 4 5 6 7, 0 3 2 1 2 1 0 3 0 3 2 1 2 1 0 3"),
    ("taps m 0", || taps_of(0, 1, 1, [2; 2]), "refused 15"),
    ("taps m 5", || taps_of(5, 7, 5, [32; 2]), "refused 15"),
    ("taps m 2^64 - 1", || taps_of(LARGEST, 7, 5, [8; 2]), "refused 15"),
    ("taps m 5, lists of 3", || taps_of(5, 7, 5, [3; 2]), "refused 15"),
    ("taps feedback 8", || taps_of(2, 8, 5, [8; 2]), "refused 15"),
    ("taps parity 8", || taps_of(2, 7, 8, [8; 2]), "refused 15"),
    ("taps feedback 6", || taps_of(2, 6, 5, [8; 2]), "refused 15"),
    ("taps feedback 6, lists of 7 and 8", || taps_of(2, 6, 5, [7, 8]), "refused 2"),
    ("taps lists of 8 and 9", || taps_of(2, 7, 5, [8, 9]), "refused 2"),

    // Patterns from polynomials; the sums of the second and third pass 32 bits
    ("pattern 40 3 10", || polynomial(40, 3, 10, 40), "0 13 6 19 12 .."),
    ("pattern 4096 4095 4094", || polynomial(4096, 4095, 4094, 4096), "0 4093 .."),
    ("pattern 4095 4094 2730", || polynomial(4095, 4094, 2730, 4095), "0 2729 .."),
    ("pattern 0 0 0", || polynomial(0, 0, 0, 0), "refused 15"),
    ("pattern 4097 1 0", || polynomial(4097, 1, 0, 4096), "refused 4"),
    ("pattern 5000 5000 0", || polynomial(5000, 5000, 0, 4096), "refused 15"),
    ("pattern 40 3 40", || polynomial(40, 3, 40, 40), "refused 15"),
    ("pattern 40 3 10, a list of 39", || polynomial(40, 3, 10, 39), "refused 5"),
    ("pattern 40 2 10", || polynomial(40, 2, 10, 40), "refused 8"),

    // The frame decoder: iterations and sizes
    ("1 iteration", || decode(frame(8, 2), &[0; 32], 1), "1 0 0, .."),
    ("32 iterations", || decode(frame(8, 2), &[0; 32], 32), "1 0 0, .."),
    ("33 iterations", || decode(frame(8, 2), &[0; 32], 33), "refused 10"),
    ("no iteration", || decode(frame(8, 2), &[0; 32], 0), "refused 10"),
    ("2^64 - 1 iterations", || decode(frame(8, 2), &[0; 32], LARGEST), "refused 10"),
    ("a frame of zeros", || decode(frame(8, 2), &[0; 32], 3), "1 0 0, 1 0 0, 1 0 0, 1 0 0, 1 0 0, 1 0 0, 1 0 0, 1 0 0"),
    ("decoder K 4094 T 2", || decode_zeros(frame(4094, 2)), "1 0 0, .."),
    ("decoder K 4095 T 2", || decode_zeros(frame(4095, 2)), "refused 4"),
    ("decoder K 4092 T 4", || decode_zeros(frame(4092, 4)), "1 0 0, .."),
    ("decoder K 4093 T 4", || decode_zeros(frame(4093, 4)), "refused 4"),
    ("decoder K 4096 T 0", || decode_zeros(frame(4096, 0)), "1 0 0, .."),
    ("decoder K 0 T 2", || decode_zeros(frame(0, 2)), "refused 4"),
    ("decoder K 1 T 5", || decode_zeros(frame(1, 5)), "refused 4"),
    ("decoder K 2^64 - 1 T 4, and K + T wraps to 3", || decode_zeros(frame(LARGEST, 4)), "refused 4"),
    ("decoder states 2^63", || decode(told(HALF), &[0; 11], 1), "refused 2"),
    ("decoder states 2^63 + 4", || decode(told(HALF + 4), &[0; 11], 1), "refused 2"),

    // Without right masks the frame's list is not measured, but every other list and every value is
    ("no mask, 3 values", || decode(masked(&[]), &[0; 3], 1), "refused 9"),
    ("mask 8, no list for bits", || lent(decode(masked(&[8]), &[0], 1), |l| l.bits = 0), "refused 5"),
    ("mask 8, value 1024", || decode(masked(&[8]), &[1024], 1), "refused 6 at 0"),
    ("mask 7, one value, 1024", || decode(masked(&[7]), &[1024], 1), "refused 5"),
    ("masks 7 8, K 1", || decode(masked(&[7, 8]), &[0; 11], 1), "refused 9"),
    ("17 masks", || decode(masked(&[7; 17]), &[0; 11], 1), "refused 9"),
    ("16 masks, K 1", || decode(masked(&[7; 16]), &[0; 11], 1), "1 0 0"),
    ("half a working list", || lent(decode(masked(&[7]), &[0; 11], 1), |l| l.work = 8), "refused 5"),

    // Under mask 4 a frame is the two systematic values and the tails, so that index 1 is not that of the frame spread out, 3
    ("mask 4, values as large as can be", || decode_two(4, &[1023, -1023, 0, 0, 0, 0, 0, 0, 0, 0]), "1 1023 0, 0 -1023 0"),
    ("mask 4, -1024 at 0", || decode_two(4, &[-1024, 0, 0, 0, 0, 0, 0, 0, 0, 0]), "refused 6 at 0"),
    ("mask 4, 1024 at 1", || decode_two(4, &[0, 1024, 0, 0, 0, 0, 0, 0, 0, 0]), "refused 6 at 1"),
    ("mask 4, 1024 at 9, in tail 2", || decode_two(4, &[0, 0, 0, 0, 0, 0, 0, 0, 0, 1024]), "refused 6 at 9"),
    ("mask 4, 32767 at 4, -32768 at 7", || decode_two(4, &[0, 0, 0, 0, 32767, 0, 0, -32768, 0, 0]), "refused 6 at 4"),
    ("mask 8, -1024 at 6", || decode_two(8, &[0, 0, 0, 0, 0, 0, -1024, 0, 0, 0]), "refused 6 at 6"),
    ("mask 4, 1024 at 1, one value less", || decode_two(4, &[0, 1024, 0, 0, 0, 0, 0, 0, 0]), "refused 5"),

    ("pattern 0 1", || patterned(&[0, 1]), "1 0 0, 1 0 0"),
    ("pattern 0", || patterned(&[0]), "refused 5"),
    ("pattern 0 0", || patterned(&[0, 0]), "refused 8"),
    ("pattern 0 65537", || patterned(&[0, 65537]), "refused 8"),

    // Which paths there are: in 3 sections each bit has one back to state 0, in 2 sections not
    ("the house code, T 0, K 3", || decode_zeros(frame(3, 0)), "1 0 0, 1 0 0, 1 0 0"),
    ("the house code, T 0, K 2", || decode_zeros(frame(2, 0)), "refused 13"),
    ("no way back", || decode_zeros(two_states(2, 0, [1; 4], REPEATS)), "refused 12"),
    ("one output", || decode_zeros(two_states(1, 0, TO_INPUT, [0, 1, 0, 1])), "refused 11"),
    ("one output and 33 iterations", || decode(two_states(1, 0, TO_INPUT, [0, 1, 0, 1]), &[0; 3], 33), "refused 10"),
    ("a word without its input", || decode_zeros(two_states(2, 0, [0; 4], [0, 3, 1, 0])), "refused 11"),
    ("a word of 4", || decode_zeros(two_states(2, 0, [0; 4], [0, 3, 4, 3])), "refused 3"),
    ("next state = input, T 0", || decode_zeros(two_states(2, 0, TO_INPUT, REPEATS)), "refused 13"),

    // Next state = input, T 1: the tail is forced, and the message is not. Three quarters are handed over, towards zero
    ("parity 1 of -1 hands over 0", || handed(-1), "1 6 2"),
    ("parity 1 of 7 hands over 5", || handed(7), "1 11 2"),
    ("parity 1 of -7 hands over -5", || handed(-7), "1 1 2"),
    ("parity 1 of 1023 hands over 767", || handed(1023), "1 773 2"),

    ("one state, mask 0, T 0: no value at all",
        || decode(Frame { table: Table { states: 1, outputs: 2, next: vec![0; 2], words: vec![0, 3] }, masks: vec![0], ..frame(1, 0) }, &[], 1), "1 0 0"),
    ("the house code, systematic 1 and else 0", || decode(frame(1, 2), &[1, 0, 0, 0, 0, 0, 0, 0, 0, 0, 0], 1), "1 1 0"),
    // What is handed over is limited, and what is written is not
    ("K 64, all values -1023, 8 iterations", || decode(frame(64, 2), &[-1023; 200], 8), "0 -22520 -13306, .."),
];

// Sheets: drawn from their seed, answered by both sides, and compared as bytes, in lists with and without room for the answer.
use crate::calls::{received, Answer, NUMBERS};
use crate::draw::{permutation, Draw};
use crate::lent::List;
use crate::sheet_cases::CASES;
use crate::sheet_faults;
use plain::{house, sheet, End, Frame};
use turbo::raw;

pub const HEADER: &str = "at to sys par par2 sys2";

// The text of lines, each ended by a line feed.
pub fn text<L: AsRef<[u8]>>(lines: &[L]) -> Vec<u8> {
    lines.iter().flat_map(|l| [l.as_ref(), b"\n"].concat()).collect()
}

// What a message row shows: everything, nothing, a punctured frame, or any of it.
fn unsent(d: &mut Draw, bits: usize) -> Vec<[bool; 3]> {
    let style = d.below(5);
    (0..bits)
        .map(|k| match style {
            0 | 1 => [false; 3],
            2 => [false, k % 2 == 1, k % 2 == 0],
            3 => [d.chance(2), d.chance(2), d.chance(2)],
            _ => [true; 3],
        })
        .collect()
}

// A valid sheet, line by line.
pub fn lines(d: &mut Draw, bits: usize) -> Vec<String> {
    let pattern = if d.chance(8) { (0..bits as u32).collect() } else { permutation(d, bits) };
    let frame = Frame { table: house::table(), ends: [End::Zero; 2], bits, tail: 2, pattern, masks: vec![7] };
    let values = received(d, &frame);
    let unsent = unsent(d, bits);
    let mut lines = vec![HEADER.to_string()];
    for k in 0..bits {
        let field = |i: usize| if unsent[k][i] { "-".to_string() } else { values[3 * k + i].to_string() };
        lines.push(format!("{k} {} {} {} {} -", frame.pattern[k], field(0), field(1), field(2)));
    }
    for (j, v) in values[3 * bits..].chunks(4).enumerate() {
        lines.push(format!("{} - {} {} {} {}", bits + j, v[0], v[1], v[2], v[3]));
    }
    lines
}

// The number and the line that an answer tells.
pub fn outcome(answer: &[u8]) -> (u32, usize) {
    let answer = String::from_utf8_lossy(answer);
    match answer.strip_prefix("refused line\n").map(|rest| rest.trim_end().split_once(' ')) {
        None => (0, 0),
        Some(None) => (NUMBERS, 0),
        Some(Some((number, line))) => (number.parse().unwrap_or(NUMBERS), line.parse().unwrap_or(0)),
    }
}

// The library's answer in a list of the given length: written from its start where there is room, and else nothing changed.
fn answered(d: &mut Draw, sheet: &[u8], asked: &[u8], room: usize) -> (List<u8>, Vec<String>) {
    let given = List::of("sheet", d, sheet);
    let mut answer = List::any("answer", d, room);
    let fits = asked.len() <= room;
    let after = fits.then(|| [asked, &answer.entries()[asked.len()..]].concat());
    let returned = raw::sheet(given.entries(), answer.entries_mut());
    let mut differences = Vec::new();
    let length = if fits { asked.len() } else { 0 };
    if returned != length {
        differences.push(format!("in a list of {room}: length {returned}, asked {length}"));
    }
    differences.extend(given.check(None).err());
    differences.extend(answer.check(after.as_deref()).err());
    (answer, differences)
}

fn shown(bytes: &[u8]) -> String {
    bytes.iter().take(300).flat_map(|b| b.escape_ascii()).map(char::from).collect()
}

fn compared(d: &mut Draw, sheet: &[u8], asked: &[u8]) -> Answer {
    let n = asked.len();
    let (exact, mut differences) = answered(d, sheet, asked, n);
    let room = match d.below(4) {
        0 => n - 1,
        1 => 0,
        2 => d.below(n),
        _ => n + d.size(1, 40),
    };
    differences.extend(answered(d, sheet, asked, room).1);
    if !differences.is_empty() {
        differences.push(format!("the sheet \"{}\", the answer \"{}\", asked \"{}\"", shown(sheet), shown(exact.entries()), shown(asked)));
    }
    let (number, line) = outcome(exact.entries());
    Answer { number, line, differences, ..Answer::default() }
}

fn by_plain(d: &mut Draw, sheet: &[u8]) -> Answer {
    let asked = sheet::printed(&sheet::decode(sheet));
    compared(d, sheet, asked.as_bytes())
}

// An answer that is known; the plain side is held to it too.
fn known(d: &mut Draw, sheet: &[u8], asked: &str) -> Answer {
    let mut answer = compared(d, sheet, asked.as_bytes());
    let plain = sheet::printed(&sheet::decode(sheet));
    if plain != asked {
        answer.differences.push(format!("plain side: {plain:?}, asked {asked:?}"));
    }
    answer
}

// A case whose answer is written out.
pub fn case(d: &mut Draw, index: u64) -> Answer {
    let (name, sheet, asked) = CASES[index as usize % CASES.len()];
    let mut answer = known(d, &sheet(), asked);
    if !answer.differences.is_empty() {
        answer.differences.insert(0, format!("case \"{name}\""));
    }
    answer
}

pub fn valid(d: &mut Draw, bits: usize) -> Answer {
    let sheet = text(&lines(d, bits));
    by_plain(d, &sheet)
}

// The values of a sheet, in reading order: three in a message row, four in a tail row.
const fn values(bits: usize) -> usize {
    3 * bits + 8
}

// Of a value in reading order its line, counted from 0, and its field.
fn place(bits: usize, value: usize) -> (usize, usize) {
    match value.checked_sub(3 * bits) {
        None => (1 + value / 3, 2 + value % 3),
        Some(of_tails) => (1 + bits + of_tails / 4, 2 + of_tails % 4),
    }
}

// A sheet that is right but for these values, which are out of range, and for its pattern in one of four: refused by 6 with the line of the first.
fn out_of_range(d: &mut Draw, bits: usize, places: &[usize]) -> Answer {
    let mut lines: Vec<Vec<u8>> = lines(d, bits).into_iter().map(String::into_bytes).collect();
    for &value in places {
        let (line, field) = place(bits, value);
        sheet_faults::put(&mut lines[line], field, &sheet_faults::out_of_range(d));
    }
    if d.chance(4) {
        sheet_faults::put(&mut lines[1], 1, &bits.to_string());
    }
    let first = *places.iter().min().expect("a value out of range");
    known(d, &text(&lines), &format!("refused line\n6 {}\n", place(bits, first).0 + 1))
}

const FEW_BITS: usize = 2;
pub const VALUE_SETS: u64 = (1 << values(FEW_BITS)) - 1;

// Each set of values of a small sheet but the empty one.
pub fn value_set(d: &mut Draw, index: u64) -> Answer {
    let set = index % VALUE_SETS + 1;
    let places: Vec<usize> = (0..values(FEW_BITS)).filter(|value| set >> value & 1 == 1).collect();
    out_of_range(d, FEW_BITS, &places)
}

pub const VALUE_PLACES: u64 = values(512) as u64;

// Each value of a sheet of the largest size, and often others after it.
pub fn value_place(d: &mut Draw, index: u64) -> Answer {
    let first = (index % VALUE_PLACES) as usize;
    let mut places = vec![first];
    for _ in 0..d.of(&[0, 1, 2, 9]) {
        places.push(d.size(first, values(512) - 1));
    }
    out_of_range(d, 512, &places)
}

// A fault in a line, counted from 0, of a sheet of the largest size, and often in a later line too.
pub fn faulty(d: &mut Draw, line: usize) -> Answer {
    let mut lines = lines(d, 512);
    sheet_faults::break_line(d, &mut lines[line]);
    if d.chance(2) {
        let later = d.size(line, 514);
        sheet_faults::break_line(d, &mut lines[later]);
    }
    by_plain(d, &text(&lines))
}

// Each kind of fault in turn, some with another beside it.
pub fn damaged_text(d: &mut Draw, index: u64) -> Vec<u8> {
    let bits = match d.below(40) {
        0 => d.size(1, 512),
        1..=5 => d.size(7, 40),
        _ => d.size(1, 6),
    };
    let mut sheet = text(&lines(d, bits));
    let kinds = sheet_faults::KINDS;
    kinds[index as usize % kinds.len()](d, &mut sheet);
    if d.chance(4) {
        d.of(kinds)(d, &mut sheet);
    }
    sheet
}

pub fn damaged(d: &mut Draw, index: u64) -> Answer {
    let sheet = damaged_text(d, index);
    by_plain(d, &sheet)
}

//! The sheet: a frame as text, and the text that answers it.
use crate::frame_decoder::{self, Lent, Lists};
use crate::{house, rules, End, Frame};

const HEADER: &str = "at to sys par par2 sys2";
const MOST_BYTES: usize = 16_384;
const LARGEST: i64 = 99_999;
const TAIL: usize = 2;
const ITERATIONS: usize = 8;

/// A refusal as it is printed. The line is 0 where none is told.
#[derive(Clone, Copy, Debug, PartialEq, Eq)]
pub struct Refused {
    pub number: u32,
    pub line: usize,
}

// A row below K: `to`, and what was received of the systematic bit and of both parities.
struct Message {
    to: i64,
    values: [i64; 3],
}

// One of the last two rows: systematic and parity of each tail.
struct Tails {
    first: [i64; 2],
    second: [i64; 2],
}

// A number is written as it is printed: so without a leading zero, and 0 without a sign.
fn number(field: &str) -> Option<i64> {
    let n: i64 = field.parse().ok()?;
    (n.to_string() == field && (-LARGEST..=LARGEST).contains(&n)).then_some(n)
}

fn unsigned(field: &str) -> Option<i64> {
    number(field).filter(|&n| n >= 0)
}

// An unsent value is received as 0.
fn value_or_unsent(field: &str) -> Option<i64> {
    if field == "-" {
        Some(0)
    } else {
        number(field)
    }
}

// The six fields of row `at`, its number proved and left out.
fn fields(at: usize, line: &str) -> Option<[&str; 5]> {
    let fields: Vec<&str> = line.split(' ').collect();
    match fields[..] {
        [number, to, sys, par, par2, sys2] if unsigned(number) == Some(at as i64) => Some([to, sys, par, par2, sys2]),
        _ => None,
    }
}

fn message(at: usize, line: &str) -> Option<Message> {
    let [to, sys, par, par2, sys2] = fields(at, line)?;
    let values = [value_or_unsent(sys)?, value_or_unsent(par)?, value_or_unsent(par2)?];
    let to = unsigned(to)?;
    (sys2 == "-").then_some(Message { to, values })
}

fn tails(at: usize, line: &str) -> Option<Tails> {
    let [to, sys, par, par2, sys2] = fields(at, line)?;
    let first = [number(sys)?, number(par)?];
    let second = [number(sys2)?, number(par2)?];
    (to == "-").then_some(Tails { first, second })
}

// A line without its line feed; a piece that has none is no line, and neither is one of bytes that are no text.
fn line(piece: &[u8]) -> Option<&str> {
    std::str::from_utf8(piece.strip_suffix(b"\n")?).ok()
}

struct Rows {
    messages: Vec<Message>,
    tails: Vec<Tails>,
}

// The rows of a sheet, or the line that 1 is told with.
fn rows(sheet: &[u8]) -> Result<Rows, usize> {
    let pieces: Vec<&[u8]> = sheet.split_inclusive(|&b| b == b'\n').collect();
    let count = pieces.len().saturating_sub(1);
    if sheet.len() > MOST_BYTES || !(3..=514).contains(&count) {
        return Err(0);
    }
    let bits = count - TAIL;
    if line(pieces[0]) != Some(HEADER) {
        return Err(1);
    }
    let mut rows = Rows { messages: Vec::new(), tails: Vec::new() };
    for at in 0..count {
        // Lines are counted from 1, and the header is one.
        let faulty = at + 2;
        let text = line(pieces[at + 1]).ok_or(faulty)?;
        if at < bits {
            rows.messages.push(message(at, text).ok_or(faulty)?);
        } else {
            rows.tails.push(tails(at, text).ok_or(faulty)?);
        }
    }
    Ok(rows)
}

// Everything has its place in the frame, sent or not: position by position, then tail 1, then tail 2.
fn received(rows: &Rows) -> Vec<i64> {
    let messages = rows.messages.iter().flat_map(|r| r.values);
    let first = rows.tails.iter().flat_map(|r| r.first);
    let second = rows.tails.iter().flat_map(|r| r.second);
    messages.chain(first).chain(second).collect()
}

// The lines of all values out of range, in reading order: line by line from the header on, which is line 1, and each from left to right. The
// sheet has passed `rows`, so after its first two fields a row has only values and `-`.
fn lines_out_of_range(sheet: &[u8]) -> Vec<usize> {
    let limit = rules::CHANNEL_LIMIT as i64;
    let text = std::str::from_utf8(sheet).expect("a sheet of text");
    let mut lines = Vec::new();
    for (i, line) in text.lines().enumerate().skip(1) {
        for field in line.split(' ').skip(2) {
            if number(field).is_some_and(|value| value < -limit || value > limit) {
                lines.push(i + 1);
            }
        }
    }
    lines
}

/// What the last pass 2 says of each message position, or the refusal.
pub fn decode(sheet: &[u8]) -> Result<Lists, Refused> {
    let rows = rows(sheet).map_err(|line| Refused { number: 1, line })?;
    let outside = lines_out_of_range(sheet);
    let bits = rows.messages.len();
    let pattern = rows.messages.iter().map(|r| r.to as u32).collect();
    let frame = Frame { table: house::table(), ends: [End::Zero; 2], bits, tail: TAIL, pattern, masks: vec![7] };
    match rules::lowest(&[(6, !outside.is_empty()), (8, rules::pattern(&frame))]) {
        Some(6) => return Err(Refused { number: 6, line: outside[0] }),
        Some(number) => return Err(Refused { number, line: 0 }),
        None => {}
    }
    let received = received(&rows).iter().map(|&v| i16::try_from(v).unwrap()).collect();
    let lent = Lent { bits, margins: bits, extrinsics: bits, work: (bits + TAIL + 1) * 4 };
    let call = frame_decoder::Call { frame, received, iterations: ITERATIONS };
    frame_decoder::decode(&call, lent).map_err(|refused| Refused { number: refused.number, line: 0 })
}

/// What is printed.
pub fn printed(outcome: &Result<Lists, Refused>) -> String {
    match outcome {
        Err(r) => format!("refused line\n{} {}\n", r.number, r.line),
        Ok(l) => {
            let lines = (0..l.bits.len()).map(|k| format!("{k} {} {} {}\n", l.bits[k], l.margins[k], l.extrinsics[k]));
            "at bit margin extrinsic\n".to_string() + &lines.collect::<String>()
        }
    }
}

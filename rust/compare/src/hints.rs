// What is easy to see of a text: drawn texts of the bytes that matter, and damaged sheets.
use crate::calls::{Answer, Differences};
use crate::draw::Draw;
use crate::lent::List;
use crate::sheets;
use turbo::raw;

const BYTES: &[u8] = b"aa  \t\r\n\n\n\0\xff\xfe\xef\xbb\xbf";
const FRONTS: &[&[u8]] = &[b"", b"", b"", b"a", b"\xff\xfe", b"\xfe\xff", b"\xef\xbb\xbf", b"a\0", b"\0a", b"\xef\xbb"];

fn compared(d: &mut Draw, text: &[u8]) -> Answer {
    let given = List::of("sheet", d, text);
    let (asked, asked_line) = plain::hint::hint(text);
    let mut line = d.next();
    let number = raw::hint(given.entries(), &mut line);
    let mut differences = Differences::new(number, asked).0;
    if line != asked_line {
        differences.push(format!("line {line}, asked {asked_line}"));
    }
    differences.extend(given.check(None).err());
    if number != 0 && sheets::outcome(&turbo::sheet(text)).0 != 1 {
        differences.push(format!("hint {number} for a sheet that is not refused by 1"));
    }
    Answer { number, differences, ..Answer::default() }
}

// A text of few kinds of bytes; one in twenty about as long as a sheet may be.
pub fn drawn(d: &mut Draw) -> Answer {
    let mut text = d.of(FRONTS).to_vec();
    let long = if d.chance(20) { d.size(16_380, 16_390) } else { d.below(30) };
    let kinds = if d.chance(2) { BYTES.len() } else { d.size(1, 7) };
    text.extend((0..long).map(|_| BYTES[d.below(kinds)]));
    compared(d, &text)
}

pub fn damaged(d: &mut Draw, index: u64) -> Answer {
    let sheet = sheets::damaged_text(d, index);
    compared(d, &sheet)
}

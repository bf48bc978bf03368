// Faults of a sheet. Each takes any bytes, so that a second fault may follow the first.
use crate::draw::Draw;
use crate::sheets::{lines, text, HEADER};

pub type Fault = fn(&mut Draw, &mut Vec<u8>);

pub const KINDS: &[Fault] = &[
    byte_changed,
    byte_inserted,
    byte_removed,
    strange_byte,
    line_dropped,
    line_doubled,
    lines_swapped,
    line_empty,
    line_broken,
    carriage_return,
    last_line_feed,
    last_piece,
    cut_off,
    twice,
    little,
    rows_at_the_limits,
    size_at_the_limit,
    header,
    at,
    pattern,
    value,
    word,
    dash,
    spelling,
    fields,
    spaces,
    values_out_of_range,
    tails_out_of_range,
    value_and_pattern,
    value_and_line,
    pattern_and_line,
    two_lines,
    rows_of_words,
    words,
    any_bytes,
];

#[rustfmt::skip]
const WORDS: &[&str] = &[
    "-", "0", "1", "-1", "2", "-0", "00", "-00", "01", "-01", "+0", "+1", "--1", "1.0", "", "x", "1e3", "0x1", "1023", "-1023", "1024", "-1024",
    "12345", "-12345", "32768", "-32768", "65535", "65536", "65537", "-65537", "99999", "-99999", "099999", "100000", "-100000", "4294967297",
    "18446744073709551617", "99999999999999999999999", "\u{661}", "- ", "\t1", "1\0",
];

#[rustfmt::skip]
const HEADERS: &[&str] = &[
    "", "at", "AT to sys par par2 sys2", "at to sys par par2 sys", "at to sys par par2 sys2 ", " at to sys par par2 sys2",
    "at  to sys par par2 sys2", "at\tto sys par par2 sys2", "at to sys par sys2 par2", "at to sys par par2 sys2\0", "0 0 1 1 1 -",
];

// What stands under `sys`, `par` and `par2`, one in twelve out of range.
const VALUES: [&str; 12] = ["-", "-", "0", "1", "-1", "2", "-7", "30", "-300", "1023", "-1023", "1024"];

// ---- lines and fields

fn with_lines(sheet: &mut Vec<u8>, edit: impl FnOnce(&mut Vec<Vec<u8>>)) {
    let open = sheet.last().is_some_and(|&b| b != b'\n');
    let mut lines: Vec<Vec<u8>> = sheet.split(|&b| b == b'\n').map(<[u8]>::to_vec).collect();
    if !open {
        lines.pop();
    }
    if lines.is_empty() {
        return;
    }
    edit(&mut lines);
    *sheet = text(&lines);
    if open {
        sheet.pop();
    }
}

fn with_fields(line: &mut Vec<u8>, edit: impl FnOnce(&mut Vec<Vec<u8>>)) {
    let mut fields: Vec<Vec<u8>> = line.split(|&b| b == b' ').map(<[u8]>::to_vec).collect();
    edit(&mut fields);
    *line = fields.join(&b' ');
}

// Puts a word in a field that is there.
pub fn put(line: &mut Vec<u8>, field: usize, word: &str) {
    with_fields(line, |fields| {
        if let Some(f) = fields.get_mut(field) {
            *f = word.into();
        }
    });
}

// A drawn field of a drawn line, changed.
fn field(d: &mut Draw, sheet: &mut Vec<u8>, change: impl FnOnce(&mut Draw, &[u8]) -> Vec<u8>) {
    with_lines(sheet, |lines| {
        let line = d.below(lines.len());
        with_fields(&mut lines[line], |fields| {
            let at = d.below(fields.len());
            fields[at] = change(d, &fields[at]);
        });
    });
}

// A message row, as a line counted from 0; a sheet of one line has only that.
fn message_row(d: &mut Draw, lines: &[Vec<u8>]) -> usize {
    d.size(1, lines.len().saturating_sub(3).max(1)).min(lines.len() - 1)
}

// ---- bytes

fn byte(d: &mut Draw) -> u8 {
    match d.below(4) {
        0 => d.next() as u8,
        _ => d.of(b" \n-0123456789+.\t\rxat"),
    }
}

fn byte_changed(d: &mut Draw, sheet: &mut Vec<u8>) {
    if !sheet.is_empty() {
        let at = d.below(sheet.len());
        sheet[at] = byte(d);
    }
}

fn byte_inserted(d: &mut Draw, sheet: &mut Vec<u8>) {
    let at = d.size(0, sheet.len());
    sheet.insert(at, byte(d));
}

fn byte_removed(d: &mut Draw, sheet: &mut Vec<u8>) {
    if !sheet.is_empty() {
        sheet.remove(d.below(sheet.len()));
    }
}

fn strange_byte(d: &mut Draw, sheet: &mut Vec<u8>) {
    let at = d.size(0, sheet.len());
    let strange = d.of(&[0, 11, 12, 127, 128, 160, 173, 194, 255]);
    if d.chance(2) && at < sheet.len() {
        sheet[at] = strange;
    } else {
        sheet.insert(at, strange);
    }
}

// ---- lines

// A line that is none any more, whatever it was.
pub fn break_line(d: &mut Draw, line: &mut String) {
    match d.below(7) {
        0 => line.push(' '),
        1 => line.insert(0, ' '),
        2 => line.push('\r'),
        3 => line.push_str(" 1"),
        4 => *line = "x".to_string(),
        5 => line.clear(),
        _ => line.insert(0, '0'),
    }
}

fn broken(d: &mut Draw, line: &mut Vec<u8>) {
    let mut said = String::from_utf8_lossy(line).into_owned();
    break_line(d, &mut said);
    *line = said.into();
}

fn line_dropped(d: &mut Draw, sheet: &mut Vec<u8>) {
    with_lines(sheet, |lines| drop(lines.remove(d.below(lines.len()))));
}

fn line_doubled(d: &mut Draw, sheet: &mut Vec<u8>) {
    with_lines(sheet, |lines| {
        let at = d.below(lines.len());
        lines.insert(at, lines[at].clone());
    });
}

fn lines_swapped(d: &mut Draw, sheet: &mut Vec<u8>) {
    with_lines(sheet, |lines| {
        let (one, other) = (d.below(lines.len()), d.below(lines.len()));
        lines.swap(one, other);
    });
}

fn line_empty(d: &mut Draw, sheet: &mut Vec<u8>) {
    with_lines(sheet, |lines| {
        let at = d.size(0, lines.len());
        lines.insert(at, Vec::new());
    });
}

fn line_broken(d: &mut Draw, sheet: &mut Vec<u8>) {
    with_lines(sheet, |lines| {
        let at = d.below(lines.len());
        broken(d, &mut lines[at]);
    });
}

fn carriage_return(d: &mut Draw, sheet: &mut Vec<u8>) {
    with_lines(sheet, |lines| {
        let (all, one) = (d.chance(2), d.below(lines.len()));
        for (i, line) in lines.iter_mut().enumerate() {
            if all || i == one {
                line.push(b'\r');
            }
        }
    });
}

fn last_line_feed(_: &mut Draw, sheet: &mut Vec<u8>) {
    sheet.pop();
}

fn last_piece(d: &mut Draw, sheet: &mut Vec<u8>) {
    let rows = sheet.iter().filter(|&&b| b == b'\n').count().saturating_sub(1);
    let row = format!("{rows} - 1 2 3 4");
    sheet.extend(d.of(&["x", " ", "-", "\0", "\n", "\n\n", &row]).bytes());
    if d.chance(3) {
        sheet.push(b'\n');
    }
}

fn cut_off(d: &mut Draw, sheet: &mut Vec<u8>) {
    sheet.truncate(d.size(0, sheet.len()));
}

fn twice(_: &mut Draw, sheet: &mut Vec<u8>) {
    sheet.extend_from_within(..);
}

fn little(d: &mut Draw, sheet: &mut Vec<u8>) {
    *sheet = d.of(&["", "\n", "\n\n\n\n", HEADER, "at to sys par par2 sys2\n", " ", "\0"]).into();
}

// ---- sizes

// 2, 3, 514 and 515 rows, all of them right.
fn rows_at_the_limits(d: &mut Draw, sheet: &mut Vec<u8>) {
    let bits = d.of(&[0, 1, 512, 513]);
    *sheet = text(&lines(d, bits));
}

// A sheet of 512 positions that is exactly so long. Its values are out of range and its pattern is none: no other rows of a sheet are long enough.
pub fn sized(bytes: usize) -> Vec<u8> {
    let sheet = |digits: &[usize]| {
        let mut lines = vec![HEADER.to_string()];
        lines.extend((0..512).map(|k| format!("{k} {} -99999 -99999 -99999 -", &"99999"[..digits[k]])));
        lines.extend((512..514).map(|k| format!("{k} - -99999 -99999 -99999 -99999")));
        text(&lines)
    };
    let mut digits = [5; 512];
    let mut over = sheet(&digits).len() - bytes;
    for n in &mut digits {
        let less = over.min(4);
        *n -= less;
        over -= less;
    }
    sheet(&digits)
}

fn size_at_the_limit(d: &mut Draw, sheet: &mut Vec<u8>) {
    *sheet = sized(d.of(&[16_383, 16_384, 16_385, 16_386]));
}

// ---- fields

fn header(d: &mut Draw, sheet: &mut Vec<u8>) {
    with_lines(sheet, |lines| lines[0] = d.of(HEADERS).into());
}

fn at(d: &mut Draw, sheet: &mut Vec<u8>) {
    with_lines(sheet, |lines| {
        let line = d.below(lines.len());
        let k = line as i64 - 1;
        let words = [k + 1, k - 1, -k, k + 65_536, lines.len() as i64].map(|n| n.to_string());
        let spelled = [format!("0{k}"), format!("+{k}"), format!("-{k}"), "-".to_string()];
        let word = if d.chance(2) { &words[d.below(5)] } else { &spelled[d.below(4)] };
        put(&mut lines[line], 0, word);
    });
}

// `to` of another row, or too large; a cut to 16 bits would leave it right.
fn pattern(d: &mut Draw, sheet: &mut Vec<u8>) {
    with_lines(sheet, |lines| {
        let (line, other) = (message_row(d, lines), message_row(d, lines));
        let to = |line: usize| String::from_utf8_lossy(lines[line].split(|&b| b == b' ').nth(1).unwrap_or(b"0")).into_owned();
        let own: i64 = to(line).parse().unwrap_or(0);
        let bits = lines.len() as i64 - 3;
        let word = match d.below(6) {
            0..=2 => to(other),
            3 => bits.to_string(),
            4 => (own + 65_536).min(99_999).to_string(),
            _ => d.of(&["99999", "65536", "513", "512"]).to_string(),
        };
        put(&mut lines[line], 1, &word);
    });
}

// A value outside its limits; cut to 16 bits it may be inside.
pub fn out_of_range(d: &mut Draw) -> String {
    let small = d.within(-1023, 1023);
    d.of(&[1024, -1024, 65_536, 65_536 + small, -65_536 + small, 99_999, -99_999, 32_768, -32_768, 12_345]).to_string()
}

fn value(d: &mut Draw, sheet: &mut Vec<u8>) {
    with_lines(sheet, |lines| {
        let line = d.size(1, lines.len()).min(lines.len() - 1);
        let last = if line + 2 < lines.len() { 4 } else { 5 };
        put(&mut lines[line], d.size(2, last), &out_of_range(d));
    });
}

fn word(d: &mut Draw, sheet: &mut Vec<u8>) {
    field(d, sheet, |d, _| d.of(WORDS).into());
}

fn dash(d: &mut Draw, sheet: &mut Vec<u8>) {
    field(d, sheet, |d, f| if f == b"-" { d.of(&["0", "1", "-5", "1024"]).into() } else { b"-".to_vec() });
}

fn spelling(d: &mut Draw, sheet: &mut Vec<u8>) {
    field(d, sheet, |d, f| {
        let beside = d.of(&["0", "-", "+", "-0", "00", ".0", "\t", "\0", "\u{e9}"]).as_bytes();
        if d.chance(2) {
            [beside, f].concat()
        } else {
            [f, beside].concat()
        }
    });
}

// One field less or more, or two in each other's place.
fn fields(d: &mut Draw, sheet: &mut Vec<u8>) {
    with_lines(sheet, |lines| {
        let line = d.below(lines.len());
        with_fields(&mut lines[line], |fields| {
            let (one, other) = (d.below(fields.len()), d.below(fields.len()));
            match d.below(3) {
                0 => drop(fields.remove(one)),
                1 => fields.insert(one, fields[other].clone()),
                _ => fields.swap(one, other),
            }
        });
    });
}

fn spaces(d: &mut Draw, sheet: &mut Vec<u8>) {
    with_lines(sheet, |lines| {
        let at = d.below(lines.len());
        let line = &mut lines[at];
        let places: Vec<usize> = (0..line.len()).filter(|&i| line[i] == b' ').collect();
        if places.is_empty() || d.chance(3) {
            let end = if d.chance(2) { 0 } else { line.len() };
            line.insert(end, b' ');
        } else {
            let place = d.of(&places);
            line.splice(place..place + 1, d.of(&["  ", "\t", "\0", "", " \t", "\u{a0}"]).bytes());
        }
    });
}

// ---- two faults and more

// In any order of rows and fields.
fn values_out_of_range(d: &mut Draw, sheet: &mut Vec<u8>) {
    for _ in 0..d.size(2, 6) {
        value(d, sheet);
    }
}

// One in each of the last two rows: of tail 1 or of tail 2.
fn tails_out_of_range(d: &mut Draw, sheet: &mut Vec<u8>) {
    with_lines(sheet, |lines| {
        for line in lines.iter_mut().rev().take(2) {
            put(line, d.size(2, 5), &out_of_range(d));
        }
    });
}

fn value_and_pattern(d: &mut Draw, sheet: &mut Vec<u8>) {
    pattern(d, sheet);
    value(d, sheet);
}

fn value_and_line(d: &mut Draw, sheet: &mut Vec<u8>) {
    value(d, sheet);
    line_broken(d, sheet);
}

fn pattern_and_line(d: &mut Draw, sheet: &mut Vec<u8>) {
    pattern(d, sheet);
    line_broken(d, sheet);
}

fn two_lines(d: &mut Draw, sheet: &mut Vec<u8>) {
    line_broken(d, sheet);
    line_broken(d, sheet);
}

// ---- from nothing

// Small sheets of words that are mostly right where they stand.
fn rows_of_words(d: &mut Draw, sheet: &mut Vec<u8>) {
    let bits = d.size(1, 2);
    let mut lines = vec![HEADER.to_string()];
    for k in 0..bits + 2 {
        let mut fields = vec![k.to_string()];
        for i in 1..6 {
            let right = match (k < bits, i) {
                (true, 1) => d.of(&["0", "1"]),
                (true, 5) | (false, 1) => "-",
                (true, _) => d.of(&VALUES),
                (false, _) => d.of(&VALUES[2..]),
            };
            fields.push(if d.chance(40) { d.of(WORDS) } else { right }.to_string());
        }
        lines.push(fields.join(" "));
    }
    *sheet = text(&lines);
}

fn words(d: &mut Draw, sheet: &mut Vec<u8>) {
    sheet.clear();
    for _ in 0..d.below(60) {
        let word = if d.chance(9) { HEADER } else { d.of(WORDS) };
        sheet.extend(word.bytes());
        sheet.push(d.of(b"   \n"));
    }
}

fn any_bytes(d: &mut Draw, sheet: &mut Vec<u8>) {
    let length = if d.chance(20) { d.size(16_380, 16_390) } else { d.below(200) };
    *sheet = (0..length).map(|_| byte(d)).collect();
}

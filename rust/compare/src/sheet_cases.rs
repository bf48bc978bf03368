// Sheets with their answers written out. D1 to D11 number the sentences of document 01 that can be read in two ways; each says the reading. L are
// the lines that document 02 asks for beside 6, and H what it hands over.
use crate::sheet_faults::sized;
use crate::sheets::{text, HEADER};

pub type Case = (&'static str, fn() -> Vec<u8>, &'static str);

const R0: &str = "0 0 -3 5 - -";
const R1: &str = "1 - 2 -4 1 -6";
const R2: &str = "2 - 1 7 3 4";

const RESULT: &str = "at bit margin extrinsic\n0 1 9 1\n";
const TEXT_0: &str = "refused line\n1 0\n";
const TEXT_1: &str = "refused line\n1 1\n";
const TEXT_2: &str = "refused line\n1 2\n";
const TEXT_3: &str = "refused line\n1 3\n";
const TEXT_4: &str = "refused line\n1 4\n";
const VALUE_2: &str = "refused line\n6 2\n";
const VALUE_3: &str = "refused line\n6 3\n";
const VALUE_4: &str = "refused line\n6 4\n";
const PATTERN: &str = "refused line\n8 0\n";

// The rows under the header.
fn rows(rows: &[&str]) -> Vec<u8> {
    text(&[&[HEADER], rows].concat())
}

// P2 with another line, counted from 1.
fn p2(line: usize, other: &str) -> Vec<u8> {
    let mut lines = [HEADER, R0, R1, R2];
    lines[line - 1] = other;
    text(&lines)
}

// P2 with other fields, each by its line.
fn p2_fields(others: &[(usize, usize, &str)]) -> Vec<u8> {
    let mut lines = [HEADER, R0, R1, R2].map(|line| line.split(' ').collect::<Vec<&str>>());
    for &(line, field, word) in others {
        lines[line - 1][field] = word;
    }
    text(&lines.map(|fields| fields.join(" ")))
}

fn p2_field(line: usize, field: usize, word: &str) -> Vec<u8> {
    p2_fields(&[(line, field, word)])
}

fn open(mut sheet: Vec<u8>) -> Vec<u8> {
    sheet.pop();
    sheet
}

// Message positions of which nothing was sent, and tails of zeros.
fn nothing_sent(bits: usize) -> Vec<u8> {
    let messages = (0..bits).map(|k| format!("{k} {k} - - - -"));
    let tails = (bits..bits + 2).map(|k| format!("{k} - 0 0 0 0"));
    text(&[HEADER.to_string()].into_iter().chain(messages).chain(tails).collect::<Vec<_>>())
}

// One message bit and tails of zeros: pass 1's extrinsic is parity 1, and pass 2's parity 2.
fn handing(parity1: i32, parity2: i32) -> Vec<u8> {
    rows(&[&format!("0 0 - {parity1} {parity2} -"), "1 - 0 0 0 0", "2 - 0 0 0 0"])
}

const AT: usize = 0;
const TO: usize = 1;
const SYS: usize = 2;
const PAR: usize = 3;
const PAR2: usize = 4;
const SYS2: usize = 5;

#[rustfmt::skip]
pub const CASES: &[Case] = &[
    // D9: every printed line is ended by a line feed
    ("D9 P2", || rows(&[R0, R1, R2]), RESULT),

    // D1: rows are all pieces after the first line, empty ones too, and K is their number less two; nothing after the last line feed is no piece
    ("D1 an empty line after P2", || rows(&[R0, R1, R2, ""]), TEXT_3),
    ("D1 a third tail row", || rows(&[R0, R1, R2, "3 - 1 1 1 1"]), TEXT_3),
    ("D1 no last line feed", || open(rows(&[R0, R1, R2])), TEXT_4),
    ("D1 a last piece after 514 rows", || [nothing_sent(512), b"x".to_vec()].concat(), TEXT_0),
    ("D1 514 rows, the last without its line feed", || open(nothing_sent(512)), "refused line\n1 515\n"),
    ("D1 empty", Vec::new, TEXT_0),
    ("D1 the header alone", || rows(&[]), TEXT_0),
    ("D1 the header without its line feed", || open(rows(&[])), TEXT_0),
    ("D1 a line feed", || b"\n".to_vec(), TEXT_0),
    ("D1 four line feeds", || b"\n\n\n\n".to_vec(), TEXT_1),
    ("D1 an empty line under the header", || rows(&["", R0, R1, R2]), TEXT_2),
    ("D1 an empty line for a row", || rows(&[R0, "", R2]), TEXT_3),
    ("D1 the third row is a last piece", || b"at to sys par par2 sys2\n0 0 1 1 1 -\n1 - 1 1 1 1\nx".to_vec(), TEXT_4),
    ("D1 the second row is a last piece", || b"at to sys par par2 sys2\n0 0 1 1 1 -\nx".to_vec(), TEXT_0),
    ("D1 P2 after P2", || [rows(&[R0, R1, R2]), rows(&[R0, R1, R2])].concat(), TEXT_3),

    // D2: the size and the number of rows come before every fault
    ("D2 another header over two rows", || text(&["x", R0, R1]), TEXT_0),
    ("D2 P2 without its header", || text(&[R0, R1, R2]), TEXT_0),
    ("D2 a sheet of two positions without its header", || text(&["0 0 1 1 1 -", "1 1 1 1 1 -", "2 - 1 1 1 1", "3 - 1 1 1 1"]), TEXT_1),
    ("D2 515 rows", || nothing_sent(513), TEXT_0),
    ("D2 515 rows under another header", || nothing_sent(513)[1..].to_vec(), TEXT_0),
    ("D2 2 rows", || nothing_sent(0), TEXT_0),
    ("D2 another header and a faulty row", || text(&["x", "x", R1, R2]), TEXT_1),

    // D3: a faulty line anywhere comes before 6, and 6 before 8
    ("D3 a value out of range above a faulty row", || rows(&["0 0 1024 5 - -", R1, "2 - x 7 3 4"]), TEXT_4),
    ("D3 a value out of range below a faulty row", || rows(&["0 0 x 5 - -", R1, "2 - 1024 7 3 4"]), TEXT_2),
    ("D3 no pattern, and a value out of range", || p2(2, "0 1 1024 5 - -"), VALUE_2),
    ("D3 no pattern, and a value out of range in the last row", || rows(&["0 1 -3 5 - -", R1, "2 - 1 7 3 1024"]), VALUE_4),
    ("D3 no pattern, and a faulty row", || rows(&["0 1 -3 5 - -", R1, "2 - 1 7 3 x"]), TEXT_4),
    ("D3 a value out of range and no last line feed", || open(p2(2, "0 0 1024 5 - -")), TEXT_4),
    ("D3 two faulty rows", || rows(&[R0, "1 - 2 -4 1 x", "2 - x 7 3 4"]), TEXT_3),
    ("D3 a faulty row and no last line feed", || open(p2(3, "x")), TEXT_3),
    ("D3 the header and every row", || text(&["x", "x", "x", "x"]), TEXT_1),

    // D4: a number of five digits is no fault of the text, whatever its size; nothing is cut to 16 bits
    ("D4 sys 1023", || rows(&["0 0 1023 - - -", "1 - 0 0 0 0", "2 - 0 0 0 0"]), "at bit margin extrinsic\n0 1 1023 0\n"),
    ("D4 sys -1023", || rows(&["0 0 -1023 - - -", "1 - 0 0 0 0", "2 - 0 0 0 0"]), "at bit margin extrinsic\n0 0 -1023 0\n"),
    ("D4 sys 1024", || p2_field(2, SYS, "1024"), VALUE_2),
    ("D4 par -1024", || p2_field(2, PAR, "-1024"), VALUE_2),
    ("D4 par2 1024", || p2_field(2, PAR2, "1024"), VALUE_2),
    ("D4 sys2 1024 of the first tail row", || p2_field(3, SYS2, "1024"), VALUE_3),
    ("D4 par2 -1024 of the last tail row", || p2_field(4, PAR2, "-1024"), VALUE_4),
    ("D4 sys 99999", || p2_field(2, SYS, "99999"), VALUE_2),
    ("D4 sys -99999", || p2_field(2, SYS, "-99999"), VALUE_2),
    ("D4 sys 65537", || p2_field(2, SYS, "65537"), VALUE_2),
    ("D4 sys -65539", || p2_field(2, SYS, "-65539"), VALUE_2),
    ("D4 sys 65536 of a tail", || p2_field(4, SYS, "65536"), VALUE_4),
    ("D4 sys 100000", || p2_field(2, SYS, "100000"), TEXT_2),
    ("D4 sys -100000", || p2_field(2, SYS, "-100000"), TEXT_2),
    ("D4 sys 4294967293", || p2_field(2, SYS, "4294967293"), TEXT_2),
    ("D4 to 1 where K is 1", || p2_field(2, TO, "1"), PATTERN),
    ("D4 to 65536 where K is 1", || p2_field(2, TO, "65536"), PATTERN),
    ("D4 to 99999", || p2_field(2, TO, "99999"), PATTERN),
    ("D4 to 100000", || p2_field(2, TO, "100000"), TEXT_2),
    ("D4 to 0 twice", || rows(&["0 0 1 1 1 -", "1 0 1 1 1 -", "2 - 1 1 1 1", "3 - 1 1 1 1"]), PATTERN),
    ("D4 at 1 in the first row", || p2_field(2, AT, "1"), TEXT_2),
    ("D4 at 65536 in the first row", || p2_field(2, AT, "65536"), TEXT_2),
    ("D4 at 0 in the second row", || p2_field(3, AT, "0"), TEXT_3),
    ("D4 at 1 in the last row", || p2_field(4, AT, "1"), TEXT_4),

    // L: 6 is told with the line of the first value out of range in reading order, row by row and each from left to right; the frame's list has all of
    // tail 1 before tail 2, which stand side by side on the sheet. 1 comes before it, and 8 after it, without a line
    ("L sys 2000 in line 4 and par2 -2000 in line 3",
        || rows(&["0 0 1 1 1 -", "1 1 1 1 -2000 -", "2 2 2000 1 1 -", "3 3 1 1 1 -", "4 - 1 1 1 1", "5 - 1 1 1 1"]), VALUE_3),
    ("L sys of the first tail row", || p2_field(3, SYS, "1024"), VALUE_3),
    ("L par of the first tail row", || p2_field(3, PAR, "-1024"), VALUE_3),
    ("L par2 of the first tail row", || p2_field(3, PAR2, "1024"), VALUE_3),
    ("L sys2 of the first tail row", || p2_field(3, SYS2, "-1024"), VALUE_3),
    ("L sys of the last tail row", || p2_field(4, SYS, "-1024"), VALUE_4),
    ("L par of the last tail row", || p2_field(4, PAR, "1024"), VALUE_4),
    ("L par2 of the last tail row", || p2_field(4, PAR2, "-1024"), VALUE_4),
    ("L sys2 of the last tail row", || p2_field(4, SYS2, "1024"), VALUE_4),
    ("L sys2 of the first tail row and sys of the last", || p2_fields(&[(3, SYS2, "1024"), (4, SYS, "1024")]), VALUE_3),
    ("L sys2 of the first tail row and par of the last", || p2_fields(&[(3, SYS2, "1024"), (4, PAR, "1024")]), VALUE_3),
    ("L par2 of the first tail row and sys of the last", || p2_fields(&[(3, PAR2, "1024"), (4, SYS, "1024")]), VALUE_3),
    ("L par2 of the first tail row and par of the last", || p2_fields(&[(3, PAR2, "1024"), (4, PAR, "1024")]), VALUE_3),
    ("L sys of the first tail row and sys2 of the last", || p2_fields(&[(3, SYS, "1024"), (4, SYS2, "1024")]), VALUE_3),
    ("L par of the first tail row and par2 of the last", || p2_fields(&[(3, PAR, "1024"), (4, PAR2, "1024")]), VALUE_3),
    ("L sys2 and sys of the last tail row", || p2_fields(&[(4, SYS2, "1024"), (4, SYS, "1024")]), VALUE_4),
    ("L par2 of the message row and both tail rows", || p2_fields(&[(2, PAR2, "1024"), (3, SYS2, "1024"), (4, SYS, "1024")]), VALUE_2),
    ("L every value", || rows(&["0 0 1024 1024 1024 -", "1 - 1024 1024 1024 1024", "2 - 1024 1024 1024 1024"]), VALUE_2),
    ("L the last value under 512 positions", || [nothing_sent(512).strip_suffix(b"0\n").unwrap(), b"1024\n"].concat(), "refused line\n6 515\n"),
    ("L no pattern, and a value out of range in line 6",
        || rows(&["0 0 1 1 1 -", "1 0 1 1 1 -", "2 0 1 1 1 -", "3 - 1 1 1 1", "4 - 1 1 1 1024"]), "refused line\n6 6\n"),
    ("L a value out of range in line 2, and a faulty last row", || p2_fields(&[(2, SYS, "1024"), (4, AT, "3")]), TEXT_4),
    ("L values out of range in lines 3 and 4, and a faulty first row", || p2_fields(&[(2, AT, "1"), (3, SYS2, "1024"), (4, SYS, "1024")]), TEXT_2),
    ("L no pattern alone", || p2_field(2, TO, "2"), PATTERN),

    // D5: `-` where a number must stand is a fault, and so is a number where `-` must
    ("D5 sys2 0 of a message row", || p2_field(2, SYS2, "0"), TEXT_2),
    ("D5 sys2 1024 of a message row", || p2_field(2, SYS2, "1024"), TEXT_2),
    ("D5 sys2 unsent of the first tail row", || p2_field(3, SYS2, "-"), TEXT_3),
    ("D5 sys unsent of the first tail row", || p2_field(3, SYS, "-"), TEXT_3),
    ("D5 par unsent of the last tail row", || p2_field(4, PAR, "-"), TEXT_4),
    ("D5 par2 unsent of the last tail row", || p2_field(4, PAR2, "-"), TEXT_4),
    ("D5 to - of a message row", || p2_field(2, TO, "-"), TEXT_2),
    ("D5 at - of a message row", || p2_field(2, AT, "-"), TEXT_2),
    ("D5 to 0 of a tail row", || p2_field(3, TO, "0"), TEXT_3),
    ("D5 to 2 of the last tail row", || p2_field(4, TO, "2"), TEXT_4),

    // D6: a sign is no digit, and there is no plus sign
    ("D6 -12345", || p2_field(2, SYS, "-12345"), VALUE_2),
    ("D6 +1", || p2_field(2, SYS, "+1"), TEXT_2),
    ("D6 00", || p2_field(2, SYS, "00"), TEXT_2),
    ("D6 -00", || p2_field(2, SYS, "-00"), TEXT_2),
    ("D6 01", || p2_field(2, SYS, "01"), TEXT_2),
    ("D6 -01", || p2_field(2, SYS, "-01"), TEXT_2),
    ("D6 -0", || p2_field(2, SYS, "-0"), TEXT_2),
    ("D6 -0 of a tail", || p2_field(4, SYS2, "-0"), TEXT_4),
    ("D6 --1", || p2_field(2, SYS, "--1"), TEXT_2),
    ("D6 1.0", || p2_field(2, SYS, "1.0"), TEXT_2),
    ("D6 an empty field", || p2_field(2, SYS, ""), TEXT_2),
    ("D6 a lone minus sign in a tail", || p2_field(3, PAR, "-"), TEXT_3),
    ("D6 012345", || p2_field(2, SYS, "012345"), TEXT_2),
    ("D6 at -0", || p2_field(2, AT, "-0"), TEXT_2),
    ("D6 at +0", || p2_field(2, AT, "+0"), TEXT_2),
    ("D6 at 00", || p2_field(2, AT, "00"), TEXT_2),
    ("D6 at -1", || p2_field(3, AT, "-1"), TEXT_3),
    ("D6 to -0", || p2_field(2, TO, "-0"), TEXT_2),
    ("D6 to -1", || p2_field(2, TO, "-1"), TEXT_2),
    ("D6 to 00", || p2_field(2, TO, "00"), TEXT_2),
    ("D6 digits of another script", || p2_field(2, SYS, "\u{661}"), TEXT_2),

    // D7: carriage return, tab, NUL and a second space are wrong bytes like any other
    ("D7 CR LF", || text(&[HEADER, R0, R1, R2].map(|l| format!("{l}\r"))), TEXT_1),
    ("D7 CR LF in the last row", || p2(4, "2 - 1 7 3 4\r"), TEXT_4),
    ("D7 CR for LF", || b"at to sys par par2 sys2\r0 0 -3 5 - -\r1 - 2 -4 1 -6\r2 - 1 7 3 4\r".to_vec(), TEXT_0),
    ("D7 a tab", || p2(2, "0\t0 -3 5 - -"), TEXT_2),
    ("D7 two spaces", || p2(2, "0  0 -3 5 - -"), TEXT_2),
    ("D7 a space before a row", || p2(3, " 1 - 2 -4 1 -6"), TEXT_3),
    ("D7 a space after a row", || p2(3, "1 - 2 -4 1 -6 "), TEXT_3),
    ("D7 a space after the header", || p2(1, "at to sys par par2 sys2 "), TEXT_1),
    ("D7 two spaces in the header", || p2(1, "at  to sys par par2 sys2"), TEXT_1),
    ("D7 the header in capitals", || p2(1, "AT TO SYS PAR PAR2 SYS2"), TEXT_1),
    ("D7 the header without its last field", || p2(1, "at to sys par par2"), TEXT_1),
    ("D7 five fields", || p2(2, "0 0 -3 5 -"), TEXT_2),
    ("D7 seven fields", || p2(2, "0 0 -3 5 - - -"), TEXT_2),
    ("D7 a NUL after the last line feed", || [rows(&[R0, R1, R2]), vec![0]].concat(), TEXT_3),
    ("D7 a NUL in a field", || p2(2, "0 0 -3\0 5 - -"), TEXT_2),
    ("D7 a byte over 127", || [&b"at to sys par par2 sys2\n0 0 -3\xff 5 - -\n"[..], b"1 - 2 -4 1 -6\n2 - 1 7 3 4\n"].concat(), TEXT_2),
    ("D7 a byte order mark", || [&b"\xef\xbb\xbf"[..], &rows(&[R0, R1, R2])].concat(), TEXT_1),

    // D8: the whole input counts
    ("D8 16,384 bytes", || sized(16_384), VALUE_2),
    ("D8 16,385 bytes", || sized(16_385), TEXT_0),
    ("D8 16,384 bytes under another header", || [b"A", &sized(16_384)[1..]].concat(), TEXT_1),
    ("D8 16,384 bytes without the last line feed", || open(sized(16_385)), "refused line\n1 515\n"),
    ("D8 16,385 bytes under another header", || [b"A", &sized(16_385)[1..]].concat(), TEXT_0),

    // D10: the parity of tail 2 stands before its systematic value. D11: a row may have nothing sent
    ("D10 the tails' columns", || rows(&["0 0 0 0 0 -", "1 - 0 0 0 9", "2 - 0 0 0 0"]), "at bit margin extrinsic\n0 1 9 9\n"),
    ("D11 nothing sent", || nothing_sent(1), "at bit margin extrinsic\n0 1 0 0\n"),
    ("D11 only systematic values, in message order", || rows(&["0 1 5 0 0 -", "1 2 -7 0 0 -", "2 0 9 0 0 -", "3 - 0 0 0 0", "4 - 0 0 0 0"]),
        "at bit margin extrinsic\n0 1 5 0\n1 0 -7 0\n2 1 9 0\n"),

    // H: three quarters of parity 1 handed on, multiplied before it is divided and rounded towards zero. What is written is whole
    ("H -1 hands over 0", || handing(-1, 0), "at bit margin extrinsic\n0 1 0 0\n"),
    ("H 7 hands over 5", || handing(7, 0), "at bit margin extrinsic\n0 1 5 0\n"),
    ("H -7 hands over -5", || handing(-7, 0), "at bit margin extrinsic\n0 0 -5 0\n"),
    ("H 7 is written", || handing(0, 7), "at bit margin extrinsic\n0 1 7 7\n"),
];

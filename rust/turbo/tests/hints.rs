//! What is easy to see of a text that is refused by 1, through the binding.
use turbo::{hint, raw, sheet, Hint};

const SHEET: &str = "at to sys par par2 sys2\n0 0 -3 5 - -\n1 - 2 -4 1 -6\n2 - 1 7 3 4\n";

fn refused_by_1(text: &[u8]) -> bool {
    sheet(text).starts_with(b"refused line\n1 ")
}

#[test]
fn each_kind() {
    let cases: [(Vec<u8>, Hint); 10] = [
        (Vec::new(), Hint::Empty),
        (SHEET.encode_utf16().flat_map(u16::to_le_bytes).collect(), Hint::Utf16),
        ([b"\xef\xbb\xbf", SHEET.as_bytes()].concat(), Hint::ByteOrderMark),
        (vec![b'\t'; 16_385], Hint::TooLong),
        (SHEET.replace('\n', "\r\n").into(), Hint::CarriageReturn { line: 1 }),
        (SHEET.replace("1 -", "1\t-").into(), Hint::Tab { line: 3 }),
        (SHEET.replace("-6\n", "-6 \n").into(), Hint::LastSpace { line: 3 }),
        (format!("{SHEET}\n").into(), Hint::EmptyLine { line: 5 }),
        (SHEET.trim_end().into(), Hint::NoLineFeed { line: 4 }),
        (b"\n".to_vec(), Hint::EmptyLine { line: 1 }),
    ];
    for (text, wanted) in cases {
        assert_eq!(hint(&text), Some(wanted));
        assert!(refused_by_1(&text), "{wanted:?}");
    }
}

#[test]
fn nothing_is_seen_of_a_sheet_or_of_other_faults() {
    assert_eq!(hint(SHEET.as_bytes()), None);
    let two_spaces = SHEET.replace("1 -", "1  -");
    assert!(refused_by_1(two_spaces.as_bytes()));
    assert_eq!(hint(two_spaces.as_bytes()), None);
}

#[test]
fn the_line_is_always_written() {
    let mut line = 77;
    assert_eq!((raw::hint(SHEET.as_bytes(), &mut line), line), (0, 0));
    assert_eq!((raw::hint(b"a\nb\tc\n", &mut line), line), (5, 2));
    assert_eq!((raw::hint(b"", &mut line), line), (1, 0));
}

#[test]
fn numbers_that_are_none() {
    assert_eq!(Hint::from_number(0, 1), None);
    assert_eq!(Hint::from_number(10, 1), None);
    assert_eq!(Hint::LastSpace { line: 7 }.to_string(), "line 7 ends in a space: take it away");
}

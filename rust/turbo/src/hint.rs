use crate::raw;
use std::fmt;

/// What is easy to see of a text that is no sheet, each with its line where it stands in one, the header being 1.
#[derive(Clone, Copy, Debug, PartialEq, Eq, Hash)]
#[non_exhaustive]
pub enum Hint {
    /// There is no byte at all.
    Empty,
    /// Two bytes make a character.
    Utf16,
    ByteOrderMark,
    /// There are more than 16,384 bytes.
    TooLong,
    /// The first line with a carriage return.
    CarriageReturn { line: usize },
    /// The first line with a tab.
    Tab { line: usize },
    /// The first line that ends in a space.
    LastSpace { line: usize },
    /// The last line is empty, and so counts as a row.
    EmptyLine { line: usize },
    /// The last line is not ended by a line feed.
    NoLineFeed { line: usize },
}

impl Hint {
    /// The hint that [`raw::hint`] tells by its number and its line. There is none for 0 and above 9.
    pub fn from_number(number: u32, line: u64) -> Option<Hint> {
        // A line of a text that was lent is a `usize`.
        let line = line as usize;
        Some(match number {
            1 => Hint::Empty,
            2 => Hint::Utf16,
            3 => Hint::ByteOrderMark,
            9 => Hint::TooLong,
            4 => Hint::CarriageReturn { line },
            5 => Hint::Tab { line },
            6 => Hint::LastSpace { line },
            7 => Hint::EmptyLine { line },
            8 => Hint::NoLineFeed { line },
            _ => return None,
        })
    }
}

impl fmt::Display for Hint {
    fn fmt(&self, f: &mut fmt::Formatter<'_>) -> fmt::Result {
        match self {
            Hint::Empty => write!(f, "it is empty"),
            Hint::Utf16 => write!(f, "it is UTF-16, two bytes a character: save it as plain text"),
            Hint::ByteOrderMark => write!(f, "it begins with a byte order mark: save it without one"),
            Hint::TooLong => write!(f, "it has more than 16,384 bytes"),
            Hint::CarriageReturn { line } => write!(f, "line {line} has a carriage return: save it with line feeds alone (LF, not CR LF)"),
            Hint::Tab { line } => write!(f, "line {line} has a tab: fields are parted by one space"),
            Hint::LastSpace { line } => write!(f, "line {line} ends in a space: take it away"),
            Hint::EmptyLine { line } => write!(f, "line {line}, the last, is empty: take it away, since it counts as a row"),
            Hint::NoLineFeed { line } => write!(f, "line {line}, the last, is not ended by a line feed"),
        }
    }
}

/// What is easy to see of a sheet's text that is refused by 1. It decides nothing: [`sheet()`](crate::sheet()) does.
pub fn hint(sheet: &[u8]) -> Option<Hint> {
    let mut line = 0;
    let number = raw::hint(sheet, &mut line);
    Hint::from_number(number, line)
}

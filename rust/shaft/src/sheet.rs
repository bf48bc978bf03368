//! A sheet and its answer, from text. Only the library judges a sheet: what is read here was decoded or refused by it before.

/// The longest sheet. One more byte is enough to tell that a sheet is too long.
pub const MOST_BYTES: usize = 16_384;
pub const HEADER: &str = "at to sys par par2 sys2";

/// A message row's values `sys`, `par`, `par2`; one that was not sent is none.
pub type Row = [Option<i16>; 3];

/// The values of a sheet.
#[derive(Clone, Debug, PartialEq, Eq)]
pub struct Sheet {
    /// Column `to`.
    pub pattern: Vec<u32>,
    pub rows: Vec<Row>,
    /// The tail rows' `sys`, `par`, `par2`, `sys2`.
    pub tails: [[i16; 4]; 2],
}

/// What the library says of a sheet.
#[derive(Clone, Debug, PartialEq, Eq)]
pub enum Answer {
    Decoded { bits: Vec<u8>, margins: Vec<i32>, extrinsics: Vec<i32> },
    Refused { number: u32, line: usize },
}

fn value(field: &str) -> Option<i16> {
    field.parse().ok()
}

impl Sheet {
    /// The values of a sheet that the library has decoded.
    pub fn of_decoded(text: &[u8]) -> Sheet {
        let text = std::str::from_utf8(text).expect("a decoded sheet is text");
        let lines: Vec<&str> = text.lines().skip(1).collect();
        let (messages, tails) = lines.split_at(lines.len() - 2);
        let fields = |line: &str| -> [Option<i16>; 5] {
            let mut fields = line.split(' ').skip(1).map(value);
            std::array::from_fn(|_| fields.next().expect("a row has six fields"))
        };
        let (pattern, rows) = messages.iter().map(|line| fields(line)).map(|[to, sys, par, par2, _]| (to.unwrap() as u32, [sys, par, par2])).unzip();
        let tail = |at: usize| {
            let [_, values @ ..] = fields(tails[at]);
            values.map(|value| value.expect("a tail value is sent"))
        };
        Sheet { pattern, rows, tails: [tail(0), tail(1)] }
    }

    /// Everything that was sent: row by row, then the tails.
    pub fn sent(&self) -> impl Iterator<Item = i16> + '_ {
        self.rows.iter().flatten().flatten().copied().chain(self.tails.into_iter().flatten())
    }

    /// The sheet as it is written in a file.
    pub fn text(&self) -> String {
        let mut text = String::with_capacity(32 * (self.rows.len() + 3)) + HEADER + "\n";
        let field = |value: Option<i16>| value.map_or("-".to_string(), |v| v.to_string());
        for (at, (to, &[sys, par, par2])) in self.pattern.iter().zip(&self.rows).enumerate() {
            text += &format!("{at} {to} {} {} {} -\n", field(sys), field(par), field(par2));
        }
        for (j, [sys, par, par2, sys2]) in self.tails.iter().enumerate() {
            text += &format!("{} - {sys} {par} {par2} {sys2}\n", self.rows.len() + j);
        }
        text
    }
}

impl Answer {
    /// The library's answer to a sheet.
    pub fn to(sheet: &[u8]) -> Answer {
        Answer::of(&turbo::sheet(sheet))
    }

    fn of(text: &[u8]) -> Answer {
        let text = std::str::from_utf8(text).expect("an answer is text");
        let (header, rows) = text.split_once('\n').expect("an answer has a header");
        let mut numbers = rows.split_ascii_whitespace().map(|n| n.parse::<i64>().expect("an answer has numbers"));
        let mut next = || numbers.next();
        if header == "refused line" {
            return Answer::Refused { number: next().unwrap() as u32, line: next().unwrap() as usize };
        }
        let (mut bits, mut margins, mut extrinsics) = (Vec::new(), Vec::new(), Vec::new());
        while let (Some(_), Some(bit), Some(margin), Some(extrinsic)) = (next(), next(), next(), next()) {
            bits.push(bit as u8);
            margins.push(margin as i32);
            extrinsics.push(extrinsic as i32);
        }
        Answer::Decoded { bits, margins, extrinsics }
    }
}

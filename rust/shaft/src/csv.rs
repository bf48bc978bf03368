//! Every row of every decoded sheet, for a spreadsheet.
use crate::frame::Frame;
use std::io::{self, Write};

pub const HEADER: &str = "sheet,row,bit,margin,extrinsic,sound_margin,heard";

/// A field as RFC 4180 has it: in quotes if it has a comma, a quote or a line's end in it, and a quote in it is doubled.
pub fn field(text: &str) -> String {
    if text.contains([',', '"', '\r', '\n']) {
        format!("\"{}\"", text.replace('"', "\"\""))
    } else {
        text.to_string()
    }
}

/// Lines end in a line feed. Heard has as many digits as give the same number again, and is empty where there is none.
pub fn write<'a>(sheets: impl Iterator<Item = (&'a str, &'a Frame)>, out: &mut dyn Write) -> io::Result<()> {
    writeln!(out, "{HEADER}")?;
    for (name, frame) in sheets {
        let name = field(name);
        for at in 0..frame.bits.len() {
            write!(out, "{name},{at},{},{},{},{},", frame.bits[at], frame.margins[at], frame.extrinsics[at], frame.sound_margin(at))?;
            match frame.heard[at] {
                Some(heard) => writeln!(out, "{heard}")?,
                None => writeln!(out)?,
            }
        }
    }
    Ok(())
}

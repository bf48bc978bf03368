//! How each row was heard: the values received beside what was sent, if the bits decided are right.
use crate::sheet::Sheet;
use crate::sound::Level;
use turbo::{encode, End, Frame, Table};

/// By row, the mean of sign sent (+1 for bit 1, -1 for 0) × value received over what was sent in the row, over the mean size of the sheet's
/// values. 1 is as loud as the rest of the sheet, 0 silent, below 0 turned over. A row with nothing sent has none, and so has every row of a
/// sheet of zeros.
pub fn heard(sheet: &Sheet, bits: &[u8], level: Level) -> Vec<Option<f64>> {
    let ends = (End::Zero, End::Zero);
    let frame = Frame { table: Table::house(), ends, tail: 2, pattern: sheet.pattern.clone(), masks: vec![7] };
    let sent = encode(&frame, bits).expect("bits and pattern of a decoded sheet are coded");
    sheet.rows.iter().zip(sent.chunks(3)).map(|(row, sent)| of_row(row, sent, level)).collect()
}

// The mean of the row and that of the sheet are brought to one fraction of whole numbers, so there is one rounding only.
fn of_row(row: &[Option<i16>; 3], sent: &[u8], level: Level) -> Option<f64> {
    let signed = row.iter().zip(sent).filter_map(|(value, &bit)| value.map(|v| if bit == 1 { i64::from(v) } else { -i64::from(v) }));
    let (sum, count) = signed.fold((0, 0), |(sum, count), value| (sum + value, count + 1));
    let whole = count * level.total;
    (whole != 0).then(|| (sum * level.count) as f64 / whole as f64)
}

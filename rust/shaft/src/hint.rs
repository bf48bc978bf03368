//! What to look at in a sheet that was refused.

/// Words for a refusal by this number, if there are any.
pub fn hint(number: u32, sheet: &[u8]) -> Option<String> {
    match number {
        1 => turbo::hint(sheet).map(|hint| hint.to_string()),
        6 => Some("that line has the first value outside -1,023..1,023".to_string()),
        8 => Some("the column 'to' has not each position exactly once".to_string()),
        _ => None,
    }
}

//! What is easy to see of a text that is no sheet, by its lines, from what include/turbo.h says.

/// The hint's number and its line.
pub fn hint(text: &[u8]) -> (u32, u64) {
    let starts = |front: &[u8]| text.starts_with(front);
    let whole = [
        (1, text.is_empty()),
        (2, text.iter().take(2).any(|&b| b == 0) || starts(&[0xff, 0xfe]) || starts(&[0xfe, 0xff])),
        (3, starts(&[0xef, 0xbb, 0xbf])),
        (9, text.len() > 16_384),
    ];
    if let Some((number, _)) = whole.iter().find(|(_, seen)| *seen) {
        return (*number, 0);
    }
    let mut lines: Vec<&[u8]> = text.split(|&b| b == b'\n').collect();
    let rest = lines.pop().expect("a text has at least one piece");
    let pieces = lines.iter().chain([&rest]);
    let with = |byte: u8| pieces.clone().position(|piece| piece.contains(&byte));
    let last_of_text = (!rest.is_empty()).then_some(lines.len());
    let empty = lines.last().filter(|line| line.is_empty()).map(|_| lines.len() - 1);
    let seen = [
        (4, with(b'\r')),
        (5, with(b'\t')),
        (6, lines.iter().position(|line| line.ends_with(b" "))),
        (8, last_of_text),
        (7, empty),
    ];
    let first = seen.iter().find_map(|&(number, line)| line.map(|line| (number, line as u64 + 1)));
    first.unwrap_or((0, 0))
}

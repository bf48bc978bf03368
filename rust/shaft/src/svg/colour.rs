//! The colours of the maps. Blue from dark (0) to light (1), orange below 0: a pair that the colour-blind can tell apart, also by its lightness.
use super::page::{Anchor, Page};

/// From this value on a cell has this colour; below the first the colour is `LOWEST`.
const STEPS: [(f64, &str); 12] = [
    (-0.5, "#f28e2b"),
    (0.0, "#041f4a"),
    (0.1, "#08306b"),
    (0.2, "#08519c"),
    (0.3, "#2171b5"),
    (0.4, "#4292c6"),
    (0.5, "#6baed6"),
    (0.6, "#9ecae1"),
    (0.7, "#c6dbef"),
    (0.8, "#deebf7"),
    (0.9, "#ecf4fb"),
    (1.0, "#f7fbff"),
];
const LOWEST: &str = "#a63603";
const NONE: &str = "#ddd6c8";

/// As many colours as there are; a cell's is a number below.
pub const COLOURS: usize = STEPS.len() + 2;

pub fn of(value: Option<f64>) -> usize {
    value.map_or(COLOURS - 1, |value| STEPS.iter().take_while(|(from, _)| value >= *from).count())
}

// Titles, headings, small text, numbers of marked rows, and where text is anchored; then grey lines, outlines, marks, the grid and the bars.
const STYLE: &str = "text{font:11px sans-serif;fill:#222}
.t{font-size:16px;font-weight:bold}
.h{font-size:12px;font-weight:bold}
.s{font-size:10px;fill:#555}
.w{font-weight:bold;fill:#a63603}
.m{text-anchor:middle}
.e{text-anchor:end}
.g{fill:#8c8c8c}
.o{fill:none;stroke:#bbb}
.k{fill:none;stroke:#000;stroke-width:1.5}
.n{fill:none;stroke:#fff;stroke-width:.5}
.b{fill:#a9bfd6}
.x{fill:#a63603}
.y{fill:#fde3c8}
.d{fill:none;stroke:#a63603;stroke-dasharray:4 3}
";

/// The style sheet.
pub fn style() -> String {
    let colours = [LOWEST].into_iter().chain(STEPS.map(|(_, colour)| colour)).chain([NONE]);
    let classes: String = colours.enumerate().map(|(i, colour)| format!(".c{i}{{fill:{colour}}}\n")).collect();
    STYLE.to_string() + &classes
}

const BOX: usize = 36;
const HIGH: usize = 12;

fn sample(page: &mut Page, x: usize, class: &str) {
    page.add(&format!("<rect class=\"{class}\" x=\"{x}\" y=\"{}\" width=\"{BOX}\" height=\"{HIGH}\"/>", page.y));
}

/// The scale, once for all maps, and what else a place can show.
pub fn legend(page: &mut Page) {
    let x0 = page.left();
    let scale = COLOURS - 1;
    for i in 0..scale {
        sample(page, x0 + i * BOX, &format!("c{i}"));
    }
    page.add(&format!("<rect class=\"o\" x=\"{x0}\" y=\"{}\" width=\"{}\" height=\"{HIGH}\"/>", page.y, scale * BOX));
    let below = page.y + HIGH + 11;
    for (i, (from, _)) in STEPS.iter().enumerate() {
        page.text(x0 + (i + 1) * BOX, below, Anchor::Middle, "s", &from.to_string());
    }
    page.text(x0 + BOX, below + 12, Anchor::Middle, "s", "turned over");
    page.text(x0 + 2 * BOX, below + 12, Anchor::Start, "s", "silent");
    page.text(x0 + scale * BOX + 8, page.y + HIGH - 2, Anchor::Start, "s", "as loud as the rest, as sure as a sound frame");
    page.y = below + 22;
    let none = format!("c{}", COLOURS - 1);
    let others = [(none.as_str(), "nothing to show"), ("g", "refused sheet"), ("k", "marked row")];
    let mut x = x0;
    for (class, word) in others {
        sample(page, x, class);
        page.text(x + BOX + 6, page.y + HIGH - 2, Anchor::Start, "s", word);
        x += BOX + 6 + 8 * word.len() + 16;
    }
    page.y += HIGH + 6;
}

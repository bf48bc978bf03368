//! A page that is filled from above, in whole pixels.
use std::fmt::Write;

/// A character's width at 11 pixels, rather too wide than too narrow.
pub const CHARACTER: usize = 7;
/// A line of small text.
pub const LINE: usize = 12;
const EDGE: usize = 16;
const LEAST_WIDTH: usize = 720;

/// Text for an element or an attribute; what XML has no place for is replaced.
pub fn escaped(text: &str) -> String {
    let mut out = String::new();
    for c in text.chars() {
        match c {
            '&' => out += "&amp;",
            '<' => out += "&lt;",
            '>' => out += "&gt;",
            '"' => out += "&quot;",
            c if c.is_control() || matches!(c, '\u{fffe}' | '\u{ffff}') => out.push('\u{fffd}'),
            c => out.push(c),
        }
    }
    out
}

#[derive(Clone, Copy)]
pub enum Anchor {
    Start,
    Middle,
    End,
}

pub struct Page {
    body: String,
    left: usize,
    right: usize,
    /// Where the next thing goes.
    pub y: usize,
}

impl Page {
    /// A page whose lines have labels of up to so many characters.
    pub fn new(longest: usize) -> Page {
        Page { body: String::new(), left: EDGE + CHARACTER * longest.max(12) + 6, right: LEAST_WIDTH, y: EDGE }
    }

    pub fn left(&self) -> usize {
        self.left
    }

    /// Makes room to this place.
    pub fn reach(&mut self, x: usize) {
        self.right = self.right.max(x + EDGE);
    }

    pub fn add(&mut self, element: &str) {
        self.body += element;
        self.body.push('\n');
    }

    pub fn text(&mut self, x: usize, y: usize, anchor: Anchor, class: &str, text: &str) {
        let width = CHARACTER * text.chars().count();
        let (name, end) = match anchor {
            Anchor::Start => ("", x + width),
            Anchor::Middle => (" m", x + width / 2),
            Anchor::End => (" e", x),
        };
        self.reach(end);
        self.add(&format!("<text x=\"{x}\" y=\"{y}\" class=\"{class}{name}\">{}</text>", escaped(text)));
    }

    pub fn title(&mut self, text: &str) {
        self.text(EDGE, self.y + 16, Anchor::Start, "t", text);
        self.y += 30;
    }

    pub fn heading(&mut self, text: &str) {
        self.y += 14;
        self.text(EDGE, self.y + 12, Anchor::Start, "h", text);
        self.y += 26;
    }

    pub fn finished(self, style: &str) -> String {
        let (width, height) = (self.right, self.y + EDGE);
        let mut out = String::new();
        let size = format!("width=\"{width}\" height=\"{height}\" viewBox=\"0 0 {width} {height}\"");
        let _ = writeln!(out, "<svg xmlns=\"http://www.w3.org/2000/svg\" {size}>\n<style>\n{style}</style>");
        let _ = writeln!(out, "<rect width=\"{width}\" height=\"{height}\" fill=\"#fff\"/>");
        out + &self.body + "</svg>\n"
    }
}

//! A heat map of a group: a line a frame, a cell a position.
use super::colour;
use super::page::{escaped, Anchor, Page, CHARACTER, LINE};
use crate::frame::{Frame, Refused};
use crate::group::Group;
use crate::report::Outcome;
use std::fmt::Write;

/// A line of the map, with its label.
pub enum Line<'a> {
    Frame(&'a str, &'a Frame),
    Refused(&'a str, &'a Refused),
}

impl<'a> Line<'a> {
    pub fn of(outcome: &'a Outcome, name: &'a str) -> Option<Line<'a>> {
        match outcome {
            Outcome::Decoded(frame) => Some(Line::Frame(name, frame)),
            Outcome::Refused(refused) => Some(Line::Refused(name, refused)),
            Outcome::Unreadable(_) => None,
        }
    }

    fn name(&self) -> &str {
        match self {
            Line::Frame(name, _) | Line::Refused(name, _) => name,
        }
    }
}

/// Where a map's cells are. Sizes are whole pixels, so that cells meet without a seam.
pub struct Map<'a> {
    pub group: &'a Group<'a>,
    lines: &'a [Line<'a>],
    pub x: usize,
    /// Width and height.
    pub cell: (usize, usize),
}

impl<'a> Map<'a> {
    pub fn new(group: &'a Group<'a>, lines: &'a [Line<'a>], x: usize) -> Map<'a> {
        let cell = ((960 / group.bits()).clamp(2, 24), (640 / lines.len()).clamp(1, 14));
        Map { group, lines, x, cell }
    }

    pub fn size(&self) -> (usize, usize) {
        (self.group.bits() * self.cell.0, self.lines.len() * self.cell.1)
    }

    /// The runs of marked positions: the first, and the one after the last.
    pub fn marked_runs(&self) -> Vec<(usize, usize)> {
        let mut runs: Vec<(usize, usize)> = Vec::new();
        for at in self.group.marked() {
            match runs.last_mut() {
                Some((_, end)) if *end == at => *end += 1,
                _ => runs.push((at, at + 1)),
            }
        }
        runs
    }

    pub fn draw(&self, page: &mut Page, class: &str, title: &str, value: impl Fn(&Frame, usize) -> Option<f64>) {
        page.text(self.x, page.y + 11, Anchor::Start, "", title);
        page.y += LINE + 6;
        let (width, height) = self.size();
        let (x, y) = (self.x, page.y);
        page.reach(x + width);
        self.cells(page, class, value);
        self.grid(page);
        page.add(&format!("<rect class=\"o\" x=\"{x}\" y=\"{y}\" width=\"{width}\" height=\"{height}\"/>"));
        self.refused_lines(page);
        for (start, end) in self.marked_runs() {
            let (left, wide) = (x + start * self.cell.0 - 1, (end - start) * self.cell.0 + 2);
            page.add(&format!("<rect class=\"k\" x=\"{left}\" y=\"{}\" width=\"{wide}\" height=\"{}\"/>", y - 1, height + 2));
        }
        self.labels(page);
        page.y += height;
        self.axis(page);
    }

    // In units of a cell. Neighbours of one colour are one piece.
    fn cells(&self, page: &mut Page, class: &str, value: impl Fn(&Frame, usize) -> Option<f64>) {
        let ((w, h), (x, y)) = (self.cell, (self.x, page.y));
        page.add(&format!("<g class=\"map {class}\" transform=\"translate({x} {y}) scale({w} {h})\" shape-rendering=\"crispEdges\">"));
        for (i, line) in self.lines.iter().enumerate() {
            let Line::Frame(_, frame) = line else { continue };
            let colours: Vec<usize> = (0..self.group.bits()).map(|at| colour::of(value(frame, at))).collect();
            let mut paths = vec![String::new(); colour::COLOURS];
            let mut start = 0;
            for run in colours.chunk_by(|a, b| a == b) {
                let long = run.len();
                let _ = write!(paths[run[0]], "M{start} {i}h{long}v1h-{long}z");
                start += long;
            }
            for (number, path) in paths.iter().enumerate().filter(|(_, path)| !path.is_empty()) {
                page.add(&format!("<path class=\"c{number}\" d=\"{path}\"/>"));
            }
        }
        page.add("</g>");
    }

    // Thin lines between cells that are large enough for them.
    fn grid(&self, page: &mut Page) {
        let ((w, h), (width, height)) = (self.cell, self.size());
        if w < 6 || h < 6 {
            return;
        }
        let (x, y) = (self.x, page.y);
        let down = (1..self.group.bits()).map(|at| format!("M{} {y}v{height}", x + at * w));
        let across = (1..self.lines.len()).map(|i| format!("M{x} {}h{width}", y + i * h));
        page.add(&format!("<path class=\"n\" d=\"{}\"/>", down.chain(across).collect::<String>()));
    }

    // A name beside every line, or as many as there is room for.
    fn labels(&self, page: &mut Page) {
        let h = self.cell.1;
        for (i, line) in self.lines.iter().enumerate().step_by(10usize.div_ceil(h)) {
            page.text(self.x - 6, page.y + i * h + h / 2 + 4, Anchor::End, "s", line.name());
        }
    }

    // Grey lines, each with its number and line to the right. Where there is no room, a text says how many more it stands for.
    fn refused_lines(&self, page: &mut Page) {
        let (w, h) = (self.size().0, self.cell.1);
        let mut texts: Vec<(usize, String, usize)> = Vec::new();
        for (i, line) in self.lines.iter().enumerate() {
            let Line::Refused(name, refused) = line else { continue };
            let (y, said) = (page.y + i * h, said(refused));
            let title = escaped(&format!("{name}: {said}"));
            page.add(&format!("<rect class=\"g\" x=\"{}\" y=\"{y}\" width=\"{w}\" height=\"{h}\"><title>{title}</title></rect>", self.x));
            match texts.last_mut() {
                Some((above, _, more)) if y - *above < LINE => *more += 1,
                _ => texts.push((y, said, 0)),
            }
        }
        for (y, said, more) in texts {
            let more = if more > 0 { format!(", and {more} more") } else { String::new() };
            page.text(self.x + w + 6, y + h / 2 + 4, Anchor::Start, "s", &(said + &more));
        }
    }

    /// The middle of a position's cells.
    pub fn middle(&self, at: usize) -> usize {
        self.x + at * self.cell.0 + self.cell.0 / 2
    }

    fn axis(&self, page: &mut Page) {
        let bits = self.group.bits();
        let mut step = 1;
        let room = CHARACTER * (bits.to_string().len() + 1);
        while step * self.cell.0 < room {
            step *= 2;
        }
        let last_step = (bits - 1) / step * step;
        let last = (bits - 1 - last_step) * self.cell.0 >= room;
        let ticks: Vec<usize> = (0..bits).step_by(step).chain(last.then_some(bits - 1)).collect();
        let marks: String = ticks.iter().map(|&at| format!("M{} {}v4", self.middle(at), page.y)).collect();
        page.add(&format!("<path class=\"o\" d=\"{marks}\"/>"));
        for at in ticks {
            page.text(self.middle(at), page.y + 15, Anchor::Middle, "s", &at.to_string());
        }
        page.text(self.x - 6, page.y + 15, Anchor::End, "s", "row");
        page.y += 32;
    }
}

fn said(refused: &Refused) -> String {
    format!("refused {}, line {}", refused.number, refused.line)
}

/// A refused sheet in a list of its own.
pub fn refused_line(page: &mut Page, name: &str, refused: &Refused) {
    let x = page.left();
    page.text(x - 6, page.y + 10, Anchor::End, "s", name);
    page.add(&format!("<rect class=\"g\" x=\"{x}\" y=\"{}\" width=\"240\" height=\"10\"/>", page.y + 1));
    page.text(x + 246, page.y + 10, Anchor::Start, "s", &said(refused));
    page.y += LINE + 2;
}

//! The table: a line for each position, the marked ones first.
use crate::args::Args;
use crate::group::{Group, Position};
use crate::report::{decoded, refused, shown, Examined};
use std::io::{self, Write};

/// So many rows are printed after the marked ones.
const MORE: usize = 5;
/// A line of text: a longer strip is left out.
const WIDTH: usize = 100;

const NOTE: &str = "heard: 1 is as loud as the rest of the sheet, 0 silent, below 0 turned over.
A small margin alone is no sign of a weak feeder. docs/SHAFT.md says what each column is.";

pub fn write(examined: &[Examined], groups: &[Group], args: &Args, out: &mut dyn Write) -> io::Result<()> {
    writeln!(out, "{}", counted(examined))?;
    for (i, group) in groups.iter().enumerate() {
        let first = shown(&examined[group.places[0]].name);
        writeln!(out, "\n{}, the first {first}", titled(group, i, groups.len()))?;
        writeln!(out, "{} ({})", marked_rows(&group.marked()), rule(group, args.below))?;
        write_group(group, args, out)?;
    }
    if !groups.is_empty() {
        writeln!(out, "\n{NOTE}")?;
    }
    Ok(())
}

fn number_of(n: usize, thing: &str) -> String {
    format!("{n} {thing}{}", if n == 1 { "" } else { "s" })
}

/// How many sheets there are.
pub fn counted(examined: &[Examined]) -> String {
    let (decoded, refused) = (decoded(examined).count(), refused(examined).count());
    format!("{}: {decoded} decoded, {refused} refused", number_of(decoded + refused, "sheet"))
}

/// What a group is, with its number if there are several.
pub fn titled(group: &Group, at: usize, groups: usize) -> String {
    let of = if groups > 1 { format!("Pattern {} of {groups}: ", at + 1) } else { String::new() };
    format!("{of}K = {}, {}", group.bits(), number_of(group.frames.len(), "frame"))
}

// When a row of the group is marked, in words.
fn rule(group: &Group, limit: f64) -> String {
    match group.needed {
        None if group.positions.iter().all(|p| p.heard == 0) => "and none can be: nothing was heard of any".to_string(),
        None => format!("and none can be: the rows are heard below {limit} in half of their frames or more"),
        Some(more) if more > group.frames.len() => format!("and none can be with fewer than {more} frames"),
        Some(more) => format!("heard below {limit} in at least {more} frames more than not"),
    }
}

/// Which rows are marked, in words. A long list is cut after a number of rows, and says how many are left.
pub fn marked_rows(marked: &[usize]) -> String {
    const NAMED: usize = 12;
    let named: Vec<String> = marked.iter().take(NAMED).map(usize::to_string).collect();
    match marked.len() {
        0 => "no row is marked".to_string(),
        1 => format!("marked: row {}", named[0]),
        n if n <= NAMED => format!("marked: rows {}", named.join(" ")),
        n => format!("marked: rows {} and {} more", named.join(" "), n - NAMED),
    }
}

fn write_group(group: &Group, args: &Args, out: &mut dyn Write) -> io::Result<()> {
    let below = format!("below {}", args.below);
    let headings = ["row", "heard", &below, "margin/sound", "least margin", "median margin", "lowest tenth", ""].map(str::to_string);
    let ranked = group.ranked();
    let printed = if args.all { ranked.len() } else { (group.marked().len() + MORE).min(ranked.len()) };
    let rows: Vec<[String; 8]> = ranked[..printed].iter().map(|p| fields(p, group.frames.len())).collect();
    let width = |column: usize| rows.iter().chain([&headings]).map(|row| row[column].len()).max().unwrap_or(0);
    let widths: [usize; 8] = std::array::from_fn(width);
    writeln!(out)?;
    for row in [&headings].into_iter().chain(&rows) {
        let line: Vec<String> = row.iter().zip(widths).map(|(text, width)| format!("{text:>width$}")).collect();
        writeln!(out, "{}", line.join("  ").trim_end())?;
    }
    if printed < ranked.len() {
        writeln!(out, "{} more rows; --all prints them", ranked.len() - printed)?;
    }
    write_strip(group, out)
}

fn fields(p: &Position, frames: usize) -> [String; 8] {
    // A small number below 0 is printed without its sign.
    let ratio = |x: Option<f64>| x.map_or("-".to_string(), |x| format!("{x:.2}").replace("-0.00", "0.00"));
    [
        p.at.to_string(),
        ratio(p.mean_heard),
        format!("{} of {}", p.below, p.heard),
        ratio(p.over_sound),
        p.least.to_string(),
        ((p.twice_median + 1) / 2).to_string(),
        format!("{} of {frames}", p.lowest_tenth),
        if p.is_marked { "marked" } else { "" }.to_string(),
    ]
}

// Mean heard at a glance, a sign a position, where it fits in a line.
fn write_strip(group: &Group, out: &mut dyn Write) -> io::Result<()> {
    let sign = |p: &Position| match p.mean_heard {
        None => ' ',
        Some(heard) if heard < 0.0 => '<',
        Some(heard) if heard >= 0.8 => '.',
        Some(heard) => char::from(b'0' + (heard * 10.0) as u8),
    };
    let strip: String = group.positions.iter().map(sign).collect();
    if !(10..=WIDTH).contains(&strip.len()) {
        return Ok(());
    }
    let ruler: String = (0..strip.len()).step_by(10).map(|at| format!("{at:<10}")).collect();
    writeln!(out, "\nheard in tenths by row; '.' is 0.8 or more, '<' below 0:\n{}\n{}", strip.trim_end(), ruler.trim_end())
}

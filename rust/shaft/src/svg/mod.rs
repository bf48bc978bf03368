//! The picture: frames down, positions across, for each group a map of heard and one of margin beside sound margin.
mod bars;
mod colour;
mod map;
mod page;

use crate::group::Group;
use crate::report::{refused, Examined, Outcome};
use crate::table::{counted, marked_rows, titled};
use map::{Line, Map};
use page::Page;
use std::io::{self, Write};
use std::path::Path;

const HEARD: &str = "heard: sign sent × value received, mean of the row, over the sheet's mean size";
const MARGIN: &str = "margin: its size over that of a sound frame with the same pattern and loudness";
/// A longer name is cut at its start; names of one shaft differ in their ends.
const LONGEST_NAME: usize = 24;

pub fn write(examined: &[Examined], groups: &[Group], limit: f64, out: &mut dyn Write) -> io::Result<()> {
    let names = labels(examined);
    let mut page = Page::new(names.iter().map(|name| name.chars().count()).max().unwrap_or(0));
    page.title(&format!("Shaft, {}", counted(examined)));
    colour::legend(&mut page);
    for (i, group) in groups.iter().enumerate() {
        page.heading(&format!("{}; {}", titled(group, i, groups.len()), marked_rows(&group.marked())));
        // With one group a refused sheet has its place among the frames; with several nobody knows which it belongs to.
        let places = if groups.len() == 1 { (0..examined.len()).collect() } else { group.places.clone() };
        let lines: Vec<Line> = places.iter().filter_map(|&place| Line::of(&examined[place].outcome, &names[place])).collect();
        let map = Map::new(group, &lines, page.left());
        bars::draw(&mut page, &map, limit);
        map.draw(&mut page, "heard", HEARD, |frame, at| frame.heard[at]);
        map.draw(&mut page, "margin", MARGIN, |frame, at| frame.over_sound(at));
    }
    if groups.len() != 1 && refused(examined).next().is_some() {
        refused_list(&mut page, examined, &names);
    }
    out.write_all(page.finished(&colour::style()).as_bytes())
}

fn refused_list(page: &mut Page, examined: &[Examined], names: &[String]) {
    page.heading("Refused");
    for (place, _, refused) in refused(examined) {
        map::refused_line(page, &names[place], refused);
    }
}

// The names beside the lines: without the folder if there is only one, and not too long.
fn labels(examined: &[Examined]) -> Vec<String> {
    let sheets = || examined.iter().filter(|e| !matches!(e.outcome, Outcome::Unreadable(_)));
    let folder = |e: &Examined| Path::new(&e.name).parent().map(Path::to_path_buf);
    let first = sheets().next().map(folder);
    let is_one = sheets().all(|e| Some(folder(e)) == first);
    let label = |e: &Examined| {
        let name = match Path::new(&e.name).file_name() {
            Some(file) if is_one => file.to_string_lossy().into_owned(),
            _ => e.name.clone(),
        };
        let long = name.chars().count();
        if long > LONGEST_NAME {
            "…".to_string() + &name.chars().skip(long + 1 - LONGEST_NAME).collect::<String>()
        } else {
            name
        }
    };
    examined.iter().map(label).collect()
}

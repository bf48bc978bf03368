//! Bars of mean heard by position, above the maps.
use super::map::Map;
use super::page::{Anchor, Page, CHARACTER, LINE};
use std::fmt::Write;

const BARS_HIGH: f64 = 56.0;
const BARS_TOP: f64 = 1.25;

/// Mean heard by position, with the limit as a line. The marked rows have their numbers above, as many as there is room for.
pub fn draw(page: &mut Page, map: &Map, limit: f64) {
    let positions = &map.group.positions;
    let bottom = if positions.iter().any(|p| p.mean_heard.is_some_and(|h| h < 0.0)) { -1.0 } else { 0.0 };
    marked_numbers(page, map);
    let top = page.y;
    // How far below the top a value is.
    let down = |value: f64| ((BARS_TOP - value.clamp(bottom, BARS_TOP)) / (BARS_TOP - bottom) * BARS_HIGH + 0.5) as usize;
    let mut paths = [String::new(), String::new(), String::new()];
    let (wide, high) = (map.cell.0, BARS_HIGH as usize);
    for p in positions {
        let Some(heard) = p.mean_heard else { continue };
        let (x, from, to) = (map.x + p.at * wide, top + down(heard.max(0.0)), top + down(heard.min(0.0)));
        let _ = write!(paths[1 + usize::from(p.is_marked)], "M{x} {from}h{wide}V{to}h-{wide}z");
        if p.is_marked {
            let _ = write!(paths[0], "M{x} {top}h{wide}v{high}h-{wide}z");
        }
    }
    let width = map.size().0;
    for (class, path) in ["y", "b", "x"].iter().zip(&paths).filter(|(_, path)| !path.is_empty()) {
        page.add(&format!("<path class=\"{class}\" d=\"{path}\" shape-rendering=\"crispEdges\"/>"));
    }
    for level in [-1.0, 0.0, 1.0].into_iter().filter(|&level| level >= bottom) {
        page.add(&format!("<path class=\"o\" d=\"M{} {}h{width}\"/>", map.x, top + down(level)));
        page.text(map.x - 6, top + down(level) + 4, Anchor::End, "s", &level.to_string());
    }
    page.text(map.x - 26, top + down(0.5) + 4, Anchor::End, "s", "mean heard");
    if (bottom..=BARS_TOP).contains(&limit) {
        page.add(&format!("<path class=\"d\" d=\"M{} {}h{width}\"/>", map.x, top + down(limit)));
        page.text(map.x + width + 6, top + down(limit) + 4, Anchor::Start, "s", &format!("below {limit}"));
    }
    page.y = top + BARS_HIGH as usize + 10;
}

fn marked_numbers(page: &mut Page, map: &Map) {
    let mut free = 0;
    for (start, end) in map.marked_runs() {
        let text = if end == start + 1 { start.to_string() } else { format!("{start}-{}", end - 1) };
        let middle = (map.middle(start) + map.middle(end - 1)) / 2;
        let half = CHARACTER * text.len() / 2 + 4;
        if middle >= free + half {
            page.text(middle, page.y + 10, Anchor::Middle, "w", &text);
            free = middle + half;
        }
    }
    page.y += LINE + 4;
}

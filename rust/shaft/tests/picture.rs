//! The picture: well-formed, with every cell, every grey line and every mark.
mod common;

use common::{csv, Folder};

// An element's name and attributes, as they open.
#[derive(Debug)]
struct Element {
    name: String,
    attributes: Vec<(String, String)>,
    /// The elements that it stands in, the outermost first, by their class.
    within: Vec<String>,
}

impl Element {
    fn get(&self, name: &str) -> &str {
        self.attributes.iter().find(|(key, _)| key == name).map_or("", |(_, value)| value)
    }
}

fn is_name(text: &str) -> bool {
    !text.is_empty() && text.chars().all(|c| c.is_ascii_alphanumeric() || c == '-' || c == ':')
}

// Text with every & as a known reference, and no < in it.
fn is_text(text: &str) -> bool {
    let references = ["amp;", "lt;", "gt;", "quot;"];
    !text.contains('<')
        && text.chars().all(|c| !c.is_control() || c == '\n')
        && text.split('&').skip(1).all(|rest| references.iter().any(|r| rest.starts_with(r)))
}

fn attributes(mut text: &str) -> Vec<(String, String)> {
    let mut found: Vec<(String, String)> = Vec::new();
    while !text.is_empty() {
        let (name, rest) = text.strip_prefix(' ').expect("a space before an attribute").split_once("=\"").expect("an attribute has a value");
        let (value, rest) = rest.split_once('"').expect("a value ends");
        assert!(is_name(name) && is_text(value) && found.iter().all(|(other, _)| other != name), "{name}=\"{value}\"");
        found.push((name.to_string(), value.to_string()));
        text = rest;
    }
    found
}

// The elements of a well-formed document with one root, in their order; fails on any other. What stands between tags is text.
fn elements(document: &str) -> Vec<Element> {
    let (mut found, mut open): (Vec<Element>, Vec<(String, String)>) = (Vec::new(), Vec::new());
    let mut rest = document;
    while let Some((before, tagged)) = rest.split_once('<') {
        assert!(is_text(before) && (!open.is_empty() || before.trim().is_empty()), "{before}");
        let (tag, after) = tagged.split_once('>').expect("a tag ends");
        rest = after;
        if let Some(name) = tag.strip_prefix('/') {
            assert_eq!(open.pop().map(|(name, _)| name).as_deref(), Some(name));
            continue;
        }
        assert!(!open.is_empty() || found.is_empty(), "a second root");
        let (tag, is_closed) = tag.strip_suffix('/').map_or((tag, false), |tag| (tag, true));
        let (name, list) = tag.split_at(tag.find(' ').unwrap_or(tag.len()));
        assert!(is_name(name), "{name}");
        let element = Element { name: name.to_string(), attributes: attributes(list), within: open.iter().map(|(_, class)| class.clone()).collect() };
        if !is_closed {
            open.push((name.to_string(), element.get("class").to_string()));
        }
        found.push(element);
    }
    assert!(open.is_empty() && rest.trim().is_empty(), "{open:?} {rest}");
    found
}

// The cells of a path of pieces M x y h n v1 h-n z: for each its line and its first and last position.
fn pieces(path: &str) -> Vec<(usize, usize, usize)> {
    let piece = |piece: &str| {
        let (x, rest) = piece.split_once(' ').unwrap();
        let (y, rest) = rest.split_once('h').unwrap();
        let (n, rest) = rest.split_once("v1h-").unwrap();
        assert_eq!(rest, format!("{n}z"));
        let (x, n): (usize, usize) = (x.parse().unwrap(), n.parse().unwrap());
        (y.parse().unwrap(), x, x + n - 1)
    };
    path.split('M').skip(1).map(piece).collect()
}

// The colours of a map's cells by line and position. No cell is painted twice.
fn cells(elements: &[Element], map: &str, number: usize) -> Vec<Vec<Option<usize>>> {
    let maps: Vec<usize> = elements.iter().enumerate().filter(|(_, e)| e.get("class") == format!("map {map}")).map(|(i, _)| i).collect();
    let inside = elements[maps[number] + 1..].iter().take_while(|e| e.within.last().is_some_and(|class| class == &format!("map {map}")));
    let mut grid: Vec<Vec<Option<usize>>> = Vec::new();
    for path in inside {
        let colour = path.get("class").strip_prefix('c').unwrap().parse().unwrap();
        for (line, first, last) in pieces(path.get("d")) {
            grid.resize(grid.len().max(line + 1), Vec::new());
            let row = &mut grid[line];
            row.resize(row.len().max(last + 1), None);
            for cell in &mut row[first..=last] {
                assert_eq!(cell.replace(colour), None, "a cell is painted twice");
            }
        }
    }
    grid
}

fn picture(folder: &Folder, args: &str) -> Vec<Element> {
    folder.run(&format!("--svg picture.svg {args}"));
    elements(&folder.read("picture.svg"))
}

fn count(elements: &[Element], class: &str) -> usize {
    // The legend has one of each.
    elements.iter().filter(|e| e.name == "rect" && e.get("class") == class).count() - 1
}

fn painted(grid: &[Vec<Option<usize>>]) -> usize {
    grid.iter().flatten().filter(|cell| cell.is_some()).count()
}

#[test]
fn every_cell_of_twenty_sheets() {
    let folder = Folder::with_sheets("");
    let elements = picture(&folder, "sheets");
    for map in ["heard", "margin"] {
        let grid = cells(&elements, map, 0);
        // Line 11, counted from 0, is that of the refused sheet.
        assert_eq!((grid.len(), grid[11].len()), (20, 0));
        assert!(grid.iter().enumerate().all(|(i, line)| i == 11 || line.len() == 64));
        assert_eq!(painted(&grid), 19 * 64);
    }
    // The grey line and the frame around row 37 are in both maps.
    assert_eq!((count(&elements, "g"), count(&elements, "k")), (2, 2));
    let text = folder.read("picture.svg");
    assert!(text.contains(">Shaft, 20 sheets: 19 decoded, 1 refused</text>") && text.contains(">K = 64, 19 frames; marked: row 37</text>"));
    assert_eq!(text.matches(">refused 1, line 1</text>").count(), 2);
    assert_eq!(text.matches("<title>frame-12.txt: refused 1, line 1</title>").count(), 2);
    let frames = elements.iter().filter(|e| e.get("class") == "k").map(|e| e.get("x").parse::<usize>().unwrap());
    let map = elements.iter().find(|e| e.get("class") == "map heard").unwrap().get("transform").to_string();
    let left: usize = map.strip_prefix("translate(").unwrap().split(' ').next().unwrap().parse().unwrap();
    assert!(map.ends_with("scale(15 14)"));
    assert_eq!(frames.skip(1).collect::<Vec<_>>(), [left + 37 * 15 - 1; 2]);
}

// The number of a value's colour: below -0.5, below 0, ten tenths, 1 or more, none.
fn colour(value: Option<f64>) -> usize {
    match value {
        None => 13,
        Some(v) if v < -0.5 => 0,
        Some(v) if v < 0.0 => 1,
        Some(v) => 2 + (0..10).filter(|&tenth| v >= f64::from(tenth + 1) / 10.0).count(),
    }
}

#[test]
fn every_colour_is_that_of_its_value() {
    let folder = Folder::with_sheets("--gain -70 --masks 7,0,5");
    let elements = picture(&folder, "sheets");
    let rows = csv(&folder.run("--csv - sheets").out);
    let (heard, margin) = (cells(&elements, "heard", 0), cells(&elements, "margin", 0));
    let lines: Vec<usize> = (0..20).filter(|&line| line != 11).collect();
    for (i, row) in rows[1..].iter().enumerate() {
        let (line, at) = (lines[i / 64], i % 64);
        let number = |field: &str| field.parse::<f64>().ok();
        assert_eq!(heard[line][at], Some(colour(number(&row[6]))), "{row:?}");
        let ratio = number(&row[3]).unwrap() / number(&row[5]).unwrap();
        assert_eq!(margin[line][at], Some(colour(ratio.is_finite().then_some(ratio))), "{row:?}");
    }
}

#[test]
fn large_and_small() {
    for (bits, frames) in [(512, 200), (1, 1), (2, 700)] {
        let folder = Folder::with_sheets(&format!("--bits {bits} --frames {frames}"));
        let elements = picture(&folder, "sheets");
        let refused = usize::from(frames >= 12);
        assert_eq!(painted(&cells(&elements, "heard", 0)), bits * (frames - refused));
        assert_eq!(painted(&cells(&elements, "margin", 0)), bits * (frames - refused));
        assert_eq!(count(&elements, "g"), 2 * refused);
    }
}

#[test]
fn two_groups_are_kept_apart() {
    let folder = Folder::with_sheets("--seed 3");
    folder.make_sheets("others", "--seed 4 --frames 13 --weak 5");
    folder.make_sheets("short", "--seed 3 --frames 5 --bits 7 --gain 100");
    let said = folder.run("sheets others short");
    let titles: Vec<&str> =
        said.out.lines().filter(|line| line.starts_with("Pattern") || line.contains("marked:") || line.starts_with("no row")).collect();
    let rule = "(heard below 0.5 in at least 4 frames more than not)";
    assert_eq!(
        titles,
        [
            "Pattern 1 of 3: K = 64, 19 frames, the first sheets/frame-1.txt",
            &format!("marked: row 37 {rule}"),
            "Pattern 2 of 3: K = 64, 12 frames, the first others/frame-1.txt",
            &format!("marked: row 5 {rule}"),
            "Pattern 3 of 3: K = 7, 5 frames, the first short/frame-1.txt",
            &format!("no row is marked {rule}"),
        ]
    );
    let elements = picture(&folder, "sheets others short");
    for (number, cells_of) in [19 * 64, 12 * 64, 5 * 7].into_iter().enumerate() {
        assert_eq!(painted(&cells(&elements, "heard", number)), cells_of);
        assert_eq!(painted(&cells(&elements, "margin", number)), cells_of);
    }
    // The refused sheets are in a list of their own, once each.
    assert_eq!((count(&elements, "g"), count(&elements, "k")), (2, 4));
    assert_eq!(folder.read("picture.svg").matches(">refused 1, line 1</text>").count(), 2);
}

#[test]
fn neighbours_that_are_marked_have_one_frame() {
    let folder = Folder::with_sheets("--frames 8 --gain 100");
    for n in 1..=8 {
        let name = format!("sheets/frame-{n}.txt");
        let silent = |(at, line): (usize, &str)| match line.split(' ').collect::<Vec<_>>()[..] {
            [row, to, ..] if [10, 11, 40].contains(&(at as i32 - 1)) => format!("{row} {to} 0 0 0 -\n"),
            _ => format!("{line}\n"),
        };
        let text: String = folder.read(&name).lines().enumerate().map(silent).collect();
        folder.write(&name, text);
    }
    assert!(folder.run("sheets").out.contains("\nmarked: rows 10 11 40 ("));
    let elements = picture(&folder, "sheets");
    let frames: Vec<&Element> = elements.iter().filter(|e| e.name == "rect" && e.get("class") == "k").skip(1).collect();
    let number = |element: &Element, name: &str| element.get(name).parse::<usize>().unwrap();
    assert_eq!(frames.iter().map(|e| number(e, "width")).collect::<Vec<_>>(), [2 * 15 + 2, 15 + 2, 2 * 15 + 2, 15 + 2]);
    assert_eq!(number(frames[1], "x") - number(frames[0], "x"), 30 * 15);
    let text = folder.read("picture.svg");
    assert!(text.contains(">10-11</text>") && text.contains("class=\"w m\">40</text>"));
}

#[test]
fn sheets_of_one_pattern_with_other_masks_are_one_group() {
    let folder = Folder::with_sheets("--frames 6");
    let text = folder.read("sheets/frame-1.txt");
    let line = text.lines().nth(4).unwrap();
    let fields: Vec<&str> = line.split(' ').collect();
    let unsent = format!("{} {} - - - -", fields[0], fields[1]);
    folder.write("sheets/frame-1.txt", text.replace(line, &unsent));
    let said = folder.run("--all sheets");
    assert!(said.out.contains("\nK = 64, 6 frames"));
    let row = said.out.lines().find(|line| line.trim_start().starts_with("3 ")).unwrap();
    assert!(row.contains(" 0 of 5 "), "{row}");
}

#[test]
fn names_with_every_kind_of_sign() {
    let folder = Folder::with_sheets("--frames 1");
    let sheet = folder.read("sheets/frame-1.txt");
    let good = "a & b, \"c\" <d> 'e'.txt";
    let bad = "b & \"c\" <d>\u{1b}.txt";
    folder.write(&format!("sheets/{good}"), &sheet);
    folder.write(&format!("sheets/{bad}"), "");
    folder.write("sheets/c\nd.txt", &sheet);
    let elements = picture(&folder, "sheets");
    assert_eq!(count(&elements, "g"), 2);
    let text = folder.read("picture.svg");
    assert!(text.contains(">a &amp; b, &quot;c&quot; &lt;d&gt; 'e'.txt</text>"));
    assert!(text.contains("<title>b &amp; &quot;c&quot; &lt;d&gt;\u{fffd}.txt: refused 1, line 0</title>"));
    assert!(text.contains(">c\u{fffd}d.txt</text>"));
    let said = folder.run("--csv - sheets");
    assert_eq!(csv(&said.out)[1][0], format!("sheets/{good}"));
    assert_eq!(csv(&said.out)[65][0], "sheets/c\nd.txt");
    assert!(said.out.contains("\"sheets/a & b, \"\"c\"\" <d> 'e'.txt\",0,"));
    assert!(said.err.starts_with(&format!("shaft: sheets/{}: refused, number 1, line 0", bad.replace('\u{1b}', "\u{fffd}"))), "{}", said.err);
}

//! Every figure: the CSV beside the library's own answers and beside sums made here, and what the sound frame rests on.
mod common;

use common::{csv, Folder};
use shaft::frame::Frame;
use shaft::model::{Draw, Model, Shaft};
use shaft::report::{self, Outcome};
use shaft::sheet::{Answer, Sheet};
use shaft::sound::{self, Level, SoundFrames};
use shaft::sources;
use std::collections::HashMap;

// The house coder by its equations: the parities of the inputs, without the tail.
fn parities(inputs: impl Iterator<Item = u8>) -> Vec<u8> {
    let (mut s0, mut s1) = (0, 0);
    let step = |x: u8| {
        let parity = x ^ s0;
        (s0, s1) = (x ^ s0 ^ s1, s0);
        parity
    };
    inputs.map(step).collect()
}

// The message rows of a sheet as fields, and all values of the sheet.
fn fields(text: &str) -> (Vec<Vec<&str>>, Vec<f64>) {
    let rows: Vec<Vec<&str>> = text.lines().skip(1).map(|line| line.split(' ').collect()).collect();
    let values = rows.iter().flat_map(|row| &row[2..]).filter_map(|field| field.parse().ok()).collect();
    (rows[..rows.len() - 2].to_vec(), values)
}

// Heard, from the sheet's text and the bits decided.
fn heard(text: &str, bits: &[u8]) -> Vec<Option<f64>> {
    let (rows, values) = fields(text);
    let mean = values.iter().map(|v: &f64| v.abs()).sum::<f64>() / values.len() as f64;
    let first = parities(bits.iter().copied());
    let second = parities(rows.iter().map(|row| bits[row[1].parse::<usize>().unwrap()]));
    let of_row = |at: usize| {
        let sent = [bits[at], first[at], second[at]];
        let signed: Vec<f64> = (0..3).filter_map(|i| rows[at][2 + i].parse::<f64>().ok().map(|v| if sent[i] == 1 { v } else { -v })).collect();
        (!signed.is_empty()).then(|| signed.iter().sum::<f64>() / signed.len() as f64 / mean)
    };
    (0..rows.len()).map(of_row).collect()
}

// The margins of the noise-free frame of these bits, each value that was sent at the rounded mean size, as the library answers them.
fn sound_margins(text: &str, bits: &[u8]) -> Vec<i32> {
    let (rows, values) = fields(text);
    let size = (values.iter().map(|v| v.abs()).sum::<f64>() / values.len() as f64 + 0.5).floor().max(1.0) as i32;
    let pattern: Vec<u32> = rows.iter().map(|row| row[1].parse().unwrap()).collect();
    let ends = (turbo::End::Zero, turbo::End::Zero);
    let frame = turbo::Frame { table: turbo::Table::house(), ends, tail: 2, pattern, masks: vec![7] };
    let sent: Vec<i32> = turbo::encode(&frame, bits).unwrap().iter().map(|&bit| if bit == 1 { size } else { -size }).collect();
    let mut sheet = "at to sys par par2 sys2\n".to_string();
    for (at, row) in rows.iter().enumerate() {
        let value = |i: usize| if row[2 + i] == "-" { "-".to_string() } else { sent[3 * at + i].to_string() };
        sheet += &format!("{at} {} {} {} {} -\n", row[1], value(0), value(1), value(2));
    }
    let k = rows.len();
    let tails = &sent[3 * k..];
    sheet += &format!("{k} - {} {} {} {}\n{} - {} {} {} {}\n", tails[0], tails[1], tails[5], tails[4], k + 1, tails[2], tails[3], tails[7], tails[6]);
    let answer = String::from_utf8(turbo::sheet(sheet.as_bytes())).unwrap();
    assert!(answer.starts_with("at bit"), "{answer}");
    answer.lines().skip(1).map(|line| line.split(' ').nth(2).unwrap().parse().unwrap()).collect()
}

// The rows of a sheet in the CSV are those of its answer, with the sums made here.
fn compare(text: &str, rows: &[Vec<String>]) {
    let answer = String::from_utf8(turbo::sheet(text.as_bytes())).unwrap();
    let answer: Vec<&str> = answer.lines().skip(1).collect();
    assert_eq!(rows.len(), answer.len());
    let bits: Vec<u8> = rows.iter().map(|row| row[2].parse().unwrap()).collect();
    let (heard, sound) = (heard(text, &bits), sound_margins(text, &bits));
    for (at, row) in rows.iter().enumerate() {
        assert_eq!(row[1..5].join(" "), answer[at]);
        assert_eq!(row[5], sound[at].to_string());
        match heard[at] {
            None => assert_eq!(row[6], ""),
            Some(heard) => assert!((row[6].parse::<f64>().unwrap() - heard).abs() < 1e-12, "{} {heard}", row[6]),
        }
    }
}

#[test]
fn every_number_of_the_csv() {
    for options in ["", "--masks 6,5,0,3 --gain -40 --noise 50", "--bits 512 --frames 3 --noise 70", "--bits 1 --frames 5"] {
        let folder = Folder::with_sheets(options);
        let table = csv(&folder.run("--csv - sheets").out);
        assert_eq!(table[0].join(","), "sheet,row,bit,margin,extrinsic,sound_margin,heard");
        let mut sheets: HashMap<&str, Vec<Vec<String>>> = HashMap::new();
        for row in &table[1..] {
            sheets.entry(&row[0]).or_default().push(row.clone());
        }
        let count = std::fs::read_dir(folder.path("sheets")).unwrap().count();
        // The sheet with CR LF has no rows.
        assert_eq!(sheets.len(), if count >= 12 { count - 1 } else { count });
        for (name, rows) in sheets {
            compare(&folder.read(name), &rows);
        }
    }
}

#[test]
fn the_table_beside_the_csv() {
    let folder = Folder::with_sheets("--noise 60");
    let rows = csv(&folder.run("--csv - sheets").out);
    let table = folder.run("--all --below 0.6 sheets").out;
    let lines: Vec<&str> = table.lines().skip_while(|line| !line.starts_with("row ")).skip(1).take(64).collect();
    let line = |at: usize| lines.iter().find(|line| line.split_whitespace().next() == Some(&at.to_string())).unwrap().to_string();
    for at in 0..64 {
        let of: Vec<&Vec<String>> = rows[1..].iter().filter(|row| row[1] == at.to_string()).collect();
        let number = |field: &str| field.parse::<f64>().unwrap();
        let median = |mut list: Vec<f64>| {
            list.sort_by(f64::total_cmp);
            list[list.len() / 2]
        };
        let heard: Vec<f64> = of.iter().map(|row| number(&row[6])).collect();
        let sizes: Vec<f64> = of.iter().map(|row| number(&row[3]).abs()).collect();
        let ratio = median(of.iter().map(|row| number(&row[3]) / number(&row[5])).collect());
        let least = sizes.iter().copied().fold(f64::INFINITY, f64::min);
        let lowest = of.iter().filter(|row| {
            let smaller = |other: &&Vec<String>| other[0] == row[0] && number(&other[3]).abs() < number(&row[3]).abs();
            rows[1..].iter().filter(smaller).count() < 7
        });
        let below = heard.iter().filter(|&&h| h < 0.6).count();
        let mean = heard.iter().sum::<f64>() / 19.0;
        let wanted = format!("{at} {mean:.2} {below} of 19 {ratio:.2} {least} {} {} of 19", median(sizes), lowest.count());
        let line: Vec<String> = line(at).split_whitespace().filter(|&word| word != "marked").map(str::to_string).collect();
        assert_eq!(line.join(" "), wanted);
    }
}

#[test]
fn the_sound_margin_does_not_depend_on_the_message() {
    let mut draw = Draw::new(5);
    for (bits, masks) in [(1, vec![7]), (2, vec![6, 5]), (17, vec![7]), (64, vec![7, 0, 3]), (64, vec![4, 3]), (200, vec![6, 5])] {
        let noiseless = Model { bits, masks, weak: 0, gain: 100, noise: 0 };
        let mut shaft = Shaft::new(noiseless, draw.below(1000));
        let sound_frames = SoundFrames::default();
        for _ in 0..8 {
            // The model without noise makes a sound frame of a drawn message, every value at 80.
            let (message, sheet) = shaft.receive();
            let Answer::Decoded { margins, .. } = Answer::to(sheet.text().as_bytes()) else { panic!("refused") };
            let sizes: Vec<i32> = margins.iter().map(|m| m.abs()).collect();
            assert_eq!(sizes[..], *sound_frames.margins(&sheet, Level::of(&sheet)));
            for at in (0..bits).filter(|&at| margins[at] != 0) {
                assert_eq!(margins[at] > 0, message[at] == 1);
            }
        }
    }
}

#[test]
fn sound_frames_differ_by_pattern_masks_and_size() {
    let sheet =
        |to: [u32; 2], row: [Option<i16>; 3], size: i16| Sheet { pattern: to.to_vec(), rows: vec![[Some(size); 3], row], tails: [[size; 4]; 2] };
    let kept = SoundFrames::default();
    let full = sheet([0, 1], [Some(20); 3], 20);
    let first = kept.margins(&full, Level::of(&full));
    for other in [sheet([1, 0], [Some(20); 3], 20), sheet([0, 1], [Some(20), None, None], 20), sheet([0, 1], [Some(30); 3], 30)] {
        let level = Level::of(&other);
        let fresh = SoundFrames::default().margins(&other, level);
        assert_eq!(kept.margins(&other, level), fresh);
        assert_ne!(fresh, first);
    }
}

#[test]
fn the_level_is_rounded_and_at_least_one() {
    let rounded = |total, count| Level { total, count }.rounded();
    assert_eq!([rounded(0, 11), rounded(5, 10), rounded(14, 10), rounded(15, 10), rounded(1023 * 11, 11)], [1, 1, 1, 2, 1023]);
}

#[test]
fn a_sheet_of_zeros_has_no_heard() {
    let text = b"at to sys par par2 sys2\n0 0 0 0 0 -\n1 - 0 0 0 0\n2 - 0 0 0 0\n";
    let frame = Frame::of(text, &SoundFrames::default()).unwrap();
    assert_eq!((frame.heard, frame.margins), (vec![None], vec![0]));
    assert_ne!(frame.sound[0], 0);
}

#[test]
fn a_sheet_is_read_as_it_is_written() {
    let mut shaft = Shaft::new(Model { bits: 9, masks: vec![7, 2], weak: 3, gain: 12, noise: 300 }, 4);
    for _ in 0..20 {
        let sheet = shaft.receive().1;
        assert_eq!(Sheet::of_decoded(sheet.text().as_bytes()), sheet);
        let sound = sound::sheet(&sheet, 7);
        assert_eq!(sound.sent().count(), sheet.sent().count());
        assert!(sound.sent().all(|value| value == -7));
    }
}

#[test]
fn the_number_of_threads_changes_nothing() {
    let folder = Folder::with_sheets("--frames 60 --masks 7,6,5");
    let sources = sources::list(&[folder.path("sheets").into_os_string(), folder.path("nowhere").into_os_string()]);
    let examined = |threads: usize| -> Vec<(String, String)> {
        let said = |outcome: &Outcome| match outcome {
            Outcome::Decoded(frame) => format!("{frame:?}"),
            Outcome::Refused(refused) => format!("{refused:?}"),
            Outcome::Unreadable(why) => why.clone(),
        };
        report::examine(&sources, threads).iter().map(|e| (e.name.clone(), said(&e.outcome))).collect()
    };
    let one = examined(1);
    assert_eq!(one.len(), 61);
    for threads in [2, 3, 8, 100] {
        assert_eq!(examined(threads), one);
    }
}

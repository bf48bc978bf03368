//! Writes the sheets of one seeded shaft into a folder: frame-1.txt, frame-2.txt, ... Frame 12 has lines that end in CR LF, so it is refused.
//!
//!     make_sheets FOLDER [--frames N] [--bits K] [--seed S] [--weak ROW] [--gain PERCENT] [--noise D] [--masks LIST]
//!
//! Sent values have size 80; D is the noise's deviation, and PERCENT what comes through of the weak row (100: a sound shaft). LIST is masks with
//! commas between them, as 6,5: each 4 for sys, 2 for par and 1 for par2, repeated over the rows.
use shaft::model::{weak_row, Model, Shaft};
use std::fs;
use std::path::PathBuf;
use std::process::ExitCode;

const USAGE: &str = "make_sheets FOLDER [--frames N] [--bits K] [--seed S] [--weak ROW] [--gain PERCENT] [--noise D] [--masks LIST]";
// This frame, counted from 1.
const WITH_CR: usize = 12;

struct Asked {
    folder: PathBuf,
    frames: usize,
    seed: u64,
    model: Model,
}

fn number<T: std::str::FromStr>(text: &str) -> Result<T, String> {
    text.parse().map_err(|_| format!("'{text}' is no such number"))
}

fn parse(mut args: impl Iterator<Item = String>) -> Result<Asked, String> {
    let (mut frames, mut seed, mut weak, mut folder) = (20, 1, None, None);
    let mut model = Model { bits: 64, masks: vec![7], weak: 0, gain: 12, noise: 30 };
    while let Some(arg) = args.next() {
        if !arg.starts_with("--") {
            folder = Some(PathBuf::from(arg));
            continue;
        }
        let value = args.next().ok_or_else(|| format!("{arg} has no number"))?;
        match arg.as_str() {
            "--frames" => frames = number(&value)?,
            "--bits" => model.bits = number(&value)?,
            "--seed" => seed = number(&value)?,
            "--weak" => weak = Some(number(&value)?),
            "--gain" => model.gain = number(&value)?,
            "--noise" => model.noise = number(&value)?,
            "--masks" => model.masks = value.split(',').map(number).collect::<Result<_, _>>()?,
            _ => return Err(format!("there is no option {arg}")),
        }
    }
    if !(1..=512).contains(&model.bits) {
        return Err("a sheet has 1 to 512 bits".to_string());
    }
    model.weak = weak.unwrap_or(weak_row(model.bits));
    Ok(Asked { folder: folder.ok_or("no folder is given")?, frames, seed, model })
}

fn write(asked: Asked) -> std::io::Result<()> {
    fs::create_dir_all(&asked.folder)?;
    let mut shaft = Shaft::new(asked.model, asked.seed);
    for at in 1..=asked.frames {
        let text = shaft.receive().1.text();
        let text = if at == WITH_CR { text.replace('\n', "\r\n") } else { text };
        fs::write(asked.folder.join(format!("frame-{at}.txt")), text)?;
    }
    Ok(())
}

fn main() -> ExitCode {
    let result = parse(std::env::args().skip(1)).and_then(|asked| write(asked).map_err(|error| error.to_string()));
    match result {
        Ok(()) => ExitCode::SUCCESS,
        Err(why) => {
            eprintln!("make_sheets: {why}\nusage: {USAGE}");
            ExitCode::from(2)
        }
    }
}

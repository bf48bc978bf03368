//! The command line.
use crate::mark::BELOW;
use std::ffi::{OsStr, OsString};
use std::path::PathBuf;

/// The script `shaft` prints the same file.
pub const USAGE: &str = include_str!("../usage.txt");

/// What the command line asks for.
#[derive(Debug, PartialEq)]
pub struct Args {
    pub below: f64,
    pub all: bool,
    pub csv: Option<PathBuf>,
    pub svg: Option<PathBuf>,
    pub inputs: Vec<OsString>,
}

#[derive(Debug, PartialEq)]
pub enum Asked {
    Run(Args),
    Help,
}

// Takes an option's argument, which may be given once.
fn once<T>(slot: &mut Option<T>, option: &str, given: Option<T>) -> Result<(), String> {
    let given = given.ok_or_else(|| format!("{option} has no argument"))?;
    match slot.replace(given) {
        None => Ok(()),
        Some(_) => Err(format!("{option} is given twice")),
    }
}

fn limit(given: &OsStr) -> Result<f64, String> {
    let number = given.to_str().and_then(|text| text.parse().ok()).filter(|x: &f64| x.is_finite());
    number.ok_or_else(|| format!("--below takes a number, not '{}'", given.to_string_lossy()))
}

/// Reads the arguments after the program's name. Options may stand anywhere before `--`.
pub fn parse(mut given: impl Iterator<Item = OsString>) -> Result<Asked, String> {
    let (mut below, mut csv, mut svg) = (None, None, None);
    let mut all = false;
    let mut inputs = Vec::new();
    while let Some(arg) = given.next() {
        match arg.to_str() {
            Some("--help" | "-h") => return Ok(Asked::Help),
            Some("--all") => all = true,
            Some("--below") => once(&mut below, "--below", given.next())?,
            Some("--csv") => once(&mut csv, "--csv", given.next())?,
            Some("--svg") => once(&mut svg, "--svg", given.next())?,
            Some("--") => inputs.extend(given.by_ref()),
            Some(text) if text.len() > 1 && text.starts_with('-') => return Err(format!("there is no option '{text}'")),
            _ => inputs.push(arg),
        }
    }
    if inputs.is_empty() {
        return Err("no folder and no file is given".to_string());
    }
    if inputs.iter().filter(|input| *input == "-").count() > 1 {
        return Err("standard input is given twice".to_string());
    }
    if csv.is_some() && csv == svg {
        return Err("--csv and --svg are the same file".to_string());
    }
    let below = below.map_or(Ok(BELOW), |text| limit(&text))?;
    Ok(Asked::Run(Args { below, all, csv: csv.map(PathBuf::from), svg: svg.map(PathBuf::from), inputs }))
}

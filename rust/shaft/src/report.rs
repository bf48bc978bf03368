//! A whole run: sheets in, table, CSV and picture out, and the status.
use crate::args::Args;
use crate::frame::{Frame, Refused};
use crate::group::groups;
use crate::output::Target;
use crate::sound::SoundFrames;
use crate::sources::{self, FileId, Source};
use crate::{csv, svg, table, work};
use std::io::{self, Write};

pub enum Outcome {
    Decoded(Frame),
    Refused(Refused),
    Unreadable(String),
}

/// One source and what came of it.
pub struct Examined {
    pub name: String,
    pub id: Option<FileId>,
    pub outcome: Outcome,
}

/// The sources examined, in their order; the result does not depend on the number of threads.
pub fn examine(sources: &[Source], threads: usize) -> Vec<Examined> {
    let sound_frames = SoundFrames::default();
    work::in_order(sources.len(), threads, |at| {
        let taken = sources[at].take();
        let outcome = match taken.bytes.map(|bytes| Frame::of(&bytes, &sound_frames)) {
            Err(why) => Outcome::Unreadable(why),
            Ok(Err(refused)) => Outcome::Refused(refused),
            Ok(Ok(frame)) => Outcome::Decoded(frame),
        };
        Examined { name: sources[at].name(), id: taken.id, outcome }
    })
}

pub fn decoded(examined: &[Examined]) -> impl Iterator<Item = (usize, &str, &Frame)> {
    examined.iter().enumerate().filter_map(|(place, e)| match &e.outcome {
        Outcome::Decoded(frame) => Some((place, e.name.as_str(), frame)),
        _ => None,
    })
}

pub fn refused(examined: &[Examined]) -> impl Iterator<Item = (usize, &str, &Refused)> {
    examined.iter().enumerate().filter_map(|(place, e)| match &e.outcome {
        Outcome::Refused(refused) => Some((place, e.name.as_str(), refused)),
        _ => None,
    })
}

/// A name for a line of text: what would move the cursor is replaced.
pub fn shown(name: &str) -> String {
    name.chars().map(|c| if c.is_control() { '\u{fffd}' } else { c }).collect()
}

// Tells on standard error, and the status that the run ends with. Where nothing can be told, that too is 2.
struct Teller {
    status: u8,
}

impl Teller {
    fn tell(&mut self, status: u8, message: &str) {
        let told = writeln!(io::stderr(), "shaft: {message}");
        self.status = self.status.max(if told.is_ok() { status } else { 2 });
    }

    fn written(&mut self, result: Result<(), String>) {
        match result {
            Ok(()) => {}
            Err(why) if why.is_empty() => self.status = 2,
            Err(why) => self.tell(2, &why),
        }
    }
}

fn tell_outcomes(examined: &[Examined], teller: &mut Teller) {
    for e in examined {
        let name = shown(&e.name);
        match &e.outcome {
            Outcome::Decoded(_) => {}
            Outcome::Refused(Refused { number, line, hint }) => {
                let hint = hint.as_ref().map_or(String::new(), |hint| format!(": {hint}"));
                teller.tell(1, &format!("{name}: refused, number {number}, line {line}{hint}"));
            }
            Outcome::Unreadable(why) => teller.tell(2, &format!("{name}: not read: {why}")),
        }
    }
}

/// Runs as asked, and gives the status: 0 where all sheets were decoded, 1 where some were refused, 2 where something could not be read or written.
pub fn run(args: &Args) -> u8 {
    let sources = sources::list(&args.inputs);
    let examined = examine(&sources, work::threads(sources.len()));
    let mut teller = Teller { status: 0 };
    tell_outcomes(&examined, &mut teller);
    if examined.iter().all(|e| matches!(e.outcome, Outcome::Unreadable(_))) {
        teller.tell(2, "there is no sheet to look at");
        return teller.status;
    }
    write_outputs(args, &examined, &mut teller);
    teller.status
}

// Writes an output.
type Content<'a> = &'a dyn Fn(&mut dyn Write) -> io::Result<()>;

// Files come first: the reader of standard output may be gone before its end.
fn write_outputs(args: &Args, examined: &[Examined], teller: &mut Teller) {
    let groups = groups(decoded(examined).map(|(place, _, frame)| (place, frame)), args.below);
    let csv = |out: &mut dyn Write| csv::write(decoded(examined).map(|(_, name, frame)| (name, frame)), out);
    let svg = |out: &mut dyn Write| svg::write(examined, &groups, args.below, out);
    let table = |out: &mut dyn Write| table::write(examined, &groups, args, out);
    let ids: Vec<FileId> = examined.iter().filter_map(|e| e.id).collect();
    let mut waiting: Vec<Content> = Vec::new();
    for (path, content) in [(&args.csv, &csv as Content), (&args.svg, &svg)] {
        match path.as_ref().map(|path| Target::named(path, &ids)) {
            None => {}
            Some(Err(why)) => teller.tell(2, &why),
            Some(Ok(target)) if target.is_standard_output() => waiting.push(content),
            Some(Ok(target)) => teller.written(target.write(content)),
        }
    }
    match waiting[..] {
        [] => teller.written(Target::StandardOutput.write(table)),
        [content] => teller.written(Target::StandardOutput.write(content)),
        _ => teller.tell(2, "--csv and --svg are both standard output: neither is written"),
    }
}

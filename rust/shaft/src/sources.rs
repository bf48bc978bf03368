//! Where sheets come from: files, the files of a folder, standard input.
use crate::sheet::MOST_BYTES;
use std::cmp::Ordering;
use std::ffi::OsString;
use std::fs::{self, File, Metadata};
use std::io::{self, Read};
use std::os::unix::ffi::OsStrExt;
use std::os::unix::fs::MetadataExt;
use std::path::{Path, PathBuf};

/// A file, whatever name it has.
pub type FileId = (u64, u64);

pub fn file_id(metadata: &Metadata) -> FileId {
    (metadata.dev(), metadata.ino())
}

#[derive(Debug)]
pub enum Source {
    StandardInput,
    File(PathBuf),
    /// A folder or file that could not be looked at, and why.
    Fault(PathBuf, String),
}

/// A sheet's bytes, or why there are none.
pub struct Taken {
    pub bytes: Result<Vec<u8>, String>,
    pub id: Option<FileId>,
}

impl Source {
    pub fn name(&self) -> String {
        match self {
            Source::StandardInput => "standard input".to_string(),
            Source::File(path) | Source::Fault(path, _) => path.to_string_lossy().into_owned(),
        }
    }

    pub fn take(&self) -> Taken {
        let taken = match self {
            Source::StandardInput => start(io::stdin()).map(|bytes| (bytes, None)),
            Source::File(path) => from_file(path).map(|(bytes, id)| (bytes, Some(id))),
            Source::Fault(_, why) => return Taken { bytes: Err(why.clone()), id: None },
        };
        match taken {
            Ok((bytes, id)) => Taken { bytes: Ok(bytes), id },
            Err(error) => Taken { bytes: Err(reason(&error)), id: None },
        }
    }
}

/// The system's reason, without its number.
pub fn reason(error: &io::Error) -> String {
    let text = error.to_string();
    text.split(" (os error").next().unwrap_or_default().to_string()
}

// One byte more than the longest sheet, so that the library still tells that it is too long.
fn start(from: impl Read) -> io::Result<Vec<u8>> {
    let mut bytes = Vec::new();
    from.take(MOST_BYTES as u64 + 1).read_to_end(&mut bytes)?;
    Ok(bytes)
}

fn from_file(path: &Path) -> io::Result<(Vec<u8>, FileId)> {
    let file = File::open(path)?;
    let id = file_id(&file.metadata()?);
    Ok((start(file)?, id))
}

/// The sources that the command line names, in its order.
pub fn list(inputs: &[OsString]) -> Vec<Source> {
    inputs.iter().flat_map(named).collect()
}

fn named(input: &OsString) -> Vec<Source> {
    let path = PathBuf::from(input);
    if input == "-" {
        return vec![Source::StandardInput];
    }
    match fs::metadata(&path) {
        Ok(metadata) if metadata.is_dir() => folder(path),
        // That it is not there is told when it is read.
        _ => vec![Source::File(path)],
    }
}

// The regular files of a folder by name, links followed. What cannot be looked at comes after them.
fn folder(path: PathBuf) -> Vec<Source> {
    let entries = match fs::read_dir(&path) {
        Ok(entries) => entries,
        Err(error) => return vec![Source::Fault(path, reason(&error))],
    };
    let (mut files, mut faults) = (Vec::new(), Vec::new());
    for entry in entries {
        let name = match entry {
            Ok(entry) => entry.file_name(),
            Err(error) => {
                faults.push(Source::Fault(path.clone(), reason(&error)));
                continue;
            }
        };
        let file = path.join(&name);
        match fs::metadata(&file) {
            _ if name.as_bytes().starts_with(b".") => {}
            Ok(metadata) if metadata.is_file() => files.push(name),
            Ok(_) => {}
            Err(error) => faults.push(Source::Fault(file, reason(&error))),
        }
    }
    files.sort_by(|a, b| by_number(a.as_bytes(), b.as_bytes()));
    if files.is_empty() && faults.is_empty() {
        faults.push(Source::Fault(path.clone(), "there is no sheet in the folder".to_string()));
    }
    faults.sort_by_key(Source::name);
    files.into_iter().map(|name| Source::File(path.join(name))).chain(faults).collect()
}

// The digits at the start, without leading zeros, and what follows them.
fn digits(name: &[u8]) -> (&[u8], &[u8]) {
    let zeros = name.iter().take_while(|&&b| b == b'0').count();
    let end = name.iter().take_while(|b| b.is_ascii_digit()).count();
    (&name[zeros.min(end)..end], &name[end..])
}

/// The order of names in which numbers count by their value: frame-2 before frame-10. Names that differ in leading zeros alone go by their bytes.
pub fn by_number(a: &[u8], b: &[u8]) -> Ordering {
    let (mut p, mut q) = (a, b);
    while let (Some(x), Some(y)) = (p.first(), q.first()) {
        let order = if x.is_ascii_digit() && y.is_ascii_digit() {
            let ((m, after_m), (n, after_n)) = (digits(p), digits(q));
            (p, q) = (after_m, after_n);
            m.len().cmp(&n.len()).then(m.cmp(n))
        } else {
            (p, q) = (&p[1..], &q[1..]);
            x.cmp(y)
        };
        if order.is_ne() {
            return order;
        }
    }
    p.len().cmp(&q.len()).then(a.cmp(b))
}

//! Outputs: whole or told. A file is written beside its target and renamed when it is whole; a device or a pipe is written to directly.
use crate::sources::{file_id, reason, FileId};
use std::fs::{self, File, OpenOptions};
use std::io::{self, BufWriter, Write};
use std::os::fd::AsFd;
use std::path::{Path, PathBuf};

/// Where an output goes.
pub enum Target {
    StandardOutput,
    /// A device or pipe.
    Direct(PathBuf),
    /// A regular file, or one that is not there yet.
    Whole(PathBuf),
}

fn standard_output() -> Option<FileId> {
    let owned = io::stdout().as_fd().try_clone_to_owned().ok()?;
    File::from(owned).metadata().ok().map(|metadata| file_id(&metadata))
}

impl Target {
    /// The target that a path names. `-` is standard output, and so is any name of the same file: written by two ways at once, one would be lost.
    /// A file that was read as a sheet is no target.
    pub fn named(path: &Path, sheets: &[FileId]) -> Result<Target, String> {
        if path == Path::new("-") {
            return Ok(Target::StandardOutput);
        }
        let Ok(metadata) = fs::metadata(path) else { return Ok(Target::Whole(path.to_path_buf())) };
        let id = file_id(&metadata);
        if Some(id) == standard_output() {
            Ok(Target::StandardOutput)
        } else if sheets.contains(&id) && metadata.is_file() {
            Err(format!("{}: not written, since it was read as a sheet", path.display()))
        } else if metadata.is_file() {
            // A link stays a link: the file it leads to is replaced.
            Ok(Target::Whole(fs::canonicalize(path).unwrap_or_else(|_| path.to_path_buf())))
        } else {
            Ok(Target::Direct(path.to_path_buf()))
        }
    }

    pub fn is_standard_output(&self) -> bool {
        matches!(self, Target::StandardOutput)
    }

    /// Writes what `content` writes. A failure is given in words; they are empty where the reader of standard output has gone.
    pub fn write(&self, content: impl FnOnce(&mut dyn Write) -> io::Result<()>) -> Result<(), String> {
        let written = match self {
            Target::StandardOutput => return to_standard_output(content),
            Target::Direct(path) => OpenOptions::new().write(true).open(path).and_then(|file| filled(file, content).map(drop)),
            Target::Whole(path) => whole(path, content),
        };
        let (Target::Direct(path) | Target::Whole(path)) = self else { return Ok(()) };
        written.map_err(|error| format!("{}: not written: {}", path.display(), reason(&error)))
    }
}

fn to_standard_output(content: impl FnOnce(&mut dyn Write) -> io::Result<()>) -> Result<(), String> {
    let mut buffer = BufWriter::new(io::stdout().lock());
    content(&mut buffer).and_then(|()| buffer.flush()).map_err(|error| {
        // What is left in the buffer is not to be tried again.
        drop(buffer.into_parts());
        match error.kind() {
            io::ErrorKind::BrokenPipe => String::new(),
            _ => format!("standard output: not written: {}", reason(&error)),
        }
    })
}

fn filled(file: File, content: impl FnOnce(&mut dyn Write) -> io::Result<()>) -> io::Result<File> {
    let mut buffer = BufWriter::new(file);
    content(&mut buffer)?;
    buffer.into_inner().map_err(|error| error.into_error())
}

fn whole(path: &Path, content: impl FnOnce(&mut dyn Write) -> io::Result<()>) -> io::Result<()> {
    let Some(name) = path.file_name() else { return Err(io::ErrorKind::IsADirectory.into()) };
    let kept = match OpenOptions::new().write(true).open(path) {
        Ok(file) => Some(file.metadata()?.permissions()),
        Err(error) if error.kind() == io::ErrorKind::NotFound => None,
        Err(error) => return Err(error),
    };
    let mut beside = std::ffi::OsString::from(".");
    beside.push(name);
    beside.push(format!(".{}.part", std::process::id()));
    let beside = path.with_file_name(beside);
    let file = OpenOptions::new().write(true).create_new(true).open(&beside)?;
    let done = filled(file, content).and_then(|file| {
        kept.map_or(Ok(()), |permissions| file.set_permissions(permissions))?;
        file.sync_all()?;
        fs::rename(&beside, path)
    });
    done.inspect_err(|_| drop(fs::remove_file(&beside)))
}

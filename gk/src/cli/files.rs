//! Reading files, and writing them whole or not at all.

use std::ffi::OsStr;
use std::fs::{self, File, OpenOptions, Permissions};
use std::io::{self, Read, Write};
use std::path::{Path, PathBuf};

use super::{Done, Failure};
use crate::names::files::{is_input_open, INPUT_CLOSED};
use crate::text::shown;

fn failed(what: &str, path: &Path, why: impl std::fmt::Display) -> Failure {
    let name = match path.as_os_str().is_empty() {
        true => "\"\"".to_string(),
        false => shown(&path.to_string_lossy()),
    };
    Failure::Failed(format!("cannot {what} {name}: {why}"))
}

/// How a file is called in a message.
pub fn name_of(file: Option<&OsStr>) -> String {
    file.map_or_else(|| "standard input".to_string(), |path| shown(&path.to_string_lossy()))
}

/// The bytes of a file, or of standard input; no more than `most` of them.
pub fn read_input(file: Option<&OsStr>, most: usize) -> Result<Vec<u8>, Failure> {
    let mut bytes = Vec::new();
    match file.map(Path::new) {
        Some(path) if path.is_dir() => return Err(failed("read", path, "it is a folder")),
        Some(path) => {
            let opened = File::open(path);
            let read = opened.and_then(|file| file.take(most as u64).read_to_end(&mut bytes));
            read.map_err(|error| failed("read", path, error))?;
        }
        None if !is_input_open() => return Err(Failure::Failed(INPUT_CLOSED.to_string())),
        None => {
            let read = io::stdin().lock().take(most as u64).read_to_end(&mut bytes);
            read.map_err(|error| Failure::Failed(format!("cannot read standard input: {error}")))?;
        }
    }
    Ok(bytes)
}

/// Writes to standard output.
pub fn write_output(bytes: &[u8]) -> Done {
    let mut output = io::stdout().lock();
    output.write_all(bytes).and_then(|()| output.flush()).map_err(|error| match error.kind() {
        io::ErrorKind::BrokenPipe => Failure::Unread,
        _ => Failure::Failed(format!("cannot write standard output: {error}")),
    })
}

/// Writes to the file behind `-o`, or to standard output.
pub fn write_to(file: Option<&OsStr>, bytes: &[u8]) -> Done {
    match file {
        Some(path) => write_whole(&[(Path::new(path), bytes)]),
        None => write_output(bytes),
    }
}

/// Writes files, each whole: all of them are written beside their places first, and then moved there. What is no file
/// that can be replaced, as a device, is written to as it is.
pub fn write_whole(files: &[(&Path, &[u8])]) -> Done {
    let mut waiting: Vec<(PathBuf, PathBuf)> = Vec::new();
    let outcome = files.iter().try_for_each(|(path, bytes)| {
        if path.is_dir() {
            return Err(failed("write", path, "it is a folder"));
        }
        match fs::metadata(path) {
            Ok(there) if !there.is_file() => {
                let opened = OpenOptions::new().write(true).open(path);
                let written = opened.and_then(|mut file| file.write_all(bytes));
                written.map_err(|error| match error.kind() {
                    io::ErrorKind::BrokenPipe => Failure::Unread,
                    _ => failed("write", path, error),
                })
            }
            // A link stays a link: what it leads to is replaced, and who may read it stays as it was.
            there => {
                let place = match there {
                    Ok(_) => fs::canonicalize(path).map_err(|error| failed("write", path, error))?,
                    Err(_) => path.to_path_buf(),
                };
                let part = part_beside(&place);
                waiting.push((part.clone(), place));
                let rights = there.ok().map(|there| there.permissions());
                write_new(&part, bytes, rights).map_err(|error| failed("write", path, error))
            }
        }
    });
    let moved = outcome.and_then(|()| {
        waiting.iter().try_for_each(|(part, place)| {
            fs::rename(part, place).map_err(|error| failed("write", place, error))
        })
    });
    if moved.is_err() {
        for (part, _) in &waiting {
            let _ = fs::remove_file(part);
        }
    }
    moved
}

fn write_new(path: &Path, bytes: &[u8], rights: Option<Permissions>) -> io::Result<()> {
    let mut file = OpenOptions::new().write(true).create_new(true).open(path)?;
    rights.map_or(Ok(()), |rights| file.set_permissions(rights))?;
    file.write_all(bytes)?;
    file.sync_all()
}

/// Where a file is written before it is moved to its place.
fn part_beside(place: &Path) -> PathBuf {
    let name = place.file_name().unwrap_or_default().to_string_lossy().into_owned();
    place.with_file_name(format!(".{name}.{}.part", std::process::id()))
}

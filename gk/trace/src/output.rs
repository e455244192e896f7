//! Writing files whole or not at all.

use std::fs::{self, OpenOptions};
use std::io::{self, Write};
use std::path::{Path, PathBuf};

/// Writes files, each whole: all of them are written beside their places first, and then moved there. What is no file
/// that can be replaced, as a device, is written to as it is. Where it fails, says with which file.
pub fn write_whole(files: &[(&Path, &[u8])]) -> Result<(), (PathBuf, io::Error)> {
    let mut waiting: Vec<(PathBuf, PathBuf)> = Vec::new();
    let outcome = files.iter().try_for_each(|(path, bytes)| {
        let failed = |error| (path.to_path_buf(), error);
        match fs::metadata(path) {
            Ok(there) if !there.is_file() => {
                let opened = OpenOptions::new().write(true).open(path);
                opened.and_then(|mut file| file.write_all(bytes)).map_err(failed)
            }
            // A link stays a link: what it leads to is replaced.
            there => {
                let place = if there.is_ok() {
                    fs::canonicalize(path).map_err(failed)?
                } else {
                    path.to_path_buf()
                };
                let part = part_beside(&place);
                waiting.push((part.clone(), place));
                let opened = OpenOptions::new().write(true).create_new(true).open(&part);
                opened.and_then(|mut file| file.write_all(bytes)).map_err(failed)
            }
        }
    });
    let moved = outcome.and_then(|()| {
        let moves = &mut waiting.iter();
        moves.try_for_each(|(part, place)| fs::rename(part, place).map_err(|error| (place.clone(), error)))
    });
    if moved.is_err() {
        for (part, _) in &waiting {
            let _ = fs::remove_file(part);
        }
    }
    moved
}

/// Where a file is written before it is moved to its place.
fn part_beside(place: &Path) -> PathBuf {
    let name = place.file_name().unwrap_or_default().to_string_lossy().into_owned();
    place.with_file_name(format!(".{name}.{}.part", std::process::id()))
}

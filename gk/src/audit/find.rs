//! The journals below some folders.

use std::collections::BTreeSet;
use std::fs::{self, Metadata};
use std::io;
use std::os::unix::fs::MetadataExt;
use std::path::{Path, PathBuf};

use super::Unread;

/// How the name of a journal ends.
pub const SUFFIX: &str = "journal";

/// What was found.
#[derive(Debug, Default)]
pub struct Found {
    pub journals: Vec<PathBuf>,
    pub unread: Vec<Unread>,
    /// Files that are no journals by their names, names files apart.
    pub others: u64,
    /// Journals and folders that were met before, under another name.
    pub again: u64,
}

/// Every file below these folders whose name ends in `.journal`, by name. What is given as a file is a journal, whatever
/// it is called. Links are followed, behind all else; a folder or file that was met before is not taken again.
pub fn find(given: &[PathBuf]) -> Found {
    let mut search = Search::default();
    for path in given {
        let before = search.found.journals.len() as u64 + search.found.again;
        let unread = search.found.unread.len();
        search.given(path);
        let after = search.found.journals.len() as u64 + search.found.again;
        if before == after && unread == search.found.unread.len() {
            search.unread(path, "there is no journal below it: no name ends in .journal");
        }
    }
    search.found
}

#[derive(Default)]
struct Search {
    found: Found,
    /// Device and number of what was met.
    met: BTreeSet<(u64, u64)>,
}

impl Search {
    fn unread(&mut self, path: &Path, why: impl ToString) {
        self.found.unread.push(Unread { path: path.to_path_buf(), why: why.to_string() });
    }

    fn given(&mut self, path: &Path) {
        match fs::metadata(path) {
            Ok(there) if there.is_dir() => self.below(path),
            Ok(there) => self.journal(path, &there),
            Err(error) => self.unread(path, error),
        }
    }

    /// A folder and all that is in it, links last; without recursion, as a tree may be deep.
    fn below(&mut self, folder: &Path) {
        let (mut waiting, mut links) = (vec![folder.to_path_buf()], Vec::new());
        while let Some(path) = waiting.pop().or_else(|| links.pop()) {
            match fs::metadata(&path) {
                Ok(there) if there.is_dir() => match self.is_new(&there).then(|| entries(&path)) {
                    Some(Ok(inside)) => {
                        let (linked, plain): (Vec<Entry>, Vec<Entry>) =
                            inside.into_iter().rev().partition(|(_, is_link)| *is_link);
                        links.extend(linked.into_iter().map(|(path, _)| path));
                        waiting.extend(plain.into_iter().map(|(path, _)| path));
                    }
                    Some(Err(error)) => self.unread(&path, error),
                    None => {}
                },
                Ok(there) => self.file(&path, &there),
                Err(error) => self.unread(&path, error),
            }
        }
    }

    fn file(&mut self, path: &Path, there: &Metadata) {
        match is_journal(path) {
            true => self.journal(path, there),
            false => self.found.others += u64::from(path.extension().is_none_or(|end| end != "names")),
        }
    }

    fn journal(&mut self, path: &Path, there: &Metadata) {
        if self.is_new(there) {
            self.found.journals.push(path.to_path_buf());
        }
    }

    fn is_new(&mut self, there: &Metadata) -> bool {
        let is_new = self.met.insert((there.dev(), there.ino()));
        self.found.again += u64::from(!is_new);
        is_new
    }
}

fn is_journal(path: &Path) -> bool {
    path.extension().is_some_and(|end| end == SUFFIX)
}

/// What stands in a folder, and whether it is a link.
type Entry = (PathBuf, bool);

/// What is in a folder, by name.
fn entries(folder: &Path) -> io::Result<Vec<Entry>> {
    let entry = |entry: io::Result<fs::DirEntry>| {
        let entry = entry?;
        Ok((entry.path(), entry.file_type()?.is_symlink()))
    };
    let mut entries = fs::read_dir(folder)?.map(entry).collect::<io::Result<Vec<Entry>>>()?;
    entries.sort();
    Ok(entries)
}

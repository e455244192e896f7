//! A journal that is still being written, as a duty screen shows it.

use std::fs::{self, File, Metadata};
use std::io::{self, Read};
use std::os::unix::fs::MetadataExt;
use std::path::PathBuf;
use std::thread::sleep;
use std::time::{Duration, SystemTime};

use gk_advice::run::{Content, Growing, Next};

use crate::cli::{open, unread, write, Failure};
use crate::reel::{next, notice, More};
use crate::terminal::Screen;

/// How often a file is looked at.
pub const PAUSE: Duration = Duration::from_millis(200);

/// Follows a file until it is interrupted, or standard input to its end: a line for each record.
pub fn follow(mut source: Source, mut screen: Screen) -> Result<(), Failure> {
    let mut run = Growing::new();
    let mut journal = Vec::new();
    let mut said = None;
    loop {
        let more = source.read(&mut journal)?;
        if let Some(names) = source.new_names() {
            let record = screen.position();
            (run, screen) = (Growing::new(), screen.blank(names));
            while screen.position() < record {
                let Next::Step(turn) = next(&mut run, &journal, more) else { break };
                screen.pass(&turn);
            }
        }
        let mut lines = String::new();
        let mut is_broken = false;
        let is_unfinished = loop {
            match next(&mut run, &journal, more) {
                Next::Step(turn) => {
                    lines.push_str(&screen.take(&turn));
                    is_broken |= matches!(turn.content, Content::Stop(..));
                }
                Next::Unfinished => break true,
                Next::End => break false,
            }
        };
        let now = notice(more, is_unfinished, is_broken, journal.len());
        lines.extend(now.filter(|_| now != said).map(|now| format!("! {now}\n")));
        if !lines.is_empty() {
            write(lines.as_bytes())?;
        }
        said = now;
        if is_broken || matches!(more, More::Cut | More::End) {
            return Ok(());
        }
        if more == More::Later {
            sleep(PAUSE);
        }
    }
}

/// A journal that is still being written, and its names.
pub struct Source {
    bytes: Bytes,
    names: Option<PathBuf>,
    /// The length and the time of the names that were read last.
    seen: Option<(u64, SystemTime)>,
}

/// Where the bytes come from.
enum Bytes {
    /// With its path, and how many bytes were read of it.
    File(File, String, u64),
    Input,
}

impl Source {
    /// With the file of its names, which may come to be later.
    pub fn of(path: &str, names: Option<PathBuf>) -> Result<Source, Failure> {
        let bytes = match path {
            "-" => Bytes::Input,
            path => Bytes::File(open(path)?, path.to_string(), 0),
        };
        Ok(Source { bytes, names, seen: None })
    }

    /// Whether it is standard input, of which a read may wait.
    pub fn is_input(&self) -> bool {
        matches!(self.bytes, Bytes::Input)
    }

    /// The names, where they have changed since they were read last. Who writes a journal as the run goes on gives a name
    /// before the record at which it holds; what cannot be read now may be later.
    pub fn new_names(&mut self) -> Option<gk_names::Names> {
        let path = self.names.as_ref()?;
        let data = fs::metadata(path).ok()?;
        let now = Some((data.len(), data.modified().ok()?));
        if now == self.seen {
            return None;
        }
        let names = gk_names::Names::load(path).ok()?;
        self.seen = now;
        Some(names)
    }

    /// Adds what has come to what was read before.
    pub fn read(&mut self, journal: &mut Vec<u8>) -> Result<More, Failure> {
        let path = match &self.bytes {
            Bytes::Input => "-".to_string(),
            Bytes::File(_, path, _) => path.clone(),
        };
        self.bytes.more(journal).map_err(|error| unread(&path, &error))
    }
}

impl Bytes {
    fn more(&mut self, journal: &mut Vec<u8>) -> io::Result<More> {
        // More than the standard input keeps for itself, which so keeps nothing back.
        let mut part = [0; 1 << 14];
        match self {
            Bytes::Input => {
                let count = io::stdin().read(&mut part)?;
                journal.extend(&part[..count]);
                Ok(if count == 0 { More::End } else { More::Now })
            }
            Bytes::File(file, path, taken) => {
                let count = file.read(&mut part)?;
                journal.extend(&part[..count]);
                *taken += count as u64;
                let data = file.metadata()?;
                Ok(match count {
                    0 if data.is_file() && data.len() < *taken => More::Cut,
                    0 => match longer(path, &data, journal) {
                        Some(other) => {
                            *file = other;
                            More::Now
                        }
                        None => More::Later,
                    },
                    _ => More::Now,
                })
            }
        }
    }
}

/// The file in the place of one that was read whole, where it is another one that starts with the same bytes, as
/// `gk line --append` leaves it; behind these bytes.
fn longer(path: &str, data: &Metadata, journal: &[u8]) -> Option<File> {
    let there = fs::metadata(path).ok().filter(Metadata::is_file)?;
    let is_other = (there.dev(), there.ino()) != (data.dev(), data.ino()) && data.is_file();
    if !is_other || there.len() < journal.len() as u64 {
        return None;
    }
    let mut file = File::open(path).ok()?;
    let mut first = vec![0; journal.len()];
    file.read_exact(&mut first).ok().filter(|()| first == journal)?;
    Some(file)
}

#[cfg(test)]
mod tests {
    use super::*;

    #[test]
    fn names_are_read_again_where_they_have_changed() {
        let folder = std::env::temp_dir().join(format!("gk-screen-follow-{}", std::process::id()));
        fs::create_dir_all(&folder).expect("a folder");
        let (journal, names) = (folder.join("run.journal"), folder.join("run.names"));
        fs::write(&journal, []).expect("a file");
        let mut source = Source::of(&journal.to_string_lossy(), Some(names.clone())).expect("it opens");
        assert_eq!(source.new_names(), None);
        let mut text = "names 1\n".to_string();
        for count in 1..3 {
            text += &gk_names::line(gk_names::Kind::File, count, count, &format!("sheet {count}"));
            fs::write(&names, &text).expect("a file");
            assert_eq!(source.new_names().map(|names| names.text()), Some(text.clone()));
            assert_eq!(source.new_names(), None);
        }
        // A line that is only half there is no reason to forget the others.
        fs::write(&names, format!("{text}file 7")).expect("a file");
        assert_eq!(source.new_names(), None);
        fs::remove_dir_all(&folder).expect("it goes");
    }
}

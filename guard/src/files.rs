//! Which label a file has, and which files are no matter of labels.

use std::collections::HashMap;
use std::os::unix::fs::{FileTypeExt, MetadataExt};

use gatekeeper::Label;
use gk_trace::{Level, Levels};

use crate::proc::Key;

/// What a file is to the gatekeeper.
#[derive(Clone, Copy, Debug, PartialEq, Eq)]
pub enum Standing {
    /// A file of this label.
    At(Label),
    /// The levels file leaves it out.
    Out,
    /// It hands nothing from one step to another: /dev/null and its kin, and what the kernel says of a process itself.
    Harmless,
    /// It is as if it were not there: the terminal, for a run that has none.
    Absent,
    /// It is refused, and why.
    No(&'static str),
}

pub struct Files {
    levels: Levels,
    /// The folder that the run was started in, as the kernel names it.
    folder: Vec<u8>,
    /// The labels of files that the run has made where the levels file says `step`.
    made: HashMap<Key, Label>,
    /// The label that each file had when it was first opened: another name of it may say another.
    known: HashMap<Key, Label>,
    /// Standard output and error without a level: they lead out of the run, and are for writing alone.
    pub outside: Vec<Key>,
    /// The journal and its names, which no step may write to.
    pub journal: Vec<Key>,
    /// How many opens the levels file leaves out.
    pub left_out: u64,
}

/// What may be read of a process in /proc: what the kernel keeps of it. The rest is its memory, or leads there.
const OF_A_PROCESS: [&[u8]; 12] = [
    b"stat",
    b"statm",
    b"status",
    b"maps",
    b"smaps",
    b"smaps_rollup",
    b"limits",
    b"cgroup",
    b"mountinfo",
    b"mounts",
    b"io",
    b"sched",
];

const PROC: &str = "it shows another process's memory, or leads there";
const TWO_LABELS: &str = "the file has another name with another level or other shop marks";
const OWN_JOURNAL: &str = "it is the journal of this run, or has its names";
const DEVICE: &str = "devices are not followed; a line of the levels file can name it";
const GONE: &str = "its name is gone, and its level is not known";

impl Files {
    pub fn new(levels: Levels, folder: Vec<u8>) -> Files {
        Files {
            levels,
            folder,
            made: HashMap::new(),
            known: HashMap::new(),
            outside: Vec::new(),
            journal: Vec::new(),
            left_out: 0,
        }
    }

    /// The label of standard input, output or error.
    pub fn standard(&self, which: usize) -> Option<Label> {
        self.levels.standard(which)
    }

    fn found(&self, path: &[u8]) -> gk_trace::Found {
        let own = path.strip_prefix(self.folder.as_slice()).and_then(|rest| rest.strip_prefix(b"/"));
        self.levels.of(own.unwrap_or(path), path)
    }

    /// The label of a path for a file that is there.
    pub fn at(&self, path: &[u8], key: Key) -> Standing {
        match self.found(path).level {
            Level::At(label) => Standing::At(label),
            Level::Out => Standing::Out,
            Level::Step => Standing::At(self.made.get(&key).copied().unwrap_or(self.levels.unmade())),
        }
    }

    /// The label of a path for a file that is about to be made.
    pub fn at_new(&self, path: &[u8]) -> Level {
        self.found(path).level
    }

    /// A file has been made. What was known of its inode was of another file.
    pub fn was_made(&mut self, key: Key, label: Label, is_steps: bool) {
        self.known.insert(key, label);
        match is_steps {
            true => self.made.insert(key, label),
            false => self.made.remove(&key),
        };
    }

    /// A file has been made that the levels file leaves out.
    pub fn forget(&mut self, key: Key) {
        self.known.remove(&key);
        self.made.remove(&key);
    }

    /// What a file that is there is to the gatekeeper, when it is opened under this path.
    pub fn standing(
        &mut self,
        path: &[u8],
        meta: &std::fs::Metadata,
        is_proc: bool,
        writes: bool,
    ) -> Standing {
        let key = (meta.dev(), meta.ino());
        let kind = meta.file_type();
        if writes && self.journal.contains(&key) {
            return Standing::No(OWN_JOURNAL);
        }
        if kind.is_char_device() || kind.is_block_device() {
            return self.device(path, meta, writes);
        }
        if is_proc {
            match of_process(path) {
                Some(true) if !writes => return Standing::Harmless,
                Some(_) => return Standing::No(PROC),
                None => {}
            }
        }
        if path.ends_with(b" (deleted)") {
            return self.known.get(&key).map_or(Standing::No(GONE), |&label| Standing::At(label));
        }
        let standing = self.at(path, key);
        if let Standing::At(label) = standing {
            if *self.known.entry(key).or_insert(label) != label {
                return Standing::No(TWO_LABELS);
            }
        }
        standing
    }

    fn device(&self, path: &[u8], meta: &std::fs::Metadata, writes: bool) -> Standing {
        let key = (meta.dev(), meta.ino());
        if self.outside.contains(&key) && writes {
            return Standing::Harmless;
        }
        let found = self.found(path);
        match (found.line.is_some(), found.level) {
            (true, Level::At(label)) => return Standing::At(label),
            (true, Level::Out) => return Standing::Out,
            _ => {}
        }
        const TERMINAL: u64 = 5 << 8;
        if meta.file_type().is_char_device() && meta.rdev() == TERMINAL {
            return Standing::Absent;
        }
        // null, full; zero, random, urandom for reading alone: a shared mapping of zero would be shared memory.
        let is_memory = meta.file_type().is_char_device() && meta.rdev() >> 8 == 1;
        match meta.rdev() & 0xff {
            3 | 7 if is_memory => Standing::Harmless,
            5 | 8 | 9 if is_memory && !writes => Standing::Harmless,
            _ => Standing::No(DEVICE),
        }
    }
}

/// Whether a path of /proc is of a process and may be read; none where it is of no process.
fn of_process(path: &[u8]) -> Option<bool> {
    let Some(rest) = path.strip_prefix(b"/proc/") else { return Some(false) };
    let mut parts = rest.split(|&byte| byte == b'/');
    let is_number = |part: &[u8]| part.iter().all(u8::is_ascii_digit);
    if !is_number(parts.next()?) {
        return None;
    }
    let own = std::process::id().to_string();
    if rest.split(|&byte| byte == b'/').next() == Some(own.as_bytes()) {
        return Some(false);
    }
    let mut parts: Vec<&[u8]> = parts.collect();
    if let [b"task", thread, ..] = parts[..] {
        if is_number(thread) {
            parts.drain(..2);
        }
    }
    Some(matches!(parts[..], [name] if OF_A_PROCESS.contains(&name)))
}

#[cfg(test)]
mod tests {
    use super::*;
    use gk_trace::TOP;
    use std::fs;

    fn files_of(text: &str) -> Files {
        Files::new(Levels::read(text.as_bytes()).unwrap(), b"/run".to_vec())
    }

    fn files() -> Files {
        files_of("low/* 2\nown/* step\nlog/* out\n/dev/tty 3\nelse 15\n")
    }

    /// A level with all shop marks.
    fn at(level: u8) -> Standing {
        Standing::At(Label { level, ..TOP })
    }

    #[test]
    fn a_path_has_a_level() {
        let mut files = files();
        assert_eq!(files.at(b"/run/low/a", (1, 1)), at(2));
        assert_eq!(files.at(b"/runs/low/a", (1, 1)), at(15));
        assert_eq!(files.at(b"/run/log/a", (1, 1)), Standing::Out);
        assert_eq!(files.at(b"/run/own/a", (1, 1)), at(0));
        assert_eq!(files.at_new(b"/run/own/a"), Level::Step);
        files.was_made((1, 1), Label { level: 9, ..TOP }, true);
        assert_eq!(files.at(b"/run/own/a", (1, 1)), at(9));
        files.was_made((1, 1), Label { level: 2, ..TOP }, false);
        assert_eq!(files.at(b"/run/own/a", (1, 1)), at(0));
    }

    #[test]
    fn a_path_has_a_set_of_shop_marks() {
        let mut files =
            files_of("name shop 2 west\nwest/* 2 west\nbare/* 2 none\nlow/* 2\nown/* step\nelse 15\n");
        let label = |level, shops| Standing::At(Label { level, shops });
        assert_eq!(files.at(b"/run/west/a", (1, 1)), label(2, 4));
        assert_eq!(files.at(b"/run/bare/a", (1, 1)), label(2, 0));
        assert_eq!(files.at(b"/run/low/a", (1, 1)), at(2));
        // What the run has not made has no mark where marks are spoken of; what it makes, those of its maker.
        assert_eq!(files.at(b"/run/own/a", (1, 1)), label(0, 0));
        files.was_made((1, 1), Label { level: 9, shops: 4 }, true);
        assert_eq!(files.at(b"/run/own/a", (1, 1)), label(9, 4));
        // Another name with the same level, and another set.
        let meta = fs::metadata("/proc/self/exe").unwrap();
        let mut standing = |path: &[u8]| files.standing(path, &meta, false, false);
        assert_eq!(standing(b"/run/west/b"), label(2, 4));
        assert_eq!(standing(b"/run/bare/b"), Standing::No(TWO_LABELS));
        assert_eq!(standing(b"/run/west/c"), label(2, 4));
    }

    #[test]
    fn another_name_with_another_level_is_refused() {
        let mut files = files();
        let meta = fs::metadata("/proc/self/exe").unwrap();
        let mut standing = |path: &[u8]| files.standing(path, &meta, false, false);
        assert_eq!(standing(b"/run/low/a"), at(2));
        assert_eq!(standing(b"/run/b"), Standing::No(TWO_LABELS));
        assert_eq!(standing(b"/run/low/a (deleted)"), at(2));
    }

    #[test]
    fn devices_are_told_apart() {
        let mut files = files();
        let mut standing = |path: &str, writes| {
            files.standing(path.as_bytes(), &fs::metadata(path).unwrap(), false, writes)
        };
        assert_eq!(standing("/dev/null", true), Standing::Harmless);
        assert_eq!(standing("/dev/zero", false), Standing::Harmless);
        assert_eq!(standing("/dev/zero", true), Standing::No(DEVICE));
        assert_eq!(standing("/dev/tty", true), at(3));
        assert_eq!(standing("/dev/ptmx", false), Standing::No(DEVICE));
        let mut files = files_of("else 15");
        let tty = fs::metadata("/dev/tty").unwrap();
        assert_eq!(files.standing(b"/dev/tty", &tty, false, false), Standing::Absent);
    }

    #[test]
    fn of_a_process_only_what_the_kernel_keeps() {
        assert_eq!(of_process(b"/proc/1/stat"), Some(true));
        assert_eq!(of_process(b"/proc/1/task/2/status"), Some(true));
        for path in
            ["/proc/1/mem", "/proc/1/environ", "/proc/1/task/2/mem", "/proc/1/attr/current", "/mnt/stat"]
        {
            assert_eq!(of_process(path.as_bytes()), Some(false), "{path}");
        }
        let own = format!("/proc/{}/stat", std::process::id());
        assert_eq!(of_process(own.as_bytes()), Some(false));
        assert_eq!(of_process(b"/proc/cpuinfo"), None);
        assert_eq!(of_process(b"/proc/sys/kernel/pid_max"), None);
    }
}

//! What the kernel shows of a process in /proc: what it really holds, while it stands still.

use std::fs::{self, File};
use std::io::{ErrorKind, Read};
use std::os::unix::fs::MetadataExt;

use crate::sys::{Errno, Tid, O_CLOEXEC, O_PATH};

/// A file or pipe, as the kernel tells them apart: device and inode.
pub type Key = (u64, u64);

/// Something that a process holds: a descriptor or a mapping.
#[derive(Clone, Debug, PartialEq, Eq)]
pub struct Held {
    pub key: Key,
    pub reads: bool,
    pub writes: bool,
    /// Whether an exec ends it.
    pub ends: bool,
    /// A mapping's path. Its device is not always that of the file: a mapping is known by its inode or its path.
    pub path: Option<Vec<u8>>,
}

impl Held {
    /// Whether this is a handle on the object of this key and path, in this direction. Of a mapping, more is taken for
    /// it than may be: what is held is never overlooked.
    pub fn is(&self, key: Key, path: &[u8], writes: bool) -> bool {
        let is_same = match &self.path {
            None => self.key == key,
            Some(own) => self.key.1 == key.1 || own == path,
        };
        is_same && if writes { self.writes } else { self.reads }
    }
}

/// The file or pipe behind a descriptor; none where there is no such descriptor.
pub fn key_of(tid: Tid, descriptor: i32) -> Result<Option<Key>, Errno> {
    match fs::metadata(format!("/proc/{tid}/fd/{descriptor}")) {
        Ok(meta) => Ok(Some((meta.dev(), meta.ino()))),
        Err(error) if error.kind() == ErrorKind::NotFound => Ok(None),
        Err(error) => Err(error.into()),
    }
}

/// Everything that a process holds; none where /proc does not show it.
pub fn held(pid: Tid) -> Option<Vec<Held>> {
    let mut all = Vec::new();
    for entry in fs::read_dir(format!("/proc/{pid}/fd")).ok()? {
        let entry = entry.ok()?;
        let number = entry.file_name().into_string().ok()?;
        // One that cannot be asked is no file: it is a thing of the kernel's own.
        let Ok(meta) = fs::metadata(entry.path()) else { continue };
        let flags = flags(&String::from_utf8(read_all(&format!("/proc/{pid}/fdinfo/{number}"))?).ok()?)?;
        if flags & O_PATH != 0 {
            continue;
        }
        let (reads, writes) = (flags & 3 != 1, flags & 3 != 0);
        let key = (meta.dev(), meta.ino());
        all.push(Held { key, reads, writes, ends: flags & O_CLOEXEC != 0, path: None });
    }
    all.extend(mappings(pid)?);
    Some(all)
}

/// The flags of a descriptor, from its fdinfo.
pub fn flags(info: &str) -> Option<u64> {
    u64::from_str_radix(info.lines().find_map(|line| line.strip_prefix("flags:"))?.trim(), 8).ok()
}

/// The files that a process has mapped. Every mapping reads, now or after a change of its protection; one that is shared
/// writes if it may become writable, which only smaps tells.
pub fn mappings(pid: Tid) -> Option<Vec<Held>> {
    let maps = read_all(&format!("/proc/{pid}/maps"))?;
    let found = parsed(&maps, false);
    let is_doubtful = |line: &[u8]| {
        let mode = line.split(|&byte| byte == b' ').nth(1).unwrap_or_default();
        mode.ends_with(b"s") && !mode.contains(&b'w')
    };
    if !maps.split(|&byte| byte == b'\n').any(is_doubtful) {
        return Some(found);
    }
    Some(parsed(&read_all(&format!("/proc/{pid}/smaps"))?, true))
}

/// A file of /proc. They do not say how long they are, so that room for most is made at once.
fn read_all(path: &str) -> Option<Vec<u8>> {
    let mut bytes = Vec::with_capacity(1 << 14);
    File::open(path).ok()?.read_to_end(&mut bytes).ok()?;
    Some(bytes)
}

/// The mappings of files in maps, or in smaps, where the flags of each follow it.
fn parsed(text: &[u8], has_flags: bool) -> Vec<Held> {
    let mut all: Vec<Held> = Vec::new();
    let mut is_file = false;
    for line in text.split(|&byte| byte == b'\n') {
        if let Some(flags) = line.strip_prefix(b"VmFlags:") {
            let mut flags = flags.split(|&byte| byte == b' ');
            if let (true, Some(last)) = (is_file, all.last_mut()) {
                last.writes |=
                    has_flags && last.ends && flags.any(|flag| flag == b"mw") && last.is_shared();
            }
            continue;
        }
        let Some(mapping) = mapping(line) else {
            // A line of smaps about the mapping above, or a mapping of no file.
            is_file &= !line.first().is_some_and(|byte| byte.is_ascii_digit() || byte.is_ascii_lowercase());
            continue;
        };
        is_file = true;
        all.push(mapping);
    }
    for mapping in &mut all {
        mapping.writes &= mapping.is_shared();
        if let Some(path) = &mut mapping.path {
            path.pop();
        }
    }
    all
}

impl Held {
    /// While it is parsed, the last byte of a mapping's path is the last of its mode: s where it is shared.
    fn is_shared(&self) -> bool {
        self.path.as_ref().is_some_and(|path| path.last() == Some(&b's'))
    }
}

/// `7f00-7f01 r--s 00000000 08:01 1234   /path`
fn mapping(line: &[u8]) -> Option<Held> {
    let mut words = line.splitn(6, |&byte| byte == b' ');
    let (range, mode, _, device, inode) =
        (words.next()?, words.next()?, words.next()?, words.next()?, words.next()?);
    if !range.contains(&b'-') || mode.len() != 4 {
        return None;
    }
    let inode: u64 = std::str::from_utf8(inode).ok()?.parse().ok()?;
    let (major, minor) = std::str::from_utf8(device).ok()?.split_once(':')?;
    let (major, minor) = (u64::from_str_radix(major, 16).ok()?, u64::from_str_radix(minor, 16).ok()?);
    let device = (major & 0xfff) << 8 | minor & 0xff | (minor & !0xff) << 12;
    let mut path = words.next().unwrap_or_default().trim_ascii_start().to_vec();
    path.push(mode[3]);
    let is_file = inode != 0;
    is_file.then_some(Held {
        key: (device, inode),
        reads: true,
        writes: mode.contains(&b'w'),
        ends: true,
        path: Some(path),
    })
}

/// The devices of all mounts of /proc's file system.
pub fn proc_devices() -> Vec<u64> {
    let text = fs::read_to_string("/proc/self/mountinfo").unwrap_or_default();
    let device = |line: &str| {
        line.split_once(" - proc ")?;
        let (major, minor) = line.split(' ').nth(2)?.split_once(':')?;
        let (major, minor): (u64, u64) = (major.parse().ok()?, minor.parse().ok()?);
        Some((major & 0xfff) << 8 | minor & 0xff | (minor & !0xff) << 12)
    };
    let mut devices: Vec<u64> = text.lines().filter_map(device).collect();
    devices.extend(fs::metadata("/proc/self/status").map(|meta| meta.dev()));
    devices
}

/// A line of /proc/TID/status.
fn status(tid: Tid, name: &str) -> Option<String> {
    let bytes = read_all(&format!("/proc/{tid}/status"))?;
    let text = String::from_utf8_lossy(&bytes);
    let line = text.lines().find_map(|line| line.strip_prefix(name)?.strip_prefix(':'))?;
    Some(line.trim().to_string())
}

/// The process that a thread is of.
pub fn process_of(tid: Tid) -> Option<Tid> {
    status(tid, "Tgid")?.parse().ok()
}

/// The process whose child it is.
pub fn parent_of(process: Tid) -> Option<Tid> {
    status(process, "PPid")?.parse().ok()
}

/// The mask that a process has for new files.
pub fn umask_of(tid: Tid) -> Option<u32> {
    u32::from_str_radix(&status(tid, "Umask")?, 8).ok()
}

/// Whether the guard itself has a capability, as root has them all.
pub fn has_capabilities() -> bool {
    status(std::process::id() as Tid, "CapEff")
        .is_none_or(|bits| u64::from_str_radix(&bits, 16).is_ok_and(|bits| bits != 0))
}

/// Whether the guard has one user and one group alone, so that no call can make a step another's.
pub fn is_one_user() -> bool {
    ["Uid", "Gid"].into_iter().all(|name| {
        status(std::process::id() as Tid, name).is_some_and(|line| {
            let numbers: Vec<&str> = line.split_whitespace().collect();
            numbers.len() == 4 && numbers.iter().all(|number| *number == numbers[0])
        })
    })
}

#[cfg(test)]
mod tests {
    use super::*;

    const SMAPS: &[u8] = b"5500-5600 r-xp 00000000 08:01 10                 /usr/bin/sort\n\
        Rss: 4 kB\nVmFlags: rd ex mr mw me\n\
        5600-5700 r--s 00000000 08:01 11 /tmp/may become writable\nVmFlags: rd sh mr mw me ms\n\
        5700-5800 r--s 00000000 08:01 12 /tmp/never\nVmFlags: rd sh mr me ms\n\
        5800-5900 rw-p 00000000 00:00 0\nVmFlags: rd wr mr mw me\n\
        5900-5a00 rw-s 00000000 00:2b 13 /tmp/now\nVmFlags: rd wr sh mr mw\n\
        7ffc-7ffd rw-p 00000000 00:00 0 [stack]\nVmFlags: rd wr mr mw\n";

    #[test]
    fn mappings_are_told_apart() {
        let all = parsed(SMAPS, true);
        let found: Vec<(u64, bool)> = all.iter().map(|held| (held.key.1, held.writes)).collect();
        assert_eq!(found, [(10, false), (11, true), (12, false), (13, true)]);
        assert_eq!(all[1].path.as_deref(), Some(&b"/tmp/may become writable"[..]));
        assert_eq!(all[3].key, (0x2b, 13));
        assert!(all.iter().all(|held| held.reads && held.ends));
    }

    #[test]
    fn a_mapping_is_known_by_inode_or_path() {
        let held = &parsed(SMAPS, true)[0];
        assert!(held.is((999, 10), b"/other", false) && held.is((1, 1), b"/usr/bin/sort", false));
        assert!(!held.is((1, 1), b"/other", false) && !held.is((0x801, 10), b"/usr/bin/sort", true));
    }

    #[test]
    fn this_process_is_seen() {
        let file = std::fs::File::open("/proc/self/status").unwrap();
        let meta = file.metadata().unwrap();
        let all = held(std::process::id() as Tid).unwrap();
        assert!(all.iter().any(|held| held.is((meta.dev(), meta.ino()), b"", false) && held.ends));
        assert!(all.iter().any(|held| held.path.is_some()));
        assert_eq!(process_of(std::process::id() as Tid), Some(std::process::id() as Tid));
    }

    #[test]
    fn flags_are_octal() {
        assert_eq!(flags("pos:\t0\nflags:\t02100001\nmnt_id:\t9\n"), Some(0o2100001));
    }
}

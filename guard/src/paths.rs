//! Paths as a step means them: found by the guard from the step's own folders, and held while it is asked about them.

use std::collections::HashSet;
use std::ffi::CString;
use std::fs::{self, File, Metadata};
use std::os::fd::{AsRawFd, OwnedFd, RawFd};
use std::os::unix::ffi::OsStringExt;

use crate::calls::{EACCES, EBUSY, EFAULT, EINVAL, EISDIR, ENOENT};
use crate::sys::{self, Errno, Tid, AT_FDCWD, NO_MAGIC_LINKS, O_DIRECTORY, O_NOFOLLOW, O_PATH};

/// The longest path, with its 0.
const LONGEST: usize = 4096;

/// A path of a call, read from the step's memory once.
pub struct Named {
    /// Where it starts, if it is relative.
    folder: Option<OwnedFd>,
    path: Vec<u8>,
    resolve: u64,
    /// Whether it names what a step has open, by /proc.
    is_magic: bool,
}

/// A file that the guard holds by a descriptor that neither reads nor writes.
pub struct Seen {
    pub file: File,
    pub meta: Metadata,
    /// Its path, as the kernel names it.
    pub path: Vec<u8>,
}

/// A name in a folder that the guard holds.
pub struct Spot {
    pub folder: OwnedFd,
    pub name: CString,
    pub path: Vec<u8>,
}

/// The text at an address of a step, up to its 0.
fn text(tid: Tid, mut at: u64) -> Result<Vec<u8>, Errno> {
    let mut text = Vec::new();
    while text.len() < LONGEST {
        let mut bytes = [0u8; 256];
        // Never over the end of a page, behind which there may be nothing.
        let wanted = 256 - (at % 256) as usize;
        let count = sys::memory(tid, at, &mut bytes[..wanted]);
        if count == 0 {
            return Err(Errno(EFAULT));
        }
        if let Some(end) = bytes[..count].iter().position(|&byte| byte == 0) {
            text.extend(&bytes[..end]);
            return Ok(text);
        }
        text.extend(&bytes[..count]);
        at += count as u64;
    }
    Err(Errno(36)) // the name is too long
}

fn c_string(bytes: &[u8]) -> Result<CString, Errno> {
    CString::new(bytes).map_err(|_| Errno(EINVAL))
}

impl Named {
    /// The path at an address, from the folder of a descriptor. `steps` are the processes of the run.
    pub fn read(
        tid: Tid,
        process: Tid,
        folder: i32,
        at: u64,
        resolve: u64,
        steps: &HashSet<Tid>,
    ) -> Result<Named, Errno> {
        Named::new(tid, process, folder, text(tid, at)?, resolve, steps)
    }

    fn new(
        tid: Tid,
        process: Tid,
        folder: i32,
        path: Vec<u8>,
        resolve: u64,
        steps: &HashSet<Tid>,
    ) -> Result<Named, Errno> {
        if path.is_empty() {
            return Err(Errno(ENOENT));
        }
        let is_plain = resolve == 0;
        let path = if is_plain { own(path, tid, process) } else { path };
        let is_magic = is_plain && is_magic(&path, steps);
        let folder = match path.starts_with(b"/") {
            true => None,
            false => Some(start(tid, folder)?),
        };
        Ok(Named { folder, path, resolve: resolve | NO_MAGIC_LINKS, is_magic })
    }

    /// A descriptor of the step itself, as execveat names it without a path.
    pub fn descriptor(tid: Tid, number: i32) -> Named {
        let path = format!("/proc/{tid}/fd/{number}").into_bytes();
        Named { folder: None, path, resolve: 0, is_magic: true }
    }

    /// A path of the guard's own, as the interpreter of a script has one.
    pub fn plain(tid: Tid, path: &[u8]) -> Result<Named, Errno> {
        Named::new(tid, tid, AT_FDCWD, path.to_vec(), 0, &HashSet::new())
    }

    /// The last name of the path.
    pub fn last(&self) -> &[u8] {
        self.path.rsplit(|&byte| byte == b'/').next().unwrap_or_default()
    }

    fn folder(&self) -> RawFd {
        self.folder.as_ref().map_or(AT_FDCWD, |folder| folder.as_raw_fd())
    }

    /// The file that it names.
    pub fn find(&self, flags: u64) -> Result<Seen, Errno> {
        let resolve = if self.is_magic { 0 } else { self.resolve };
        let flags = O_PATH | flags & (O_NOFOLLOW | O_DIRECTORY);
        let file = sys::open(self.folder(), &c_string(&self.path)?, flags, 0, resolve)?;
        Seen::new(file)
    }

    /// The folder that a last name stands in, and the name; the name need not be there.
    pub fn spot(&self) -> Result<Spot, Errno> {
        let path = match self.path.iter().rposition(|&byte| byte != b'/') {
            Some(last) => &self.path[..=last],
            None => return Err(Errno(EBUSY)),
        };
        let slash = path.iter().rposition(|&byte| byte == b'/');
        let (above, name) = match slash {
            None => (&b"."[..], path),
            Some(0) => (&b"/"[..], &path[1..]),
            Some(at) => (&path[..at], &path[at + 1..]),
        };
        if name == b"." || name == b".." {
            return Err(Errno(EBUSY));
        }
        let folder = sys::open(self.folder(), &c_string(above)?, O_PATH | O_DIRECTORY, 0, self.resolve)?;
        let mut full = real_path(&folder)?;
        if full != b"/" {
            full.push(b'/');
        }
        full.extend(name);
        Ok(Spot { folder, name: c_string(name)?, path: full })
    }

    /// The same for a file that is to be made: a name that ends with / is a folder's.
    pub fn spot_of_new(&self) -> Result<Spot, Errno> {
        if self.path.ends_with(b"/") {
            return Err(Errno(EISDIR));
        }
        self.spot().map_err(|Errno(error)| Errno(if error == EBUSY { EISDIR } else { error }))
    }
}

impl Seen {
    fn new(file: OwnedFd) -> Result<Seen, Errno> {
        let file = File::from(file);
        let meta = file.metadata()?;
        let path = fs::read_link(own_path(&file))?.into_os_string().into_vec();
        Ok(Seen { file, meta, path })
    }

    pub fn key(&self) -> crate::proc::Key {
        use std::os::unix::fs::MetadataExt;
        (self.meta.dev(), self.meta.ino())
    }

    /// Whether it is on one of these devices.
    pub fn is_on(&self, devices: &[u64]) -> bool {
        devices.contains(&self.key().0)
    }

    /// Opens the very file, for the step.
    pub fn open(&self, flags: u64) -> Result<OwnedFd, Errno> {
        sys::open(AT_FDCWD, &c_string(own_path(&self.file).as_bytes())?, flags, 0, 0)
    }

    /// The path by which the guard itself has it.
    pub fn own_path(&self) -> Result<CString, Errno> {
        c_string(own_path(&self.file).as_bytes())
    }
}

impl Spot {
    /// What stands there now; a link is not followed.
    pub fn find(&self) -> Result<Seen, Errno> {
        Seen::new(sys::open(self.folder.as_raw_fd(), &self.name, O_PATH | O_NOFOLLOW, 0, NO_MAGIC_LINKS)?)
    }
}

fn own_path(file: &impl AsRawFd) -> String {
    format!("/proc/self/fd/{}", file.as_raw_fd())
}

fn real_path(file: &impl AsRawFd) -> Result<Vec<u8>, Errno> {
    let path = fs::read_link(own_path(file))?.into_os_string().into_vec();
    if path.starts_with(b"/") && !path.ends_with(b" (deleted)") {
        Ok(path)
    } else {
        Err(Errno(ENOENT))
    }
}

/// The folder that a relative path of a step starts at.
fn start(tid: Tid, folder: i32) -> Result<OwnedFd, Errno> {
    let path = match folder {
        AT_FDCWD => format!("/proc/{tid}/cwd"),
        number if number >= 0 => format!("/proc/{tid}/fd/{number}"),
        _ => return Err(Errno(9)),
    };
    sys::open(AT_FDCWD, &c_string(path.as_bytes())?, O_PATH, 0, 0)
        .map_err(|Errno(error)| Errno(if error == ENOENT { 9 } else { error }))
}

/// /proc/self, /dev/fd and their kin are the step's, and not the guard's.
fn own(path: Vec<u8>, tid: Tid, process: Tid) -> Vec<u8> {
    let fronts = [
        ("/proc/self", format!("/proc/{process}")),
        ("/proc/thread-self", format!("/proc/{process}/task/{tid}")),
        ("/dev/fd", format!("/proc/{process}/fd")),
        ("/dev/stdin", format!("/proc/{process}/fd/0")),
        ("/dev/stdout", format!("/proc/{process}/fd/1")),
        ("/dev/stderr", format!("/proc/{process}/fd/2")),
    ];
    for (front, own) in fronts {
        if let Some(rest) = path.strip_prefix(front.as_bytes()) {
            if rest.is_empty() || rest.starts_with(b"/") {
                return [own.as_bytes(), rest].concat();
            }
        }
    }
    path
}

/// Whether a path is `/proc/PID/fd/N`, `/proc/PID/task/TID/fd/N` or `/proc/PID/exe` of a step.
fn is_magic(path: &[u8], steps: &HashSet<Tid>) -> bool {
    let Some(rest) = path.strip_prefix(b"/proc/") else { return false };
    let parts: Vec<&[u8]> = rest.split(|&byte| byte == b'/').collect();
    let number = |part: &[u8]| -> Option<Tid> { std::str::from_utf8(part).ok()?.parse().ok() };
    let is_step = |part: &[u8]| number(part).is_some_and(|pid| steps.contains(&pid));
    match parts[..] {
        [pid, b"exe"] => is_step(pid),
        [pid, b"fd", descriptor] | [pid, b"task", _, b"fd", descriptor] => {
            is_step(pid) && number(descriptor).is_some_and(|number| number >= 0)
        }
        _ => false,
    }
}

/// What a link of /proc that is not followed comes to, in place of "too many links".
pub fn refuse_magic(Errno(error): Errno, path: &Named) -> Errno {
    let is_proc = path.path.starts_with(b"/proc/") || path.path.starts_with(b"/dev/");
    Errno(if error == crate::calls::ELOOP && is_proc { EACCES } else { error })
}

#[cfg(test)]
mod tests {
    use super::*;
    use std::os::unix::ffi::OsStrExt;

    fn me() -> Tid {
        std::process::id() as Tid
    }

    fn named(path: &str) -> Named {
        Named::new(me(), me(), AT_FDCWD, path.as_bytes().to_vec(), 0, &HashSet::from([me()])).unwrap()
    }

    #[test]
    fn a_path_is_found_as_the_kernel_names_it() {
        let folder = std::env::temp_dir().join(format!("guard-paths-{}", me()));
        fs::create_dir_all(&folder).unwrap();
        let folder = fs::canonicalize(&folder).unwrap();
        fs::write(folder.join("a"), "x").unwrap();
        let _ = fs::remove_file(folder.join("link"));
        std::os::unix::fs::symlink("a", folder.join("link")).unwrap();
        let seen = named(folder.join("link").to_str().unwrap()).find(0).unwrap();
        assert_eq!(seen.path, folder.join("a").as_os_str().as_bytes());
        let spot = named(&format!("{}/./b", folder.display())).spot().unwrap();
        assert_eq!(spot.path, folder.join("b").as_os_str().as_bytes());
        assert_eq!(spot.name.as_bytes(), b"b");
        assert_eq!(named("/tmp/x/").spot_of_new().err(), Some(Errno(EISDIR)));
        fs::remove_dir_all(&folder).unwrap();
    }

    #[test]
    fn what_a_step_calls_its_own_is_the_steps() {
        let own = |path: &str| String::from_utf8(own(path.as_bytes().to_vec(), 8, 7)).unwrap();
        assert_eq!(own("/proc/self/maps"), "/proc/7/maps");
        assert_eq!(own("/proc/thread-self/fd/3"), "/proc/7/task/8/fd/3");
        assert_eq!(own("/dev/stdin"), "/proc/7/fd/0");
        assert_eq!(own("/dev/fd/63"), "/proc/7/fd/63");
        assert_eq!(own("/dev/fdx"), "/dev/fdx");
        assert_eq!(own("/proc/selfish"), "/proc/selfish");
    }

    #[test]
    fn links_to_what_others_have_open_are_not_followed() {
        let steps = HashSet::from([7]);
        assert!(is_magic(b"/proc/7/fd/3", &steps) && is_magic(b"/proc/7/exe", &steps));
        assert!(!is_magic(b"/proc/8/fd/3", &steps) && !is_magic(b"/proc/7/fd/3/x", &steps));
        let other = Named::new(me(), 1, AT_FDCWD, b"/proc/self/cwd/x".to_vec(), 0, &steps).unwrap();
        assert!(other.find(0).is_err());
        assert_eq!(named("/proc/self/../self/fd/0").find(0).err(), Some(Errno(crate::calls::ELOOP)));
    }
}

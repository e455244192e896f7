//! The kernel: every foreign declaration and every unsafe call of the guard, each behind a function that is safe. Here the
//! declarations, and files; the first process, the listener and threads have a file each.
//!
//! std links the C library. What is declared here is that library's, with the types of Linux on x86-64; the structures
//! are those of linux/seccomp.h, linux/ptrace.h and linux/openat2.h.
#![allow(unsafe_code)]

use std::ffi::{c_char, c_int, c_long, c_void, CStr};
use std::io;
use std::os::fd::{AsRawFd, BorrowedFd, FromRawFd, OwnedFd, RawFd};

mod first;
mod listener;
mod threads;

pub use first::*;
pub use listener::*;
pub use threads::*;

use first::SignalSet;
use listener::PollItem;

/// A thread of a step, by the kernel's number. A process has that of its first thread.
pub type Tid = i32;

/// What a call of the kernel failed with.
#[derive(Clone, Copy, Debug, PartialEq, Eq)]
pub struct Errno(pub i32);

impl Errno {
    fn last() -> Errno {
        Errno(io::Error::last_os_error().raw_os_error().unwrap_or(crate::calls::EIO))
    }
}

impl From<io::Error> for Errno {
    fn from(error: io::Error) -> Errno {
        Errno(error.raw_os_error().unwrap_or(crate::calls::EIO))
    }
}

impl std::fmt::Display for Errno {
    fn fmt(&self, f: &mut std::fmt::Formatter<'_>) -> std::fmt::Result {
        io::Error::from_raw_os_error(self.0).fmt(f)
    }
}

extern "C" {
    fn syscall(number: c_long, ...) -> c_long;
    fn fork() -> c_int;
    fn waitpid(pid: c_int, status: *mut c_int, options: c_int) -> c_int;
    fn ptrace(request: c_long, ...) -> c_long;
    fn execvp(file: *const c_char, arguments: *const *const c_char) -> c_int;
    fn _exit(code: c_int) -> !;
    fn prctl(option: c_int, ...) -> c_int;
    fn ioctl(descriptor: c_int, request: u64, ...) -> c_int;
    fn pipe2(ends: *mut c_int, flags: c_int) -> c_int;
    fn dup2(from: c_int, to: c_int) -> c_int;
    fn fcntl(descriptor: c_int, command: c_int, ...) -> c_int;
    fn read(descriptor: c_int, to: *mut c_void, length: usize) -> isize;
    fn write(descriptor: c_int, from: *const c_void, length: usize) -> isize;
    fn poll(list: *mut PollItem, length: u64, timeout: c_int) -> c_int;
    fn sigprocmask(how: c_int, set: *const SignalSet, old: *mut SignalSet) -> c_int;
    fn signalfd(descriptor: c_int, set: *const SignalSet, flags: c_int) -> c_int;
    fn signal(number: c_int, handler: usize) -> usize;
    fn kill(pid: c_int, signal: c_int) -> c_int;
    fn umask(mask: u32) -> u32;
    fn geteuid() -> u32;
    fn setrlimit(resource: c_int, limit: *const [u64; 2]) -> c_int;
    fn process_vm_readv(
        pid: c_int,
        to: *const Part,
        tos: u64,
        from: *const Part,
        froms: u64,
        flags: u64,
    ) -> isize;
}

#[repr(C)]
struct Part {
    base: u64,
    length: usize,
}

#[repr(C)]
struct OpenHow {
    flags: u64,
    mode: u64,
    resolve: u64,
}

pub const O_WRONLY: u64 = 1;
pub const O_CREAT: u64 = 0o100;
pub const O_EXCL: u64 = 0o200;
pub const O_NOCTTY: u64 = 0o400;
pub const O_TRUNC: u64 = 0o1000;
pub const O_NONBLOCK: u64 = 0o4000;
pub const O_DIRECTORY: u64 = 0o20_0000;
pub const O_NOFOLLOW: u64 = 0o40_0000;
pub const O_CLOEXEC: u64 = 0o200_0000;
pub const O_PATH: u64 = 0o1000_0000;
pub const O_TMPFILE: u64 = 0o2000_0000;
/// The flags that openat2 knows; it refuses all others, which open and openat pass over.
pub const O_KNOWN: u64 = 0o3777_7703;
/// Links of /proc that lead to what a process has open are not followed.
pub const NO_MAGIC_LINKS: u64 = 2;
pub const AT_FDCWD: RawFd = -100;

/// Calls that the C library of a fresh machine has no function for, by their numbers.
const SYS_LINKAT: c_long = 265;
const SYS_RENAMEAT2: c_long = 316;
const SYS_SECCOMP: c_long = 317;
const SYS_PIDFD_OPEN: c_long = 434;
const SYS_CLOSE_RANGE: c_long = 436;
const SYS_OPENAT2: c_long = 437;
const SYS_PIDFD_GETFD: c_long = 438;

fn owned(number: c_long) -> Result<OwnedFd, Errno> {
    match RawFd::try_from(number) {
        // Sound: the kernel has just made it for the guard, and nothing else has it.
        Ok(number) if number >= 0 => Ok(unsafe { OwnedFd::from_raw_fd(number) }),
        _ => Err(Errno::last()),
    }
}

fn done(result: c_long) -> Result<(), Errno> {
    if result < 0 {
        Err(Errno::last())
    } else {
        Ok(())
    }
}

// Files.

/// Opens a path from a folder (or [`AT_FDCWD`]), for the guard alone.
pub fn open(folder: RawFd, path: &CStr, flags: u64, mode: u64, resolve: u64) -> Result<OwnedFd, Errno> {
    let how = OpenHow { flags: flags | O_CLOEXEC, mode, resolve };
    // Sound: the path ends with a 0, and the structure lives as long as the call.
    owned(unsafe {
        syscall(SYS_OPENAT2, folder, path.as_ptr(), &how as *const OpenHow, size_of::<OpenHow>())
    })
}

pub fn rename(from: BorrowedFd, old: &CStr, to: BorrowedFd, new: &CStr, flags: u32) -> Result<(), Errno> {
    let (from, to) = (from.as_raw_fd(), to.as_raw_fd());
    // Sound: both names end with a 0.
    done(unsafe { syscall(SYS_RENAMEAT2, from, old.as_ptr(), to, new.as_ptr(), flags) })
}

/// Makes another name for a file that the guard holds.
pub fn link(held: &CStr, to: BorrowedFd, new: &CStr) -> Result<(), Errno> {
    const FOLLOW: c_int = 0x400;
    // Sound: both names end with a 0.
    done(unsafe { syscall(SYS_LINKAT, AT_FDCWD, held.as_ptr(), to.as_raw_fd(), new.as_ptr(), FOLLOW) })
}

/// The guard's own mask for new files, while it makes one for a step; the one that it had.
pub fn set_umask(mask: u32) -> u32 {
    // Sound: it takes a number. The guard has one thread.
    unsafe { umask(mask) }
}

/// Takes O_NONBLOCK off.
pub fn make_blocking(file: BorrowedFd, flags: u64) -> Result<(), Errno> {
    const SET_FLAGS: c_int = 4;
    // Sound: numbers alone.
    done(unsafe { fcntl(file.as_raw_fd(), SET_FLAGS, (flags & !O_NONBLOCK) as c_int) }.into())
}

pub fn is_root() -> bool {
    // Sound: it takes nothing.
    unsafe { geteuid() == 0 }
}

/// Bytes of a step's memory; how many could be read.
pub fn memory(tid: Tid, at: u64, to: &mut [u8]) -> usize {
    let here = Part { base: to.as_mut_ptr() as u64, length: to.len() };
    let there = Part { base: at, length: to.len() };
    // Sound: the kernel writes at most as many bytes as the slice has; what is there is another process's memory, and
    // only read.
    let count = unsafe { process_vm_readv(tid, &here, 1, &there, 1, 0) };
    usize::try_from(count).unwrap_or(0)
}

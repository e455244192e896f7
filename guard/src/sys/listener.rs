//! The listener: calls that wait for the guard's answer.

use std::ffi::c_int;
use std::os::fd::{AsRawFd, BorrowedFd, OwnedFd, RawFd};

use super::{done, ioctl, owned, poll, syscall, Errno, Tid, O_CLOEXEC, SYS_PIDFD_GETFD, SYS_PIDFD_OPEN};

#[repr(C)]
pub(super) struct PollItem {
    descriptor: c_int,
    events: i16,
    happened: i16,
}

/// A call that waits for the guard's answer.
#[repr(C)]
#[derive(Clone, Copy, Debug, Default)]
pub struct Asked {
    pub id: u64,
    pub tid: u32,
    flags: u32,
    pub call: i32,
    architecture: u32,
    instruction: u64,
    pub arguments: [u64; 6],
}

#[repr(C)]
struct Response {
    id: u64,
    value: i64,
    error: i32,
    flags: u32,
}

#[repr(C)]
struct Gift {
    id: u64,
    flags: u32,
    from: u32,
    to: u32,
    to_flags: u32,
}

const NOTIF_RECV: u64 = 0xC050_2100;
const NOTIF_SEND: u64 = 0xC018_2101;
const NOTIF_ADDFD: u64 = 0x4018_2103;

pub fn receive(listener: BorrowedFd) -> Option<Asked> {
    let mut asked = Asked::default();
    // Sound: the structure is the kernel's, and all 0 as it wants it.
    let result = unsafe { ioctl(listener.as_raw_fd(), NOTIF_RECV, &mut asked as *mut Asked) };
    (result == 0).then_some(asked)
}

/// The call comes back with 0, or fails with an error; the kernel does not make it.
pub fn respond(listener: BorrowedFd, id: u64, result: Result<(), Errno>) {
    let error = result.err().map_or(0, |Errno(error)| -error);
    let response = Response { id, value: 0, error, flags: 0 };
    // Sound: the structure is the kernel's. It fails where the thread has been killed, and then there is no more to do.
    unsafe { ioctl(listener.as_raw_fd(), NOTIF_SEND, &response as *const Response) };
}

/// The call comes back with a descriptor for this file.
pub fn give(listener: BorrowedFd, id: u64, file: BorrowedFd, flags: u64) -> Result<(), Errno> {
    const AND_SEND: u32 = 2;
    let from = file.as_raw_fd() as u32;
    let gift = Gift { id, flags: AND_SEND, from, to: 0, to_flags: (flags & O_CLOEXEC) as u32 };
    // Sound: the structure is the kernel's, and the file is open.
    done(unsafe { ioctl(listener.as_raw_fd(), NOTIF_ADDFD, &gift as *const Gift) }.into())
}

/// A descriptor of another process.
pub fn descriptor_of(pid: Tid, number: RawFd) -> Result<OwnedFd, Errno> {
    // Sound: numbers alone.
    let process = owned(unsafe { syscall(SYS_PIDFD_OPEN, pid, 0) })?;
    owned(unsafe { syscall(SYS_PIDFD_GETFD, process.as_raw_fd(), number, 0) })
}

/// Waits until one of the two has something; which have. A listener that nobody is left to ask says so by the third.
pub fn await_either(listener: Option<BorrowedFd>, signals: BorrowedFd) -> (bool, bool, bool) {
    let item = |descriptor| PollItem { descriptor, events: 1, happened: 0 };
    let mut items = [item(listener.map_or(-1, |l| l.as_raw_fd())), item(signals.as_raw_fd())];
    // Sound: two items, as it is told.
    unsafe { poll(items.as_mut_ptr(), 2, -1) };
    (items[0].happened & 1 != 0, items[1].happened != 0, items[0].happened & 0x10 != 0)
}

#[cfg(test)]
mod tests {
    use super::*;

    #[test]
    fn the_structures_are_the_kernels() {
        assert_eq!([size_of::<Asked>(), size_of::<Response>(), size_of::<Gift>()], [80, 24, 24]);
    }
}

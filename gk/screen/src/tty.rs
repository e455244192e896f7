//! The terminal itself: its size, what is typed, and that it is left as it was found.
//!
//! It is asked through functions of C's library, which every program in Rust on Linux is linked with.

use std::ffi::{c_int, c_ulong};
use std::fs::{File, OpenOptions};
use std::io::{self, IsTerminal, Read};
use std::os::fd::{AsRawFd, RawFd};
use std::sync::atomic::{AtomicU32, Ordering};
use std::time::Duration;

use crate::cli::{write, Failure};
use crate::layout::{Pieces, Size};
use crate::watch::{Window, Woken};

#[repr(C)]
#[derive(Clone, Copy, Default)]
struct WindowSize {
    rows: u16,
    columns: u16,
    pixels: [u16; 2],
}

/// How the terminal treats what is typed: `struct termios` of Linux.
#[repr(C)]
#[derive(Clone, Copy)]
struct Mode {
    input: u32,
    output: u32,
    control: u32,
    local: u32,
    line: u8,
    characters: [u8; 32],
    speeds: [u32; 2],
}

#[repr(C)]
struct PollItem {
    descriptor: c_int,
    events: i16,
    found: i16,
}

extern "C" {
    fn ioctl(descriptor: c_int, request: c_ulong, ...) -> c_int;
    fn tcgetattr(descriptor: c_int, mode: *mut Mode) -> c_int;
    fn tcsetattr(descriptor: c_int, when: c_int, mode: *const Mode) -> c_int;
    fn poll(list: *mut PollItem, length: c_ulong, timeout: c_int) -> c_int;
    fn signal(number: c_int, handler: usize) -> usize;
    fn raise(number: c_int) -> c_int;
}

const TIOCGWINSZ: c_ulong = 0x5413;
const TCSAFLUSH: c_int = 2;
/// Bits of `local`: whole lines are handed on; what is typed is shown.
const ICANON: u32 = 2;
const ECHO: u32 = 8;
/// Which of the characters say how long a read waits: for so many bytes, and so long.
const VTIME: usize = 5;
const VMIN: usize = 6;
const POLLIN: i16 = 1;

const SIGHUP: c_int = 1;
const SIGINT: c_int = 2;
const SIGQUIT: c_int = 3;
const SIGTERM: c_int = 15;
const SIGSTOP: c_int = 19;
const SIGTSTP: c_int = 20;
const SIGWINCH: c_int = 28;
const ENDS: [c_int; 4] = [SIGHUP, SIGINT, SIGQUIT, SIGTERM];
const SIG_DFL: usize = 0;
const SIG_IGN: usize = 1;

/// Another screen, without a cursor and with no line broken by the terminal; and back.
const ENTER: &str = "\u{1b}[?1049h\u{1b}[?25l\u{1b}[?7l";
const LEAVE: &str = "\u{1b}[?7h\u{1b}[?25h\u{1b}[?1049l";

/// The signals that have come and were not looked at, each a bit.
static CAME: AtomicU32 = AtomicU32::new(0);

extern "C" fn note(number: c_int) {
    CAME.fetch_or(1 << number, Ordering::SeqCst);
}

/// Whether a signal has come since this was asked last.
fn has_come(number: c_int) -> bool {
    CAME.fetch_and(!(1 << number), Ordering::SeqCst) & (1 << number) != 0
}

/// The terminal that standard output is, with a keyboard. It is left as it was found where this goes, at a panic too.
pub struct Tty {
    keyboard: File,
    found: Mode,
    /// What was done at these signals before.
    handlers: Vec<(c_int, usize)>,
    is_coloured: bool,
}

impl Tty {
    /// The terminal, where standard output is one that can be drawn on and keys can be read.
    pub fn open(is_coloured: bool) -> Option<Tty> {
        let kind = std::env::var("TERM").unwrap_or_default();
        let can_draw = io::stdout().is_terminal() && !kind.is_empty() && kind != "dumb";
        if !can_draw || !cfg!(target_os = "linux") {
            return None;
        }
        let keyboard = OpenOptions::new().read(true).write(true).open("/dev/tty").ok()?;
        let found = mode(keyboard.as_raw_fd())?;
        let mut tty = Tty { keyboard, found, handlers: Vec::new(), is_coloured };
        for number in ENDS.into_iter().chain([SIGTSTP, SIGWINCH]) {
            // Sound: the handler only sets a bit.
            let before = unsafe { signal(number, note as extern "C" fn(c_int) as usize) };
            // What was started so that a signal does not end it, as by nohup, is not ended by it.
            if before == SIG_IGN {
                unsafe { signal(number, SIG_IGN) };
            }
            tty.handlers.push((number, before));
        }
        tty.enter().ok()?;
        Some(tty)
    }

    fn enter(&self) -> Result<(), Failure> {
        let mut raw = self.found;
        raw.local &= !(ICANON | ECHO);
        (raw.characters[VMIN], raw.characters[VTIME]) = (1, 0);
        set_mode(self.keyboard.as_raw_fd(), &raw);
        write(ENTER.as_bytes())
    }

    fn leave(&self) {
        let _ = write(LEAVE.as_bytes());
        set_mode(self.keyboard.as_raw_fd(), &self.found);
    }

    /// Does what the signals ask that have come: ends, by the same signal, or stops and goes on.
    fn obey(&self) -> Result<Option<Woken>, Failure> {
        if let Some(number) = ENDS.into_iter().find(|&number| has_come(number)) {
            self.leave();
            // Sound: both take numbers. The program ends here.
            unsafe {
                signal(number, SIG_DFL);
                raise(number);
            }
            return Ok(Some(Woken::Gone));
        }
        if has_come(SIGTSTP) {
            self.leave();
            // Sound: it takes a number, and comes back when the program is to go on.
            unsafe { raise(SIGSTOP) };
            self.enter()?;
            return Ok(Some(Woken::Again));
        }
        Ok(has_come(SIGWINCH).then_some(Woken::Again))
    }

    fn typed(&mut self) -> Woken {
        let mut part = [0; 256];
        match self.keyboard.read(&mut part) {
            Ok(count @ 1..) => Woken::Typed(part[..count].to_vec()),
            Err(error) if error.kind() == io::ErrorKind::Interrupted => Woken::Nothing,
            _ => Woken::Gone,
        }
    }
}

impl Drop for Tty {
    fn drop(&mut self) {
        self.leave();
        for &(number, before) in &self.handlers {
            // Sound: it is what `signal` gave back.
            unsafe { signal(number, before) };
        }
    }
}

impl Window for Tty {
    fn size(&self) -> Size {
        size()
    }

    fn show(&mut self, lines: &[Pieces]) -> Result<(), Failure> {
        let mut text = String::new();
        for (row, line) in (1..).zip(lines) {
            text.push_str(&format!("\u{1b}[{row};1H\u{1b}[2K"));
            text.extend(line.iter().map(|piece| piece.0.coloured(&piece.1, self.is_coloured)));
        }
        text.push_str("\u{1b}[J");
        write(text.as_bytes())
    }

    fn wait(&mut self, most: Duration, for_input: bool) -> Result<Woken, Failure> {
        if let Some(woken) = self.obey()? {
            return Ok(woken);
        }
        let item = |descriptor: RawFd| PollItem { descriptor, events: POLLIN, found: 0 };
        let mut list = [item(self.keyboard.as_raw_fd()), item(0)];
        let length = if for_input { 2 } else { 1 };
        // Sound: the list has at least so many items, which are C's.
        let count = unsafe { poll(list.as_mut_ptr(), length, most.as_millis() as c_int) };
        if let Some(woken) = self.obey()? {
            return Ok(woken);
        }
        Ok(match list {
            _ if count <= 0 => Woken::Nothing,
            [keyboard, _] if keyboard.found != 0 => self.typed(),
            _ => Woken::Input,
        })
    }
}

fn mode(descriptor: RawFd) -> Option<Mode> {
    let empty =
        Mode { input: 0, output: 0, control: 0, local: 0, line: 0, characters: [0; 32], speeds: [0; 2] };
    let mut mode = empty;
    // Sound: it writes one `struct termios`.
    (unsafe { tcgetattr(descriptor, &mut mode) } == 0).then_some(mode)
}

fn set_mode(descriptor: RawFd, mode: &Mode) {
    // Sound: it reads one `struct termios`. Where it fails, the terminal is gone.
    unsafe { tcsetattr(descriptor, TCSAFLUSH, mode) };
}

/// The size of the terminal that standard output is; else what the environment says, or 80 columns and 24 lines.
pub fn size() -> Size {
    let mut size = WindowSize::default();
    // Sound: it writes one `struct winsize`, or nothing.
    unsafe { ioctl(1, TIOCGWINSZ, &mut size) };
    let given = |name: &str| std::env::var(name).ok().and_then(|value| value.parse().ok());
    let known = |asked: u16, name: &str, usual: usize| match asked {
        0 => given(name).filter(|&count| count > 0).unwrap_or(usual),
        _ => usize::from(asked),
    };
    Size { columns: known(size.columns, "COLUMNS", 80), rows: known(size.rows, "LINES", 24) }
}

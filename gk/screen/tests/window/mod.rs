//! The screen on a terminal that the test holds the other end of.

use std::ffi::{c_char, c_int, c_ulong, CStr};
use std::fs::{File, OpenOptions};
use std::io::{Read, Write};
use std::os::fd::{AsRawFd, FromRawFd};
use std::os::unix::process::{CommandExt, ExitStatusExt};
use std::process::{Child, Command, ExitStatus, Stdio};
use std::sync::{Arc, Mutex};
use std::thread::sleep;
use std::time::{Duration, Instant};

use crate::{Scratch, MARCH, PROGRAM};

extern "C" {
    fn posix_openpt(flags: c_int) -> c_int;
    fn grantpt(descriptor: c_int) -> c_int;
    fn unlockpt(descriptor: c_int) -> c_int;
    fn ptsname_r(descriptor: c_int, name: *mut c_char, length: usize) -> c_int;
    fn ioctl(descriptor: c_int, request: c_ulong, ...) -> c_int;
    fn tcgetattr(descriptor: c_int, mode: *mut [u8; 128]) -> c_int;
    fn setsid() -> c_int;
    fn signal(number: c_int, handler: usize) -> usize;
    fn kill(process: c_int, signal: c_int) -> c_int;
}

const O_RDWR: c_int = 2;
const O_NOCTTY: c_int = 0o400;
const O_CLOEXEC: c_int = 0o200_0000;
const TIOCSCTTY: c_ulong = 0x540e;
const TIOCSWINSZ: c_ulong = 0x5414;
const SIG_DFL: usize = 0;
const SIGHUP: c_int = 1;
const SIGINT: c_int = 2;
const SIGQUIT: c_int = 3;
const SIGTERM: c_int = 15;
const SIGCONT: c_int = 18;
const SIGSTOP: c_int = 19;
const SIGTSTP: c_int = 20;
const SIGWINCH: c_int = 28;
/// Those that the program or the kernel answers; who runs the tests may have them ignored, and what is ignored stays so.
const OWN: [c_int; 7] = [SIGHUP, SIGINT, SIGQUIT, SIGTERM, SIGCONT, SIGTSTP, SIGWINCH];

/// A busy machine may take its time.
const MOST: Duration = Duration::from_secs(120);

/// The program on a terminal.
struct Session {
    master: File,
    /// The program's end, kept to ask how it is set.
    slave: File,
    found: [u8; 128],
    child: Child,
    seen: Arc<Mutex<Vec<u8>>>,
}

/// A terminal of this size: our end, and the program's. None where the machine has none to give, which is said past what
/// the tests keep back, for tools/screen-test.
fn terminal(columns: u16, rows: u16) -> Option<(File, File)> {
    let opened = opened(columns, rows);
    if let Err(error) = &opened {
        let _ = writeln!(std::io::stderr(), "gk screen: no pseudo-terminal: {error}; no window was tried");
    }
    opened.ok()
}

fn opened(columns: u16, rows: u16) -> std::io::Result<(File, File)> {
    // Sound: each takes a descriptor that is open, and a place for a name with its length.
    let (master, name) = unsafe {
        let master = posix_openpt(O_RDWR | O_NOCTTY | O_CLOEXEC);
        if master < 0 {
            return Err(std::io::Error::last_os_error());
        }
        let mut name: [c_char; 64] = [0; 64];
        let file = File::from_raw_fd(master);
        // What is no terminal, in the place of one, gives none.
        if grantpt(master) != 0
            || unlockpt(master) != 0
            || ptsname_r(master, name.as_mut_ptr(), name.len()) != 0
        {
            return Err(std::io::Error::last_os_error());
        }
        (file, CStr::from_ptr(name.as_ptr()).to_string_lossy().into_owned())
    };
    let mut options = OpenOptions::new();
    std::os::unix::fs::OpenOptionsExt::custom_flags(&mut options, O_NOCTTY);
    let slave = options.read(true).write(true).open(name)?;
    resize(&master, columns, rows);
    Ok((master, slave))
}

fn resize(master: &File, columns: u16, rows: u16) {
    let size: [u16; 4] = [rows, columns, 0, 0];
    // Sound: it reads one `struct winsize`.
    assert_eq!(unsafe { ioctl(master.as_raw_fd(), TIOCSWINSZ, &size) }, 0);
}

fn mode(terminal: &File) -> [u8; 128] {
    let mut mode = [0; 128];
    // Sound: it writes one `struct termios`, which is shorter.
    assert_eq!(unsafe { tcgetattr(terminal.as_raw_fd(), &mut mode) }, 0);
    mode
}

fn send(child: &Child, number: c_int) {
    // Sound: it takes two numbers. The program is a child that was not waited for.
    assert_eq!(unsafe { kill(child.id() as c_int, number) }, 0);
}

/// Whether a child is stopped, by what the kernel says of it.
fn is_stopped(child: &Child) -> bool {
    let said = std::fs::read_to_string(format!("/proc/{}/stat", child.id())).unwrap_or_default();
    said.rsplit(')').next().is_some_and(|rest| rest.starts_with(" T"))
}

/// Whether the kernel stops what leads a session of its own, as the window does here; where it does not, that is said, for
/// tools/screen-test.
fn can_stop() -> bool {
    let mut command = Command::new("sleep");
    // Sound: a call of the kernel.
    unsafe {
        command.arg("100").pre_exec(|| {
            setsid();
            Ok(())
        });
    }
    let mut child = command.spawn().expect("sleep starts");
    send(&child, SIGSTOP);
    let began = Instant::now();
    while !is_stopped(&child) && began.elapsed() < MOST / 4 {
        sleep(Duration::from_millis(10));
    }
    let is_stopped = is_stopped(&child);
    let _ = child.kill().and_then(|()| child.wait());
    if !is_stopped {
        let _ = writeln!(
            std::io::stderr(),
            "gk screen: a process is not stopped by SIGSTOP; no stop was tried"
        );
    }
    is_stopped
}

impl Session {
    /// None where there is no terminal for it.
    fn new(args: &[&str], columns: u16, rows: u16) -> Option<Session> {
        let (master, slave) = terminal(columns, rows)?;
        let end = || Stdio::from(slave.try_clone().expect("a descriptor"));
        let mut command = Command::new(PROGRAM);
        command.args(args).env("TERM", "xterm").env_remove("NO_COLOR");
        command.stdin(end()).stdout(end()).stderr(end());
        // Sound: calls of the kernel, by which the terminal becomes the program's own, and signals do what they do.
        unsafe {
            command.pre_exec(|| {
                setsid();
                ioctl(0, TIOCSCTTY, 0);
                // A shell has what it runs behind its back ignore some of them, and a program without a terminal SIGTSTP.
                for number in OWN {
                    signal(number, SIG_DFL);
                }
                Ok(())
            });
        }
        let found = mode(&slave);
        let child = command.spawn().expect("the program starts");
        let seen = Arc::new(Mutex::new(Vec::new()));
        let (mut reader, shared) = (master.try_clone().expect("a descriptor"), Arc::clone(&seen));
        std::thread::spawn(move || {
            let mut part = [0; 4096];
            while let Ok(count @ 1..) = reader.read(&mut part) {
                shared.lock().expect("the text").extend(&part[..count]);
            }
        });
        Some(Session { master, slave, found, child, seen })
    }

    fn all(&self) -> String {
        String::from_utf8_lossy(&self.seen.lock().expect("the text")).into_owned()
    }

    /// Waits until words stand on the screen as it was drawn last, and gives its lines.
    #[track_caller]
    fn shows(&self, words: &[&str]) -> Vec<String> {
        let began = Instant::now();
        loop {
            let lines = drawn(&self.all());
            let text = lines.join("\n");
            if words.iter().all(|words| text.contains(words)) {
                return lines;
            }
            assert!(began.elapsed() < MOST, "{words:?} is not in:\n{text}");
            sleep(Duration::from_millis(10));
        }
    }

    /// Waits until something holds.
    #[track_caller]
    fn until(&self, what: &str, holds: impl Fn(&Session) -> bool) {
        let began = Instant::now();
        while !holds(self) {
            assert!(began.elapsed() < MOST, "{what}: it does not, after:\n{}", self.all());
            sleep(Duration::from_millis(10));
        }
    }

    fn press(&mut self, keys: &str) {
        self.master.write_all(keys.as_bytes()).expect("a key");
    }

    fn signal(&self, number: c_int) {
        send(&self.child, number);
    }

    /// How it has ended; the terminal is as it was found.
    #[track_caller]
    fn end(mut self) -> (ExitStatus, String) {
        let began = Instant::now();
        let status = loop {
            if let Some(status) = self.child.try_wait().expect("its end") {
                break status;
            }
            assert!(began.elapsed() < MOST, "it does not end:\n{}", self.all());
            sleep(Duration::from_millis(10));
        };
        assert!(mode(&self.slave) == self.found, "the terminal is left as it was made");
        // What it wrote last may still be on its way.
        let began = Instant::now();
        while !self.all().ends_with(LEAVE) && self.all().contains(ENTER) && began.elapsed() < MOST {
            sleep(Duration::from_millis(10));
        }
        let text = self.all();
        (status, text)
    }
}

impl Drop for Session {
    fn drop(&mut self) {
        let _ = self.child.kill();
        let _ = self.child.wait();
    }
}

const ENTER: &str = "\u{1b}[?1049h";
const LEAVE: &str = "\u{1b}[?1049l";

/// The lines of the last screen that was drawn whole.
fn drawn(text: &str) -> Vec<String> {
    let mut screens: Vec<&str> = text.split("\u{1b}[J").collect();
    screens.pop();
    let last = screens.pop().unwrap_or("");
    let rows = last.split("\u{1b}[2K").skip(1).map(|row| {
        let plain = row.split('\u{1b}').map(|part| match part.strip_prefix('[') {
            Some(code) => {
                code.trim_start_matches(|sign: char| !sign.is_ascii_alphabetic()).get(1..).unwrap_or("")
            }
            None => part,
        });
        plain.collect()
    });
    rows.collect()
}

#[test]
fn a_window_is_drawn_again_at_another_size_and_keys_lead_to_the_refusals() {
    let Some(mut session) = Session::new(&["--at", "196", MARCH], 80, 24) else { return };
    let lines = session.shows(&["stdin: record 196 of 306", "Refused (9)", "\n>17 "]);
    assert_eq!(lines.len(), 24, "{lines:?}");
    assert!(mode(&session.slave) != session.found, "keys come one by one");
    resize(&session.master, 200, 50);
    session.until("it is drawn again", |session| drawn(&session.all()).len() == 50);
    let lines = session.shows(&[" │ Step 17 may not open file 1", "\n>17 "]);
    assert!(lines.iter().any(|line| line.chars().count() > 150), "{lines:?}");
    resize(&session.master, 20, 8);
    let lines = session.shows(&["196: Refused (9)", "\n>17 ", "? keys"]);
    assert!(lines.len() == 8 && lines.iter().all(|line| line.chars().count() <= 20), "{lines:?}");
    resize(&session.master, 100, 30);
    session.press("n");
    session.shows(&["record 198 of 306"]);
    session.press("P");
    session.shows(&["record 196 of 306"]);
    session.press("\u{1b}[C");
    session.shows(&["record 197 of 306"]);
    session.press("\t\t\u{1b}[6~?");
    session.shows(&["the next refusal, the one before"]);
    session.press("q");
    let (status, text) = session.end();
    assert_eq!(status.code(), Some(0));
    assert!(text.contains(ENTER) && text.ends_with(LEAVE), "{text:?}");
}

#[test]
fn the_terminal_is_as_it_was_after_a_signal() {
    for number in [SIGINT, SIGTERM] {
        let Some(session) = Session::new(&["--follow", MARCH], 80, 24) else { return };
        session.shows(&["record 306 of 306, live"]);
        session.signal(number);
        let (status, text) = session.end();
        assert_eq!(status.signal(), Some(number));
        assert!(text.ends_with(LEAVE), "{text:?}");
    }
    // The key for it, as the terminal is set.
    let Some(mut session) = Session::new(&["--follow", MARCH], 80, 24) else { return };
    session.shows(&["record 306 of 306, live"]);
    session.press("\u{3}");
    assert_eq!(session.end().0.signal(), Some(SIGINT));
}

#[test]
fn a_journal_that_grows_is_shown_in_its_window() {
    let scratch = Scratch::new("grows");
    let journal = std::fs::read(MARCH).expect("the journal of March");
    let path = scratch.write("run.journal", &journal[..10]);
    let Some(mut session) = Session::new(&["--follow", &path], 90, 30) else { return };
    session.shows(&["! The next record is not whole yet.", ", live"]);
    let append = |bytes: &[u8]| {
        let mut file = OpenOptions::new().append(true).open(&path).expect("the file");
        file.write_all(bytes).expect("a write");
    };
    append(&journal[10..journal.len() - 1]);
    session.shows(&["record 305 of 305, live"]);
    // Who has gone back stays there.
    session.press("\u{1b}[Hn");
    session.shows(&["record 196 of "]);
    append(&journal[journal.len() - 1..]);
    session.shows(&["record 196 of 306", "refusal 1 of "]);
    session.press("\u{1b}[F");
    session.shows(&["record 306 of 306, live"]);
    std::fs::write(&path, &journal[..4]).expect("a write");
    session.shows(&["! The journal has become shorter"]);
    session.press("q");
    assert_eq!(session.end().0.code(), Some(0));
}

/// Ctrl-Z gives the terminal back as it was, and stops the program; when it goes on, it draws again.
#[test]
fn a_stop_gives_the_terminal_back_for_its_time() {
    if !can_stop() {
        return;
    }
    let Some(mut session) = Session::new(&[MARCH], 80, 24) else { return };
    session.shows(&["record 306 of 306"]);
    session.press("\u{1a}");
    session.until("it gives the terminal back", |session| {
        session.all().ends_with(LEAVE) && mode(&session.slave) == session.found
    });
    session.until("it stops", |session| is_stopped(&session.child));
    assert!(mode(&session.slave) == session.found, "the terminal is as it was while it stands still");
    session.signal(SIGCONT);
    session.until("it goes on", |session| {
        !is_stopped(&session.child) && session.all().matches(ENTER).count() == 2
    });
    session.until("it is drawn again", |session| {
        let all = session.all();
        let since = all.rsplit(ENTER).next().unwrap_or_default();
        drawn(since).join("\n").contains("record 306 of 306")
    });
    session.press("p");
    session.shows(&["record 209 of 306", "Refused (9), refusal 5 of 5"]);
    session.press("q");
    assert_eq!(session.end().0.code(), Some(0));
}

#[test]
fn what_is_printed_on_a_terminal_has_its_width_and_leaves_it_alone() {
    let Some(session) = Session::new(&["--print", "--color=never", "--at", "196", MARCH], 200, 10) else {
        return;
    };
    let last = "With the handles that there are, step 17 has to stay at level 12 or above.";
    session.until("it is printed", |session| session.all().contains(last));
    let (status, text) = session.end();
    assert_eq!(status.code(), Some(0));
    assert!(!text.contains('\u{1b}'), "{text:?}");
    assert!(text.lines().any(|line| line.trim_end().chars().count() > 150), "{text}");
}

//! The duty screen beside a run (`--screen`).
//!
//! The run and the screen are processes of their own, made of this very program: the run without `--screen`, and the
//! screen by the word `screen`, which `gk` and the guard's own program know. The screen has the terminal; what the run
//! would write there waits here until the screen was left.

use std::env;
use std::ffi::OsString;
use std::io::{self, IsTerminal, Read, Write};
use std::os::unix::process::ExitStatusExt;
use std::path::Path;
use std::process::{Command, ExitStatus, Stdio};
use std::thread;

use crate::sys;

/// This program.
const OWN: &str = "/proc/self/exe";

/// Runs the guard and the screen; the run's exit status.
pub fn beside(journal: &Path) -> Result<i32, String> {
    if !io::stdout().is_terminal() || !Path::new("/dev/tty").exists() {
        return Err("--screen needs a terminal as standard output: nothing is run".to_string());
    }
    let (mut output, end) = sys::pipe().map_err(|error| format!("cannot make a pipe: {error}"))?;
    let copy = || end.try_clone().map(Stdio::from).map_err(|error| format!("cannot keep output: {error}"));
    let mut run = Command::new(OWN);
    run.args(without_screen(env::args_os().skip(1))).stdout(copy()?);
    if io::stdin().is_terminal() {
        run.stdin(Stdio::null());
    }
    if io::stderr().is_terminal() {
        run.stderr(copy()?);
    }
    let mut run = sys::spawn_below(run, sys::SIGKILL).map_err(|error| format!("cannot start: {error}"))?;
    drop(end);
    let kept = thread::spawn(move || {
        let mut bytes = Vec::new();
        // What cannot be read is not there; the run's status tells.
        let _ = output.read_to_end(&mut bytes);
        bytes
    });
    let mut screen = Command::new(OWN);
    screen.args(["screen", "--follow", "--"]).arg(journal);
    let shown = sys::spawn_below(screen, sys::SIGTERM).and_then(|mut screen| screen.wait());
    let ended = run.wait().map_err(|error| format!("the run cannot be waited for: {error}"))?;
    let bytes = kept.join().unwrap_or_default();
    io::stdout().write_all(&bytes).map_err(|error| format!("cannot write standard output: {error}"))?;
    shown.map_err(|error| format!("the screen cannot be shown: {error}"))?;
    Ok(status(ended))
}

/// The words of this command, for the run.
fn without_screen(words: impl Iterator<Item = OsString>) -> Vec<OsString> {
    let mut is_behind = false;
    let is_kept = |word: &OsString| {
        is_behind |= word == "--";
        is_behind || word != "--screen"
    };
    words.filter(is_kept).collect()
}

fn status(ended: ExitStatus) -> i32 {
    ended.code().unwrap_or_else(|| 128 + ended.signal().unwrap_or(0))
}

#[cfg(test)]
mod tests {
    use super::*;

    #[test]
    fn the_run_gets_all_other_words() {
        let words = ["guard", "--screen", "--levels", "l", "--", "ls", "--screen"].map(OsString::from);
        let left = ["guard", "--levels", "l", "--", "ls", "--screen"].map(OsString::from);
        assert_eq!(without_screen(words.into_iter()), left);
    }
}

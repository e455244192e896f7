//! What the guard says, on standard error: a line each.

use std::io::{self, Write};
use std::process;

/// The exit status of the guard's own fault: the command has not run, or was ended.
pub const FAULT: i32 = 125;

/// Foreign bytes as they may stand in a line.
pub fn shown(bytes: &[u8]) -> String {
    gk_trace::shown(bytes)
}

/// A line. Where it cannot be written, the run goes on: answers do not hang on it.
pub fn say(text: &str) {
    let _ = writeln!(io::stderr(), "guard: {text}");
}

/// Says why the guard cannot go on, and ends it; the kernel ends all steps with it.
pub fn fail(text: &str) -> ! {
    say(text);
    process::exit(FAULT)
}

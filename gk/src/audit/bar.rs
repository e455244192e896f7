//! How far it is, on a terminal.

use std::io::{self, IsTerminal, Write};
use std::sync::atomic::Ordering;
use std::thread;
use std::time::Duration;

use gk_names::number::grouped;

use super::Progress;

/// How many signs the bar has.
const SIGNS: usize = 24;

/// How long one picture stays.
const PAUSE: Duration = Duration::from_millis(100);

/// Shows how far it is until all are done, where standard error is a terminal; then the line is empty again.
pub fn watch(progress: &Progress, total: usize) {
    if !io::stderr().is_terminal() {
        return;
    }
    loop {
        let counts = [&progress.done, &progress.refused, &progress.unread]
            .map(|count| count.load(Ordering::Relaxed));
        if counts[0] >= total {
            break;
        }
        draw(&line(counts, total));
        thread::sleep(PAUSE);
    }
    draw("");
}

/// Draws over the line; where that fails, the report still comes.
fn draw(text: &str) {
    let mut terminal = io::stderr().lock();
    let _ = write!(terminal, "\r\x1b[K{text}").and_then(|()| terminal.flush());
}

/// The line: done, with refusals and not read, of all. It fits into 80 columns for less than a million journals.
fn line([done, refused, unread]: [usize; 3], total: usize) -> String {
    let full = (SIGNS * done).checked_div(total).unwrap_or(SIGNS).min(SIGNS);
    let bar = format!("{}{}", "#".repeat(full), "-".repeat(SIGNS - full));
    let [done, refused, unread, total] = [done, refused, unread, total].map(|count| grouped(count as u64));
    format!("[{bar}] {done} of {total}, {refused} refused, {unread} not read")
}

#[cfg(test)]
mod tests {
    use super::line;

    #[test]
    fn the_bar_grows() {
        let bar = |done: usize| line([done, 1, 0], 10_000);
        assert_eq!(bar(0), format!("[{}] 0 of 10,000, 1 refused, 0 not read", "-".repeat(24)));
        assert_eq!(bar(5_000), format!("[{0:#>12}{0:->12}] 5,000 of 10,000, 1 refused, 0 not read", ""));
        assert_eq!(bar(10_000), format!("[{}] 10,000 of 10,000, 1 refused, 0 not read", "#".repeat(24)));
        assert!(line([999_999, 999_999, 999_999], 999_999).len() <= 80);
        assert_eq!(line([0, 0, 0], 0), format!("[{}] 0 of 0, 0 refused, 0 not read", "#".repeat(24)));
    }
}

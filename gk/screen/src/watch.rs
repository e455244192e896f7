//! The duty screen in a window: drawn again where something has come, a key was pressed or the size is another.

use std::time::Duration;

use crate::cli::Failure;
use crate::follow::{Source, PAUSE};
use crate::keys::{keys, Key};
use crate::layout::{frame, Around, Frame, Glance, Pieces, Size, PANES, WORDS};
use crate::reel::{More, Reel};

/// Records that a key with Shift goes.
const FAR: u64 = 10;

/// What a window can do.
pub trait Window {
    fn size(&self) -> Size;
    /// Shows these lines, and nothing else.
    fn show(&mut self, lines: &[Pieces]) -> Result<(), Failure>;
    /// Waits for what is typed, for a time at the most, or until standard input has something, where that is asked for.
    fn wait(&mut self, most: Duration, for_input: bool) -> Result<Woken, Failure>;
}

/// Why a wait is over.
#[derive(Debug, PartialEq, Eq)]
pub enum Woken {
    Typed(Vec<u8>),
    /// Standard input has something, or has ended.
    Input,
    /// The time is over, or the size may be another.
    Nothing,
    /// The terminal has lost what it showed.
    Again,
    /// The terminal is gone.
    Gone,
}

/// Where in the journal one is, and where one looks.
#[derive(Clone, Debug, Default, PartialEq, Eq)]
pub struct Stand {
    pub record: u64,
    /// Whether the last record is to be shown, whatever comes.
    pub is_live: bool,
    pub glance: Glance,
}

impl Stand {
    /// At the last record of a journal that is followed, or at a record.
    pub fn at(record: Option<u64>) -> Stand {
        Stand { record: record.unwrap_or(0), is_live: record.is_none(), glance: Glance::default() }
    }

    /// Does what a key says, and tells whether it is to go on.
    pub fn press(&mut self, key: Key, reel: &Reel, seen: &Frame) -> bool {
        let record = self.record;
        match key {
            Key::Letter('q') => return false,
            Key::Left => self.go(record.saturating_sub(1), reel),
            Key::Right => self.go(record + 1, reel),
            Key::FarLeft => self.go(record.saturating_sub(FAR), reel),
            Key::FarRight => self.go(record + FAR, reel),
            Key::Home => self.go(0, reel),
            Key::End => {
                self.go(reel.records(), reel);
                self.is_live = true;
            }
            Key::Letter('n') => self.go(reel.refusal_after(record).unwrap_or(record), reel),
            Key::Letter('p') => self.go(reel.refusal_before(record).unwrap_or(record), reel),
            Key::Letter('c') => self.glance.scroll = Default::default(),
            Key::Letter('?') => {
                let is_help = !self.glance.is_help;
                self.glance.is_help = is_help;
                self.glance.scroll[WORDS] = None;
                self.glance.focus = WORDS;
            }
            Key::Tab => self.glance.focus = (self.glance.focus + 1) % PANES.len(),
            Key::BackTab => self.glance.focus = (self.glance.focus + PANES.len() - 1) % PANES.len(),
            Key::Up | Key::Down | Key::PageUp | Key::PageDown => self.scroll(key, seen),
            Key::Letter(_) => {}
        }
        true
    }

    /// Goes to a record, where there is one; the panes stand by themselves there.
    fn go(&mut self, record: u64, reel: &Reel) {
        let record = record.min(reel.records());
        if record != self.record {
            self.glance.scroll = Default::default();
        }
        (self.record, self.is_live) = (record, false);
        self.glance.is_help = false;
    }

    /// Scrolls the pane that the keys are for, from where it was seen.
    fn scroll(&mut self, key: Key, seen: &Frame) {
        let shown = &seen.shown[self.glance.focus];
        let page = shown.len().max(1);
        let first = match key {
            Key::Up => shown.start.saturating_sub(1),
            Key::PageUp => shown.start.saturating_sub(page),
            _ if shown.end == seen.of[self.glance.focus] => shown.start,
            Key::Down => shown.start + 1,
            _ => shown.start + page,
        };
        self.glance.scroll[self.glance.focus] = Some(first);
    }
}

/// Shows a journal until a key ends it; with a source, what comes of it.
pub fn watch(
    window: &mut impl Window,
    mut source: Option<Source>,
    mut reel: Reel,
    mut stand: Stand,
) -> Result<(), Failure> {
    let mut typed = Vec::new();
    let mut notice = None;
    let mut drawn: Option<(Stand, Size, u64, Option<&str>)> = None;
    let mut is_ready = false;
    loop {
        while let Some(open) = source.as_mut().filter(|open| is_ready || !open.is_input()) {
            let more = open.read(&mut reel.journal)?;
            notice = reel.grow(more);
            is_ready = false;
            if reel.is_over() {
                source = None;
            } else if more == More::Later {
                break;
            }
        }
        if let Some(names) = source.as_mut().and_then(Source::new_names) {
            reel.rename(names);
            drawn = None;
        }
        if stand.is_live {
            if stand.record != reel.records() {
                stand.glance.scroll = Default::default();
            }
            stand.record = reel.records();
        }
        let size = window.size();
        let around = Around {
            records: reel.records(),
            refusal: reel.refusal(stand.record),
            is_live: stand.is_live && source.is_some(),
            notice,
        };
        let seen = frame(reel.show(stand.record), &around, size, &stand.glance);
        let now = (stand.clone(), size, reel.records(), notice);
        if drawn.as_ref() != Some(&now) {
            window.show(&seen.lines)?;
            drawn = Some(now);
        }
        match window.wait(PAUSE, source.as_ref().is_some_and(Source::is_input))? {
            Woken::Gone => return Ok(()),
            Woken::Input => is_ready = true,
            Woken::Again => drawn = None,
            // What began a key and did not become one is none.
            Woken::Nothing => typed.clear(),
            Woken::Typed(bytes) => typed.extend(bytes),
        }
        // One at a time: where each leads depends on what is seen.
        for key in keys(&mut typed) {
            let around = Around { records: reel.records(), notice, ..Around::default() };
            let seen = frame(reel.show(stand.record), &around, size, &stand.glance);
            if !stand.press(key, &reel, &seen) {
                return Ok(());
            }
        }
    }
}

#[cfg(test)]
mod tests;

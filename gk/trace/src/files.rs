//! Files and pipes, and the numbers that they have in the journal.
//!
//! Each has a number of its own for the whole run, and none is used twice: they count up from 0. A file keeps its label,
//! so that it can be retired while nobody holds it, where 64 are live; it is registered again, with the same label and
//! under its number, when it is opened again.

use std::collections::BTreeMap;

use gatekeeper::{Call, Label};
use gk_names::shops;

use crate::fold::Kin;
use crate::levels::{Found, Level, TOP};
use crate::names::{Kind, Names};
use crate::paths::{Key, Paths};
use crate::report::Note;
use crate::text::shown;
use crate::world::{Done, World, OBJECTS};

pub struct File {
    /// The paths that it has; without one it goes with its last handle.
    keys: Vec<Key>,
    pub label: Label,
    /// The number that it has, from the first time on that it is asked for.
    number: Option<u64>,
    /// When it was last asked for.
    asked: u64,
    /// Whether it has been made or opened for writing.
    pub is_written: bool,
    /// Whether it stands by itself from now on.
    pub is_apart: bool,
    /// The file that it stands as, with others: see `fold`.
    pub fold: Option<usize>,
    /// For such a file: the one of them that was last asked for.
    pub stands_for: Option<usize>,
    name: String,
}

pub struct Pipe {
    number: u64,
    from: u64,
    line: u64,
    writer: Option<String>,
    reader: Option<String>,
}

/// What is live under a number.
#[derive(Clone, Copy, PartialEq, Eq)]
enum Live {
    File(usize),
    Pipe(usize),
}

/// A file under a number, from a record on.
pub struct Seat {
    pub object: u64,
    from: u64,
    pub path: String,
    pub label: Label,
    /// The line of the levels file that names it; none where only `else` does.
    pub line: Option<usize>,
}

impl Seat {
    /// A pattern for a line of its own. What stands in a folder for temporary files has another name in each run.
    pub fn pattern(&self) -> String {
        let temporary = ["/tmp/", "/var/tmp/"].into_iter().find(|folder| self.path.starts_with(folder));
        let pattern = temporary.map_or(self.path.clone(), |folder| format!("{folder}*"));
        if pattern.contains(' ') {
            format!("\"{pattern}\"")
        } else {
            pattern
        }
    }
}

#[derive(Default)]
pub struct Files {
    pub seats: Vec<Seat>,
    files: Vec<File>,
    pipes: Vec<Pipe>,
    by_key: BTreeMap<Key, usize>,
    live: BTreeMap<u64, Live>,
    /// The number that was given last, and the next one.
    next: u64,
    /// The files that others stand as.
    pub folds: BTreeMap<Kin, usize>,
}

impl Files {
    pub fn find(&self, key: &[u8]) -> Option<usize> {
        self.by_key.get(key).copied()
    }

    pub fn file(&self, id: usize) -> &File {
        &self.files[id]
    }

    pub fn file_mut(&mut self, id: usize) -> &mut File {
        &mut self.files[id]
    }

    /// The file under a number.
    pub fn at(&self, object: u64) -> Option<usize> {
        match self.live.get(&object) {
            Some(&Live::File(id)) => Some(id),
            _ => None,
        }
    }

    /// A new file, under a path or without one.
    fn add(&mut self, key: Option<Key>, label: Label) -> usize {
        let id = self.files.len();
        self.by_key.extend(key.iter().map(|key| (key.clone(), id)));
        let keys = key.into_iter().collect();
        self.files.push(File {
            keys,
            label,
            number: None,
            asked: 0,
            is_written: false,
            is_apart: false,
            fold: None,
            stands_for: None,
            name: String::new(),
        });
        id
    }

    /// A new file that others stand as; it is called after the first of them.
    pub fn add_fold(&mut self, kin: Kin, first: usize) -> usize {
        let id = self.add(None, kin.label());
        self.files[id].stands_for = Some(first);
        self.folds.insert(kin, id);
        id
    }

    /// The number of a file that is live.
    pub fn number(&self, id: usize) -> Option<u64> {
        self.files[id].number.filter(|object| self.live.contains_key(object))
    }

    /// The files that are live, with their numbers.
    pub fn seated(&self) -> impl Iterator<Item = (u64, usize)> + '_ {
        self.live.iter().filter_map(|(&object, live)| match live {
            Live::File(id) => Some((object, *id)),
            Live::Pipe(_) => None,
        })
    }

    /// Gives a file one more path; a file that had it loses it.
    pub fn add_key(&mut self, id: usize, key: Key) {
        self.remove_key(&key);
        self.files[id].keys.push(key.clone());
        self.by_key.insert(key, id);
    }

    pub fn remove_key(&mut self, key: &[u8]) {
        if let Some(id) = self.by_key.remove(key) {
            self.files[id].keys.retain(|own| own != key);
        }
    }

    /// The paths of files below a folder.
    pub fn below(&self, folder: &[u8]) -> Vec<Key> {
        let front = [folder, b"/"].concat();
        let below = self.by_key.range(front.clone()..).take_while(|(key, _)| key.starts_with(&front));
        below.map(|(key, _)| key.clone()).collect()
    }

    /// Whether what is under a number is a file without a path.
    pub fn is_nameless(&self, object: u64) -> bool {
        self.at(object).is_some_and(|id| !self.files[id].has_name())
    }

    /// The numbers of what is live.
    pub fn live(&self) -> Vec<u64> {
        self.live.keys().copied().collect()
    }

    /// Says that what is under a number is no longer live.
    pub fn free(&mut self, object: u64) {
        self.live.remove(&object);
    }

    /// A number that nothing had before.
    fn fresh(&mut self) -> u64 {
        self.next += 1;
        self.next - 1
    }

    /// What is under a number, as a message names it.
    pub fn called(&self, object: u64) -> String {
        match self.live.get(&object) {
            Some(&Live::File(id)) => shown(self.files[id].name.as_bytes()),
            Some(&Live::Pipe(id)) => format!("the pipe of line {}", self.pipes[id].line),
            None => format!("number {object}"),
        }
    }

    /// What is under a number, as a report names it: where files stand as one, the one that was last asked for.
    pub fn asked(&self, object: u64) -> String {
        let key = self
            .at(object)
            .filter(|&id| self.files[id].stands_for.is_some())
            .and_then(|id| self.asked_key(id));
        key.map_or_else(|| self.called(object), |key| shown(key))
    }

    /// The path by which a file was last asked for.
    fn asked_key(&self, id: usize) -> Option<&Key> {
        self.files[self.files[id].stands_for.unwrap_or(id)].key()
    }

    /// Where the file under a number has its level from `else` alone at a record: that, and the line that is missing.
    /// `is_high` says that it takes nothing lower; then it is one that the run writes.
    pub fn unlisted(
        &self,
        object: u64,
        record: u64,
        is_high: bool,
        names: &gk_names::Names,
    ) -> Option<String> {
        let seat = self.seats.iter().rev().find(|seat| seat.object == object && seat.from <= record)?;
        if seat.line.is_some() {
            return None;
        }
        let pattern = seat.pattern();
        let line = match is_high {
            true => format!("{pattern} step (a file that the run makes has the level of its maker)"),
            false => format!("{pattern} LEVEL"),
        };
        let (path, level) = (&seat.path, seat.label.level);
        let marks = match seat.label.shops {
            shops::ALL => String::new(),
            set => format!(" with {}", shops::words(set, names, record)),
        };
        Some(format!(
            "No line of the levels file names {path}: it has level {level}{marks} from the line else. Give it a line, as: \
             {line}."
        ))
    }

    /// Says that a step of this program has written to, or read, what is under a number.
    pub fn moved_data(&mut self, object: u64, program: &str, is_write: bool) {
        if let Some(&Live::Pipe(id)) = self.live.get(&object) {
            let pipe = &mut self.pipes[id];
            let end = if is_write { &mut pipe.writer } else { &mut pipe.reader };
            end.get_or_insert_with(|| program.to_string());
        }
    }

    /// Names each pipe by who wrote it and who read it first.
    pub fn name_pipes(&self, names: &mut Names) {
        for pipe in &self.pipes {
            let text = match (&pipe.writer, &pipe.reader) {
                (Some(writer), Some(reader)) => format!("{writer} to {reader}"),
                (Some(writer), None) => format!("from {writer}"),
                (None, Some(reader)) => format!("to {reader}"),
                (None, None) => continue,
            };
            names.give_new(Kind::Pipe, pipe.number, pipe.from, &text);
        }
    }

    /// Brings the paths to the form that they have now that the starting folder is known. Where two of them are one
    /// then, says which.
    pub fn rekey(&mut self, paths: &Paths) -> Result<(), Key> {
        self.by_key.clear();
        for (id, file) in self.files.iter_mut().enumerate() {
            for key in &mut file.keys {
                *key = paths.key(key);
                if self.by_key.insert(key.clone(), id).is_some() {
                    return Err(key.clone());
                }
            }
        }
        Ok(())
    }

    /// A path of a file that may be the same as this one, as long as the starting folder is not known.
    pub fn may_be(&self, key: &[u8]) -> Option<&Key> {
        let is_end = |long: &[u8], short: &[u8]| {
            long.starts_with(b"/") && !short.starts_with(b"/") && long.ends_with(&[b"/", short].concat())
        };
        self.by_key.keys().find(|other| is_end(other, key) || is_end(key, other))
    }
}

impl File {
    /// The first of its paths.
    pub fn key(&self) -> Option<&Key> {
        self.keys.first()
    }

    /// Whether it has a path, or stands for files that have.
    pub fn has_name(&self) -> bool {
        !self.keys.is_empty() || self.stands_for.is_some()
    }
}

impl World<'_> {
    /// The level of a path. What was moved there has at most the label of where it came from.
    pub fn level_of(&self, key: &[u8]) -> Done<Found> {
        let mut found = self.listed(key)?;
        for origin in self.paths.origins(key) {
            let before = self.levels.of_unmade(self.listed(&origin)?.level);
            if let (Level::At(label), Level::At(before)) = (found.level, before) {
                found.level = Level::At(label.fallen_to(before));
            }
        }
        Ok(found)
    }

    /// What the levels file says of a path.
    fn listed(&self, key: &[u8]) -> Done<Found> {
        if let Some(absolute) = self.paths.start().and_then(|_| self.paths.absolute(key)) {
            return Ok(self.levels.of(key, &absolute));
        }
        match self.levels.of_somewhere(key) {
            Ok(found) => Ok(found),
            Err(line) => self.stop(format!(
                "whether line {line} of the levels file is about \"{}\" depends on the folder that the run was started \
                 in, and the trace does not say it. Give it with --folder",
                shown(key)
            )),
        }
    }

    /// The file at a path, which has no number yet where it is new here. `is_made` says that the run makes it.
    pub fn file_at(&mut self, step: u64, key: &[u8], level: Level, is_made: bool) -> Done<usize> {
        if let Some(id) = self.files.find(key) {
            return Ok(id);
        }
        if self.paths.start().is_none() {
            if let Some(other) = self.files.may_be(key) {
                let (other, key) = (shown(other), shown(key));
                return self.stop(format!(
                    "\"{key}\" and \"{other}\" may be the same file, and the trace does not say which folder the run \
                     was started in. Give it with --folder"
                ));
            }
        }
        match level {
            Level::Step if is_made => self.create(step, Some(key.to_vec())),
            Level::At(label) => Ok(self.files.add(Some(key.to_vec()), label)),
            Level::Step | Level::Out => {
                let unmade = self.levels.unmade();
                Ok(self.files.add(Some(key.to_vec()), unmade))
            }
        }
    }

    /// Makes an empty file with the step's label.
    pub fn create(&mut self, step: u64, key: Option<Key>) -> Done<usize> {
        let wanted = key.as_ref().map_or("a file without a name".to_string(), |key| shown(key));
        self.make_room(&wanted)?;
        let object = self.files.fresh();
        let id = self.files.add(key, TOP);
        self.make(Call::Create { subject: step, object })?;
        self.files.file_mut(id).label = self.journal.object_label(object);
        self.files.file_mut(id).is_written = true;
        self.seat(id, object);
        Ok(id)
    }

    /// The number of a file, which is registered if need be.
    pub fn object_of(&mut self, id: usize) -> Done<u64> {
        let now = self.tick();
        if let Some(fold) = self.fold_of(id) {
            self.files.files[fold].stands_for = Some(id);
            self.note(Note::Folded);
            return self.object_of(fold);
        }
        self.files.files[id].asked = now;
        if let Some(object) = self.files.number(id) {
            return Ok(object);
        }
        let wanted = self.files.files[id].key().map_or(String::new(), |key| shown(key));
        self.make_room(&wanted)?;
        // The room may have come because it stands as one with others since.
        if self.files.files[id].fold.is_some() {
            return self.object_of(id);
        }
        let object = self.files.files[id].number.unwrap_or_else(|| self.files.fresh());
        self.make(Call::register(object, self.files.files[id].label))?;
        self.seat(id, object);
        Ok(object)
    }

    /// Registers a file that has no path in the trace, as standard input.
    pub fn register(&mut self, name: &str, label: Label) -> Done<u64> {
        let id = self.files.add(Some(format!("<{name}>").into_bytes()), label);
        self.files.files[id].name = String::new();
        self.make_room(name)?;
        let object = self.files.fresh();
        self.make(Call::register(object, label))?;
        self.seat(id, object);
        Ok(object)
    }

    /// Puts a file under a number, by the call just written.
    fn seat(&mut self, id: usize, object: u64) {
        let from = self.journal.next() - 1;
        let key = self.files.asked_key(id).cloned();
        if let Some(key) = &key {
            let standard = self.levels.standard_line(key);
            let line = standard.or_else(|| self.level_of(key).ok()?.line);
            let (path, label) = (shown(key), self.files.files[id].label);
            self.files.seats.push(Seat { object, from, path, label, line });
        }
        let file = &mut self.files.files[id];
        file.number = Some(object);
        self.files.live.insert(object, Live::File(id));
        if file.name.is_empty() {
            let text = match key.as_deref() {
                None => "a file without a name".to_string(),
                Some(key) if file.stands_for.is_some() => {
                    format!("{} and others", String::from_utf8_lossy(key))
                }
                Some(b"<stdin>") => "standard input".to_string(),
                Some(b"<stdout>") => "standard output".to_string(),
                Some(b"<stderr>") => "standard error".to_string(),
                Some(key) => String::from_utf8_lossy(key).into_owned(),
            };
            file.name = self.journal.names.give_new(Kind::File, object, from, &text);
        } else {
            self.journal.names.give_again(Kind::File, object, from, &file.name);
        }
    }

    /// Puts a pipe under a number, by the call just written.
    pub fn seat_pipe(&mut self, object: u64) {
        let from = self.journal.next() - 1;
        self.files.live.insert(object, Live::Pipe(self.files.pipes.len()));
        self.files.pipes.push(Pipe { number: object, from, line: self.line, writer: None, reader: None });
    }

    /// A number for a new pipe, and room for it.
    pub fn pipe_number(&mut self) -> Done<u64> {
        self.make_room("a pipe")?;
        Ok(self.files.fresh())
    }

    /// Sees that one more file or pipe can be live. Where 64 are, the file that nobody holds and that was asked for
    /// longest ago is retired.
    fn make_room(&mut self, wanted: &str) -> Done {
        if self.files.live.len() < OBJECTS as usize {
            return Ok(());
        }
        let idle = self.files.live.iter().filter_map(|(&object, live)| match live {
            Live::File(id) if !self.journal.is_held(object) => Some((self.files.files[*id].asked, object)),
            _ => None,
        });
        match idle.min() {
            None if self.fold_for_number()? => self.make_room(wanted),
            Some((_, object)) => {
                self.make(Call::Retire { object })?;
                self.files.free(object);
                Ok(())
            }
            None => {
                let files = self.files.live.values().filter(|live| matches!(live, Live::File(_))).count();
                let pipes = OBJECTS as usize - files;
                self.stop(format!(
                    "{wanted} would be the 65th file or pipe that is open at once, and the gatekeeper has 64 live at a \
                     time. A file that nobody has open would be retired to make room, and there is none: {files} files \
                     and {pipes} pipes are open. Let the run open fewer files at once, or trace a part of it (--until \
                     {}): a file that is left out is not seen",
                    self.line - 1
                ))
            }
        }
    }
}

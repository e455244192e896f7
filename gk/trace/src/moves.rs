//! Paths that come and go: unlink, rename, link, truncate, and the folders that steps are in.

use gatekeeper::{Call, Way};

use crate::call::{fd, has_flag, noted_path, string, Sys};
use crate::levels::Level;
use crate::open::path_args;
use crate::paths::{joined, Key};
use crate::report::{Left, Note};
use crate::text::shown;
use crate::world::{Descriptor, Done, Mapping, World};

impl World<'_> {
    /// unlink and unlinkat: the file is retired, at once or when its last handle goes.
    pub fn unlinks(&mut self, step: u64, call: &Sys) -> Done {
        if call.name == "unlinkat" && has_flag(call.arg(2), "AT_REMOVEDIR") {
            self.left(Left::Attributes);
            return Ok(());
        }
        let (folder, path) = path_args(call);
        let key = self.named_itself(step, folder, path)?;
        self.paths.unlink(&key);
        self.files.remove_key(&key);
        self.reap()
    }

    /// The key of a path argument; where it is a link that the run made, the link itself.
    fn named_itself(&mut self, step: u64, folder: &str, path: &str) -> Done<Key> {
        self.named(step, folder, path)?;
        let base = match fd(folder) {
            Some(fd) => {
                let known = self.step(step)?.table.get(&fd.number).and_then(|own| own.path.clone());
                noted_path(fd.note).or(known).unwrap_or_default()
            }
            None => self.step(step)?.folder.clone(),
        };
        Ok(self.paths.key(&joined(&base, &string(path).unwrap_or_default())))
    }

    /// rename, renameat and renameat2.
    pub fn renames(&mut self, step: u64, call: &Sys) -> Done {
        let (from, to) = match call.name {
            "rename" => (("AT_FDCWD", call.arg(0)), ("AT_FDCWD", call.arg(1))),
            _ => ((call.arg(0), call.arg(1)), (call.arg(2), call.arg(3))),
        };
        let from = self.named_itself(step, from.0, from.1)?;
        let to = self.named_itself(step, to.0, to.1)?;
        if from == to {
            return Ok(());
        }
        if has_flag(call.arg(4), "RENAME_EXCHANGE") {
            // Each of the two has what the other had; both paths keep their files, and the levels stay.
            self.copies(step, &from, &to, Note::Moved)?;
            self.copies(step, &to, &from, Note::Moved)?;
            return Ok(());
        }
        for key in self.files.below(&from) {
            let target = [&to, &key[from.len()..]].concat();
            self.rename_file(step, &key, &target)?;
        }
        self.rename_file(step, &from, &to)?;
        if self.paths.moved(&from, &to).is_err() {
            return self.stop("the run renames more than 10,000 files: trace a part of it".to_string());
        }
        Ok(())
    }

    fn rename_file(&mut self, step: u64, from: &[u8], to: &[u8]) -> Done {
        if !self.copies(step, from, to, Note::Moved)? {
            return Ok(());
        }
        let is_same = !self.is_between_levels(from, to)?;
        let Some(old) = self.files.find(from) else {
            self.files.remove_key(to);
            return self.reap();
        };
        if is_same {
            self.files.remove_key(from);
            self.files.add_key(old, to.to_vec());
            return self.reap();
        }
        // The copy is made. What was open on the file is open on the copy: there it shows.
        let target = self.files.find(to);
        self.files.remove_key(from);
        if let Some(target) = target {
            self.follow(old, target)?;
        }
        self.reap()
    }

    /// Whether a file has one level under its path and another under a new one.
    fn is_between_levels(&self, from: &[u8], to: &[u8]) -> Done<bool> {
        let before = match self.files.find(from) {
            Some(id) => Level::At(self.files.file(id).label),
            None => self.levels.of_unmade(self.level_of(from)?.level),
        };
        Ok(is_other(before, self.level_of(to)?.level))
    }

    /// Where a file comes under a path of another level, that is a copy: see [`World::copies_to`]. Whether nothing was
    /// refused.
    fn copies(&mut self, step: u64, from: &[u8], to: &[u8], note: Note) -> Done<bool> {
        let (before, after) = (self.level_of(from)?.level, self.level_of(to)?.level);
        match (before, after) {
            (Level::Out, Level::Out) => {}
            // What nobody has seen comes under a path that has a level.
            (Level::Out, _) => self.left(Left::Hidden),
            (_, Level::Out) => self.left(Left::ByLevels),
            _ => {}
        }
        if !self.is_between_levels(from, to)? {
            return Ok(true);
        }
        let source = self.file_at(step, from, before, false)?;
        self.copies_to(step, source, to, note)
    }

    /// The step reads a file and writes it to a path, and the gatekeeper says whether it may.
    fn copies_to(&mut self, step: u64, source: usize, to: &[u8], note: Note) -> Done<bool> {
        self.note(note);
        self.unfold(source)?;
        let object = self.object_of(source)?;
        let Some(reads) = self.open(step, object, Way::Reads)? else { return Ok(false) };
        // In the step's tables, so that the place and the file's number are not given away.
        self.step_mut(step)?.maps.push(Mapping { reads, writes: None, ranges: Vec::new() });
        let level = self.level_of(to)?.level;
        if note == Note::Moved {
            // What was under the path is gone.
            self.files.remove_key(to);
            self.reap()?;
        }
        let target = self.file_at(step, to, level, false)?;
        let object = self.object_to_write(target)?;
        let writes = self.open(step, object, Way::Writes)?;
        if let Some(writes) = writes {
            self.read(step, reads)?;
            self.write(step, writes)?;
            self.make(Call::Close { subject: step, place: writes.place })?;
        }
        self.step_mut(step)?.maps.retain(|mapping| mapping.reads != reads);
        self.close(step, reads)?;
        Ok(writes.is_some())
    }

    /// Moves every handle on one file to another, as far as it is granted: first those that write, so that what the one
    /// file demands is in nobody's way.
    fn follow(&mut self, old: usize, new: usize) -> Done {
        let (old, new) = (self.object_of(old)?, self.object_of(new)?);
        for way in [Way::Writes, Way::Reads] {
            for step in self.by_age() {
                let own = self.step(step)?;
                let is_on_old = |own: &Descriptor| own.end(way).is_some_and(|end| end.object == old);
                let fds: Vec<i32> =
                    own.table.iter().filter(|(_, own)| is_on_old(own)).map(|(&fd, _)| fd).collect();
                for fd in fds {
                    self.follow_one(step, fd, new, way)?;
                }
            }
        }
        Ok(())
    }

    fn follow_one(&mut self, step: u64, fd: i32, new: u64, way: Way) -> Done {
        let Some(end) = self.open(step, new, way)? else { return Ok(()) };
        let file = self.files.at(new);
        let Some(own) = self.step_mut(step)?.table.get_mut(&fd) else { return Ok(()) };
        own.file = file;
        let old = if way == Way::Writes { own.writes.replace(end) } else { own.reads.replace(end) };
        if own.ends_at_exec {
            self.make(Call::Mark { subject: step, place: end.place })?;
        }
        match old {
            Some(old) => self.close(step, old),
            None => Ok(()),
        }
    }

    /// link and linkat: one file under two paths.
    pub fn links(&mut self, step: u64, call: &Sys) -> Done {
        let (from, to) = match call.name {
            "link" => (("AT_FDCWD", call.arg(0)), ("AT_FDCWD", call.arg(1))),
            _ => ((call.arg(0), call.arg(1)), (call.arg(2), call.arg(3))),
        };
        let to = self.named(step, to.0, to.1)?;
        if let Some(own) = self.linked_descriptor(step, from)? {
            return self.links_own(step, own, to);
        }
        let from = self.named(step, from.0, from.1)?;
        if self.is_between_levels(&from, &to)? {
            let is_granted = self.copies(step, &from, &to, Note::Linked)?;
            return if is_granted { self.stop_at_link(&to) } else { Ok(()) };
        }
        let level = self.level_of(&from)?.level;
        if let (Level::At(_), None) = (level, self.files.find(&from)) {
            self.file_at(step, &from, level, false)?;
        }
        match self.files.find(&from) {
            Some(id) => self.files.add_key(id, to),
            None if level == Level::Out && self.level_of(&to)?.level != Level::Out => {
                self.left(Left::Hidden)
            }
            None => self.left(Left::ByLevels),
        }
        Ok(())
    }

    /// The descriptor that a link gives a path to: by AT_EMPTY_PATH, or by its own path in /proc.
    fn linked_descriptor(&mut self, step: u64, (folder, path): (&str, &str)) -> Done<Option<Descriptor>> {
        if string(path).is_some_and(|path| path.is_empty()) {
            let own = fd(folder).and_then(|fd| self.step(step).ok()?.table.get(&fd.number).cloned());
            return Ok(own);
        }
        let key = self.named(step, folder, path)?;
        self.own_descriptor(step, &key)
    }

    /// A file that is open comes under a path, as one that was made without a name.
    fn links_own(&mut self, step: u64, own: Descriptor, to: Key) -> Done {
        let object = own.reads.or(own.writes).map(|end| end.object);
        let Some(source) = own.file.or_else(|| self.files.at(object?)) else {
            self.left(own.left.moved(Way::Reads, own.path.as_deref()));
            return Ok(());
        };
        let before = Level::At(self.files.file(source).label);
        if !is_other(before, self.level_of(&to)?.level) {
            self.files.add_key(source, to);
            return Ok(());
        }
        let has_name = self.files.file(source).has_name();
        if !self.copies_to(step, source, &to, Note::Linked)? {
            return Ok(());
        }
        match self.files.find(&to) {
            Some(target) if !has_name => self.follow(source, target)?,
            _ => return self.stop_at_link(&to),
        }
        self.reap()
    }

    /// What is written under the one path shows under the other: a file cannot have both levels.
    fn stop_at_link(&self, to: &[u8]) -> Done {
        self.stop(format!(
            "\"{}\" is made another path of a file that has another level. Give both one level in the levels file",
            shown(to)
        ))
    }

    /// symlink and symlinkat.
    pub fn symlinks(&mut self, step: u64, call: &Sys) -> Done {
        let (folder, link) = match call.name {
            "symlink" => ("AT_FDCWD", call.arg(1)),
            _ => (call.arg(1), call.arg(2)),
        };
        let key = self.named_itself(step, folder, link)?;
        let Some(target) = string(call.arg(0)) else {
            return self.stop("the target of the link is not in the trace".to_string());
        };
        match self.paths.link(key, &target) {
            Ok(()) => Ok(()),
            Err(_) => self.stop("the run makes more than 10,000 links: trace a part of it".to_string()),
        }
    }

    /// truncate: the file is opened, written and closed.
    pub fn truncates(&mut self, step: u64, call: &Sys) -> Done {
        let key = self.named(step, "AT_FDCWD", call.arg(0))?;
        let opened = self.open_key(step, key, "O_WRONLY")?;
        if let Some(end) = opened.writes {
            self.write(step, end)?;
            self.close(step, end)?;
        }
        Ok(())
    }

    /// chdir, fchdir and getcwd.
    pub fn folders(&mut self, step: u64, call: &Sys) -> Done {
        match call.name {
            "getcwd" => match string(call.arg(0)).filter(|folder| folder.starts_with(b"/")) {
                Some(folder) => self.is_in(step, &folder),
                None => Ok(()),
            },
            "chdir" => {
                let key = self.named(step, "AT_FDCWD", call.arg(0))?;
                self.step_mut(step)?.folder = key;
                Ok(())
            }
            _ => {
                let found = fd(call.arg(0));
                let noted = found.and_then(|fd| noted_path(fd.note)).map(|path| self.paths.key(&path));
                let known = found.and_then(|fd| self.step(step).ok()?.table.get(&fd.number)?.path.clone());
                let Some(key) = noted.or(known) else {
                    return self.stop("the folder is not in the trace: trace with strace -y".to_string());
                };
                self.step_mut(step)?.folder = key;
                Ok(())
            }
        }
    }
}

/// Whether both are levels, and not the same.
fn is_other(before: Level, after: Level) -> bool {
    matches!((before, after), (Level::At(before), Level::At(after)) if before != after)
}

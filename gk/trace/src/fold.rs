//! Files that stand as one: those of one line of the levels file, with one label, that the run only reads.
//!
//! A step has 16 places, and 64 files and pipes are live at a time; a program that merges 80 sheets holds more. Where
//! something does not fit, such files *fold*: they stand as one file of their label, on which a step has one handle for
//! all descriptors that it has on them, another one for those that end at an exec, and one mapping. One that is written
//! or moved later gets a number and handles of its own before that. With `--fold` they stand as one from the start.
//! `docs/TRACE.md` says why no answer changes.

use std::collections::{BTreeMap, BTreeSet};

use gatekeeper::{Call, Label, Way};

use crate::report::Note;
use crate::world::{Descriptor, Done, End, Mapping, Step, World};

/// What files have in common that can stand as one: the line of the levels file, none for `else`, and the label.
#[derive(Clone, Copy, Debug, PartialEq, Eq, PartialOrd, Ord)]
pub struct Kin {
    line: Option<usize>,
    level: u8,
    shops: u8,
}

impl Kin {
    pub fn label(self) -> Label {
        Label { level: self.level, shops: self.shops }
    }
}

/// What handles have in common of which one is enough.
#[derive(Clone, Copy, Debug, PartialEq, Eq, PartialOrd, Ord)]
enum Sort {
    Reads,
    ReadsUpToExec,
    Maps,
}

impl Sort {
    fn of(descriptor: &Descriptor) -> Sort {
        if descriptor.ends_at_exec {
            Sort::ReadsUpToExec
        } else {
            Sort::Reads
        }
    }
}

impl World<'_> {
    /// What a file has in common with those that it can stand with; none where it stands by itself.
    fn kin_of(&self, id: usize) -> Option<Kin> {
        let file = self.files.file(id);
        let is_alone = file.is_written || file.is_apart;
        let key = file.key().filter(|key| !is_alone && !key.starts_with(b"<"))?;
        let line = self.level_of(key).ok()?.line;
        Some(Kin { line, level: file.label.level, shops: file.label.shops })
    }

    /// The file that a file stands as, or does from now on.
    pub fn fold_of(&mut self, id: usize) -> Option<usize> {
        let own = self.files.file(id).fold;
        if own.is_some() || !self.options.fold && self.files.folds.is_empty() {
            return own;
        }
        let kin = self.kin_of(id)?;
        let known = self.files.folds.get(&kin).copied();
        if known.is_none() && !self.options.fold {
            return None;
        }
        let fold = known.unwrap_or_else(|| self.files.add_fold(kin, id));
        self.files.file_mut(id).fold = Some(fold);
        Some(fold)
    }

    /// Whether an object stands for several files.
    fn is_fold(&self, object: u64) -> bool {
        self.files.at(object).is_some_and(|id| self.files.file(id).stands_for.is_some())
    }

    /// The number of a file that is opened for writing: it stands with no others.
    pub fn object_to_write(&mut self, id: usize) -> Done<u64> {
        self.unfold(id)?;
        self.files.file_mut(id).is_written = true;
        self.object_of(id)
    }

    /// The handle that a step has already on what stands for several files.
    pub fn shared(&self, step: u64, object: u64, way: Way) -> Done<Option<End>> {
        if way != Way::Reads || !self.is_fold(object) {
            return Ok(None);
        }
        Ok(self.step(step)?.handle_on(object, Sort::Reads))
    }

    /// Another handle for a descriptor that ends at an exec from now on, where others go by its handle, or by a marked one
    /// on the same files.
    pub fn marked_handle(&mut self, step: u64, fd: i32, end: End) -> Done<Option<End>> {
        let marked = self.step(step)?.handle_on(end.object, Sort::ReadsUpToExec);
        if let Some(marked) = marked.filter(|_| self.is_fold(end.object)) {
            return Ok(Some(marked));
        }
        let is_other = |(other, own): (&i32, &Descriptor)| *other != fd && own.reads == Some(end);
        if !self.step(step)?.table.iter().any(is_other) {
            return Ok(None);
        }
        let wanted = self.files.called(end.object);
        let place = self.free_place_but(step, &[], &wanted)?;
        self.hold(step, End { place, ..end }, Sort::ReadsUpToExec).map(Some)
    }

    /// Opens at this place what the step has a handle on, or had just now: that is never refused.
    fn hold(&mut self, step: u64, end: End, sort: Sort) -> Done<End> {
        let way = if sort == Sort::Maps { Way::Maps } else { Way::Reads };
        if self.open_at(step, end, way)?.is_none() {
            return self.stop("gk trace is at fault here: a handle that is held is refused".to_string());
        }
        if sort == Sort::ReadsUpToExec {
            self.make(Call::Mark { subject: step, place: end.place })?;
        }
        Ok(end)
    }

    /// Folds files so that a step has a place more. Whether there are such files.
    pub fn fold_for_place(&mut self, step: u64) -> Done<bool> {
        let mut handles: BTreeMap<Kin, Vec<Sort>> = BTreeMap::new();
        for (end, sort) in self.step(step)?.readers() {
            if let Some(kin) = self.files.at(end.object).and_then(|id| self.kin_of(id)) {
                handles.entry(kin).or_default().push(sort);
            }
        }
        let gain = |sorts: &Vec<Sort>| sorts.len() - sorts.iter().collect::<BTreeSet<_>>().len();
        self.fold_most(handles.iter().map(|(kin, sorts)| (gain(sorts), *kin)).collect())
    }

    /// Folds files so that one more file or pipe can be live. Whether there are such files.
    pub fn fold_for_number(&mut self) -> Done<bool> {
        let mut counts: BTreeMap<Kin, usize> = BTreeMap::new();
        for kin in self.files.seated().filter_map(|(_, id)| self.kin_of(id)) {
            *counts.entry(kin).or_default() += 1;
        }
        self.fold_most(counts.into_iter().map(|(kin, count)| (count - 1, kin)).collect())
    }

    /// Folds the kin that give most, where some give anything.
    fn fold_most(&mut self, gains: Vec<(usize, Kin)>) -> Done<bool> {
        match gains.into_iter().max().filter(|(gain, _)| *gain > 0) {
            None => Ok(false),
            Some((_, kin)) => self.fold(kin).map(|()| true),
        }
    }

    /// Lets files stand as one from now on: their handles are closed, they are retired, and what stands for them is opened
    /// at a place that one of them had.
    fn fold(&mut self, kin: Kin) -> Done {
        let members: BTreeMap<u64, usize> =
            self.files.seated().filter(|(_, id)| self.kin_of(*id) == Some(kin)).collect();
        let Some(&first) = members.values().next() else { return Ok(()) };
        let mut given: Vec<(u64, BTreeMap<Sort, Vec<u64>>)> = Vec::new();
        for step in self.by_age() {
            let mut places: BTreeMap<Sort, Vec<u64>> = BTreeMap::new();
            let held =
                self.step(step)?.readers().into_iter().filter(|(end, _)| members.contains_key(&end.object));
            held.for_each(|(end, sort)| places.entry(sort).or_default().push(end.place));
            given.push((step, places));
        }
        for (step, places) in &given {
            for &place in places.values().flatten() {
                self.make(Call::Close { subject: *step, place })?;
            }
        }
        let fold = self.files.add_fold(kin, first);
        for (&object, &id) in &members {
            self.make(Call::Retire { object })?;
            self.files.free(object);
            self.files.file_mut(id).fold = Some(fold);
            self.note(Note::Folded);
        }
        let object = self.object_of(fold)?;
        for (step, places) in given {
            for (sort, places) in places {
                let end = self.hold(step, End { place: places[0], object }, sort)?;
                let own = self.step_mut(step)?;
                own.used[end.place as usize] = places.iter().any(|place| own.used[*place as usize]);
                own.take(sort, end, |old| members.contains_key(&old.object));
            }
        }
        Ok(())
    }

    /// Gives a file a number and handles of its own, where it stands as one with others; from now on it stands by itself.
    pub fn unfold(&mut self, id: usize) -> Done {
        self.files.file_mut(id).is_apart = true;
        let Some(fold) = self.files.file_mut(id).fold.take() else { return Ok(()) };
        let Some(old) = self.files.number(fold) else { return Ok(()) };
        for step in self.by_age() {
            for (sort, before) in self.step(step)?.sorts_on(id, old) {
                let object = self.object_of(id)?;
                let is_used = self.step(step)?.used[before.place as usize];
                let apart = self.step_mut(step)?.take_off(sort, id, before);
                // Where nobody else goes by the old handle, its place is free.
                self.close(step, before)?;
                let wanted = self.files.called(object);
                let place = self.free_place_but(step, &[], &wanted)?;
                let end = self.hold(step, End { place, object }, sort)?;
                let own = self.step_mut(step)?;
                own.used[place as usize] = is_used;
                own.put_on(apart, end);
            }
        }
        Ok(())
    }
}

/// Descriptors and a mapping that are off their handle.
struct Apart {
    fds: Vec<i32>,
    mapping: Option<Mapping>,
}

impl Step {
    /// The handles that read or map a file and write nothing, each with its sort.
    fn readers(&self) -> Vec<(End, Sort)> {
        let table = self.table.values().filter(|own| own.writes.is_none());
        let reads = table.filter_map(|own| Some((own.reads?, Sort::of(own))));
        let maps = self.maps.iter().filter(|mapping| mapping.writes.is_none());
        let all: BTreeMap<u64, (End, Sort)> = reads
            .chain(maps.map(|mapping| (mapping.reads, Sort::Maps)))
            .map(|(end, sort)| (end.place, (end, sort)))
            .collect();
        all.into_values().collect()
    }

    fn handle_on(&self, object: u64, sort: Sort) -> Option<End> {
        self.readers()
            .into_iter()
            .find(|(end, other)| end.object == object && *other == sort)
            .map(|(end, _)| end)
    }

    /// What goes by handles of a sort goes by this one.
    fn take(&mut self, sort: Sort, end: End, is_old: impl Fn(End) -> bool) {
        if sort == Sort::Maps {
            let mut ranges = Vec::new();
            self.maps.retain(|mapping| {
                let is_old = is_old(mapping.reads);
                ranges.extend(mapping.ranges.iter().filter(|_| is_old));
                !is_old
            });
            self.maps.push(Mapping { reads: end, writes: None, ranges });
            return;
        }
        for own in self.table.values_mut().filter(|own| Sort::of(own) == sort) {
            if own.reads.is_some_and(&is_old) {
                own.reads = Some(end);
            }
        }
    }

    /// The handles on an object by which a file is read or mapped.
    fn sorts_on(&self, id: usize, object: u64) -> BTreeMap<Sort, End> {
        let table = self.table.values().filter(|own| own.file == Some(id));
        let reads = table.filter_map(|own| Some((Sort::of(own), own.reads?)));
        let is_mapped = |mapping: &&Mapping| mapping.ranges.iter().any(|range| range.file == Some(id));
        let maps = self.maps.iter().filter(is_mapped).map(|mapping| (Sort::Maps, mapping.reads));
        reads.chain(maps).filter(|(_, end)| end.object == object).collect()
    }

    /// Takes what is on a file off a handle.
    fn take_off(&mut self, sort: Sort, id: usize, end: End) -> Apart {
        let mut apart = Apart { fds: Vec::new(), mapping: None };
        if sort != Sort::Maps {
            let is_on = |own: &Descriptor| own.file == Some(id) && own.reads == Some(end);
            for (&fd, own) in self.table.iter_mut().filter(|(_, own)| is_on(own)) {
                own.reads = None;
                apart.fds.push(fd);
            }
            return apart;
        }
        if let Some(mapping) = self.maps.iter_mut().find(|mapping| mapping.reads == end) {
            let (own, others) = mapping.ranges.iter().partition(|range| range.file == Some(id));
            mapping.ranges = others;
            apart.mapping = Some(Mapping { reads: end, writes: None, ranges: own });
        }
        self.maps.retain(|mapping| mapping.reads != end || !mapping.ranges.is_empty());
        apart
    }

    /// Puts them on another handle.
    fn put_on(&mut self, apart: Apart, end: End) {
        for fd in apart.fds {
            if let Some(own) = self.table.get_mut(&fd) {
                own.reads = Some(end);
            }
        }
        self.maps.extend(apart.mapping.map(|mapping| Mapping { reads: end, ..mapping }));
    }
}

//! Files that are mapped into memory.

use gatekeeper::{Call, Way};

use crate::call::{fd, has_flag, whole_number, Outcome, Sys};
use crate::races::UNMAPPED;
use crate::report::{Left, Note};
use crate::world::{Done, Mapping, Range, World};

impl World<'_> {
    /// mmap. One of a file is a map, and where the memory can be written through, an open for writing too.
    pub fn maps(&mut self, step: u64, call: &Sys, address: u64) -> Done {
        let flags = call.arg(3);
        let is_shared = has_flag(flags, "MAP_SHARED") || has_flag(flags, "MAP_SHARED_VALIDATE");
        let Some(found) = fd(call.arg(4)).filter(|_| !has_flag(flags, "MAP_ANONYMOUS")) else {
            self.left(if is_shared { Left::SharedMemory } else { Left::NoData });
            return Ok(());
        };
        // The handle that reads says which file it is; a mapping has one of its own, which outlives it.
        let Some(end) = self.end_for(step, found, Way::Reads)? else { return Ok(()) };
        if self.journal.is_pipe(end.object) {
            return Ok(());
        }
        let length = whole_number(call.arg(1)).unwrap_or(0);
        let own = self.step(step)?.table.get(&found.number);
        let range =
            Range { from: address, to: address.saturating_add(length), file: own.and_then(|own| own.file) };
        // What may be made writable later counts as writable now.
        let can_write = is_shared && own.is_some_and(|own| own.writes.is_some());
        let own = self.step_mut(step)?.maps.iter_mut().find(|mapping| mapping.reads.object == end.object);
        if let Some(mapping) = own {
            mapping.ranges.push(range);
            let has_writes = mapping.writes.is_some();
            self.left(Left::Repeats);
            if can_write && !has_writes {
                self.map_writes(step, end.object)?;
            }
            return Ok(());
        }
        let Some(reads) = self.open(step, end.object, Way::Maps)? else { return Ok(()) };
        self.step_mut(step)?.maps.push(Mapping { reads, writes: None, ranges: vec![range] });
        self.peers_read(step, reads.object)?;
        if can_write {
            self.map_writes(step, reads.object)?;
        }
        Ok(())
    }

    /// The mapping of a file can be written through.
    pub fn map_writes(&mut self, step: u64, object: u64) -> Done {
        self.note(Note::SharedMap);
        let writes = self.open(step, object, Way::Writes)?;
        if let Some(end) = writes {
            self.write(step, end)?;
            // An exec ends a mapping, and so it must end this handle.
            self.make(Call::Mark { subject: step, place: end.place })?;
        }
        let own = self.step_mut(step)?.maps.iter_mut().find(|mapping| mapping.reads.object == object);
        if let Some(mapping) = own {
            mapping.writes = writes;
        }
        Ok(())
    }

    /// munmap: a mapping goes when nothing is left of it. What is unmapped in part stays.
    pub fn unmaps(&mut self, step: u64, call: &Sys) -> Done {
        let (Some(start), Some(length)) = (whole_number(call.arg(0)), whole_number(call.arg(1))) else {
            return Ok(());
        };
        let end = start.saturating_add(length);
        let mut gone = Vec::new();
        for mapping in &mut self.step_mut(step)?.maps {
            mapping.ranges.retain(|range| range.from < start || range.to > end.max(rounded(end)));
        }
        self.step_mut(step)?.maps.retain(|mapping| {
            let is_gone = mapping.ranges.is_empty();
            if is_gone {
                gone.extend([Some(mapping.reads), mapping.writes].into_iter().flatten());
            }
            !is_gone
        });
        if gone.is_empty() {
            self.left(Left::NoData);
        }
        if !gone.is_empty() {
            self.touch(step, UNMAPPED);
        }
        for end in gone {
            self.close(step, end)?;
        }
        Ok(())
    }

    /// mremap: the mapping has another address.
    pub fn remaps(&mut self, step: u64, call: &Sys) -> Done {
        let (Some(old), Outcome::Done(new, _)) = (whole_number(call.arg(0)), call.outcome) else {
            return Ok(());
        };
        let length = whole_number(call.arg(2)).unwrap_or(0);
        let new = new as u64;
        for mapping in &mut self.step_mut(step)?.maps {
            for range in mapping.ranges.iter_mut().filter(|range| range.from == old) {
                (range.from, range.to) = (new, new.saturating_add(length));
            }
        }
        self.left(Left::NoData);
        Ok(())
    }
}

/// The kernel unmaps whole pages.
fn rounded(end: u64) -> u64 {
    end.saturating_add(4095) & !4095
}

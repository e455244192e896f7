//! What calls in two lines leave open where threads share descriptors: another thread may have changed them between the
//! lines, before the kernel looked at them or after.

use gatekeeper::Way;

use crate::call::fd;
use crate::data::data_args;
use crate::report::Left;
use crate::world::{Descriptor, Done, Mapping, Pending, World};

/// Stands among the descriptors for a mapping that has gone.
pub const UNMAPPED: i32 = -1;

impl World<'_> {
    /// Another descriptor is under this number: calls that have begun may have found either.
    pub fn touch(&mut self, step: u64, fd: i32) {
        let begun = self.tasks.values_mut().filter(|task| task.step == step);
        for pending in begun.filter_map(|task| task.pending.as_mut()) {
            pending.touched.push(fd);
        }
    }

    /// The descriptors that a call which begins is about, with their births.
    pub fn births_of(&self, step: u64, name: &str, args: &[&str]) -> Vec<(i32, u64)> {
        let (one, other) = match name {
            "dup" | "dup2" | "dup3" | "fcntl" | "fcntl64" | "ioctl" | "vmsplice" => (Some(0), None),
            "mmap" | "mmap2" => (Some(4), None),
            _ => data_args(name).unwrap_or((None, None)),
        };
        let fds = [one, other].into_iter().flatten().filter_map(|index| fd(args.get(index)?));
        let Ok(own) = self.step(step) else { return Vec::new() };
        fds.filter_map(|fd| Some((fd.number, own.table.get(&fd.number)?.birth))).collect()
    }

    /// Says so where a descriptor that a call is about has changed since it began.
    pub fn look_for_race(&mut self, step: u64, pending: &Pending) {
        let Ok(own) = self.step(step) else { return };
        let has_changed = |(fd, birth): &(i32, u64)| own.table.get(fd).map(|own| own.birth) != Some(*birth);
        if pending.births.iter().any(has_changed) {
            self.left(Left::Raced);
        }
    }

    /// What other threads have opened since a fork began, the new step may have, too. Where one number has had two
    /// descriptors, which of them it has is not known.
    pub fn catch_up(&mut self, maker: u64, child: u64, touched: &[i32]) -> Done {
        let mut fds = touched.to_vec();
        fds.sort_unstable();
        fds.dedup();
        for fd in fds {
            let is_second = self.step(child)?.table.contains_key(&fd)
                || touched.iter().filter(|&&other| other == fd).count() > 1;
            match self.step(maker)?.table.get(&fd).cloned() {
                _ if fd == UNMAPPED => self.left(Left::Raced),
                Some(descriptor) if !is_second => self.copy_descriptor(child, fd, descriptor)?,
                _ => self.put(child, fd, Descriptor::left(Left::Raced, None))?,
            }
        }
        for mapping in self.step(maker)?.maps.clone() {
            let maps = &mut self.step_mut(child)?.maps;
            match maps.iter_mut().find(|own| own.reads.object == mapping.reads.object) {
                Some(own) => {
                    let more = mapping.ranges.into_iter().filter(|range| !own.ranges.contains(range));
                    own.ranges.extend(more.collect::<Vec<_>>());
                }
                None => self.copy_mapping(child, mapping)?,
            }
        }
        Ok(())
    }

    fn copy_descriptor(&mut self, child: u64, fd: i32, mut descriptor: Descriptor) -> Done {
        let (reads, writes) =
            (descriptor.reads.map(|end| end.object), descriptor.writes.map(|end| end.object));
        match self.open_both(child, reads, writes)? {
            Some(ends) => (descriptor.reads, descriptor.writes) = ends,
            None => descriptor = Descriptor::left(Left::Refused, descriptor.path),
        }
        let ends_at_exec = std::mem::take(&mut descriptor.ends_at_exec);
        self.put(child, fd, descriptor)?;
        match ends_at_exec {
            true => self.end_at_exec(child, fd),
            false => Ok(()),
        }
    }

    fn copy_mapping(&mut self, child: u64, mapping: Mapping) -> Done {
        let object = mapping.reads.object;
        let Some(reads) = self.open(child, object, Way::Maps)? else { return Ok(()) };
        self.step_mut(child)?.maps.push(Mapping { reads, writes: None, ranges: mapping.ranges });
        match mapping.writes {
            Some(_) => self.map_writes(child, object),
            None => Ok(()),
        }
    }
}

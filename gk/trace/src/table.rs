//! Descriptors that come and go: dup and its kin, fcntl, close.

use crate::call::{fd, has_flag, whole_number, Sys};
use crate::report::Left;
use crate::world::{Descriptor, Done, World};

impl World<'_> {
    /// dup, dup2, dup3 and fcntl's duplicates: another handle on the same file or pipe.
    pub fn duplicates(&mut self, step: u64, from: &str, to: i32, ends_at_exec: bool) -> Done {
        let Some(found) = fd(from) else { return Ok(()) };
        if found.number == to {
            return Ok(());
        }
        let own = self.step(step)?.table.get(&found.number).cloned();
        let mut own = own.unwrap_or_else(|| Descriptor::left(Left::Unknown, None));
        self.drop_fd(step, to)?;
        if own.is_held() {
            let (reads, writes) = (own.reads.map(|end| end.object), own.writes.map(|end| end.object));
            let Some((reads, writes)) = self.open_both(step, reads, writes)? else {
                return self
                    .stop("gk trace is at fault here: a handle that is held is refused".to_string());
            };
            (own.reads, own.writes) = (reads, writes);
        } else {
            self.left(own.left.unmoved());
        }
        own.ends_at_exec = false;
        self.put(step, to, own)?;
        if ends_at_exec {
            self.end_at_exec(step, to)?;
        }
        Ok(())
    }

    /// fcntl that has come out well, with this number.
    pub fn fcntl(&mut self, step: u64, call: &Sys, value: i64) -> Done {
        let Some(found) = fd(call.arg(0)) else { return Ok(()) };
        match call.arg(1) {
            command @ ("F_DUPFD" | "F_DUPFD_CLOEXEC") => match i32::try_from(value) {
                Ok(to) if to >= 0 => self.duplicates(step, call.arg(0), to, command == "F_DUPFD_CLOEXEC"),
                _ => Ok(()),
            },
            "F_SETFD" if has_flag(call.arg(2), "FD_CLOEXEC") => self.end_at_exec(step, found.number),
            "F_SETFD" => self.stay_at_exec(step, found.number),
            _ => {
                self.left(Left::NoData);
                Ok(())
            }
        }
    }

    /// The birth of the descriptor that a close is about.
    pub fn birth_of(&self, step: u64, args: &[&str]) -> Option<u64> {
        let fd = fd(args.first()?)?;
        Some(self.step(step).ok()?.table.get(&fd.number)?.birth)
    }

    /// close. Where it took two lines, another thread may have opened the same number meanwhile: that one stays.
    pub fn closes(&mut self, step: u64, arg: &str, birth: Option<u64>) -> Done {
        let Some(fd) = fd(arg) else { return Ok(()) };
        match self.step(step)?.table.get(&fd.number) {
            None => {
                self.left(Left::Unknown);
                Ok(())
            }
            Some(own) if birth.is_some_and(|birth| birth != own.birth) => Ok(()),
            Some(own) => {
                if !own.is_held() {
                    let why = own.left.unmoved();
                    self.left(why);
                }
                self.drop_fd(step, fd.number)
            }
        }
    }

    /// close_range: closes, or marks, all descriptors from one to another.
    pub fn closes_range(&mut self, step: u64, call: &Sys) -> Done {
        let bound = |arg| whole_number(arg).map(|number| i32::try_from(number).unwrap_or(i32::MAX));
        let (Some(first), last) = (bound(call.arg(0)), bound(call.arg(1)).unwrap_or(i32::MAX)) else {
            return Ok(());
        };
        if last < first {
            return Ok(());
        }
        // With CLOSE_RANGE_UNSHARE other threads keep theirs: then all stay, which shows more flow.
        let is_shared = self.tasks.values().filter(|task| task.step == step).count() > 1;
        if is_shared && has_flag(call.arg(2), "CLOSE_RANGE_UNSHARE") {
            self.left(Left::Parted);
            return Ok(());
        }
        let fds: Vec<i32> = self.step(step)?.table.range(first..=last).map(|(&fd, _)| fd).collect();
        for fd in fds {
            if has_flag(call.arg(2), "CLOSE_RANGE_CLOEXEC") {
                self.end_at_exec(step, fd)?;
            } else {
                self.drop_fd(step, fd)?;
            }
        }
        Ok(())
    }
}

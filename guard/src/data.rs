//! Reads and writes of a loud step, at their entry.

use crate::calls::{DUP, DUP2, DUP3, FCNTL, MMAP};
use crate::guard::Guard;
use crate::proc::key_of;
use crate::sys::{CallInfo, Tid};

/// Calls whose first argument is read from: read, pread64, readv, preadv, preadv2.
const READS: [u64; 5] = [0, 17, 19, 295, 327];
/// Calls whose first argument is written to: write, pwrite64, writev, pwritev, pwritev2.
const WRITES: [u64; 5] = [1, 18, 20, 296, 328];
const SENDFILE: u64 = 40;
const SPLICE: u64 = 275;
const TEE: u64 = 276;
const COPY_FILE_RANGE: u64 = 326;

/// The descriptors that a call reads from and writes to. To map a file is to read it.
pub fn ends(call: u64, arguments: &[u64; 6]) -> (Option<u64>, Option<u64>) {
    const ANONYMOUS: u64 = 0x20;
    match call {
        _ if READS.contains(&call) => (Some(arguments[0]), None),
        _ if WRITES.contains(&call) => (None, Some(arguments[0])),
        _ if call == u64::from(MMAP) && arguments[3] & ANONYMOUS == 0 => (Some(arguments[4]), None),
        SENDFILE => (Some(arguments[1]), Some(arguments[0])),
        SPLICE | COPY_FILE_RANGE => (Some(arguments[0]), Some(arguments[2])),
        TEE => (Some(arguments[0]), Some(arguments[1])),
        _ => (None, None),
    }
}

/// Whether a call may give something that is held another number.
fn renumbers(call: u64, arguments: &[u64; 6]) -> bool {
    let is = |number: u32| call == u64::from(number);
    is(DUP) || is(DUP2) || is(DUP3) || is(FCNTL) && [0, 1030].contains(&(arguments[1] as u32))
}

impl Guard {
    /// At the entry of a call of a loud step: what would lower somebody is told before it happens.
    pub fn enters(&mut self, tid: Tid, info: &CallInfo) {
        let step = self.must_step(tid);
        if renumbers(info.number, &info.arguments) {
            // Other threads stand still until it is done: one on its way to that number begins its call again, and none
            // is looked at before.
            let process = self.tasks.get(&tid).map_or(tid, |task| task.process);
            if self.threads(process).len() > 1 {
                self.halt_others(process, tid);
                self.see_through(tid);
            }
            return;
        }
        let (from, to) = ends(info.number, &info.arguments);
        let mut has_fallen = false;
        for (descriptor, writes) in [(from, false), (to, true)] {
            let Some(number) = descriptor else { continue };
            match key_of(tid, number as i32) {
                Ok(key) => {
                    if let Some(object) = key.and_then(|key| self.told.number(key)) {
                        has_fallen |= self.told.data(step, object, writes);
                    }
                }
                Err(_) => self.end(tid, "what it reads or writes cannot be looked at"),
            }
        }
        if has_fallen {
            self.settle(tid);
        }
    }
}

#[cfg(test)]
mod tests {
    use super::*;
    use crate::calls::{rule, Rule};

    #[test]
    fn every_data_call_is_one_that_the_filter_lets_through() {
        let calls = READS.iter().chain(&WRITES).chain(&[SENDFILE, SPLICE, TEE, COPY_FILE_RANGE, 9]);
        for &call in calls {
            assert_eq!(rule(call as u32), Rule::Free);
            assert_ne!(ends(call, &[1, 2, 3, 0, 5, 6]), (None, None));
        }
        // Sockets and vmsplice would be data calls as well: they are refused.
        for call in [44, 45, 46, 47, 278, 299, 307] {
            assert!(matches!(rule(call), Rule::Refused(..)));
        }
    }

    #[test]
    fn both_ends_of_a_copy() {
        assert_eq!(ends(SENDFILE, &[1, 2, 0, 0, 0, 0]), (Some(2), Some(1)));
        assert_eq!(ends(SPLICE, &[1, 2, 3, 0, 0, 0]), (Some(1), Some(3)));
        assert_eq!(ends(9, &[0, 0, 0, 0x22, 5, 0]), (None, None));
        assert_eq!(ends(9, &[0, 0, 0, 2, 5, 0]), (Some(5), None));
    }
}

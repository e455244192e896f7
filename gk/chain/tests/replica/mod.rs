//! A monitor as it would be had a call been let through that is refused with 9: its bytes, written by hand as
//! `host/gatekeeper.h` has them. The archive answers on any bytes.

use gatekeeper::{Label, Monitor, OBJECTS, PLACES, STATE_BYTES, SUBJECTS};

/// Where subjects, slots, handles, the numbers of the slots and the groups stand.
const OBJECTS_AT: usize = 96;
const HANDLES_AT: usize = 288;
const NUMBERS_AT: usize = 2033;

const READS: u8 = 1;
const WRITES: u8 = 2;
const MAPS: u8 = 3;
const PIPE: u8 = 2;

pub struct Replica(pub Monitor);

impl Replica {
    /// The monitor after an open, a map, a connect or an exec.
    pub fn of(before: &Monitor, code: u64, numbers: [u64; 6]) -> Replica {
        let mut bytes = *before.as_bytes();
        let [s, other, to, from, reads, writes] = numbers;
        match code {
            5 => put(&mut bytes, (s, to), READS, slot(before, other)),
            6 => put(&mut bytes, (s, to), WRITES, slot(before, other)),
            14 => put(&mut bytes, (s, to), MAPS, slot(before, other)),
            10 => run(&mut bytes, before, s, other),
            _ => {
                let mut free =
                    (0..OBJECTS as usize).filter(|&slot| before.as_bytes()[OBJECTS_AT + 3 * slot] == 0);
                for (pipe, writer, reader) in [(to, s, other), (from, other, s)] {
                    let slot = free.next().expect("a slot is free");
                    let label = before.subject(writer).expect("the writer is there");
                    bytes[OBJECTS_AT + 3 * slot..][..3].copy_from_slice(&[PIPE, label.level, label.shops]);
                    bytes[NUMBERS_AT + 8 * slot..][..8].copy_from_slice(&pipe.to_le_bytes());
                    put(&mut bytes, (writer, writes), WRITES, slot);
                    put(&mut bytes, (reader, reads), READS, slot);
                }
            }
        }
        Replica(Monitor::from_bytes(bytes))
    }
}

/// The slot of an object that is there.
pub fn slot(monitor: &Monitor, object: u64) -> usize {
    let bytes = monitor.as_bytes();
    let is_its = |&slot: &usize| {
        bytes[OBJECTS_AT + 3 * slot] > 0 && bytes[NUMBERS_AT + 8 * slot..][..8] == object.to_le_bytes()
    };
    (0..OBJECTS as usize).find(is_its).expect("the object is there")
}

fn put(bytes: &mut [u8; STATE_BYTES], (s, p): (u64, u64), way: u8, slot: usize) {
    let at = HANDLES_AT + 3 * (PLACES * s + p) as usize;
    bytes[at..at + 3].copy_from_slice(&[way, slot as u8, 0]);
}

/// An exec: the mates and their handles are gone, and the step's own that are marked or mappings; it has read the file.
fn run(bytes: &mut [u8; STATE_BYTES], before: &Monitor, s: u64, file: u64) {
    let group = before.group(s);
    for t in (0..SUBJECTS).filter(|&t| before.group(t) == group) {
        for p in 0..PLACES {
            let at = HANDLES_AT + 3 * (PLACES * t + p) as usize;
            if t != s || bytes[at] == MAPS || bytes[at + 2] > 0 {
                bytes[at..at + 3].fill(0);
            }
        }
        if t != s {
            bytes[3 * t as usize..][..3].fill(0);
        }
    }
    let file = before.object(file).expect("the file is there").label;
    let own = before.subject(s).expect("the step is there");
    let Label { level, shops } = Label { level: own.level.min(file.level), shops: own.shops & file.shops };
    bytes[3 * s as usize..][..3].copy_from_slice(&[1, level, shops]);
}

//! The functions of `libhost.a`, as `host/gatekeeper.h` declares them, over slices and the struct. All that is unsafe is
//! here.
//!
//! Why it is sound: each function takes any bytes and any numbers, reads and writes only what it is lent, and keeps none
//! of it. A slice has its length behind its pointer, a [`State`] and a [`LentChain`] are laid out as the header's
//! structs, with every value of a field being one, and what is behind a `&mut` is lent to nobody else. The parts of a state
//! are bytes without padding between them, or numbers of 16 or 64 bits, and lie apart from each other.

use std::mem::{align_of, offset_of, size_of, size_of_val};

use crate::chain::STEPS;
use crate::lent::State;

mod c {
    use super::{LentChain, LineOutcome, State};

    extern "C" {
        #[cfg(test)]
        pub fn gatekeeper_state_bytes() -> usize;
        pub fn gatekeeper_version() -> u32;
        pub fn gatekeeper_empty(state: *mut u8, len: usize) -> bool;
        pub fn gatekeeper_call(
            state: *mut u8,
            len: usize,
            code: u64,
            a: u64,
            b: u64,
            c: u64,
            d: u64,
            e: u64,
            f: u64,
        ) -> u32;
        pub fn gatekeeper_made(state: *const u8, len: usize) -> u64;
        pub fn gatekeeper_gone(state: *const u8, len: usize) -> u64;
        pub fn gatekeeper_subject(state: *const u8, len: usize, s: u64) -> u32;
        pub fn gatekeeper_group(state: *const u8, len: usize, s: u64) -> u32;
        pub fn gatekeeper_object(state: *const u8, len: usize, o: u64) -> u32;
        pub fn gatekeeper_object_from(state: *const u8, len: usize, o: u64) -> u64;
        pub fn gatekeeper_handle(state: *const u8, len: usize, s: u64, p: u64) -> u32;
        pub fn gatekeeper_handle_object(state: *const u8, len: usize, s: u64, p: u64) -> u64;
        pub fn gatekeeper_subject_need(state: *const u8, len: usize, s: u64) -> u32;
        pub fn gatekeeper_object_need(state: *const u8, len: usize, o: u64) -> u32;
        pub fn gatekeeper_put_right(state: *mut u8, len: usize) -> bool;
        pub fn gatekeeper_frozen_from(state: *const u8, len: usize) -> u32;
        pub fn gatekeeper_monitor_empty(monitor: *mut State);
        pub fn gatekeeper_monitor_assure(monitor: *mut State) -> u32;
        pub fn gatekeeper_monitor_call(
            monitor: *mut State,
            code: u64,
            a: u64,
            b: u64,
            c: u64,
            d: u64,
            e: u64,
            f: u64,
        ) -> u32;
        pub fn gatekeeper_quick_open(
            numbers: *const u64,
            numbers_len: usize,
            subjects: *const u8,
            subjects_len: usize,
            objects: *const u8,
            objects_len: usize,
            handles: *mut u8,
            handles_len: usize,
            needs: *const u16,
            needs_len: usize,
            counts: *mut u64,
            counts_len: usize,
            freeze: u8,
            sure: u8,
            code: u64,
            s: u64,
            o: u64,
            p: u64,
        ) -> u32;
        pub fn gatekeeper_quick_close(
            subjects: *const u8,
            subjects_len: usize,
            objects: *const u8,
            objects_len: usize,
            handles: *mut u8,
            handles_len: usize,
            needs: *const u16,
            needs_len: usize,
            counts: *mut u64,
            counts_len: usize,
            freeze: u8,
            sure: u8,
            s: u64,
            p: u64,
        ) -> u32;
        pub fn gatekeeper_line(
            state: *mut u8,
            len: usize,
            line: *const u8,
            line_len: usize,
            shell: u64,
            child: u64,
            pipe: u64,
        ) -> LineOutcome;
        pub fn gatekeeper_monitor_line(
            monitor: *mut State,
            line: *const u8,
            line_len: usize,
            shell: u64,
            child: u64,
            pipe: u64,
        ) -> LineOutcome;
        pub fn gatekeeper_why(
            state: *const u8,
            len: usize,
            code: u64,
            a: u64,
            b: u64,
            c: u64,
            d: u64,
            e: u64,
            f: u64,
            chain: *mut LentChain,
        ) -> u32;
        pub fn gatekeeper_monitor_why(
            monitor: *const State,
            code: u64,
            a: u64,
            b: u64,
            c: u64,
            d: u64,
            e: u64,
            f: u64,
            chain: *mut LentChain,
        ) -> u32;
        pub fn gatekeeper_replay(journal: *const u8, len: usize, out: *mut u8, room: usize) -> usize;
        pub fn gatekeeper_record(
            out: *mut u8,
            room: usize,
            code: u64,
            a: u64,
            b: u64,
            c: u64,
            d: u64,
            e: u64,
            f: u64,
        ) -> u32;
        pub fn gatekeeper_number(bytes: *const u8, len: usize, value: *mut u64) -> u32;
    }
}

/// What came of a line: `struct gatekeeper_line_outcome` of host/gatekeeper.h. The counts are 0 where the refusal is not.
#[repr(C)]
#[derive(Clone, Copy, Debug, PartialEq, Eq)]
pub struct LineOutcome {
    pub allowed: u64,
    pub lowered: u64,
    pub refused: u64,
    pub refusal: u64,
}

/// The refusal of a line where the length of the monitor is wrong.
pub const NOT_A_STATE: u64 = 255;

/// A chain as it is lent: `struct gatekeeper_chain` of host/gatekeeper.h.
#[repr(C)]
#[derive(Clone, Copy, Debug, PartialEq, Eq)]
pub struct LentChain {
    pub low: u64,
    pub high: u64,
    pub steps: [u16; STEPS],
    pub count: u8,
    pub kind: u8,
}

impl LentChain {
    pub const NONE: LentChain = LentChain { low: 0, high: 0, steps: [0; STEPS], count: 0, kind: 0 };
}

/// The `kind` of a chain at whose front a subject stands.
pub const FRONT_SUBJECT: u8 = 1;

const _: () = {
    assert!(size_of::<LentChain>() == 208 && align_of::<LentChain>() == 8);
    assert!(offset_of!(LentChain, low) == 0);
    assert!(offset_of!(LentChain, high) == 8);
    assert!(offset_of!(LentChain, steps) == 16);
    assert!(offset_of!(LentChain, count) == 206);
    assert!(offset_of!(LentChain, kind) == 207);
};

/// Said where the archive finds the length of a monitor wrong.
pub const OTHER_VERSION: &str =
    "libhost.a is of another version than this crate: its monitors have another length";

pub fn version() -> u32 {
    unsafe { c::gatekeeper_version() }
}

#[cfg(test)]
pub fn state_bytes() -> usize {
    unsafe { c::gatekeeper_state_bytes() }
}

pub fn empty(state: &mut [u8]) -> bool {
    unsafe { c::gatekeeper_empty(state.as_mut_ptr(), state.len()) }
}

#[inline]
pub fn call(state: &mut [u8], code: u64, numbers: [u64; 6]) -> u32 {
    let [a, b, c, d, e, f] = numbers;
    unsafe { c::gatekeeper_call(state.as_mut_ptr(), state.len(), code, a, b, c, d, e, f) }
}

pub fn made(state: &[u8]) -> u64 {
    unsafe { c::gatekeeper_made(state.as_ptr(), state.len()) }
}

pub fn gone(state: &[u8]) -> u64 {
    unsafe { c::gatekeeper_gone(state.as_ptr(), state.len()) }
}

pub fn subject(state: &[u8], s: u64) -> u32 {
    unsafe { c::gatekeeper_subject(state.as_ptr(), state.len(), s) }
}

pub fn group(state: &[u8], s: u64) -> u32 {
    unsafe { c::gatekeeper_group(state.as_ptr(), state.len(), s) }
}

pub fn object(state: &[u8], o: u64) -> u32 {
    unsafe { c::gatekeeper_object(state.as_ptr(), state.len(), o) }
}

pub fn object_from(state: &[u8], o: u64) -> u64 {
    unsafe { c::gatekeeper_object_from(state.as_ptr(), state.len(), o) }
}

pub fn handle(state: &[u8], s: u64, p: u64) -> u32 {
    unsafe { c::gatekeeper_handle(state.as_ptr(), state.len(), s, p) }
}

pub fn handle_object(state: &[u8], s: u64, p: u64) -> u64 {
    unsafe { c::gatekeeper_handle_object(state.as_ptr(), state.len(), s, p) }
}

pub fn subject_need(state: &[u8], s: u64) -> u32 {
    unsafe { c::gatekeeper_subject_need(state.as_ptr(), state.len(), s) }
}

pub fn object_need(state: &[u8], o: u64) -> u32 {
    unsafe { c::gatekeeper_object_need(state.as_ptr(), state.len(), o) }
}

pub fn put_right(state: &mut [u8]) -> bool {
    unsafe { c::gatekeeper_put_right(state.as_mut_ptr(), state.len()) }
}

pub fn frozen_from(state: &[u8]) -> u32 {
    unsafe { c::gatekeeper_frozen_from(state.as_ptr(), state.len()) }
}

pub fn monitor_empty(monitor: &mut State) {
    unsafe { c::gatekeeper_monitor_empty(monitor) }
}

/// Whether calls may now rely on what the monitor keeps.
pub fn monitor_assure(monitor: &mut State) -> bool {
    unsafe { c::gatekeeper_monitor_assure(monitor) == 1 }
}

#[inline]
pub fn monitor_call(monitor: &mut State, code: u64, numbers: [u64; 6]) -> u32 {
    let [a, b, c, d, e, f] = numbers;
    unsafe { c::gatekeeper_monitor_call(monitor, code, a, b, c, d, e, f) }
}

/// How long the parts of a state are: how many numbers; subjects, objects and handles in bytes; how many kept needs; and
/// how many counts.
type Lengths = [usize; 6];

#[inline]
fn lengths(monitor: &State) -> Lengths {
    let State { numbers, subjects, objects, handles, needs, counts, .. } = monitor;
    let [subjects, objects, handles] = [size_of_val(subjects), size_of_val(objects), size_of_val(handles)];
    [numbers.len(), subjects, objects, handles, needs.len(), counts.len()]
}

/// An open for reading (code 5) or writing (code 6) of object `o` at place `p` of subject `s` that changes no need; 0, and
/// nothing is touched, where it is not that simple.
#[inline]
pub fn quick_open(monitor: &mut State, code: u64, s: u64, o: u64, p: u64) -> u32 {
    let lengths = lengths(monitor);
    // The lengths are those of the parts.
    unsafe { quick_open_of(monitor, lengths, code, s, o, p) }
}

/// A close at place `p` of subject `s` that changes no need; 0, and nothing is touched, where it is not that simple.
#[inline]
pub fn quick_close(monitor: &mut State, s: u64, p: u64) -> u32 {
    let lengths = lengths(monitor);
    // The lengths are those of the parts.
    unsafe { quick_close_of(monitor, lengths, s, p) }
}

/// # Safety
/// No part is shorter than its length.
#[inline]
unsafe fn quick_open_of(monitor: &mut State, lengths: Lengths, code: u64, s: u64, o: u64, p: u64) -> u32 {
    let State { numbers, subjects, objects, handles, freeze, needs, sure, counts, .. } = monitor;
    let [numbers_len, subjects_len, objects_len, handles_len, needs_len, counts_len] = lengths;
    unsafe {
        c::gatekeeper_quick_open(
            numbers.as_ptr(),
            numbers_len,
            subjects.as_ptr().cast(),
            subjects_len,
            objects.as_ptr().cast(),
            objects_len,
            handles.as_mut_ptr().cast(),
            handles_len,
            needs.as_ptr(),
            needs_len,
            counts.as_mut_ptr(),
            counts_len,
            *freeze,
            *sure,
            code,
            s,
            o,
            p,
        )
    }
}

/// # Safety
/// No part is shorter than its length.
#[inline]
unsafe fn quick_close_of(monitor: &mut State, lengths: Lengths, s: u64, p: u64) -> u32 {
    let State { subjects, objects, handles, freeze, needs, sure, counts, .. } = monitor;
    let [_, subjects_len, objects_len, handles_len, needs_len, counts_len] = lengths;
    unsafe {
        c::gatekeeper_quick_close(
            subjects.as_ptr().cast(),
            subjects_len,
            objects.as_ptr().cast(),
            objects_len,
            handles.as_mut_ptr().cast(),
            handles_len,
            needs.as_ptr(),
            needs_len,
            counts.as_mut_ptr(),
            counts_len,
            *freeze,
            *sure,
            s,
            p,
        )
    }
}

pub fn line(state: &mut [u8], line: &[u8], shell: u64, child: u64, pipe: u64) -> LineOutcome {
    let (len, line_len) = (state.len(), line.len());
    unsafe { c::gatekeeper_line(state.as_mut_ptr(), len, line.as_ptr(), line_len, shell, child, pipe) }
}

pub fn monitor_line(monitor: &mut State, line: &[u8], shell: u64, child: u64, pipe: u64) -> LineOutcome {
    unsafe { c::gatekeeper_monitor_line(monitor, line.as_ptr(), line.len(), shell, child, pipe) }
}

/// How many steps the chain behind a call's refusal 9 has, which is then written over the lent one; 0, and nothing is
/// touched, where the call is not refused so.
pub fn why(state: &[u8], code: u64, numbers: [u64; 6], chain: &mut LentChain) -> u32 {
    let [a, b, c, d, e, f] = numbers;
    unsafe { c::gatekeeper_why(state.as_ptr(), state.len(), code, a, b, c, d, e, f, chain) }
}

pub fn monitor_why(monitor: &State, code: u64, numbers: [u64; 6], chain: &mut LentChain) -> u32 {
    let [a, b, c, d, e, f] = numbers;
    unsafe { c::gatekeeper_monitor_why(monitor, code, a, b, c, d, e, f, chain) }
}

pub fn replay(journal: &[u8], out: &mut [u8]) -> usize {
    unsafe { c::gatekeeper_replay(journal.as_ptr(), journal.len(), out.as_mut_ptr(), out.len()) }
}

pub fn record(out: &mut [u8], code: u64, numbers: [u64; 6]) -> u32 {
    let [a, b, c, d, e, f] = numbers;
    unsafe { c::gatekeeper_record(out.as_mut_ptr(), out.len(), code, a, b, c, d, e, f) }
}

/// The value of the number at the front of some bytes, and how many it takes: 0, and the value means nothing, where it is
/// malformed.
#[inline]
pub fn number(bytes: &[u8]) -> (u64, u32) {
    let mut value = 0;
    let used = unsafe { c::gatekeeper_number(bytes.as_ptr(), bytes.len(), &mut value) };
    (value, used)
}

#[cfg(test)]
mod tests {
    use super::*;
    use crate::monitor::{GROUPS_AT, HANDLES_AT, NEEDS_AT, NUMBERS_AT, OBJECTS_AT};
    use crate::{Call, ALL_SHOPS, STATE_BYTES};

    /// What a handle's number has more where it is marked.
    const MARKED: u32 = 256 * 256;

    /// What a label's number has more for the mark of shop group 0.
    const SHOP: u32 = 256 * 256;

    #[test]
    fn bytes_of_another_length_are_not_touched() {
        // 1,232 bytes are those of a version before 2.0.0, 1,745 those of 2.0.0 to 3.0.0, 1,841 those of 4.0.0 to 5.0.0,
        // 2,353 those of 6.0.0 and 6.1.0, and 2,385 those of 7.0.0. In bytes that are all 1 every subject and a file is
        // live, in bytes that are all 2 a pipe.
        for len in [0, 1, 1232, 1745, 1841, 2353, 2385, STATE_BYTES - 1, STATE_BYTES + 1, 2 * STATE_BYTES] {
            for byte in [1, 2, 7] {
                let mut state = vec![byte; len];
                assert!(!empty(&mut state));
                assert!(!put_right(&mut state));
                assert_eq!(call(&mut state, 1, [0, 9, 255, 0, 0, 0]), 0);
                assert_eq!((made(&state), gone(&state), frozen_from(&state)), (0, 0, 0));
                let number = u64::from_le_bytes([byte; 8]);
                assert_eq!((subject(&state, 0), object(&state, number), handle(&state, 0, 0)), (0, 0, 0));
                assert_eq!(
                    (group(&state, 0), object_from(&state, 0), handle_object(&state, 0, 0)),
                    (0, 0, 0)
                );
                assert_eq!((subject_need(&state, 0), object_need(&state, number)), (0, 0));
                // Whatever the line is.
                for text in ["1", "1 < 2 | 3 > 4", "", "01", "1|1|1|1|1|1|1|1|1"] {
                    let outcome = line(&mut state, text.as_bytes(), 0, 1, 2);
                    let nothing = LineOutcome { allowed: 0, lowered: 0, refused: 0, refusal: NOT_A_STATE };
                    assert_eq!(outcome, nothing, "{text}");
                }
                // Whatever the call is, and whatever stands in the chain that is lent.
                for code in [0, 5, 6, 10, 14, 17, u64::MAX] {
                    let lent = LentChain { low: 1, high: number, steps: [511; STEPS], count: 255, kind: 7 };
                    let mut chain = lent;
                    assert_eq!((why(&state, code, [0, number, 1, 2, 3, 4], &mut chain), chain), (0, lent));
                }
                assert_eq!(state, vec![byte; len]);
            }
        }
    }

    #[test]
    fn parts_of_another_length_are_not_touched() {
        let mut state = State::new();
        for call in [
            Call::Register { object: 0, level: 7, shops: ALL_SHOPS },
            Call::Admit { subject: 0, level: 9, shops: ALL_SHOPS },
            Call::OpenRead { subject: 0, object: 0, place: 0 },
        ] {
            assert!(state.call(call).granted().is_ok(), "{call:?}");
        }
        let whole = lengths(&state);
        assert_eq!(whole, [64, 96, 192, 1536, 96, 2]);

        // An open and a close are quick with these lengths, and so are two that are refused.
        type Tried = fn(&mut State, Lengths) -> u32;
        let opens: [(Tried, u32); 2] = [
            (|state, lengths| unsafe { quick_open_of(state, lengths, 5, 0, 0, 1) }, 256 * 65 + 7),
            (|state, lengths| unsafe { quick_open_of(state, lengths, 6, 1, 0, 1) }, 256 * 82 + 2),
        ];
        let closes: [(Tried, u32); 2] = [
            (|state, lengths| unsafe { quick_close_of(state, lengths, 0, 0) }, 256 * 65 + 9),
            (|state, lengths| unsafe { quick_close_of(state, lengths, 0, 1) }, 256 * 82 + 7),
        ];
        for (call, answer) in opens.into_iter().chain(closes) {
            assert_eq!(call(&mut state.clone(), whole), answer);
        }

        // Each part shorter, by itself and with all the others; a close takes no numbers.
        for part in 0..whole.len() {
            let calls = opens.into_iter().chain(closes.into_iter().filter(|_| part > 0));
            for (shorter, (call, _)) in (0..whole[part]).flat_map(|s| calls.clone().map(move |c| (s, c))) {
                let mut one = whole;
                one[part] = shorter;
                for lengths in [one, whole.map(|length| length.min(shorter))] {
                    let mut touched = state.clone();
                    assert_eq!(call(&mut touched, lengths), 0, "{lengths:?}");
                    assert!(touched == state, "{lengths:?}");
                }
            }
        }
    }

    #[test]
    fn quick_opens_have_two_codes() {
        let mut state = State::new();
        assert_eq!(quick_open(&mut state, 5, 0, 0, 0), 256 * 82 + 2);
        assert_eq!(quick_open(&mut state, 6, 0, 0, 0), 256 * 82 + 2);
        for code in (0..300).chain([1 << 8 | 5, 1 << 16 | 6, 1 << 32 | 5, 1 << 63 | 6, u64::MAX]) {
            if code != 5 && code != 6 {
                assert_eq!(quick_open(&mut state, code, 0, 0, 0), 0, "{code}");
            }
        }
        assert!(state == State::new());
    }

    #[test]
    fn what_is_there_is_a_number() {
        // Every subject and every file is live, and every handle reads the file in slot 1 and is marked; level and set of
        // each, and of every kept need, are 1. File i is in slot i, but the last one has the highest number.
        let mut state = with_numbers([1; STATE_BYTES]);
        state[GROUPS_AT - 8..GROUPS_AT].fill(0xff);
        let one = SHOP + 256 + 1;
        assert_eq!((subject(&state, 31), object(&state, 62), object(&state, u64::MAX)), (one, one, one));
        assert_eq!((handle(&state, 31, 15), handle_object(&state, 31, 15)), (MARKED + 256, 1));
        assert_eq!((subject_need(&state, 31), object_need(&state, u64::MAX)), (SHOP + 1, SHOP + 1));
        assert_eq!(frozen_from(&state), 1);
        assert_eq!([0, 1, 62].map(|o| object_from(&state, o)), [0, 1, 62]);
        assert_eq!([63, 1 << 32, u64::MAX].map(|o| object_from(&state, o)), [u64::MAX; 3]);

        // No file is written, so that no subject needs anything.
        assert!(put_right(&mut state));
        assert_eq!((subject_need(&state, 31), object_need(&state, u64::MAX)), (0, SHOP + 1));

        // Out of range, or of another number, there is nothing, whatever the bits of the number.
        for far in [64, 65, 256, 1 << 16, 1 << 31, 1 << 32, 1 << 63, u64::MAX - 31, u64::MAX - 1] {
            assert_eq!((subject(&state, far), object(&state, far)), (0, 0), "{far}");
            assert_eq!((subject_need(&state, far), object_need(&state, far)), (0, 0), "{far}");
            assert_eq!((handle(&state, far, 0), handle(&state, 0, far)), (0, 0), "{far}");
            assert_eq!((handle_object(&state, far, 0), handle_object(&state, 0, far)), (0, 0), "{far}");
        }
        assert_eq!((subject(&state, 32), subject_need(&state, 32), object(&state, 63)), (0, 0, 0));
        assert_eq!((handle(&state, 32, 0), handle(&state, 0, 16)), (0, 0));
        assert_eq!((subject(&state, u64::MAX), handle(&state, 0, u64::MAX)), (0, 0));

        // A level is any byte, and so is a set.
        for (level, shops) in (0..=255).flat_map(|byte| [(byte, 1), (1, byte), (byte, byte ^ 0x5a)]) {
            state[1..3].copy_from_slice(&[level, shops]);
            state[OBJECTS_AT + 1..][..2].copy_from_slice(&[level, shops]);
            state[NEEDS_AT..][..2].copy_from_slice(&[shops, level]);
            state[NEEDS_AT + 2 * 32..][..2].copy_from_slice(&[shops, level]);
            let label = SHOP * u32::from(shops) + u32::from(level);
            assert_eq!((subject(&state, 0), object(&state, 0)), (256 + label, 256 + label));
            assert_eq!((subject_need(&state, 0), object_need(&state, 0)), (label, label));
        }
    }

    #[test]
    fn what_first_bytes_say() {
        for byte in 0..=255 {
            let mut state = with_numbers([1; STATE_BYTES]);
            state[0] = byte; // of subject 0
            state[OBJECTS_AT] = byte; // of slot 0, in which object 0 stands
            state[HANDLES_AT + 3 * 16] = byte; // of place 0 of subject 1
            state[HANDLES_AT + 3 * 17 + 1] = byte; // the slot of place 1
            state[HANDLES_AT + 3 * 18 + 2] = byte; // the mark of place 2
            let known = |kinds| if (1..=kinds).contains(&byte) { u32::from(byte) } else { 0 };
            assert_eq!(subject(&state, 0), if byte == 1 { SHOP + 256 + 1 } else { 0 }, "{byte}");
            assert_eq!(subject_need(&state, 0), if byte == 1 { SHOP + 1 } else { 0 }, "{byte}");
            let kind = known(2);
            assert_eq!(object(&state, 0), if kind > 0 { SHOP + 256 * kind + 1 } else { 0 }, "{byte}");
            assert_eq!(object_need(&state, 0), if kind > 0 { SHOP + 1 } else { 0 }, "{byte}");
            let way = known(3);
            assert_eq!(handle(&state, 1, 0), if way > 0 { MARKED + 256 * way } else { 0 }, "{byte}");
            assert_eq!(handle_object(&state, 1, 0), u64::from(way > 0), "{byte}");
            // A handle on what is not live dangles, and so does one of a subject that is not.
            let there = (1..64).contains(&byte);
            assert_eq!(handle(&state, 1, 1), if there { MARKED + 256 } else { 0 }, "{byte}");
            assert_eq!(handle_object(&state, 1, 1), if there { byte.into() } else { 0 }, "{byte}");
            assert_eq!(handle(&state, 0, 0) > 0, byte == 1, "{byte}");
            assert_eq!(handle(&state, 1, 2), 256 + if byte == 1 { MARKED } else { 0 }, "{byte}");
        }
    }

    #[test]
    fn of_slots_with_one_number_the_first_in_use_counts() {
        // Slots 2, 5 and 9 have the number 2^40; subject 0 has a handle on each.
        let mut state = with_numbers([0; STATE_BYTES]);
        state[..3].copy_from_slice(&[1, 9, 255]);
        for (place, (slot, kind, level)) in [(2, 1, 7), (5, 2, 8), (9, 1, 9)].into_iter().enumerate() {
            state[OBJECTS_AT + 3 * slot..][..3].copy_from_slice(&[kind, level, slot as u8]);
            state[HANDLES_AT + 3 * place..][..2].copy_from_slice(&[1, slot as u8]);
            state[NUMBERS_AT + 8 * slot..][..8].copy_from_slice(&(1u64 << 40).to_le_bytes());
        }
        for (used, seen) in [(2, 256 + 7), (5, 512 + 8), (9, 256 + 9)] {
            assert_eq!(object(&state, 1 << 40), SHOP * used + seen);
            assert_eq!((object_from(&state, 0), object_from(&state, (1 << 40) + 1)), (1 << 40, 0));
            for (place, slot) in [2, 5, 9].into_iter().enumerate() {
                let there = if slot == used { (256, 1 << 40) } else { (0, 0) };
                let place = place as u64;
                assert_eq!((handle(&state, 0, place), handle_object(&state, 0, place)), there, "{slot}");
            }
            // With the first one free, the next one counts.
            state[OBJECTS_AT + 3 * used as usize] = 0;
        }
        assert_eq!((object(&state, 1 << 40), object_from(&state, 0)), (0, 0));
    }

    #[test]
    fn a_group_is_the_lowest_number_of_a_member() {
        // Every subject is live, and those whose numbers have the same lowest two bits are in one group.
        let mut state = [1; STATE_BYTES];
        for (byte, s) in state[GROUPS_AT..].iter_mut().zip(0u8..) {
            *byte = 0xff - s % 4;
        }
        assert_eq!([0, 3, 4, 30, 31].map(|s| group(&state, s)), [256, 256 + 3, 256, 256 + 2, 256 + 3]);
        // The lowest that is live; and one that is not live is in no group, whatever its byte is.
        state[3 * 3] = 0;
        state[3 * 7] = 7;
        assert_eq!([3, 7, 11, 31].map(|s| group(&state, s)), [0, 0, 256 + 11, 256 + 11]);
        // With a byte that no other live subject has, a subject is by itself.
        for byte in 0..=255u8 {
            state[GROUPS_AT + 31] = byte;
            let with = (0xfd..=0xff).rev().position(|other| other == byte).unwrap_or(31) as u32;
            let expected = if byte == 0xfc { 256 + 11 } else { 256 + with };
            assert_eq!(group(&state, 31), expected, "{byte}");
        }
        for far in [32, 33, 64, 256, 1 << 32, 1 << 63, u64::MAX] {
            assert_eq!(group(&state, far), 0, "{far}");
        }
    }

    /// These bytes with the number i at slot i.
    fn with_numbers(mut state: [u8; STATE_BYTES]) -> [u8; STATE_BYTES] {
        for (bytes, number) in state[NUMBERS_AT..GROUPS_AT].chunks_exact_mut(8).zip(0u64..) {
            bytes.copy_from_slice(&number.to_le_bytes());
        }
        state
    }

    #[test]
    fn a_malformed_number_leaves_the_value() {
        let mut value = 7;
        for bytes in [&[][..], &[0x80], &[0x80, 0x00], &[0xff; 11]] {
            let used = unsafe { c::gatekeeper_number(bytes.as_ptr(), bytes.len(), &mut value) };
            assert_eq!((used, value), (0, 7), "{bytes:?}");
        }
        let bytes = [0xac, 0x02];
        let used = unsafe { c::gatekeeper_number(bytes.as_ptr(), bytes.len(), &mut value) };
        assert_eq!((used, value), (2, 300));
    }
}

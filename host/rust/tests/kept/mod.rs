//! The bytes that versions before 8.0.0 kept.

use gatekeeper::Monitor;

/// The bytes that version 7.0.0 kept of a monitor: those of this one without the sets, which it had not. Those of the
/// versions before it are their front, where the monitor has what they had: no threads, and objects 0 to 63 in order.
pub fn by_version_7(monitor: &Monitor) -> Vec<u8> {
    let state = monitor.as_bytes();
    let things = state[..288].chunks_exact(3).flat_map(|thing| [thing[0], thing[1]]);
    let needs = state[1841..2033].chunks_exact(2).map(|need| need[1]);
    let handles = state[288..1841].iter().copied();
    things.chain(handles).chain(needs).chain(state[2033..].iter().copied()).collect()
}

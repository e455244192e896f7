//! Threads of one step: members of a group have one level and what flows to one flows to all; places, exits and forks are
//! each one's own, and an exec ends the others.

use gatekeeper_plain::tables::Tally;
use gatekeeper_plain::{Answer, Monitor, When};

/// A code and the numbers that are given; the others are 0.
type Made<'a> = (u64, &'a [u64]);

/// Subjects 0 of level 9 and 1 of level 2, files 0 of level 9 and 1 of level 2, and subject 2, a thread of subject 0.
const START: [Made; 5] =
    [(1, &[0, 9, 255]), (1, &[1, 2, 255]), (2, &[0, 9, 255]), (2, &[1, 2, 255]), (18, &[0, 2])];

fn make(monitor: &mut Monitor, (code, given): Made) -> Answer {
    let mut numbers = [0; 6];
    numbers[..given.len()].copy_from_slice(given);
    monitor.direct(code, numbers)
}

/// The answer to the last of these calls, made from the start.
fn after(calls: &[Made]) -> Answer {
    let answers = [When::EachCall, When::Asked].map(|when| {
        let mut monitor = Monitor::new(when);
        START.iter().chain(calls).map(|&call| make(&mut monitor, call)).last()
    });
    assert_eq!(answers[0], answers[1]);
    answers[0].expect("there is a call")
}

/// The same after some calls and then others.
fn then(first: &[Made], calls: &[Made]) -> Answer {
    after(&[first, calls].concat())
}

#[test]
fn a_thread_is_new_and_holds_nothing() {
    assert_eq!(after(&[]), Answer::Allowed(9));
    assert_eq!(after(&[(5, &[0, 0, 3]), (18, &[0, 3]), (7, &[3, 3])]), Answer::Refused(7));
    // Its places are its own.
    let both = [(5, &[0, 0, 3][..]), (5, &[2, 0, 3])];
    assert_eq!(after(&both), Answer::Allowed(9));
    assert_eq!(then(&both, &[(11, &[0, 3]), (7, &[2, 3])]), Answer::Allowed(9));
    assert_eq!(after(&[(18, &[1, 3])]), Answer::Allowed(2));
}

#[test]
fn a_thread_is_refused_for_its_numbers_in_order() {
    for missing in [3, 32, 1 << 32] {
        assert_eq!(after(&[(18, &[missing, missing])]), Answer::Refused(2), "{missing}");
    }
    for unfit in [0, 1, 2, 32, 1 << 32 | 3] {
        assert_eq!(after(&[(18, &[0, unfit])]), Answer::Refused(3), "{unfit}");
    }
    assert_eq!(after(&[(19, &[0, 3])]), Answer::Refused(1));
}

#[test]
fn what_lowers_a_member_lowers_its_mates() {
    // A thread of the thread, and a fork, each with a handle whose close shows the level.
    let shown = [(18, &[2, 3][..]), (9, &[2, 4]), (5, &[3, 0, 0]), (5, &[4, 0, 0])];
    for s in [0, 2, 3] {
        let (open, read) = ([s, 1, 3], [s, 3]);
        for fall in [&[(5, &open[..]), (7, &read)][..], &[(14, &open)]] {
            let fallen = [&shown[..], fall].concat();
            assert_eq!(after(&fallen), Answer::Lowered(2, 0), "{s}");
            assert_eq!(then(&fallen, &[(11, &[3, 0])]), Answer::Allowed(2), "{s}");
            assert_eq!(then(&fallen, &[(11, &[4, 0])]), Answer::Allowed(9), "{s}");
            // Who comes now has the level that they fell to.
            assert_eq!(then(&fallen, &[(18, &[3, 5])]), Answer::Allowed(2), "{s}");
            assert_eq!(then(&fallen, &[(9, &[3, 5])]), Answer::Allowed(2), "{s}");
        }
    }
}

#[test]
fn data_flows_between_mates() {
    let (write, read): (u64, u64) = (6, 5);
    for (s, mate) in [(0, 2), (2, 0)] {
        let (upper, lower) = ([s, 0, 3], [mate, 1, 3]);
        assert_eq!(after(&[(write, &upper), (read, &lower)]), Answer::Refused(9));
        assert_eq!(after(&[(write, &upper), (14, &lower)]), Answer::Refused(9));
        assert_eq!(after(&[(read, &lower), (write, &upper)]), Answer::Refused(9));
        assert_eq!(after(&[(write, &upper), (11, &[s, 3]), (read, &lower)]), Answer::Allowed(2));
        // A fork is in a group to itself.
        assert_eq!(after(&[(9, &[mate, 3]), (write, &upper), (read, &[3, 1, 3])]), Answer::Allowed(2));
        // Subject 1 sends to one member what another one could write.
        let connect = [1, mate, 5, 6, 0, 1];
        assert_eq!(after(&[(17, &connect)]), Answer::Allowed(2));
        assert_eq!(after(&[(17, &connect), (write, &upper)]), Answer::Refused(9));
        assert_eq!(after(&[(write, &upper), (17, &connect)]), Answer::Refused(9));
    }
}

#[test]
fn mates_are_connected() {
    let connect: Made = (17, &[0, 2, 5, 6, 0, 1]);
    assert_eq!(after(&[connect]), Answer::Allowed(9));
    assert_eq!(after(&[(6, &[0, 0, 3]), connect, (8, &[2, 1]), (7, &[0, 0])]), Answer::Allowed(9));
    assert_eq!(after(&[(17, &[2, 2, 5, 6, 0, 1])]), Answer::Refused(16));
    assert_eq!(after(&[(6, &[2, 0, 1]), connect]), Answer::Refused(7));
}

#[test]
fn an_exit_ends_one_member() {
    // The first member goes, and another subject has its number, in a group of its own.
    let left: [Made; 3] = [(6, &[2, 0, 3]), (12, &[0]), (1, &[0, 9, 255])];
    assert_eq!(after(&left), Answer::Allowed(9));
    assert_eq!(then(&left, &[(8, &[2, 3])]), Answer::Allowed(9));
    let read = [(5, &[0, 1, 3][..]), (7, &[0, 3])];
    assert_eq!(then(&left, &read), Answer::Lowered(2, 0));
    assert_eq!(then(&left, &[&read[..], &[(11, &[2, 3])]].concat()), Answer::Allowed(9));
    assert_eq!(then(&left, &[(18, &[2, 3]), (5, &[3, 1, 3])]), Answer::Refused(9));
    assert_eq!(then(&left, &[(18, &[0, 3]), (5, &[3, 1, 3])]), Answer::Allowed(2));
    // What it held counts no longer.
    assert_eq!(after(&[(6, &[2, 0, 3]), (12, &[2]), (5, &[0, 1, 3])]), Answer::Allowed(2));
}

#[test]
fn an_exec_ends_the_mates_and_is_tested_without_them() {
    // A third member writes the upper file.
    let held: [Made; 2] = [(18, &[2, 31]), (6, &[31, 0, 3])];
    let exec: Made = (10, &[0, 1]);
    assert_eq!(then(&held, &[exec]), Answer::Lowered(2, 0));
    for mate in [2, 31] {
        assert_eq!(then(&held, &[exec, (12, &[mate])]), Answer::Refused(2));
        assert_eq!(then(&held, &[exec, (1, &[mate, 9, 255]), (6, &[mate, 0, 3])]), Answer::Allowed(9));
    }
    // If that one runs the program it is refused and nobody is ended, but if its handle is marked.
    let holder: Made = (10, &[31, 1]);
    assert_eq!(then(&held, &[holder]), Answer::Refused(9));
    assert_eq!(then(&held, &[holder, (12, &[2])]), Answer::Allowed(9));
    assert_eq!(then(&held, &[(15, &[31, 3]), holder]), Answer::Lowered(2, 0));
    // Nobody falls to a program of the same level, and the mates end all the same.
    assert_eq!(then(&held, &[(10, &[0, 0])]), Answer::Allowed(9));
    assert_eq!(then(&held, &[(10, &[0, 0]), (12, &[2])]), Answer::Refused(2));
}

#[test]
fn an_exec_is_tested_with_the_handles_of_others() {
    // Subject 4 writes the upper file and reads the pipe that subject 0 writes.
    let piped: [Made; 3] = [(4, &[0, 5, 0, 1]), (9, &[0, 4]), (6, &[4, 0, 3])];
    assert_eq!(then(&piped, &[(10, &[0, 1])]), Answer::Refused(9));
    assert_eq!(then(&piped, &[(10, &[2, 1])]), Answer::Lowered(2, 0));
}

#[test]
fn an_exec_counts_the_handles_of_mates_as_gone() {
    let mut monitor = Monitor::new(When::Asked);
    // The mate has a pipe, a mapping and a writing handle, the caller two handles, of which one is marked.
    let held: [Made; 6] = [
        (4, &[2, 5, 0, 1]),
        (14, &[2, 0, 2]),
        (6, &[2, 0, 3]),
        (6, &[0, 0, 0]),
        (5, &[0, 0, 1]),
        (15, &[0, 0]),
    ];
    for call in START.into_iter().chain(held) {
        assert!(matches!(make(&mut monitor, call), Answer::Allowed(_)));
    }
    assert_eq!(monitor.tally(), Tally { made: 6, gone: 0 });
    assert_eq!(make(&mut monitor, (10, &[0, 1])), Answer::Lowered(2, 0));
    assert_eq!(monitor.tally(), Tally { made: 6, gone: 5 });
    assert_eq!((monitor.tables().slot_of(5), monitor.tables().live(2)), (None, None));
}

#[test]
fn there_are_groups_for_all_subjects() {
    // Each member but the last goes and comes back in a group of its own, one after the other.
    let mut monitor = Monitor::new(When::EachCall);
    assert_eq!(make(&mut monitor, (1, &[0, 9, 255])), Answer::Allowed(9));
    for c in 1..32 {
        assert_eq!(make(&mut monitor, (18, &[c - 1, c])), Answer::Allowed(9));
    }
    for s in 0..31 {
        assert_eq!(make(&mut monitor, (12, &[s])), Answer::Allowed(9));
        assert_eq!(make(&mut monitor, (1, &[s, s % 9, 255])), Answer::Allowed((s % 9) as u8));
    }
    for s in 0..31 {
        assert_eq!(make(&mut monitor, (3, &[s, s])), Answer::Allowed((s % 9) as u8));
    }
    assert_eq!(make(&mut monitor, (12, &[31])), Answer::Allowed(9));
}

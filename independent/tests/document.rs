//! The worked cases and single sentences of the rules (docs/RULES.md).

use gatekeeper_independent::cases;
use gatekeeper_independent::monitor::{Answer, Monitor};
use gatekeeper_independent::needs::{Needs, Thing};
use gatekeeper_independent::replies::replies;
use gatekeeper_independent::tables::{
    Direction, Handle, Kind, Object, StoredTables, Subject, Tables, LIMITS,
};
use gatekeeper_independent::variants::Rules;

#[test]
fn every_case_gets_its_replies() {
    for case in cases::all() {
        assert_eq!(replies(&case.journal), case.replies, "case {}", case.name);
    }
}

#[test]
fn the_cases_are_all_there() {
    let names: Vec<String> = cases::all().into_iter().map(|case| case.name).collect();
    for number in 1..=11 {
        let name = format!("K{number}");
        assert!(
            names.iter().any(|known| *known == name || known.starts_with(&format!("{name}-"))),
            "{name}"
        );
    }
    for name in [
        "example",
        "empty",
        "level-15",
        "level-16",
        "set-255",
        "set-record",
        "label-read",
        "label-apart",
        "label-pipe",
        "label-flow",
        "label-upstream",
        "label-exec",
        "label-map",
        "label-freeze",
        "label-connect",
        "label-connect-flow",
        "label-fork",
        "place-15",
        "place-16",
        "fork-own-number",
        "freeze-16",
        "freeze-17",
        "freeze-file",
        "freeze-pipe",
        "freeze-held",
        "freeze-flow",
        "freeze-flow-lifted",
        "freeze-flow-order",
        "freeze-flow-alone",
        "freeze-lifted",
        "freeze-replaced",
        "mark-answer",
        "mark-refused",
        "mark-exec",
        "mark-exec-refused",
        "mark-others",
        "mark-fork",
        "mark-pipe-ends",
        "mark-again",
        "mark-record",
        "map-answer",
        "map-refused",
        "map-pipe",
        "map-flow",
        "map-write",
        "map-handle",
        "map-exec",
        "map-exec-refused",
        "map-fork",
        "map-again",
        "map-record",
        "connect-answer",
        "connect-to-higher",
        "connect-refused",
        "connect-flow",
        "connect-nothing-left",
        "connect-ends",
        "connect-record",
        "connect-32-bytes",
        "thread-answer",
        "thread-refused",
        "thread-flow",
        "thread-flow-beyond",
        "thread-fall",
        "thread-map",
        "thread-pipe",
        "thread-exec",
        "thread-exec-by-thread",
        "thread-exec-same-level",
        "thread-exec-own",
        "thread-exec-chain",
        "thread-exec-refused",
        "thread-fork",
        "thread-exit",
        "thread-again",
        "thread-connect",
        "thread-places",
        "thread-two-groups",
        "thread-freeze",
        "thread-subject",
        "thread-record",
        "known-codes",
        "h-subject",
        "h-subject-new",
        "h-place",
        "h-level",
        "h-code",
        "h-largest-object",
        "h-other-numbers",
        "h-every-kind",
        "h-62-bytes",
        "h-numbers",
        "h-65-registers",
        "h-full-new",
        "h-full-order",
        "h-full-others",
        "h-connect-63",
        "h-connect-62",
        "h-connect-flow",
    ] {
        assert!(names.iter().any(|known| known == name), "{name}");
    }
    let mut unique = names.clone();
    unique.sort();
    unique.dedup();
    assert_eq!(unique.len(), names.len());
}

#[test]
fn the_example_of_the_document() {
    let journal = [5, 2, 0, 2, 255, 1, 5, 1, 0, 9, 255, 1, 4, 5, 0, 0, 0, 3, 7, 0, 0];
    assert_eq!(replies(&journal), "1 2 A 2\n2 1 A 9\n3 5 A 2\n4 7 L 2 0\nend 1 0 1\n");
}

#[test]
fn a_direct_call_ignores_the_numbers_its_code_does_not_use() {
    let mut monitor = Monitor::new();
    let any = u64::MAX;
    assert_eq!(monitor.call(1, [0, 9, 255, any, any, any]), Answer::Allowed(9));
    assert_eq!(monitor.call(2, [0, 9, 255, any, any, any]), Answer::Allowed(9));
    assert_eq!(monitor.call(5, [0, 0, 0, any, 0, 0]), Answer::Allowed(9));
    assert_eq!(monitor.call(14, [0, 0, 1, any, 0, 0]), Answer::Allowed(9));
    assert_eq!(monitor.call(15, [0, 0, any, any, 0, 0]), Answer::Allowed(9));
    assert_eq!(monitor.call(18, [0, 1, any, any, any, any]), Answer::Allowed(9));
    assert_eq!(monitor.call(12, [1, any, any, any, 0, 0]), Answer::Allowed(9));
    assert_eq!(monitor.call(12, [0, any, any, any, 0, 0]), Answer::Allowed(9));
    assert_eq!(monitor.call(13, [0, any, any, any, 0, 0]), Answer::Allowed(9));
    assert_eq!(monitor.call(16, [9, any, any, any, 0, 0]), Answer::Allowed(9));
    for code in [0, 19, 20, 255, 256, 256 + 14, 256 + 15, 256 + 16, 256 + 17, 256 + 18, u64::MAX] {
        assert_eq!(monitor.call(code, [0, 0, 0, 0, 0, 0]), Answer::Refused(1));
    }
    for code in 0..=19 {
        for above in [1 << 32, 1 << 63, 17 << 32] {
            assert_eq!(monitor.call(above + code, [0, 0, 0, 0, 0, 0]), Answer::Refused(1));
        }
    }
}

#[test]
fn a_refusal_answers_with_level_0_and_changes_nothing() {
    let mut monitor = Monitor::new();
    assert_eq!(monitor.call(1, [0, 9, 255, 0, 0, 0]), Answer::Allowed(9));
    assert_eq!(monitor.call(16, [9, 0, 0, 0, 0, 0]), Answer::Allowed(9));
    let (tables, tally) = (monitor.tables().clone(), monitor.tally());
    for code in 0..=19 {
        let answer = monitor.call(code, [99, 99, 99, 99, 0, 0]);
        assert!(matches!(answer, Answer::Refused(_)), "{code}");
        assert_eq!(answer.level(), 0);
        assert_eq!((monitor.tables(), monitor.tally()), (&tables, tally));
    }
}

// Values that no calls could have made.

const READING: Direction = Direction::Reading;
const WRITING: Direction = Direction::Writing;

fn made_up(fill: impl Fn(&mut Tables)) -> Monitor {
    let mut tables = Tables::new(LIMITS);
    tables.set_subject(0, Some(Subject { level: 9, shops: 255 }));
    tables.set_object(0, Some(Object { kind: Kind::File, level: 9, shops: 255 }));
    fill(&mut tables);
    Monitor::of_tables(tables, Rules::default())
}

fn handle(object: u64, direction: Direction) -> Option<Handle> {
    Some(Handle::new(object, direction))
}

fn marked(object: u64, direction: Direction) -> Option<Handle> {
    Some(Handle { marked: true, ..Handle::new(object, direction) })
}

#[test]
fn a_handle_on_what_is_not_live_counts_as_an_empty_place() {
    for object in [1, 63, 64, u64::MAX] {
        let monitor = made_up(|tables| tables.set_handle(0, 3, handle(object, READING)));
        for code in [7, 8, 11, 15] {
            assert_eq!(monitor.clone().call(code, [0, 3, 0, 0, 0, 0]), Answer::Refused(7));
        }
        let mut monitor = monitor;
        assert_eq!(monitor.call(5, [0, 0, 3, 0, 0, 0]), Answer::Allowed(9));
        assert_eq!(monitor.tables().handle_count(), 1);
    }
}

#[test]
fn every_allowed_call_empties_such_places() {
    let stale = |tables: &mut Tables| {
        tables.set_handle(0, 3, handle(1, READING));
        tables.set_handle(5, 0, handle(0, WRITING));
    };
    // The numbers come into use afterwards: no handle comes with them.
    let mut monitor = made_up(stale);
    assert_eq!(monitor.call(2, [1, 9, 255, 0, 0, 0]), Answer::Allowed(9));
    assert_eq!(monitor.call(1, [5, 9, 255, 0, 0, 0]), Answer::Allowed(9));
    assert_eq!(monitor.tables().handle_count(), 0);
    // A refused call leaves them.
    let mut monitor = made_up(stale);
    let tables = monitor.tables().clone();
    assert_eq!(monitor.call(1, [0, 9, 255, 0, 0, 0]), Answer::Refused(3));
    assert_eq!(*monitor.tables(), tables);
}

#[test]
fn such_places_hold_no_file_make_no_flow_and_are_not_counted() {
    let mut monitor = made_up(|tables| {
        tables.set_handle(5, 0, handle(0, WRITING));
        tables.set_handle(0, 1, handle(40, WRITING));
    });
    assert_eq!(monitor.call(9, [0, 1, 0, 0, 0, 0]), Answer::Allowed(9));
    assert_eq!(monitor.tally().made, 0);
    assert_eq!(monitor.call(13, [0, 0, 0, 0, 0, 0]), Answer::Allowed(9));
}

#[test]
fn where_a_thing_is_below_its_need_already_every_open_is_refused() {
    let mut monitor = made_up(|tables| {
        tables.set_subject(1, Some(Subject { level: 2, shops: 255 }));
        tables.set_handle(1, 0, handle(0, WRITING));
        tables.set_object(1, Some(Object { kind: Kind::File, level: 2, shops: 255 }));
    });
    assert_eq!(monitor.call(5, [0, 0, 0, 0, 0, 0]), Answer::Refused(9));
    assert_eq!(monitor.call(6, [0, 1, 0, 0, 0, 0]), Answer::Refused(9));
    // Exec looks at the caller's need alone.
    assert_eq!(monitor.call(10, [0, 1, 0, 0, 0, 0]), Answer::Lowered(2, 0));
    assert_eq!(monitor.call(10, [1, 1, 0, 0, 0, 0]), Answer::Refused(9));
    // RULES C8: a file stays.
    assert_eq!(monitor.call(8, [1, 0, 0, 0, 0, 0]), Answer::Allowed(9));
}

#[test]
fn a_pipe_without_handles_stays_until_a_last_handle_goes() {
    let mut monitor =
        made_up(|tables| tables.set_object(7, Some(Object { kind: Kind::Pipe, level: 9, shops: 255 })));
    assert_eq!(monitor.call(2, [7, 1, 255, 0, 0, 0]), Answer::Refused(3));
    assert_eq!(monitor.call(5, [0, 7, 0, 0, 0, 0]), Answer::Allowed(9));
    assert_eq!(monitor.call(11, [0, 0, 0, 0, 0, 0]), Answer::Allowed(9));
    assert_eq!(monitor.call(2, [7, 1, 255, 0, 0, 0]), Answer::Allowed(1));
}

// Marks.

/// RULES T35, C15, C10: over every place, both directions, files and pipes.
#[test]
fn a_marked_handle_is_closed_by_exec_wherever_it_stands() {
    for p in 0..16 {
        for direction in [READING, WRITING] {
            for kind in [Kind::File, Kind::Pipe] {
                let mut monitor = made_up(|tables| {
                    tables.set_object(1, Some(Object { kind, level: 9, shops: 255 }));
                    tables.set_handle(0, p, handle(1, direction));
                    tables.set_handle(0, (p + 1) % 16, handle(0, direction));
                });
                assert_eq!(monitor.call(10, [0, 0, 0, 0, 0, 0]), Answer::Allowed(9));
                assert_eq!(monitor.tables().handle_count(), 2);
                for _ in 0..2 {
                    assert_eq!(monitor.call(15, [0, p, 0, 0, 0, 0]), Answer::Allowed(9));
                    assert_eq!(monitor.tables().handle(0, p), marked(1, direction));
                }
                assert_eq!(monitor.tally().gone, 0);
                assert_eq!(monitor.call(10, [0, 0, 0, 0, 0, 0]), Answer::Allowed(9));
                assert_eq!((monitor.tables().handle(0, p), monitor.tally().gone), (None, 1));
                assert_eq!(monitor.tables().handle(0, (p + 1) % 16), handle(0, direction));
                // RULES C102: the pipe has no handle left.
                assert_eq!(monitor.tables().object(1).is_some(), kind == Kind::File);
            }
        }
    }
}

/// RULES R110: the level of the program against the need without the marked handles, at every pair of levels.
#[test]
fn exec_is_tested_without_the_caller_s_marked_handles() {
    for program in 0..=15 {
        for unmarked in 0..=15 {
            let mut monitor = made_up(|tables| {
                tables.set_subject(0, Some(Subject { level: 15, shops: 255 }));
                for (o, level) in [(0, 15), (1, unmarked), (2, program)] {
                    tables.set_object(o, Some(Object { kind: Kind::File, level, shops: 255 }));
                }
                tables.set_handle(0, 0, marked(0, WRITING));
                tables.set_handle(0, 1, handle(1, WRITING));
            });
            let before = monitor.tables().clone();
            let answer = monitor.call(10, [0, 2, 0, 0, 0, 0]);
            if program < unmarked {
                assert_eq!((answer, monitor.tables()), (Answer::Refused(9), &before));
            } else {
                assert_eq!(answer.level(), program);
                assert_eq!(answer.letter(), if program < 15 { 'L' } else { 'A' });
                assert_eq!(monitor.tables().handle_count(), 1);
            }
        }
    }
}

/// RULES R110: a ring of two subjects, in which the marks of the other one count for nothing.
#[test]
fn the_marked_handles_of_others_are_in_the_test_and_stay() {
    let ring = |marks: [bool; 2]| {
        made_up(move |tables| {
            tables.set_subject(1, Some(Subject { level: 9, shops: 255 }));
            tables.set_object(1, Some(Object { kind: Kind::File, level: 2, shops: 255 }));
            tables.set_object(2, Some(Object { kind: Kind::Pipe, level: 9, shops: 255 }));
            let at = |own: bool, object, direction| {
                if own {
                    marked(object, direction)
                } else {
                    handle(object, direction)
                }
            };
            tables.set_handle(0, 0, at(marks[0], 2, WRITING));
            tables.set_handle(1, 0, at(marks[1], 2, READING));
            tables.set_handle(1, 1, at(marks[1], 0, WRITING));
        })
    };
    for others in [false, true] {
        assert_eq!(ring([false, others]).call(10, [0, 1, 0, 0, 0, 0]), Answer::Refused(9));
        let mut monitor = ring([true, others]);
        assert_eq!(monitor.call(10, [0, 1, 0, 0, 0, 0]), Answer::Lowered(2, 0));
        assert_eq!((monitor.tables().handle_count(), monitor.tally().gone), (2, 1));
        assert_eq!(monitor.tables().marked_places(1).count(), if others { 2 } else { 0 });
    }
}

/// RULES T17, T18, Y11: it is no handle, so it is not marked, not copied, not closed and not counted.
#[test]
fn a_marked_handle_that_dangles_counts_as_an_empty_place() {
    for object in [5, 63, 64, u64::MAX] {
        let monitor = made_up(|tables| {
            tables.set_handle(0, 3, marked(object, WRITING));
            tables.set_handle(0, 4, marked(0, WRITING));
            tables.set_handle(7, 0, marked(0, WRITING));
        });
        assert_eq!(monitor.clone().call(15, [0, 3, 0, 0, 0, 0]), Answer::Refused(7));
        assert_eq!(monitor.clone().call(15, [7, 0, 0, 0, 0, 0]), Answer::Refused(2));
        let mut run = monitor.clone();
        assert_eq!(run.call(10, [0, 0, 0, 0, 0, 0]), Answer::Allowed(9));
        assert_eq!((run.tally().made, run.tally().gone, run.tables().handle_count()), (0, 1, 0));
        let mut forked = monitor.clone();
        assert_eq!(forked.call(9, [0, 1, 0, 0, 0, 0]), Answer::Allowed(9));
        assert_eq!((forked.tally().made, forked.tables().marked_places(1).count()), (1, 1));
        // What is opened there is new: it has no mark.
        let mut opened = monitor;
        assert_eq!(opened.call(5, [0, 0, 3, 0, 0, 0]), Answer::Allowed(9));
        assert_eq!(opened.tables().handle(0, 3), handle(0, READING));
    }
}

#[test]
fn a_mark_empties_places_that_count_as_empty_and_a_refused_one_does_not() {
    let stale = |tables: &mut Tables| {
        tables.set_handle(0, 0, handle(0, READING));
        tables.set_handle(0, 3, marked(1, READING));
    };
    let mut monitor = made_up(stale);
    let tables = monitor.tables().clone();
    assert_eq!(monitor.call(15, [0, 3, 0, 0, 0, 0]), Answer::Refused(7));
    assert_eq!(*monitor.tables(), tables);
    assert_eq!(monitor.call(15, [0, 0, 0, 0, 0, 0]), Answer::Allowed(9));
    let cleaned = made_up(|tables| tables.set_handle(0, 0, marked(0, READING)));
    assert_eq!(monitor.tables(), cleaned.tables());
}

/// RULES T22, C102: a pipe on which there was no handle stays, at an exec too.
#[test]
fn a_pipe_without_handles_stays_at_an_exec() {
    let mut monitor = made_up(|tables| {
        tables.set_object(7, Some(Object { kind: Kind::Pipe, level: 9, shops: 255 }));
        tables.set_object(8, Some(Object { kind: Kind::Pipe, level: 9, shops: 255 }));
        tables.set_handle(0, 0, marked(8, READING));
        tables.set_handle(9, 0, marked(7, READING));
    });
    assert_eq!(monitor.call(10, [0, 0, 0, 0, 0, 0]), Answer::Allowed(9));
    assert!(monitor.tables().object(7).is_some() && monitor.tables().object(8).is_none());
}

// Mappings.

fn mapping(object: u64) -> Option<Handle> {
    Some(Handle::mapping(object))
}

/// RULES C14, Y3: at every pair of levels, beside an open for reading and a read.
#[test]
fn a_map_places_a_reading_handle_and_is_a_read() {
    for level in 0..=15 {
        for file in 0..=15 {
            let start = made_up(|tables| {
                tables.set_subject(0, Some(Subject { level, shops: 255 }));
                tables.set_object(0, Some(Object { kind: Kind::File, level: file, shops: 255 }));
            });
            let mut monitor = start.clone();
            let answer = if file < level { Answer::Lowered(file, 0) } else { Answer::Allowed(level) };
            assert_eq!(monitor.call(14, [0, 0, 3, 0, 0, 0]), answer);
            assert_eq!(monitor.tables().handle(0, 3), mapping(0));
            assert_eq!((monitor.tally().made, monitor.tally().gone), (1, 0));
            let mut opened = start;
            assert_eq!(opened.call(5, [0, 0, 3, 0, 0, 0]), Answer::Allowed(file));
            assert_eq!(opened.call(7, [0, 3, 0, 0, 0, 0]), answer);
            assert_eq!(monitor.tables().subject(0), opened.tables().subject(0));
        }
    }
}

/// RULES C8, C104, C110, C111: in tables that no calls made a mapper may be above its file.
#[test]
fn a_write_to_a_file_is_followed_by_a_read_by_each_who_has_it_mapped() {
    let start = |levels: [u64; 5]| {
        made_up(move |tables| {
            tables.set_object(0, Some(Object { kind: Kind::File, level: 5, shops: 255 }));
            tables.set_object(1, Some(Object { kind: Kind::File, level: 5, shops: 255 }));
            for (s, level) in (0..).zip(levels) {
                tables.set_subject(s, Some(Subject { level, shops: 255 }));
            }
            // The writer has the file mapped, twice; 3 has it open and not mapped; 4 has another file mapped.
            tables.set_handle(0, 0, handle(0, WRITING));
            tables.set_handle(0, 1, mapping(0));
            tables.set_handle(0, 2, mapping(0));
            tables.set_handle(1, 7, Some(Handle { marked: true, ..Handle::mapping(0) }));
            tables.set_handle(2, 15, mapping(0));
            tables.set_handle(3, 0, handle(0, READING));
            tables.set_handle(4, 0, mapping(1));
        })
    };
    for (levels, answer, after) in [
        ([9, 9, 9, 9, 9], Answer::Lowered(5, 0), [5, 5, 5, 9, 9]),
        ([9, 5, 4, 9, 9], Answer::Lowered(5, 0), [5, 5, 4, 9, 9]),
        ([5, 5, 6, 9, 9], Answer::Lowered(5, 0), [5, 5, 5, 9, 9]),
        ([5, 5, 4, 9, 9], Answer::Allowed(5), [5, 5, 4, 9, 9]),
    ] {
        let mut monitor = start(levels);
        let handles: Vec<(u64, u64, Handle)> = monitor.tables().handles().collect();
        assert_eq!(monitor.tables().mappers(0).collect::<Vec<u64>>(), [0, 1, 2]);
        assert_eq!(monitor.call(8, [0, 0, 0, 0, 0, 0]), answer);
        let level = |s: u64| monitor.tables().subject(s).map(|subject| subject.level);
        assert_eq!([0, 1, 2, 3, 4].map(level), after.map(Some));
        assert_eq!(monitor.tables().object(0), Some(Object { kind: Kind::File, level: 5, shops: 255 }));
        assert_eq!(monitor.tables().handles().collect::<Vec<_>>(), handles);
        assert_eq!((monitor.tally().made, monitor.tally().gone), (0, 0));
    }
}

/// RULES C111: a mapping on a pipe is not asked. In all else it goes by the rules of a mapping.
#[test]
fn a_write_to_a_pipe_is_followed_by_nothing() {
    let start = made_up(|tables| {
        tables.set_subject(1, Some(Subject { level: 9, shops: 255 }));
        tables.set_subject(2, Some(Subject { level: 2, shops: 255 }));
        tables.set_object(7, Some(Object { kind: Kind::Pipe, level: 9, shops: 255 }));
        tables.set_handle(1, 0, mapping(7));
        tables.set_handle(2, 0, handle(7, WRITING));
    });
    let mut monitor = start.clone();
    assert_eq!(monitor.call(8, [2, 0, 0, 0, 0, 0]), Answer::Lowered(2, 0));
    assert_eq!(monitor.tables().subject(1), Some(Subject { level: 9, shops: 255 }));
    assert_eq!(monitor.call(7, [1, 0, 0, 0, 0, 0]), Answer::Lowered(2, 0));
    // It is copied by a fork, closed by an exec, and the pipe ends with it.
    let mut monitor = start;
    assert_eq!(monitor.call(9, [1, 3, 0, 0, 0, 0]), Answer::Allowed(9));
    assert_eq!(monitor.tables().handle(3, 0), mapping(7));
    assert_eq!(monitor.call(10, [1, 0, 0, 0, 0, 0]), Answer::Allowed(9));
    assert_eq!(monitor.call(11, [2, 0, 0, 0, 0, 0]), Answer::Allowed(2));
    assert!(monitor.tables().object(7).is_some());
    assert_eq!(monitor.call(10, [3, 0, 0, 0, 0, 0]), Answer::Allowed(9));
    assert!(monitor.tables().object(7).is_none());
    assert_eq!((monitor.tally().made, monitor.tally().gone), (1, 3));
}

/// RULES C10, Y13: over every place, beside a handle that stays.
#[test]
fn a_mapping_is_closed_by_exec_wherever_it_stands() {
    for p in 0..16 {
        for marked in [false, true] {
            let stays = (p + 1) % 16;
            let mut monitor = made_up(|tables| {
                tables.set_handle(0, p, Some(Handle { marked, ..Handle::mapping(0) }));
                tables.set_handle(0, stays, handle(0, READING));
            });
            assert_eq!(monitor.call(10, [0, 0, 0, 0, 0, 0]), Answer::Allowed(9));
            assert_eq!((monitor.tables().handle(0, p), monitor.tally().gone), (None, 1));
            assert_eq!(monitor.tables().handle(0, stays), handle(0, READING));
        }
    }
}

/// RULES T17, T18, Y11: it is no handle, so nobody has the file mapped by it, and it is not closed or counted.
#[test]
fn a_mapping_that_dangles_counts_as_an_empty_place() {
    let start = made_up(|tables| {
        tables.set_subject(1, Some(Subject { level: 9, shops: 255 }));
        tables.set_object(0, Some(Object { kind: Kind::File, level: 5, shops: 255 }));
        tables.set_handle(0, 0, handle(0, WRITING));
        tables.set_handle(1, 3, mapping(64));
        tables.set_handle(1, 4, mapping(5));
        tables.set_handle(7, 0, mapping(0));
    });
    assert_eq!(start.tables().mappers(0).next(), None);
    for p in [3, 4] {
        for code in [7, 8, 11, 15] {
            assert_eq!(start.clone().call(code, [1, p, 0, 0, 0, 0]), Answer::Refused(7));
        }
        assert_eq!(start.clone().call(14, [1, 0, p, 0, 0, 0]), Answer::Lowered(5, 0));
    }
    let mut monitor = start.clone();
    assert_eq!(monitor.call(8, [0, 0, 0, 0, 0, 0]), Answer::Allowed(5));
    // The numbers come into use afterwards: no mapping comes with them.
    assert_eq!(monitor.call(1, [7, 9, 255, 0, 0, 0]), Answer::Allowed(9));
    assert_eq!(monitor.call(2, [5, 9, 255, 0, 0, 0]), Answer::Allowed(9));
    assert_eq!(monitor.tables().handle_count(), 1);
    let mut run = start;
    assert_eq!(run.call(10, [1, 0, 0, 0, 0, 0]), Answer::Lowered(5, 0));
    assert_eq!((run.tally().gone, run.tables().handle_count()), (0, 1));
}

#[test]
fn a_map_empties_places_that_count_as_empty_and_a_refused_one_does_not() {
    let stale = |tables: &mut Tables| tables.set_handle(0, 3, mapping(1));
    let mut monitor = made_up(stale);
    let tables = monitor.tables().clone();
    assert_eq!(monitor.call(14, [0, 1, 3, 0, 0, 0]), Answer::Refused(4));
    assert_eq!(*monitor.tables(), tables);
    assert_eq!(monitor.call(14, [0, 0, 0, 0, 0, 0]), Answer::Allowed(9));
    let cleaned = made_up(|tables| tables.set_handle(0, 0, mapping(0)));
    assert_eq!(monitor.tables(), cleaned.tables());
}

/// RULES R119: where a thing is below its need already, a map is refused as an open for reading is.
#[test]
fn where_a_thing_is_below_its_need_already_every_map_is_refused() {
    let mut monitor = made_up(|tables| {
        tables.set_subject(1, Some(Subject { level: 2, shops: 255 }));
        tables.set_handle(1, 0, handle(0, WRITING));
    });
    assert_eq!(monitor.call(14, [0, 0, 0, 0, 0, 0]), Answer::Refused(9));
    assert_eq!(monitor.call(11, [1, 0, 0, 0, 0, 0]), Answer::Allowed(2));
    assert_eq!(monitor.call(14, [0, 0, 0, 0, 0, 0]), Answer::Allowed(9));
}

// Channels.

const CONNECT: [u64; 6] = [0, 1, 5, 6, 0, 1];

/// RULES C17: at every pair of levels.
#[test]
fn a_connect_makes_each_pipe_at_its_writer_s_level() {
    for level in 0..=15 {
        for other in 0..=15 {
            let mut monitor = made_up(|tables| {
                tables.set_subject(0, Some(Subject { level, shops: 255 }));
                tables.set_subject(1, Some(Subject { level: other, shops: 255 }));
            });
            assert_eq!(monitor.call(17, CONNECT), Answer::Allowed(level));
            let tables = monitor.tables();
            assert_eq!(tables.object(5), Some(Object { kind: Kind::Pipe, level, shops: 255 }));
            assert_eq!(tables.object(6), Some(Object { kind: Kind::Pipe, level: other, shops: 255 }));
            assert_eq!(
                (tables.handle(0, 0), tables.handle(0, 1)),
                (handle(6, READING), handle(5, WRITING))
            );
            assert_eq!(
                (tables.handle(1, 0), tables.handle(1, 1)),
                (handle(5, READING), handle(6, WRITING))
            );
            assert_eq!((monitor.tally().made, monitor.tally().gone, tables.handle_count()), (4, 0, 4));
            assert_eq!([0, 1].map(|s| tables.subject(s).map(|s| s.level)), [Some(level), Some(other)]);
        }
    }
}

/// RULES R9: what one end writes to asks for the level of the other and of all that is upstream of it, at every
/// pair of levels and from both ends.
#[test]
fn a_connect_is_tested_by_both_flows() {
    for (high, low) in [(0, 1), (1, 0)] {
        for book in 0..=15 {
            for level in 0..=15 {
                for upstream in [false, true] {
                    let mut monitor = made_up(|tables| {
                        tables.set_subject(high, Some(Subject { level: 15, shops: 255 }));
                        tables.set_subject(
                            low,
                            Some(Subject { level: if upstream { 15 } else { level }, shops: 255 }),
                        );
                        tables.set_object(0, Some(Object { kind: Kind::File, level: book, shops: 255 }));
                        tables.set_object(1, Some(Object { kind: Kind::File, level, shops: 255 }));
                        tables.set_handle(high, 2, handle(0, WRITING));
                        if upstream {
                            tables.set_handle(low, 2, handle(1, READING));
                        }
                    });
                    let before = monitor.tables().clone();
                    match monitor.call(17, CONNECT) {
                        Answer::Refused(number) => {
                            assert_eq!((number, level < book), (9, true));
                            assert_eq!((monitor.tables(), monitor.tally().made), (&before, 0));
                        }
                        _ => assert!(level >= book),
                    }
                }
            }
        }
    }
}

/// RULES R2, R3, R7, R16, over every number that a connect has.
#[test]
fn the_numbers_of_a_connect_are_tested_in_order() {
    let monitor = made_up(|tables| {
        tables.set_subject(1, Some(Subject { level: 9, shops: 255 }));
        tables.set_handle(0, 7, handle(0, READING));
        tables.set_handle(1, 8, handle(0, READING));
    });
    let answer = |numbers: [u64; 6]| monitor.clone().call(17, numbers);
    assert_eq!(answer(CONNECT), Answer::Allowed(9));
    let any = u64::MAX;
    for missing in [2, 31, 32, any] {
        assert_eq!(answer([missing, missing, any, any, any, any]), Answer::Refused(2));
        assert_eq!(answer([missing, 1, 5, 6, 0, 1]), Answer::Refused(2));
        assert_eq!(answer([0, missing, 5, 6, 0, 1]), Answer::Refused(2));
    }
    assert_eq!(answer([0, 0, any, any, any, any]), Answer::Refused(16));
    assert_eq!(answer([1, 1, 5, 6, 0, 1]), Answer::Refused(16));
    assert_eq!(answer([0, 1, 0, 6, any, any]), Answer::Refused(3));
    assert_eq!(answer([0, 1, 5, 0, any, any]), Answer::Refused(3));
    for new in [5, 64, 1 << 32, any] {
        assert_eq!(answer([0, 1, new, new, any, any]), Answer::Refused(3));
        assert_eq!(answer([0, 1, new, 6, any, any]), Answer::Refused(7));
        assert_eq!(answer([0, 1, new, 6, 0, 1]), Answer::Allowed(9));
        assert_eq!(answer([0, 1, 6, new, 0, 1]), Answer::Allowed(9));
    }
    for unfit in [7, 8, 16, any] {
        assert_eq!(answer([0, 1, 5, 6, unfit, 1]), Answer::Refused(7));
        assert_eq!(answer([0, 1, 5, 6, 0, unfit]), Answer::Refused(7));
    }
    assert_eq!(answer([0, 1, 5, 6, 3, 3]), Answer::Refused(7));
}

/// RULES T17 to T19: places that count as empty are empty for a connect, and no handle comes with its pipes'
/// numbers.
#[test]
fn a_connect_empties_places_that_count_as_empty_and_a_refused_one_does_not() {
    let stale = |tables: &mut Tables| {
        tables.set_subject(1, Some(Subject { level: 9, shops: 255 }));
        tables.set_subject(2, Some(Subject { level: 2, shops: 255 }));
        tables.set_handle(0, 0, handle(40, WRITING));
        tables.set_handle(1, 1, handle(41, READING));
        // It would write to the first pipe from below, and read the second one.
        tables.set_handle(2, 0, handle(5, WRITING));
        tables.set_handle(2, 1, handle(6, READING));
        tables.set_handle(1, 2, handle(0, WRITING));
    };
    let mut monitor = made_up(stale);
    let tables = monitor.tables().clone();
    assert_eq!(monitor.call(17, [0, 1, 5, 5, 0, 1]), Answer::Refused(3));
    assert_eq!(*monitor.tables(), tables);
    assert_eq!(monitor.call(17, CONNECT), Answer::Allowed(9));
    assert_eq!((monitor.tables().handle_count(), monitor.tally().made), (5, 4));
    assert_eq!(monitor.tables().handles_of(2).count(), 0);
}

#[test]
fn where_a_thing_is_below_its_need_already_every_connect_is_refused() {
    let mut monitor = made_up(|tables| {
        tables.set_subject(1, Some(Subject { level: 9, shops: 255 }));
        tables.set_subject(2, Some(Subject { level: 2, shops: 255 }));
        tables.set_handle(2, 0, handle(0, WRITING));
    });
    assert_eq!(monitor.call(17, CONNECT), Answer::Refused(9));
    assert_eq!(monitor.call(11, [2, 0, 0, 0, 0, 0]), Answer::Allowed(2));
    assert_eq!(monitor.call(17, CONNECT), Answer::Allowed(9));
}

// Threads.

/// Subjects 0, 1 and so on of these levels, all in one group; file 0 is at level 9.
fn group(levels: &[u64], fill: impl Fn(&mut Tables)) -> Monitor {
    made_up(|tables| {
        for (s, &level) in (0..).zip(levels) {
            tables.set_subject(s, Some(Subject { level, shops: 255 }));
            tables.join_groups(0, s);
        }
        fill(tables);
    })
}

fn levels(monitor: &Monitor) -> Vec<u64> {
    let tables = monitor.tables();
    tables.live_subjects().filter_map(|s| tables.subject(s)).map(|subject| subject.level).collect()
}

fn mates(monitor: &Monitor, s: u64) -> Vec<u64> {
    monitor.tables().mates(s).collect()
}

/// RULES C18, T46, T48, Y7: beside a maker that has a handle at every place, and mates of other levels.
#[test]
fn a_thread_is_a_new_member_at_its_maker_s_level_without_handles() {
    for level in 0..=15 {
        for c in 2..32 {
            let mut monitor = group(&[level, 15 - level], |tables| {
                for p in 0..16 {
                    let held = [handle(0, READING), marked(0, READING), mapping(0)][p as usize % 3];
                    tables.set_handle(0, p, held);
                }
                // It does not come with the number.
                tables.set_handle(c, 0, handle(0, WRITING));
            });
            assert_eq!(monitor.call(18, [0, c, 0, 0, 0, 0]), Answer::Allowed(level));
            assert_eq!(levels(&monitor), [level, 15 - level, level]);
            assert_eq!([mates(&monitor, 0), mates(&monitor, c)], [vec![1, c], vec![0, 1]]);
            assert_eq!((monitor.tables().handle_count(), monitor.tally().made), (16, 0));
            assert_eq!(monitor.call(5, [c, 0, 0, 0, 0, 0]), Answer::Allowed(9));
        }
    }
}

/// RULES R2, R3.
#[test]
fn the_numbers_of_a_thread_are_tested_in_order() {
    let monitor = group(&[9, 9], |tables| tables.set_subject(31, Some(Subject { level: 2, shops: 255 })));
    let answer = |s: u64, c: u64| monitor.clone().call(18, [s, c, 0, 0, 0, 0]);
    for missing in [2, 30, 32, 256, 1 << 32, u64::MAX] {
        for c in [0, 2, 32, missing] {
            assert_eq!(answer(missing, c), Answer::Refused(2));
        }
    }
    for s in [0, 1, 31] {
        for c in [0, 1, 31, 32, 256 + 2, (1 << 32) + 2, u64::MAX] {
            assert_eq!(answer(s, c), Answer::Refused(3), "{s} {c}");
        }
        assert_eq!(answer(s, 2).level(), if s == 31 { 2 } else { 9 });
    }
}

/// RULES C113, C115, C116: the largest group there can be.
#[test]
fn all_subjects_may_be_in_one_group() {
    let mut monitor = made_up(|_| ());
    for c in 1..32 {
        // Each is made by the one before it.
        assert_eq!(monitor.call(18, [c - 1, c, 0, 0, 0, 0]), Answer::Allowed(9));
        assert_eq!(monitor.call(6, [c, 0, c % 16, 0, 0, 0]), Answer::Allowed(9));
    }
    assert_eq!(monitor.call(18, [0, 32, 0, 0, 0, 0]), Answer::Refused(3));
    assert_eq!(mates(&monitor, 17).len(), 31);
    assert_eq!(monitor.call(2, [1, 4, 255, 0, 0, 0]), Answer::Allowed(4));
    assert_eq!(monitor.call(5, [0, 1, 0, 0, 0, 0]), Answer::Refused(9));
    assert_eq!(monitor.call(10, [0, 1, 0, 0, 0, 0]), Answer::Lowered(4, 0));
    assert_eq!((levels(&monitor), monitor.tally().gone), (vec![4], 31));
    assert_eq!(monitor.call(13, [0, 0, 0, 0, 0, 0]), Answer::Allowed(9));
}

/// RULES C7, C14, C104, C114, T48: at every three levels, of the caller, of a mate and of the file. The answer has the
/// caller's, and one that falls is enough for lowered.
#[test]
fn what_lowers_one_lowers_each_of_its_mates_to_the_same_level() {
    for own in 0..=15 {
        for mate in 0..=15 {
            for file in 0..=15 {
                let start = group(&[own, mate], |tables| {
                    tables.set_subject(7, Some(Subject { level: 15, shops: 255 }));
                    tables.set_object(0, Some(Object { kind: Kind::File, level: file, shops: 255 }));
                    tables.set_handle(0, 0, handle(0, READING));
                });
                let after = [own.min(file), mate.min(file), 15];
                let fell = own > file || mate > file;
                for (code, numbers) in [(7, [0, 0, 0, 0, 0, 0]), (14, [0, 0, 1, 0, 0, 0])] {
                    let mut monitor = start.clone();
                    let answer = monitor.call(code, numbers);
                    assert_eq!((answer.letter(), answer.level()), (if fell { 'L' } else { 'A' }, after[0]));
                    assert_eq!(levels(&monitor), after);
                }
            }
        }
    }
}

/// RULES C8, C104, C111, C114, C117: in tables that no calls made a mapper, or a mate of one, may be above the file.
#[test]
fn a_write_to_a_mapped_file_lowers_the_mates_of_each_mapper() {
    for mappers in [vec![1], vec![3], vec![1, 2], vec![2, 3], vec![0], vec![4], vec![]] {
        for levels_before in [[9, 9, 9, 9], [9, 4, 5, 9], [4, 9, 5, 5], [5, 5, 5, 5], [3, 4, 5, 2]] {
            let mut monitor = group(&levels_before, |tables| {
                tables.set_object(0, Some(Object { kind: Kind::File, level: 5, shops: 255 }));
                // Who writes is 5; 4 and 5 are no mates of the others, nor of each other.
                tables.set_subject(4, Some(Subject { level: 9, shops: 255 }));
                tables.set_subject(5, Some(Subject { level: 9, shops: 255 }));
                tables.set_handle(5, 0, handle(0, WRITING));
                mappers.iter().for_each(|&s| tables.set_handle(s, 0, mapping(0)));
            });
            let is_read = mappers.iter().any(|&s| s < 4);
            let fall = |level: u64, falls: bool| if falls { level.min(5) } else { level };
            let mut after: Vec<u64> = levels_before.iter().map(|&level| fall(level, is_read)).collect();
            after.extend([fall(9, mappers.contains(&4)), 9]);
            let fell = levels(&monitor) != after;
            let answer = if fell { Answer::Lowered(5, 0) } else { Answer::Allowed(5) };
            assert_eq!(monitor.call(8, [5, 0, 0, 0, 0, 0]), answer, "{mappers:?} {levels_before:?}");
            assert_eq!(levels(&monitor), after, "{mappers:?} {levels_before:?}");
        }
    }
}

/// RULES C8, T48: a pipe falls to the level of the member that writes, and to no mate's.
#[test]
fn a_pipe_falls_to_its_writer_s_level() {
    let mut monitor = group(&[7, 2], |tables| {
        tables.set_object(5, Some(Object { kind: Kind::Pipe, level: 9, shops: 255 }));
        tables.set_handle(0, 0, handle(5, WRITING));
        tables.set_handle(1, 0, handle(5, READING));
    });
    assert_eq!(monitor.call(8, [0, 0, 0, 0, 0, 0]), Answer::Lowered(7, 0));
    assert_eq!((levels(&monitor), monitor.call(7, [1, 0, 0, 0, 0, 0])), (vec![7, 2], Answer::Allowed(2)));
}

/// RULES C10, C116, R110, Y13: the level of the program against the need of the caller without its mates, at every
/// three levels: of the program, of what the caller writes to, of what a mate writes to.
#[test]
fn exec_is_tested_without_the_mates_and_ends_them() {
    for program in 0..=15 {
        for own in 0..=15 {
            for book in 0..=15 {
                let mut monitor = group(&[15, 15, 15], |tables| {
                    for (o, level) in [(0, program), (1, own), (2, book)] {
                        tables.set_object(o, Some(Object { kind: Kind::File, level, shops: 255 }));
                    }
                    tables.set_object(5, Some(Object { kind: Kind::Pipe, level: 15, shops: 255 }));
                    tables.set_handle(1, 0, handle(1, WRITING));
                    tables.set_handle(1, 1, mapping(0));
                    // A chain to the book that passes a mate.
                    tables.set_handle(1, 2, handle(5, WRITING));
                    tables.set_handle(0, 0, handle(5, READING));
                    tables.set_handle(0, 1, handle(2, WRITING));
                    tables.set_handle(2, 0, marked(2, READING));
                });
                let before = monitor.tables().clone();
                let answer = monitor.call(10, [1, 0, 0, 0, 0, 0]);
                if program < own {
                    assert_eq!((answer, monitor.tables()), (Answer::Refused(9), &before));
                    assert_eq!(monitor.tally().gone, 0);
                } else {
                    assert_eq!(answer.level(), program);
                    assert_eq!(answer.letter(), if program < 15 { 'L' } else { 'A' });
                    assert_eq!(monitor.tables().live_subjects().collect::<Vec<u64>>(), [1]);
                    assert_eq!((monitor.tables().handle_count(), monitor.tally().gone), (2, 4));
                    assert!(monitor.tables().object(5).is_some());
                }
            }
        }
    }
}

/// RULES C116, R102: over all that can be wrong with the program.
#[test]
fn a_refused_exec_ends_nobody() {
    let mut monitor = group(&[9, 9], |tables| {
        tables.set_object(1, Some(Object { kind: Kind::File, level: 2, shops: 255 }));
        tables.set_object(5, Some(Object { kind: Kind::Pipe, level: 9, shops: 255 }));
        tables.set_handle(0, 0, handle(0, WRITING));
        tables.set_handle(1, 0, handle(5, READING));
        tables.set_handle(1, 1, marked(0, WRITING));
        // It counts as an empty place, and stays so.
        tables.set_handle(1, 2, handle(40, READING));
    });
    let before = monitor.tables().clone();
    for (o, number) in [(1, 9), (5, 5), (7, 4)] {
        assert_eq!(monitor.call(10, [0, o, 0, 0, 0, 0]), Answer::Refused(number));
        assert_eq!((monitor.tables(), monitor.tally().gone), (&before, 0));
    }
    assert_eq!(monitor.call(10, [2, 0, 0, 0, 0, 0]), Answer::Refused(2));
    // The mate itself may: its book is marked, and the other's goes with the other.
    assert_eq!(monitor.call(10, [1, 1, 0, 0, 0, 0]), Answer::Lowered(2, 0));
    assert_eq!((levels(&monitor), monitor.tally().gone), (vec![2], 2));
}

/// RULES C102, T17, Y11, Y13: what goes with the mates that an exec ends.
#[test]
fn the_handles_of_ended_mates_are_counted_and_their_pipes_end() {
    let mut monitor = group(&[9, 9, 9], |tables| {
        for o in [5, 6, 7] {
            tables.set_object(o, Some(Object { kind: Kind::Pipe, level: 9, shops: 255 }));
        }
        // Pipe 5 is between the mates, pipe 6 has an end at a step beside them, on pipe 7 there is no handle.
        tables.set_handle(1, 0, handle(5, READING));
        tables.set_handle(2, 15, handle(5, WRITING));
        tables.set_handle(2, 3, handle(6, WRITING));
        tables.set_subject(9, Some(Subject { level: 9, shops: 255 }));
        tables.set_handle(9, 0, handle(6, READING));
        // These count as empty places.
        tables.set_handle(1, 4, handle(40, WRITING));
        tables.set_handle(8, 0, handle(7, WRITING));
    });
    assert_eq!(monitor.call(10, [0, 0, 0, 0, 0, 0]), Answer::Allowed(9));
    assert_eq!((monitor.tally().gone, monitor.tables().handle_count()), (3, 1));
    assert_eq!(monitor.tables().live_objects().collect::<Vec<u64>>(), [0, 6, 7]);
    assert_eq!(monitor.tables().live_subjects().collect::<Vec<u64>>(), [0, 9]);
}

/// RULES C9, C113: the child has one group, one set of handles and one need: its own.
#[test]
fn a_fork_by_a_member_makes_a_group_of_its_own() {
    let mut monitor = group(&[9, 9], |tables| {
        tables.set_object(1, Some(Object { kind: Kind::File, level: 2, shops: 255 }));
        tables.set_handle(0, 0, handle(0, READING));
        tables.set_handle(1, 1, handle(0, WRITING));
    });
    assert_eq!(monitor.call(9, [0, 2, 0, 0, 0, 0]), Answer::Allowed(9));
    assert_eq!((mates(&monitor, 2), mates(&monitor, 0)), (vec![], vec![1]));
    assert_eq!((monitor.tables().handles_of(2).count(), monitor.tally().made), (1, 1));
    assert_eq!(monitor.call(5, [0, 1, 5, 0, 0, 0]), Answer::Refused(9));
    assert_eq!(monitor.call(14, [2, 1, 5, 0, 0, 0]), Answer::Lowered(2, 0));
    assert_eq!(levels(&monitor), [9, 9, 2]);
    // The child of the other one has the book.
    assert_eq!(monitor.call(9, [1, 3, 0, 0, 0, 0]), Answer::Allowed(9));
    assert_eq!(monitor.call(10, [3, 1, 0, 0, 0, 0]), Answer::Refused(9));
    assert_eq!(monitor.call(10, [2, 1, 0, 0, 0, 0]), Answer::Allowed(2));
    assert_eq!(levels(&monitor), [9, 9, 2, 9]);
}

/// RULES C115: each of three in turn, which are of different levels here; and its number again.
#[test]
fn exit_ends_one_member_whichever_it_is() {
    for gone in 0..3 {
        let start = group(&[9, 8, 7], |tables| {
            for s in 0..3 {
                tables.set_handle(s, s, handle(0, READING));
                tables.set_handle(s, 5, mapping(0));
            }
        });
        let mut monitor = start.clone();
        assert_eq!(monitor.call(12, [gone, 0, 0, 0, 0, 0]), Answer::Allowed(9 - gone));
        assert_eq!((monitor.tables().handle_count(), monitor.tally().gone), (4, 2));
        let left: Vec<u64> = (0..3).filter(|&s| s != gone).collect();
        for &s in &left {
            assert_eq!(monitor.tables().subject(s), start.tables().subject(s));
            assert!(monitor.tables().handles_of(s).eq(start.tables().handles_of(s)));
        }
        assert_eq!(mates(&monitor, left[0]), [left[1]]);
        assert_eq!(mates(&monitor, gone), []);
        for (code, number, are) in [(1, gone, false), (9, left[0], false), (18, left[0], true)] {
            let mut again = monitor.clone();
            let numbers = if code == 1 { [gone, 9, 0, 0, 0, 0] } else { [number, gone, 0, 0, 0, 0] };
            assert!(matches!(again.call(code, numbers), Answer::Allowed(_)));
            assert_eq!(again.tables().are_mates(left[1], gone), are, "{code}");
        }
    }
}

/// RULES F22, R9: data flows from each member to each other, so that what one writes to all need.
#[test]
fn members_have_one_need_whoever_holds_the_handle() {
    for holder in 0..4 {
        let monitor = group(&[9, 9, 9, 9], |tables| {
            tables.set_subject(9, Some(Subject { level: 9, shops: 255 }));
            tables.set_object(1, Some(Object { kind: Kind::File, level: 2, shops: 255 }));
            tables.set_handle(holder, 0, handle(0, WRITING));
        });
        let needs = Needs::of_tables(monitor.tables());
        assert_eq!([0, 1, 2, 3, 9].map(|s| needs.of(Thing::Subject(s)).level), [9, 9, 9, 9, 0]);
        for (s, number) in [(0, 9), (1, 9), (2, 9), (3, 9), (9, 2)] {
            let answer = if s == 9 { Answer::Allowed(number) } else { Answer::Refused(9) };
            assert_eq!(monitor.clone().call(5, [s, 1, 1, 0, 0, 0]), answer);
        }
    }
}

/// RULES R9, R16, T48: two mates are not the same subject, and are connected as any two are; where a member is below
/// what a mate writes to, as no calls make it, every connect and every open is refused.
#[test]
fn two_members_are_connected_as_any_two_subjects() {
    let book = |tables: &mut Tables| tables.set_handle(1, 7, handle(0, WRITING));
    let mut monitor = group(&[9, 9], book);
    assert_eq!(monitor.call(17, [1, 1, 5, 6, 0, 1]), Answer::Refused(16));
    assert_eq!(monitor.call(17, [0, 1, 5, 6, 7, 1]), Answer::Refused(7));
    assert_eq!(monitor.call(17, CONNECT), Answer::Allowed(9));
    assert_eq!((mates(&monitor, 0), monitor.tables().handle_count()), (vec![1], 5));
    let mut monitor = group(&[8, 9], book);
    assert_eq!(monitor.call(17, CONNECT), Answer::Refused(9));
    assert_eq!(monitor.call(5, [1, 0, 0, 0, 0, 0]), Answer::Refused(9));
    // An exec looks at its caller alone.
    assert_eq!(monitor.call(10, [0, 0, 0, 0, 0, 0]), Answer::Allowed(8));
}

/// RULES T47, H30: equal bytes of live subjects, whichever they are, and nothing else.
#[test]
fn a_group_is_a_byte_beside_each_subject() {
    let stored = |bytes: [u8; 4]| {
        let mut stored = StoredTables::new();
        for s in [0, 1, 2] {
            stored.set_subject(s, Some(Subject { level: 9, shops: 255 }));
        }
        (0..).zip(bytes).for_each(|(s, byte)| stored.set_group(s, byte));
        stored.set_group(32, bytes[0]);
        Monitor::of_tables(stored.tables(), Rules::default())
    };
    for byte in 0..=255_u8 {
        let other = byte.wrapping_add(1);
        let mut monitor = stored([byte, other, byte, byte]);
        assert_eq!([0, 1, 2, 3].map(|s| mates(&monitor, s)), [vec![2], vec![], vec![0], vec![]]);
        // Which byte it is, nothing tells.
        assert_eq!(monitor.tables(), stored([7, 8, 7, 9]).tables());
        // What stands beside a subject that is not live is not looked at.
        assert_eq!(monitor.call(1, [3, 9, 255, 0, 0, 0]), Answer::Allowed(9));
        assert_eq!(monitor.call(9, [0, byte.into(), 0, 0, 0, 0]).level() == 9, (4..32).contains(&byte));
        assert_eq!([0, 3].map(|s| mates(&monitor, s)), [vec![2], vec![]]);
        assert_eq!(mates(&stored([byte; 4]), 1), [0, 2]);
    }
    // Without a byte, each is in a group of its own.
    let mut alone = StoredTables::new();
    (0..32).for_each(|s| alone.set_subject(s, Some(Subject { level: 9, shops: 255 })));
    assert_eq!(alone.tables().pairs_of_mates().count(), 0);
}

/// RULES T19, R102.
#[test]
fn a_thread_empties_places_that_count_as_empty_and_a_refused_one_does_not() {
    let stale = |tables: &mut Tables| tables.set_handle(0, 3, handle(1, READING));
    let mut monitor = made_up(stale);
    let tables = monitor.tables().clone();
    assert_eq!(monitor.call(18, [0, 0, 0, 0, 0, 0]), Answer::Refused(3));
    assert_eq!(*monitor.tables(), tables);
    assert_eq!(monitor.call(18, [0, 1, 0, 0, 0, 0]), Answer::Allowed(9));
    assert_eq!(monitor.tables(), group(&[9, 9], |_| ()).tables());
}

// The host's own file numbers.

/// Numbers of which 32 bits, or 63, or six, say something else.
const WIDE: [u64; 8] =
    [64, 4_294_967_295, 1 << 32, (1 << 32) + 5, 1 << 33, (1 << 63) - 1, 1 << 63, u64::MAX];

/// RULES C106, R2, R3, R6, R7: subjects, places and levels keep their limits, and no number is cut.
#[test]
fn no_number_of_a_direct_call_is_cut() {
    let monitor = made_up(|tables| {
        tables.set_subject(1, Some(Subject { level: 9, shops: 255 }));
        tables.set_handle(0, 0, handle(0, READING));
        tables.set_handle(0, 1, handle(0, WRITING));
    });
    let refused = |code: u64, numbers: [u64; 6], number: u32| {
        let mut copy = monitor.clone();
        assert_eq!(copy.call(code, numbers), Answer::Refused(number), "{code} {numbers:?}");
        assert_eq!((copy.tables(), copy.tally()), (monitor.tables(), monitor.tally()));
    };
    for upper in [1 << 32, 3 << 32, 1 << 63, u64::MAX << 32] {
        for code in [3, 4, 5, 6, 7, 8, 9, 10, 11, 12, 14, 15, 18] {
            refused(code, [upper, 0, 0, 0, 0, 0], 2);
        }
        refused(17, [upper, 1, 5, 6, 2, 3], 2);
        refused(17, [0, upper + 1, 5, 6, 2, 3], 2);
        refused(1, [upper + 2, 9, 0, 0, 0, 0], 3);
        refused(9, [0, upper + 2, 0, 0, 0, 0], 3);
        refused(18, [0, upper + 2, 0, 0, 0, 0], 3);
        refused(1, [2, upper, 0, 0, 0, 0], 6);
        refused(2, [2, upper, 0, 0, 0, 0], 6);
        refused(16, [upper, 0, 0, 0, 0, 0], 6);
        for code in [5, 6, 14] {
            refused(code, [0, 0, upper + 2, 0, 0, 0], 7);
        }
        for (code, p) in [(7, 0), (8, 1), (11, 0), (15, 0)] {
            refused(code, [0, upper + p, 0, 0, 0, 0], 7);
        }
        refused(4, [0, 5, upper + 2, 3, 0, 0], 7);
        refused(4, [0, 5, 2, upper + 3, 0, 0], 7);
        refused(17, [0, 1, 5, 6, upper + 2, 3], 7);
        refused(17, [0, 1, 5, 6, 2, upper + 3], 7);
        for code in [5, 6, 10, 14] {
            refused(code, [0, upper, 2, 0, 0, 0], 4);
        }
        refused(13, [upper, 0, 0, 0, 0, 0], 4);
    }
}

/// RULES T2, R3, R4, C101: every number is one that an object can have, and each is another one's.
#[test]
fn objects_have_any_number() {
    for one in WIDE {
        for other in WIDE.into_iter().filter(|&other| other != one) {
            let mut monitor = made_up(|_| ());
            assert_eq!(monitor.call(2, [one, 3, 255, 0, 0, 0]), Answer::Allowed(3));
            assert_eq!(monitor.call(2, [one, 3, 255, 0, 0, 0]), Answer::Refused(3));
            assert_eq!(monitor.call(5, [0, other, 0, 0, 0, 0]), Answer::Refused(4));
            assert_eq!(monitor.call(4, [0, other, 0, 1, 0, 0]), Answer::Allowed(9));
            assert_eq!(monitor.call(5, [0, one, 2, 0, 0, 0]), Answer::Allowed(3));
            assert_eq!(monitor.call(13, [other, 0, 0, 0, 0, 0]), Answer::Refused(5));
            assert_eq!(monitor.call(13, [one, 0, 0, 0, 0, 0]), Answer::Refused(10));
            assert_eq!(monitor.call(12, [0, 0, 0, 0, 0, 0]), Answer::Allowed(9));
            assert_eq!(monitor.call(2, [other, 7, 255, 0, 0, 0]), Answer::Allowed(7));
            assert_eq!(monitor.call(13, [one, 0, 0, 0, 0, 0]), Answer::Allowed(3));
            assert_eq!(monitor.tables().live_objects().collect::<Vec<u64>>(), [0, other]);
        }
    }
}

/// RULES R17: by every call that makes an object, at every number of live ones; file 0 is one of them.
#[test]
fn no_more_than_64_objects_are_live() {
    for live in 1..=64 {
        let monitor = made_up(|tables| {
            tables.set_subject(1, Some(Subject { level: 9, shops: 255 }));
            for o in 1..live {
                tables.set_object(o << 32, Some(Object { kind: Kind::File, level: 2, shops: 255 }));
            }
        });
        for (code, numbers, new) in [
            (2, [7, 9, 0, 0, 0, 0], 1),
            (3, [0, 7, 0, 0, 0, 0], 1),
            (4, [0, 7, 0, 1, 0, 0], 1),
            (17, [0, 1, 7, 8, 0, 1], 2),
        ] {
            let mut copy = monitor.clone();
            let answer = if live + new > 64 { Answer::Refused(17) } else { Answer::Allowed(9) };
            assert_eq!(copy.call(code, numbers), answer, "{code} with {live} live");
            assert_eq!(copy.tables().object_count(), if live + new > 64 { live } else { live + new });
        }
    }
}

/// Tables as a host stores them: subject 0 at level 9, and these objects in these slots.
fn stored(slots: &[(u64, u64, Kind, u64)], fill: impl Fn(&mut StoredTables)) -> Monitor {
    let mut stored = StoredTables::new();
    stored.set_subject(0, Some(Subject { level: 9, shops: 255 }));
    for &(slot, number, kind, level) in slots {
        stored.set_slot(slot, Some((number, Object { kind, level, shops: 255 })));
    }
    fill(&mut stored);
    Monitor::of_tables(stored.tables(), Rules::default())
}

/// RULES T17: which slot an object stands in is told by nothing.
#[test]
fn objects_in_any_slots_are_the_same_tables() {
    let reads = |slot| move |stored: &mut StoredTables| stored.set_handle(0, 3, handle(slot, READING));
    let tables = stored(&[(63, 7, Kind::File, 4), (0, u64::MAX, Kind::Pipe, 9)], reads(63));
    let same = stored(&[(1, u64::MAX, Kind::Pipe, 9), (0, 7, Kind::File, 4)], reads(0));
    assert_eq!(tables.tables(), same.tables());
    assert_eq!(tables.tables().handle(0, 3), handle(7, READING));
    assert_eq!(tables.tables().live_objects().collect::<Vec<u64>>(), [7, u64::MAX]);
}

/// RULES T17, T19: of two slots with one number the first counts. The other counts as free: it is no object, takes no
/// space, and a handle that names it counts as an empty place.
#[test]
fn where_two_slots_have_one_number_the_first_counts() {
    let twice = [(5, 7, Kind::File, 4), (40, 7, Kind::Pipe, 2), (41, 7, Kind::File, 15)];
    let handles = |stored: &mut StoredTables| {
        stored.set_handle(0, 0, handle(40, READING));
        stored.set_handle(0, 1, handle(41, WRITING));
        stored.set_handle(0, 2, handle(5, WRITING));
        // A slot that is free, and slots that there are not.
        stored.set_handle(0, 3, handle(6, READING));
        stored.set_handle(0, 4, handle(64, WRITING));
        stored.set_handle(0, 5, handle(u64::MAX, WRITING));
        stored.set_handle(9, 0, handle(5, WRITING));
    };
    let start = stored(&twice, handles);
    assert_eq!(start.tables().object(7), Some(Object { kind: Kind::File, level: 4, shops: 255 }));
    assert_eq!(start.tables().object_count(), 1);
    for p in [0, 1, 3, 4, 5] {
        for code in [7, 8, 11, 15] {
            assert_eq!(start.clone().call(code, [0, p, 0, 0, 0, 0]), Answer::Refused(7));
        }
        assert_eq!(start.clone().call(5, [0, 7, p, 0, 0, 0]), Answer::Allowed(4));
    }
    assert_eq!(start.clone().call(8, [0, 2, 0, 0, 0, 0]), Answer::Allowed(4));

    // A refused call leaves those places, any other empties them, whatever numbers come into use.
    let mut monitor = start.clone();
    assert_eq!(monitor.call(2, [7, 9, 255, 0, 0, 0]), Answer::Refused(3));
    assert_eq!(monitor.tables(), start.tables());
    for o in 0..6 {
        assert_eq!(monitor.call(2, [o, 9, 255, 0, 0, 0]), Answer::Allowed(9));
    }
    assert_eq!((monitor.tables().handle_count(), monitor.tally().open()), (1, 0));
    let cleaned = stored(&twice[..1], |stored| stored.set_handle(0, 2, handle(5, WRITING)));
    let mut emptied = start.clone();
    assert_eq!(emptied.call(16, [16, 0, 0, 0, 0, 0]), Answer::Allowed(16));
    assert_eq!(emptied.tables(), cleaned.tables());

    // The number is gone with the first one, and does not come back with the others.
    assert_eq!(emptied.call(11, [0, 2, 0, 0, 0, 0]), Answer::Allowed(9));
    assert_eq!(emptied.call(13, [7, 0, 0, 0, 0, 0]), Answer::Allowed(4));
    assert_eq!(emptied.tables().object_count(), 0);
    assert_eq!(emptied.call(5, [0, 7, 0, 0, 0, 0]), Answer::Refused(4));
}

/// RULES R17: slots that count as free are space.
#[test]
fn slots_that_count_as_free_are_space() {
    for twice in 0..64 {
        let number = |slot| if slot < twice { 1 << 40 } else { slot };
        let slots: Vec<(u64, u64, Kind, u64)> =
            (0..64).map(|slot| (slot, number(slot), Kind::File, 9)).collect();
        let mut monitor = stored(&slots, |_| ());
        let live = if twice == 0 { 64 } else { 65 - twice };
        assert_eq!(monitor.tables().object_count(), live);
        for more in 0..64 - live {
            assert_eq!(monitor.call(2, [u64::MAX - more, 9, 255, 0, 0, 0]), Answer::Allowed(9));
        }
        assert_eq!(monitor.call(2, [1 << 50, 9, 255, 0, 0, 0]), Answer::Refused(17));
    }
}

// The freeze.

#[test]
fn tables_start_without_a_freeze_and_a_freeze_is_any_number_up_to_16() {
    let mut monitor = Monitor::new();
    assert_eq!((monitor.tables().freeze(), monitor.tables().frozen_from()), (16, None));
    for level in 0..=15 {
        assert_eq!(monitor.call(16, [level, 0, 0, 0, 0, 0]), Answer::Allowed(level));
        assert_eq!(monitor.tables().frozen_from(), Some(level));
    }
    for level in [17, 18, 31, 255, 256, 256 + 9, u64::MAX] {
        assert_eq!(monitor.call(16, [level, 0, 0, 0, 0, 0]), Answer::Refused(6));
        assert_eq!(monitor.tables().frozen_from(), Some(15));
    }
    assert_eq!(monitor.call(16, [16, 0, 0, 0, 0, 0]), Answer::Allowed(16));
    assert_eq!((monitor.tables().freeze(), monitor.tables().frozen_from()), (16, None));
    // RULES Y7.
    assert_eq!((monitor.tally().made, monitor.tally().gone), (0, 0));
}

#[test]
fn every_file_is_frozen_at_or_above_the_freeze_and_no_pipe_is() {
    for freeze in 0..=16 {
        for level in 0..=15 {
            let mut monitor = Monitor::new();
            let numbers = |a, b, c, d| [a, b, c, d, 0, 0];
            assert_eq!(monitor.call(1, numbers(0, level, 0, 0)), Answer::Allowed(level));
            assert_eq!(monitor.call(2, numbers(0, level, 0, 0)), Answer::Allowed(level));
            assert_eq!(monitor.call(4, numbers(0, 1, 0, 1)), Answer::Allowed(level));
            assert_eq!(monitor.call(16, numbers(freeze, 0, 0, 0)), Answer::Allowed(freeze));
            let file = if level >= freeze { Answer::Refused(15) } else { Answer::Allowed(level) };
            assert_eq!(monitor.call(6, numbers(0, 0, 2, 0)), file, "freeze {freeze}, level {level}");
            assert_eq!(monitor.call(6, numbers(0, 1, 3, 0)), Answer::Allowed(level));
            assert_eq!(monitor.call(5, numbers(0, 0, 4, 0)), Answer::Allowed(level));
            assert_eq!(monitor.call(3, numbers(0, 2, 0, 0)), Answer::Allowed(level));
            assert_eq!(monitor.call(9, numbers(0, 1, 0, 0)), Answer::Allowed(level));
        }
    }
}

#[test]
fn a_stored_freeze_above_16_is_none_and_stays() {
    for freeze in [17, 18, 255, u64::MAX] {
        let mut monitor = made_up(|tables| tables.set_freeze(freeze));
        assert_eq!(monitor.call(6, [0, 0, 0, 0, 0, 0]), Answer::Allowed(9));
        assert_eq!(monitor.call(8, [0, 0, 0, 0, 0, 0]), Answer::Allowed(9));
        assert_eq!(monitor.call(16, [17, 0, 0, 0, 0, 0]), Answer::Refused(6));
        assert_eq!(monitor.call(12, [0, 0, 0, 0, 0, 0]), Answer::Allowed(9));
        assert_eq!(monitor.tables().freeze(), freeze);
        assert_eq!(monitor.call(16, [3, 0, 0, 0, 0, 0]), Answer::Allowed(3));
        assert_eq!(monitor.tables().freeze(), 3);
    }
}

/// RULES T21: such a level is compared as it is. Only here can a freeze of 16 be told from a level.
#[test]
fn no_file_is_frozen_without_a_freeze_not_even_one_above_level_15() {
    for (freeze, answer) in [
        (15, Answer::Refused(15)),
        (16, Answer::Allowed(20)),
        (17, Answer::Allowed(20)),
        (255, Answer::Allowed(20)),
    ] {
        let mut monitor = made_up(|tables| {
            tables.set_subject(1, Some(Subject { level: 20, shops: 255 }));
            tables.set_object(1, Some(Object { kind: Kind::File, level: 20, shops: 255 }));
            tables.set_freeze(freeze);
        });
        assert_eq!(monitor.call(6, [1, 1, 0, 0, 0, 0]), answer, "freeze {freeze}");
    }
}

#[test]
fn a_freeze_empties_places_that_count_as_empty_and_a_refused_one_does_not() {
    let stale = |tables: &mut Tables| tables.set_handle(0, 3, handle(1, READING));
    let mut monitor = made_up(stale);
    let tables = monitor.tables().clone();
    assert_eq!(monitor.call(16, [17, 0, 0, 0, 0, 0]), Answer::Refused(6));
    assert_eq!(*monitor.tables(), tables);
    assert_eq!(monitor.call(16, [9, 0, 0, 0, 0, 0]), Answer::Allowed(9));
    let mut cleaned = made_up(|_| ()).tables().clone();
    cleaned.set_freeze(9);
    assert_eq!(*monitor.tables(), cleaned);
}

#[test]
fn where_a_thing_is_below_its_need_already_15_is_said_of_a_frozen_file_all_the_same() {
    let mut monitor = made_up(|tables| {
        tables.set_subject(1, Some(Subject { level: 2, shops: 255 }));
        tables.set_handle(1, 0, handle(0, WRITING));
        tables.set_freeze(0);
    });
    assert_eq!(monitor.call(6, [0, 0, 0, 0, 0, 0]), Answer::Refused(15));
    assert_eq!(monitor.call(16, [16, 0, 0, 0, 0, 0]), Answer::Allowed(16));
    assert_eq!(monitor.call(6, [0, 0, 0, 0, 0, 0]), Answer::Refused(9));
    assert_eq!(monitor.call(11, [1, 0, 0, 0, 0, 0]), Answer::Allowed(2));
    assert_eq!(monitor.call(6, [0, 0, 0, 0, 0, 0]), Answer::Allowed(9));
}

#[test]
fn the_counts_go_on_modulo_2_to_the_64th() {
    let mut tally = gatekeeper_independent::tables::Tally { made: u64::MAX, gone: u64::MAX - 1 };
    tally.count_made(2);
    assert_eq!((tally.made, tally.open()), (1, 3));
    tally.count_gone(3);
    assert_eq!((tally.gone, tally.open()), (1, 0));
}

//! Labels: what lacks a shop mark of another thing is below it, as what has a smaller level is; sets fall as levels do; and
//! a lowered answer says how many shop marks were lost.

use gatekeeper_plain::lines::{Counts, Start};
use gatekeeper_plain::{replies, Answer, Label, Monitor, When};

/// A code and the numbers that are given; the others are 0.
type Made<'a> = (u64, &'a [u64]);

const BOTH: [When; 2] = [When::EachCall, When::Asked];

fn make(monitor: &mut Monitor, (code, given): Made) -> Answer {
    let mut numbers = [0; 6];
    numbers[..given.len()].copy_from_slice(given);
    monitor.direct(code, numbers)
}

/// The monitor after these calls, and the answer to the last of them.
fn run(calls: &[Made], when: When) -> (Monitor, Answer) {
    let mut monitor = Monitor::new(when);
    let answer = calls.iter().map(|&call| make(&mut monitor, call)).last();
    (monitor, answer.expect("there is a call"))
}

/// The answer to the last of these calls, made from empty tables.
fn last(calls: &[Made]) -> Answer {
    let answers = BOTH.map(|when| run(calls, when).1);
    assert_eq!(answers[0], answers[1]);
    answers[0]
}

/// The same after some calls and then others.
fn then(first: &[Made], calls: &[Made]) -> Answer {
    last(&[first, calls].concat())
}

/// The label of a subject after some calls.
fn subject(calls: &[Made], s: usize) -> Option<Label> {
    run(calls, When::Asked).0.tables().live(s).map(|s| s.label)
}

/// The label of an object after some calls.
fn object(calls: &[Made], o: u64) -> Option<Label> {
    let (monitor, _) = run(calls, When::Asked);
    let tables = monitor.tables();
    tables.slot_of(o).and_then(|slot| tables.objects[slot]).map(|object| object.label)
}

#[test]
fn sets_go_from_0_to_255() {
    for code in [1, 2] {
        for shops in [0, 1, 128, 254, 255] {
            assert_eq!(last(&[(code, &[0, 15, shops])]), Answer::Allowed(15), "{code}, {shops}");
        }
        for shops in [256, 257, 511, 1 << 8 | 255, 1 << 16, 1 << 32, 1 << 32 | 255, u64::MAX] {
            assert_eq!(last(&[(code, &[0, 15, shops])]), Answer::Refused(6), "{code}, {shops}");
            assert_eq!(last(&[(code, &[0, 16, shops])]), Answer::Refused(6), "{code}, {shops}");
        }
        assert_eq!(last(&[(code, &[0, 16, 255])]), Answer::Refused(6));
        // 3 goes before it.
        assert_eq!(last(&[(code, &[0, 9, 255]), (code, &[0, 16, 256])]), Answer::Refused(3));
    }
    assert_eq!(last(&[(1, &[32, 9, 256])]), Answer::Refused(3));
    // And so does 17.
    let mut monitor = Monitor::new(When::Asked);
    for o in 0..64 {
        assert_eq!(make(&mut monitor, (2, &[o, 9, 255])), Answer::Allowed(9));
    }
    assert_eq!(make(&mut monitor, (2, &[64, 16, 256])), Answer::Refused(17));
    assert_eq!(make(&mut monitor, (2, &[0, 16, 256])), Answer::Refused(3));
    assert_eq!(make(&mut monitor, (13, &[0])), Answer::Allowed(9));
    assert_eq!(make(&mut monitor, (2, &[64, 15, 256])), Answer::Refused(6));
}

#[test]
fn a_refused_set_changes_nothing() {
    for call in [(1, &[1, 9, 256][..]), (2, &[1, 9, 256])] {
        let start: [Made; 2] = [(1, &[0, 9, 1]), (2, &[0, 9, 1])];
        let before = run(&start, When::Asked).0.tables().clone();
        let (after, answer) = run(&[&start[..], &[call]].concat(), When::Asked);
        assert_eq!(answer, Answer::Refused(6));
        assert_eq!(after.tables(), &before);
    }
}

#[test]
fn a_read_takes_the_smaller_level_and_the_common_set() {
    let cases: [([u64; 2], [u64; 2], Answer); 10] = [
        // The subject, the file, and the answer to the read.
        ([9, 0b111], [9, 0b111], Answer::Allowed(9)),
        ([9, 0b111], [15, 255], Answer::Allowed(9)),
        ([9, 0], [9, 255], Answer::Allowed(9)),
        ([9, 0b111], [9, 0b101], Answer::Lowered(9, 1)),
        ([9, 255], [9, 0], Answer::Lowered(9, 8)),
        ([9, 255], [2, 255], Answer::Lowered(2, 0)),
        ([9, 255], [2, 0b1000], Answer::Lowered(2, 7)),
        // Neither is at least the other.
        ([9, 0b01], [2, 0b10], Answer::Lowered(2, 1)),
        ([2, 0b11], [9, 0b01], Answer::Lowered(2, 1)),
        ([9, 0b01], [2, 0b11], Answer::Lowered(2, 0)),
    ];
    for ([level, shops], [of_file, shops_of_file], answer) in cases {
        let start: [Made; 3] =
            [(1, &[0, level, shops]), (2, &[0, of_file, shops_of_file]), (5, &[0, 0, 3])];
        let fallen = Label::new(level.min(of_file) as u8, (shops & shops_of_file) as u8);
        // An open lowers nobody, a map does.
        assert_eq!(last(&start), Answer::Allowed(of_file as u8));
        assert_eq!(subject(&start, 0), Some(Label::new(level as u8, shops as u8)));
        for read in [(7, &[0, 3][..]), (14, &[0, 0, 4]), (10, &[0, 0])] {
            let after = [&start[..], &[read]].concat();
            assert_eq!(last(&after), answer, "{read:?}, {fallen:?}");
            assert_eq!(subject(&after, 0), Some(fallen));
            assert_eq!(object(&after, 0), Some(Label::new(of_file as u8, shops_of_file as u8)));
            // Nobody falls twice.
            let again = then(&after, &[(14, &[0, 0, 5])]);
            assert_eq!(again, Answer::Allowed(fallen.level()));
        }
    }
}

#[test]
fn a_pipe_falls_and_a_file_does_not() {
    // Subject 0 and its child have a pipe, and the child reads a sheet of the same level with one shop mark.
    let start: [Made; 6] = [
        (1, &[0, 9, 0b111]),
        (2, &[1, 9, 0b100]),
        (4, &[0, 5, 0, 1]),
        (9, &[0, 1]),
        (5, &[1, 1, 2]),
        (7, &[1, 2]),
    ];
    assert_eq!(last(&start), Answer::Lowered(9, 2));
    assert_eq!(then(&start, &[(8, &[0, 1])]), Answer::Allowed(9));
    assert_eq!(then(&start, &[(8, &[1, 1])]), Answer::Lowered(9, 2));
    assert_eq!(then(&start, &[(8, &[1, 1]), (8, &[1, 1])]), Answer::Allowed(9));
    assert_eq!(then(&start, &[(8, &[1, 1]), (7, &[0, 0])]), Answer::Lowered(9, 2));
    let written = [&start[..], &[(8, &[1, 1])]].concat();
    assert_eq!(object(&written, 5), Some(Label::new(9, 0b100)));
    assert_eq!(subject(&written, 0), Some(Label::new(9, 0b111)));
    // A file keeps its label, and the answer has its level.
    let file: [Made; 3] = [(2, &[2, 3, 0b100]), (6, &[0, 2, 4]), (8, &[0, 4])];
    assert_eq!(then(&start, &file), Answer::Allowed(3));
    assert_eq!(object(&[&start[..], &file].concat(), 2), Some(Label::new(3, 0b100)));
}

#[test]
fn a_write_to_a_mapped_file_lowers_nobody() {
    let start: [Made; 5] =
        [(1, &[0, 9, 255]), (1, &[1, 9, 0b110]), (2, &[0, 9, 0b011]), (14, &[1, 0, 0]), (6, &[0, 0, 3])];
    assert_eq!(last(&start[..4]), Answer::Lowered(9, 1));
    assert_eq!(then(&start, &[(8, &[0, 3])]), Answer::Allowed(9));
    assert_eq!(subject(&[&start[..], &[(8, &[0, 3])]].concat(), 1), Some(Label::new(9, 0b010)));
}

#[test]
fn what_comes_of_a_subject_has_its_whole_label() {
    let label = Label::new(9, 0b101);
    let start: [Made; 2] = [(1, &[0, 9, 0b101]), (1, &[1, 4, 0b011])];
    for (call, o) in [((3, &[0, 5][..]), 5), ((4, &[0, 6, 0, 1]), 6)] {
        assert_eq!(object(&[&start[..], &[call]].concat(), o), Some(label), "{call:?}");
    }
    for call in [(9, &[0, 2][..]), (18, &[0, 2])] {
        assert_eq!(subject(&[&start[..], &[call]].concat(), 2), Some(label), "{call:?}");
    }
    // Each pipe of a connect has its writer's.
    let connected = [&start[..], &[(17, &[0, 1, 5, 6, 0, 1])]].concat();
    assert_eq!(last(&connected), Answer::Allowed(9));
    assert_eq!([5, 6].map(|o| object(&connected, o)), [Some(label), Some(Label::new(4, 0b011))]);
    assert_eq!(then(&connected, &[(7, &[0, 0])]), Answer::Lowered(4, 1));
    assert_eq!(then(&connected, &[(7, &[1, 0])]), Answer::Lowered(4, 1));
}

#[test]
fn a_shop_mark_that_a_member_loses_is_lost_to_its_mates() {
    let start: [Made; 5] =
        [(1, &[0, 9, 0b111]), (18, &[0, 1]), (9, &[0, 2]), (2, &[0, 9, 0b001]), (5, &[1, 0, 0])];
    let read = [&start[..], &[(7, &[1, 0])]].concat();
    assert_eq!(last(&read), Answer::Lowered(9, 2));
    let (fallen, whole) = (Label::new(9, 0b001), Label::new(9, 0b111));
    assert_eq!([0, 1, 2].map(|s| subject(&read, s)), [Some(fallen), Some(fallen), Some(whole)]);
    assert_eq!(then(&read, &[(14, &[0, 0, 0])]), Answer::Allowed(9));
}

#[test]
fn an_open_for_writing_is_tested_by_labels() {
    let start: [Made; 2] = [(1, &[0, 9, 0b0110]), (4, &[0, 1, 0, 1])];
    let cases = [
        ([9, 0b0110], true),
        ([9, 0b0010], true),
        ([0, 0], true),
        ([9, 0b0111], false),
        ([0, 0b1000], false),
        ([10, 0b0110], false),
        ([10, 0], false),
    ];
    for ([level, shops], allowed) in cases {
        let open: [Made; 2] = [(2, &[0, level, shops]), (6, &[0, 0, 2])];
        let answer = if allowed { Answer::Allowed(level as u8) } else { Answer::Refused(9) };
        assert_eq!(then(&start, &open), answer, "{level}, {shops:b}");
        // So it is for one upstream of the opener: subject 1, of the highest label, reads the pipe that subject 0 writes.
        let upstream: [Made; 4] =
            [(1, &[1, 15, 255]), (5, &[1, 1, 0]), (2, &[0, level, shops]), (6, &[1, 0, 1])];
        assert_eq!(then(&start, &upstream), answer, "{level}, {shops:b}");
    }
}

#[test]
fn a_need_has_all_sets_of_what_is_reached() {
    // Level 3 comes from one file, and a shop mark from each of the two.
    let start: [Made; 5] =
        [(1, &[0, 9, 255]), (2, &[0, 3, 0b01]), (2, &[1, 1, 0b10]), (6, &[0, 0, 0]), (6, &[0, 1, 1])];
    let cases = [
        ([3, 0b11], true),
        ([15, 255], true),
        ([3, 0b01], false),
        ([15, 0b10], false),
        ([2, 0b11], false),
        ([15, 0b1111_1100], false),
    ];
    for ([level, shops], allowed) in cases {
        let sheet: Made = (2, &[2, level, shops]);
        let answer = if allowed { Answer::Allowed(level as u8) } else { Answer::Refused(9) };
        assert_eq!(then(&start, &[sheet, (5, &[0, 2, 2])]), answer, "{level}, {shops:b}");
        // A map and an exec are tested alike; they lower whom they do not refuse.
        for call in [(14, &[0, 2, 2][..]), (10, &[0, 2])] {
            let answer = match answer {
                Answer::Allowed(_) if (level, shops) == (15, 255) => Answer::Allowed(9),
                Answer::Allowed(level) => Answer::Lowered(level, 6),
                refused => refused,
            };
            assert_eq!(then(&start, &[sheet, call]), answer, "{call:?}, {level}, {shops:b}");
        }
        // With the way to one of them gone, the need sinks.
        let closed: [Made; 3] = [(11, &[0, 1]), sheet, (5, &[0, 2, 2])];
        let met = level >= 3 && shops & 1 == 1;
        let answer = if met { Answer::Allowed(level as u8) } else { Answer::Refused(9) };
        assert_eq!(then(&start, &closed), answer, "{level}, {shops:b}");
    }
}

#[test]
fn an_exec_leaves_out_the_sets_that_marked_handles_need() {
    let start: [Made; 4] = [(1, &[0, 9, 255]), (2, &[0, 9, 0b10]), (2, &[1, 9, 0b01]), (6, &[0, 0, 0])];
    assert_eq!(then(&start, &[(10, &[0, 1])]), Answer::Refused(9));
    assert_eq!(then(&start, &[(15, &[0, 0]), (10, &[0, 1])]), Answer::Lowered(9, 7));
}

#[test]
fn a_connect_is_tested_by_labels() {
    // Subject 0 writes a file that shop group 0 vouches for, and subject 1 has the same level and the mark of group 1 alone.
    let start: [Made; 4] = [(1, &[0, 9, 0b11]), (1, &[1, 9, 0b10]), (2, &[0, 9, 0b01]), (6, &[0, 0, 5])];
    let connect = [[0, 1, 5, 6, 0, 1], [1, 0, 5, 6, 0, 1]];
    for numbers in connect {
        assert_eq!(then(&start, &[(17, &numbers)]), Answer::Refused(9));
        assert_eq!(then(&start, &[(11, &[0, 5]), (17, &numbers)]), Answer::Allowed(9));
        assert_eq!(then(&start, &[(12, &[1]), (1, &[1, 9, 0b01]), (17, &numbers)]), Answer::Allowed(9));
    }
}

#[test]
fn a_freeze_looks_at_levels_only() {
    for shops in [0, 1, 0b1010, 255] {
        for (level, answer) in
            [(8, Answer::Allowed(8)), (9, Answer::Refused(15)), (10, Answer::Refused(15))]
        {
            let calls: [Made; 4] =
                [(1, &[0, 15, 255]), (2, &[0, level, shops]), (16, &[9]), (6, &[0, 0, 0])];
            assert_eq!(last(&calls), answer, "{level}, {shops:b}");
        }
        // It is said before 9.
        let calls: [Made; 4] = [(1, &[0, 9, 0]), (2, &[0, 9, shops]), (16, &[9]), (6, &[0, 0, 0])];
        assert_eq!(last(&calls), Answer::Refused(15));
    }
}

#[test]
fn the_level_in_an_answer_is_without_the_set() {
    let start: [Made; 3] = [(1, &[0, 9, 0b1]), (2, &[0, 15, 0]), (5, &[0, 0, 0])];
    assert_eq!(last(&start), Answer::Allowed(15));
    assert_eq!(then(&start, &[(15, &[0, 0])]), Answer::Allowed(9));
    assert_eq!(then(&start, &[(11, &[0, 0])]), Answer::Allowed(9));
    assert_eq!(then(&start, &[(12, &[0])]), Answer::Allowed(9));
    assert_eq!(then(&start, &[(11, &[0, 0]), (13, &[0])]), Answer::Allowed(15));
    assert_eq!(then(&start, &[(16, &[16])]), Answer::Allowed(16));
}

#[test]
fn a_line_counts_a_lost_shop_mark_as_lowered() {
    for (shops, lowered) in [(255, 0), (1, 1)] {
        let mut monitor = Monitor::new(When::EachCall);
        assert_eq!(make(&mut monitor, (1, &[0, 9, 255])), Answer::Allowed(9));
        assert_eq!(make(&mut monitor, (2, &[20, 9, shops])), Answer::Allowed(9));
        let counts = monitor.line(b"20", Start { shell: 0, child: 1, pipe: 100 });
        assert_eq!(counts, Ok(Counts { allowed: 3 - lowered, lowered, refused: 0 }));
    }
}

/// A journal with the records of these calls, whose numbers are below 128 or, in a set, 255.
fn journal(calls: &[Made]) -> Vec<u8> {
    let mut journal = Vec::new();
    for (code, numbers) in calls {
        let mut body = vec![*code as u8];
        for &number in *numbers {
            if number > 127 {
                body.extend([number as u8 | 0x80, (number >> 7) as u8]);
            } else {
                body.push(number as u8);
            }
        }
        journal.push(body.len() as u8);
        journal.extend(body);
    }
    journal
}

fn reply(calls: &[Made]) -> String {
    let texts = BOTH.map(|when| {
        let mut text = Vec::new();
        replies(&journal(calls), when, &mut text);
        String::from_utf8(text).expect("letters, digits and spaces")
    });
    assert_eq!(texts[0], texts[1]);
    texts[0].clone()
}

#[test]
fn a_lowered_line_has_a_fifth_field() {
    let calls: [Made; 9] = [
        (2, &[0, 9, 0b1010]),
        (2, &[1, 2, 255]),
        (1, &[0, 9, 255]),
        (2, &[2, 9, 256]),
        (5, &[0, 0, 0]),
        (7, &[0, 0]),
        (7, &[0, 0]),
        (5, &[0, 1, 1]),
        (7, &[0, 1]),
    ];
    let lines = [
        "1 2 A 9",
        "2 2 A 2",
        "3 1 A 9",
        "4 2 R 6",
        "5 5 A 9",
        "6 7 L 9 6",
        "7 7 A 9",
        "8 5 A 2",
        "9 7 L 2 0",
        "end 2 0 2\n",
    ];
    assert_eq!(reply(&calls), lines.join("\n"));
}

#[test]
fn a_record_without_a_set_is_broken() {
    let calls: [Made; 6] =
        [(1, &[0, 9]), (2, &[0, 9]), (1, &[0, 9, 1, 1]), (2, &[0, 9, 1, 1]), (1, &[0]), (2, &[])];
    let lines = ["1 1 R 12", "2 2 R 12", "3 1 R 12", "4 2 R 12", "5 1 R 12", "6 2 R 12", "end 0 0 0\n"];
    assert_eq!(reply(&calls), lines.join("\n"));
}

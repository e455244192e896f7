//! Advice never lies: everything that is advised for the refusals of the stored journals is done, on a monitor that was
//! led there by the journal's own calls, and must be allowed; and what is said not to help must not help.

mod common;

use common::journals;
use gatekeeper::{Answer, Call, Refusal, State as Monitor, NO_FREEZE};
use gk::explain::{tell, Told, Which};
use gk::names::Names;
use gk_advice::calls::with_number;
use gk_advice::records::{Body, Records};
use gk_advice::run::Content;
use gk_advice::things::{handles, handles_on, is_file, is_pipe, objects, Held, Thing, OBJECTS};
use gk_advice::ways::Advice;
use gk_names::number::of_text;

/// A refusal of a stored journal, with the monitor before it.
struct Case {
    journal: String,
    told: Told,
    call: Call,
    refusal: Refusal,
    monitor: Monitor,
}

/// Every call of the stored journals that was refused.
fn cases() -> Vec<Case> {
    let mut cases = Vec::new();
    for (name, journal) in journals() {
        let mut monitor = Monitor::new();
        let mut done = 0;
        let mut records = Records::new(&journal);
        let told = |told: Told| {
            // Up to the record before it, each call is made once more.
            while done + 1 < told.step.position {
                if let Some(Ok(record)) = records.next() {
                    if let Body::Call(call) = record.body {
                        let _ = monitor.call(call);
                    }
                }
                done += 1;
            }
            if let (Content::Call(call), Some(refusal)) = (told.step.content, told.step.refusal()) {
                assert_eq!(monitor, told.step.before);
                cases.push(Case { journal: name.clone(), told, call, refusal, monitor: monitor.clone() });
            }
        };
        tell(&journal, &Names::new(), Which::Refused, told).unwrap();
    }
    cases
}

impl Case {
    /// Whether it is a 9, or a 15 that is a 9 once the books are open (RULES R117). The answer is a monitor's.
    fn is_nine(&self) -> bool {
        match self.refusal {
            Refusal::Flow => true,
            Refusal::Frozen => with_open_books(&self.monitor).call(self.call) == FLOW,
            _ => false,
        }
    }
}

const FLOW: Answer = Answer::Refused(Refusal::Flow);

fn with_open_books(monitor: &Monitor) -> Monitor {
    after(monitor, &[Call::Freeze { level: NO_FREEZE }]).unwrap()
}

/// The monitor after some calls; none where one of them is refused.
fn after(monitor: &Monitor, calls: &[Call]) -> Option<Monitor> {
    let mut copy = monitor.clone();
    calls.iter().all(|&call| copy.call(call).granted().is_ok()).then_some(copy)
}

fn closed(monitor: &Monitor, handles: &[Held]) -> Monitor {
    let closes: Vec<Call> =
        handles.iter().map(|held| Call::Close { subject: held.step, place: held.place }).collect();
    after(monitor, &closes).unwrap()
}

/// The closes that an advice begins with, and what comes after them.
fn closes_of(advice: &Advice) -> (&[Call], &[Call]) {
    let count = advice.calls.iter().take_while(|call| matches!(call, Call::Close { .. })).count();
    advice.calls.split_at(count)
}

#[test]
fn every_advice_holds() {
    let mut tried = [0; 18];
    for case in cases() {
        let Case { told, monitor, refusal, .. } = &case;
        let at = format!("{}, record {}", case.journal, told.step.position);
        assert!(!(told.counsel.ways.is_empty() && told.counsel.notes.is_empty()), "{at}: {}", told.text());
        for advice in &told.counsel.ways {
            assert!(!advice.calls.is_empty(), "{at}: {}", advice.text);
            assert!(after(monitor, &advice.calls).is_some(), "{at}: {}", told.text());
            tried[refusal.number() as usize] += 1;
        }
    }
    for (number, least) in [
        (2, 50),
        (3, 20),
        (4, 20),
        (5, 5),
        (6, 5),
        (7, 50),
        (8, 5),
        (9, 100),
        (10, 20),
        (15, 5),
        (16, 3),
        (17, 20),
    ] {
        assert!(tried[number] >= least, "only {} advices for refusal {number}", tried[number]);
    }
}

/// The number behind these words of a note.
fn behind(note: &str, words: &str) -> Option<u64> {
    let (_, rest) = note.split_once(words)?;
    let end =
        rest.find(|character: char| !character.is_ascii_digit() && character != ',').unwrap_or(rest.len());
    of_text(rest[..end].trim_end_matches(','))
}

/// Room for so many new files and pipes: what takes the fewest calls goes, a file that nobody has open, or else what has
/// the fewest handles.
fn make_room(monitor: &mut Monitor, new: usize) {
    while objects(monitor).count() + new > OBJECTS as usize {
        let calls = |object: &u64| {
            let is_file = is_file(monitor, *object);
            (handles_on(monitor, *object).count() + usize::from(is_file), is_file)
        };
        let object = objects(monitor).min_by_key(calls).expect("something is there");
        let held: Vec<Held> = handles_on(monitor, object).collect();
        *monitor = closed(monitor, &held);
        let _ = monitor.call(Call::Retire { object });
    }
}

/// What is said to be refused in another way, at another place or with another number, is refused so.
#[test]
fn what_a_note_says_to_be_refused_is_refused() {
    let mut tried = [0; 5];
    for case in cases() {
        for note in &case.told.counsel.notes {
            let at = format!("{}, record {}: {note}", case.journal, case.told.step.position);
            let Some(number) = behind(note, "it would be refused with ") else {
                continue;
            };
            let refused = Answer::Refused(Refusal::from_number(number as u32).unwrap());
            let mut copy = case.monitor.clone();
            let other = |name: &str, words: &str| {
                behind(note, words).map(|other| with_number(case.call, name, other))
            };
            let (kind, call) = if note.starts_with("At an empty place") {
                (0, other("p", "for example ").unwrap())
            } else if note.starts_with("With a free number") {
                if note.contains(" and room for it, ") {
                    make_room(&mut copy, 1);
                }
                let name =
                    if matches!(case.call, Call::Fork { .. } | Call::Thread { .. }) { "c" } else { "o" };
                (1, other(name, "for example ").unwrap())
            } else if note.starts_with("With step ") {
                let subject = behind(note, "With step ").unwrap();
                copy.call(Call::Admit { subject, level: 15, shops: 255 }).granted().unwrap();
                (2, case.call)
            } else if note.starts_with("With a file ") {
                make_room(&mut copy, 1);
                let object = behind(note, "With a file ").unwrap();
                copy.call(Call::Register { object, level: 15, shops: 255 }).granted().unwrap();
                (3, case.call)
            } else if note.starts_with("With room for it") {
                make_room(&mut copy, if matches!(case.call, Call::Connect { .. }) { 2 } else { 1 });
                (4, case.call)
            } else {
                continue;
            };
            if note.contains(" and step ") {
                continue;
            }
            assert_eq!(copy.call(call), refused, "{at}");
            tried[kind] += 1;
        }
    }
    assert!(tried.iter().all(|&count| count > 0), "{tried:?}");
}

#[test]
fn a_9_has_a_whole_set_of_closes_or_is_said_to_have_none() {
    let (mut with, mut without) = (0, 0);
    for case in cases().into_iter().filter(Case::is_nine) {
        let at = format!("{}, record {}: {}", case.journal, case.told.step.position, case.told.text());
        let says_none =
            case.told.counsel.notes.iter().any(|note| note.starts_with("No closing of handles helps"));
        let first = case.told.counsel.ways.iter().find(|way| way.text.starts_with("close "));
        match first {
            Some(advice) => {
                assert!(!says_none, "{at}");
                with += 1;
                let (closes, rest) = closes_of(advice);
                // With one close fewer it is refused still.
                for left_out in 0..closes.len() {
                    let mut fewer = closes.to_vec();
                    fewer.remove(left_out);
                    assert!(after(&case.monitor, &[&fewer, rest].concat()).is_none(), "{at}");
                }
            }
            None => {
                assert!(says_none, "{at}");
                without += 1;
                nothing_helps(&case, &at);
            }
        }
    }
    assert!(with >= 100 && without >= 5, "{with} with closes, {without} without");
}

/// Closing everything, but for one handle on a pipe that is to be opened, does not help; so no closing does.
fn nothing_helps(case: &Case, at: &str) {
    let all: Vec<Held> = handles(&case.monitor).collect();
    let kept: Vec<Option<Held>> = match case.call {
        Call::OpenRead { object, .. } | Call::OpenWrite { object, .. }
            if is_pipe(&case.monitor, object) =>
        {
            handles_on(&case.monitor, object).map(Some).collect()
        }
        _ => vec![None],
    };
    for kept in kept {
        let set: Vec<Held> = all.iter().copied().filter(|held| Some(*held) != kept).collect();
        let answer = with_open_books(&closed(&case.monitor, &set)).call(case.call);
        assert_eq!(answer, FLOW, "{at}");
    }
}

/// A close of a mate's handle counts more than all of the caller's, and one of another step's more than all of these; what
/// is advised is as cheap as can be.
#[test]
fn no_cheaper_set_of_closes_is_enough() {
    let mut compared = 0;
    for case in cases().into_iter().filter(Case::is_nine) {
        let Some(advice) = case.told.counsel.ways.iter().find(|way| way.text.starts_with("close ")) else {
            continue;
        };
        let caller = case.call.numbers()[0];
        let cost = |step: u64| match step {
            _ if step == caller => 1,
            _ if case.monitor.group(step) == case.monitor.group(caller) => 32,
            _ => 1 << 14,
        };
        let (closes, rest) = closes_of(advice);
        let given: u64 = closes.iter().map(|call| cost(call.numbers()[0])).sum();
        let all: Vec<Held> = handles(&case.monitor).collect();
        let mut sets: Vec<Vec<Held>> = all.iter().map(|&held| vec![held]).collect();
        for (index, &one) in all.iter().enumerate() {
            sets.extend(all[..index].iter().map(|&other| vec![one, other]));
        }
        for set in sets {
            if set.iter().map(|held| cost(held.step)).sum::<u64>() < given {
                let is_enough = after(&closed(&case.monitor, &set), rest).is_some();
                assert!(!is_enough, "{}: {set:?} is cheaper than {}", case.journal, advice.text);
                compared += 1;
            }
        }
    }
    assert!(compared >= 1000, "only {compared} sets were compared");
}

#[test]
fn the_chain_of_a_9_is_one() {
    let (mut seen, mut through_threads) = (0, 0);
    for case in cases().into_iter().filter(Case::is_nine) {
        let at = format!("{}, record {}: {}", case.journal, case.told.step.position, case.told.text());
        let chain: Vec<_> = case.told.chain.iter().map(|(link, _)| *link).collect();
        let (low, high) = (chain.first().unwrap(), chain.last().unwrap());
        assert!(!low.label.at_least(high.label), "{at}");
        assert!(matches!(high.thing, Thing::Object(o) if is_file(&case.monitor, o)), "{at}");
        for pair in chain.windows(2) {
            let flow = (pair[0].thing, pair[1].thing);
            let is_held = handles(&case.monitor).any(|held| held.flow() == flow);
            let is_shared = match flow {
                (Thing::Step(one), Thing::Step(other)) => {
                    case.monitor.group(one) == case.monitor.group(other)
                }
                _ => false,
            };
            assert!(is_held || is_shared || is_sought(case.call, flow), "{at}");
            // It is said that they are threads of one step, and which of them holds what.
            if is_shared {
                through_threads += 1;
                let words = at.split_whitespace().collect::<Vec<&str>>().join(" ");
                assert!(words.contains(" are threads of one step: "), "{at}");
            }
        }
        seen += 1;
    }
    assert!(seen >= 100 && through_threads >= 10, "{seen}, {through_threads} through threads");
}

/// An exec that is refused: another thread of the step that may run the program is named, each that is named may, and what
/// the others hold is closed then.
#[test]
fn the_threads_that_are_advised_to_run_a_program_may() {
    let mut tried = 0;
    for case in cases() {
        let ways = case.told.counsel.ways.iter();
        for advice in
            ways.filter(|way| way.text.starts_with("let another thread of the same step run it: "))
        {
            let Call::Exec { subject, .. } = case.call else { panic!("{}", advice.text) };
            let group = case.monitor.group(subject);
            let able: Vec<u64> = advice
                .text
                .split(" may. ")
                .next()
                .unwrap_or("")
                .split("step ")
                .skip(2)
                .filter_map(|part| of_text(part.split([' ', ',']).next()?))
                .collect();
            assert!(!able.is_empty(), "{}", advice.text);
            for mate in able {
                assert_eq!(case.monitor.group(mate), group, "{}: {}", case.journal, advice.text);
                let ran = after(&case.monitor, &[with_number(case.call, "s", mate)]);
                let ran = ran.unwrap_or_else(|| panic!("{}: {}", case.journal, advice.text));
                assert!(ran.subject(subject).is_none() && ran.subject(mate).is_some(), "{}", advice.text);
            }
            tried += 1;
        }
    }
    assert!(tried >= 3, "{tried}");
}

/// RULES R117: a 15 tells of a 9 exactly where one comes once the books are open, and waiting is advised elsewhere.
#[test]
fn a_15_tells_of_a_9_where_there_is_one() {
    let mut seen = [0; 2];
    for case in cases().into_iter().filter(|case| case.refusal == Refusal::Frozen) {
        let text = case.told.text();
        let flat = text.split_whitespace().collect::<Vec<_>>().join(" ");
        let at = format!("{}, record {}: {text}", case.journal, case.told.step.position);
        let is_nine = case.is_nine();
        assert!(flat.contains(": the books are closed from level "), "{at}");
        assert_eq!(flat.contains("it would be refused with 9: "), is_nine, "{at}");
        assert_eq!(case.told.chain.is_empty(), !is_nine, "{at}");
        assert_eq!(flat.contains("What to do: wait until the books are open again"), !is_nine, "{at}");
        seen[usize::from(is_nine)] += 1;
    }
    assert!(seen.iter().all(|&count| count >= 5), "{seen:?}");
}

fn is_sought(call: Call, flow: (Thing, Thing)) -> bool {
    let (step, object) = (Thing::Step, Thing::Object);
    match call {
        Call::OpenRead { subject, object: o, .. }
        | Call::Map { subject, object: o, .. }
        | Call::Exec { subject, object: o } => flow == (object(o), step(subject)),
        Call::OpenWrite { subject, object: o, .. } => flow == (step(subject), object(o)),
        Call::Connect { subject, peer, to, from, .. } => [
            (step(subject), object(to)),
            (object(to), step(peer)),
            (step(peer), object(from)),
            (object(from), step(subject)),
        ]
        .contains(&flow),
        _ => false,
    }
}

/// The marks that an exec's 9 is answered with are enough, and each of them is needed.
#[test]
fn the_marks_that_are_advised_are_needed() {
    let mut tried = 0;
    for case in cases() {
        for advice in case.told.counsel.ways.iter().filter(|way| way.text.contains(" mark ")) {
            let (exec, marks) = advice.calls.split_last().unwrap();
            for left_out in 0..marks.len() {
                let mut fewer = marks.to_vec();
                fewer.remove(left_out);
                fewer.push(*exec);
                assert!(after(&case.monitor, &fewer).is_none(), "{}: {}", case.journal, advice.text);
            }
            tried += 1;
        }
    }
    assert!(tried >= 5, "{tried}");
}

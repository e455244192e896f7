//! Labels: a monitor with levels and sets beside nine monitors with levels alone, one for the levels and one for each of the
//! eight shop groups, in which a thing has level 1 if it has the group's mark and level 0 if not. What is refused as a flow
//! in one of the nine is refused, what falls in one of them has fallen, and the marks lost are the groups in which the thing
//! fell. Each call is made on bytes and on the struct. And what version 7.0.0 kept, which goes on as before.

use gatekeeper::{Answer, Call, Label, Monitor, Refusal, State, ALL_SHOPS, NO_FREEZE, SHOPS, SUBJECTS};
use gatekeeper_independent::random::Random;

mod kept;

const LISTS: usize = 60;
const CALLS: usize = 300;

/// A monitor of bytes, one that is a struct, and the nine.
struct Compared {
    monitor: Monitor,
    state: State,
    /// By levels; then by the marks of group 0, of group 1, and so on.
    parts: Vec<Monitor>,
}

/// How a call is made in a part: there a set has no say, and only the levels are frozen.
fn in_part(call: Call, part: usize) -> Call {
    let label = |level: u64, shops: u64| match part {
        0 => level,
        _ => shops >> (part - 1) & 1,
    };
    match call {
        Call::Admit { subject, level, shops } => {
            Call::Admit { subject, level: label(level, shops), shops: ALL_SHOPS }
        }
        Call::Register { object, level, shops } => {
            Call::Register { object, level: label(level, shops), shops: ALL_SHOPS }
        }
        Call::Freeze { .. } if part > 0 => Call::Freeze { level: NO_FREEZE },
        other => other,
    }
}

/// The label that the levels of the parts come to.
fn joined(levels: impl Iterator<Item = Option<Label>>) -> Option<Label> {
    let levels: Vec<u8> = levels.map(|label| label.map(|label| label.level)).collect::<Option<_>>()?;
    let shops = (0..).zip(&levels[1..]).map(|(group, level)| level << group).sum();
    Some(Label { level: levels[0], shops })
}

/// What was met; a comparison that met little says little.
#[derive(Default)]
struct Seen {
    allowed: usize,
    /// Lowered by the level alone, by marks alone, and by both.
    lowered: [usize; 3],
    refused: usize,
    /// Flows that the levels refuse, and flows that some shop group alone refuses.
    flows: [usize; 2],
}

impl Compared {
    fn empty() -> Compared {
        let parts = vec![Monitor::new(); SHOPS as usize + 1];
        Compared { monitor: Monitor::new(), state: State::new(), parts }
    }

    fn call(&mut self, call: Call, seen: &mut Seen) {
        let before = self.parts.clone();
        let answers: Vec<Answer> =
            (0..).zip(&mut self.parts).map(|(part, monitor)| monitor.call(in_part(call, part))).collect();
        let answer = self.monitor.call(call);
        assert_eq!(self.state.call(call), answer, "{call:?} on the struct");

        match answer {
            Answer::Refused(Refusal::LevelTooHigh) => {
                let set = if let Call::Admit { shops, .. } | Call::Register { shops, .. } = call {
                    shops
                } else {
                    0
                };
                assert!(answers[0] == answer || set > ALL_SHOPS, "{call:?}");
                seen.refused += 1;
            }
            Answer::Refused(Refusal::Flow) => {
                let flow = |part: &Answer| *part == Answer::Refused(Refusal::Flow);
                assert!(answers.iter().any(flow), "{call:?}: {answers:?}");
                assert!(
                    answers.iter().all(|part| flow(part) || part.granted().is_ok()),
                    "{call:?}: {answers:?}"
                );
                seen.flows[usize::from(!flow(&answers[0]))] += 1;
            }
            Answer::Refused(Refusal::Frozen) => {
                assert_eq!(answers[0], answer, "{call:?}");
                seen.refused += 1;
            }
            Answer::Refused(_) => {
                assert!(answers.iter().all(|part| *part == answer), "{call:?}: {answer:?}, {answers:?}");
                seen.refused += 1;
            }
            Answer::Allowed(level) | Answer::Lowered { level, .. } => {
                assert!(answers.iter().all(|part| part.granted().is_ok()), "{call:?}: {answers:?}");
                assert_eq!(answers[0].granted(), Ok(level), "{call:?}");
                let falls = |part: &Answer| matches!(part, Answer::Lowered { .. });
                let is_lowered = answers.iter().any(falls);
                assert_eq!(falls(&answer), is_lowered, "{call:?}: {answers:?}");
                if let Answer::Lowered { lost, .. } = answer {
                    let fell = (1..).zip(&before[1..]).filter(|(part, old)| {
                        let [old, new] = [old, &self.parts[*part]].map(|monitor| given(monitor, call));
                        old > new
                    });
                    assert_eq!(usize::from(lost), fell.count(), "{call:?}: {answer:?}");
                    let kind = match (falls(&answers[0]), answers[1..].iter().any(falls)) {
                        (true, false) => 0,
                        (false, true) => 1,
                        _ => 2,
                    };
                    seen.lowered[kind] += 1;
                } else {
                    seen.allowed += 1;
                }
            }
        }
        if answer.granted().is_err() {
            self.parts = before;
        }
    }

    /// The labels and the needs are those that the parts come to.
    fn look(&self) {
        for s in 0..SUBJECTS {
            let label = joined(self.parts.iter().map(|part| part.subject(s)));
            assert_eq!([self.monitor.subject(s), self.state.subject(s)], [label; 2], "subject {s}");
            let need = joined(self.parts.iter().map(|part| part.need_of_subject(s)));
            let shown = [self.monitor.need_of_subject(s), self.state.need_of_subject(s)];
            assert_eq!(shown, [need; 2], "the need of subject {s}");
            assert!(label.zip(need).is_none_or(|(label, need)| label.at_least(need)), "subject {s}");
        }
        assert!(self.state.objects().eq(self.monitor.objects()));
        for (o, object) in self.monitor.objects() {
            let labels = self.parts.iter().map(|part| part.object(o).map(|object| object.label));
            assert_eq!(Some(object.label), joined(labels), "object {o}");
            let need = joined(self.parts.iter().map(|part| part.need_of_object(o)));
            let shown = [self.monitor.need_of_object(o), self.state.need_of_object(o)];
            assert_eq!(shown, [need; 2], "the need of object {o}");
            assert!(need.is_some_and(|need| object.label.at_least(need)), "object {o}");
        }
    }
}

/// The level of the thing whose level a lowered call gives.
fn given(monitor: &Monitor, call: Call) -> Option<u8> {
    let label = match call {
        Call::Write { subject, place } => monitor.object(monitor.handle(subject, place)?.object)?.label,
        Call::Read { subject, .. } | Call::Exec { subject, .. } | Call::Map { subject, .. } => {
            monitor.subject(subject)?
        }
        _ => return None,
    };
    Some(label.level)
}

/// A call that is often allowed. The sets differ in few groups or in many, or are all 255.
fn drawn_call(random: &mut Random, differing: u64) -> Call {
    let [subject, peer, member] = [(); 3].map(|()| random.below(8));
    // Small numbers of objects, and some far from them.
    let [object, from] =
        [(); 2].map(|()| random.below(20)).map(|o| if o % 3 > 0 { o } else { o << 58 | o });
    let [place, level] = [random.below(12), random.below(17)];
    let shops =
        if random.once_in(60) { random.below(300) } else { ALL_SHOPS ^ random.below(1 << differing) };
    match random.below(25) {
        0 | 1 => Call::Admit { subject, level, shops },
        2..5 => Call::Register { object, level, shops },
        5 => Call::Create { subject, object },
        6 => Call::Pipe { subject, object, reads: place, writes: random.below(12) },
        7..10 => Call::OpenRead { subject, object, place },
        10..13 => Call::OpenWrite { subject, object, place },
        13 | 14 => Call::Read { subject, place },
        15 | 16 => Call::Write { subject, place },
        17 => Call::Fork { subject, child: member },
        18 => Call::Exec { subject, object },
        19 => Call::Close { subject, place },
        20 if random.once_in(2) => Call::Exit { subject },
        20 => Call::Retire { object },
        21 => Call::Map { subject, object, place },
        22 => Call::Connect { subject, peer, to: object, from, reading: place, writing: random.below(12) },
        23 => Call::Thread { subject, member },
        _ if random.once_in(2) => Call::Mark { subject, place },
        _ => Call::Freeze { level: 6 + random.below(12) },
    }
}

#[test]
fn a_monitor_with_labels_is_nine_with_levels() {
    let mut random = Random::new(1, 10);
    let mut seen = Seen::default();
    for list in 0..LISTS {
        let mut compared = Compared::empty();
        let differing = [1, 2, 3, 8][list % 4];
        for call in 0..CALLS {
            compared.call(drawn_call(&mut random, differing), &mut seen);
            if call % 20 == 0 {
                compared.look();
            }
        }
        compared.look();
    }
    let Seen { allowed, lowered, refused, flows } = seen;
    println!(
        "beside: {} calls with labels, beside nine monitors with levels: {allowed} allowed, lowered by the level alone, by \
         shop marks alone and by both {lowered:?}, flows refused by levels and by shop marks alone {flows:?}, {refused} \
         refused otherwise",
        LISTS * CALLS
    );
    assert!(
        allowed > LISTS * CALLS / 10 && lowered.iter().chain(&flows).all(|&met| met > 20),
        "few of some kind"
    );
}

/// With one set everywhere all goes by levels, whichever set it is.
#[test]
fn one_set_everywhere_has_no_say() {
    let mut random = Random::new(1, 11);
    let mut lowered = 0;
    for _ in 0..20 {
        let sets = [ALL_SHOPS, 0, 0b0101_0101, random.below(256)];
        let mut monitors = sets.map(|set| (set, Monitor::new()));
        for _ in 0..CALLS {
            let call = drawn_call(&mut random, 0);
            let answers = monitors.each_mut().map(|(set, monitor)| {
                monitor.call(match call {
                    Call::Admit { subject, level, .. } => Call::Admit { subject, level, shops: *set },
                    Call::Register { object, level, .. } => Call::Register { object, level, shops: *set },
                    other => other,
                })
            });
            assert!(answers.iter().all(|answer| *answer == answers[0]), "{call:?}: {answers:?}");
            if let Answer::Lowered { lost, .. } = answers[0] {
                assert_eq!(lost, 0, "{call:?}");
                lowered += 1;
            }
        }
    }
    assert!(lowered > 50, "few calls were lowered: {lowered}");
}

/// As it kept them, with threads and objects of any number; and with the sets that they have since.
#[test]
fn what_version_7_kept_goes_on_as_before() {
    let mut random = Random::new(1, 12);
    let mut allowed = 0;
    for _ in 0..12 {
        let (mut monitor, mut again, mut state) = (Monitor::new(), Monitor::new(), State::new());
        for turn in 0..CALLS {
            if turn % 60 == 0 {
                let kept = kept::by_version_7(&monitor);
                assert_eq!(kept.len(), 2385);
                again = Monitor::from_kept(&kept).expect("bytes of version 7.0.0");
                state = State::from(&again);
                assert!(state.is_sure());
            }
            // With all shop marks: it had no others.
            let call = match drawn_call(&mut random, 0) {
                Call::Admit { subject, level, .. } => Call::Admit { subject, level, shops: ALL_SHOPS },
                Call::Register { object, level, .. } => Call::Register { object, level, shops: ALL_SHOPS },
                other => other,
            };
            let answer = monitor.call(call);
            assert_eq!((again.call(call), state.call(call)), (answer, answer), "{call:?}");
            allowed += usize::from(answer.granted().is_ok());
            for s in 0..8 {
                let shown = (monitor.subject(s), monitor.need_of_subject(s), monitor.group(s));
                assert_eq!((again.subject(s), again.need_of_subject(s), again.group(s)), shown);
                assert_eq!((state.subject(s), state.need_of_subject(s), state.group(s)), shown);
            }
            assert!(again.objects().eq(monitor.objects()) && state.objects().eq(monitor.objects()));
        }
    }
    assert!(allowed > 600, "few calls were allowed: {allowed}");
}

/// A journal of before, and the same with the set 255 after each level of an admit and a register: the same replies, but for
/// the fifth field.
#[test]
fn an_old_journal_has_the_replies_of_before() {
    let calls = [
        Call::Register { object: 0, level: 2, shops: ALL_SHOPS },
        Call::Admit { subject: 0, level: 9, shops: ALL_SHOPS },
        Call::OpenRead { subject: 0, object: 0, place: 0 },
        Call::Read { subject: 0, place: 0 },
    ];
    let mut journal = Vec::new();
    calls.into_iter().for_each(|call| call.write_record(&mut journal));
    assert_eq!(gatekeeper::replay(&journal), "1 2 A 2\n2 1 A 9\n3 5 A 2\n4 7 L 2 0\nend 1 0 1\n");

    // Without the sets the two records are malformed: a number is missing.
    let old = [3, 2, 0, 2, 3, 1, 0, 9, 4, 5, 0, 0, 0, 3, 7, 0, 0];
    assert_eq!(gatekeeper::replay(&old), "1 2 R 12\n2 1 R 12\n3 5 R 2\n4 7 R 2\nend 0 0 0\n");
}

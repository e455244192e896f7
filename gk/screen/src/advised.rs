//! Advice as a clerk follows it: the words that the screen shows are taken apart, and what they name is done on a
//! monitor of the moment before the record. What is called "one of these" is tried with each of them.

use std::collections::BTreeMap;

use gatekeeper::{Answer, Call, Label, Refusal, State as Monitor, NO_FREEZE};
use gk_advice::calls::{number_of, with_number};
use gk_advice::run::{Content, Step};
use gk_advice::things::{empty_places, ALL_SHOPS, HIGHEST};
use gk_names::number::of_text;

use crate::names::Names;
use crate::told::Told;

/// How often each kind of advice was followed, by the words it starts with.
#[derive(Default)]
pub struct Advised(BTreeMap<&'static str, u64>);

impl Advised {
    /// Follows all that is advised at a record.
    pub fn follow(&mut self, turn: &Step, told: &Told) {
        assert_eq!(told.ways.len(), told.counsel.ways.len());
        let Content::Call(call) = turn.content else {
            return;
        };
        for (shown, way) in told.ways.iter().zip(&told.counsel.ways) {
            let text = shown.text(&Names::default(), turn.position);
            let at = format!("{}: {text}", turn.line());
            assert!(!way.calls.is_empty() && is_allowed(&turn.before, &way.calls), "{at}");
            let Some((kind, lists)) = read(call, &text, &turn.before) else {
                panic!("nothing in these words can be followed: {at}");
            };
            if let ("admit first" | "register first", Some(lowest)) = (kind, lists.first()) {
                self.is_lowest(&turn.before, lowest, &at);
            }
            for calls in lists {
                // "… once the books are open again": before the open that the freeze is in the way of.
                let opens = |call: &Call| matches!(call, Call::OpenWrite { .. });
                let calls = match (text.contains("(freeze 16)"), calls.iter().position(opens)) {
                    (true, Some(at)) => [&calls[..at], &[OPEN], &calls[at..]].concat(),
                    _ => calls,
                };
                assert!(is_allowed(&turn.before, &calls), "{at}, as {calls:?}");
            }
            *self.0.entry(kind).or_insert(0) += 1;
        }
    }

    /// That a thing from outside is proposed no higher a level than it needs.
    fn is_lowest(&self, monitor: &Monitor, calls: &[Call], at: &str) {
        let lower = |call: &Call, by: u64| {
            let level = number_of(*call, "level")
                .filter(|_| matches!(call, Call::Admit { .. } | Call::Register { .. }));
            level.map_or(*call, |level| with_number(*call, "level", level - by))
        };
        let level = calls.iter().find_map(|call| number_of(*call, "level")).unwrap_or(0);
        for by in 1..=level {
            let calls: Vec<Call> = calls.iter().map(|call| lower(call, by)).collect();
            let opened: Vec<Call> = [&[OPEN], &calls[..]].concat();
            assert!(
                !is_allowed(monitor, &calls) && !is_allowed(monitor, &opened),
                "{at}: {by} less is enough"
            );
        }
    }

    /// That each kind of advice was there, and more than once.
    pub fn is_enough(&self) {
        for (kind, least) in [
            ("close and do", 500),
            ("close and use", 5),
            ("close one", 5),
            ("another step", 100),
            ("fork", 100),
            ("admit a step", 20),
            ("looked over", 100),
            ("mark", 20),
            ("another thread", 5),
            ("one way", 5),
            ("admit first", 50),
            ("register first", 50),
            ("name a step", 100),
            ("name an object", 50),
            ("name a place", 50),
            ("an empty place", 100),
            ("two places", 20),
            ("its handle", 5),
            ("open it", 20),
            ("a free number", 100),
            ("free a number", 20),
            ("room", 20),
            ("room and a number", 5),
            ("a level", 50),
            ("a set", 5),
            ("retire after", 20),
            ("exit and retire", 20),
            ("books", 20),
            ("a held handle", 10),
            ("not frozen", 10),
        ] {
            let found = self.0.get(kind).copied().unwrap_or(0);
            assert!(found >= least, "\"{kind}\" was followed {found} times: {:?}", self.0);
        }
    }
}

const OPEN: Call = Call::Freeze { level: NO_FREEZE };

fn is_allowed(monitor: &Monitor, calls: &[Call]) -> bool {
    let mut copy = monitor.clone();
    calls.iter().all(|&call| !matches!(copy.call(call), Answer::Refused(_)))
}

/// The numbers of a text, in their order.
fn numbers(text: &str) -> Vec<u64> {
    let words = text.split(|letter: char| !letter.is_ascii_digit() && letter != ',');
    words.filter_map(|word| of_text(word.trim_matches(','))).collect()
}

/// The first number behind these words.
fn behind(text: &str, words: &str) -> Option<u64> {
    numbers(text.split_once(words)?.1).first().copied()
}

/// A text that starts so, in two parts at these words.
fn parts<'a>(text: &'a str, start: &str, at: &str) -> Option<(&'a str, &'a str)> {
    text.strip_prefix(start)?.split_once(at)
}

/// The handles of "place 1 (writing pipe 37) and places 2, 4 (writing file 0) of step 17, and place 3 (…) of step 18".
fn handles(text: &str) -> Vec<(u64, u64)> {
    let mut found = Vec::new();
    let mut rest = text;
    while let Some((places, more)) = rest.split_once(" of step ") {
        let step = numbers(more)[0];
        // What each place is for stands in brackets.
        let bare: String = places.split('(').map(|part| part.rsplit(')').next().unwrap_or("")).collect();
        // Behind a file that is retired its number stands.
        let bare = bare.rsplit("lose ").next().unwrap_or("");
        found.extend(numbers(bare).into_iter().map(|place| (step, place)));
        rest = more.trim_start_matches(|letter: char| letter.is_ascii_digit());
    }
    found
}

fn closes(text: &str) -> Vec<Call> {
    handles(text).into_iter().map(|(subject, place)| Call::Close { subject, place }).collect()
}

/// The groups of "shop 0, shop 1 and shop 3 …", as a set.
fn set_of(list: &str) -> u8 {
    let (mut set, mut rest) = (0, list);
    while let Some(behind) = rest.strip_prefix("shop ") {
        let group = behind.chars().next().and_then(|digit| digit.to_digit(10)).expect("a shop group");
        set |= 1 << group;
        rest = behind[1..].trim_start_matches(", ").trim_start_matches(" and ");
    }
    assert_ne!(set, 0, "{list}");
    set
}

/// The sets that a text names: at least some shop marks, so that all will do, too; or at most some, so that none will do.
/// Where it names none, all marks will do.
fn sets(text: &str) -> Vec<u8> {
    for of in
        [" with no other shop marks than the marks of ", " with no other shop marks than the mark of "]
    {
        if let Some((_, list)) = text.split_once(of) {
            return vec![set_of(list), 0];
        }
    }
    for of in [" with the shop marks of ", " with the shop mark of "] {
        if let Some((_, list)) = text.split_once(of) {
            return vec![set_of(list), ALL_SHOPS];
        }
    }
    vec![if text.contains(" with no shop marks") { 0 } else { ALL_SHOPS }]
}

/// The labels that a text names.
fn labels(text: &str) -> Vec<Label> {
    let sets = sets(text);
    let label = |level: u64, shops: u8| Label { level: level as u8, shops };
    levels(text)
        .flat_map(|level| sets.iter().map(move |&shops| label(level, shops)).collect::<Vec<_>>())
        .collect()
}

/// The levels of "at level 12 or above", "at level 0 to 9", "at any level", or "at level 9", which is one.
fn levels(text: &str) -> std::ops::RangeInclusive<u64> {
    if text.contains("at any level") {
        return 0..=HIGHEST;
    }
    let least = behind(text, "at level ").expect("a level");
    if text.contains(&format!("at level {least} or above")) {
        return least..=HIGHEST;
    }
    least..=behind(text, &format!("at level {least} to ")).unwrap_or(least)
}

type Lists = Vec<Vec<Call>>;

/// What kind of advice a text is, and the lists of calls that it names.
fn read(call: Call, text: &str, monitor: &Monitor) -> Option<(&'static str, Lists)> {
    let found = changed(call, text, monitor).or_else(|| other_numbers(call, text, monitor));
    found.or_else(|| other_calls(call, text, monitor))
}

/// Something is done first, and the call follows.
fn changed(call: Call, text: &str, monitor: &Monitor) -> Option<(&'static str, Lists)> {
    let caller = call.numbers()[0];
    let then = |first: Vec<Call>| [first, vec![call]].concat();
    if let Some((list, _)) = parts(text, "Close ", "; retire it after that") {
        return Some(("retire after", vec![then(closes(list))]));
    }
    if let Some((list, rest)) = parts(text, "Close ", "; then places ") {
        // Here each place has its own step: "place 3 of step 1, place 4 of step 1 and place 3 of step 2".
        let closes = list.split("place ").skip(1).map(|part| match numbers(part)[..] {
            [place, subject, ..] => Call::Close { subject, place },
            _ => panic!("no place and step: {part}"),
        });
        let last = with_two(call, numbers(rest)[0], numbers(rest)[1]);
        return Some(("close and use", vec![closes.chain([last]).collect()]));
    }
    if let Some((list, rest)) = text.split_once("; then use ") {
        let last = match (call, &numbers(rest)[..]) {
            (Call::Connect { .. }, &[one, other]) => with_number(with_number(call, "a", one), "b", other),
            (_, &[one]) => with_number(call, "o", one),
            _ => panic!("no number: {text}"),
        };
        return Some(("room and a number", rooms(list, last)));
    }
    if let Some((list, _)) = text.split_once("; then register file ") {
        let object = number_of(call, "o").expect("a file or pipe");
        let lists = labels(text)
            .into_iter()
            .map(|label| [rooms_first(list), vec![Call::register(object, label), call]].concat());
        return Some(("room and register", lists.collect()));
    }
    if let (true, Some((list, _))) = (is_crowded(call, monitor), text.split_once("; ")) {
        return Some(("room", rooms(list, call)));
    }
    if let Some((list, rest)) = parts(text, "Close ", "; ") {
        assert!(rest.contains(" after that"), "{text}");
        return Some(("close and do", vec![then(closes(list))]));
    }
    if let Some((_, list)) = parts(text, "If the program does not need ", "mark ") {
        let marks = handles(list).into_iter().map(|(subject, place)| Call::Mark { subject, place });
        return Some(("mark", vec![then(marks.collect())]));
    }
    if text.starts_with("When a clerk has looked ") {
        let object = call.numbers()[1];
        let registers = |label| vec![Call::Retire { object }, Call::register(object, label)];
        let lists = labels(text).into_iter().map(|label| then(registers(label)));
        return Some(("looked over", lists.collect()));
    }
    if let Some((list, _)) = parts(text, "Admit ", " first") {
        let admits =
            |label: Label| numbers(list).into_iter().map(move |subject| Call::admit(subject, label));
        let lists = labels(text).into_iter().map(|label| then(admits(label).collect()));
        return Some(("admit first", lists.collect()));
    }
    if let Some((list, _)) = parts(text, "Register file ", " first") {
        let object = numbers(list)[0];
        let lists = labels(text).into_iter().map(|label| then(vec![Call::register(object, label)]));
        return Some(("register first", lists.collect()));
    }
    if let Some((list, _)) = parts(text, "Let ", " exit; retire it after that") {
        let exits = numbers(list).into_iter().map(|subject| Call::Exit { subject });
        return Some(("exit and retire", vec![then(exits.collect())]));
    }
    if text.starts_with("Wait until the books are open again") {
        return Some(("books", vec![vec![call]]));
    }
    if let Some((_, list)) = parts(text, "All 16 places of ", "These will do: ") {
        let lists = numbers(list)
            .into_iter()
            .map(|place| vec![Call::Close { subject: caller, place }, with_number(call, "p", place)]);
        return Some(("close one", lists.collect()));
    }
    if let Some((_, list)) = parts(text, "All 32 numbers are in use: ", "use its number, ") {
        let lists = numbers(list)
            .into_iter()
            .map(|step| vec![Call::Exit { subject: step }, with_number(call, new_name(call), step)]);
        return Some(("free a number", lists.collect()));
    }
    None
}

/// Whether a call is refused for want of room.
fn is_crowded(call: Call, monitor: &Monitor) -> bool {
    monitor.clone().call(call) == Answer::Refused(Refusal::TooManyObjects)
}

/// What makes room, and the call after it; of several files that nobody has open, each choice.
fn rooms(text: &str, last: Call) -> Lists {
    let retires = |files: &[u64]| -> Vec<Call> {
        files.iter().map(|&object| Call::Retire { object }).chain([last]).collect()
    };
    let named =
        text.split("file ").skip(1).filter_map(|part| numbers(part).first().copied()).collect::<Vec<u64>>();
    if text.starts_with("Retire a file that ") {
        return named.iter().map(|&file| retires(&[file])).collect();
    }
    if text.starts_with("Retire two files that ") {
        let pairs = named.iter().flat_map(|&one| named.iter().map(move |&other| [one, other]));
        return pairs.filter(|[one, other]| one != other).map(|pair| retires(&pair)).collect();
    }
    vec![[rooms_first(text), vec![last]].concat()]
}

/// The closes that a text names, and then the files that it retires.
fn rooms_first(text: &str) -> Vec<Call> {
    // "Retire file 3 and file 5, which nobody has open" names two at once.
    let retired = text.split("etire file ").skip(1).flat_map(|part| {
        let part = part.split(", ").next().unwrap_or("");
        part.split("and file ").map(|part| Call::Retire { object: numbers(part)[0] }).collect::<Vec<Call>>()
    });
    closes(text).into_iter().chain(retired).collect()
}

/// The call with other numbers, or by another step.
fn other_numbers(call: Call, text: &str, monitor: &Monitor) -> Option<(&'static str, Lists)> {
    let each = |list: &str, name: &str| -> Lists {
        numbers(list).into_iter().map(|number| vec![with_number(call, name, number)]).collect()
    };
    if let Some((_, named)) = parts(text, "Let another thread of the same step run it: ", "") {
        let named = named.split(" may. ").next().unwrap_or("");
        let mates = named.split("step ").skip(1).map(|part| vec![with_number(call, "s", numbers(part)[0])]);
        return Some(("another thread", mates.collect()));
    }
    if let Some((_, named)) = parts(text, "Let another step ", ": ") {
        // The number in "step 1, step 2, step 3 and 4 others" is none of a step.
        let steps = named.split("step ").skip(1).map(|part| numbers(part)[0]);
        let lists = steps.map(|step| {
            let place = empty_places(monitor, step).next().expect("an empty place");
            vec![with_number(with_number(call, "s", step), "p", place)]
        });
        return Some(("another step", lists.collect()));
    }
    if let Some(list) = text.strip_prefix("Name a step that is there and may: ") {
        let is_missing =
            |name: &&str| number_of(call, name).is_some_and(|step| monitor.subject(step).is_none());
        let name = ["s", "t"].into_iter().find(|name| is_missing(name))?;
        return Some(("name a step", each(list, name)));
    }
    for (start, at, name, kind) in [
        ("Name another step: ", "", "t", "name another step"),
        ("Name one that is there: ", "", "o", "name an object"),
        ("Name a file: ", "", "o", "name an object"),
        ("Open a file that is not frozen: ", "", "o", "not frozen"),
        ("Name a place that ", ": ", "p", "name a place"),
        ("Use an empty place of ", ": ", "p", "an empty place"),
        ("Use its ", ", at place ", "p", "its handle"),
        ("Use a free number, for example ", "", new_name(call), "a free number"),
    ] {
        if let Some((_, list)) = parts(text, start, at) {
            return Some((kind, each(list, name)));
        }
    }
    if let Some((_, list)) = parts(text, "Use two places that are empty at ", ": ") {
        let places = numbers(list);
        let pairs = places.windows(2).map(|pair| vec![with_two(call, pair[0], pair[1])]);
        return Some(("two places", pairs.collect()));
    }
    if let Some(list) = text.strip_prefix("Use two free numbers, for example ") {
        let list = numbers(list);
        return Some((
            "a free number",
            vec![vec![with_number(with_number(call, "a", list[0]), "b", list[1])]],
        ));
    }
    if text.starts_with("Give a set of shop marks from 0 to 255") {
        let lists = (0..=255).map(|set| vec![with_number(call, "set", set)]);
        return Some(("a set", lists.collect()));
    }
    if text.starts_with("Give a level from 0 to 15 and a set of shop marks from 0 to 255") {
        let lists = (0..=HIGHEST)
            .map(|level| vec![with_number(with_number(call, "level", level), "set", 255 - 17 * level)]);
        return Some(("a level and a set", lists.collect()));
    }
    if text.starts_with("Give a level from 0 to 15") {
        let most = if matches!(call, Call::Freeze { .. }) { NO_FREEZE } else { HIGHEST };
        return Some((
            "a level",
            (0..=most).map(|level| vec![with_number(call, "level", level)]).collect(),
        ));
    }
    None
}

/// Other calls in the place of the one that was refused.
fn other_calls(call: Call, text: &str, monitor: &Monitor) -> Option<(&'static str, Lists)> {
    let caller = call.numbers()[0];
    if let Some((_, rest)) = parts(text, "Let ", " fork a step, number ") {
        let child = numbers(rest)[0];
        let places = rest.split_once("closes place").and_then(|(_, rest)| rest.split_once(" and "));
        let closes = places.map_or(Vec::new(), |(list, _)| numbers(list));
        let closes = closes.into_iter().map(|place| Call::Close { subject: child, place });
        let fork = [Call::Fork { subject: caller, child }].into_iter();
        return Some(("fork", vec![fork.chain(closes).chain([with_number(call, "s", child)]).collect()]));
    }
    if text.starts_with("Admit a step at level ") {
        let subject = behind(text, ", number ")?;
        let last = with_number(with_number(call, "s", subject), "p", 0);
        let lists = labels(text).into_iter().map(|label| vec![Call::admit(subject, label), last]);
        return Some(("admit a step", lists.collect()));
    }
    if let (Some(rest), Call::Connect { reading, writing, .. }) =
        (text.strip_prefix("If data need only go from "), call)
    {
        let list = numbers(rest);
        let (writer, reader, object) = (list[0], list[1], list[3]);
        let calls = vec![
            Call::Pipe { subject: writer, object, reads: reading, writes: writing },
            Call::OpenRead { subject: reader, object, place: reading },
        ];
        return Some(("one way", vec![calls]));
    }
    if let (Some(_), Call::Connect { subject, to, reading, writing, .. }) =
        (parts(text, "Let ", ", which has both its ends at one step"), call)
    {
        let pipe = Call::Pipe { subject, object: to, reads: reading, writes: writing };
        return Some(("a pipe", vec![vec![pipe]]));
    }
    if text.starts_with("Open it for ") {
        let object = monitor.handle(caller, call.numbers()[1])?.object;
        let place = behind(text, "for example ")?;
        let open = match text.starts_with("Open it for reading") {
            true => Call::OpenRead { subject: caller, object, place },
            false => Call::OpenWrite { subject: caller, object, place },
        };
        return Some(("open it", vec![vec![open, with_number(call, "p", place)]]));
    }
    if let (Some(_), Call::Map { subject, object, place }) =
        (parts(text, "Open ", " for reading in place of that"), call)
    {
        return Some(("open a pipe", vec![vec![Call::OpenRead { subject, object, place }]]));
    }
    if let Some((list, _)) = parts(text, "Close ", ", with which ") {
        return Some(("end a pipe", vec![closes(list)]));
    }
    if let Some((_, list)) = text.split_once("goes on writing: ") {
        let writes = handles(list).into_iter().map(|(subject, place)| vec![Call::Write { subject, place }]);
        return Some(("a held handle", writes.collect()));
    }
    None
}

/// What a call names its new thing.
fn new_name(call: Call) -> &'static str {
    match call {
        Call::Admit { .. } => "s",
        Call::Fork { .. } | Call::Thread { .. } => "c",
        _ => "o",
    }
}

/// The call with two other places.
fn with_two(call: Call, one: u64, other: u64) -> Call {
    let [first, second] = if matches!(call, Call::Pipe { .. }) { ["r", "w"] } else { ["p", "q"] };
    with_number(with_number(call, first, one), second, other)
}

//! The page: one file that a browser opens without a network. The run is in it as numbers, and the page's own script
//! puts them to the words that stand there once.

use std::collections::HashMap;
use std::fmt::Write;

use gatekeeper::{Call, Kind, Label, Refusal, Way, NO_FREEZE};
use gk_advice::how::PROVED;
use gk_advice::records::{Body, Records};
use gk_advice::run::{letter_and_value, lost, Run, Step};
use gk_advice::trail::{Link, Part, Trail};
use gk_names::number::shown;
use gk_names::{shops, Kind as NameKind};

use crate::names::Names;
use crate::order::Joins;
use crate::phrase::Phrase;
use crate::state::{State, Thing, OBJECTS, PLACES, STEPS};
use crate::told::{Memory, Told};

const PAGE: &str = include_str!("../page/page.html");
const STYLE: &str = include_str!("../page/style.css");
const SCRIPTS: [&str; 3] =
    [include_str!("../page/run.js"), include_str!("../page/graph.js"), include_str!("../page/view.js")];

/// What a page needs beside that asks its server for more.
const LIVE: &str = include_str!("../page/live.js");

/// The page of a journal, which opens at a record: at this one, or else at the first refusal.
pub fn page(journal: &[u8], title: &str, names: &gk_names::Names, at: Option<u64>) -> String {
    filled(&data(journal, names, at), title, &SCRIPTS.join("\n"), "")
}

/// The page of what there is of a journal that is still being written; it opens at the last record.
pub fn live_page(journal: &[u8], title: &str, names: &gk_names::Names, records: u64) -> String {
    let script = [&SCRIPTS[..], &[LIVE]].concat().join("\n");
    filled(&data(journal, names, Some(records)), title, &script, "; connect-src 'self'")
}

/// The page with its data and its script. `connects` is what its policy allows beside.
fn filled(data: &str, title: &str, script: &str, connects: &str) -> String {
    let mut page = String::with_capacity(data.len() + script.len() + STYLE.len() + PAGE.len());
    let mut rest = PAGE;
    while let Some(at) = rest.find("<!--@") {
        page.push_str(&rest[..at]);
        let end = rest[at..].find("-->").map_or(rest.len(), |end| at + end + 3);
        match &rest[at..end] {
            "<!--@title-->" => page.push_str(&escaped(title)),
            "<!--@style-->" => page.push_str(STYLE),
            "<!--@proved-->" => page.push_str(&escaped(PROVED)),
            "<!--@script-->" => page.push_str(script),
            "<!--@connects-->" => page.push_str(connects),
            "<!--@run-->" => page.push_str(data),
            other => page.push_str(other),
        }
        rest = &rest[end..];
    }
    page.push_str(rest);
    page
}

/// A text as it may stand between tags.
fn escaped(text: &str) -> String {
    let mut safe = String::new();
    for letter in text.chars() {
        match letter {
            '&' => safe.push_str("&amp;"),
            '<' => safe.push_str("&lt;"),
            '>' => safe.push_str("&gt;"),
            '"' => safe.push_str("&quot;"),
            '\'' => safe.push_str("&#39;"),
            letter if letter.is_control() => safe.push('\u{fffd}'),
            letter => safe.push(letter),
        }
    }
    safe
}

/// A text in quotes, as it may stand in a script of the page: no sign in it can end the script.
fn quoted(text: &str) -> String {
    let mut safe = String::from("\"");
    for letter in text.chars() {
        match letter {
            ' '..='~' if !"\"\\<>&'".contains(letter) => safe.push(letter),
            letter => {
                for unit in letter.encode_utf16(&mut [0; 2]) {
                    let _ = write!(safe, "\\u{unit:04x}");
                }
            }
        }
    }
    safe.push('"');
    safe
}

/// The run as numbers.
fn data(journal: &[u8], names: &gk_names::Names, at: Option<u64>) -> String {
    let mut memory = Memory::new(names.clone());
    let mut names = Names::given(names);
    let mut words = Words::default();
    let mut joins = Joins::new();
    let mut trail = Trail::default();
    let numbers = Numbers::of(journal);
    let mut records = String::new();
    let mut run = Run::new(journal);
    let mut state = State::of(run.monitor());
    let mut since = 0;
    for turn in &mut run {
        trail.follow(&turn);
        let before = state.clone();
        if turn.before != turn.after {
            joins.hold(&state, since, turn.position - since);
            state = State::of(&turn.after);
            since = turn.position;
        }
        names.follow(turn.position, &before, &state);
        let told = memory.tell(&turn, &before, &state);
        told.sought.iter().for_each(|&(from, to)| joins.refuse(from, to));
        if !records.is_empty() {
            records.push_str(",\n");
        }
        records.push_str(&record(&turn, &told, &changes(&before, &state, &numbers), &numbers, &mut words));
    }
    joins.hold(&state, since, 1);
    let end = run.monitor();
    let list = |things: Vec<String>| things.join(",");
    let indices = |things: &[Thing]| -> Vec<String> {
        things.iter().filter_map(|&thing| numbers.index(thing)).map(|at| at.to_string()).collect()
    };
    let order = list(indices(&joins.order()));
    let nearest = joins.nearest().into_iter().map(|(thing, other)| indices(&[thing, other]));
    let nearest = list(nearest.filter(|pair| pair.len() == 2).flatten().collect());
    let objects = list(numbers.objects.iter().map(|&o| quoted(&shown(o))).collect());
    let refusals = list(Refusal::ALL.iter().map(|refusal| quoted(refusal.words())).collect());
    let names = names
        .all()
        .map(|(kind, n, from, name)| {
            format!("[\"{kind}\",\"{}\",{from},{}]", shown(n), name.map_or("0".to_string(), quoted))
        })
        .collect();
    format!(
        "{{\"at\":{},\"end\":[{},{},{}],\"most\":{OBJECTS},\"objects\":[{objects}],\n\
         \"order\":[{order}],\"nearest\":[{nearest}],\n\
         \"refusals\":[{refusals}],\n\"names\":[{}],\n\"trail\":[{}],\n\
         \"words\":[{}],\n\"records\":[\n{records}\n]}}",
        at.map_or(-1, |at| at as i64),
        end.made(),
        end.gone(),
        end.open(),
        list(names),
        list(causes(&trail, &numbers)),
        list(words.list.iter().map(|text| quoted(text)).collect()),
    )
}

/// Where levels come from, for each thing as long as it has its number: its place, 1 where it is a file, from which record
/// it is there and until which (0 for the end), and for each record that set its level that record, and the link before it
/// in the chain: a thing of this list and the record that set its level, or -1 and 0 where the level came from outside.
fn causes(trail: &Trail, numbers: &Numbers) -> Vec<String> {
    let place = |stay: usize| numbers.index(trail.stays[stay].thing()).map_or(-1, |place| place as i64);
    let is_set = |stay: usize, record: u64| {
        trail.stays[stay].mark(record, Part::Level).is_some_and(|mark| mark.record == record)
    };
    let stays = trail.stays.iter().enumerate().map(|(stay, own)| {
        let marks = own.marks.iter().filter(|mark| is_set(stay, mark.record)).map(|mark| {
            let chain = trail.chain(stay, mark.record, Part::Level);
            let before = chain.len().checked_sub(2).map(|at| chain[at]);
            let (from, since) = before.map_or((-1, 0), |Link { stay, record }| (stay as i64, record));
            format!("{},{from},{since}", mark.record)
        });
        let is_file = u8::from(own.kind == NameKind::File);
        let until = own.until.unwrap_or(0);
        format!(
            "[{},{is_file},{},{until},[{}]]",
            place(stay),
            own.from,
            marks.collect::<Vec<_>>().join(",")
        )
    });
    stays.collect()
}

/// The words of all phrases, each once.
#[derive(Default)]
struct Words {
    list: Vec<String>,
    known: HashMap<String, usize>,
}

impl Words {
    /// A phrase as the number of its words and the numbers in it.
    fn phrase(&mut self, phrase: &Phrase) -> String {
        let template = phrase.template();
        let at = *self.known.entry(template.clone()).or_insert_with(|| {
            self.list.push(template);
            self.list.len() - 1
        });
        match phrase.numbers() {
            numbers if numbers.is_empty() => format!("[{at}]"),
            numbers => format!("[{at},{numbers}]"),
        }
    }

    fn phrases(&mut self, phrases: &[Phrase]) -> String {
        let phrases: Vec<String> = phrases.iter().map(|phrase| self.phrase(phrase)).collect();
        format!("[{}]", phrases.join(","))
    }
}

/// A record: letter, value, code, changes, what is asked, why, ways out, notes on them, what changed, about whom, chain,
/// flows sought, the chain in words. With the value goes the number of shop marks lost, and with a level of the chain the set of those that are
/// missing, each 256 times.
fn record(turn: &Step, told: &Told, changes: &str, numbers: &Numbers, words: &mut Words) -> String {
    let (letter, value) = letter_and_value(turn.answer);
    let value = value + 256 * u32::from(lost(turn.answer).unwrap_or(0));
    let asked = words.phrase(&told.asked);
    let [why, ways, notes, changed] =
        [&told.why, &told.ways, &told.notes, &told.changed].map(|part| words.phrases(part));
    let index = |thing: Thing| numbers.index(thing).map(|at| at.to_string());
    let about: Vec<String> = told.about.iter().filter_map(|&thing| index(thing)).collect();
    let mut fields = vec![format!(
        "\"{letter}\",{value},{},\"{changes}\",{asked},{why},{ways},{notes},{changed},[{}]",
        turn.code,
        about.join(",")
    )];
    if !told.chain.is_empty() {
        let links = told
            .chain
            .iter()
            .filter_map(|link| Some(format!("{},{}", index(link.thing)?, height(link.label))));
        fields.push(format!("[{}]", links.collect::<Vec<_>>().join(",")));
        let sought =
            told.sought.iter().filter_map(|&(from, to)| Some(format!("{},{}", index(from)?, index(to)?)));
        fields.push(format!("[{}]", sought.collect::<Vec<_>>().join(",")));
        fields.push(words.phrases(&told.how));
    }
    format!("[{}]", fields.join(","))
}

/// The numbers of the files and pipes that a journal asks for, in rising order: nothing else can come to be there. The
/// page has them as texts, once, and knows each thing by its place: the steps, then these.
struct Numbers {
    objects: Vec<u64>,
}

impl Numbers {
    fn of(journal: &[u8]) -> Numbers {
        let mut objects = Vec::new();
        for record in Records::new(journal).flatten() {
            match record.body {
                Body::Call(
                    Call::Register { object, .. } | Call::Create { object, .. } | Call::Pipe { object, .. },
                ) => objects.push(object),
                Body::Call(Call::Connect { to, from, .. }) => objects.extend([to, from]),
                _ => {}
            }
        }
        objects.sort_unstable();
        objects.dedup();
        Numbers { objects }
    }

    /// The place of a thing; none for one that never is there.
    fn index(&self, thing: Thing) -> Option<u64> {
        match thing {
            Thing::Step(s) => (s < STEPS).then_some(s),
            Thing::Object(o) => self.objects.binary_search(&o).ok().map(|at| STEPS + 1 + at as u64),
        }
    }
}

/// What stands where a thing's place would, for the freeze: between the steps and the others.
const FREEZE: u64 = STEPS;

/// From where on a number that goes with a step is its group: no step is of kind 2.
const GROUP: u64 = 2 * 256;

/// Letters of a piece that is a thing, and of one that is a handle. A journal asks for fewer than 16,000 numbers.
const OF_THING: u32 = 4;
const OF_HANDLE: u32 = 5;

/// Letters of a piece that has the sets of a thing's shop marks and of its need's.
const OF_SETS: u32 = 5;

/// What is different after a record, in pieces: first things and the freeze, then a dot, then handles. Behind a step that
/// is a thread of one with a lower number stands a second piece, which has that number in the place of kind, level and need.
/// Behind a second dot stand the sets of those of these things that have others than [`usual`].
fn changes(before: &State, after: &State, numbers: &Numbers) -> String {
    let (mut text, mut sets) = (String::new(), String::new());
    if before == after {
        return text;
    }
    let mut sets_of = |place: u64, label: Label, need: Label| {
        if (label.shops, need.shops) != usual(need) {
            packed(
                65_536 * place + 256 * u64::from(label.shops) + u64::from(need.shops),
                OF_SETS,
                &mut sets,
            );
        }
    };
    for s in 0..STEPS {
        if before.step(s) != after.step(s) {
            let stands = after.step(s).map_or(0, |step| standing(1, step.label, step.need));
            if let Some(step) = after.step(s) {
                sets_of(s, step.label, step.need);
            }
            packed(768 * s + stands, OF_THING, &mut text);
            if let Some(step) = after.step(s).filter(|step| step.group != s) {
                packed(768 * s + GROUP + step.group, OF_THING, &mut text);
            }
        }
    }
    for o in State::objects_of(before, after) {
        if before.object(o) != after.object(o) {
            let stands = after.object(o).map_or(0, |object| {
                let kind = if object.kind == Kind::File { 1 } else { 2 };
                standing(kind, object.label, object.need)
            });
            let place = numbers.index(Thing::Object(o)).unwrap_or(0);
            packed(768 * place + stands, OF_THING, &mut text);
            if let Some(object) = after.object(o) {
                sets_of(place, object.label, object.need);
            }
        }
    }
    if before.frozen_from != after.frozen_from {
        packed(768 * FREEZE + after.frozen_from.map_or(NO_FREEZE, u64::from), OF_THING, &mut text);
    }
    text.push('.');
    for s in 0..STEPS {
        for p in 0..PLACES {
            if before.handle(s, p) != after.handle(s, p) {
                let handle = after.handle(s, p).map_or(0, |handle| {
                    let way = match handle.way {
                        Way::Reads => 1,
                        Way::Writes => 2,
                        Way::Maps => 3,
                    };
                    let object = numbers.index(Thing::Object(handle.object)).unwrap_or(0);
                    8 * object + 2 * way + u64::from(handle.marked)
                });
                packed(512 * handle + PLACES * s + p, OF_HANDLE, &mut text);
            }
        }
    }
    if sets.is_empty() {
        text
    } else {
        format!("{text}.{sets}")
    }
}

/// The sets that a thing and its need have where shop marks are not used: all marks, and those of the files that are
/// reached, if one above level 0 is.
fn usual(need: Label) -> (u8, u8) {
    (shops::ALL, if need.level > 0 { shops::ALL } else { shops::NONE })
}

/// A level, and 256 times the set of the shop marks that are missing.
fn height(label: Label) -> u32 {
    u32::from(label.level) + 256 * u32::from(!label.shops)
}

/// Kind, level and need in one number below 768. From empty tables no level is above 15.
fn standing(kind: u64, label: Label, need: Label) -> u64 {
    256 * kind + 16 * u64::from(label.level.min(15)) + u64::from(need.level.min(15))
}

/// A number as so many letters, six bits each.
fn packed(number: u64, letters: u32, text: &mut String) {
    const LETTERS: &[u8; 64] = b"ABCDEFGHIJKLMNOPQRSTUVWXYZabcdefghijklmnopqrstuvwxyz0123456789-_";
    for at in (0..letters).rev() {
        text.push(char::from(LETTERS[(number >> (6 * at)) as usize % 64]));
    }
}

#[cfg(test)]
mod tests {
    use super::*;

    /// The colours of the page by name, by day or by night.
    fn colours(is_dark: bool) -> HashMap<&'static str, [f64; 3]> {
        let (day, night) = STYLE
            .split_once("@media screen and (prefers-color-scheme: dark)")
            .expect("two sets of colours");
        let lines = if is_dark { night } else { day }
            .lines()
            .take_while(|line| *line != "}" && !line.starts_with('*'));
        let pairs =
            lines.filter_map(|line| line.trim().strip_prefix("--")?.strip_suffix(';')?.split_once(": #"));
        let part = |hex: &str, at: usize| {
            let value = f64::from(u8::from_str_radix(&hex[at..at + 2], 16).expect("a colour")) / 255.0;
            if value <= 0.04045 {
                value / 12.92
            } else {
                ((value + 0.055) / 1.055).powf(2.4)
            }
        };
        pairs.map(|(name, hex)| (name, [part(hex, 0), part(hex, 2), part(hex, 4)])).collect()
    }

    #[test]
    fn every_text_stands_out_from_what_it_is_on() {
        for is_dark in [false, true] {
            let colours = colours(is_dark);
            assert_eq!(colours.len(), 20);
            let light = |name: &str| {
                let [red, green, blue] = colours[name];
                0.2126 * red + 0.7152 * green + 0.0722 * blue
            };
            let contrast = |one: &str, other: &str| {
                let (one, other) = (light(one), light(other));
                (one.max(other) + 0.05) / (one.min(other) + 0.05)
            };
            let texts = [
                ("ink", "paper ground band step-fill file-fill pipe-fill lowered-fill"),
                ("soft", "paper ground band"),
                ("refused", "paper ground band refused-fill"),
                ("lowered", "paper band lowered-fill"),
                ("allowed", "allowed-fill"),
            ];
            let lines = [
                ("step", "paper band"),
                ("file", "paper band"),
                ("pipe", "paper band"),
                ("edge", "paper band"),
                ("focus", "paper ground"),
            ];
            for (least, pairs) in [(4.5, &texts[..]), (3.0, &lines[..])] {
                for (name, grounds) in pairs {
                    for ground in grounds.split(' ') {
                        let found = contrast(name, ground);
                        assert!(found >= least, "{name} on {ground}, dark {is_dark}: {found:.2}");
                    }
                }
            }
        }
    }

    #[test]
    fn a_text_cannot_leave_its_place() {
        assert_eq!(escaped("<a href=\"x\">&'\u{1b}"), "&lt;a href=&quot;x&quot;&gt;&amp;&#39;\u{fffd}");
        assert_eq!(
            quoted("</script>&\"\\'\u{2028}é\u{1f4b6}"),
            "\"\\u003c/script\\u003e\\u0026\\u0022\\u005c\\u0027\\u2028\\u00e9\\ud83d\\udcb6\""
        );
    }

    #[test]
    fn changes_are_packed() -> Result<(), Refusal> {
        let mut journal = Vec::new();
        let mut monitor = gatekeeper::State::new();
        let empty = State::of(&monitor);
        for call in [
            Call::Admit { subject: 31, level: 9, shops: 255 },
            Call::Register { object: u64::MAX, level: 9, shops: 255 },
            Call::Register { object: 7, level: 20, shops: 255 },
            Call::OpenWrite { subject: 31, object: u64::MAX, place: 15 },
            Call::Freeze { level: 9 },
        ] {
            call.write_record(&mut journal);
            let _ = monitor.call(call);
        }
        let (full, numbers) = (State::of(&monitor), Numbers::of(&journal));
        assert_eq!(numbers.objects, [7, u64::MAX]);
        // Kind, level and need are 256 + 16 * 9 + 9; the handle is 8 * 34 + 2 * 2, at the last place of all.
        let things = [thing(31, 409), thing(34, 409), thing(FREEZE, 9)].concat();
        let mut handle = String::new();
        packed(512 * 276 + 511, OF_HANDLE, &mut handle);
        assert_eq!(changes(&empty, &full, &numbers), format!("{things}.{handle}"));
        assert_eq!(handle, "AAin_");
        assert_eq!(changes(&full, &full, &numbers), "");
        Ok(())
    }

    /// A thread of a step with a lower number has that behind it; the lowest one has not, nor has a step by itself.
    #[test]
    fn groups_are_packed() {
        let mut monitor = gatekeeper::State::new();
        let numbers = Numbers::of(&[]);
        let mut step = |call: Call| {
            let before = State::of(&monitor);
            assert!(monitor.call(call).granted().is_ok(), "{call:?}");
            changes(&before, &State::of(&monitor), &numbers)
        };
        let stands = 256 + 16 * 9;
        assert_eq!(
            step(Call::Admit { subject: 5, level: 9, shops: 255 }),
            format!("{}.", thing(5, stands))
        );
        let joined = format!("{}{}.", thing(31, stands), thing(31, 512 + 5));
        assert_eq!(step(Call::Thread { subject: 5, member: 31 }), joined);
        // With a lower number they are another's, all of them.
        let lower = [thing(2, stands), thing(5, stands), thing(5, 514), thing(31, stands), thing(31, 514)];
        assert_eq!(step(Call::Thread { subject: 31, member: 2 }), format!("{}.", lower.concat()));
        let left = [thing(2, 0), thing(5, stands), thing(31, stands), thing(31, 512 + 5)];
        assert_eq!(step(Call::Exit { subject: 2 }), format!("{}.", left.concat()));
    }

    /// Only sets other than the usual ones are there.
    #[test]
    fn sets_are_packed() {
        let mut monitor = gatekeeper::State::new();
        let mut journal = Vec::new();
        let empty = State::of(&monitor);
        for call in [
            Call::Admit { subject: 1, level: 9, shops: 3 },
            Call::Admit { subject: 2, level: 9, shops: 255 },
            Call::Register { object: 7, level: 9, shops: 1 },
            Call::OpenWrite { subject: 1, object: 7, place: 0 },
        ] {
            call.write_record(&mut journal);
            assert!(monitor.call(call).granted().is_ok(), "{call:?}");
        }
        let mut sets = String::new();
        for (place, label, need) in [(1, 3, 1), (33, 1, 1)] {
            packed(65_536 * place + 256 * label + need, OF_SETS, &mut sets);
        }
        let changes = changes(&empty, &State::of(&monitor), &Numbers::of(&journal));
        assert_eq!(changes.split('.').nth(2), Some(sets.as_str()), "{changes}");
        assert_eq!(height(Label { level: 9, shops: 254 }), 9 + 256);
    }

    fn thing(place: u64, stands: u64) -> String {
        let mut text = String::new();
        packed(768 * place + stands, OF_THING, &mut text);
        text
    }

    /// The most numbers that a journal can ask for: connects, each with two that take two bytes.
    #[test]
    fn every_place_fits_into_its_letters() {
        let most = 128 + gatekeeper::JOURNAL_BYTES as u64 / 5 + FREEZE;
        assert!(768 * (most + 1) < 1 << (6 * OF_THING) && 512 * 8 * (most + 1) < 1 << (6 * OF_HANDLE));
        assert!(65_536 * (most + 1) < 1 << (6 * OF_SETS));
    }
}

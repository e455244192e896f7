//! All that is said of a record, for the terminal and the page alike.

use std::collections::HashMap;

use gatekeeper::{Answer, Refusal};
use gk_advice::asked::asked;
use gk_advice::refused::of_record;
use gk_advice::run::{Content, Run, Step};
use gk_advice::scene::{sentence, Past};
use gk_advice::ways::Counsel;
use gk_chain::{sought, Link};

use crate::names::Names;
use crate::phrase::{object, phrase, Phrase, Piece};
use crate::state::{State, Thing};
use crate::words;

/// Acts of a chain that are told; the middle of a longer one is left out.
const MOST_ACTS: usize = 5;

/// What is said of a record.
#[derive(Default)]
pub struct Told {
    /// Who asks what, or may not do what and why; without its full stop.
    pub asked: Phrase,
    pub why: Vec<Phrase>,
    pub ways: Vec<Phrase>,
    /// What else is to be known about ways out.
    pub notes: Vec<Phrase>,
    pub changed: Vec<Phrase>,
    /// The chain behind a 9, or behind a 15 that is a 9 once the books are open, from the low thing to the higher file.
    pub chain: Vec<Link>,
    /// The chain in words: how data could get to that file, then what each step does; the middle of a long one is left out.
    pub how: Vec<Phrase>,
    /// The flows that such a call would have added.
    pub sought: Vec<(Thing, Thing)>,
    /// The things that the record is about.
    pub about: Vec<Thing>,
    /// The ways and notes as `gk_advice` gives them, with the calls that were tried.
    pub counsel: Counsel,
}

/// All sentences about each record of a journal, by their part: what is asked, why, the ways out, what else is to be
/// known about them, what changed, and how data could get to a file. With these the page's words can be compared; the names are the bytes of a names
/// file, or none.
pub fn sentences(journal: &[u8], names: &[u8]) -> Vec<[Vec<String>; 6]> {
    let file = gk_names::Names::read(names).unwrap_or_default();
    let mut names = Names::given(&file);
    let (mut memory, mut state) = (Memory::new(file), State::empty());
    let mut all = Vec::new();
    for step in Run::new(journal) {
        let after = State::of(&step.after);
        names.follow(step.position, &state, &after);
        let Told { asked, why, ways, notes, changed, how, .. } = memory.tell(&step, &state, &after);
        let said = |part: Vec<Phrase>| part.iter().map(|each| each.text(&names, step.position)).collect();
        all.push([said(vec![asked]), said(why), said(ways), said(notes), said(changed), said(how)]);
        state = after;
    }
    all
}

/// What a later record looks back on.
#[derive(Clone, Default)]
pub struct Memory {
    names: gk_names::Names,
    past: Past,
    /// For each file or pipe the last record that was refused its reading with 9, and the step that asked.
    refused: HashMap<u64, (u64, u64)>,
}

impl Memory {
    pub fn new(names: gk_names::Names) -> Memory {
        Memory { names, ..Memory::default() }
    }

    /// Tells of the next record.
    pub fn tell(&mut self, step: &Step, before: &State, after: &State) -> Told {
        let scene = self.past.before(step, &self.names);
        let mut told = Told {
            changed: words::changed(before, after),
            about: about(step.content, before),
            ..Told::default()
        };
        if let Some(refused) = of_record(step, scene, self.past.closing) {
            let texts = |list: &[String]| list.iter().map(|text| Phrase::of_text(text)).collect();
            let ways: Vec<String> = refused.counsel.ways.iter().map(|way| sentence(&way.text)).collect();
            told.asked = Phrase::of_text(refused.title.trim_end_matches('.'));
            (told.why, told.ways) = (texts(&refused.facts), texts(&ways));
            told.notes = texts(&refused.counsel.notes);
            told.chain = refused.chain.into_iter().map(|(link, _)| link).collect();
            if let Some(how) = refused.how {
                let acts = how.shown(MOST_ACTS);
                told.how =
                    std::iter::once(&how.title).chain(&acts).map(|text| Phrase::of_text(text)).collect();
            }
            told.counsel = refused.counsel;
            if let (false, Content::Call(call)) = (told.chain.is_empty(), step.content) {
                told.sought = sought(call.code(), call.numbers());
            }
        } else if let Content::Call(call) = step.content {
            told.asked = Phrase::of_text(&asked(call, scene, true));
            told.why = self.why_it_may(step, before);
        }
        self.note(step, after);
        told
    }

    /// Why something low may be read: nothing that the step reaches is above it.
    fn why_it_may(&self, step: &Step, before: &State) -> Vec<Phrase> {
        let Content::Call(call) = step.content else {
            return Vec::new();
        };
        let (code, [s, b, ..]) = (call.code(), call.numbers());
        let o = match code {
            5 | 10 | 14 => Some(b),
            7 => before.handle(s, b).map(|handle| handle.object),
            _ => None,
        };
        let Some(o) = o else {
            return Vec::new();
        };
        let (Some(step), Some(low)) = (before.step(s), before.object(o)) else {
            return Vec::new();
        };
        if low.label.at_least(step.label) {
            return Vec::new();
        }
        let level = low.label.level;
        let lost = step.label.shops & !low.label.shops;
        let by_level = match step.need.level {
            _ if level >= step.label.level => None,
            0 => Some(phrase![
                "It may: no way leads from ",
                Piece::Step(s),
                " to a file above level 0, so it may fall as low as it likes."
            ]),
            need if need <= level => Some(phrase![
                "It may: the highest file that ",
                Piece::Step(s),
                " can reach has level ",
                need,
                ", which is not above ",
                level,
                "."
            ]),
            need => Some(phrase![
                "It may: without the handles that end here, no file above level ",
                level,
                " is reached; with them the need was ",
                need,
                "."
            ]),
        };
        // A shop mark goes where no file that is reached has it.
        let has = if lost.count_ones() == 1 { "has it." } else { "has one of them." };
        let by_marks = match lost & step.need.shops {
            _ if lost == 0 => None,
            0 => Some(phrase![
                "It may lose ",
                Piece::Shops(lost),
                ": no file that ",
                Piece::Step(s),
                " can reach ",
                has
            ]),
            _ => Some(phrase![
                "It may lose ",
                Piece::Shops(lost),
                ": without the handles that end here, no file is reached that ",
                has
            ]),
        };
        let mut why: Vec<Phrase> = by_level.into_iter().chain(by_marks).collect();
        if let (5 | 7 | 14, Some(&(record, other))) = (code, self.refused.get(&o)) {
            if other != s {
                why.push(phrase![
                    Piece::Step(other),
                    " was refused ",
                    object(o, before),
                    " at record ",
                    record,
                    ": from there a way led up. From ",
                    Piece::Step(s),
                    " none does."
                ]);
            }
        }
        why
    }

    /// Takes note of a record, of which nothing is told.
    pub fn note(&mut self, step: &Step, after: &State) {
        self.past.follow(step);
        let Content::Call(call) = step.content else {
            return;
        };
        // A number that is free may be another thing's later.
        self.refused.retain(|&o, _| after.object(o).is_some());
        let (code, [a, b, ..]) = (call.code(), call.numbers());
        if let (5 | 14, Answer::Refused(Refusal::Flow)) = (code, step.answer) {
            self.refused.insert(b, (step.position, a));
        }
    }
}

/// The things that a call names.
fn about(content: Content, state: &State) -> Vec<Thing> {
    let Content::Call(call) = content else {
        return Vec::new();
    };
    let (code, [a, b, c, d, ..]) = (call.code(), call.numbers());
    let (step, object) = (Thing::Step, Thing::Object);
    let at_place = || state.handle(a, b).map(|handle| object(handle.object));
    match code {
        1 | 12 => vec![step(a)],
        2 | 13 => vec![object(a)],
        3 | 4 | 5 | 6 | 10 | 14 => vec![step(a), object(b)],
        7 | 8 | 11 | 15 => std::iter::once(step(a)).chain(at_place()).collect(),
        9 | 18 => vec![step(a), step(b)],
        17 => vec![step(a), step(b), object(c), object(d)],
        _ => Vec::new(),
    }
}

#[cfg(test)]
mod tests {
    use super::*;
    use gatekeeper::Call;

    /// What is said of the last of these calls: what is asked, why, the ways out and the notes.
    #[track_caller]
    fn all_said(calls: &[Call]) -> [Vec<String>; 4] {
        let mut journal = Vec::new();
        calls.iter().for_each(|call| call.write_record(&mut journal));
        let [asked, why, ways, notes, ..] = sentences(&journal, b"").pop().expect("a record");
        [asked, why, ways, notes]
    }

    /// Why, and the ways out.
    #[track_caller]
    fn said(calls: &[Call]) -> (Vec<String>, Vec<String>) {
        let [_, why, ways, _] = all_said(calls);
        (why, ways)
    }

    const STEP: Call = Call::Admit { subject: 0, level: 9, shops: 255 };
    const BOOK: Call = Call::Register { object: 0, level: 9, shops: 255 };
    const SHEET: Call = Call::Register { object: 1, level: 2, shops: 255 };
    const WRITES: Call = Call::OpenWrite { subject: 0, object: 0, place: 0 };
    const READS: Call = Call::OpenRead { subject: 0, object: 1, place: 1 };

    #[test]
    fn a_refusal_is_told_in_the_words_of_explain() {
        let [asked, why, ways, _] = all_said(&[STEP, BOOK, SHEET, WRITES, READS]);
        assert_eq!(asked, ["Step 0 may not open file 1 for reading at place 1: it writes file 0"]);
        assert_eq!(why[0], "Nothing is opened.");
        assert_eq!(why[1], "File 1 has level 2, and file 0 takes nothing from below level 9.");
        assert_eq!(ways[0], "Close place 0 (writing file 0) of step 0; open it after that.");
        let (_, ways) =
            said(&[STEP, Call::Admit { subject: 7, level: 9, shops: 255 }, BOOK, SHEET, WRITES, READS]);
        assert_eq!(ways[1], "Let another step open it: step 7 may.");
        let refused = [STEP, Call::Mark { subject: 0, place: 12 }];
        assert_eq!(
            all_said(&refused)[0],
            ["Step 0 may not mark place 12, where it has nothing: that place is empty"]
        );
    }

    /// What the screen says of each refusal of these journals is what `gk explain` says, word for word: both ask one
    /// function, and nothing is lost on the way.
    #[test]
    fn nothing_is_said_in_other_words_than_those_of_the_engine() {
        let march = std::fs::read(concat!(env!("CARGO_MANIFEST_DIR"), "/../../crates/payrun/stdin"));
        let march = march.expect("the journal of March");
        let file = gk_names::Names::load(std::path::Path::new(concat!(
            env!("CARGO_MANIFEST_DIR"),
            "/examples/march.names"
        )));
        let file = file.expect("the names of March");
        let mut past = Past::default();
        let mut refusals = 0;
        for (step, said) in Run::new(&march).zip(sentences(&march, file.text().as_bytes())) {
            if let Some(refused) = of_record(&step, past.before(&step, &file), past.closing) {
                let [asked, why, ways, notes, _, how] = said;
                assert_eq!(format!("{}.", asked[0]), refused.title);
                assert_eq!((why, notes), (refused.facts, refused.counsel.notes));
                let words: Vec<String> =
                    refused.counsel.ways.iter().map(|way| sentence(&way.text)).collect();
                assert_eq!(ways, words);
                let sentence = refused.how.map(|how| how.sentence(MOST_ACTS));
                assert_eq!(
                    how.split_first().map(|(title, acts)| format!("{title}: {}.", acts.join("; "))),
                    sentence
                );
                refusals += 1;
            }
            past.follow(&step);
        }
        assert!(refusals >= 2, "{refusals}");
    }

    #[test]
    fn a_name_keeps_its_case() {
        let mut journal = Vec::new();
        [STEP, SHEET, READS].iter().for_each(|call| call.write_record(&mut journal));
        let said = sentences(&journal, b"names 1\nstep 0 1 cat\nfile 1 1 In/1.csv\n");
        assert_eq!(said[1][4], ["In/1.csv (file 1) is new, at level 2 for good."]);
        assert_eq!(said[2][0], ["cat (step 0) opens In/1.csv (file 1) for reading at place 1"]);
        assert_eq!(said[2][4], ["cat (step 0) reads In/1.csv (file 1), at place 1."]);
    }

    #[test]
    fn the_other_way_is_told_of_the_same_thing_alone() {
        let other = Call::Admit { subject: 1, level: 9, shops: 255 };
        let may = Call::OpenRead { subject: 1, object: 1, place: 0 };
        let (why, _) = said(&[STEP, other, BOOK, SHEET, WRITES, READS, may]);
        assert_eq!(
            why[0],
            "It may: no way leads from step 1 to a file above level 0, so it may fall as low as it likes."
        );
        assert_eq!(
            why[1],
            "Step 0 was refused file 1 at record 6: from there a way led up. From step 1 none does."
        );
        // A file that has the number later is another one.
        let (why, _) =
            said(&[STEP, other, BOOK, SHEET, WRITES, READS, Call::Retire { object: 1 }, SHEET, may]);
        assert_eq!(why.len(), 1);
    }

    #[test]
    fn the_books_are_told_of() {
        let freeze = Call::Freeze { level: 9 };
        let again = Call::OpenWrite { subject: 0, object: 0, place: 4 };
        let [asked, _, ways, _] = all_said(&[STEP, BOOK, WRITES, freeze, again]);
        assert!(
            asked[0].ends_with(": the books are closed from level 9 up since record 4, and it has level 9"),
            "{asked:?}"
        );
        let held = "Use a handle that is held and goes on writing: place 0 of step 0.";
        assert_eq!(ways, ["Wait until the books are open again (freeze 16) and open it then.", held]);
    }

    /// RULES R117: the freeze is said, and what comes once the books are open is told with it.
    #[test]
    fn a_fifteen_tells_of_the_nine_behind_it() {
        let freeze = Call::Freeze { level: 9 };
        let asks = Call::OpenWrite { subject: 0, object: 0, place: 4 };
        let [asked, why, ways, _] = all_said(&[STEP, BOOK, SHEET, READS, freeze, asks]);
        assert!(asked[0].contains(": the books are closed from level 9 up since record 5"), "{asked:?}");
        let then =
            "Once the books are open again (freeze 16) it would be refused with 9: data could reach a file of a higher level or with a shop mark that it lacks.";
        let low = "File 1 has level 2, and file 0 takes nothing from below level 9.";
        assert_eq!(why, ["Nothing is opened.", then, low]);
        assert_eq!(
            ways,
            [
                "Close place 1 (reading file 1) of step 0; open it after that once the books are open again (freeze 16).",
                "Let step 0 fork a step, number 1 is free, which closes place 1 and opens it once the books are open \
                 again (freeze 16).",
                "Admit a step at level 9 or above, number 1 is free, and let it open it once the books are open again \
                 (freeze 16).",
                "Open a file that is not frozen: file 1.",
            ]
        );
        // Another step that may; a closing that does not help is not advised.
        let step = Call::Admit { subject: 1, level: 2, shops: 255 };
        let asks = Call::OpenWrite { subject: 1, object: 0, place: 0 };
        let [_, why, ways, notes] = all_said(&[STEP, BOOK, WRITES, freeze, step, asks]);
        assert_eq!(why[1..], [then, "Step 1 has level 2, and file 0 takes nothing from below level 9."]);
        assert_eq!(
            ways,
            [
                "Let another step open it once the books are open again (freeze 16): step 0 may.",
                "Admit a step at level 9 or above, number 2 is free, and let it open it once the books are open again \
                 (freeze 16).",
                "Use a handle that is held and goes on writing: place 0 of step 0.",
            ]
        );
        let none = "No closing of handles helps: step 1 has level 2 itself, which is too low for file 0.";
        assert_eq!(notes, [none]);
        // Where another number is said first, the books are told of as well.
        let [_, _, _, notes] = all_said(&[STEP, BOOK, WRITES, freeze, WRITES]);
        assert!(notes.iter().any(|note| note.starts_with("Also: the books are closed from level 9 up")));
    }
}

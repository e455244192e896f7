//! The questions of `gk explain`: what they tell is a part of the whole, and all of what is asked for.

mod common;

use common::{err, gk, journals, out, sees, Folder};
use gatekeeper::Refusal;
use gk::explain::question::{Question, Sought};
use gk::explain::{walk, Which};
use gk::names::Names;
use gk_advice::calls::shape_of_code;
use gk_advice::run::{Content, Step};
use gk_advice::things::Thing;

const MARCH: &str = "crates/payrun/stdin";

fn all() -> Question {
    Question::default()
}

/// The records that each of some questions asks for.
fn asked(journal: &[u8], questions: &[Question]) -> Vec<Vec<u64>> {
    let names = Names::new();
    let mut asked = vec![Vec::new(); questions.len()];
    walk(journal, &names, |step, past| {
        for (question, records) in questions.iter().zip(&mut asked) {
            records.extend(question.asks_for(step, past.before(step, &names)).then_some(step.position));
        }
    })
    .unwrap();
    asked
}

/// The records of several lists, in their order.
fn joined(lists: &[Vec<u64>]) -> Vec<u64> {
    let mut all = lists.concat();
    all.sort_unstable();
    all
}

#[test]
fn ranges_codes_and_refusals_part_a_journal() {
    let ranges = [Question { to: 20, ..all() }, Question { from: 21, ..all() }];
    let refusals: Vec<Question> =
        (1..=19).map(|number| Question { refusal: Some(number), ..all() }).collect();
    // A record without a code has 0, and one with a code that no call has is refused with 1 or 12.
    let codes: Vec<Question> = (0..=18).map(|code| Question { code: Some(code), ..all() }).collect();
    let wholes = [all(), Which::Refused.into()];
    let questions = [&wholes[..], &ranges, &refusals, &codes].concat();
    for (name, journal) in journals() {
        let asked = asked(&journal, &questions);
        let (whole, refused) = (&asked[0], &asked[1]);
        assert_eq!(&joined(&asked[2..4]), whole, "{name}");
        assert_eq!(&joined(&asked[4..23]), refused, "{name}");
        let by_code = joined(&asked[23..]);
        let unknown = whole.iter().filter(|record| !by_code.contains(record));
        assert!(unknown.into_iter().all(|record| refused.contains(record)), "{name}");
    }
}

/// Each record that names a thing is asked for with it, and so is each one with it in the chain behind its refusal.
#[test]
fn what_names_a_thing_is_told_of_it() {
    let names = Names::new();
    let mut chains = 0;
    for (name, journal) in journals().into_iter().step_by(2) {
        walk(&journal, &names, |step, past| {
            let scene = past.before(step, &names);
            for thing in concerned(step) {
                let question = match thing {
                    Thing::Step(s) => Question { step: Some(Sought::Number(s)), ..all() },
                    Thing::Object(o) => Question { file: Some(Sought::Number(o)), ..all() },
                };
                assert!(question.asks_for(step, scene), "{name}: record {}, {thing:?}", step.position);
            }
            chains += usize::from(step.refusal() == Some(Refusal::Flow));
        })
        .unwrap();
    }
    assert!(chains > 20, "only {chains} chains were met");
}

/// The things that a record names, and those of the chain behind it.
fn concerned(step: &Step) -> Vec<Thing> {
    let Content::Call(call) = step.content else {
        return Vec::new();
    };
    let keys = shape_of_code(call.code()).unwrap().numbers.iter().zip(call.numbers());
    let mut things: Vec<Thing> = keys
        .filter_map(|(key, number)| match *key {
            "s" | "t" | "c" => Some(Thing::Step(number)),
            "o" | "a" | "b" => Some(Thing::Object(number)),
            _ => None,
        })
        .collect();
    if step.refusal() == Some(Refusal::Flow) {
        let chain = gk_chain::behind(&step.before, call.code(), call.numbers());
        things.extend(chain.iter().map(|link| link.thing));
    }
    things
}

#[test]
fn what_is_used_by_a_handle_is_told_of_its_file() {
    let text = "admit 0 9 all\nregister 5 9 all\nregister 6 9 all\nopen-write 0 5 1\nmap 0 6 2\nfork 0 3\nwrite 0 1\n\
                mark 0 1\nthread 3 4\nopen-write 3 6 7\nwrite 3 7\nexit 3\nexit 0\nadmit 9 3 all\n";
    let journal = gk(&["assemble"], text.as_bytes()).stdout;
    let asks = |option: &str, number: &str| {
        let text = out(&gk(&["explain", option, number], &journal));
        let start = |line: &str| line.split_once(". ").and_then(|(start, _)| start.parse::<u64>().ok());
        text.lines().filter_map(start).collect::<Vec<u64>>()
    };
    assert_eq!(asks("--file", "5"), [2, 4, 6, 7, 8, 12, 13]);
    // A write to what it has mapped is read by it; its fork got a mapping, too.
    assert_eq!(asks("--step", "0"), [1, 4, 5, 6, 7, 8, 11, 13]);
    assert_eq!(asks("--step", "4"), [9]);
    assert_eq!(asks("--step", "step 9"), [14]);
    assert_eq!(asks("--code", "write"), [7, 11]);
}

#[test]
fn march_is_asked_by_name() {
    let folder = Folder::new("questions");
    let march = folder.path("march.journal");
    assert_eq!(gk(&["assemble", "gk/examples/march.txt", "-o", &march], b"").status.code(), Some(0));
    let asked = |arguments: &[&str]| {
        let output = gk(&[&["explain"], arguments, &[march.as_str()]].concat(), b"");
        assert_eq!((output.status.code(), err(&output)), (Some(0), String::new()), "{arguments:?}");
        out(&output)
    };
    let merge = asked(&["--step", "merge", "--file", "the pay book"]);
    sees(
        &merge,
        &["Asked for: step \"merge\"; file or pipe \"the pay book\". That is 6 of 306 records.\n193. "],
    );
    sees(
        &merge,
        &["\n196. ", "\n197. ", "\n199. ", "\n258. ", "\n260. ", "300 allowed, 1 lowered, 5 refused"],
    );
    assert!(!merge.contains("\n198. "), "{merge}");
    // The number is another step's before record 203.
    let reader = asked(&["--step", "sheet reader"]);
    sees(&reader, &["\n203. ", "\n205. ", "\n210. "]);
    assert!(!reader.contains("\n9. ") && asked(&["--step", "1"]).contains("\n9. "), "{reader}");
    sees(&asked(&["--refused", "--refusal", "9", "--to", "196"]), &["That is 1 of 306 records", "\n196. "]);
    sees(&asked(&["--code", "9"]), &["code 9 (fork; the refusal of this number: --refusal 9)"]);
    // Behind the last record nothing is left out.
    sees(&asked(&["--from", "306", "--to", "999"]), &["That is 1 of 306 records.\n306. "]);
    let nothing = asked(&["--json", "--step", "99"]);
    assert_eq!(nothing.lines().count(), 1);
    sees(&nothing, &["\"refused\":5,", "\"told\":0}"]);
}

#[test]
fn a_name_that_nothing_has_is_no_question() {
    for (arguments, names, words) in [
        (["--step", "mergee"], true, "no step is called \"mergee\". Did you mean: \"merge\""),
        (["--file", "merge"], true, "no file or pipe is called \"merge\""),
        (["--step", "merge"], false, "None has a name here: ask for a number, or give --names FILE"),
    ] {
        let folder = Folder::new("unasked");
        let march = folder.path("march.journal");
        gk(&["assemble", "gk/examples/march.txt", "-o", &march], b"");
        let journal = if names { march.as_str() } else { MARCH };
        let output = gk(&["explain", arguments[0], arguments[1], journal], b"");
        assert_eq!((output.status.code(), out(&output)), (Some(1), String::new()), "{arguments:?}");
        assert!(err(&output).contains(words), "{}", err(&output));
    }
}

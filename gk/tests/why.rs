//! Where a level comes from: the chain of records behind it.

mod common;

use std::collections::BTreeMap;
use std::fs;

use common::{err, gk, journals, out, sees, Folder};
use gatekeeper::Label;
use gk::names::Kind;
use gk_advice::run::{Content, Run, Step};
use gk_advice::things::{label, members, objects, steps, Thing};
use gk_advice::trail::{Link, Part, Trail};

/// What is said of a thing of a text's journal.
fn why(text: &str, arguments: &[&str]) -> String {
    let journal = gk(&["assemble"], text.as_bytes());
    assert_eq!(journal.status.code(), Some(0), "{}", err(&journal));
    let output = gk(&[&["why", "-"], arguments].concat(), &journal.stdout);
    assert_eq!((output.status.code(), err(&output)), (Some(0), String::new()), "{arguments:?}");
    out(&output)
}

/// The records of the chain that is told.
fn records(told: &str) -> Vec<u64> {
    told.lines().filter_map(|line| line.split_once(". ")?.0.parse().ok()).collect()
}

/// That a thing has this chain, and that these words are said.
fn has(text: &str, arguments: &[&str], chain: &[u64], words: &[&str]) {
    let told = why(text, arguments);
    assert_eq!(records(&told), chain, "{told}");
    sees(&told.split_whitespace().collect::<Vec<&str>>().join(" "), words);
}

#[test]
fn a_level_is_followed_through_reads_writes_and_pipes() {
    let text =
        "register 1 2 all\nadmit 0 9 all\nadmit 1 9 all\npipe 0 5 0 1\nopen-read 1 5 0\nopen-read 0 1 2\nread 0 2\n\
                write 0 1\nread 1 0\nread 1 0\nwrite 0 1\n";
    has(
        text,
        &["step", "0"],
        &[1, 7],
        &["step 0 has level 2. It has had it since record 7; it started with level 9"],
    );
    has(
        text,
        &["pipe", "5"],
        &[1, 7, 8],
        &["pipe 5 has level 2. It has had it since record 8", "that of file 1."],
    );
    assert_eq!(
        why(text, &["step", "1"]),
        "After record 11, step 1 has level 2. It has had it since record 9; it started with level 9, at\n    record 3. \
         The level is that of file 1.\n\
         How it came there, found by gk and not proved; the answers are the proved gatekeeper's:\n\
         1. File 1 is registered from outside at level 2.\n  Allowed. File 1 has level 2 for good.\n\
         7. Step 0 reads at place 2, its reading handle on file 1 (level 2).\n  Lowered. Step 0 falls from level 9 to \
         level 2.\n\
         8. Step 0 writes at place 1, its writing handle on pipe 5 (level 9).\n  Lowered. Pipe 5 falls from level 9 to \
         level 2.\n\
         9. Step 1 reads at place 0, its reading handle on pipe 5 (level 2).\n  Lowered. Step 1 falls from level 9 to \
         level 2.\n"
    );
    // Before it fell.
    has(
        text,
        &["step 1", "--at", "8"],
        &[3],
        &["has level 9. It has had it since record 3: that is the level it started"],
    );
}

#[test]
fn a_level_is_handed_on_by_forks_pipes_and_connects() {
    let low = "register 1 2 all\nadmit 0 9 all\nopen-read 0 1 0\nread 0 0\n";
    let is_start = "that is the level it started with. The level is that of file 1.";
    has(&format!("{low}fork 0 3\n"), &["step 3"], &[1, 4, 5], &[is_start]);
    has(&format!("{low}fork 0 3\nfork 3 4\nexit 3\n"), &["step 4"], &[1, 4, 5, 6], &[is_start]);
    has(&format!("{low}pipe 0 5 1 2\n"), &["pipe 5"], &[1, 4, 5], &[is_start]);
    // A fork before the fall hands on what there was.
    has(
        "register 1 2 all\nadmit 0 9 all\nfork 0 3\nopen-read 0 1 0\nread 0 0\n",
        &["step 3"],
        &[2, 3],
        &["has level 9."],
    );
    // Each pipe of a connect has the level of its own writer.
    let talk = "admit 0 9 all\nadmit 1 2 all\nconnect 0 1 5 6 0 1\nread 0 0\n";
    has(talk, &["pipe 5"], &[1, 3], &["The level is that at which step 0 was admitted."]);
    has(talk, &["pipe 6"], &[2, 3], &["The level is that at which step 1 was admitted."]);
    has(talk, &["step 0"], &[2, 3, 4], &["it started with level 9", "that at which step 1 was admitted."]);
    has(talk, &["step 1"], &[2], &["that is the level it started with. How"]);
}

#[test]
fn what_is_run_or_mapped_lowers() {
    let run = "admit 0 9 all\nregister 7 4 all\nregister 8 12 all\nexec 0 8\nexec 0 7\nexec 0 7\n";
    has(run, &["step 0"], &[2, 5], &["it started with level 9, at record 1. The level is that of file 7."]);
    // A write to a mapped file is read by who has it mapped, and lowers nobody: the level came with the map.
    let map =
        "admit 0 9 all\nregister 1 3 all\nadmit 4 9 all\nmap 0 1 0\nopen-write 4 1 0\nwrite 4 0\nfork 0 2\nwrite 4 0\n";
    has(
        map,
        &["step 0"],
        &[2, 4],
        &["since record 4; it started with level 9", "The level is that of file 1."],
    );
    has(map, &["step 2"], &[2, 4, 7], &["that is the level it started with. The level is that of file 1."]);
    has(map, &["step 4"], &[3], &["has level 9."]);
}

/// Of two ways that would do, the one that was taken is told; of two falls the last one.
#[test]
fn the_way_that_was_taken_is_told() {
    let text = "register 1 2 all\nregister 2 2 all\nregister 3 5 all\nadmit 0 9 all\nopen-read 0 1 0\nopen-read 0 2 1\nopen-read 0 3 2\n\
                read 0 2\nread 0 1\nread 0 0\n";
    has(
        text,
        &["step 0"],
        &[2, 9],
        &["has level 2. It has had it since record 9", "The level is that of file 2."],
    );
    has(text, &["step 0", "--at", "8"], &[3, 8], &["has level 5.", "The level is that of file 3."]);
    // The pipe was low already when the second step wrote to it.
    let two = "admit 0 2 all\nadmit 1 2 all\nadmit 2 9 all\npipe 2 5 0 1\nopen-write 0 5 0\nopen-write 1 5 0\nwrite 1 0\nwrite 0 0\nread 2 0\n";
    has(two, &["step 2"], &[2, 7, 9], &["The level is that at which step 1 was admitted."]);
    // What was refused is no link, though it asked for the same.
    let refused = "register 1 2 all\nregister 9 9 all\nadmit 0 9 all\nopen-write 0 9 0\nopen-read 0 1 1\nclose 0 0\nopen-read 0 1 1\nread 0 1\n";
    has(refused, &["step 0"], &[1, 8], &["has level 2."]);
}

/// A number that is used again is another thing's, whatever the first one came to.
#[test]
fn numbers_that_are_used_again_are_told_apart() {
    let text = "name file 1 sheet\nname step 0 reader\nregister 1 2 all\nadmit 0 9 all\nopen-read 0 1 0\nread 0 0\npipe 0 5 1 2\n\
                fork 0 3\nclose 0 0\nclose 3 0\nretire 1\nregister 1 12 all\nexit 0\nadmit 0 7 all\nexit 3\npipe 0 5 1 2\n";
    let folder = Folder::new("why-again");
    let journal = folder.path("run.journal");
    assert_eq!(gk(&["assemble", "-o", &journal], text.as_bytes()).status.code(), Some(0));
    let told = |arguments: &[&str]| out(&gk(&[&["why", &journal], arguments].concat(), b""));
    // The file is retired and its number another one's; the chain has the one that was read.
    let step = told(&["step 3"]);
    assert_eq!(records(&step), [1, 4, 6]);
    sees(&step, &["The level is that of sheet (file 1)."]);
    // The step that is there now has not fallen, and is not called as the one before it.
    let step = told(&["step 0"]);
    assert_eq!(records(&step), [12]);
    sees(
        &step,
        &[
            "After record 14, step 0 has level 7.",
            "Another step 0 was there before it, from record 2 to record 11.",
        ],
    );
    let reader = told(&["reader"]);
    assert_eq!(records(&reader), [1, 4]);
    sees(&reader, &["After record 10, reader (step 0) has level 2.", "It is there until record 11."]);
    assert_eq!(records(&told(&["step 0", "--at", "9"])), [1, 4]);
    let pipe = told(&["pipe 5"]);
    assert_eq!(records(&pipe), [12, 14]);
    assert_eq!(records(&told(&["pipe 5", "--at", "12"])), [1, 4, 5]);
    sees(&told(&["pipe 5", "--at", "12"]), &["Another pipe 5 comes after it, from record 14 on."]);
    assert_eq!(records(&told(&["file 1"])), [10]);
    assert_eq!(records(&told(&["sheet"])), [1]);
    // Between two of them there is none.
    assert_eq!(
        told(&["step", "0", "--at", "11"]),
        "After record 11, step 0 is not there. It was there from record 2 to record 11, and another one is\n    there from \
         record 12 on.\n"
    );
    assert_eq!(
        told(&["step 0", "--at", "0"]),
        "After record 0, step 0 is not there. It is there from record 2 to record 11.\n"
    );
    assert_eq!(
        told(&["reader", "--at", "14"]),
        "After record 14, reader is not there. It was there from record 2 to record 11.\n"
    );
    assert_eq!(
        told(&["step 3", "--at", "14"]),
        "After record 14, step 3 is not there. It was there from record 6 to record 13.\n"
    );
}

/// A chain ends at a file, also at one that a step created; from there on the file itself is asked for.
#[test]
fn a_created_file_is_asked_for_itself() {
    let text = "register 1 2 all\nadmit 0 9 all\nopen-read 0 1 0\nread 0 0\ncreate 0 6\nadmit 1 9 all\nopen-read 1 6 0\nread 1 0\n";
    has(text, &["step 1"], &[5, 8], &["The level is that of file 6."]);
    has(
        text,
        &["file 6"],
        &[1, 4, 5],
        &["that is the level it started with. The level is that of file 1."],
    );
    has(
        text,
        &["file 1"],
        &[1],
        &["has level 2. It has had it since record 1: that is the level it started with. How"],
    );
}

#[test]
fn march_is_told_with_its_names() {
    let folder = Folder::new("why-march");
    let [journal, text] = ["march.journal", "text"].map(|name| folder.path(name));
    assert_eq!(gk(&["assemble", "gk/examples/march.txt", "-o", &journal], b"").status.code(), Some(0));
    for (thing, chain) in [
        ("step 1", &[2, 205][..]),
        ("sheet reader", &[2, 205]),
        ("intake", &[7, 9]),
        ("merge", &[7, 104]),
        ("pipe 37", &[7, 103]),
        ("the list of odd hours", &[2, 205, 206]),
    ] {
        let output = gk(&["why", &journal, thing], b"");
        assert_eq!((output.status.code(), err(&output)), (Some(0), String::new()), "{thing}");
        assert_eq!(records(&out(&output)), chain, "{thing}: {}", out(&output));
        // The same from words apart, and with what explain says of each record.
        let apart: Vec<&str> = thing.split(' ').collect();
        assert_eq!(out(&gk(&[&["why", &journal], &apart[..]].concat(), b"")), out(&output));
        let explained = include_str!("../examples/march.explained.txt");
        let told = out(&output);
        let body = told.split_once("gatekeeper's:\n").unwrap().1;
        for line in body.lines().filter(|line| !line.starts_with("Another ")) {
            assert!(explained.contains(&format!("\n{line}\n")) || explained.starts_with(line), "{line}");
        }
    }
    let bytes = fs::read(&journal).unwrap();
    let names = folder.path("march.names");
    let output = gk(&["why", "-", "merge", "--names", &names, "-o", &text], &bytes);
    assert_eq!((output.status.code(), out(&output)), (Some(0), String::new()));
    sees(&fs::read_to_string(&text).unwrap(), &["merge (step 17) has level 12."]);
}

#[test]
fn what_is_never_there_has_status_1() {
    let text = b"name step 0 reader\nadmit 0 9 all\nregister 3 9 all\n";
    let folder = Folder::new("why-never");
    let journal = folder.path("run.journal");
    assert_eq!(gk(&["assemble", "-o", &journal], text).status.code(), Some(0));
    for (thing, words) in [
        ("step 5", "the journal has no step 5\n"),
        ("pipe 3", "the journal has no pipe 3. Did you mean: file 3"),
        ("file 0", "the journal has no file 0. Did you mean: step 0"),
        ("step 18,446,744,073,709,551,615", "has no step 18,446,744,073,709,551,615"),
        ("raeder", "the journal has no raeder. Did you mean: reader"),
        ("step reader", "has no step reader."),
        ("payroll", "has no payroll. A thing without a name has its kind and number: step 17"),
    ] {
        let output = gk(&["why", &journal, thing], b"");
        assert_eq!((output.status.code(), out(&output)), (Some(1), String::new()), "{thing}");
        sees(&err(&output), &[words]);
    }
    // A journal that breaks off is looked at up to there; of one that is too long nothing is run.
    let output = gk(&["why", "-", "step 0"], &[5, 1, 0, 9, 0xff, 1, 3]);
    assert_eq!(output.status.code(), Some(0));
    sees(&out(&output), &["After record 2, step 0 has level 9."]);
    sees(
        &err(&output),
        &["why: standard input, record 2: Refused (11): the journal breaks off here. What comes before"],
    );
    let output = gk(&["why", "-", "step 0"], &[0; 65_537]);
    assert_eq!((output.status.code(), out(&output)), (Some(1), String::new()));
    sees(&err(&output), &["Refused (14)", "Nothing is told"]);
}

/// The parts of a label.
const PARTS: [Part; 9] = {
    use Part::{Level, Shop};
    [Level, Shop(0), Shop(1), Shop(2), Shop(3), Shop(4), Shop(5), Shop(6), Shop(7)]
};

/// What a part of a label is: the level, or 1 where the shop mark is there.
fn value(part: Part, label: Label) -> u8 {
    match part {
        Part::Level => label.level,
        Part::Shop(group) => u8::from(label.groups().any(|other| u64::from(other) == group)),
    }
}

/// The label of each thing after each record, by an own run of the journal; before the first record there is none.
fn labels(run: &[Step]) -> Vec<BTreeMap<Thing, Label>> {
    let of = |step: &Step| {
        let things = steps(&step.after).map(Thing::Step).chain(objects(&step.after).map(Thing::Object));
        things.filter_map(|thing| Some((thing, label(&step.after, thing)?))).collect()
    };
    std::iter::once(BTreeMap::new()).chain(run.iter().map(of)).collect()
}

/// Whether a call, not refused, hands a level from one thing to the other, as RULES C3 to C18 and C114 have it.
fn hands_on(step: &Step, from: Thing, to: Thing) -> bool {
    use gatekeeper::Call::*;
    let Content::Call(call) = step.content else {
        return false;
    };
    let held = |subject: u64, place: u64| {
        step.before.handle(subject, place).map(|handle| Thing::Object(handle.object))
    };
    let target = to;
    let is_member =
        |subject: u64| members(&step.before, subject).into_iter().any(|s| target == Thing::Step(s));
    match call {
        Read { subject, place } => held(subject, place) == Some(from) && is_member(subject),
        Write { subject, place } => from == Thing::Step(subject) && held(subject, place) == Some(target),
        Exec { subject, object } => from == Thing::Object(object) && target == Thing::Step(subject),
        Map { subject, object, .. } => from == Thing::Object(object) && is_member(subject),
        Fork { subject, child: new } | Thread { subject, member: new } => {
            from == Thing::Step(subject) && target == Thing::Step(new)
        }
        Create { subject, object } | Pipe { subject, object, .. } => {
            from == Thing::Step(subject) && target == Thing::Object(object)
        }
        Connect { subject, peer, to, from: back, .. } => {
            (from, target) == (Thing::Step(subject), Thing::Object(to))
                || (from, target) == (Thing::Step(peer), Thing::Object(back))
        }
        _ => false,
    }
}

/// Of every thing of every stored journal, after each record that set its label and at its end, and of each part of the
/// label. Every link of its chain has what the thing has then. The records rise, none was refused, and each made its thing
/// or lowered it; from that record on, up to the next link's, the thing was there and kept it, which the next record handed
/// on. The first link came with a register, a create or an admit. A thing that has fallen has a chain of two links or more.
#[test]
fn every_chain_leads_from_where_the_label_came_in_to_the_thing() {
    let (mut chains, mut longest, mut fallen, mut with_mates) = (0, 0, [0, 0], 0);
    for (name, journal) in journals() {
        let run: Vec<Step> = Run::new(&journal).collect();
        let labels = labels(&run);
        let mut trail = Trail::default();
        run.iter().for_each(|step| trail.follow(step));
        // Each thing that is there after a record is in the list, once.
        for (record, there) in labels.iter().enumerate() {
            let count = trail.stays.iter().filter(|stay| stay.is_at(record as u64)).count();
            assert_eq!(count, there.len(), "{name}, {record}");
        }
        for place in 0..trail.stays.len() {
            let stay = trail.stays[place].clone();
            let end = stay.until.map_or(trail.records, |until| until - 1);
            for part in PARTS {
                assert!(trail.chain(place, stay.from - 1, part).is_empty(), "{name}: {stay:?}");
                assert!(
                    stay.until.is_none_or(|until| trail.chain(place, until, part).is_empty()),
                    "{name}: {stay:?}"
                );
            }
            // The mate that has read, where the step itself has not.
            for mark in &stay.marks {
                let step = &run[mark.record as usize - 1];
                let Some(mate) = mark.mate else { continue };
                let Content::Call(call) = step.content else { panic!("{name}: {mark:?}") };
                assert_eq!(trail.stays[mate].thing(), Thing::Step(call.numbers()[0]), "{name}: {mark:?}");
                assert_eq!(step.before.group(stay.number), step.before.group(call.numbers()[0]), "{name}");
                assert!(
                    trail.stays[mate].thing() != stay.thing() && stay.kind == Kind::Step,
                    "{name}: {mark:?}"
                );
                with_mates += 1;
            }
            let moments = || stay.marks.iter().map(|mark| mark.record).chain([end]);
            for (at, part) in moments().flat_map(|at| PARTS.map(|part| (at, part))) {
                let chain: Vec<Link> = trail.chain(place, at, part);
                let thing = stay.thing();
                let now = value(part, labels[at as usize][&thing]);
                let here = format!("{name}: {part:?} of {thing:?} after {at}: {chain:?}");
                assert_eq!(chain.last().map(|link| link.stay), Some(place), "{here}");
                assert!(chain.is_sorted_by(|one, next| one.record < next.record), "{here}");
                let ends = chain.iter().skip(1).map(|link| link.record - 1).chain([at]);
                for (link, until) in chain.iter().zip(ends) {
                    let (thing, step) = (trail.stays[link.stay].thing(), &run[link.record as usize - 1]);
                    let of = |labels: &BTreeMap<Thing, Label>| {
                        labels.get(&thing).map(|&label| value(part, label))
                    };
                    let before = of(&labels[link.record as usize - 1]);
                    assert!(step.refusal().is_none() && before.is_none_or(|before| before > now), "{here}");
                    let mut kept = labels[link.record as usize..=until as usize].iter();
                    assert!(kept.all(|labels| of(labels) == Some(now)), "{here}");
                }
                for pair in chain.windows(2) {
                    let [from, to] = [pair[0], pair[1]].map(|link| trail.stays[link.stay].thing());
                    assert!(hands_on(&run[pair[1].record as usize - 1], from, to), "{here}");
                }
                let (first, code) = (chain[0], run[chain[0].record as usize - 1].code);
                assert_eq!(first.record, trail.stays[first.stay].from, "{here}");
                match trail.stays[first.stay].kind {
                    Kind::Step => assert_eq!(code, 1, "{here}"),
                    Kind::File => assert!(matches!(code, 2 | 3), "{here}"),
                    Kind::Pipe | Kind::Shop => panic!("{here}"),
                }
                if now < value(part, stay.marks[0].label) {
                    assert!(chain.len() >= 2, "{here}");
                    fallen[usize::from(part != Part::Level)] += 1;
                }
                (chains, longest) = (chains + 1, longest.max(chain.len()));
            }
        }
    }
    println!("{chains} chains, {fallen:?} of things that have fallen; the longest has {longest} links");
    assert!(
        chains > 1_000 && fallen.iter().all(|&count| count > 50) && longest >= 5,
        "{chains} {fallen:?} {longest}"
    );
    assert!(with_mates > 10, "only {with_mates} fell because another thread read");
}

/// A missing shop mark has its own way, and those that were lost on one way are told together.
#[test]
fn where_a_missing_mark_comes_from_is_told() {
    let text = "name shop 0 north\nname shop 1 east\nregister 1 12 \"north,shop 2\"\nregister 2 2 north,east\nadmit 0 12 all\n\
                open-read 0 1 0\nread 0 0\nopen-read 0 2 1\nread 0 1\nfork 0 3\n";
    let told = why(text, &["step 3"]).split_whitespace().collect::<Vec<&str>>().join(" ");
    sees(
        &told,
        &[
            "After record 8, step 3 has level 2 with the shop mark of shop 0. It has had the level since record 8: that is \
             the level it started with. The level is that of file 2.",
            "It lacks the shop marks of shop 1, shop 3, shop 4, shop 5, shop 6 and shop 7 since record 8: it started without \
             them. File 1 does not have them. How it came there",
            "It lacks the shop mark of shop 2 since record 8: it started without it. File 2 does not have it. The records \
             are those above.",
        ],
    );
    let names = "name step 0 reader\n";
    let folder = Folder::new("marks");
    let journal = folder.path("run.journal");
    assert_eq!(
        gk(&["assemble", "-o", &journal], format!("{names}{text}").as_bytes()).status.code(),
        Some(0)
    );
    let told = out(&gk(&["why", &journal, "reader"], b""));
    sees(
        &told,
        &["with the shop mark of north.", "It lacks the shop marks of east, shop 3,", "; it started with"],
    );
    // What was admitted without a mark.
    let told = why("admit 0 9 254\npipe 0 5 0 1\n", &["pipe 5"]);
    let told = told.split_whitespace().collect::<Vec<&str>>().join(" ");
    sees(
        &told,
        &["pipe 5 has level 9 with the shop marks of shop 1, shop 2,", "Step 0 was admitted without it."],
    );
    sees(
        &why("admit 0 9 254\n", &["step 0"]),
        &["It lacks the shop mark of shop 0 since record 1: it started without it."],
    );
}

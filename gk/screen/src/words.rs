//! What a record has changed, in words. The changes are read off the states before and after it.

use gatekeeper::{Handle, Kind, Label, Way};
use gk_names::shops;

use crate::phrase::{object, phrase, Phrase, Piece};
use crate::state::{State, PLACES, STEPS};

/// Handles of one step that are named one by one, and threads of one.
const MOST_HANDLES: usize = 4;
const MOST_THREADS: usize = 4;

/// What a handle does.
fn does(handle: Handle, state: &State) -> Phrase {
    let o = object(handle.object, state);
    match handle.way {
        Way::Reads => phrase!["reads ", o],
        Way::Writes => phrase!["writes ", o],
        Way::Maps => phrase!["has ", o, " mapped"],
    }
}

/// What has changed, the levels first.
pub fn changed(before: &State, after: &State) -> Vec<Phrase> {
    let mut said = Vec::new();
    levels(before, after, &mut said);
    for (s, _) in after.steps() {
        handles(s, before, after, &mut said);
    }
    needs(before, after, &mut said);
    if before.frozen_from != after.frozen_from {
        said.push(match after.frozen_from {
            Some(level) => phrase!["No file at or above level ", level, " can be opened for writing now."],
            None => phrase!["Every file can be opened for writing again."],
        });
    }
    said
}

/// Threads by name, or where there are many by number: "step 3, step 4 and step 5", or "steps 3 to 9"; the word for many
/// stands at the front of a sentence or not.
fn threads(steps: &[u64], word: &'static str) -> Phrase {
    match steps {
        [] => Phrase::default(),
        [one] => phrase![Piece::Step(*one)],
        _ if steps.len() > MOST_THREADS => phrase![word, " ", Piece::List(steps.to_vec())],
        [first @ .., last] => {
            let mut words = Phrase::default();
            for (at, &step) in first.iter().enumerate() {
                words = words.then(phrase![if at == 0 { "" } else { ", " }, Piece::Step(step)]);
            }
            // A phrase that starts with a thing has a capital there.
            words.0.remove(0);
            words.then(phrase![" and ", Piece::Step(*last)])
        }
    }
}

/// What has fallen, as it is told: a thing, or threads of one step, which fall together.
fn falls(before: &State, after: &State) -> Vec<(Phrase, bool, Label, Label)> {
    let mut falls: Vec<(Phrase, bool, Label, Label)> = Vec::new();
    for group in after.groups() {
        let fell = |s: &u64| Some((before.step(*s)?.label, after.step(*s)?.label));
        let mut labels: Vec<(Label, Label)> = group.iter().filter_map(fell).collect();
        labels.dedup();
        for (from, to) in labels {
            let steps: Vec<u64> = group.iter().copied().filter(|s| fell(s) == Some((from, to))).collect();
            falls.push((threads(&steps, "Steps"), steps.len() > 1, from, to));
        }
    }
    for o in State::objects_of(before, after) {
        if let (Some(old), Some(new)) = (before.object(o), after.object(o)) {
            falls.push((phrase![object(o, after)], false, old.label, new.label));
        }
    }
    falls.retain(|(_, _, from, to)| from != to);
    falls
}

/// " with the shop marks of north and east"; nothing where it has all of them.
fn with_marks(label: Label) -> Phrase {
    match label.shops {
        shops::ALL => Phrase::default(),
        set => phrase![" with ", Piece::Shops(set)],
    }
}

/// Who came, who went, and who fell.
fn levels(before: &State, after: &State, said: &mut Vec<Phrase>) {
    let falls = falls(before, after);
    let objects = State::objects_of(before, after);
    let alone = if falls.len() == 1 { ". Nothing else falls." } else { "." };
    for (who, are_threads, from, to) in falls {
        let (fall, stay, lose, why) = match are_threads {
            true => {
                (" fall from level ", " stay at level ", " and lose ", ": they are threads of one step")
            }
            false => (" falls from level ", " stays at level ", " and loses ", ""),
        };
        let level = match to.level < from.level {
            true => phrase![fall, from.level, " to level ", to.level],
            false => phrase![stay, to.level],
        };
        let lost = match from.shops & !to.shops {
            0 => Phrase::default(),
            lost => phrase![lose, Piece::Shops(lost)],
        };
        said.push(who.then(level).then(lost).then(phrase![why, alone]));
    }
    for s in 0..STEPS {
        match (before.step(s), after.step(s)) {
            (None, Some(new)) => {
                let mates = after.mates(s);
                let with = match mates.is_empty() {
                    true => phrase!["."],
                    false => phrase![", a thread of one step with "]
                        .then(threads(&mates, "steps"))
                        .then(phrase!["."]),
                };
                let is_new = phrase![Piece::Step(s), " is new, at level ", new.label.level];
                said.push(is_new.then(with_marks(new.label)).then(with));
            }
            (Some(_), None) => said.push(match before.held(s).count() {
                0 => phrase![Piece::Step(s), " is gone, and its number is free."],
                1 => phrase![Piece::Step(s), " is gone with its handle, and its number is free."],
                held => {
                    phrase![Piece::Step(s), " is gone with its ", held, " handles, and its number is free."]
                }
            }),
            _ => {}
        }
    }
    for o in objects {
        match (before.object(o), after.object(o)) {
            (None, Some(new)) if new.kind == Kind::File => {
                let is_new = phrase![Piece::File(o), " is new, at level ", new.label.level];
                said.push(is_new.then(with_marks(new.label)).then(phrase![" for good."]));
            }
            (None, Some(new)) => {
                let is_new = phrase![Piece::Pipe(o), " is new and empty, at level ", new.label.level];
                said.push(is_new.then(with_marks(new.label)).then(phrase!["."]));
            }
            (Some(old), None) if old.kind == Kind::File => {
                said.push(phrase![Piece::File(o), " is gone, and its number is free."]);
            }
            (Some(_), None) => said.push(phrase![Piece::Pipe(o), " has lost its last handle and ends."]),
            _ => {}
        }
    }
}

/// The handles of a step that came, went, or were marked.
fn handles(s: u64, before: &State, after: &State, said: &mut Vec<Phrase>) {
    let differs = |p: &u64| before.handle(s, *p) != after.handle(s, *p);
    let places: Vec<u64> = (0..PLACES).filter(differs).collect();
    let step = || Piece::Step(s);
    if places.len() > MOST_HANDLES {
        let come = places.iter().filter(|&&p| before.handle(s, p).is_none()).count();
        let went = places.iter().filter(|&&p| after.handle(s, p).is_none()).count();
        if come > 0 {
            said.push(phrase![step(), " has ", come, " handles more."]);
        }
        if went > 0 {
            said.push(phrase![step(), " has ", went, " handles less."]);
        }
        return;
    }
    for p in places {
        match (before.handle(s, p), after.handle(s, p)) {
            (None, Some(new)) => {
                said.push(phrase![step(), " "].then(does(new, after)).then(phrase![", at place ", p, "."]));
            }
            (Some(old), None) => {
                let way = match old.way {
                    Way::Reads => " no longer reads ",
                    Way::Writes => " no longer writes ",
                    Way::Maps => " no longer has mapped ",
                };
                let o = object(old.object, before);
                said.push(phrase![step(), way, o, "; place ", p, " is empty."]);
            }
            _ => said.push(phrase!["Place ", p, " of ", step(), " is marked: its next exec closes it."]),
        }
    }
}

/// Who may fall less far than before, and who further; by the label that they may fall to now. Shop marks are spoken of where
/// a thing lacks one.
fn needs(before: &State, after: &State, said: &mut Vec<Phrase>) {
    let is_marked = before.is_marked() || after.is_marked();
    // Where shop marks are not spoken of, only the level counts.
    let seen = |need: Label| if is_marked { need } else { Label { shops: 0, ..need } };
    let old = |s: u64| before.step(s).map(|step| seen(step.need));
    let mut needs: Vec<Label> = after.steps().map(|(_, step)| seen(step.need)).collect();
    needs.sort_unstable_by_key(|need| std::cmp::Reverse((need.level, need.shops)));
    needs.dedup();
    for need in needs {
        let moved = |rises: bool| {
            let steps = after.steps().filter(move |&(s, new)| {
                let is_higher = |old: Label| old != need && (need.at_least(old) == rises);
                seen(new.need) == need && old(s).is_some_and(is_higher)
            });
            steps.map(|(s, _)| s).collect::<Vec<u64>>()
        };
        let who = |steps: Vec<u64>| match steps.as_slice() {
            [s] => phrase![Piece::Step(*s)],
            _ => phrase!["Steps ", Piece::List(steps)],
        };
        let marks = || match is_marked {
            true => phrase![" with ", Piece::Shops(need.shops)],
            false => Phrase::default(),
        };
        let (up, down) = (moved(true), moved(false));
        if !up.is_empty() {
            let floor = who(up).then(phrase![" may fall no lower than level ", need.level]);
            said.push(floor.then(marks()).then(phrase![" now."]));
        }
        if !down.is_empty() {
            let floor = who(down).then(phrase![" may fall to level ", need.level]);
            said.push(floor.then(marks()).then(phrase![" now."]));
        }
    }
}

#[cfg(test)]
mod tests {
    use super::*;
    use crate::names::Names;
    use gatekeeper::{Monitor, Refusal};

    fn told(before: &Monitor, after: &Monitor) -> Vec<String> {
        let said = changed(&State::of(&before.into()), &State::of(&after.into()));
        said.iter().map(|phrase| phrase.text(&Names::default(), 1)).collect()
    }

    #[test]
    fn what_changes_is_said() -> Result<(), Refusal> {
        let mut monitor = Monitor::new();
        let mut step = |call: fn(&mut Monitor) -> gatekeeper::Answer| {
            let before = monitor.clone();
            call(&mut monitor).granted().map(|_| told(&before, &monitor))
        };
        assert_eq!(step(|m| m.admit(0, 9, 255))?, ["Step 0 is new, at level 9."]);
        assert_eq!(step(|m| m.register(1, 2, 255))?, ["File 1 is new, at level 2 for good."]);
        assert_eq!(
            step(|m| m.pipe(0, 2, 0, 1))?,
            [
                "Pipe 2 is new and empty, at level 9.",
                "Step 0 reads pipe 2, at place 0.",
                "Step 0 writes pipe 2, at place 1."
            ]
        );
        assert_eq!(
            step(|m| m.open_write(0, 1, 3))?,
            ["Step 0 writes file 1, at place 3.", "Step 0 may fall no lower than level 2 now."]
        );
        assert_eq!(step(|m| m.mark(0, 3))?, ["Place 3 of step 0 is marked: its next exec closes it."]);
        assert_eq!(
            step(|m| m.exec(0, 1))?,
            [
                "Step 0 falls from level 9 to level 2. Nothing else falls.",
                "Step 0 no longer writes file 1; place 3 is empty.",
                "Step 0 may fall to level 0 now."
            ]
        );
        assert_eq!(step(|m| m.map(0, 1, 5))?, ["Step 0 has file 1 mapped, at place 5."]);
        assert_eq!(
            step(|m| m.exit(0))?,
            [
                "Step 0 is gone with its 3 handles, and its number is free.",
                "Pipe 2 has lost its last handle and ends."
            ]
        );
        assert_eq!(step(|m| m.admit(3, 9, 255))?, ["Step 3 is new, at level 9."]);
        assert_eq!(
            step(|m| m.thread(3, 1))?,
            ["Step 1 is new, at level 9, a thread of one step with step 3."]
        );
        assert_eq!(
            step(|m| m.thread(3, 5))?,
            ["Step 5 is new, at level 9, a thread of one step with step 1 and step 3."]
        );
        assert_eq!(
            step(|m| m.map(5, 1, 0))?,
            [
                "Step 1, step 3 and step 5 fall from level 9 to level 2: they are threads of one step. Nothing else falls.",
                "Step 5 has file 1 mapped, at place 0."
            ]
        );
        for s in [6, 7, 8] {
            monitor.thread(1, s).granted()?;
        }
        let mut step = |call: fn(&mut Monitor) -> gatekeeper::Answer| {
            let before = monitor.clone();
            call(&mut monitor).granted().map(|_| told(&before, &monitor))
        };
        assert_eq!(
            step(|m| m.thread(1, 9))?,
            ["Step 9 is new, at level 2, a thread of one step with steps 1, 3, 5 to 8."]
        );
        assert_eq!(step(|m| m.register(4, 0, 255))?, ["File 4 is new, at level 0 for good."]);
        assert_eq!(
            step(|m| m.map(9, 4, 0))?,
            [
                "Steps 1, 3, 5 to 9 fall from level 2 to level 0: they are threads of one step. Nothing else falls.",
                "Step 9 has file 4 mapped, at place 0."
            ]
        );
        assert_eq!(
            step(|m| m.exec(3, 1))?,
            [
                "Step 1 is gone, and its number is free.",
                "Step 5 is gone with its handle, and its number is free.",
                "Step 6 is gone, and its number is free.",
                "Step 7 is gone, and its number is free.",
                "Step 8 is gone, and its number is free.",
                "Step 9 is gone with its handle, and its number is free."
            ]
        );
        assert_eq!(step(|m| m.freeze(9))?, ["No file at or above level 9 can be opened for writing now."]);
        assert_eq!(step(|m| m.freeze(16))?, ["Every file can be opened for writing again."]);
        Ok(())
    }

    #[test]
    fn what_changes_in_shop_marks_is_said() -> Result<(), Refusal> {
        let mut monitor = Monitor::new();
        let mut step = |call: fn(&mut Monitor) -> gatekeeper::Answer| {
            let before = monitor.clone();
            call(&mut monitor).granted().map(|_| told(&before, &monitor))
        };
        assert_eq!(
            step(|m| m.admit(0, 9, 7))?,
            ["Step 0 is new, at level 9 with the shop marks of shop 0, shop 1 and shop 2."]
        );
        assert_eq!(
            step(|m| m.register(1, 9, 3))?,
            ["File 1 is new, at level 9 with the shop marks of shop 0 and shop 1 for good."]
        );
        assert_eq!(
            step(|m| m.register(2, 2, 0))?,
            ["File 2 is new, at level 2 with no shop marks for good."]
        );
        assert_eq!(step(|m| m.register(3, 12, 255))?, ["File 3 is new, at level 12 for good."]);
        assert_eq!(step(|m| m.open_read(0, 1, 0))?, ["Step 0 reads file 1, at place 0."]);
        assert_eq!(
            step(|m| m.open_write(0, 1, 1))?,
            [
                "Step 0 writes file 1, at place 1.",
                "Step 0 may fall no lower than level 9 with the shop marks of shop 0 and shop 1 now."
            ]
        );
        assert_eq!(
            step(|m| m.read(0, 0))?,
            ["Step 0 stays at level 9 and loses the shop mark of shop 2. Nothing else falls."]
        );
        assert_eq!(
            step(|m| m.close(0, 1))?,
            [
                "Step 0 no longer writes file 1; place 1 is empty.",
                "Step 0 may fall to level 0 with no shop marks now."
            ]
        );
        assert_eq!(
            step(|m| m.map(0, 2, 1))?,
            [
                "Step 0 falls from level 9 to level 2 and loses the shop marks of shop 0 and shop 1. Nothing else falls.",
                "Step 0 has file 2 mapped, at place 1."
            ]
        );
        Ok(())
    }
}

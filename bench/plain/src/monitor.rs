//! The monitor: each call is a method that first refuses, in the order that `refusals` tells, and then takes effect.

use crate::calls::{Answer, Call, NUMBERS};
use crate::labels::Label;
use crate::needs::Needs;
use crate::refusals::{freeze_in_range, label_in_range, Held, Refusal};
use crate::tables::{numbers, Direction, Kind, Object, Place, Subject, Tables, Tally, PLACES};

/// When needs are worked out.
#[derive(Clone, Copy, Debug, PartialEq, Eq)]
pub enum When {
    /// At each call, refused ones too.
    EachCall,
    /// Where a call goes by them: an open, a map, an exec or a connect that nothing else refuses.
    Asked,
}

/// The tables, and the calls on them.
#[derive(Clone, Debug)]
pub struct Monitor {
    tables: Tables,
    when: When,
    /// The needs worked out last. No call goes by those of an earlier one.
    needs: Needs,
}

impl Monitor {
    /// Nothing live, nothing open, nothing counted.
    pub fn new(when: When) -> Monitor {
        Monitor { tables: Tables::EMPTY, when, needs: Needs::NONE }
    }

    pub fn tables(&self) -> &Tables {
        &self.tables
    }

    pub fn tally(&self) -> Tally {
        self.tables.tally
    }

    /// The needs worked out last: for an open, a map or a connect, as if it were allowed; for an exec, without the
    /// caller's marked handles, and without its mates and theirs.
    pub fn needs(&self) -> &Needs {
        &self.needs
    }

    /// The direct call: a code and six numbers.
    pub fn direct(&mut self, code: u64, numbers: [u64; NUMBERS]) -> Answer {
        match Call::new(code, numbers) {
            Some(call) => self.call(call),
            None => Refusal::UnknownCode.into(),
        }
    }

    /// Makes a call. A refused one changes no table.
    pub fn call(&mut self, call: Call) -> Answer {
        if self.when == When::EachCall {
            self.work_out_for(call);
        }
        let answer = match call {
            Call::Admit { s, level, shops } => self.admit(s, level, shops),
            Call::Register { o, level, shops } => self.register(o, level, shops),
            Call::Create { s, o } => self.create(s, o),
            Call::Pipe { s, o, r, w } => self.pipe(s, o, r, w),
            Call::Open { s, o, p, direction } => self.open(s, o, p, direction),
            Call::Read { s, p } => self.read(s, p),
            Call::Write { s, p } => self.write(s, p),
            Call::Fork { s, c } => self.fork(s, c),
            Call::Exec { s, o } => self.exec(s, o),
            Call::Close { s, p } => self.close(s, p),
            Call::Exit { s } => self.exit(s),
            Call::Retire { o } => self.retire(o),
            Call::Map { s, o, p } => self.map(s, o, p),
            Call::Mark { s, p } => self.mark(s, p),
            Call::Freeze { level } => self.freeze(level),
            Call::Connect { s, t, a, b, p, q } => self.connect([s, t], [a, b], [p, q]),
            Call::Thread { s, c } => self.thread(s, c),
        };
        answer.unwrap_or_else(Answer::from)
    }
}

/// The calls.
impl Monitor {
    fn admit(&mut self, s: u64, level: u64, shops: u64) -> Result<Answer, Refusal> {
        let s = self.tables.new_subject(s)?;
        let label = label_in_range(level, shops)?;
        self.tables.admit(s, label);
        Ok(allowed(label))
    }

    fn register(&mut self, o: u64, level: u64, shops: u64) -> Result<Answer, Refusal> {
        let slot = self.tables.new_object(o)?;
        let label = label_in_range(level, shops)?;
        self.tables.bring(slot, o, Kind::File, label);
        Ok(allowed(label))
    }

    fn create(&mut self, s: u64, o: u64) -> Result<Answer, Refusal> {
        let s = self.tables.subject(s)?;
        let slot = self.tables.new_object(o)?;
        self.tables.bring(slot, o, Kind::File, s.label);
        Ok(allowed(s.label))
    }

    fn pipe(&mut self, s: u64, o: u64, r: u64, w: u64) -> Result<Answer, Refusal> {
        let s = self.tables.subject(s)?;
        let slot = self.tables.new_object(o)?;
        let [r, w] = self.tables.two_empty_places(s, r, w)?;
        self.tables.bring(slot, o, Kind::Pipe, s.label);
        self.tables.fill(s, r, slot, Direction::Reading);
        self.tables.fill(s, w, slot, Direction::Writing);
        Ok(allowed(s.label))
    }

    fn open(&mut self, s: u64, o: u64, p: u64, direction: Direction) -> Result<Answer, Refusal> {
        let s = self.tables.subject(s)?;
        let (o, object) = self.tables.object(o)?;
        let p = self.tables.empty_place(s, p)?;
        if direction == Direction::Writing {
            self.tables.writable(object)?;
        }
        self.test_flow([Place::of(s.group, o, direction)])?;
        self.tables.fill(s, p, o, direction);
        Ok(allowed(object.label))
    }

    fn read(&mut self, s: u64, p: u64) -> Result<Answer, Refusal> {
        let s = self.tables.subject(s)?;
        let Held { object, .. } = self.tables.held_for(s, p, Direction::Reading)?;
        Ok(self.subject_falls(s, object.label))
    }

    fn write(&mut self, s: u64, p: u64) -> Result<Answer, Refusal> {
        let s = self.tables.subject(s)?;
        let Held { o, object, .. } = self.tables.held_for(s, p, Direction::Writing)?;
        Ok(match object.kind {
            // Who has it mapped reads it now, and fell to its label, with its mates, when it mapped it: nobody falls any more.
            Kind::File => allowed(object.label),
            Kind::Pipe => fall(object.label, s.label, |label| {
                self.tables.objects[o] = Some(Object { label, ..object })
            }),
        })
    }

    fn fork(&mut self, s: u64, c: u64) -> Result<Answer, Refusal> {
        let s = self.tables.subject(s)?;
        let c = self.tables.new_subject(c)?;
        let c = self.tables.admit(c, s.label);
        for place in 0..PLACES {
            if let Some((o, direction)) = self.tables.places[s.number][place].handle() {
                self.tables.fill(c, place, o, direction);
            }
        }
        self.tables.marks[c.number] = self.tables.marks[s.number];
        self.tables.maps[c.number] = self.tables.maps[s.number];
        Ok(allowed(s.label))
    }

    fn exec(&mut self, s: u64, o: u64) -> Result<Answer, Refusal> {
        let s = self.tables.subject(s)?;
        let (_, object) = self.tables.file(o)?;
        self.ask(|needs, tables| needs.work_out_at_exec(tables, s));
        if !object.label.is_at_least(self.needs.subject(s)) {
            return Err(Refusal::Flow);
        }
        for mate in numbers(self.tables.mates(s)) {
            self.tables.leave(Subject { number: mate, ..s });
        }
        for place in 0..PLACES {
            if self.tables.ends_at_exec(s.number, place) {
                self.tables.empty(s.number, place);
            }
        }
        Ok(self.subject_falls(s, object.label))
    }

    fn close(&mut self, s: u64, p: u64) -> Result<Answer, Refusal> {
        let s = self.tables.subject(s)?;
        let Held { p, .. } = self.tables.held(s, p)?;
        self.tables.empty(s.number, p);
        Ok(allowed(s.label))
    }

    fn exit(&mut self, s: u64) -> Result<Answer, Refusal> {
        let s = self.tables.subject(s)?;
        self.tables.leave(s);
        Ok(allowed(s.label))
    }

    fn retire(&mut self, o: u64) -> Result<Answer, Refusal> {
        let (o, object) = self.tables.file(o)?;
        if object.handles > 0 {
            return Err(Refusal::StillOpen);
        }
        self.tables.end(o);
        Ok(allowed(object.label))
    }

    fn map(&mut self, s: u64, o: u64, p: u64) -> Result<Answer, Refusal> {
        let s = self.tables.subject(s)?;
        let (o, object) = self.tables.file(o)?;
        let p = self.tables.empty_place(s, p)?;
        self.test_flow([Place::of(s.group, o, Direction::Reading)])?;
        self.tables.fill(s, p, o, Direction::Reading);
        self.tables.map(s.number, p);
        Ok(self.subject_falls(s, object.label))
    }

    fn mark(&mut self, s: u64, p: u64) -> Result<Answer, Refusal> {
        let s = self.tables.subject(s)?;
        let Held { p, .. } = self.tables.held(s, p)?;
        self.tables.mark(s.number, p);
        Ok(allowed(s.label))
    }

    fn freeze(&mut self, level: u64) -> Result<Answer, Refusal> {
        self.tables.freeze = freeze_in_range(level)?;
        Ok(Answer::Allowed(self.tables.freeze))
    }

    /// Pipe a from s to t and pipe b from t to s, each read at p and written at q.
    fn connect(&mut self, [s, t]: [u64; 2], [a, b]: [u64; 2], [p, q]: [u64; 2]) -> Result<Answer, Refusal> {
        let [s, t] = self.tables.two_subjects(s, t)?;
        let [slot_a, slot_b] = self.tables.two_new_objects(a, b)?;
        let [p, q] = self.tables.two_empty_places(s, p, q).and(self.tables.two_empty_places(t, p, q))?;
        self.test_flow([Place::between(s, t), Place::between(t, s)])?;
        for (writer, reader, slot, o) in [(s, t, slot_a, a), (t, s, slot_b, b)] {
            self.tables.bring(slot, o, Kind::Pipe, writer.label);
            self.tables.fill(writer, q, slot, Direction::Writing);
            self.tables.fill(reader, p, slot, Direction::Reading);
        }
        Ok(allowed(s.label))
    }

    fn thread(&mut self, s: u64, c: u64) -> Result<Answer, Refusal> {
        let s = self.tables.subject(s)?;
        let c = self.tables.new_subject(c)?;
        self.tables.join(s, c);
        Ok(allowed(s.label))
    }

    /// A subject falls to a label, and its mates with it.
    fn subject_falls(&mut self, s: Subject, to: Label) -> Answer {
        fall(s.label, to, |label| self.tables.set_label(s, label))
    }
}

/// When needs are worked out, and of what.
impl Monitor {
    /// Refusal 9: with what is sought, every live subject and object has a label that is at least its need. So has
    /// then a new pipe, which has its writer's label and its reader's need.
    fn test_flow<const N: usize>(&mut self, sought: [Place; N]) -> Result<(), Refusal> {
        self.ask(|needs, tables| needs.work_out(tables, sought));
        if self.needs.are_met(&self.tables) {
            Ok(())
        } else {
            Err(Refusal::Flow)
        }
    }

    /// Works needs out for the test of a call, unless that was done before all else.
    fn ask(&mut self, work_out: impl FnOnce(&mut Needs, &Tables)) {
        if self.when == When::Asked {
            work_out(&mut self.needs, &self.tables);
        }
    }

    /// Works the needs out that a call is tested by, where the subjects and the object that it names are live: for an exec,
    /// without what does not count then; for an open, a map or a connect, with what it seeks.
    fn work_out_for(&mut self, call: Call) {
        let Monitor { tables, needs, .. } = self;
        let worked_out = match call {
            Call::Exec { s, .. } => tables.subject(s).map(|s| needs.work_out_at_exec(tables, s)),
            Call::Open { s, o, direction, .. } => {
                sought(tables, s, o, direction).map(|place| needs.work_out(tables, [place]))
            }
            Call::Map { s, o, .. } => {
                sought(tables, s, o, Direction::Reading).map(|place| needs.work_out(tables, [place]))
            }
            Call::Connect { s, t, .. } => tables
                .two_subjects(s, t)
                .map(|[s, t]| needs.work_out(tables, [Place::between(s, t), Place::between(t, s)])),
            _ => return needs.work_out(tables, []),
        };
        worked_out.unwrap_or_else(|_| needs.work_out(tables, []))
    }
}

/// The handle of a subject on an object.
fn sought(tables: &Tables, s: u64, o: u64, direction: Direction) -> Result<Place, Refusal> {
    let s = tables.subject(s)?;
    let (o, _) = tables.object(o)?;
    Ok(Place::of(s.group, o, direction))
}

/// Allowed, and what has the label stays as it is.
fn allowed(label: Label) -> Answer {
    Answer::Allowed(label.level())
}

/// What has a label falls to another: it is lowered where that one is below its own.
fn fall(from: Label, to: Label, set: impl FnOnce(Label)) -> Answer {
    let now = from.fallen_to(to);
    if now == from {
        return allowed(from);
    }
    set(now);
    Answer::Lowered(now.level(), from.lost(now))
}

#[cfg(test)]
mod tests {
    use super::*;

    /// Nothing is left of it in 32 bits.
    const CUT: u64 = 1 << 32;

    /// Makes calls on new tables, some allowed and a last one; the answer to that. Numbers that are not given are 0.
    fn last<const N: usize>(calls: &[(u64, [u64; N])]) -> Answer {
        let answers = [When::EachCall, When::Asked].map(|when| {
            let mut monitor = Monitor::new(when);
            let answers = calls.iter().map(|&(code, given)| {
                let mut numbers = [0; NUMBERS];
                numbers[..N].copy_from_slice(&given);
                monitor.direct(code, numbers)
            });
            answers.last()
        });
        assert_eq!(answers[0], answers[1]);
        answers[0].expect("there is a call")
    }

    #[test]
    fn the_smallest_number_is_given() {
        assert_eq!(last(&[(99, [0; 4])]), Answer::Refused(1));
        // An open whose subject, object and place are all unfit, and with less and less of that.
        assert_eq!(last(&[(5, [0, 0, 16, 0])]), Answer::Refused(2));
        assert_eq!(last(&[(1, [0, 9, 255, 0]), (5, [0, 0, 16, 0])]), Answer::Refused(4));
        assert_eq!(
            last(&[(1, [0, 9, 255, 0]), (2, [0, 9, 255, 0]), (5, [0, 0, 16, 0])]),
            Answer::Refused(7)
        );
        // A new subject whose number and level are unfit.
        assert_eq!(last(&[(1, [32, 16, 255, 0])]), Answer::Refused(3));
        assert_eq!(last(&[(1, [31, 16, 255, 0])]), Answer::Refused(6));
    }

    #[test]
    fn no_number_is_cut() {
        assert_eq!(last(&[(CUT | 1, [0, 9, 0, 0])]), Answer::Refused(1));
        assert_eq!(last(&[(1, [CUT, 9, 255, 0])]), Answer::Refused(3));
        assert_eq!(last(&[(1, [0, CUT, 255, 0])]), Answer::Refused(6));
        assert_eq!(last(&[(1, [0, CUT | 16, 255, 0])]), Answer::Refused(6));
        assert_eq!(last(&[(2, [0, CUT, 255, 0])]), Answer::Refused(6));
        assert_eq!(last(&[(16, [CUT, 0, 0, 0])]), Answer::Refused(6));
        let start = [(1, [0, 9, 255, 0]), (2, [0, 9, 255, 0]), (5, [0, 0, 0, 0])];
        let after = |code, numbers| last(&[&start[..], &[(code, numbers)]].concat());
        for code in (3..=12).chain([14, 15, 18]) {
            assert_eq!(after(code, [CUT, 0, 0, 0]), Answer::Refused(2), "{code}");
        }
        for code in [9, 18] {
            assert_eq!(after(code, [0, CUT | 1, 0, 0]), Answer::Refused(3), "{code}");
        }
        for code in [5, 6, 10, 14] {
            assert_eq!(after(code, [0, CUT, 1, 0]), Answer::Refused(4), "{code}");
        }
        assert_eq!(after(13, [CUT, 0, 0, 0]), Answer::Refused(4));
        for code in [7, 8, 11, 15] {
            assert_eq!(after(code, [0, CUT, 0, 0]), Answer::Refused(7), "{code}");
        }
        for code in [5, 6, 14] {
            assert_eq!(after(code, [0, 0, CUT | 1, 0]), Answer::Refused(7), "{code}");
        }
        assert_eq!(after(4, [0, CUT, CUT | 1, 2]), Answer::Refused(7));
        assert_eq!(after(4, [0, CUT, 1, CUT | 2]), Answer::Refused(7));
        // Another object, as it has another number.
        assert_eq!(after(2, [CUT, 4, 255, 0]), Answer::Allowed(4));
        assert_eq!(after(4, [0, u64::MAX, 1, 2]), Answer::Allowed(9));
    }

    /// Subjects 0 of level 9 and 1 of level 8, and this many files from number 1,000 on, each 64 above the last.
    fn files(count: u64) -> Vec<(u64, [u64; 6])> {
        let subjects = [(1, [0, 9, 255, 0, 0, 0]), (1, [1, 8, 255, 0, 0, 0])];
        let files = (0..count).map(|file| (2, [1_000 + 64 * file, 8, 255, 0, 0, 0]));
        subjects.into_iter().chain(files).collect()
    }

    #[test]
    fn sixty_four_objects_are_live_at_a_time() {
        let register = (2, [7, 16, 255, 0, 0, 0]);
        let one_more =
            [register, (3, [0, 7, 0, 0, 0, 0]), (4, [0, 7, 16, 16, 0, 0]), (17, [0, 1, 7, 8, 16, 16])];
        // It is tested after 3, and before 6 and 7.
        for (code, numbers) in one_more {
            let full = files(64);
            assert_eq!(last(&[&full[..], &[(code, numbers)]].concat()), Answer::Refused(17), "{code}");
            let mut taken = numbers;
            taken[usize::from(code != 2) + usize::from(code == 17)] = 1_064;
            assert_eq!(last(&[&full[..], &[(code, taken)]].concat()), Answer::Refused(3), "{code}");
        }
        let retire = (13, [1_064, 0, 0, 0, 0, 0]);
        let after = |call| last(&[&files(64)[..], &[retire, call]].concat());
        assert_eq!(after(register), Answer::Refused(6));
        assert_eq!(after((3, [0, 7, 0, 0, 0, 0])), Answer::Allowed(9));
        assert_eq!(after((4, [0, 7, 0, 1, 0, 0])), Answer::Allowed(9));
        assert_eq!(after((17, [0, 1, 7, 8, 0, 1])), Answer::Refused(17));
        assert_eq!(after((17, [0, 1, 7, 7, 0, 1])), Answer::Refused(3));
        assert_eq!(after((17, [0, 0, 7, 8, 0, 1])), Answer::Refused(16));
    }

    #[test]
    fn what_ends_makes_space() {
        let connect = (17, [0, 1, 1_064, u64::MAX, 0, 1]);
        let retire = |o| (13, [o, 0, 0, 0, 0, 0]);
        let full = [&files(64)[..], &[retire(1_064), retire(1_128), connect]].concat();
        let after = |calls: &[(u64, [u64; 6])]| last(&[&full[..], calls].concat());
        let register = |o| (2, [o, 3, 255, 0, 0, 0]);
        assert_eq!(last(&full), Answer::Allowed(9));
        assert_eq!(after(&[register(5)]), Answer::Refused(17));
        assert_eq!(after(&[register(u64::MAX)]), Answer::Refused(3));
        // A pipe ends with its last handle, and not with its first.
        assert_eq!(after(&[at(11, 0, 1), register(5)]), Answer::Refused(17));
        assert_eq!(after(&[at(11, 0, 1), at(11, 1, 0), register(5)]), Answer::Allowed(3));
        assert_eq!(after(&[at(11, 0, 1), at(11, 1, 0), register(5), register(6)]), Answer::Refused(17));
        assert_eq!(after(&[(12, [0; 6]), register(5)]), Answer::Refused(17));
        let exits = [(12, [0; 6]), (12, [1, 0, 0, 0, 0, 0])];
        assert_eq!(after(&[&exits[..], &[register(5), register(6)]].concat()), Answer::Allowed(3));
        // The others are where they were.
        assert_eq!(after(&[at(10, 0, 1_000 + 64 * 63)]), Answer::Lowered(8, 0));
    }

    #[test]
    fn a_frozen_file_is_not_opened_for_writing() {
        let start = [(1, [0, 9, 255, 0]), (2, [0, 9, 255, 0]), (4, [0, 1, 0, 1])];
        let after = |calls: &[(u64, [u64; 4])]| last(&[&start[..], calls].concat());
        let (file, pipe) = ([0, 0, 2, 0], [0, 1, 2, 0]);
        for level in 0..=16 {
            let answer = if level > 9 { Answer::Allowed(9) } else { Answer::Refused(15) };
            assert_eq!(after(&[(16, [level; 4])]), Answer::Allowed(level as u8));
            assert_eq!(after(&[(16, [level; 4]), (6, file)]), answer, "{level}");
            assert_eq!(after(&[(16, [level; 4]), (6, pipe)]), Answer::Allowed(9));
            assert_eq!(after(&[(16, [level; 4]), (5, file)]), Answer::Allowed(9));
            assert_eq!(after(&[(6, file), (16, [level; 4]), (8, [0, 2, 0, 0])]), Answer::Allowed(9));
        }
        assert_eq!(after(&[(16, [0; 4]), (16, [16; 4]), (6, file)]), Answer::Allowed(9));
        assert_eq!(after(&[(16, [0; 4]), (16, [17; 4])]), Answer::Refused(6));
        assert_eq!(after(&[(16, [0; 4]), (16, [17; 4]), (6, file)]), Answer::Refused(15));
    }

    #[test]
    fn the_freeze_is_said_before_the_flow() {
        let start = [(1, [0, 9, 255, 0]), (2, [0, 9, 255, 0]), (4, [0, 1, 0, 1]), (1, [1, 8, 255, 0])];
        let after = |calls: &[(u64, [u64; 4])]| last(&[&start[..], calls].concat());
        let (held, freeze) = ((6, [0, 0, 2, 0]), |level| (16, [level, 0, 0, 0]));
        // Subject 1 is below file 0.
        assert_eq!(after(&[freeze(9), (6, [1, 0, 0, 0])]), Answer::Refused(15));
        assert_eq!(after(&[freeze(9), (6, [1, 0, 16, 0])]), Answer::Refused(7));
        assert_eq!(after(&[freeze(10), (6, [1, 0, 0, 0])]), Answer::Refused(9));
        assert_eq!(after(&[freeze(9), freeze(16), (6, [1, 0, 0, 0])]), Answer::Refused(9));
        // A pipe is not frozen.
        assert_eq!(after(&[held, freeze(0), (6, [1, 1, 0, 0])]), Answer::Refused(9));
        // Nor is anything for reading.
        let low = (2, [2, 8, 255, 0]);
        assert_eq!(after(&[held, low, freeze(0), (5, [0, 2, 3, 0])]), Answer::Refused(9));
        assert_eq!(after(&[held, low, freeze(0), (14, [0, 2, 3, 0])]), Answer::Refused(9));
    }

    #[test]
    fn an_exec_leaves_the_caller_s_marked_handles_out_and_closes_them() {
        let start = [(1, [0, 9, 255, 0]), (2, [0, 9, 255, 0]), (2, [1, 2, 255, 0]), (6, [0, 0, 0, 0])];
        let after = |calls: &[(u64, [u64; 4])]| last(&[&start[..], calls].concat());
        let (mark, exec, write) = ((15, [0; 4]), (10, [0, 1, 0, 0]), (8, [0; 4]));
        assert_eq!(after(&[mark]), Answer::Allowed(9));
        assert_eq!(after(&[mark, mark]), Answer::Allowed(9));
        assert_eq!(after(&[(15, [0, 1, 0, 0])]), Answer::Refused(7));
        assert_eq!(after(&[(15, [0, 16, 0, 0])]), Answer::Refused(7));
        assert_eq!(after(&[(15, [1, 16, 0, 0])]), Answer::Refused(2));
        assert_eq!(after(&[exec]), Answer::Refused(9));
        assert_eq!(after(&[mark, exec]), Answer::Lowered(2, 0));
        assert_eq!(after(&[mark, exec, write]), Answer::Refused(7));
        // A second handle is not marked: the exec is refused and the first one stays.
        let second = (6, [0, 0, 1, 0]);
        assert_eq!(after(&[mark, second, exec]), Answer::Refused(9));
        assert_eq!(after(&[mark, second, exec, write]), Answer::Allowed(9));
        // The mark went with its handle.
        assert_eq!(after(&[mark, (11, [0; 4]), (6, [0; 4]), exec]), Answer::Refused(9));
        // A fork copies the mark, and each of the two has its own.
        let (fork, child) = ((9, [0, 1, 0, 0]), (10, [1, 1, 0, 0]));
        assert_eq!(after(&[mark, fork, child]), Answer::Lowered(2, 0));
        assert_eq!(after(&[mark, fork, child, write]), Answer::Allowed(9));
        assert_eq!(after(&[fork, mark, child]), Answer::Refused(9));
    }

    #[test]
    fn a_pipe_ends_with_the_exec_that_closes_its_last_handle() {
        let start = [(1, [0, 9, 255, 0]), (2, [0, 9, 255, 0]), (4, [0, 5, 0, 1]), (15, [0, 0, 0, 0])];
        let ended = [(15, [0, 1, 0, 0]), (10, [0; 4])];
        let again = (2, [5, 4, 255, 0]);
        assert_eq!(last(&[&start[..], &ended[..], &[again]].concat()), Answer::Allowed(4));
        assert_eq!(last(&[&start[..], &ended[1..], &[again]].concat()), Answer::Refused(3));
    }

    #[test]
    fn a_map_is_an_open_for_reading_and_a_read() {
        let start = [(1, [0, 9, 255, 0]), (2, [0, 9, 255, 0]), (2, [1, 2, 255, 0]), (4, [0, 5, 14, 15])];
        let after = |calls: &[(u64, [u64; 4])]| last(&[&start[..], calls].concat());
        let (high, low) = ((14, [0, 0, 0, 0]), (14, [0, 1, 1, 0]));
        assert_eq!(after(&[high]), Answer::Allowed(9));
        assert_eq!(after(&[low]), Answer::Lowered(2, 0));
        assert_eq!(after(&[low, high]), Answer::Allowed(2));
        assert_eq!(after(&[low, (7, [0, 1, 0, 0])]), Answer::Allowed(2));
        assert_eq!(after(&[low, (8, [0, 1, 0, 0])]), Answer::Refused(8));
        // Unfit in every way, and in less and less of them.
        assert_eq!(after(&[(14, [1, 64, 16, 0])]), Answer::Refused(2));
        assert_eq!(after(&[(14, [0, 64, 16, 0])]), Answer::Refused(4));
        assert_eq!(after(&[(14, [0, 5, 16, 0])]), Answer::Refused(5));
        assert_eq!(after(&[(6, [0, 0, 0, 0]), (14, [0, 1, 16, 0])]), Answer::Refused(7));
        assert_eq!(after(&[(6, [0, 0, 0, 0]), (14, [0, 1, 0, 0])]), Answer::Refused(7));
        assert_eq!(after(&[(6, [0, 0, 0, 0]), low]), Answer::Refused(9));
        assert_eq!(after(&[(16, [0; 4]), low]), Answer::Lowered(2, 0));
    }

    #[test]
    fn a_write_to_a_mapped_file_lowers_nobody() {
        let start = [(1, [0, 9, 255, 0]), (1, [1, 9, 255, 0]), (2, [0, 2, 255, 0]), (14, [1, 0, 0, 0])];
        let after = |calls: &[(u64, [u64; 4])]| last(&[&start[..], calls].concat());
        let (open, write) = ((6, [0, 0, 3, 0]), (8, [0, 3, 0, 0]));
        assert_eq!(after(&[open, write]), Answer::Allowed(2));
        assert_eq!(after(&[open, write, (7, [1, 0, 0, 0])]), Answer::Allowed(2));
        assert_eq!(after(&[open, write, (11, [0, 3, 0, 0])]), Answer::Allowed(9));
    }

    #[test]
    fn an_exec_closes_the_caller_s_mappings() {
        let start = [(1, [0, 9, 255, 0]), (2, [0, 9, 255, 0]), (2, [1, 2, 255, 0]), (14, [0, 0, 0, 0])];
        let after = |calls: &[(u64, [u64; 4])]| last(&[&start[..], calls].concat());
        let (exec, read) = ((10, [0; 4]), (7, [0; 4]));
        assert_eq!(after(&[exec]), Answer::Allowed(9));
        assert_eq!(after(&[exec, read]), Answer::Refused(7));
        assert_eq!(after(&[(5, [0, 0, 1, 0]), exec, (7, [0, 1, 0, 0])]), Answer::Allowed(9));
        // What is opened where it was is no mapping.
        assert_eq!(after(&[exec, (5, [0; 4]), exec, read]), Answer::Allowed(9));
        // A refused exec closes none, and a fork copies it.
        assert_eq!(after(&[(6, [0, 0, 1, 0]), (10, [0, 1, 0, 0])]), Answer::Refused(9));
        assert_eq!(after(&[(6, [0, 0, 1, 0]), (10, [0, 1, 0, 0]), read]), Answer::Allowed(9));
        let (fork, child) = ((9, [0, 1, 0, 0]), (10, [1, 0, 0, 0]));
        assert_eq!(after(&[fork, child, (7, [1, 0, 0, 0])]), Answer::Refused(7));
        assert_eq!(after(&[fork, child, read]), Answer::Allowed(9));
    }

    /// Subjects 0 of level 9 and 1 of level 2, files 0 of level 9 and 1 of level 2, then these calls.
    fn after(calls: &[(u64, [u64; 6])]) -> Answer {
        let start = [
            (1, [0, 9, 255, 0, 0, 0]),
            (1, [1, 2, 255, 0, 0, 0]),
            (2, [0, 9, 255, 0, 0, 0]),
            (2, [1, 2, 255, 0, 0, 0]),
        ];
        last(&[&start[..], calls].concat())
    }

    const CONNECT: (u64, [u64; 6]) = (17, [0, 1, 5, 6, 3, 4]);

    /// A call at a place of a subject.
    fn at(code: u64, s: u64, p: u64) -> (u64, [u64; 6]) {
        (code, [s, p, 0, 0, 0, 0])
    }

    #[test]
    fn a_connect_makes_a_pipe_each_way() {
        assert_eq!(after(&[CONNECT]), Answer::Allowed(9));
        assert_eq!(after(&[(17, [1, 0, 5, 6, 3, 4])]), Answer::Allowed(2));
        // Each pipe has its writer's level.
        assert_eq!(after(&[CONNECT, at(8, 0, 4)]), Answer::Allowed(9));
        assert_eq!(after(&[CONNECT, at(7, 1, 3)]), Answer::Allowed(2));
        assert_eq!(after(&[CONNECT, at(8, 1, 4)]), Answer::Allowed(2));
        assert_eq!(after(&[CONNECT, at(7, 0, 3)]), Answer::Lowered(2, 0));
        for s in [0, 1] {
            assert_eq!(after(&[CONNECT, at(7, s, 4)]), Answer::Refused(8));
            assert_eq!(after(&[CONNECT, at(8, s, 3)]), Answer::Refused(8));
        }
        // A pipe ends with its last handle.
        let again = (2, [5, 4, 255, 0, 0, 0]);
        assert_eq!(after(&[CONNECT, at(11, 0, 4), again]), Answer::Refused(3));
        assert_eq!(after(&[CONNECT, at(11, 0, 4), at(11, 1, 3), again]), Answer::Allowed(4));
    }

    #[test]
    fn a_connect_is_refused_for_its_numbers_in_order() {
        let connect = |numbers| after(&[(17, numbers)]);
        for missing in [2, 32, CUT] {
            assert_eq!(connect([missing, missing, 64, 64, 16, 16]), Answer::Refused(2));
            assert_eq!(connect([0, missing, 64, 64, 16, 16]), Answer::Refused(2));
        }
        assert_eq!(connect([0, 0, 64, 64, 16, 16]), Answer::Refused(16));
        for (a, b) in [(0, 6), (5, 1), (5, 5), (64, 64)] {
            assert_eq!(connect([0, 1, a, b, 16, 16]), Answer::Refused(3));
        }
        for (p, q) in [(16, 4), (3, 16), (3, 3), (CUT, 4), (3, CUT)] {
            assert_eq!(connect([0, 1, 5, 6, p, q]), Answer::Refused(7));
        }
        // Places that are in use at one of the two, and then the flow, one way and the other.
        let write = (6, [0, 0, 3, 0, 0, 0]);
        assert_eq!(after(&[write, CONNECT]), Answer::Refused(7));
        assert_eq!(after(&[write, (17, [1, 0, 5, 6, 4, 3])]), Answer::Refused(7));
        let write = (6, [0, 0, 9, 0, 0, 0]);
        assert_eq!(after(&[write, CONNECT]), Answer::Refused(9));
        assert_eq!(after(&[write, (17, [1, 0, 5, 6, 3, 4])]), Answer::Refused(9));
        assert_eq!(after(&[write, at(11, 0, 9), CONNECT]), Answer::Allowed(9));
        // Upstream of the one end, a file that it has open and has not read.
        let (admit, read) = ((1, [2, 9, 255, 0, 0, 0]), (5, [2, 1, 0, 0, 0, 0]));
        assert_eq!(after(&[write, admit, (17, [0, 2, 5, 6, 3, 4])]), Answer::Allowed(9));
        assert_eq!(after(&[write, admit, read, (17, [0, 2, 5, 6, 3, 4])]), Answer::Refused(9));
    }

    #[test]
    fn a_read_lowers_and_an_open_does_not() {
        let open = [(2, [0, 2, 255, 0]), (1, [0, 9, 255, 0]), (5, [0, 0, 15, 0])];
        assert_eq!(last(&open), Answer::Allowed(2));
        assert_eq!(last(&[&open[..], &[(7, [0, 15, 0, 0])]].concat()), Answer::Lowered(2, 0));
        assert_eq!(last(&[&open[..], &[(11, [0, 15, 0, 0])]].concat()), Answer::Allowed(9));
    }
}

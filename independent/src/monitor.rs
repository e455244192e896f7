//! The monitor: RULES C1 to C18 and C113 to C119, effects, levels in the answers and marks lost; and the counting of
//! handles, RULES Y1 to Y9 and Y13.
//!
//! `Monitor::call` is the direct call: a code and six numbers in, an answer out.

use std::fmt;

use crate::calls::{Call, Numbers};
use crate::labels::Label;
use crate::needs::Needs;
use crate::refusals;
use crate::tables::{Direction, Handle, Kind, Object, Subject, Tables, Tally};
use crate::variants::Rules;

/// What a call is answered with.
#[must_use]
#[derive(Clone, Copy, Debug, PartialEq, Eq)]
pub enum Answer {
    /// Allowed, with a level.
    Allowed(u64),
    /// RULES C104, C118: C7, C8, C10 or C14 made a level smaller or took a mark away; with the level that the answer
    /// gives, and how many marks the thing has lost whose level it is.
    Lowered(u64, u64),
    /// Refused, with the refusal number.
    Refused(u32),
}

impl Answer {
    /// RULES P7.
    pub fn letter(self) -> char {
        match self {
            Answer::Allowed(_) => 'A',
            Answer::Lowered(..) => 'L',
            Answer::Refused(_) => 'R',
        }
    }

    /// RULES P8.
    pub fn number(self) -> u64 {
        match self {
            Answer::Allowed(level) | Answer::Lowered(level, _) => level,
            Answer::Refused(number) => number.into(),
        }
    }

    /// The level in the answer; a refusal's is 0 (RULES R101).
    pub fn level(self) -> u64 {
        match self {
            Answer::Allowed(level) | Answer::Lowered(level, _) => level,
            Answer::Refused(_) => 0,
        }
    }

    /// RULES C118: how many marks were lost, which only a lowered answer says.
    pub fn marks_lost(self) -> Option<u64> {
        match self {
            Answer::Lowered(_, lost) => Some(lost),
            Answer::Allowed(_) | Answer::Refused(_) => None,
        }
    }
}

/// Letter, value, and of a lowered answer the marks lost, as in a reply line.
impl fmt::Display for Answer {
    fn fmt(&self, formatter: &mut fmt::Formatter<'_>) -> fmt::Result {
        write!(formatter, "{} {}", self.letter(), self.number())?;
        self.marks_lost().map_or(Ok(()), |lost| write!(formatter, " {lost}"))
    }
}

/// The tables and the tally, and the calls on them.
#[derive(Clone, Debug)]
pub struct Monitor {
    pub(crate) tables: Tables,
    pub(crate) tally: Tally,
    /// The needs worked out last. No rule looks at them: only the variant that never lets one sink.
    kept: Needs,
    /// Places whose marked handle went. No rule looks at them: only variants whose marks outlive their handles.
    pub(crate) left_marks: Vec<(u64, u64)>,
    /// The same of mappings.
    pub(crate) left_maps: Vec<(u64, u64)>,
    /// The pipes that connects made, two by two. No rule looks at them: only variants in which they end
    /// otherwise.
    pub(crate) channels: Vec<[u64; 2]>,
    /// Numbers of objects that are gone. No rule looks at them: only variants in which they still take space.
    pub(crate) left_objects: Vec<u64>,
    /// The live subjects that a thread made. No rule looks at them: only variants in which the first of a group, which
    /// is none of them, counts for more.
    pub(crate) threads: Vec<u64>,
    /// Numbers of subjects that are gone, each with a mate that stayed. No rule looks at them: only variants in which
    /// such a number is in its group again.
    pub(crate) left_mates: Vec<(u64, u64)>,
    /// Children, each with what its parent's group needed. No rule looks at them: only the variant in which they need
    /// it, too.
    pub(crate) floors: Vec<(u64, Label)>,
    rules: Rules,
}

impl Default for Monitor {
    fn default() -> Monitor {
        Monitor::new()
    }
}

impl Monitor {
    /// Empty tables and a tally of 0 and 0, by the rules as they are.
    pub fn new() -> Monitor {
        Monitor::by(Rules::default())
    }

    /// The same by other rules; see `variants`.
    pub fn by(rules: Rules) -> Monitor {
        Monitor::of_tables(Tables::new(rules.limits()), rules)
    }

    /// A monitor with any tables, those that no calls could have made among them. Where they are a host's, with
    /// objects in slots and handles that name these, see `StoredTables`.
    pub fn of_tables(tables: Tables, rules: Rules) -> Monitor {
        let kept = Needs::none(&tables);
        Monitor {
            tables,
            tally: Tally::default(),
            kept,
            left_marks: Vec::new(),
            left_maps: Vec::new(),
            channels: Vec::new(),
            left_objects: Vec::new(),
            threads: Vec::new(),
            left_mates: Vec::new(),
            floors: Vec::new(),
            rules,
        }
    }

    pub fn tables(&self) -> &Tables {
        &self.tables
    }

    pub fn tally(&self) -> Tally {
        self.tally
    }

    /// The direct call: RULES C106, C107. No number is cut, and neither is the code.
    pub fn call(&mut self, code: u64, numbers: Numbers) -> Answer {
        // RULES R1: an unknown code.
        let Some(call) = Call::new(self.rules.bend_code(code), self.rules.bend_numbers(code, numbers))
        else {
            return Answer::Refused(1);
        };
        if self.rules.are_right() {
            return self.make(call);
        }
        let call = self.rules.bend_named(&self.tables, call);
        let before = self.clone();
        let answer = self.make(call);
        self.rules.bend_outcome(&before, self, call, answer)
    }

    /// RULES A8: the call has its effect, whatever refuses it. No answer comes of it: section A alone asks what would have
    /// been. Its subjects and its objects are to be there.
    pub(crate) fn let_through(&mut self, call: Call) -> Answer {
        self.tables.empty_uncounted_places();
        self.effect(call)
    }

    /// Works every need out from nothing, then refuses the call or gives it its effect.
    fn make(&mut self, call: Call) -> Answer {
        let needs = refusals::needs_for(&self.tables, call, self.rules, &self.kept);
        // RULES R102, R103: the monitor and the tally stay as they were.
        if let Some(number) = refusals::refusal(&self.tables, call, &needs, self.rules) {
            return Answer::Refused(number);
        }
        self.kept = needs;
        // RULES T19: places that count as empty are emptied first.
        self.tables.empty_uncounted_places();
        self.effect(call)
    }

    /// RULES C1 to C18, row by row, for a call that is not refused.
    fn effect(&mut self, call: Call) -> Answer {
        match call {
            // RULES C1, C113.
            Call::Admit { s, level, shops } => {
                self.tables.set_subject(s, Some(Subject { level, shops }));
                Answer::Allowed(level)
            }

            // RULES C2.
            Call::Register { o, level, shops } => {
                self.new_object(o, Kind::File, Label { level, shops });
                Answer::Allowed(level)
            }

            // RULES C3.
            Call::Create { s, o } => {
                let label = self.subject_label(s);
                self.new_object(o, Kind::File, label);
                Answer::Allowed(label.level)
            }

            // RULES C4.
            Call::Pipe { s, o, r, w } => {
                let label = self.subject_label(s);
                self.new_object(o, Kind::Pipe, label);
                self.place_handle(s, r, Handle::new(o, Direction::Reading));
                self.place_handle(s, w, Handle::new(o, Direction::Writing));
                Answer::Allowed(label.level)
            }

            // RULES C5.
            Call::OpenRead { s, o, p } => {
                self.place_handle(s, p, Handle::new(o, Direction::Reading));
                Answer::Allowed(self.object_label(o).level)
            }

            // RULES C6.
            Call::OpenWrite { s, o, p } => {
                self.place_handle(s, p, Handle::new(o, Direction::Writing));
                Answer::Allowed(self.object_label(o).level)
            }

            // RULES C7.
            Call::Read { s, p } => {
                let to = self.held_object(s, p).map_or(Label::LEAST, |(_, object)| object.label());
                self.lower_subject(call, s, to)
            }

            // RULES C8.
            Call::Write { s, p } => match self.held_object(s, p) {
                Some((o, object)) if object.kind == Kind::File => self.reread(call, o, object.label()),
                Some((o, pipe)) => {
                    let (before, to) = (pipe.label(), self.subject_label(s));
                    let after = self.rules.bend_fall(call, false, before, to);
                    self.new_object(o, Kind::Pipe, after);
                    if after == before {
                        Answer::Allowed(after.level)
                    } else {
                        Answer::Lowered(after.level, before.marks_lost_by(after))
                    }
                }
                None => Answer::Allowed(0),
            },

            // RULES C9, C113: each handle with its mark, and a mapping as a mapping; a group of its own.
            Call::Fork { s, c } => {
                let label = self.subject_label(s);
                self.tables.set_subject(c, Some(Subject::new(label)));
                let handles: Vec<(u64, Handle)> = self.tables.handles_of(s).collect();
                for (p, handle) in handles {
                    self.place_handle(c, p, handle);
                }
                Answer::Allowed(label.level)
            }

            // RULES C10, C116, Y13: the mates end, and the marked handles and the mappings go.
            Call::Exec { s, o } => {
                let to = self.object_label(o);
                let mates: Vec<u64> = self.tables.mates(s).collect();
                for mate in mates {
                    self.end_subject(mate);
                }
                let ending: Vec<u64> = self.tables.places_ending_at_exec(s).collect();
                for p in ending {
                    self.remove_handle(s, p);
                }
                self.lower_subject(call, s, to)
            }

            // RULES C11.
            Call::Close { s, p } => {
                self.remove_handle(s, p);
                Answer::Allowed(self.subject_label(s).level)
            }

            // RULES C12, C115: s alone.
            Call::Exit { s } => {
                let level = self.subject_label(s).level;
                self.end_subject(s);
                Answer::Allowed(level)
            }

            // RULES C13.
            Call::Retire { o } => {
                let level = self.object_label(o).level;
                self.tables.set_object(o, None);
                Answer::Allowed(level)
            }

            // RULES C14: the handle, and a read at that moment.
            Call::Map { s, o, p } => {
                self.place_handle(s, p, Handle::mapping(o));
                self.lower_subject(call, s, self.object_label(o))
            }

            // RULES C15.
            Call::Mark { s, p } => {
                self.tables.mark(s, p);
                Answer::Allowed(self.subject_label(s).level)
            }

            // RULES C16.
            Call::Freeze { level } => {
                self.tables.set_freeze(level);
                Answer::Allowed(level)
            }

            // RULES C17: a from s to t under the label of s, b from t to s under that of t.
            Call::Connect { s, t, a, b, .. } => {
                self.new_object(a, Kind::Pipe, self.subject_label(s));
                self.new_object(b, Kind::Pipe, self.subject_label(t));
                for (holder, place, handle) in call.ends() {
                    self.place_handle(holder, place, handle);
                }
                Answer::Allowed(self.subject_label(s).level)
            }

            // RULES C18: no handle comes with it.
            Call::Thread { s, c } => {
                let label = self.subject_label(s);
                self.tables.set_subject(c, Some(Subject::new(label)));
                self.tables.join_groups(s, c);
                Answer::Allowed(label.level)
            }
        }
    }

    fn new_object(&mut self, o: u64, kind: Kind, label: Label) {
        self.tables.set_object(o, Some(Object::new(kind, label)));
    }

    /// Places a handle, and counts it: RULES Y2, Y3, Y4.
    fn place_handle(&mut self, s: u64, p: u64, handle: Handle) {
        self.tables.set_handle(s, p, Some(handle));
        self.tally.count_made(1);
    }

    /// Empties a place, and counts it: RULES Y5, Y6, Y13. A pipe ends when its last handle goes: RULES C102.
    pub(crate) fn remove_handle(&mut self, s: u64, p: u64) {
        let Some((o, object)) = self.held_object(s, p) else {
            return;
        };
        self.tables.set_handle(s, p, None);
        self.tally.count_gone(1);
        if object.kind == Kind::Pipe && !self.tables.is_held(o) {
            self.tables.set_object(o, None);
        }
    }

    /// RULES C12, C116: the places of a subject are emptied, and its number is free.
    pub(crate) fn end_subject(&mut self, s: u64) {
        for p in 0..self.tables.limits().places {
            self.remove_handle(s, p);
        }
        self.tables.set_subject(s, None);
    }

    /// RULES C8, C104, C111, C117, C118: what follows a write to a file of this label. Each subject that has it mapped
    /// reads it once, the lowest number first; the answer has the file's level, and is lowered if one of them, or a
    /// mate, fell. The file itself has lost no mark.
    fn reread(&mut self, call: Call, o: u64, file: Label) -> Answer {
        let mappers: Vec<u64> = self.tables.mappers(o).collect();
        let mut answer = Answer::Allowed(file.level);
        for s in mappers {
            if let Answer::Lowered(..) = self.lower_subject(call, s, file) {
                answer = Answer::Lowered(file.level, 0);
            }
        }
        answer
    }

    /// RULES C104, C114, C118: a subject and each of its mates fall to this label. The answer has the subject's level and
    /// the marks that it has lost, and is lowered if one of them fell.
    fn lower_subject(&mut self, call: Call, s: u64, to: Label) -> Answer {
        let before = self.subject_label(s);
        let members: Vec<u64> = self.tables.members(s).collect();
        let mut has_fallen = false;
        for member in members {
            let own = self.subject_label(member);
            let fallen = self.rules.bend_fall(call, member != s, own, to);
            has_fallen |= fallen != own;
            self.tables.set_subject(member, Some(Subject::new(fallen)));
        }
        let after = self.subject_label(s);
        if has_fallen {
            Answer::Lowered(after.level, before.marks_lost_by(after))
        } else {
            Answer::Allowed(after.level)
        }
    }

    fn held_object(&self, s: u64, p: u64) -> Option<(u64, Object)> {
        let o = self.tables.handle(s, p)?.object;
        Some((o, self.tables.object(o)?))
    }

    /// The label of a subject that no refusal found missing.
    fn subject_label(&self, s: u64) -> Label {
        self.tables.subject(s).map_or(Label::LEAST, |subject| subject.label())
    }

    /// The label of an object that no refusal found missing.
    fn object_label(&self, o: u64) -> Label {
        self.tables.object(o).map_or(Label::LEAST, |object| object.label())
    }
}

//! Which calls are refused: RULES R2 to R10 and R15 to R17.
//!
//! R1 is in `monitor`, where a code becomes a call. R11, R12 and R14 speak of journals and are in
//! `records` and `replies`. R13 speaks of the writer's buffer; the writer here has no limit.

use std::borrow::Cow;

use crate::calls::Call;
use crate::needs::{Flow, Needs, Thing};
use crate::tables::{Direction, Kind, Tables, NO_FREEZE};
use crate::variants::Rules;

/// What each number says, in a few plain words.
pub fn meaning(number: u32) -> &'static str {
    match number {
        1 => "no call has this code",
        2 => "the step that asks, or is to be connected, is not there",
        3 => "the number for the new thing cannot be used",
        4 => "the file or pipe is not there",
        5 => "a pipe cannot be run, retired or mapped",
        6 => "the level is above 15, the set above 255, or a freeze above 16",
        7 => "the place does not fit",
        8 => "the handle is for the other direction",
        9 => "data could reach a file of a higher level or with a shop mark that it lacks",
        10 => "a handle is still open on the file",
        11 => "the journal breaks off here",
        12 => "the record is not well formed",
        13 => "the record is longer than the buffer",
        14 => "the journal is longer than 65,536 bytes",
        15 => "the file is frozen while the books are closed",
        16 => "a step cannot be connected to itself",
        17 => "only 64 files and pipes may be live: retire a file or end a pipe",
        18 => "the line is not well formed",
        19 => "a pipeline has more than eight stages",
        _ => "not a refusal of this document",
    }
}

/// A row's number and whether its condition holds.
pub type Condition = (u32, bool);

/// RULES R2 to R10 and R15 to R17 for a call, in the order in which they are tested: RULES R105; R16 comes right after
/// R2 (RULES R120), R17 right after R3, and R15 just before R9 (RULES R117). `needs` are those of `needs_for`.
pub fn conditions(tables: &Tables, call: Call, needs: &Needs) -> [Condition; 12] {
    [
        (2, subject_is_missing(tables, call)),
        (16, subject_is_its_own_partner(call)),
        (3, new_number_is_unfit(tables, call)),
        (17, objects_are_too_many(tables, call)),
        (4, object_is_missing(tables, call)),
        (5, pipe_is_named(tables, call)),
        (6, label_is_too_high(tables, call)),
        (7, place_is_unfit(tables, call)),
        (8, direction_is_wrong(tables, call)),
        (15, file_is_frozen(tables, call)),
        (9, flow_is_unsafe(tables, call, needs)),
        (10, retired_file_is_held(tables, call)),
    ]
}

/// RULES R105, R117, R120: of several, the one that is tested first.
pub fn refusal(tables: &Tables, call: Call, needs: &Needs, rules: Rules) -> Option<u32> {
    let mut conditions = conditions(tables, call, needs);
    rules.bend_conditions(tables, call, needs, &mut conditions);
    rules.bend_order(&mut conditions);
    conditions.into_iter().find(|&(_, holds)| holds).map(|(number, _)| number)
}

/// RULES R2: the caller, or the subject that it is joined to, is out of range or not live.
fn subject_is_missing(tables: &Tables, call: Call) -> bool {
    [call.asker(), call.partner()].into_iter().flatten().any(|s| tables.subject(s).is_none())
}

/// RULES R16: the two subjects of a connect are the same. Two mates are not.
fn subject_is_its_own_partner(call: Call) -> bool {
    matches!(call, Call::Connect { s, t, .. } if s == t)
}

/// RULES R3: a new subject's number is out of range, or a new number is in use, or is to be that of two pipes.
fn new_number_is_unfit(tables: &Tables, call: Call) -> bool {
    let out_of_range = |s: u64| s >= tables.limits().subjects;
    call.new_subject().is_some_and(|s| out_of_range(s) || tables.subject(s).is_some())
        || call.new_objects().into_iter().any(|o| tables.object(o).is_some())
        || matches!(call, Call::Connect { a, b, .. } if a == b)
}

/// RULES R17: with the new objects, more would be live than may be.
fn objects_are_too_many(tables: &Tables, call: Call) -> bool {
    let new = call.new_objects().len() as u64;
    new > 0 && tables.object_count() + new > tables.limits().objects
}

/// RULES R4: the object is not live.
fn object_is_missing(tables: &Tables, call: Call) -> bool {
    call.named_object().is_some_and(|o| tables.object(o).is_none())
}

/// RULES R5: a pipe where a file is asked for.
fn pipe_is_named(tables: &Tables, call: Call) -> bool {
    match call {
        Call::Exec { o, .. } | Call::Retire { o } | Call::Map { o, .. } => {
            tables.object(o).is_some_and(|object| object.kind == Kind::Pipe)
        }
        _ => false,
    }
}

/// RULES R6: the level is too high, or the set. A freeze may be one higher, to say that there is none.
fn label_is_too_high(tables: &Tables, call: Call) -> bool {
    let limits = tables.limits();
    match call {
        Call::Freeze { level } => level > NO_FREEZE,
        _ => call.label().is_some_and(|label| label.level >= limits.levels || label.shops >= limits.sets),
    }
}

/// RULES R7: a place is out of range, taken, named twice or empty.
fn place_is_unfit(tables: &Tables, call: Call) -> bool {
    let above = |p: u64| p >= tables.limits().places;
    let taken = |s: u64, p: u64| tables.handle(s, p).is_some();
    match call {
        Call::Pipe { s, r, w, .. } => above(r) || above(w) || taken(s, r) || taken(s, w) || r == w,
        Call::OpenRead { s, p, .. } | Call::OpenWrite { s, p, .. } | Call::Map { s, p, .. } => {
            above(p) || taken(s, p)
        }
        Call::Read { s, p } | Call::Write { s, p } | Call::Close { s, p } | Call::Mark { s, p } => {
            above(p) || !taken(s, p)
        }
        Call::Connect { s, t, p, q, .. } => {
            let unfit = |place| above(place) || taken(s, place) || taken(t, place);
            unfit(p) || unfit(q) || p == q
        }
        _ => false,
    }
}

/// RULES R8, R108: the handle is for the other direction.
fn direction_is_wrong(tables: &Tables, call: Call) -> bool {
    let held = |s: u64, p: u64, direction: Direction| {
        tables.handle(s, p).is_some_and(|handle| handle.direction == direction)
    };
    match call {
        Call::Read { s, p } => held(s, p, Direction::Writing),
        Call::Write { s, p } => held(s, p, Direction::Reading),
        _ => false,
    }
}

/// The needs that a call is tested by: with the flows that an open, a map or a connect asks for (RULES R9,
/// R119), without the mates and the handles that an exec leaves out (RULES R110).
pub fn needs_for(tables: &Tables, call: Call, rules: Rules, kept: &Needs) -> Needs {
    let mut sought = sought_flows(tables, call);
    rules.bend_sought(&mut sought, call);
    Needs::work_out(&tables_tested(tables, call, rules), &sought, rules, kept)
}

/// RULES R110: the tables in which the needs of a call are worked out.
pub fn tables_tested(tables: &Tables, call: Call, rules: Rules) -> Cow<'_, Tables> {
    let mut places = places_left_out(tables, call);
    rules.bend_left_out(tables, call, &mut places);
    let mut mates = mates_left_out(tables, call);
    rules.bend_mates_left_out(tables, call, &mut mates);
    if places.is_empty() && mates.is_empty() {
        return Cow::Borrowed(tables);
    }
    let mut tested = tables.clone();
    for (s, p) in places {
        tested.set_handle(s, p, None);
    }
    for mate in mates {
        // Its handles go with it: RULES T18.
        tested.set_subject(mate, None);
    }
    Cow::Owned(tested)
}

/// RULES R110: for an exec, the places of s with a marked handle or a mapping, and of no other subject.
fn places_left_out(tables: &Tables, call: Call) -> Vec<(u64, u64)> {
    match call {
        Call::Exec { s, .. } => tables.places_ending_at_exec(s).map(|p| (s, p)).collect(),
        _ => Vec::new(),
    }
}

/// RULES R110: for an exec, the mates of s, whom it would end.
fn mates_left_out(tables: &Tables, call: Call) -> Vec<u64> {
    match call {
        Call::Exec { s, .. } => tables.mates(s).collect(),
        _ => Vec::new(),
    }
}

/// The flow that an open or a map would add, if its subject and its object are there.
pub fn sought_flow(tables: &Tables, call: Call) -> Option<Flow> {
    let (s, handle) = call.sought()?;
    tables.subject(s)?;
    tables.object(handle.object)?;
    Some(Flow::of(s, handle))
}

/// All the flows that a call would add: that of an open or a map, or both of a connect.
pub fn sought_flows(tables: &Tables, call: Call) -> Vec<Flow> {
    match call {
        // RULES C17: nobody else has a handle on a new pipe, so that data comes by it from its writer to its
        // reader and nowhere else. The pipe has its writer's label and its reader's need: it is below its need
        // only where its writer is.
        Call::Connect { s, t, .. } if tables.subject(s).is_some() && tables.subject(t).is_some() => {
            let (s, t) = (Thing::Subject(s), Thing::Subject(t));
            vec![Flow { from: s, to: t }, Flow { from: t, to: s }]
        }
        _ => sought_flow(tables, call).into_iter().collect(),
    }
}

/// RULES R9, R109, R110, R119: a label would be below a need.
fn flow_is_unsafe(tables: &Tables, call: Call, needs: &Needs) -> bool {
    match call {
        Call::OpenRead { .. } | Call::OpenWrite { .. } | Call::Map { .. } | Call::Connect { .. } => {
            !sought_flows(tables, call).is_empty() && needs.unmet(tables).next().is_some()
        }
        Call::Exec { s, o } => {
            tables.object(o).is_some_and(|object| !object.label().is_at_least(needs.of(Thing::Subject(s))))
        }
        _ => false,
    }
}

/// RULES R10: a handle is on the file.
fn retired_file_is_held(tables: &Tables, call: Call) -> bool {
    match call {
        Call::Retire { o } => {
            tables.object(o).is_some_and(|object| object.kind == Kind::File) && tables.is_held(o)
        }
        _ => false,
    }
}

/// RULES R15, R118: an open for writing of a file that is frozen, and no other call.
fn file_is_frozen(tables: &Tables, call: Call) -> bool {
    match call {
        Call::OpenWrite { o, .. } => tables.is_frozen(o),
        _ => false,
    }
}

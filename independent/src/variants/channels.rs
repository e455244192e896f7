//! Variants of two-way channels: what refuses a connect, what it makes, and how its pipes end (RULES C17, C102,
//! R3, R7, R9, R16).

use super::marks::close;
use super::Variant;
use crate::calls::Call;
use crate::labels::Label;
use crate::monitor::{Answer, Monitor};
use crate::needs::{Needs, Thing};
use crate::refusals::Condition;
use crate::tables::{Handle, Kind, Object, Subject, Tables};

/// A condition that the variant holds to be other than it is, where it speaks of this connect.
pub fn bend_connected(variant: Variant, tables: &Tables, call: Call, needs: &Needs) -> Option<Condition> {
    let Call::Connect { s, t, a, b, p, q } = call else {
        return None;
    };
    let above = |place: u64| place >= tables.limits().places;
    let taken = |holder, place| tables.handle(holder, place).is_some();
    let is_unfit = |o: u64| tables.object(o).is_some();
    let ends = tables.subject(s).zip(tables.subject(t));
    let short = |tested: &[u64]| {
        needs.unmet(tables).any(|thing| tested.iter().any(|&s| thing == Thing::Subject(s)))
    };
    match variant {
        Variant::ConnectUntested => Some((9, false)),
        Variant::ConnectCallerOnly => Some((9, short(&[s]))),
        Variant::ConnectEndsOnly => Some((9, short(&[s, t]))),
        Variant::ConnectEqualOnly => ends.filter(|(from, to)| from != to).map(|_| (9, true)),
        Variant::ConnectToItself => Some((16, false)),
        Variant::PartnerUntested => Some((2, tables.subject(s).is_none())),
        Variant::SamePipeAllowed if a == b => Some((3, is_unfit(a))),
        Variant::FirstPipeUntested => Some((3, is_unfit(b) || a == b)),
        Variant::SecondPipeUntested => Some((3, is_unfit(a) || a == b)),
        Variant::ConnectSamePlace if p == q => Some((7, above(p) || taken(s, p) || taken(t, p))),
        Variant::ConnectPlace16Allowed => {
            Some((7, taken(s, p) || taken(s, q) || taken(t, p) || taken(t, q) || p == q))
        }
        Variant::PlacesAtCallerOnly => {
            Some((7, above(p) || above(q) || taken(s, p) || taken(s, q) || p == q))
        }
        Variant::PlacesAtPartnerOnly => {
            Some((7, above(p) || above(q) || taken(t, p) || taken(t, q) || p == q))
        }
        Variant::ReadingPlacesOnly => {
            Some((7, above(p) || above(q) || taken(s, p) || taken(t, p) || p == q))
        }
        Variant::FreezeConnects => {
            let freeze = tables.frozen_from()?;
            ends.filter(|&(from, _)| from.level >= freeze).map(|_| (15, true))
        }
        _ => None,
    }
}

/// What a refused connect leaves behind.
pub fn bend_refused_connect(variant: Variant, after: &mut Monitor, call: Call, number: u32) {
    let Call::Connect { s, t, a, b, .. } = call else {
        return;
    };
    let tables = &mut after.tables;
    match (variant, number) {
        (Variant::RefusedConnectLeavesOne, 9) => {
            make_pipe(tables, s, a);
            place_ends(tables, call, |handle| handle.object == a);
        }
        (Variant::RefusedConnectLeavesBoth, 9) => {
            make_pipe(tables, s, a);
            make_pipe(tables, t, b);
            place_ends(tables, call, |_| true);
        }
        (Variant::SevenLeavesPipe, 7) => make_pipe(tables, s, a),
        (Variant::ThreeLeavesPipe, 3) if tables.object(a).is_none() => {
            make_pipe(tables, s, a);
            place_ends(tables, call, |handle| handle.object == a);
        }
        (Variant::SeventeenLeavesPipe, 17) if tables.object_count() < tables.limits().objects => {
            make_pipe(tables, s, a);
            place_ends(tables, call, |handle| handle.object == a);
        }
        (Variant::RefusedConnectCounted, _) => after.tally.count_made(4),
        _ => {}
    }
}

/// What a connect that is not refused makes, and how its pipes end.
pub fn bend_channels(variant: Variant, before: &Monitor, after: &mut Monitor, call: Call) {
    bend_connect(variant, &before.tables, after, call);
    bend_ends(variant, before, after, call);
    if let Call::Connect { a, b, .. } = call {
        after.channels.push([a, b]);
    }
    let tables = &after.tables;
    after.channels.retain(|pipes| pipes.iter().all(|&o| tables.object(o).is_some()));
}

fn bend_connect(variant: Variant, old: &Tables, after: &mut Monitor, call: Call) {
    let Call::Connect { s, t, a, b, p, q } = call else {
        return;
    };
    let label = |s| old.subject(s).map_or(Label::LEAST, |subject| subject.label());
    let (from, to) = (label(s), label(t));
    let lower = from.fallen_to(to);
    let tables = &mut after.tables;
    let mut set_labels = |first: Label, second: Label| {
        for (o, label) in [(a, first), (b, second)] {
            tables.set_object(o, Some(Object::new(Kind::Pipe, label)));
        }
    };
    match variant {
        Variant::ConnectAtCaller => set_labels(from, from),
        Variant::ConnectAtPartner => set_labels(to, to),
        Variant::ConnectLevelsSwapped => set_labels(to, from),
        Variant::ConnectAtLower => set_labels(lower, lower),
        Variant::ConnectAtFifteen => set_labels(Label { level: 15, ..from }, Label { level: 15, ..to }),
        Variant::ConnectPlacesSwapped => {
            swap_places(tables, s, p, q);
            swap_places(tables, t, p, q);
        }
        Variant::PartnerPlacesSwapped => swap_places(tables, t, p, q),
        Variant::ConnectPipesSwapped => {
            for (holder, place, handle) in call.ends() {
                let object = if handle.object == a { b } else { a };
                tables.set_handle(holder, place, Some(Handle { object, ..handle }));
            }
        }
        Variant::ConnectOneWay => {
            tables.set_handle(s, p, None);
            tables.set_handle(t, q, None);
            tables.set_object(b, None);
            after.tally.made = after.tally.made.wrapping_sub(2);
        }
        Variant::ConnectMarks => {
            for (holder, place, _) in call.ends() {
                tables.mark(holder, place);
            }
        }
        Variant::ConnectLowers => {
            for end in [s, t] {
                tables.set_subject(end, Some(Subject::new(lower)));
            }
        }
        Variant::ConnectMakesFiles => {
            for (o, label) in [(a, from), (b, to)] {
                tables.set_object(o, Some(Object::new(Kind::File, label)));
            }
        }
        Variant::ConnectCountedTwo => after.tally.made = after.tally.made.wrapping_sub(2),
        Variant::ConnectCountedThree => after.tally.made = after.tally.made.wrapping_sub(1),
        Variant::ConnectNotCounted => after.tally.made = after.tally.made.wrapping_sub(4),
        _ => {}
    }
}

/// What becomes of the pipes of a connect where a handle goes.
fn bend_ends(variant: Variant, before: &Monitor, after: &mut Monitor, call: Call) {
    let old = &before.tables;
    let is_pipe =
        |tables: &Tables, o: u64| tables.object(o).is_some_and(|object| object.kind == Kind::Pipe);
    let has_gone = |tables: &Tables, o: u64| is_pipe(old, o) && tables.object(o).is_none();
    match (variant, call) {
        (Variant::ChannelNeverEnds, Call::Close { .. } | Call::Exit { .. } | Call::Exec { .. }) => {
            for o in before.channels.concat() {
                if has_gone(&after.tables, o) {
                    after.tables.set_object(o, old.object(o));
                }
            }
        }
        (Variant::ChannelEndsTogether, Call::Close { .. } | Call::Exit { .. } | Call::Exec { .. }) => {
            for [a, b] in before.channels.clone() {
                if is_pipe(old, a)
                    && is_pipe(old, b)
                    && (has_gone(&after.tables, a) || has_gone(&after.tables, b))
                {
                    after.tables.set_object(a, None);
                    after.tables.set_object(b, None);
                }
            }
        }
        (Variant::ChannelClosesBoth, Call::Close { s, p }) => {
            let closed = old.handle(s, p).map(|handle| handle.object);
            let other = before.channels.iter().find_map(|&[a, b]| match closed {
                Some(o) if o == a => Some(b),
                Some(o) if o == b => Some(a),
                _ => None,
            });
            let places = after.tables.handles_of(s).filter(|(_, handle)| Some(handle.object) == other);
            let places: Vec<u64> = places.map(|(p, _)| p).collect();
            close(after, s, &places);
        }
        _ => {}
    }
}

/// What a connect is answered with.
pub fn bend_connect_answer(variant: Variant, before: &Monitor, call: Call, answer: Answer) -> Answer {
    let (Call::Connect { t, .. }, Answer::Allowed(own)) = (call, answer) else {
        return answer;
    };
    let other = before.tables.subject(t).map_or(0, |subject| subject.level);
    match variant {
        Variant::ConnectAnswersPartner => Answer::Allowed(other),
        Variant::ConnectAnswersLower => Answer::Allowed(own.min(other)),
        Variant::ConnectAsLowered if other < own => Answer::Lowered(own, 0),
        _ => answer,
    }
}

/// A pipe under the label of a subject.
fn make_pipe(tables: &mut Tables, s: u64, o: u64) {
    let label = tables.subject(s).map_or(Label::LEAST, |subject| subject.label());
    tables.set_object(o, Some(Object::new(Kind::Pipe, label)));
}

fn place_ends(tables: &mut Tables, call: Call, which: impl Fn(Handle) -> bool) {
    for (holder, place, handle) in call.ends().into_iter().filter(|&(_, _, handle)| which(handle)) {
        tables.set_handle(holder, place, Some(handle));
    }
}

fn swap_places(tables: &mut Tables, s: u64, p: u64, q: u64) {
    let (one, other) = (tables.handle(s, p), tables.handle(s, q));
    tables.set_handle(s, p, other);
    tables.set_handle(s, q, one);
}

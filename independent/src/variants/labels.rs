//! Variants of labels: what is at least what, what a fall leaves, what a need has, which sets are taken and kept, and how
//! many marks are said to be lost (RULES T49 to T52, F5, C104, C118, C119, R6, R9, R15, P23).

use std::cmp::Ordering;

use super::Variant;
use crate::calls::{Call, Numbers};
use crate::labels::{Label, ALL_SHOPS};
use crate::monitor::{Answer, Monitor};
use crate::needs::{label, live_things, Needs, Thing};
use crate::refusals::{sought_flows, Condition};
use crate::tables::{Kind, Object, Subject, Tables, LIMITS};

/// A set that is met with others without taking a mark away: that of a thing that reaches no file, for a variant.
const NOT_MET: u64 = u64::MAX;

/// Calls 1 and 2 without a set, and no fifth field.
fn is_before_request_l(variant: Variant) -> bool {
    variant == Variant::BeforeRequestL
}

/// Sets are there and nothing goes by them: levels alone fall, are needed and are tested.
fn ignores_sets(variant: Variant) -> bool {
    variant == Variant::SetsIgnored
}

/// Sets are met in a need, where the rules join them.
fn meets_sets(variant: Variant) -> bool {
    variant == Variant::NeedMeetsSets
}

/// A label as one number, as a host may keep it.
fn packed(label: Label) -> u64 {
    256 * label.level + label.shops
}

/// What a need becomes where a flow leads to a thing with the need `beyond`.
pub fn join(variant: Variant, own: Label, beyond: Label) -> Label {
    let right = own.joined_with(beyond);
    match variant {
        variant if meets_sets(variant) => Label { shops: own.shops & beyond.shops, ..right },
        variant if ignores_sets(variant) => Label { shops: own.shops, ..right },
        Variant::NeedOfHighest => match own.level.cmp(&beyond.level) {
            Ordering::Greater => own,
            Ordering::Less => beyond,
            Ordering::Equal => right,
        },
        Variant::NeedOfLargest => {
            if packed(own) >= packed(beyond) {
                own
            } else {
                beyond
            }
        }
        Variant::NeedTakenWhole => {
            if own.level >= beyond.level {
                own
            } else {
                beyond
            }
        }
        Variant::NeedWithoutSets => Label { shops: own.shops, ..right },
        Variant::NeedLargestSet => Label { shops: own.shops.max(beyond.shops), ..right },
        Variant::NeedSevenGroups => Label { shops: own.shops | beyond.shops & 127, ..right },
        _ => right,
    }
}

/// Whether a need has changed, so that the passes go on.
pub fn has_changed(variant: Variant, before: Label, after: Label) -> bool {
    match variant {
        Variant::PassesByLevel => before.level != after.level,
        _ => before != after,
    }
}

/// The needs from which the passes start.
pub fn bend_start(variant: Variant, tables: &Tables, kept: &Needs, needs: &mut Needs) {
    match variant {
        Variant::RunningSets => needs.join_kept(tables, kept, |_, kept| Label { level: 0, ..kept }),
        Variant::RunningLevels => needs.join_kept(tables, kept, |_, kept| Label { shops: 0, ..kept }),
        variant if meets_sets(variant) => {
            needs.change_all(|need| if need == Label::LEAST { Label::new(0, NOT_MET) } else { need });
        }
        _ => {}
    }
}

/// The needs after the passes.
pub fn bend_end(variant: Variant, tables: &Tables, kept: &Needs, needs: &mut Needs) {
    match variant {
        Variant::SetsSinkWithLevel => needs.join_kept(tables, kept, |own, kept| {
            if own.level < kept.level {
                own
            } else {
                Label { level: 0, ..kept }
            }
        }),
        Variant::LevelSinksWithSet => needs.join_kept(tables, kept, |own, kept| {
            if kept.shops & !own.shops != 0 {
                own
            } else {
                Label { shops: 0, ..kept }
            }
        }),
        variant if meets_sets(variant) => {
            needs.change_all(|need| if need.shops == NOT_MET { Label { shops: 0, ..need } } else { need });
        }
        _ => {}
    }
}

/// What a label becomes at a fall to another; `is_mate` where it is that of a mate of the one that reads.
pub fn fall(variant: Variant, call: Call, is_mate: bool, own: Label, to: Label) -> Label {
    let right = own.fallen_to(to);
    let with_own_set = Label { shops: own.shops, ..right };
    match (variant, call) {
        (Variant::FallJoinsSets, _) => Label { shops: own.shops | to.shops, ..right },
        (Variant::FallKeepsSet, _) => with_own_set,
        (variant, _) if ignores_sets(variant) => with_own_set,
        (Variant::FallTakesSet, _) => Label { shops: to.shops, ..right },
        (Variant::FallTakesSmallerSet, _) => Label { shops: own.shops.min(to.shops), ..right },
        (Variant::FallTakesOthers, _) => Label { shops: own.shops & !to.shops, ..right },
        (Variant::FallOnlyComparable, _) if !own.is_at_least(to) => own,
        (Variant::FallTakesWhole, _) if !to.is_at_least(own) => to,
        (Variant::MarksFallWithLevel, _) if to.level >= own.level => own,
        (Variant::LevelFallsWithMarks, _) if right.shops == own.shops => own,
        (Variant::FallLosesAll, _) if right != own => Label { shops: 0, ..right },
        (Variant::FallKeepsGroup0, _) => Label { shops: right.shops | own.shops & 1, ..right },
        (Variant::FallKeepsGroup7, _) => Label { shops: right.shops | own.shops & 128, ..right },
        (Variant::ReaderKeepsSet, Call::Read { .. }) => with_own_set,
        (Variant::PipeKeepsSet, Call::Write { .. }) => with_own_set,
        (Variant::ExecKeepsSet, Call::Exec { .. }) => with_own_set,
        (Variant::MapKeepsSet, Call::Map { .. }) => with_own_set,
        (Variant::MatesKeepSets, Call::Read { .. } | Call::Map { .. }) if is_mate => with_own_set,
        _ => right,
    }
}

/// Whether a variant holds a label to be at least another; none where it goes by the rules.
fn is_at_least(variant: Variant, own: Label, need: Label) -> Option<bool> {
    let by_level = own.level >= need.level;
    let includes = need.shops & !own.shops == 0;
    Some(match variant {
        Variant::LevelAlone => by_level,
        variant if ignores_sets(variant) => by_level,
        Variant::SetAlone => includes,
        Variant::EitherEnough => by_level || includes,
        Variant::BelowIsLess => own == need || !need.is_at_least(own),
        Variant::LevelFirst => own.level > need.level || by_level && includes,
        Variant::SetFirst => includes && (by_level || own.shops != need.shops),
        Variant::ComparedAsNumbers => packed(own) >= packed(need),
        Variant::SetsAsNumbers => by_level && own.shops >= need.shops,
        Variant::SetsByCount => by_level && own.shops.count_ones() >= need.shops.count_ones(),
        Variant::OneMarkEnough => by_level && (need.shops == 0 || own.shops & need.shops != 0),
        Variant::SetReversed => by_level && own.shops & !need.shops == 0,
        Variant::SetsEqual => by_level && own.shops == need.shops,
        Variant::AboveOnly => own.level > need.level && includes,
        Variant::MoreMarksOnly => by_level && includes && (own.shops != need.shops || need.shops == 0),
        Variant::Group7Untested => by_level && (need.shops & 127) & !own.shops == 0,
        Variant::Group0Untested => by_level && (need.shops & 254) & !own.shops == 0,
        _ => return None,
    })
}

/// Whether the variant looks at the level of this thing alone, in the test of this call.
fn goes_by_level(variant: Variant, tables: &Tables, call: Call, thing: Thing) -> bool {
    let is_asker = call.asker().map(Thing::Subject) == Some(thing);
    let kind = match thing {
        Thing::Object(o) => tables.object(o).map(|object| object.kind),
        Thing::Subject(_) => None,
    };
    match variant {
        Variant::OpenReadByLevel => matches!(call, Call::OpenRead { .. }),
        Variant::OpenWriteByLevel => matches!(call, Call::OpenWrite { .. }),
        Variant::MapByLevel => matches!(call, Call::Map { .. }),
        Variant::ConnectByLevel => matches!(call, Call::Connect { .. }),
        Variant::ExecSetsUntested => matches!(call, Call::Exec { .. }),
        Variant::AskerByLevel => is_asker && !matches!(call, Call::Exec { .. }),
        Variant::UpstreamByLevel => !is_asker && !matches!(call, Call::Exec { .. }),
        Variant::PipesByLevel => kind == Some(Kind::Pipe) && !matches!(call, Call::Exec { .. }),
        Variant::FilesByLevel => kind == Some(Kind::File) && !matches!(call, Call::Exec { .. }),
        Variant::SubjectsByLevel => kind.is_none(),
        _ => false,
    }
}

/// A condition that the variant holds to be other than it is, where it speaks of this call.
pub fn bend_labelled(variant: Variant, tables: &Tables, call: Call, needs: &Needs) -> Option<Condition> {
    bend_taken(variant, tables, call)
        .or_else(|| bend_frozen_sets(variant, tables, call))
        .or_else(|| bend_flow(variant, tables, call, needs))
}

/// RULES R9 with another test of label against need; none where it comes to the same.
fn bend_flow(variant: Variant, tables: &Tables, call: Call, needs: &Needs) -> Option<Condition> {
    let is_short = |thing: Thing, own: Label, need: Label| {
        let right = !own.is_at_least(need);
        let bent = match is_at_least(variant, own, need) {
            _ if goes_by_level(variant, tables, call, thing) => own.level < need.level,
            Some(is_enough) => !is_enough,
            None => right,
        };
        (right, bent)
    };
    let mut offends = (false, false);
    let mut count = |(right, bent): (bool, bool)| offends = (offends.0 | right, offends.1 | bent);
    match call {
        Call::OpenRead { .. } | Call::OpenWrite { .. } | Call::Map { .. } | Call::Connect { .. } => {
            if sought_flows(tables, call).is_empty() {
                return None;
            }
            for thing in live_things(tables) {
                let own = label(tables, thing)?;
                count(is_short(thing, own, needs.of(thing)));
            }
        }
        Call::Exec { s, o } => {
            let own = tables.object(o)?.label();
            count(is_short(Thing::Object(o), own, needs.of(Thing::Subject(s))));
        }
        _ => return None,
    }
    let (right, bent) = offends;
    (right != bent).then_some((9, bent))
}

/// RULES R6 with other sets taken.
fn bend_taken(variant: Variant, tables: &Tables, call: Call) -> Option<Condition> {
    let Label { level, shops } = call.label()?;
    let limits = tables.limits();
    let (level_above, set_above) = (level >= limits.levels, shops >= limits.sets);
    match (variant, call) {
        (Variant::SetUntested, _) => Some((6, level_above)),
        (Variant::AdmitSetUntested, Call::Admit { .. }) => Some((6, level_above)),
        (Variant::RegisterSetUntested, Call::Register { .. }) => Some((6, level_above)),
        (Variant::SixNeedsBoth, _) => Some((6, level_above && set_above)),
        (Variant::SetAbove15Refused, _) => Some((6, level_above || shops >= limits.levels)),
        (Variant::SetOf0Refused, _) => Some((6, level_above || set_above || shops == 0)),
        _ => None,
    }
}

/// RULES R15 with a look at sets.
fn bend_frozen_sets(variant: Variant, tables: &Tables, call: Call) -> Option<Condition> {
    let Call::OpenWrite { s, o, .. } = call else {
        return None;
    };
    let (freeze, file) = (tables.frozen_from()?, tables.object(o)?);
    let is_frozen = tables.is_frozen(o);
    let opener = tables.subject(s).map_or(Label::LEAST, |subject| subject.label());
    match variant {
        Variant::FreezeFullSets => Some((15, is_frozen && file.shops == ALL_SHOPS)),
        Variant::FreezeNotEmptySets => Some((15, is_frozen && file.shops != 0)),
        Variant::FreezeBySet if file.kind == Kind::File => Some((15, file.shops >= freeze)),
        Variant::FreezeNotForFullSets => Some((15, is_frozen && opener.shops != ALL_SHOPS)),
        _ => None,
    }
}

/// The numbers of a call, of which the set is another one.
pub fn bend_set(variant: Variant, code: u64, numbers: Numbers) -> Numbers {
    let [first, level, set, fourth, fifth, sixth] = numbers;
    let with = |level, set| [first, level, set, fourth, fifth, sixth];
    match (variant, code) {
        (Variant::SetMod256, 1 | 2) => with(level, set % 256),
        (Variant::SetMod65536, 1 | 2) => with(level, set % 65_536),
        (Variant::SetMod32, 1 | 2) => with(level, set % (1 << 32)),
        (Variant::SetCutTo255, 1 | 2) => with(level, set.min(ALL_SHOPS)),
        (Variant::SetBeforeLevel, 1 | 2) => with(set, level),
        (Variant::SevenGroups, 1 | 2) if set <= ALL_SHOPS => with(level, set & 127),
        (Variant::SetsAsLacks, 1 | 2) if set <= ALL_SHOPS => with(level, ALL_SHOPS - set),
        (Variant::AdmitIgnoresSet, 1) if set <= ALL_SHOPS => with(level, ALL_SHOPS),
        (Variant::RegisterIgnoresSet, 2) if set <= ALL_SHOPS => with(level, ALL_SHOPS),
        (Variant::AdmitWithoutSet, 1) if set <= ALL_SHOPS => with(level, 0),
        (Variant::RegisterWithoutSet, 2) if set <= ALL_SHOPS => with(level, 0),
        (variant, 1 | 2) if is_before_request_l(variant) => with(level, ALL_SHOPS),
        _ => numbers,
    }
}

/// How many numbers a record of this code has; none where that is as it should be.
pub fn bend_count(variant: Variant, code: u64) -> Option<usize> {
    match (variant, code) {
        (Variant::AdmitTwoNumbers, 1) | (Variant::RegisterTwoNumbers, 2) => Some(2),
        (Variant::AdmitFourNumbers, 1) | (Variant::RegisterFourNumbers, 2) => Some(4),
        (variant, 1 | 2) if is_before_request_l(variant) => Some(2),
        _ => None,
    }
}

/// The set that stands for one that a record of calls 1 and 2 does not have.
pub fn missing_set(variant: Variant, code: u64, index: usize) -> Option<u64> {
    match (variant, code, index) {
        (Variant::MissingSetAs255, 1 | 2, 2) => Some(ALL_SHOPS),
        (Variant::MissingSetAs0, 1 | 2, 2) => Some(0),
        _ => None,
    }
}

/// What a call that is not refused does to labels.
pub fn bend_labels(variant: Variant, before: &Monitor, after: &mut Monitor, call: Call) {
    let old = &before.tables;
    let tables = &mut after.tables;
    let set_of = |s: u64| old.subject(s).map_or(0, |subject| subject.shops);
    match (variant, call) {
        (Variant::CreateFullSet, Call::Create { o, .. }) => set_object(tables, o, ALL_SHOPS),
        (Variant::CreateNoSet, Call::Create { o, .. }) => set_object(tables, o, 0),
        (Variant::PipeFullSet, Call::Pipe { o, .. }) => set_object(tables, o, ALL_SHOPS),
        (Variant::PipeNoSet, Call::Pipe { o, .. }) => set_object(tables, o, 0),
        (Variant::ForkFullSet, Call::Fork { c, .. }) => set_subject(tables, c, ALL_SHOPS),
        (Variant::ForkNoSet, Call::Fork { c, .. }) => set_subject(tables, c, 0),
        (Variant::ThreadFullSet, Call::Thread { c, .. }) => set_subject(tables, c, ALL_SHOPS),
        (Variant::ThreadNoSet, Call::Thread { c, .. }) => set_subject(tables, c, 0),
        (Variant::ThreadCommonSet, Call::Thread { s, c }) => {
            let common = old.members(s).map(set_of).fold(ALL_SHOPS, |one, other| one & other);
            set_subject(tables, c, common);
        }
        (Variant::ConnectFullSets, Call::Connect { a, b, .. }) => {
            set_object(tables, a, ALL_SHOPS);
            set_object(tables, b, ALL_SHOPS);
        }
        (Variant::ConnectNoSets, Call::Connect { a, b, .. }) => {
            set_object(tables, a, 0);
            set_object(tables, b, 0);
        }
        (Variant::ConnectSetsSwapped, Call::Connect { s, t, a, b, .. }) => {
            set_object(tables, a, set_of(t));
            set_object(tables, b, set_of(s));
        }
        (Variant::ConnectSetOfCaller, Call::Connect { s, b, .. }) => set_object(tables, b, set_of(s)),
        (Variant::ConnectCommonSet, Call::Connect { s, t, a, b, .. }) => {
            set_object(tables, a, set_of(s) & set_of(t));
            set_object(tables, b, set_of(s) & set_of(t));
        }
        (Variant::FileFallsInSet, Call::Write { s, p }) => {
            let written = old.handle(s, p).map(|handle| handle.object);
            if let Some((o, file)) = written.and_then(|o| Some((o, old.object(o)?))) {
                set_object(tables, o, file.shops & set_of(s));
            }
        }
        (Variant::OpenTakesMarks, Call::OpenRead { s, o, .. }) => {
            let shops = old.object(o).map_or(0, |object| object.shops);
            set_subject(tables, s, set_of(s) & shops);
        }
        (Variant::RereadKeepsSets, Call::Write { .. }) => {
            old.live_subjects().for_each(|s| set_subject(tables, s, set_of(s)));
        }
        _ => {}
    }
}

fn set_subject(tables: &mut Tables, s: u64, shops: u64) {
    tables.set_subject(s, tables.subject(s).map(|subject| Subject { shops, ..subject }));
}

fn set_object(tables: &mut Tables, o: u64, shops: u64) {
    tables.set_object(o, tables.object(o).map(|object| Object { shops, ..object }));
}

/// Whose level a lowered answer gives, and whom or what the call goes by beside it.
fn shown(old: &Tables, call: Call) -> Option<(Thing, Thing)> {
    match call {
        Call::Read { s, p } => Some((Thing::Subject(s), Thing::Object(old.handle(s, p)?.object))),
        Call::Write { s, p } => Some((Thing::Object(old.handle(s, p)?.object), Thing::Subject(s))),
        Call::Exec { s, o } | Call::Map { s, o, .. } => Some((Thing::Subject(s), Thing::Object(o))),
        _ => None,
    }
}

/// What is said of a fall, and what an answer gives as the number of marks lost.
pub fn bend_lost(
    variant: Variant,
    before: &Monitor,
    after: &Monitor,
    call: Call,
    answer: Answer,
) -> Answer {
    let (old, new) = (&before.tables, &after.tables);
    match (variant, answer, call.label()) {
        (Variant::LabelInAnswer, Answer::Allowed(_), Some(label)) => return Answer::Allowed(packed(label)),
        (Variant::SetAbove255As7, Answer::Refused(6), Some(label)) if label.level < LIMITS.levels => {
            return Answer::Refused(7)
        }
        _ => {}
    }
    let (Answer::Lowered(level, lost), Some((thing, other))) = (answer, shown(old, call)) else {
        return answer;
    };
    let at = |tables: &Tables, thing: Thing| label(tables, thing).unwrap_or(Label::LEAST);
    let (was, is, of_other) = (at(old, thing), at(new, thing), at(old, other));
    let lost_by = |thing: Thing| at(old, thing).marks_lost_by(at(new, thing));
    let lost_by_all = || live_things(new).map(lost_by).sum::<u64>();
    let ones = |shops: u64| u64::from(shops.count_ones());
    let is_marks_alone = live_things(new).all(|thing| at(old, thing).level == at(new, thing).level);
    let is_file =
        matches!(thing, Thing::Object(o) if old.object(o).is_some_and(|object| object.kind == Kind::File));
    let lost = match (variant, call) {
        (Variant::MarksAloneUnsaid, _) if is_marks_alone => return Answer::Allowed(level),
        (Variant::ReadMarksUnsaid, Call::Read { .. }) if is_marks_alone => return Answer::Allowed(level),
        (Variant::PipeMarksUnsaid, Call::Write { .. }) if is_marks_alone && !is_file => {
            return Answer::Allowed(level)
        }
        (Variant::ExecMarksUnsaid, Call::Exec { .. }) if is_marks_alone => return Answer::Allowed(level),
        (Variant::MapMarksUnsaid, Call::Map { .. }) if is_marks_alone => return Answer::Allowed(level),
        (Variant::RereadMarksUnsaid, Call::Write { .. }) if is_marks_alone && is_file => {
            return Answer::Allowed(level)
        }
        (Variant::LevelAloneUnsaid, _) if was.shops == is.shops => return Answer::Allowed(level),
        (Variant::LostOfOther, _) => lost_by(other),
        (Variant::LostAtWriteOfSubject, Call::Write { .. }) => of_other.marks_lost_by(was),
        (Variant::LostReversed, _) => of_other.marks_lost_by(was),
        (Variant::LostOfBoth, _) => ones(was.shops ^ of_other.shops),
        (Variant::LostOfAll, _) => lost_by_all(),
        (Variant::LostAsLevels, _) => was.level - is.level.min(was.level),
        (Variant::LostAsSet, _) => was.shops & !is.shops,
        (Variant::LostAsOne, _) => lost.min(1),
        (Variant::LostAsKept, _) => ones(is.shops),
        (Variant::LostAsBefore, _) => ones(was.shops),
        (Variant::LostAsLacking, _) => 8 - ones(is.shops).min(8),
        (Variant::LostWithLevel, _) => lost + u64::from(is.level < was.level),
        (Variant::LostOfSevenGroups, _) => ones(was.shops & !is.shops & 127),
        (Variant::LostFromGroup1, _) => ones(was.shops & !is.shops & 254),
        (Variant::RereadLostOfMapper, Call::Write { .. }) if is_file => {
            new.live_subjects().map(|s| lost_by(Thing::Subject(s))).max().unwrap_or(0)
        }
        (Variant::MateLostSaid, Call::Read { s, .. } | Call::Map { s, .. }) => {
            new.members(s).map(|member| lost_by(Thing::Subject(member))).max().unwrap_or(0)
        }
        _ => lost,
    };
    Answer::Lowered(level, lost)
}

/// The value of a reply line and what stands behind it.
pub fn bend_fields(variant: Variant, answer: Answer, fields: [Option<u64>; 2]) -> [Option<u64>; 2] {
    let [value, lost] = fields;
    let is_refused = matches!(answer, Answer::Refused(_));
    match variant {
        Variant::NoFifthField => [value, None],
        Variant::FifthFieldAlways => [value, lost.or(Some(0))],
        Variant::FifthFieldUnlessRefused if !is_refused => [value, lost.or(Some(0))],
        Variant::NoFifthFieldAt0 => [value, lost.filter(|&lost| lost > 0)],
        Variant::LostBeforeLevel if lost.is_some() => [lost, value],
        variant if is_before_request_l(variant) => [value, None],
        _ => fields,
    }
}

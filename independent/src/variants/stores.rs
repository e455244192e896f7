//! Variants of the host's own file numbers: numbers that are cut, objects under other numbers, how many may be live,
//! and what makes space for another (RULES T2, C106, J5 to J7, R3, R4, R17).

use super::Variant;
use crate::calls::{shape_of_code, Call, Numbers};
use crate::monitor::{Answer, Monitor};
use crate::numbers::{Malformed, MOST_BYTES};
use crate::refusals::Condition;
use crate::tables::{Kind, Tables};

const BITS_32: u64 = 1 << 32;
const BITS_63: u64 = 1 << 63;

/// Objects 0 to 63, which all may be live, and numbers of 32 bits.
fn is_before_request_h(variant: Variant) -> bool {
    variant == Variant::BeforeRequestH
}

/// The numbers of a call, of which those of one kind lose their upper bits.
pub fn cut_numbers(variant: Variant, code: u64, numbers: Numbers) -> Numbers {
    let names = shape_of_code(code).map_or(&[][..], |shape| shape.numbers);
    let mut cut = numbers;
    for (number, &name) in cut.iter_mut().zip(names) {
        let is_subject = matches!(name, "s" | "t" | "c");
        let is_object = matches!(name, "o" | "a" | "b");
        let is_place = matches!(name, "p" | "q" | "r" | "w");
        let is_level = name == "level";
        *number = match variant {
            Variant::SubjectMod32 if is_subject => *number % BITS_32,
            Variant::PlaceMod32 if is_place => *number % BITS_32,
            Variant::LevelMod32 if is_level && code != 16 => *number % BITS_32,
            Variant::FreezeMod32 if is_level && code == 16 => *number % BITS_32,
            Variant::ObjectMod32 if is_object => *number % BITS_32,
            Variant::ObjectMod63 if is_object => *number % BITS_63,
            _ => *number,
        };
    }
    cut
}

/// A call that names an object that is not live, with another one in its place that the variant finds for it.
pub fn bend_named(variant: Variant, tables: &Tables, mut call: Call) -> Call {
    let Some(sought) = call.named_object().filter(|&o| tables.object(o).is_none()) else {
        return call;
    };
    let found = match variant {
        Variant::FoundMod64 => tables.live_objects().find(|o| o % 64 == sought % 64),
        Variant::FoundLow32 => tables.live_objects().find(|o| o % BITS_32 == sought % BITS_32),
        _ => None,
    };
    if let Call::OpenRead { o, .. }
    | Call::OpenWrite { o, .. }
    | Call::Exec { o, .. }
    | Call::Retire { o }
    | Call::Map { o, .. } = &mut call
    {
        *o = found.unwrap_or(sought);
    }
    call
}

/// A condition that the variant holds to be other than it is, where it speaks of this call.
pub fn bend_stored(variant: Variant, tables: &Tables, call: Call) -> Option<Condition> {
    let new = call.new_objects();
    let limit = tables.limits().objects;
    let live = tables.object_count();
    let is_full = !new.is_empty() && live + new.len() as u64 > limit;
    let one_is = |unfit: &dyn Fn(u64) -> bool| new.iter().any(|&o| unfit(o)).then_some((3, true));
    let live_with = |same: &dyn Fn(u64) -> bool| tables.live_objects().any(same);
    let live_of = |kind| {
        let is_kind = |&o: &u64| tables.object(o).is_some_and(|object| object.kind == kind);
        tables.live_objects().filter(is_kind).count() as u64
    };
    let counted = |live: u64| is_full.then(|| (17, live + new.len() as u64 > limit));
    match (variant, call) {
        (variant, _) if is_before_request_h(variant) => one_is(&|o| o > 63),
        (Variant::NewAbove63, _) => one_is(&|o| o > 63),
        (Variant::NewAbove32Bits, _) => one_is(&|o| o >= BITS_32),
        (Variant::NewAbove63Bits, _) => one_is(&|o| o >= BITS_63),
        (Variant::LargestRefused, _) => one_is(&|o| o == u64::MAX),
        (Variant::InUseMod64, _) => one_is(&|o| live_with(&|other| other % 64 == o % 64)),
        (Variant::InUseLow32, _) => one_is(&|o| live_with(&|other| other % BITS_32 == o % BITS_32)),
        (Variant::NamedAbove63, _) => call.named_object().filter(|&o| o > 63).map(|_| (4, true)),
        (Variant::RegisterUncounted, Call::Register { .. }) => Some((17, false)),
        (Variant::CreateUncounted, Call::Create { .. }) => Some((17, false)),
        (Variant::PipeUncounted, Call::Pipe { .. }) => Some((17, false)),
        (Variant::ConnectUncounted, Call::Connect { .. }) => Some((17, false)),
        (Variant::ConnectCountsOne, Call::Connect { .. }) => Some((17, live + 1 > limit)),
        (Variant::ConnectCountsThree, Call::Connect { .. }) => Some((17, live + 3 > limit)),
        (Variant::FilesCounted, _) => counted(live_of(Kind::File)),
        (Variant::PipesCounted, _) => counted(live_of(Kind::Pipe)),
        (Variant::SeventeenAs3, _) => is_full.then_some((3, true)),
        (Variant::FullOpens, Call::OpenRead { .. } | Call::OpenWrite { .. }) => Some((17, live >= limit)),
        (Variant::FullForks, Call::Fork { .. }) => Some((17, live >= limit)),
        (Variant::FullThreads, Call::Thread { .. }) => Some((17, live >= limit)),
        _ => None,
    }
}

/// Objects that take space although they are gone, and the answer to a call that they leave none for.
pub fn bend_space(
    variant: Variant,
    before: &Monitor,
    after: &mut Monitor,
    call: Call,
    answer: Answer,
) -> Answer {
    if matches!(answer, Answer::Refused(_)) {
        return answer;
    }
    let new = call.new_objects();
    let stays = match variant {
        Variant::RetiredTakesSpace => matches!(call, Call::Retire { .. }),
        Variant::EndedTakesSpace => !matches!(call, Call::Retire { .. }),
        Variant::ExitTakesSpace => matches!(call, Call::Exit { .. }),
        Variant::ExecTakesSpace => matches!(call, Call::Exec { .. }),
        Variant::SpaceByNumber => {
            after.left_objects.retain(|o| !new.contains(o));
            true
        }
        _ => return answer,
    };
    let taken = after.tables.object_count() + after.left_objects.len() as u64;
    if !new.is_empty() && taken > after.tables.limits().objects {
        *after = before.clone();
        return Answer::Refused(17);
    }
    if stays {
        let is_gone = |o: &u64| after.tables.object(*o).is_none();
        after.left_objects.extend(before.tables.live_objects().filter(is_gone));
    }
    answer
}

/// Whether a number that is longer than it need be is taken.
pub fn takes_padded(variant: Variant, groups: &[u8]) -> bool {
    match variant {
        Variant::PaddedAccepted => true,
        Variant::PaddedTen => groups.len() == MOST_BYTES,
        _ => false,
    }
}

/// Whether a number that is too large is taken without its upper bits.
pub fn wraps(variant: Variant, groups: &[u8]) -> bool {
    match variant {
        Variant::AboveWrapped => true,
        Variant::TenthByte2 => groups.len() == MOST_BYTES && groups[MOST_BYTES - 1] == 2,
        Variant::ElevenBytes => groups.len() == MOST_BYTES + 1,
        _ => false,
    }
}

/// Why a good number is not taken.
pub fn bend_good(variant: Variant, value: u64, groups: &[u8]) -> Option<Malformed> {
    let is_refused = match variant {
        Variant::NineBytesOnly => groups.len() == MOST_BYTES,
        Variant::FiveBytesOnly => value >= BITS_32,
        variant if is_before_request_h(variant) => value >= BITS_32,
        _ => false,
    };
    is_refused.then_some(Malformed::TooLarge)
}

//! Labels: a level, and a set of shop marks for the shop groups that are vouched for.

use std::fmt;

/// 0, the lowest, to 15.
pub type Level = u8;

/// How many levels there are.
pub const LEVELS: usize = 16;

/// A set of shop marks, that of shop group i as bit i.
pub type Shops = u8;

/// Every shop mark.
pub const ALL_SHOPS: Shops = Shops::MAX;

/// A level and a set of shop marks.
///
/// It is kept as bits: one for each shop mark of the set, and above these one for each level from 1 to its own. So a label is
/// at least another where it has all of its bits, what falls to a label keeps the bits that both have, and a need is all
/// bits of the labels that it joins: one instruction each. A pass over the handles takes as many instructions as it takes
/// with levels alone, five a handle. With level and set side by side, a byte each, a need is compared in two steps: a
/// handle took about 14, and calls 1.5 to 2 times as long. Only answers tell a level; there it takes three instructions.
#[derive(Clone, Copy, PartialEq, Eq)]
pub struct Label {
    bits: u32,
}

impl Label {
    /// Level 0 and no shop mark: every label is at least this one.
    pub const LEAST: Label = Label { bits: 0 };

    /// The label of a level, which is below 16, and a set.
    pub const fn new(level: Level, shops: Shops) -> Label {
        let levels = (1 << level) - 1;
        Label { bits: levels << Shops::BITS | shops as u32 }
    }

    pub const fn level(self) -> Level {
        // The bits of the levels and below them one more, so that there is a highest.
        (self.bits >> (Shops::BITS - 1) | 1).ilog2() as Level
    }

    pub const fn shops(self) -> Shops {
        self.bits as Shops
    }

    /// Its level is, and its set includes the other's.
    pub const fn is_at_least(self, other: Label) -> bool {
        !self.lack().has_of(other)
    }

    /// What falls to a label has then the smaller level and the common set.
    pub const fn fallen_to(self, other: Label) -> Label {
        Label { bits: self.bits & other.bits }
    }

    /// The highest level and all shop marks of both.
    pub const fn joined(self, other: Label) -> Label {
        Label { bits: self.bits | other.bits }
    }

    /// How many shop marks something has lost that had this label and now has another.
    pub const fn lost(self, now: Label) -> u8 {
        (self.shops() & !now.shops()).count_ones() as u8
    }

    pub const fn lack(self) -> Lack {
        Lack { bits: !self.bits }
    }
}

/// What a label lacks: the bits that it does not have.
#[derive(Clone, Copy, Debug, PartialEq, Eq)]
pub struct Lack {
    bits: u32,
}

impl Lack {
    /// Whether another label has some of it.
    pub const fn has_of(self, other: Label) -> bool {
        self.bits & other.bits != 0
    }
}

impl fmt::Debug for Label {
    fn fmt(&self, f: &mut fmt::Formatter<'_>) -> fmt::Result {
        write!(f, "level {} and shops {:#010b}", self.level(), self.shops())
    }
}

#[cfg(test)]
mod tests {
    use super::*;

    /// Some sets, the least and the greatest among them.
    const SETS: [Shops; 8] = [0, 1, 0b10, 0b11, 0b1000_0000, 0b1010_0101, 0b1111_1110, ALL_SHOPS];

    fn labels() -> impl Iterator<Item = (Level, Shops)> + Clone {
        (0..LEVELS as Level).flat_map(|level| SETS.map(|shops| (level, shops)))
    }

    #[test]
    fn a_label_is_its_level_and_its_set() {
        for level in 0..LEVELS as Level {
            for shops in 0..=ALL_SHOPS {
                let label = Label::new(level, shops);
                assert_eq!((label.level(), label.shops()), (level, shops));
            }
        }
        assert_eq!(Label::new(0, 0), Label::LEAST);
        assert_eq!(format!("{:?}", Label::new(9, 5)), "level 9 and shops 0b00000101");
    }

    #[test]
    fn two_labels_go_by_level_and_by_set() {
        for (a, s) in labels() {
            for (b, t) in labels() {
                let (one, other) = (Label::new(a, s), Label::new(b, t));
                assert_eq!(one.is_at_least(other), a >= b && s & t == t, "{one:?}, {other:?}");
                assert_eq!(one.fallen_to(other), Label::new(a.min(b), s & t));
                assert_eq!(one.joined(other), Label::new(a.max(b), s | t));
                let lost = (0..8).filter(|&group| s >> group & 1 > t >> group & 1).count();
                assert_eq!(usize::from(one.lost(other)), lost, "{one:?}, {other:?}");
            }
        }
    }
}

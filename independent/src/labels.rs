//! Labels: RULES T4 and T49 to T53.
//!
//! A level and a set of shop marks; what is at least what, what a fall leaves, what a join has, and how many marks went.

/// RULES T49: the set with the marks of all eight shop groups.
pub const ALL_SHOPS: u64 = 255;

/// RULES T49: a level, and a set of shop marks. The set is a number: its bit of value 2 to the i-th is the mark of
/// group i.
#[derive(Clone, Copy, Debug, Default, PartialEq, Eq)]
pub struct Label {
    pub level: u64,
    pub shops: u64,
}

impl Label {
    /// RULES T52: level 0 and no mark.
    pub const LEAST: Label = Label { level: 0, shops: 0 };

    pub const fn new(level: u64, shops: u64) -> Label {
        Label { level, shops }
    }

    /// RULES T53: this level, with every mark.
    pub const fn full(level: u64) -> Label {
        Label { level, shops: ALL_SHOPS }
    }

    /// RULES T50: the level is not smaller, and the set has every mark that the other's has. Where this does not hold the
    /// label is below the other; two labels can be below each other.
    pub fn is_at_least(self, other: Label) -> bool {
        self.level >= other.level && other.shops & !self.shops == 0
    }

    /// RULES T51: the smaller level and the common marks.
    pub fn fallen_to(self, other: Label) -> Label {
        Label { level: self.level.min(other.level), shops: self.shops & other.shops }
    }

    /// RULES T52: the highest level and all the marks.
    pub fn joined_with(self, other: Label) -> Label {
        Label { level: self.level.max(other.level), shops: self.shops | other.shops }
    }

    /// RULES C119: how many ones there are in the set of the marks that this label has and the one after it has not.
    pub fn marks_lost_by(self, after: Label) -> u64 {
        u64::from((self.shops & !after.shops).count_ones())
    }
}

#[cfg(test)]
mod tests {
    use super::*;

    const SETS: [u64; 7] = [0, 1, 2, 3, 0x80, 0xf0, 255];

    fn labels() -> impl Iterator<Item = Label> {
        [0, 1, 9, 15].into_iter().flat_map(|level| SETS.map(|shops| Label { level, shops }))
    }

    fn has(label: Label, group: u32) -> bool {
        label.shops >> group & 1 == 1
    }

    /// RULES T50, mark by mark.
    #[test]
    fn at_least_is_asked_of_the_level_and_of_each_mark() {
        for one in labels() {
            for other in labels() {
                let each_mark = (0..8).all(|group| has(one, group) || !has(other, group));
                assert_eq!(one.is_at_least(other), one.level >= other.level && each_mark);
            }
        }
        let (one, other) = (Label::new(9, 1), Label::new(2, 2));
        assert!(!one.is_at_least(other) && !other.is_at_least(one));
    }

    /// RULES T51, T52: a fall is the highest label that both are at least, a join the lowest that is at least both.
    #[test]
    fn a_fall_is_the_most_below_both_and_a_join_the_least_above_both() {
        for one in labels() {
            assert_eq!((one.fallen_to(one), one.joined_with(one)), (one, one));
            assert_eq!(one.joined_with(Label::LEAST), one);
            assert!(one.is_at_least(Label::LEAST));
            for other in labels() {
                let (fall, join) = (one.fallen_to(other), one.joined_with(other));
                assert_eq!((fall, join), (other.fallen_to(one), other.joined_with(one)));
                assert_eq!(one.is_at_least(other), fall == other);
                assert_eq!(one.is_at_least(other), join == one);
                for third in labels() {
                    let is_below_both = one.is_at_least(third) && other.is_at_least(third);
                    assert_eq!(fall.is_at_least(third), is_below_both);
                    let is_above_both = third.is_at_least(one) && third.is_at_least(other);
                    assert_eq!(third.is_at_least(join), is_above_both);
                }
            }
        }
    }

    /// RULES C119, mark by mark.
    #[test]
    fn marks_lost_are_counted_one_by_one() {
        for before in labels() {
            for other in labels() {
                let after = before.fallen_to(other);
                let gone = (0..8).filter(|&group| has(before, group) && !has(after, group));
                assert_eq!(before.marks_lost_by(after), gone.count() as u64);
            }
        }
        assert_eq!(Label::full(9).marks_lost_by(Label::LEAST), 8);
    }

    /// RULES T53.
    #[test]
    fn with_every_mark_labels_go_by_levels() {
        for one in 0..16 {
            for other in 0..16 {
                let (first, second) = (Label::full(one), Label::full(other));
                assert_eq!(first.is_at_least(second), one >= other);
                assert_eq!(first.fallen_to(second), Label::full(one.min(other)));
                assert_eq!(first.joined_with(second), Label::full(one.max(other)));
                assert_eq!(first.marks_lost_by(first.fallen_to(second)), 0);
            }
        }
    }
}

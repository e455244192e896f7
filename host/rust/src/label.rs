//! Labels: a level, and the shop groups that are vouched for.

use std::fmt;

/// How many shop groups there are; numbers start at 0.
pub const SHOPS: u64 = 8;

/// The set of the shop marks of all groups. With it on every step and file, everything goes by levels alone.
pub const ALL_SHOPS: u64 = 255;

/// What a thing is worth: a level, and a set of shop marks, for those of eight shop groups that are vouched for. Bit i of
/// the set is the mark of group i.
///
/// A label is *at least* another where its level is and its set includes the other's, and else *below* it. So of two
/// labels each can be below the other, and there is no order of them by `<`.
///
/// ```
/// use gatekeeper::Label;
///
/// let book = Label { level: 9, shops: 0b0011 }; // the hours of groups 0 and 1 are looked over
/// let sheet = Label { level: 12, shops: 0b0110 }; // those of groups 1 and 2
/// assert!(!book.at_least(sheet) && !sheet.at_least(book));
/// assert_eq!(book.fallen_to(sheet), Label { level: 9, shops: 0b0010 });
/// assert_eq!(book.join(sheet), Label { level: 12, shops: 0b0111 });
/// assert_eq!(sheet.lost(book), 1); // the mark of group 2
/// assert_eq!(sheet.to_string(), "level 12, shops 1 2");
/// ```
#[derive(Clone, Copy, Debug, Default, PartialEq, Eq, Hash)]
pub struct Label {
    pub level: u8,
    /// The set of its shop marks.
    pub shops: u8,
}

impl Label {
    /// Level 0 and no mark: every label is at least this one. It is the need of what reaches no file.
    pub const LEAST: Label = Label { level: 0, shops: 0 };

    /// Whether the level is at least the other's, and the set includes the other's.
    #[must_use]
    pub fn at_least(self, other: Label) -> bool {
        self.level >= other.level && self.shops & other.shops == other.shops
    }

    /// The label after a fall to another: the smaller level, and the common set. Nothing falls where the other is at
    /// least this one.
    #[must_use]
    pub fn fallen_to(self, other: Label) -> Label {
        Label { level: self.level.min(other.level), shops: self.shops & other.shops }
    }

    /// The higher level, and both sets: the need of what reaches files of the two labels.
    #[must_use]
    pub fn join(self, other: Label) -> Label {
        Label { level: self.level.max(other.level), shops: self.shops | other.shops }
    }

    /// How many shop marks go with a fall to another.
    #[must_use]
    pub fn lost(self, other: Label) -> u8 {
        (self.shops & !other.shops).count_ones() as u8
    }

    /// The numbers of the shop groups whose mark is in the set, the lowest first.
    pub fn groups(self) -> impl Iterator<Item = u8> {
        (0..SHOPS as u8).filter(move |group| self.shops >> group & 1 == 1)
    }

    /// A label as the archive shows it: 256 times 256 times the set, and the level in the lowest byte.
    pub(crate) fn from_number(number: u32) -> Label {
        let [level, _, shops, _] = number.to_le_bytes();
        Label { level, shops }
    }
}

/// `level 9, shops 0 3 7`; `all shops` where the set has every mark, and `no shops` where it has none.
impl fmt::Display for Label {
    fn fmt(&self, f: &mut fmt::Formatter<'_>) -> fmt::Result {
        write!(f, "level {}, ", self.level)?;
        match self.shops {
            0 => write!(f, "no shops"),
            255 => write!(f, "all shops"),
            _ => {
                write!(f, "shops")?;
                self.groups().try_for_each(|group| write!(f, " {group}"))
            }
        }
    }
}

#[cfg(test)]
mod tests {
    use super::*;

    /// Some labels, with all sets of three groups.
    fn labels() -> impl Iterator<Item = Label> + Clone {
        [0, 1, 9, 15].into_iter().flat_map(|level| (0..8).map(move |shops| Label { level, shops }))
    }

    #[test]
    fn a_fall_is_the_highest_label_below_both_and_a_join_the_least_above_both() {
        for a in labels() {
            assert!(a.at_least(a) && a.at_least(Label::LEAST));
            assert_eq!((a.fallen_to(a), a.join(a), a.lost(a)), (a, a, 0));
            for b in labels() {
                let (fallen, joined) = (a.fallen_to(b), a.join(b));
                assert_eq!((fallen, joined), (b.fallen_to(a), b.join(a)));
                assert_eq!(a.at_least(b), fallen == b);
                assert_eq!(a.at_least(b), joined == a);
                assert_eq!(a.lost(b), (a.shops.count_ones() - fallen.shops.count_ones()) as u8);
                for c in labels() {
                    assert_eq!(fallen.at_least(c), a.at_least(c) && b.at_least(c));
                    assert_eq!(c.at_least(joined), c.at_least(a) && c.at_least(b));
                }
            }
        }
    }

    #[test]
    fn each_of_two_labels_can_be_below_the_other() {
        let (high, vouched) = (Label { level: 9, shops: 1 }, Label { level: 2, shops: 3 });
        assert!(!high.at_least(vouched) && !vouched.at_least(high));
        let (first, second) = (Label { level: 9, shops: 1 }, Label { level: 9, shops: 2 });
        assert!(!first.at_least(second) && !second.at_least(first));
    }

    #[test]
    fn a_label_is_said() {
        for (level, shops, said) in [
            (9, 0b1000_1001, "level 9, shops 0 3 7"),
            (15, 0b1000_0000, "level 15, shops 7"),
            (0, 0, "level 0, no shops"),
            (2, 255, "level 2, all shops"),
        ] {
            assert_eq!(Label { level, shops }.to_string(), said);
        }
        assert_eq!(u64::from(u8::MAX), ALL_SHOPS);
        assert_eq!((1 << SHOPS) - 1, ALL_SHOPS);
    }

    #[test]
    fn a_label_is_read_from_its_number() {
        let label = Label { level: 15, shops: 200 };
        assert_eq!(Label::from_number(256 * 256 * 200 + 256 * 2 + 15), label);
        assert_eq!(Label::from_number(256 * 256 * 200 + 15), label);
    }
}

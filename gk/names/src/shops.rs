//! Sets of shop marks in words: which of the eight shop groups a thing is vouched for.
//!
//! A set is a number, 0 to 255: bit i of it is the mark of shop group i. In words it is `all` (255), `none` (0), the number,
//! or the groups joined by commas, each by its name or as `shop` and its number: `north,east`. A set in which a space stands
//! is in quotes, `"north,shop 3"`. A group without a name is called by its number, `shop 3`.

use crate::{Kind, Name, Names};

/// How many shop groups there are; their numbers start at 0.
pub const GROUPS: u64 = 8;

/// The sets with every mark and with none.
pub const ALL: u8 = u8::MAX;
pub const NONE: u8 = 0;

/// What may stand where a set does, to follow "expected".
pub const EXPECTED: &str =
    "a set of shop marks: all, none, names of shop groups joined by commas, or 0 to 255";

/// The groups whose mark is in a set, by number.
pub fn groups(set: u8) -> impl Iterator<Item = u64> + Clone {
    (0..GROUPS).filter(move |group| set >> group & 1 == 1)
}

/// What a group is called at a record.
pub fn called(group: u64, names: &Names, at: u64) -> String {
    names.get(Kind::Shop, group, at).map_or_else(|| format!("shop {group}"), Name::to_string)
}

/// A set as it stands in assembly: `all`, `none`, the names where each of its groups has one, or else the number.
pub fn written(set: u64, names: &Names, at: u64) -> String {
    let Ok(small) = u8::try_from(set) else {
        return set.to_string();
    };
    let named: Option<Vec<&str>> =
        groups(small).map(|group| names.get(Kind::Shop, group, at).map(Name::as_str)).collect();
    match (small, named) {
        (ALL, _) => "all".to_string(),
        (NONE, _) => "none".to_string(),
        (_, None) => set.to_string(),
        (_, Some(named)) => {
            let is_bare =
                groups(small).all(|group| names.get(Kind::Shop, group, at).is_some_and(Name::is_bare));
            let text = named.join(",");
            if is_bare {
                text
            } else {
                format!("\"{text}\"")
            }
        }
    }
}

/// The set that a text says, at a record; else the part of it that is no name of a group, none where it is no list.
pub fn of_text<'a>(text: &'a str, names: &Names, at: u64) -> Result<u64, Option<&'a str>> {
    match text {
        "all" => return Ok(ALL.into()),
        "none" => return Ok(NONE.into()),
        _ if text.bytes().all(|byte| byte.is_ascii_digit()) => {
            return text.parse::<u64>().map_err(|_| None);
        }
        _ => {}
    }
    let mut set = 0;
    for part in text.split(',').map(str::trim) {
        let numbered = part.strip_prefix("shop ").filter(|digits| digits.len() == 1);
        let numbered = numbered.and_then(|digit| digit.parse().ok()).filter(|&group: &u64| group < GROUPS);
        match names.find_shop(part, at).or(numbered) {
            Some(group) => set |= 1 << group,
            None if part.is_empty() => return Err(None),
            None => return Err(Some(part)),
        }
    }
    Ok(set)
}

/// Groups in a row: "north, east and shop 3"; by what each is called.
fn listed(set: u8, called: impl Fn(u64) -> String) -> String {
    let words: Vec<String> = groups(set).map(called).collect();
    match words.as_slice() {
        [] => String::new(),
        [one] => one.clone(),
        [first @ .., last] => format!("{} and {last}", first.join(", ")),
    }
}

/// A set in a sentence: "the shop mark of north", "the shop marks of north and shop 3", "all shop marks", "no shop marks".
pub fn words(set: u8, names: &Names, at: u64) -> String {
    words_by(set, |group| called(group, names, at))
}

/// The same, by what each group is called.
pub fn words_by(set: u8, called: impl Fn(u64) -> String) -> String {
    match (set, set.count_ones()) {
        (NONE, _) => "no shop marks".to_string(),
        (ALL, _) => "all shop marks".to_string(),
        (_, 1) => format!("the shop mark of {}", listed(set, called)),
        _ => format!("the shop marks of {}", listed(set, called)),
    }
}

/// A sign for each group: the first letter of its name, where it is a letter that no other group has, or else its number.
pub fn signs<'a>(name: impl Fn(u64) -> Option<&'a str>) -> [char; GROUPS as usize] {
    let first = |group: u64| {
        let letter = name(group)?.chars().next().filter(|letter| letter.is_ascii_alphabetic())?;
        Some(letter.to_ascii_uppercase())
    };
    let firsts: Vec<Option<char>> = (0..GROUPS).map(first).collect();
    std::array::from_fn(|group| {
        let is_own = |letter: &char| firsts.iter().flatten().filter(|other| *other == letter).count() == 1;
        firsts[group].filter(is_own).unwrap_or_else(|| char::from(b'0' + group as u8))
    })
}

/// A set in a table: `all`, `none`, or a sign for each mark that is there and a dot for each that is not.
pub fn compact(set: u8, signs: &[char; GROUPS as usize]) -> String {
    match set {
        ALL => "all".to_string(),
        NONE => "none".to_string(),
        _ => (0..GROUPS)
            .zip(signs)
            .map(|(group, &sign)| if set >> group & 1 == 1 { sign } else { '·' })
            .collect(),
    }
}

#[cfg(test)]
mod tests {
    use super::*;

    fn names() -> Names {
        Names::read(b"names 1\nshop 0 1 north\nshop 1 1 east\nshop 2 5 the west\nshop 7 1 nova\n").unwrap()
    }

    #[test]
    fn a_set_is_read_as_it_is_written() {
        let names = names();
        for set in 0..=255 {
            let text = written(set, &names, 5);
            let bare = text.trim_matches('"');
            assert_eq!(text.contains('"'), bare.contains(' '), "{text}");
            assert_eq!(of_text(bare, &names, 5), Ok(set), "{text}");
        }
        for (set, at, text) in [
            (255, 1, "all"),
            (0, 1, "none"),
            (3, 1, "north,east"),
            (6, 1, "6"),
            (6, 5, "\"east,the west\""),
            (8, 5, "8"),
            (256, 5, "256"),
        ] {
            assert_eq!(written(set, &names, at), text);
        }
    }

    #[test]
    fn a_set_may_be_written_in_several_ways() {
        let names = names();
        for (text, set) in [
            ("255", Ok(255)),
            ("007", Ok(7)),
            ("4294967296", Ok(1 << 32)),
            ("east,north,east", Ok(3)),
            ("shop 3,north", Ok(9)),
            ("shop 0", Ok(1)),
            ("shop 8", Err(Some("shop 8"))),
            ("shop", Err(Some("shop"))),
            ("north,south", Err(Some("south"))),
            ("north,", Err(None)),
            ("", Err(None)),
            ("all,north", Err(Some("all"))),
            ("1,2", Err(Some("1"))),
            ("the west", Err(Some("the west"))),
        ] {
            assert_eq!(of_text(text, &names, 4), set, "{text}");
        }
        assert_eq!(of_text("the west", &names, 5), Ok(4));
    }

    #[test]
    fn a_set_is_said() {
        let names = names();
        for (set, said) in [
            (0, "no shop marks"),
            (255, "all shop marks"),
            (1, "the shop mark of north"),
            (11, "the shop marks of north, east and shop 3"),
            (0x7c, "the shop marks of shop 2, shop 3, shop 4, shop 5 and shop 6"),
        ] {
            assert_eq!(words(set, &names, 1), said);
        }
    }

    #[test]
    fn a_set_is_short_in_a_table() {
        let names = names();
        let signs = signs(|group| names.get(Kind::Shop, group, 5).map(Name::as_str));
        // Two groups start with the same letter: they have their numbers.
        assert_eq!(signs.iter().collect::<String>(), "0ET34567");
        let short = |set: u8| compact(set, &signs);
        assert_eq!([short(0), short(255), short(3)], ["none", "all", "0E······"].map(str::to_string));
    }
}

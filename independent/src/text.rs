//! Texts made fit to read: long ones short, control characters visible, a word that was meant.

/// Characters of a foreign text that are shown in a message.
const MOST_SHOWN: usize = 60;

/// A foreign text as it may stand in a message: without control characters, and cut where it is long.
pub fn shown(text: &str) -> String {
    let mut pieces: String = text.chars().take(MOST_SHOWN).map(visible).collect();
    if text.chars().nth(MOST_SHOWN).is_some() {
        pieces.push('…');
    }
    pieces
}

/// A character, or for one that a terminal could obey or hide its number.
fn visible(character: char) -> String {
    let is_hidden = matches!(character, '\u{200b}'..='\u{200f}' | '\u{2028}'..='\u{202e}' | '\u{2066}'..='\u{2069}' | '\u{feff}');
    if character.is_control() || is_hidden {
        character.escape_default().to_string()
    } else {
        character.to_string()
    }
}

/// The words that someone who typed this one may have meant: the same but for the letters' size, those that start
/// with it, or else the nearest, up to two letters off.
pub fn meant(word: &str, known: &[&'static str]) -> Vec<&'static str> {
    let word = word.to_lowercase();
    let longer: Vec<&str> =
        known.iter().copied().filter(|known| word.len() > 1 && known.starts_with(&word)).collect();
    if !longer.is_empty() {
        return longer;
    }
    let off = |known: &str| if word.len() > 40 { usize::MAX } else { distance(&word, known) };
    known
        .iter()
        .copied()
        .min_by_key(|known| off(known))
        .filter(|known| off(known) <= 2)
        .into_iter()
        .collect()
}

/// How many letters must be changed, added or taken away to make one word of the other.
fn distance(one: &str, other: &str) -> usize {
    let other: Vec<char> = other.chars().collect();
    let mut row: Vec<usize> = (0..=other.len()).collect();
    for (index, letter) in one.chars().enumerate() {
        let mut diagonal = row[0];
        row[0] = index + 1;
        for (column, &wanted) in other.iter().enumerate() {
            let changed = diagonal + usize::from(letter != wanted);
            diagonal = row[column + 1];
            row[column + 1] = changed.min(diagonal + 1).min(row[column] + 1);
        }
    }
    row[other.len()]
}

/// The lines of a text, indented; those in the middle are left out if there are more than `most`.
pub fn indented(text: &str, most: usize) -> String {
    let lines: Vec<&str> = text.lines().collect();
    let mut shown = String::new();
    for (index, line) in lines.iter().enumerate() {
        let from_end = lines.len() - index;
        if lines.len() <= most || index < most / 2 || from_end <= most / 2 {
            shown.push_str(&format!("    {line}\n"));
        } else if index == most / 2 {
            let left_out = lines.len() - most / 2 * 2;
            shown.push_str(&format!("    ... {left_out} lines left out\n"));
        }
    }
    shown
}

#[cfg(test)]
mod tests {
    use super::{indented, meant, shown};

    #[test]
    fn a_foreign_text_has_no_control_characters_and_an_end() {
        assert_eq!(shown("ädmit"), "ädmit");
        assert_eq!(shown("\u{1b}[31m\r\u{202e}"), "\\u{1b}[31m\\r\\u{202e}");
        assert_eq!(shown(&"a".repeat(60)), "a".repeat(60));
        assert_eq!(shown(&"a".repeat(61)), format!("{}…", "a".repeat(60)));
    }

    #[test]
    fn a_word_that_was_meant_is_found() {
        let known = ["admit", "open-read", "open-write", "read"];
        assert_eq!(meant("ADMIT", &known), ["admit"]);
        assert_eq!(meant("open", &known), ["open-read", "open-write"]);
        assert_eq!(meant("opne-read", &known), ["open-read"]);
        assert!(meant("payroll", &known).is_empty() && meant(&"a".repeat(1 << 20), &known).is_empty());
    }

    #[test]
    fn the_middle_of_a_long_text_is_left_out() {
        assert_eq!(indented("a\nb\n", 4), "    a\n    b\n");
        let shown = indented("a\nb\nc\nd\ne\nf\n", 4);
        assert_eq!(shown, "    a\n    b\n    ... 2 lines left out\n    e\n    f\n");
    }
}

//! Texts made fit to read: long ones short, control characters visible, a word that was meant.

/// Characters of a foreign text that are shown in a message.
const MOST_SHOWN: usize = 60;

/// A foreign text as it may stand in a message: without control characters, and cut where it is long.
pub fn shown(text: &str) -> String {
    let mut pieces: String = text.chars().take(MOST_SHOWN).map(visible).collect();
    if text.chars().nth(MOST_SHOWN).is_some() {
        pieces.push('…');
    }
    pieces
}

/// A foreign text without control characters, at its whole length.
pub fn plain(text: &str) -> String {
    text.chars().map(visible).collect()
}

/// A character, or for one that a terminal could obey or hide its number.
fn visible(character: char) -> String {
    let hidden = [0x200b..=0x200f, 0x2028..=0x202e, 0x2066..=0x2069, 0xfeff..=0xfeff];
    if character.is_control() || hidden.iter().any(|range| range.contains(&u32::from(character))) {
        character.escape_default().to_string()
    } else {
        character.to_string()
    }
}

/// The part of a line around a column, counted from 1, as it may stand in a message; and the blanks that put a
/// mark under the column. Tabs stay tabs.
fn excerpt(line: &str, column: usize) -> (String, String) {
    let line = line.trim_end();
    let first = (column - 1).saturating_sub(MOST_SHOWN);
    let (mut part, mut blanks) = (String::new(), String::new());
    if first > 0 {
        part.push('…');
        blanks.push(' ');
    }
    for (index, character) in line.chars().enumerate().skip(first).take(2 * MOST_SHOWN) {
        let piece = if character == '\t' { "\t".to_string() } else { visible(character) };
        if index + 1 < column {
            blanks.extend(piece.chars().map(|character| if character == '\t' { '\t' } else { ' ' }));
        }
        part.push_str(&piece);
    }
    let length = line.chars().count();
    if length > first + 2 * MOST_SHOWN {
        part.push('…');
    }
    // A column behind the line's last character.
    blanks.push_str(&" ".repeat((column - 1).saturating_sub(length.max(first))));
    (part, blanks)
}

/// The part of a line around a column, counted from 1, and marks under so many characters from there on, as far as they
/// are shown: two lines, indented. The marks stand under plain characters.
pub fn marked(line: &str, column: usize, count: usize) -> String {
    let (part, blanks) = excerpt(line, column);
    let shown = part.trim_end_matches('…').chars().count().saturating_sub(blanks.chars().count());
    format!("    {part}\n    {blanks}{}\n", "^".repeat(count.min(shown).max(1)))
}

/// The words that someone who typed this one may have meant: the same but for the letters' size, those that start
/// with it, or else the nearest, up to two letters off.
pub fn meant<'a>(word: &str, known: &[&'a str]) -> Vec<&'a str> {
    let word = word.to_lowercase();
    let longer: Vec<&str> =
        known.iter().copied().filter(|known| word.len() > 1 && known.starts_with(&word)).collect();
    if !longer.is_empty() {
        return longer;
    }
    let off = |known: &str| if word.len() > 40 { usize::MAX } else { distance(&word, known) };
    known
        .iter()
        .copied()
        .min_by_key(|known| off(known))
        .filter(|known| off(known) <= 2)
        .into_iter()
        .collect()
}

/// How many letters must be changed, added or taken away to make one word of the other.
fn distance(one: &str, other: &str) -> usize {
    let other: Vec<char> = other.chars().collect();
    let mut row: Vec<usize> = (0..=other.len()).collect();
    for (index, letter) in one.chars().enumerate() {
        let mut diagonal = row[0];
        row[0] = index + 1;
        for (column, &wanted) in other.iter().enumerate() {
            let changed = diagonal + usize::from(letter != wanted);
            diagonal = row[column + 1];
            row[column + 1] = changed.min(diagonal + 1).min(row[column] + 1);
        }
    }
    row[other.len()]
}

/// The lines of a text, indented; those in the middle are left out if there are more than `most`.
pub fn indented(text: &str, most: usize) -> String {
    let lines: Vec<&str> = text.lines().collect();
    let mut shown = String::new();
    for (index, line) in lines.iter().enumerate() {
        let from_end = lines.len() - index;
        if lines.len() <= most || index < most / 2 || from_end <= most / 2 {
            shown.push_str(&format!("    {line}\n"));
        } else if index == most / 2 {
            let left_out = lines.len() - most / 2 * 2;
            shown.push_str(&format!("    ... {left_out} lines left out\n"));
        }
    }
    shown
}

/// Words on lines of at most 100 characters where that is possible, the first line with its own start.
pub fn wrapped(words: impl Iterator<Item = String>, first: &str, later: &str) -> String {
    let mut text = String::new();
    let mut line = String::new();
    for word in words {
        let start = if text.is_empty() { first } else { later };
        if line.is_empty() {
            line = format!("{start}{word}");
        } else if line.chars().count() + 1 + word.chars().count() <= 100 {
            line = format!("{line} {word}");
        } else {
            text.push_str(&format!("{line}\n"));
            line = format!("{later}{word}");
        }
    }
    text.push_str(&format!("{line}\n"));
    text
}

/// A text on such lines, the later ones indented.
pub fn paragraph(start: &str, text: &str) -> String {
    wrapped(text.split(' ').map(str::to_string), start, "    ")
}

#[cfg(test)]
mod tests {
    use super::{excerpt, indented, meant, shown, wrapped};

    #[test]
    fn a_foreign_text_has_no_control_characters_and_an_end() {
        assert_eq!(shown("ädmit"), "ädmit");
        assert_eq!(shown("\u{1b}[31m\r\u{202e}"), "\\u{1b}[31m\\r\\u{202e}");
        assert_eq!(shown(&"a".repeat(60)), "a".repeat(60));
        assert_eq!(shown(&"a".repeat(61)), format!("{}…", "a".repeat(60)));
    }

    #[test]
    fn the_mark_stands_under_its_column() {
        assert_eq!(excerpt("\tadmit x\r", 8), ("\tadmit x".to_string(), "\t      ".to_string()));
        assert_eq!(excerpt("a\u{7}x", 3), ("a\\u{7}x".to_string(), " ".repeat(6)));
        assert_eq!(excerpt("admit ", 6), ("admit".to_string(), " ".repeat(5)));
        let (part, blanks) = excerpt(&format!("{}x{}", "a".repeat(1000), "b".repeat(1000)), 1001);
        assert_eq!(part, format!("…{}x{}…", "a".repeat(60), "b".repeat(59)));
        assert_eq!(blanks.len(), 61);
    }

    #[test]
    fn a_word_that_was_meant_is_found() {
        let known = ["admit", "open-read", "open-write", "read"];
        assert_eq!(meant("ADMIT", &known), ["admit"]);
        assert_eq!(meant("open", &known), ["open-read", "open-write"]);
        assert_eq!(meant("opne-read", &known), ["open-read"]);
        assert!(meant("payroll", &known).is_empty() && meant(&"a".repeat(1 << 20), &known).is_empty());
    }

    #[test]
    fn words_are_wrapped() {
        let words = ["a".repeat(60), "b".repeat(39), "c".to_string()];
        let text = wrapped(words.into_iter(), "", "  ");
        assert_eq!(text, format!("{} {}\n  c\n", "a".repeat(60), "b".repeat(39)));
    }

    #[test]
    fn the_middle_of_a_long_text_is_left_out() {
        assert_eq!(indented("a\nb\n", 4), "    a\n    b\n");
        let shown = indented("a\nb\nc\nd\ne\nf\n", 4);
        assert_eq!(shown, "    a\n    b\n    ... 2 lines left out\n    e\n    f\n");
    }
}

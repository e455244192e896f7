//! Texts made fit for a terminal: wrapped, cut, without control characters.

/// The columns of what is not written to a terminal.
pub const COLUMNS: usize = 80;

/// Characters of a foreign text that are shown in a message.
const MOST_SHOWN: usize = 60;

/// A foreign text as it may stand in a message: without control characters, and cut where it is long.
pub fn shown(text: &str) -> String {
    let mut pieces: String = text.chars().take(MOST_SHOWN).map(visible).collect();
    if text.chars().nth(MOST_SHOWN).is_some() {
        pieces.push('…');
    }
    pieces
}

/// A character, or its number for one that a terminal could obey or hide.
fn visible(character: char) -> String {
    let is_hidden = matches!(
        character,
        '\u{200b}'..='\u{200f}' | '\u{2028}'..='\u{202e}' | '\u{2066}'..='\u{2069}' | '\u{feff}'
    );
    if character.is_control() || is_hidden {
        character.escape_default().to_string()
    } else {
        character.to_string()
    }
}

/// How many columns a text takes.
pub fn width(text: &str) -> usize {
    text.chars().map(columns).sum()
}

fn columns(character: char) -> usize {
    match u32::from(character) {
        0x1100..=0x115f | 0x2e80..=0xa4cf | 0xac00..=0xd7a3 | 0xf900..=0xfaff => 2,
        0xfe30..=0xfe6f | 0xff00..=0xff60 | 0xffe0..=0xffe6 | 0x1f300..=0x1faff | 0x20000..=0x3fffd => 2,
        _ => 1,
    }
}

/// A text cut to so many columns, and filled up to them.
pub fn fitted(text: &str, most: usize) -> String {
    let mut cut = String::new();
    if width(text) <= most {
        cut.push_str(text);
    } else {
        for character in text.chars() {
            if width(&cut) + columns(character) + 1 > most {
                break;
            }
            cut.push(character);
        }
        cut.push('…');
    }
    let missing = most.saturating_sub(width(&cut));
    cut + &" ".repeat(missing)
}

/// Columns that a line keeps for its words, whatever stands before them.
const ROOM: usize = 6;

/// A text on lines of so many columns, the first with its own start, the later ones indented. A line ends between two
/// words; only a word that is longer than a line is cut.
pub fn wrapped(start: &str, text: &str, indent: usize, columns: usize) -> Vec<String> {
    let columns = columns.max(1);
    if !start.is_empty() && width(start) + ROOM > columns {
        return wrapped("", &format!("{} {text}", start.trim()), indent.min(2), columns);
    }
    let indent = indent.min(columns.saturating_sub(ROOM));
    let mut lines = Vec::new();
    let mut line = start.to_string();
    let mut is_begun = false;
    for word in text.split(' ').flat_map(|word| chopped(word, columns - indent)) {
        let is_full = width(&line) + usize::from(is_begun) + width(&word) > columns;
        if is_full && (is_begun || width(&line) > indent) {
            lines.push(line.trim_end().to_string());
            line = " ".repeat(indent);
            is_begun = false;
        }
        if is_begun {
            line.push(' ');
        }
        line.push_str(&word);
        is_begun = true;
    }
    lines.push(line.trim_end().to_string());
    lines
}

/// A word in pieces that fit on a line.
fn chopped(word: &str, most: usize) -> Vec<String> {
    let mut pieces = vec![String::new()];
    for character in word.chars() {
        let last = pieces.len() - 1;
        if !pieces[last].is_empty() && width(&pieces[last]) + columns(character) > most {
            pieces.push(String::new());
        }
        if let Some(piece) = pieces.last_mut() {
            piece.push(character);
        }
    }
    pieces
}

/// The words that someone who typed this one may have meant: those that start with it, or the nearest.
pub fn meant(word: &str, known: &[&'static str]) -> Option<&'static str> {
    let word: String = word.chars().take(40).collect::<String>().to_lowercase();
    let bare = word.trim_start_matches('-');
    let longer =
        known.iter().find(|known| bare.len() > 1 && known.trim_start_matches('-').starts_with(bare));
    longer.copied().or_else(|| {
        let nearest = known.iter().copied().min_by_key(|known| distance(&word, known))?;
        (distance(&word, nearest) <= 2).then_some(nearest)
    })
}

/// How many letters must be changed, added or taken away to make one word of the other.
fn distance(one: &str, other: &str) -> usize {
    let other: Vec<char> = other.chars().collect();
    let mut row: Vec<usize> = (0..=other.len()).collect();
    for (index, letter) in one.chars().enumerate() {
        let mut diagonal = row[0];
        row[0] = index + 1;
        for (column, &wanted) in other.iter().enumerate() {
            let changed = diagonal + usize::from(letter != wanted);
            diagonal = row[column + 1];
            row[column + 1] = changed.min(diagonal + 1).min(row[column] + 1);
        }
    }
    row[other.len()]
}

#[cfg(test)]
mod tests {
    use super::*;

    #[test]
    fn a_foreign_text_has_no_control_characters_and_an_end() {
        assert_eq!(shown("\u{1b}[31m\r\u{202e}"), "\\u{1b}[31m\\r\\u{202e}");
        assert_eq!(shown(&"a".repeat(61)), format!("{}…", "a".repeat(60)));
    }

    #[test]
    fn a_text_is_cut_and_filled_to_its_columns() {
        assert_eq!(fitted("step", 6), "step  ");
        assert_eq!(fitted("sheet reader", 6), "sheet…");
        assert_eq!(fitted("日本語の表", 6), "日本… ");
    }

    #[test]
    fn no_line_is_longer_than_the_screen() {
        for text in ["a ".repeat(200), "a".repeat(300), "日本語".repeat(60), String::new()] {
            for columns in (2..20).chain([40, 79, 80, 81, 200]) {
                for line in wrapped("  way out: ", &text, 4, columns) {
                    assert!(width(&line) <= columns, "{columns}: {line}");
                }
            }
        }
        assert_eq!(wrapped("> ", "a b", 2, COLUMNS), ["> a b"]);
    }

    #[test]
    fn lines_end_between_words_and_none_is_lost() {
        let text = "Close place 1 (writing pipe 37) and place 4 (writing file 0) of step 17.";
        for columns in 20..200 {
            let lines = wrapped("  196  ", text, 9, columns).join(" ");
            let words: Vec<&str> = lines.split_whitespace().collect();
            assert_eq!(words.join(" "), format!("196 {text}"), "{columns}");
        }
    }

    #[test]
    fn an_option_that_was_meant_is_found() {
        let known = ["--at", "--follow", "--page", "--names"];
        assert_eq!(meant("--folow", &known), Some("--follow"));
        assert_eq!(meant("--pag", &known), Some("--page"));
        assert_eq!(meant("-follow", &known), Some("--follow"));
        assert_eq!(meant("--payroll", &known), None);
        assert_eq!(meant(&"-".repeat(1 << 20), &known), None);
    }
}

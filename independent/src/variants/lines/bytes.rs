//! Variants that take bytes which are not a line, as if they were others that are one.

use super::LineVariant;

/// The bytes that a variant takes these for; none where it takes them as they are.
pub(super) fn bend(variant: LineVariant, line: &[u8]) -> Option<Vec<u8>> {
    let replaced =
        |from: u8, to: u8| line.iter().map(|&byte| if byte == from { to } else { byte }).collect();
    let kept = |is_kept: fn(u8) -> bool| line.iter().copied().filter(|&byte| is_kept(byte)).collect();
    Some(match variant {
        LineVariant::TabTaken => replaced(b'\t', b' '),
        LineVariant::NewlineTaken => replaced(b'\n', b' '),
        LineVariant::SemicolonAsBar => replaced(b';', b'|'),
        LineVariant::BarAsSemicolon => replaced(b'|', b';'),
        LineVariant::SpaceInNumber => kept(|byte| byte != b' '),
        LineVariant::OthersSkipped => kept(|byte| byte.is_ascii_digit() || b" <>|;".contains(&byte)),
        _ => bend_pieces(variant, pieces(line))?.join(&b' '),
    })
}

/// Rows of digits, and every other byte but spaces by itself. With spaces between them they are the same line, or none
/// as before.
fn pieces(line: &[u8]) -> Vec<Vec<u8>> {
    let mut pieces: Vec<Vec<u8>> = Vec::new();
    let mut before = b' ';
    for &byte in line {
        match pieces.last_mut() {
            Some(digits) if byte.is_ascii_digit() && before.is_ascii_digit() => digits.push(byte),
            _ if byte != b' ' => pieces.push(vec![byte]),
            _ => {}
        }
        before = byte;
    }
    pieces
}

fn is_number(piece: &[u8]) -> bool {
    piece[0].is_ascii_digit()
}

fn bend_pieces(variant: LineVariant, mut pieces: Vec<Vec<u8>>) -> Option<Vec<Vec<u8>>> {
    let is_number_at =
        |pieces: &[Vec<u8>], index: usize| pieces.get(index).is_some_and(|piece| is_number(piece));
    match variant {
        LineVariant::WriteFirst => {
            for start in 0..pieces.len().saturating_sub(3) {
                let part = &mut pieces[start..start + 4];
                if part[0] == b">" && is_number(&part[1]) && part[2] == b"<" && is_number(&part[3]) {
                    part.rotate_left(2);
                }
            }
        }
        LineVariant::TwiceTaken => {
            let mut start = 0;
            while start + 3 < pieces.len() {
                let is_sign = pieces[start] == b"<" || pieces[start] == b">";
                if is_sign && is_number(&pieces[start + 1]) && pieces[start + 2] == pieces[start] {
                    pieces.drain(start..start + 2);
                } else {
                    start += 1;
                }
            }
        }
        LineVariant::LoneSignTaken => {
            let is_lone = |index: usize| {
                (pieces[index] == b"<" || pieces[index] == b">") && !is_number_at(&pieces, index + 1)
            };
            let lone: Vec<usize> = (0..pieces.len()).filter(|&index| is_lone(index)).collect();
            lone.into_iter().rev().for_each(|index| drop(pieces.remove(index)));
        }
        LineVariant::SideBySide => {
            let mut after_number = false;
            pieces.retain(|piece| {
                !std::mem::replace(&mut after_number, is_number(piece)) || !is_number(piece)
            });
        }
        LineVariant::LeadingZero => {
            for piece in &mut pieces {
                let zeros = piece.iter().take_while(|&&byte| byte == b'0').count();
                piece.drain(..zeros.min(piece.len() - 1));
            }
        }
        LineVariant::AboveModulo => above(&mut pieces, |digits| {
            let shifted =
                |value: u64, digit: &u8| value.wrapping_mul(10).wrapping_add(u64::from(digit - b'0'));
            digits.iter().fold(0, shifted)
        }),
        LineVariant::AboveAsLargest => above(&mut pieces, |_| u64::MAX),
        LineVariant::TrailingSemicolon if pieces.last().is_some_and(|last| last == b";") => {
            pieces.pop();
        }
        LineVariant::TrailingBar if pieces.last().is_some_and(|last| last == b"|") => {
            pieces.pop();
        }
        LineVariant::LeadingSemicolon if pieces.first().is_some_and(|first| first == b";") => {
            pieces.remove(0);
        }
        LineVariant::DoubledSemicolon => pieces.dedup_by(|next, piece| next == b";" && piece == b";"),
        LineVariant::DoubledBar => pieces.dedup_by(|next, piece| next == b"|" && piece == b"|"),
        _ => return None,
    }
    Some(pieces)
}

/// Puts another value in the place of each number that has more than 64 bits.
fn above(pieces: &mut [Vec<u8>], value: fn(&[u8]) -> u64) {
    for piece in pieces.iter_mut().filter(|piece| is_number(piece) && piece[0] != b'0') {
        let is_above = std::str::from_utf8(piece).is_ok_and(|digits| digits.parse::<u64>().is_err());
        if is_above {
            *piece = value(piece).to_string().into_bytes();
        }
    }
}

//! Numbers in a journal: RULES J1 to J7 (unsigned LEB128, as in DWARF 5).

use crate::variants::Rules;

/// The largest number a journal can hold.
pub const LARGEST: u64 = 18_446_744_073_709_551_615;

/// RULES J7: how many bytes a good number has at most.
pub const MOST_BYTES: usize = 10;

/// RULES J4, J5, J6: what makes a number malformed.
#[derive(Clone, Copy, Debug, PartialEq, Eq)]
pub enum Malformed {
    CutOff,
    TooLarge,
    Padded,
}

/// Reads the number at the start of the bytes: its value, and how many bytes it takes.
pub fn read(bytes: &[u8], rules: Rules) -> Result<(u64, usize), Malformed> {
    // RULES J2: the high bit is 0 in the last byte alone.
    let last = bytes.iter().position(|byte| byte & 0x80 == 0).ok_or(Malformed::CutOff)?;
    let groups = &bytes[..=last];
    // A last group of 0 adds nothing: the number is longer than it need be (RULES J6).
    if last > 0 && bytes[last] == 0 && !rules.takes_padded(groups) {
        return Err(Malformed::Padded);
    }
    // RULES J3, J5: from the last group to the first, as far as that is no more than the largest number.
    let mut value: u64 = 0;
    for byte in groups.iter().rev() {
        let group = u64::from(byte & 0x7f);
        value = match value.checked_mul(128).and_then(|rest| rest.checked_add(group)) {
            Some(sum) => sum,
            None if rules.wraps(groups) => value.wrapping_mul(128).wrapping_add(group),
            None => return Err(Malformed::TooLarge),
        };
    }
    rules.bend_number(value, groups)
}

/// Writes a number at the end of the bytes, in as few bytes as it needs.
pub fn write(number: u64, bytes: &mut Vec<u8>) {
    let mut rest = number;
    while rest >= 128 {
        bytes.push((rest % 128) as u8 | 0x80);
        rest /= 128;
    }
    bytes.push(rest as u8);
}

#[cfg(test)]
mod tests {
    use super::*;

    fn right(bytes: &[u8]) -> Result<(u64, usize), Malformed> {
        read(bytes, Rules::default())
    }

    #[test]
    fn dwarf_examples_are_read_and_written() {
        for &(value, bytes) in crate::cases::DWARF_NUMBERS {
            assert_eq!(right(bytes), Ok((value, bytes.len())));
            let mut written = Vec::new();
            write(value, &mut written);
            assert_eq!(written, bytes);
        }
    }

    #[test]
    fn every_written_number_is_read_again() {
        for shift in 0..64 {
            for near in [0u64, 1, 2] {
                let number = (1u64 << shift).wrapping_sub(1).wrapping_add(near);
                let mut bytes = Vec::new();
                write(number, &mut bytes);
                assert!((1..=MOST_BYTES).contains(&bytes.len()));
                assert_eq!(right(&bytes), Ok((number, bytes.len())));
                bytes.push(0x55);
                assert_eq!(right(&bytes), Ok((number, bytes.len() - 1)));
            }
        }
    }

    #[test]
    fn malformed_numbers_are_told_apart() {
        assert_eq!(right(&[]), Err(Malformed::CutOff));
        assert_eq!(right(&[0x80]), Err(Malformed::CutOff));
        assert_eq!(right(&[0xff; 9]), Err(Malformed::CutOff));
        assert_eq!(right(&[0x80, 0x00]), Err(Malformed::Padded));
        assert_eq!(right(&[0xff, 0x80, 0x00]), Err(Malformed::Padded));
        assert_eq!(right(&[0x80, 0x80, 0x80, 0x80, 0x80, 0x80, 0x00]), Err(Malformed::Padded));
        assert_eq!(right(&[0xff, 0xff, 0xff, 0xff, 0x0f]), Ok((4_294_967_295, 5)));
        assert_eq!(right(&[0x80, 0x80, 0x80, 0x80, 0x10]), Ok((4_294_967_296, 5)));
        let mut long = vec![0x80; 60_000];
        long.push(0x01);
        assert_eq!(right(&long), Err(Malformed::TooLarge));
    }

    /// Nine bytes with their high bit set, and after them these.
    fn behind_nine(first: u8, rest: &[u8]) -> Vec<u8> {
        [&[first | 0x80; 9], rest].concat()
    }

    #[test]
    fn ten_bytes_hold_one_bit_more_than_nine() {
        assert_eq!(right(&behind_nine(0x7f, &[0x01])), Ok((LARGEST, 10)));
        assert_eq!(right(&behind_nine(0, &[0x01])), Ok((1 << 63, 10)));
        assert_eq!(right(&behind_nine(0, &[0x00])), Err(Malformed::Padded));
        assert_eq!(right(&behind_nine(0x7f, &[0x00])), Err(Malformed::Padded));
        for tenth in 0x02..0x80 {
            assert_eq!(right(&behind_nine(0, &[tenth])), Err(Malformed::TooLarge));
            assert_eq!(right(&behind_nine(0x7f, &[tenth])), Err(Malformed::TooLarge));
        }
        let nine = [&[0xff; 8], &[0x7f][..]].concat();
        assert_eq!(right(&nine), Ok(((1 << 63) - 1, 9)));
    }

    #[test]
    fn a_tenth_byte_with_its_high_bit_set_is_malformed_whatever_follows() {
        for tenth in 0x80..=0xff {
            assert_eq!(right(&behind_nine(0, &[tenth])), Err(Malformed::CutOff));
            for eleventh in 0..=0xff {
                assert!(right(&behind_nine(0, &[tenth, eleventh])).is_err());
                assert!(right(&behind_nine(0x7f, &[tenth, eleventh, 0x01])).is_err());
            }
        }
    }
}

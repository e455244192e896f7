//! The plain reader of a journal's numbers: what one would write by hand in Rust, with the same checks; in three forms.

pub use gatekeeper_plain::journal::number as read;

/// The largest of the numbers that are read: in one or two bytes, in one to five, in one to ten.
pub const SHORT: u64 = 16_383;
pub const MIX: u64 = 4_294_967_295;
pub const ANY: u64 = u64::MAX;

/// How the plain reader reads, and how it hands its answer over.
#[derive(Clone, Copy, Debug)]
pub enum Form {
    /// Byte by byte, as a function that is called.
    Called,
    /// Eight bytes at once, likewise called.
    Words,
    /// Byte by byte, open to inlining.
    Inlined,
}

/// The name of a row: the numbers and the plain reader beside them.
pub fn name(largest: u64, form: Form) -> String {
    let numbers = match largest {
        SHORT => "numbers below 16,384",
        MIX => "numbers",
        _ => "numbers of 1 to 10 bytes",
    };
    let form = match form {
        Form::Called => "called",
        Form::Words => "by words",
        Form::Inlined => "inlined",
    };
    format!("{numbers}, plain reader {form}")
}

/// The plain program's reader, as a function that is called, as one of an archive is.
#[inline(never)]
pub fn read_called(bytes: &[u8]) -> Option<(u64, usize)> {
    read(bytes)
}

/// The top bit of each byte of a word.
const TOPS: u64 = 0x8080_8080_8080_8080;

/// The same, likewise called. What takes at most eight bytes is read without a branch on its length.
#[inline(never)]
pub fn read_words(bytes: &[u8]) -> Option<(u64, usize)> {
    let Some((&eight, &[ninth, tenth, ..])) = bytes.split_first_chunk() else { return read(bytes) };
    let word = u64::from_le_bytes(eight);
    let ends = !word & TOPS;
    if ends == 0 {
        let low = pressed(word) | u64::from(ninth & 0x7f) << 56;
        return match (ninth, tenth) {
            (1..0x80, _) => Some((low, 9)),
            (0x80.., 1) => Some((low | 1 << 63, 10)),
            _ => None,
        };
    }
    // Up to the top bit of the byte that ends the number.
    let number = word & (ends ^ (ends - 1));
    let before = ends.trailing_zeros() / 8;
    let padded = number >> (8 * before) == 0 && before > 0;
    if padded {
        return None;
    }
    Some((pressed(number), before as usize + 1))
}

/// The lower seven bits of each byte, pressed together: by pairs of bytes, by fours, then all eight.
#[inline]
fn pressed(word: u64) -> u64 {
    let pairs = (word & 0x007f_007f_007f_007f) | (word & 0x7f00_7f00_7f00_7f00) >> 1;
    let fours = (pairs & 0x0000_3fff_0000_3fff) | (pairs & 0x3fff_0000_3fff_0000) >> 2;
    (fours & 0x0fff_ffff) | (fours & 0x0fff_ffff_0000_0000) >> 4
}

#[cfg(test)]
mod tests {
    use super::*;
    use gatekeeper_independent::numbers;
    use gatekeeper_independent::random::Random;
    use gatekeeper_independent::variants::Rules;

    /// Bytes most of which are not the last of a number; some are a least or a largest group.
    fn drawn(random: &mut Random) -> Vec<u8> {
        let byte = |random: &mut Random| match random.below(8) {
            0 => random.below(3) as u8,
            1 => random.below(0x80) as u8,
            2 => 0x80,
            3 => 0xff,
            _ => 0x80 + random.below(0x80) as u8,
        };
        (0..random.below(15)).map(|_| byte(random)).collect()
    }

    #[test]
    fn it_reads_as_the_independent_program_does() {
        let mut random = Random::new(1, 0);
        let mut lengths = [0; 11];
        for _ in 0..400_000 {
            let bytes = drawn(&mut random);
            let found = read(&bytes);
            assert_eq!(found, numbers::read(&bytes, Rules::default()).ok(), "{bytes:02x?}");
            assert_eq!(read_words(&bytes), found, "{bytes:02x?}");
            lengths[found.map_or(0, |(_, used)| used)] += 1;
        }
        assert!(lengths.iter().all(|&count| count > 100), "a length was hardly drawn: {lengths:?}");
    }

    #[test]
    fn the_largest_is_read() {
        for behind in [&[][..], &[0x00], &[0xff; 8]] {
            let bytes = [&[0xff; 9][..], &[0x01], behind].concat();
            assert_eq!(read(&bytes), Some((u64::MAX, 10)));
            assert_eq!(read_words(&bytes), Some((u64::MAX, 10)));
        }
    }
}

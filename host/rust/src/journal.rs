//! Journals: the reply to a whole one, and the records and numbers that it is made of.

use crate::answer::Refusal;
use crate::archive;

/// The longest journal that is run, in bytes.
pub const JOURNAL_BYTES: usize = 65_536;

/// Room for the reply to every journal, in bytes.
pub const REPLY_ROOM: usize = 2_752_579;

/// Room for every record, in bytes.
pub const RECORD_ROOM: usize = 62;

/// The reply to a journal, from an empty monitor: a line for each record with its position, code, A, L or R, and
/// the level or refusal number, after an L also the number of shop marks lost; then `end`, handles made, gone and open.
///
/// ```
/// let journal = [4, 2, 0, 2, 1, 4, 1, 0, 9, 7, 4, 5, 0, 0, 0, 3, 7, 0, 0];
/// assert_eq!(gatekeeper::replay(&journal), "1 2 A 2\n2 1 A 9\n3 5 A 2\n4 7 L 2 2\nend 1 0 1\n");
/// ```
#[must_use]
pub fn replay(journal: &[u8]) -> String {
    let mut text = vec![0; REPLY_ROOM];
    let bytes = archive::replay(journal, &mut text);
    text.truncate(bytes);
    text.shrink_to_fit();
    String::from_utf8(text).unwrap_or_else(|_| unreachable!("a reply has letters, digits and spaces alone"))
}

/// The same over the front of a buffer: how many bytes the text has, or none where there is no room for it. Some of
/// its lines may stand there then.
#[must_use = "there may be no room for the reply"]
pub fn replay_into(journal: &[u8], out: &mut [u8]) -> Option<usize> {
    match archive::replay(journal, out) {
        0 => None,
        bytes => Some(bytes),
    }
}

/// Writes the record of a call over the front of a buffer, and answers with its length. Numbers that the code does not
/// use are not written, and what lies behind the record keeps its value. A refusal, [`Refusal::UnknownCode`] or
/// [`Refusal::RecordTooLong`], changes nothing.
pub fn write_record(out: &mut [u8], code: u64, numbers: [u64; 6]) -> Result<usize, Refusal> {
    match archive::record(out, code, numbers) {
        length @ 256.. => Ok((length - 256) as usize),
        number => Err(Refusal::proved(number)),
    }
}

/// The number at the front of some bytes, and how many of them it takes; none where it is cut off, above
/// 18,446,744,073,709,551,615, or longer than it need be.
///
/// ```
/// assert_eq!(gatekeeper::read_number(&[0xb9, 0x64, 0x07]), Some((12857, 2)));
/// assert_eq!(gatekeeper::read_number(&[0x80, 0x00]), None);
/// ```
#[inline]
#[must_use]
pub fn read_number(bytes: &[u8]) -> Option<(u64, usize)> {
    match archive::number(bytes) {
        (_, 0) => None,
        (value, used) => Some((value, used as usize)),
    }
}

#[cfg(test)]
mod tests {
    use super::*;
    use crate::{Call, ALL_SHOPS, NO_FREEZE};

    #[test]
    fn a_journal_is_written_and_replayed() {
        let mut journal = Vec::new();
        Call::Register { object: 0, level: 2, shops: 1 }.write_record(&mut journal);
        Call::Admit { subject: 0, level: 9, shops: ALL_SHOPS }.write_record(&mut journal);
        Call::OpenRead { subject: 0, object: 0, place: 0 }.write_record(&mut journal);
        Call::Read { subject: 0, place: 0 }.write_record(&mut journal);
        assert_eq!(journal, [4, 2, 0, 2, 1, 5, 1, 0, 9, 255, 1, 4, 5, 0, 0, 0, 3, 7, 0, 0]);
        let reply = "1 2 A 2\n2 1 A 9\n3 5 A 2\n4 7 L 2 7\nend 1 0 1\n";
        assert_eq!(replay(&journal), reply);

        let mut exact = vec![0; reply.len()];
        assert_eq!(replay_into(&journal, &mut exact), Some(reply.len()));
        assert_eq!(exact, reply.as_bytes());
        assert_eq!(replay_into(&journal, &mut exact[1..]), None);
    }

    #[test]
    fn a_journal_is_run_from_a_monitor_without_a_freeze() {
        let mut journal = Vec::new();
        Call::Register { object: 0, level: 9, shops: ALL_SHOPS }.write_record(&mut journal);
        Call::Admit { subject: 0, level: 9, shops: ALL_SHOPS }.write_record(&mut journal);
        Call::OpenWrite { subject: 0, object: 0, place: 0 }.write_record(&mut journal);
        Call::Freeze { level: 9 }.write_record(&mut journal);
        Call::OpenWrite { subject: 0, object: 0, place: 1 }.write_record(&mut journal);
        Call::Write { subject: 0, place: 0 }.write_record(&mut journal);
        Call::Freeze { level: NO_FREEZE }.write_record(&mut journal);
        assert_eq!(journal[17..20], [2, 16, 9]);
        let reply = "1 2 A 9\n2 1 A 9\n3 6 A 9\n4 16 A 9\n5 6 R 15\n6 8 A 9\n7 16 A 16\nend 1 0 1\n";
        assert_eq!(replay(&journal), reply);
    }

    #[test]
    fn a_journal_has_marks() {
        let mut journal = Vec::new();
        Call::Register { object: 0, level: 9, shops: ALL_SHOPS }.write_record(&mut journal);
        Call::Register { object: 1, level: 2, shops: ALL_SHOPS }.write_record(&mut journal);
        Call::Admit { subject: 0, level: 9, shops: ALL_SHOPS }.write_record(&mut journal);
        Call::OpenWrite { subject: 0, object: 0, place: 3 }.write_record(&mut journal);
        Call::Exec { subject: 0, object: 1 }.write_record(&mut journal);
        Call::Mark { subject: 0, place: 2 }.write_record(&mut journal);
        Call::Mark { subject: 0, place: 3 }.write_record(&mut journal);
        Call::Exec { subject: 0, object: 1 }.write_record(&mut journal);
        assert_eq!(journal[31..35], [3, 15, 0, 3]);
        let reply =
            "1 2 A 9\n2 2 A 2\n3 1 A 9\n4 6 A 9\n5 10 R 9\n6 15 R 7\n7 15 A 9\n8 10 L 2 0\nend 1 1 0\n";
        assert_eq!(replay(&journal), reply);
    }

    #[test]
    fn a_journal_has_mappings() {
        let mut journal = Vec::new();
        Call::Register { object: 1, level: 2, shops: ALL_SHOPS }.write_record(&mut journal);
        Call::Admit { subject: 0, level: 9, shops: ALL_SHOPS }.write_record(&mut journal);
        Call::Map { subject: 0, object: 0, place: 3 }.write_record(&mut journal);
        Call::Map { subject: 0, object: 1, place: 3 }.write_record(&mut journal);
        Call::OpenWrite { subject: 0, object: 1, place: 4 }.write_record(&mut journal);
        Call::Write { subject: 0, place: 4 }.write_record(&mut journal);
        Call::Exec { subject: 0, object: 1 }.write_record(&mut journal);
        Call::Read { subject: 0, place: 3 }.write_record(&mut journal);
        assert_eq!(journal[17..22], [4, 14, 0, 1, 3]);
        let reply =
            "1 2 A 2\n2 1 A 9\n3 14 R 4\n4 14 L 2 0\n5 6 A 2\n6 8 A 2\n7 10 A 2\n8 7 R 7\nend 2 1 1\n";
        assert_eq!(replay(&journal), reply);
    }

    #[test]
    fn a_journal_has_channels() {
        let mut journal = Vec::new();
        let connect = Call::Connect { subject: 0, peer: 1, to: 5, from: 6, reading: 0, writing: 1 };
        Call::Admit { subject: 0, level: 9, shops: ALL_SHOPS }.write_record(&mut journal);
        connect.write_record(&mut journal);
        Call::Admit { subject: 1, level: 2, shops: ALL_SHOPS }.write_record(&mut journal);
        connect.write_record(&mut journal);
        Call::Write { subject: 1, place: 1 }.write_record(&mut journal);
        Call::Read { subject: 0, place: 0 }.write_record(&mut journal);
        Call::Exit { subject: 1 }.write_record(&mut journal);
        connect.write_record(&mut journal);
        assert_eq!(journal[6..14], [7, 17, 0, 1, 5, 6, 0, 1]);
        let reply =
            "1 1 A 9\n2 17 R 2\n3 1 A 2\n4 17 A 9\n5 8 A 2\n6 7 L 2 0\n7 12 A 2\n8 17 R 2\nend 4 2 2\n";
        assert_eq!(replay(&journal), reply);
    }

    #[test]
    fn a_journal_has_threads() {
        let mut journal = Vec::new();
        let thread = Call::Thread { subject: 0, member: 1 };
        thread.write_record(&mut journal);
        Call::Admit { subject: 0, level: 9, shops: ALL_SHOPS }.write_record(&mut journal);
        thread.write_record(&mut journal);
        thread.write_record(&mut journal);
        Call::Register { object: 1, level: 2, shops: ALL_SHOPS }.write_record(&mut journal);
        Call::Map { subject: 1, object: 1, place: 3 }.write_record(&mut journal);
        Call::Exec { subject: 0, object: 1 }.write_record(&mut journal);
        Call::Read { subject: 1, place: 3 }.write_record(&mut journal);
        assert_eq!(journal[..4], [3, 18, 0, 1]);
        let reply =
            "1 18 R 2\n2 1 A 9\n3 18 A 9\n4 18 R 3\n5 2 A 2\n6 14 L 2 0\n7 10 A 2\n8 7 R 2\nend 1 1 0\n";
        assert_eq!(replay(&journal), reply);
    }

    #[test]
    fn empty_broken_and_long_journals_have_a_reply() {
        assert_eq!(replay(&[]), "end 0 0 0\n");
        assert_eq!(replay(&[0x80, 0x00]), "1 0 R 11\nend 0 0 0\n");
        assert_eq!(replay(&[0x00]), "1 0 R 12\nend 0 0 0\n");
        assert_eq!(replay(&[0; JOURNAL_BYTES + 1]), "1 0 R 14\nend 0 0 0\n");
        assert_eq!(replay(&[0; JOURNAL_BYTES]).lines().count(), JOURNAL_BYTES + 1);
    }

    #[test]
    fn a_record_leaves_what_lies_behind_it() {
        let mut out = [7; 10];
        assert_eq!(write_record(&mut out, 5, [1, 300, 2, 9, 9, 9]), Ok(6));
        assert_eq!(out, [5, 5, 1, 0xac, 0x02, 2, 7, 7, 7, 7]);
    }

    #[test]
    fn a_refused_record_leaves_the_buffer() {
        let mut out = [7; RECORD_ROOM];
        assert_eq!(write_record(&mut out, 19, [0; 6]), Err(Refusal::UnknownCode));
        assert_eq!(write_record(&mut out, u64::from(u32::MAX) + 2, [0; 6]), Err(Refusal::UnknownCode));
        assert_eq!(write_record(&mut out[1..], 17, [u64::MAX; 6]), Err(Refusal::RecordTooLong));
        assert_eq!(out, [7; RECORD_ROOM]);
        assert_eq!(write_record(&mut out, 4, [u64::from(u32::MAX); 6]), Ok(22));
        assert_eq!(write_record(&mut out, 4, [u64::MAX; 6]), Ok(42));
        assert_eq!(write_record(&mut out, 17, [u64::from(u32::MAX); 6]), Ok(32));
        assert_eq!(write_record(&mut out, 17, [u64::MAX; 6]), Ok(RECORD_ROOM));
    }

    #[test]
    fn malformed_numbers_are_none() {
        assert_eq!(read_number(&[]), None);
        assert_eq!(read_number(&[0x80]), None);
        assert_eq!(read_number(&[0xff, 0x00]), None);
        assert_eq!(read_number(&[0xff, 0xff, 0xff, 0xff, 0x0f]), Some((u32::MAX.into(), 5)));
        assert_eq!(read_number(&[0x80, 0x80, 0x80, 0x80, 0x10]), Some((1 << 32, 5)));
        assert_eq!(read_number(&[0x00]), Some((0, 1)));

        // The largest has ten bytes, of which the last has one bit.
        let mut bytes = [0xff; 11];
        bytes[9] = 0x01;
        assert_eq!(read_number(&bytes), Some((u64::MAX, 10)));
        assert_eq!(read_number(&bytes[..9]), None);
        for last in [0x00, 0x02, 0x7f, 0x80, 0x81, 0xff] {
            bytes[9] = last;
            assert_eq!(read_number(&bytes), None, "a tenth byte of {last}");
        }
    }
}

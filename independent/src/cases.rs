//! Worked cases: RULES K0 to K17, single sentences of the freeze (RULES C16, R15), of marks (RULES C15, R110), of
//! mappings (RULES C14, C111), of two-way channels (RULES C17, R16), of threads (RULES C18, C113 to C117, F22, R110), of
//! the host's own file numbers (RULES T2, R3, R4, R17, J5 to J7) and of labels (RULES T49 to T52, C118, R6, P23), DWARF's
//! examples of numbers, and numbers at the limit.
//!
//! The replies stand here as the rules settle them; they are not worked out by this program. Typed lines have cases of
//! their own, in `lines`.

pub mod lines;

use crate::calls::shape_of_word;
use crate::tables::LIMITS;
use crate::words;

/// DWARF 5, section 7.6, the examples of unsigned LEB128.
pub const DWARF_NUMBERS: &[(u64, &[u8])] = &[
    (2, &[0x02]),
    (127, &[0x7f]),
    (128, &[0x80, 0x01]),
    (129, &[0x81, 0x01]),
    (130, &[0x82, 0x01]),
    (12857, &[0xb9, 0x64]),
];

/// RULES J5, J6, J7: numbers at the limit, none where they are malformed: the largest; one more, in as many bytes; one
/// that is longer than it need be, in as many bytes; one of a byte more.
pub const LIMIT_NUMBERS: &[(Option<u64>, &[u8])] = &[
    (Some(18_446_744_073_709_551_615), &[0xff, 0xff, 0xff, 0xff, 0xff, 0xff, 0xff, 0xff, 0xff, 0x01]),
    (None, &[0x80, 0x80, 0x80, 0x80, 0x80, 0x80, 0x80, 0x80, 0x80, 0x02]),
    (None, &[0x80, 0x80, 0x80, 0x80, 0x80, 0x80, 0x80, 0x80, 0x80, 0x00]),
    (None, &[0x80, 0x80, 0x80, 0x80, 0x80, 0x80, 0x80, 0x80, 0x80, 0x80, 0x01]),
];

/// A journal with its replies.
#[derive(Clone, Debug, PartialEq, Eq)]
pub struct Case {
    pub name: String,
    /// What it shows.
    pub what: String,
    pub journal: Vec<u8>,
    pub replies: String,
}

/// RULES K0.
const START: &str = "register 0 9 255; register 1 2 255; admit 0 9 255";
const START_REPLIES: &str = "1 2 A 9; 2 2 A 2; 3 1 A 9";

/// K6's state before the last open: a pipe (object 5, reading at 0, writing at 1), a fork, file 0 open.
const K6: &str = "pipe 0 5 0 1; fork 0 1; open-write 0 0 2";
const K6_REPLIES: &str = "4 4 A 9; 5 9 A 9; 6 6 A 9";

/// The state of RULES K7: 0's reading end and 1's writing end are closed first. The step that writes to file 0 is
/// then upstream of the one that reads file 1.
const K7: &str = "pipe 0 5 0 1; fork 0 1; close 0 0; close 1 1; open-write 0 0 2";
const K7_REPLIES: &str = "4 4 A 9; 5 9 A 9; 6 11 A 9; 7 11 A 9; 8 6 A 9";

/// Name, what it shows, calls after the common start, replies to them and the end line.
const AFTER_START: &[(&str, &str, &str, &str)] = &[
    (
        "K1",
        "0 opens file 0 for writing, then file 1 for reading: 9",
        "open-write 0 0 0; open-read 0 1 1",
        "4 6 A 9; 5 5 R 9; end 1 0 1",
    ),
    (
        "K2",
        "after closing the first handle: allowed",
        "open-write 0 0 0; open-read 0 1 1; close 0 0; open-read 0 1 1",
        "4 6 A 9; 5 5 R 9; 6 11 A 9; 7 5 A 2; end 2 1 1",
    ),
    (
        "K3",
        "0 opens file 1 for reading, has not read, opens file 0 for writing: 9",
        "open-read 0 1 0; open-write 0 0 1",
        "4 5 A 2; 5 6 R 9; end 1 0 1",
    ),
    (
        "K4",
        "a subject of level 8 opens file 0 for writing: 9",
        "admit 1 8 255; open-write 1 0 0",
        "4 1 A 8; 5 6 R 9; end 0 0 0",
    ),
    (
        "K5",
        "a subject of level 9 opens file 0 for writing: allowed",
        "open-write 0 0 0",
        "4 6 A 9; end 1 0 1",
    ),
    (
        "K9-low",
        "with file 0 open for writing, exec of file 1: 9",
        "open-write 0 0 0; exec 0 1",
        "4 6 A 9; 5 10 R 9; end 1 0 1",
    ),
    (
        "K9-level-9",
        "with file 0 open for writing, exec of a level 9 file: allowed",
        "register 2 9 255; open-write 0 0 0; exec 0 2",
        "4 2 A 9; 5 6 A 9; 6 10 A 9; end 1 0 1",
    ),
    (
        "place-15",
        "place 15 is taken",
        "open-read 0 1 15; read 0 15; close 0 15",
        "4 5 A 2; 5 7 L 2 0; 6 11 A 2; end 1 1 0",
    ),
    (
        "place-16",
        "place 16 gives 7, in every call with a place",
        "open-read 0 1 16; open-write 0 1 16; pipe 0 2 16 0; pipe 0 2 0 16; read 0 16; write 0 16; close 0 16",
        "4 5 R 7; 5 6 R 7; 6 4 R 7; 7 4 R 7; 8 7 R 7; 9 8 R 7; 10 11 R 7; end 0 0 0",
    ),
    (
        "subject-32",
        "subject 32 gives 2",
        "create 32 2; pipe 32 2 0 1; open-read 32 0 0; open-write 32 0 0; read 32 0; write 32 0; \
         fork 32 1; exec 32 0; close 32 0; exit 32",
        "4 3 R 2; 5 4 R 2; 6 5 R 2; 7 6 R 2; 8 7 R 2; 9 8 R 2; 10 9 R 2; 11 10 R 2; 12 11 R 2; \
         13 12 R 2; end 0 0 0",
    ),
    (
        "subject-32-new",
        "subject 32 as new gives 3",
        "admit 32 9 255; fork 0 32",
        "4 1 R 3; 5 9 R 3; end 0 0 0",
    ),
    (
        "subject-31-new",
        "subject 31 is taken, as new",
        "admit 31 9 255; exit 31; fork 0 31; exit 31",
        "4 1 A 9; 5 12 A 9; 6 9 A 9; 7 12 A 9; end 0 0 0",
    ),
    (
        "object-63-and-64",
        "object 63 is taken, and 64 is; 64 gives 3 as new where it is in use, and 4 as named where it is not",
        "register 63 4 255; register 64 4 255; create 0 64; pipe 0 64 0 1; retire 63; retire 64; exec 0 64",
        "4 2 A 4; 5 2 A 4; 6 3 R 3; 7 4 R 3; 8 13 A 4; 9 13 A 4; 10 10 R 4; end 0 0 0",
    ),
    (
        "fork-own-number",
        "fork to its own number: 3",
        "fork 0 0",
        "4 9 R 3; end 0 0 0",
    ),
    (
        "freeze-file",
        "a file at the freeze or above it is not opened for writing: 15; one below it is",
        "admit 1 15 255; register 2 15 255; freeze 9; open-write 0 0 0; open-write 1 2 0; open-write 0 1 0; \
         freeze 10; open-write 0 0 1; open-write 1 2 0",
        "4 1 A 15; 5 2 A 15; 6 16 A 9; 7 6 R 15; 8 6 R 15; 9 6 A 2; 10 16 A 10; 11 6 A 9; 12 6 R 15; \
         end 2 0 2",
    ),
    (
        "freeze-0-and-15",
        "a freeze of 0 freezes every file, one of 15 the files of level 15 alone",
        "admit 1 15 255; register 2 15 255; register 3 0 255; freeze 0; open-write 0 3 0; open-write 1 2 0; freeze 15; \
         open-write 0 3 0; open-write 1 2 0",
        "4 1 A 15; 5 2 A 15; 6 2 A 0; 7 16 A 0; 8 6 R 15; 9 6 R 15; 10 16 A 15; 11 6 A 0; 12 6 R 15; \
         end 1 0 1",
    ),
    (
        "freeze-pipe",
        "a pipe is never frozen: it is opened by its number, written to and made",
        "pipe 0 5 0 1; freeze 0; open-write 0 5 2; write 0 2; pipe 0 6 3 4",
        "4 4 A 9; 5 16 A 0; 6 6 A 9; 7 8 A 9; 8 4 A 9; end 5 0 5",
    ),
    (
        "freeze-other-calls",
        "a freeze asks nothing of any other call on a file: open for reading, read, exec, create, register, \
         retire",
        "freeze 0; open-read 0 0 0; read 0 0; exec 0 0; create 0 2; register 3 15 255; retire 3; close 0 0; retire 0",
        "4 16 A 0; 5 5 A 9; 6 7 A 9; 7 10 A 9; 8 3 A 9; 9 2 A 15; 10 13 A 15; 11 11 A 9; 12 13 A 9; end 1 1 0",
    ),
    (
        "freeze-held",
        "a handle that is open goes on writing, and so does its copy; once closed it is not opened again",
        "open-write 0 0 0; freeze 0; write 0 0; fork 0 1; write 1 0; close 0 0; open-write 0 0 0; write 1 0",
        "4 6 A 9; 5 16 A 0; 6 8 A 9; 7 9 A 9; 8 8 A 9; 9 11 A 9; 10 6 R 15; 11 8 A 9; end 2 1 1",
    ),
    (
        "freeze-flow",
        "an open that offends the flow and the freeze: 15",
        "admit 1 8 255; freeze 9; open-write 1 0 0; open-read 0 1 0; open-write 0 0 1",
        "4 1 A 8; 5 16 A 9; 6 6 R 15; 7 5 A 2; 8 6 R 15; end 1 0 1",
    ),
    (
        "freeze-flow-lifted",
        "where the freeze is raised or lifted, such an open offends the flow alone: 9; then the flow is put right",
        "admit 1 8 255; freeze 9; open-read 0 1 0; open-write 1 0 0; open-write 0 0 1; freeze 10; open-write 1 0 0; \
         open-write 0 0 1; freeze 16; open-write 1 0 0; open-write 0 0 1; close 0 0; open-write 0 0 1",
        "4 1 A 8; 5 16 A 9; 6 5 A 2; 7 6 R 15; 8 6 R 15; 9 16 A 10; 10 6 R 9; 11 6 R 9; 12 16 A 16; 13 6 R 9; \
         14 6 R 9; 15 11 A 9; 16 6 A 9; end 2 1 1",
    ),
    (
        "freeze-flow-order",
        "2, 4, 7 and 12 are said before 15 where 9 holds as well, and 9 after it",
        "admit 1 8 255; freeze 0; open-write 2 0 0; open-write 1 2 0; open-write 1 0 16; call 6 1 0 0 0; open-write 1 0 0; \
         freeze 16; open-write 1 0 0",
        "4 1 A 8; 5 16 A 0; 6 6 R 2; 7 6 R 4; 8 6 R 7; 9 6 R 12; 10 6 R 15; 11 16 A 16; 12 6 R 9; end 0 0 0",
    ),
    (
        "freeze-flow-alone",
        "9 is said of what the freeze asks nothing of: opens for reading, maps and execs of a frozen file, a pipe, a \
         lower file, a connect",
        "register 2 15 255; admit 1 15 255; open-write 1 2 0; open-write 0 0 0; admit 2 8 255; pipe 0 5 1 2; \
         register 3 9 255; \
         freeze 9; open-read 1 0 1; map 1 0 1; exec 1 0; open-write 2 5 0; connect 1 0 6 7 3 4; freeze 10; \
         open-write 2 3 0; freeze 9; open-write 2 3 0",
        "4 2 A 15; 5 1 A 15; 6 6 A 15; 7 6 A 9; 8 1 A 8; 9 4 A 9; 10 2 A 9; 11 16 A 9; 12 5 R 9; 13 14 R 9; 14 10 R 9; \
         15 6 R 9; 16 17 R 9; 17 16 A 10; 18 6 R 9; 19 16 A 9; 20 6 R 15; end 4 0 4",
    ),
    (
        "freeze-lifted",
        "a freeze of 16 lifts it",
        "freeze 9; open-write 0 0 0; freeze 16; open-write 0 0 0; freeze 16",
        "4 16 A 9; 5 6 R 15; 6 16 A 16; 7 6 A 9; 8 16 A 16; end 1 0 1",
    ),
    (
        "freeze-replaced",
        "a new freeze replaces the old one, be it lower or higher",
        "freeze 9; freeze 12; open-write 0 0 0; freeze 2; open-write 0 1 1; freeze 2; open-write 0 1 1",
        "4 16 A 9; 5 16 A 12; 6 6 A 9; 7 16 A 2; 8 6 R 15; 9 16 A 2; 10 6 R 15; end 1 0 1",
    ),
    (
        "freeze-refused",
        "a refused freeze leaves the one before it",
        "freeze 17; open-write 0 0 0; freeze 9; freeze 17; freeze 4294967295; open-write 0 0 1",
        "4 16 R 6; 5 6 A 9; 6 16 A 9; 7 16 R 6; 8 16 R 6; 9 6 R 15; end 1 0 1",
    ),
    (
        "freeze-stays",
        "exec, exit, admit and a 15 leave the freeze",
        "freeze 9; exec 0 0; exit 0; admit 0 9 255; open-write 0 0 0; open-write 0 0 0",
        "4 16 A 9; 5 10 A 9; 6 12 A 9; 7 1 A 9; 8 6 R 15; 9 6 R 15; end 0 0 0",
    ),
    (
        "freeze-order",
        "2, 4, 7 and 12 are said before 15",
        "freeze 0; open-write 1 0 0; open-write 0 2 0; open-write 0 0 16; call 6 0 0 0 0; open-write 0 0 0",
        "4 16 A 0; 5 6 R 2; 6 6 R 4; 7 6 R 7; 8 6 R 12; 9 6 R 15; end 0 0 0",
    ),
    (
        "mark-answer",
        "a mark answers with the subject's level, for reading and writing, on files and pipes, and once more",
        "open-read 0 1 0; mark 0 0; read 0 0; mark 0 0; pipe 0 5 1 2; mark 0 1; mark 0 2; mark 0 2; write 0 2",
        "4 5 A 2; 5 15 A 9; 6 7 L 2 0; 7 15 A 2; 8 4 A 2; 9 15 A 2; 10 15 A 2; 11 15 A 2; 12 8 A 2; end 3 0 3",
    ),
    (
        "mark-refused",
        "2 for a subject that is out of range or not live, then 7 for a place above 15 or empty",
        "open-write 0 0 15; mark 32 15; mark 1 15; mark 1 16; mark 0 16; mark 0 14; mark 0 4294967295; mark 0 15",
        "4 6 A 9; 5 15 R 2; 6 15 R 2; 7 15 R 2; 8 15 R 7; 9 15 R 7; 10 15 R 7; 11 15 A 9; end 1 0 1",
    ),
    (
        "mark-exec",
        "the launcher: with the pay book open, a low program is refused; with the handle marked it is run, and \
         the handle is gone",
        "open-write 0 0 0; exec 0 1; mark 0 0; write 0 0; exec 0 1; write 0 0; close 0 0",
        "4 6 A 9; 5 10 R 9; 6 15 A 9; 7 8 A 9; 8 10 L 2 0; 9 8 R 7; 10 11 R 7; end 1 1 0",
    ),
    (
        "mark-exec-same-level",
        "an exec that lowers nothing closes the marked handles all the same, and keeps the others",
        "open-write 0 0 0; open-read 0 0 1; mark 0 1; exec 0 0; write 0 0; read 0 1",
        "4 6 A 9; 5 5 A 9; 6 15 A 9; 7 10 A 9; 8 8 A 9; 9 7 R 7; end 2 1 1",
    ),
    (
        "mark-exec-refused",
        "an exec refused with 9, 5 or 4 closes no handle, takes no mark off and counts nothing",
        "pipe 0 5 2 3; open-write 0 0 0; open-write 0 0 1; mark 0 0; exec 0 1; exec 0 5; exec 0 6; write 0 0; \
         mark 0 1; exec 0 1; write 0 0; write 0 3",
        "4 4 A 9; 5 6 A 9; 6 6 A 9; 7 15 A 9; 8 10 R 9; 9 10 R 5; 10 10 R 4; 11 8 A 9; 12 15 A 9; 13 10 L 2 0; \
         14 8 R 7; 15 8 L 2 0; end 4 2 2",
    ),
    (
        "mark-others",
        "another subject's mark does not help: its marked handle is in the test, and stays",
        "pipe 0 5 0 1; fork 0 1; close 0 0; close 1 1; open-write 1 0 2; mark 1 2; exec 0 1; mark 0 1; exec 0 1; \
         write 1 2; read 1 0",
        "4 4 A 9; 5 9 A 9; 6 11 A 9; 7 11 A 9; 8 6 A 9; 9 15 A 9; 10 10 R 9; 11 15 A 9; 12 10 L 2 0; 13 8 A 9; \
         14 7 A 9; end 5 3 2",
    ),
    (
        "mark-fork",
        "fork copies the marks: the child's handle is closed by its own exec, the caller's stays",
        "open-write 0 0 0; open-write 0 1 1; mark 0 0; fork 0 1; exec 1 1; write 1 0; write 1 1; write 0 0; exec 0 1",
        "4 6 A 9; 5 6 A 2; 6 15 A 9; 7 9 A 9; 8 10 L 2 0; 9 8 R 7; 10 8 A 2; 11 8 A 9; 12 10 L 2 0; end 4 2 2",
    ),
    (
        "mark-after-fork",
        "a mark set after a fork is the caller's alone",
        "open-write 0 0 0; fork 0 1; mark 0 0; exec 1 1; exec 0 1; write 1 0",
        "4 6 A 9; 5 9 A 9; 6 15 A 9; 7 10 R 9; 8 10 L 2 0; 9 8 A 9; end 2 1 1",
    ),
    (
        "mark-pipe-ends",
        "a pipe whose last handles exec closes ends, and its number is free; with one unmarked end it stays",
        "pipe 0 5 0 1; pipe 0 6 2 3; mark 0 0; mark 0 1; mark 0 2; exec 0 0; register 6 4 255; register 5 4 255; write 0 3; \
         close 0 3; register 6 4 255",
        "4 4 A 9; 5 4 A 9; 6 15 A 9; 7 15 A 9; 8 15 A 9; 9 10 A 9; 10 2 R 3; 11 2 A 4; 12 8 A 9; 13 11 A 9; \
         14 2 A 4; end 4 4 0",
    ),
    (
        "mark-open",
        "an open is tested with the marked handles in",
        "open-write 0 0 0; mark 0 0; open-read 0 1 1; close 0 0; open-read 0 1 1",
        "4 6 A 9; 5 15 A 9; 6 5 R 9; 7 11 A 9; 8 5 A 2; end 2 1 1",
    ),
    (
        "mark-again",
        "a handle opened where a marked one was closed, by close or by exec, is not marked",
        "open-write 0 0 0; mark 0 0; close 0 0; open-write 0 0 0; exec 0 1; mark 0 0; exec 0 0; write 0 0; \
         open-write 0 0 0; exec 0 1; exec 0 0; write 0 0",
        "4 6 A 9; 5 15 A 9; 6 11 A 9; 7 6 A 9; 8 10 R 9; 9 15 A 9; 10 10 A 9; 11 8 R 7; 12 6 A 9; 13 10 R 9; \
         14 10 A 9; 15 8 A 9; end 3 2 1",
    ),
    (
        "mark-exit",
        "exit and close count a marked handle once, and a new subject of that number has no mark",
        "open-write 0 0 0; mark 0 0; exit 0; admit 0 9 255; open-write 0 0 0; exec 0 1; mark 0 0; close 0 0; exec 0 1",
        "4 6 A 9; 5 15 A 9; 6 12 A 9; 7 1 A 9; 8 6 A 9; 9 10 R 9; 10 15 A 9; 11 11 A 9; 12 10 L 2 0; end 2 2 0",
    ),
    (
        "mark-freeze",
        "a freeze asks nothing of a mark; what exec closes is not opened again while the books are closed",
        "open-write 0 0 0; freeze 0; mark 0 0; exec 0 0; open-write 0 0 0",
        "4 6 A 9; 5 16 A 0; 6 15 A 9; 7 10 A 9; 8 6 R 15; end 1 1 0",
    ),
    (
        "map-answer",
        "a map is a read at that moment and answers with the subject's level, also where the file's is higher",
        "map 0 0 0; map 0 1 1; map 0 0 2; close 0 1",
        "4 14 A 9; 5 14 L 2 0; 6 14 A 2; 7 11 A 2; end 3 1 2",
    ),
    (
        "map-refused",
        "2, 4, 5, 7 and 9 are said of a map, in this order",
        "pipe 0 5 0 1; open-write 0 0 2; map 32 64 16; map 1 64 16; map 0 64 16; map 0 6 16; map 0 5 16; map 0 5 3; \
         map 0 0 16; map 0 1 1; map 0 1 3; close 0 2; map 0 1 15",
        "4 4 A 9; 5 6 A 9; 6 14 R 2; 7 14 R 2; 8 14 R 4; 9 14 R 4; 10 14 R 5; 11 14 R 5; 12 14 R 7; 13 14 R 7; \
         14 14 R 9; 15 11 A 9; 16 14 L 2 0; end 4 1 3",
    ),
    (
        "map-pipe",
        "a pipe is not mapped: 5; it is opened for reading",
        "pipe 0 5 0 1; map 0 5 2; open-read 0 5 2",
        "4 4 A 9; 5 14 R 5; 6 5 A 9; end 3 0 3",
    ),
    (
        "map-flow",
        "the importer: while the pay book is open a low sheet is not mapped; once it is mapped, the book is not opened",
        "open-write 0 0 0; map 0 1 1; close 0 0; map 0 1 1; open-write 0 0 0; close 0 1; open-write 0 0 0",
        "4 6 A 9; 5 14 R 9; 6 11 A 9; 7 14 L 2 0; 8 6 R 9; 9 11 A 2; 10 6 R 9; end 2 2 0",
    ),
    (
        "map-flow-upstream",
        "as K6, with a map in the place of the last open: 9; as K7: lowered",
        "pipe 0 5 0 1; fork 0 1; open-write 0 0 2; map 1 1 2; close 0 0; close 1 1; map 1 1 2; close 0 2",
        "4 4 A 9; 5 9 A 9; 6 6 A 9; 7 14 R 9; 8 11 A 9; 9 11 A 9; 10 14 L 2 0; 11 11 A 9; end 6 3 3",
    ),
    (
        "map-write",
        "a write to a mapped file is allowed and lowers nobody: who has it mapped has read it, and the writer has not",
        "admit 1 9 255; map 1 1 0; map 1 1 1; fork 1 2; open-write 0 1 0; write 0 0; read 1 0; read 2 1; close 0 0",
        "4 1 A 9; 5 14 L 2 0; 6 14 A 2; 7 9 A 2; 8 6 A 2; 9 8 A 2; 10 7 A 2; 11 7 A 2; 12 11 A 9; end 5 1 4",
    ),
    (
        "map-handle",
        "a mapping is a reading handle: it is read and not written to, its place is taken, the file is not retired",
        "map 0 1 0; read 0 0; write 0 0; open-write 0 1 0; map 0 1 0; retire 1; mark 0 0; close 0 0; read 0 0; retire 1",
        "4 14 L 2 0; 5 7 A 2; 6 8 R 8; 7 6 R 7; 8 14 R 7; 9 13 R 10; 10 15 A 2; 11 11 A 2; 12 7 R 7; 13 13 A 2; end 1 1 0",
    ),
    (
        "map-exec",
        "exec closes every mapping of its caller, counts each as gone, and keeps the other handles",
        "map 0 0 0; map 0 0 15; open-read 0 0 2; exec 0 0; read 0 0; read 0 15; read 0 2",
        "4 14 A 9; 5 14 A 9; 6 5 A 9; 7 10 A 9; 8 7 R 7; 9 7 R 7; 10 7 A 9; end 3 2 1",
    ),
    (
        "map-exec-refused",
        "an exec refused with 9, 5 or 4 closes no mapping and counts nothing",
        "pipe 0 5 2 3; map 0 0 0; open-write 0 0 1; exec 0 1; exec 0 5; exec 0 6; read 0 0; close 0 1; exec 0 1; read 0 0",
        "4 4 A 9; 5 14 A 9; 6 6 A 9; 7 10 R 9; 8 10 R 5; 9 10 R 4; 10 7 A 9; 11 11 A 9; 12 10 L 2 0; 13 7 R 7; end 4 2 2",
    ),
    (
        "map-others",
        "exec closes the mappings of its caller and of nobody else",
        "admit 1 9 255; map 0 0 0; map 1 0 0; exec 1 0; read 1 0; read 0 0",
        "4 1 A 9; 5 14 A 9; 6 14 A 9; 7 10 A 9; 8 7 R 7; 9 7 A 9; end 2 1 1",
    ),
    (
        "map-fork",
        "fork copies a mapping: the child's is closed by its own exec, the caller's stays",
        "map 0 0 0; open-read 0 0 1; fork 0 1; exec 1 0; read 1 0; read 1 1; read 0 0; exec 0 0; read 0 0",
        "4 14 A 9; 5 5 A 9; 6 9 A 9; 7 10 A 9; 8 7 R 7; 9 7 A 9; 10 7 A 9; 11 10 A 9; 12 7 R 7; end 4 2 2",
    ),
    (
        "map-marked",
        "a marked mapping is closed by exec and counted once",
        "map 0 0 0; mark 0 0; exec 0 0; close 0 0",
        "4 14 A 9; 5 15 A 9; 6 10 A 9; 7 11 R 7; end 1 1 0",
    ),
    (
        "map-again",
        "a handle opened where a mapping was closed, by close, by exec or by exit, is no mapping",
        "map 0 0 0; close 0 0; open-read 0 0 0; exec 0 0; close 0 0; map 0 0 0; exec 0 0; open-read 0 0 0; exec 0 0; \
         close 0 0; map 0 0 0; exit 0; admit 0 9 255; open-read 0 0 0; exec 0 0; read 0 0",
        "4 14 A 9; 5 11 A 9; 6 5 A 9; 7 10 A 9; 8 11 A 9; 9 14 A 9; 10 10 A 9; 11 5 A 9; 12 10 A 9; 13 11 A 9; \
         14 14 A 9; 15 12 A 9; 16 1 A 9; 17 5 A 9; 18 10 A 9; 19 7 A 9; end 6 5 1",
    ),
    (
        "map-exit",
        "exit closes mappings and counts them, and then the file can be retired",
        "map 0 0 0; map 0 0 1; fork 0 1; exit 0; retire 0; exit 1; retire 0",
        "4 14 A 9; 5 14 A 9; 6 9 A 9; 7 12 A 9; 8 13 R 10; 9 12 A 9; 10 13 A 9; end 4 4 0",
    ),
    (
        "map-freeze",
        "a freeze asks nothing of a map, nor of a write that mappers read",
        "open-write 0 0 0; freeze 0; map 0 0 1; write 0 0; open-write 0 0 2; map 0 0 2",
        "4 6 A 9; 5 16 A 0; 6 14 A 9; 7 8 A 9; 8 6 R 15; 9 14 A 9; end 3 0 3",
    ),
    (
        "connect-answer",
        "a connect answers with the level of s; each pipe starts at its writer's level, and each end reads at p and writes \
         at q",
        "admit 1 2 255; connect 0 1 5 6 0 1; write 0 1; read 1 0; write 1 1; read 0 0; close 0 1; close 1 1",
        "4 1 A 2; 5 17 A 9; 6 8 A 9; 7 7 A 2; 8 8 A 2; 9 7 L 2 0; 10 11 A 2; 11 11 A 2; end 4 2 2",
    ),
    (
        "connect-to-higher",
        "the lower step asks: its level is answered, and the pipe back starts at the other's",
        "admit 1 2 255; connect 1 0 5 6 0 1; write 0 1; write 1 1; read 0 0; write 0 1",
        "4 1 A 2; 5 17 A 2; 6 8 A 9; 7 8 A 2; 8 7 L 2 0; 9 8 L 2 0; end 4 0 4",
    ),
    (
        "connect-refused",
        "2 is said of s and of t, then 16, 3, 7 and 9",
        "admit 1 2 255; open-write 0 0 2; connect 32 32 64 64 16 16; connect 0 32 64 64 16 16; connect 2 2 64 64 16 16; \
         connect 0 0 64 64 16 16; connect 0 1 64 6 16 16; connect 0 1 5 64 16 16; connect 0 1 0 6 16 16; \
         connect 0 1 5 1 16 16; connect 0 1 5 5 16 16; connect 0 1 5 6 16 1; connect 0 1 5 6 0 16; connect 0 1 5 6 0 0; \
         connect 0 1 5 6 2 0; connect 0 1 5 6 0 2; connect 1 0 5 6 2 0; connect 1 0 5 6 0 2; connect 0 1 5 6 0 1; \
         connect 1 0 5 6 0 1; close 0 2; connect 0 1 5 6 0 1",
        "4 1 A 2; 5 6 A 9; 6 17 R 2; 7 17 R 2; 8 17 R 2; 9 17 R 16; 10 17 R 7; 11 17 R 7; 12 17 R 3; 13 17 R 3; 14 17 R 3; \
         15 17 R 7; 16 17 R 7; 17 17 R 7; 18 17 R 7; 19 17 R 7; 20 17 R 7; 21 17 R 7; 22 17 R 9; 23 17 R 9; 24 11 A 9; \
         25 17 A 9; end 5 1 4",
    ),
    (
        "connect-flow",
        "a low sheet at one end and the pay book at the other: 9, whichever end asks; without one of them: allowed",
        "admit 1 9 255; open-read 0 1 2; open-write 1 0 2; connect 0 1 5 6 0 1; connect 1 0 5 6 0 1; close 0 2; \
         connect 0 1 5 6 0 1",
        "4 1 A 9; 5 5 A 2; 6 6 A 9; 7 17 R 9; 8 17 R 9; 9 11 A 9; 10 17 A 9; end 6 1 5",
    ),
    (
        "connect-nothing-left",
        "a connect refused with 9 leaves neither pipe and no handle, and counts nothing",
        "admit 1 2 255; open-write 0 0 2; connect 0 1 5 6 0 1; register 5 4 255; register 6 4 255; read 0 0; read 1 0; \
         write 0 1; \
         write 1 1",
        "4 1 A 2; 5 6 A 9; 6 17 R 9; 7 2 A 4; 8 2 A 4; 9 7 R 7; 10 7 R 7; 11 8 R 7; 12 8 R 7; end 1 0 1",
    ),
    (
        "connect-open",
        "opens are tested through both pipes: as K6, 9; with the low reader's writing end closed: allowed",
        "admit 1 9 255; connect 0 1 5 6 0 1; open-write 0 0 2; open-read 1 1 2; close 1 1; open-read 1 1 2; \
         open-write 1 0 3",
        "4 1 A 9; 5 17 A 9; 6 6 A 9; 7 5 R 9; 8 11 A 9; 9 5 A 2; 10 6 R 9; end 6 1 5",
    ),
    (
        "connect-ends",
        "each of the two pipes ends with its last handle, and its number is free",
        "admit 1 9 255; connect 0 1 5 6 0 1; close 0 1; register 5 4 255; close 1 0; register 5 4 255; \
         register 6 4 255; exit 0; \
         register 6 4 255; exit 1; register 6 4 255",
        "4 1 A 9; 5 17 A 9; 6 11 A 9; 7 2 R 3; 8 11 A 9; 9 2 A 4; 10 2 R 3; 11 12 A 9; 12 2 R 3; 13 12 A 9; 14 2 A 4; \
         end 4 4 0",
    ),
    (
        "connect-exec",
        "exec closes the ends that are marked, and no others",
        "admit 1 9 255; connect 0 1 5 6 0 1; mark 0 0; exec 0 0; read 0 0; write 0 1; exec 1 0; read 1 0; write 1 1",
        "4 1 A 9; 5 17 A 9; 6 15 A 9; 7 10 A 9; 8 7 R 7; 9 8 A 9; 10 10 A 9; 11 7 A 9; 12 8 A 9; end 4 1 3",
    ),
    (
        "connect-fork",
        "fork copies both ends of its caller",
        "admit 1 2 255; connect 0 1 5 6 0 1; fork 0 2; close 0 0; close 0 1; write 2 1; read 1 0; write 1 1; read 2 0; \
         close 0 0",
        "4 1 A 2; 5 17 A 9; 6 9 A 9; 7 11 A 9; 8 11 A 9; 9 8 A 9; 10 7 A 2; 11 8 A 2; 12 7 L 2 0; 13 11 R 7; end 6 2 4",
    ),
    (
        "connect-places",
        "places 15 and 0 are taken, in either order",
        "admit 1 9 255; connect 0 1 5 6 15 0; write 0 0; read 1 15; write 1 0; read 0 15; read 0 0; write 1 15",
        "4 1 A 9; 5 17 A 9; 6 8 A 9; 7 7 A 9; 8 8 A 9; 9 7 A 9; 10 7 R 8; 11 8 R 8; end 4 0 4",
    ),
    (
        "connect-again",
        "two steps may be connected once more, by other pipes at other places",
        "admit 1 9 255; connect 0 1 5 6 0 1; connect 0 1 7 8 0 2; connect 0 1 5 8 2 3; connect 1 0 7 8 2 3",
        "4 1 A 9; 5 17 A 9; 6 17 R 7; 7 17 R 3; 8 17 A 9; end 8 0 8",
    ),
    (
        "connect-freeze",
        "a freeze asks nothing of a connect",
        "admit 1 9 255; freeze 0; connect 0 1 5 6 0 1; write 0 1",
        "4 1 A 9; 5 16 A 0; 6 17 A 9; 7 8 A 9; end 4 0 4",
    ),
    (
        "thread-answer",
        "a thread is a new subject at its maker's level, without handles; a thread can make another, and goes on without \
         its maker",
        "open-write 0 0 0; thread 0 1; write 1 0; close 1 0; thread 1 2; exit 0; close 2 0; create 2 5",
        "4 6 A 9; 5 18 A 9; 6 8 R 7; 7 11 R 7; 8 18 A 9; 9 12 A 9; 10 11 R 7; 11 3 A 9; end 1 1 0",
    ),
    (
        "thread-refused",
        "2 for a maker that is out of range or not live, then 3 for a number that is out of range or in use, its own too",
        "thread 32 32; thread 1 1; thread 1 0; thread 0 0; thread 0 32; thread 0 18446744073709551615; admit 1 2 255; \
         thread 0 1; thread 0 31; thread 31 0; create 1 5",
        "4 18 R 2; 5 18 R 2; 6 18 R 2; 7 18 R 3; 8 18 R 3; 9 18 R 3; 10 1 A 2; 11 18 R 3; 12 18 A 9; 13 18 R 3; \
         14 3 A 2; end 0 0 0",
    ),
    (
        "thread-flow",
        "data flows between members: with the pay book open at one, the other does not open or map a low sheet, nor the \
         other way round: 9",
        "thread 0 1; open-write 0 0 0; open-read 1 1 0; map 1 1 0; close 0 0; open-read 1 1 0; open-write 0 0 0; \
         close 1 0; open-write 0 0 0",
        "4 18 A 9; 5 6 A 9; 6 5 R 9; 7 14 R 9; 8 11 A 9; 9 5 A 2; 10 6 R 9; 11 11 A 9; 12 6 A 9; end 3 2 1",
    ),
    (
        "thread-flow-beyond",
        "a chain goes on through a mate: what a step behind its pipe writes to, the other members need, and a thread that is \
         made afterwards",
        "pipe 0 5 0 1; fork 0 1; close 0 0; close 1 1; open-write 1 0 2; thread 0 2; open-read 2 1 0; thread 2 3; \
         open-read 3 1 0; close 0 1; open-read 3 1 0",
        "4 4 A 9; 5 9 A 9; 6 11 A 9; 7 11 A 9; 8 6 A 9; 9 18 A 9; 10 5 R 9; 11 18 A 9; 12 5 R 9; 13 11 A 9; 14 5 A 2; \
         end 6 3 3",
    ),
    (
        "thread-fall",
        "what lowers one lowers all: a read by the second of three",
        "thread 0 1; thread 1 2; open-read 1 1 0; read 1 0; create 0 5; create 2 6; thread 2 3; fork 0 4; read 1 0",
        "4 18 A 9; 5 18 A 9; 6 5 A 2; 7 7 L 2 0; 8 3 A 2; 9 3 A 2; 10 18 A 2; 11 9 A 2; 12 7 A 2; end 1 0 1",
    ),
    (
        "thread-map",
        "a map by one lowers all; two members may have one file mapped, and a write to it lowers nobody any more",
        "thread 0 1; map 1 1 0; map 0 1 0; open-write 0 1 1; write 0 1; read 1 0; close 0 0; write 0 1; close 1 0; retire 1",
        "4 18 A 9; 5 14 L 2 0; 6 14 A 2; 7 6 A 2; 8 8 A 2; 9 7 A 2; 10 11 A 2; 11 8 A 2; 12 11 A 2; 13 13 R 10; end 3 2 1",
    ),
    (
        "thread-pipe",
        "a pipe that a member makes starts at the group's level, and falls by what another member writes",
        "thread 0 1; pipe 0 5 0 1; open-write 1 5 0; open-read 1 1 1; read 1 1; write 1 0; pipe 0 6 2 3",
        "4 18 A 9; 5 4 A 9; 6 6 A 9; 7 5 A 2; 8 7 L 2 0; 9 8 L 2 0; 10 4 A 2; end 6 0 6",
    ),
    (
        "thread-exec",
        "exec ends the other members: the pay book that one of them has open is not in its way, their handles are counted, \
         their pipe ends, and their numbers are free",
        "thread 0 1; thread 0 2; open-write 1 0 0; pipe 2 5 0 1; open-read 0 0 0; exec 0 1; write 1 0; close 2 0; read 0 0; \
         register 5 4 255; admit 1 9 255; thread 0 2",
        "4 18 A 9; 5 18 A 9; 6 6 A 9; 7 4 A 9; 8 5 A 9; 9 10 L 2 0; 10 8 R 2; 11 11 R 2; 12 7 A 2; 13 2 A 4; 14 1 A 9; \
         15 18 A 2; end 4 3 1",
    ),
    (
        "thread-exec-by-thread",
        "an exec by a thread ends the one that made it",
        "thread 0 1; open-write 0 0 0; exec 1 1; write 0 0; create 1 5; admit 0 9 255",
        "4 18 A 9; 5 6 A 9; 6 10 L 2 0; 7 8 R 2; 8 3 A 2; 9 1 A 9; end 1 1 0",
    ),
    (
        "thread-exec-same-level",
        "an exec that lowers nothing ends the other members all the same",
        "thread 0 1; open-read 1 0 0; exec 0 0; read 1 0; thread 0 1; read 1 0",
        "4 18 A 9; 5 5 A 9; 6 10 A 9; 7 7 R 2; 8 18 A 9; 9 7 R 7; end 1 1 0",
    ),
    (
        "thread-exec-own",
        "exec is tested by the caller's own handles, and by what they lead to; its marked ones are left out as ever",
        "thread 0 1; open-write 0 0 0; exec 0 1; exec 1 0; admit 0 9 255; open-write 0 0 0; thread 0 2; exec 0 1; mark 0 0; \
         exec 0 1; write 0 0; exit 2",
        "4 18 A 9; 5 6 A 9; 6 10 R 9; 7 10 A 9; 8 1 A 9; 9 6 A 9; 10 18 A 9; 11 10 R 9; 12 15 A 9; 13 10 L 2 0; 14 8 R 7; \
         15 12 R 2; end 2 2 0",
    ),
    (
        "thread-exec-chain",
        "a chain through a mate is left out of an exec's test, one through another step is not",
        "thread 0 1; pipe 0 5 0 1; open-read 1 5 0; open-write 1 0 1; admit 2 9 255; open-read 2 5 0; \
         open-write 2 0 1; exec 0 1; \
         close 2 0; exec 0 1; write 0 1",
        "4 18 A 9; 5 4 A 9; 6 5 A 9; 7 6 A 9; 8 1 A 9; 9 5 A 9; 10 6 A 9; 11 10 R 9; 12 11 A 9; 13 10 L 2 0; 14 8 L 2 0; \
         end 6 3 3",
    ),
    (
        "thread-exec-refused",
        "an exec refused with 9, 5 or 4 ends nobody and counts nothing",
        "thread 0 1; open-write 1 0 0; open-write 0 0 0; pipe 0 5 1 2; exec 0 1; exec 0 5; exec 0 6; write 1 0; thread 1 2; \
         open-read 2 1 0; mark 0 0; exec 0 1; write 1 0; exit 2",
        "4 18 A 9; 5 6 A 9; 6 6 A 9; 7 4 A 9; 8 10 R 9; 9 10 R 5; 10 10 R 4; 11 8 A 9; 12 18 A 9; 13 5 R 9; 14 15 A 9; \
         15 10 L 2 0; 16 8 R 2; 17 12 R 2; end 4 2 2",
    ),
    (
        "thread-fork",
        "a fork's child has the handles of its caller alone and a group to itself: it opens a low sheet where its caller's \
         mate has the pay book open, and falls alone",
        "thread 0 1; open-write 1 0 0; fork 0 2; open-read 2 1 0; read 2 0; create 0 5; fork 1 3; open-read 3 1 1; \
         write 3 0; \
         exit 3; open-read 0 1 0",
        "4 18 A 9; 5 6 A 9; 6 9 A 9; 7 5 A 2; 8 7 L 2 0; 9 3 A 9; 10 9 A 9; 11 5 R 9; 12 8 A 9; 13 12 A 9; 14 5 R 9; \
         end 3 1 2",
    ),
    (
        "thread-exit",
        "exit ends one member, the first too: the others go on, and fall together",
        "thread 0 1; thread 0 2; open-write 0 0 0; open-read 1 0 0; exit 0; write 0 0; read 1 0; open-read 2 1 0; read 2 0; \
         create 1 5; exit 1; create 2 6; exit 2",
        "4 18 A 9; 5 18 A 9; 6 6 A 9; 7 5 A 9; 8 12 A 9; 9 8 R 2; 10 7 A 9; 11 5 A 2; 12 7 L 2 0; 13 3 A 2; 14 12 A 2; \
         15 3 A 2; 16 12 A 2; end 3 3 0",
    ),
    (
        "thread-again",
        "the number of a member that has left is used again: by an admit for a group of its own, by a thread for a member",
        "thread 0 1; exit 0; admit 0 9 255; open-write 0 0 0; open-read 1 1 0; read 1 0; create 0 5; exit 0; thread 1 0; \
         create 0 6; open-write 0 0 0",
        "4 18 A 9; 5 12 A 9; 6 1 A 9; 7 6 A 9; 8 5 A 2; 9 7 L 2 0; 10 3 A 9; 11 12 A 9; 12 18 A 2; 13 3 A 2; 14 6 R 9; \
         end 2 1 1",
    ),
    (
        "thread-connect",
        "two members may be connected: they are not the same subject; the flow between them was there already",
        "thread 0 1; connect 0 0 5 6 0 1; open-write 0 0 2; connect 0 1 5 6 0 1; write 0 1; read 1 0; open-read 1 1 2; \
         exec 1 1; write 0 1; register 5 4 255; register 6 4 255",
        "4 18 A 9; 5 17 R 16; 6 6 A 9; 7 17 A 9; 8 8 A 9; 9 7 A 9; 10 5 R 9; 11 10 L 2 0; 12 8 R 2; 13 2 R 3; 14 2 R 3; \
         end 5 3 2",
    ),
    (
        "thread-places",
        "each member has places of its own",
        "thread 0 1; open-read 0 0 0; read 1 0; mark 1 0; open-read 1 0 0; close 0 0; read 0 0; read 1 0; open-write 0 0 0; \
         write 1 0",
        "4 18 A 9; 5 5 A 9; 6 7 R 7; 7 15 R 7; 8 5 A 9; 9 11 A 9; 10 7 R 7; 11 7 A 9; 12 6 A 9; 13 8 R 8; end 3 1 2",
    ),
    (
        "thread-two-groups",
        "groups have nothing to do with each other",
        "admit 1 9 255; thread 0 2; thread 1 3; open-write 2 0 0; open-read 3 1 0; read 3 0; create 0 5; create 1 6; \
         exec 3 1; \
         create 1 7; create 2 7",
        "4 1 A 9; 5 18 A 9; 6 18 A 9; 7 6 A 9; 8 5 A 2; 9 7 L 2 0; 10 3 A 9; 11 3 A 2; 12 10 A 2; 13 3 R 2; 14 3 A 9; \
         end 2 0 2",
    ),
    (
        "thread-freeze",
        "a freeze asks nothing of a thread",
        "freeze 0; thread 0 1; open-write 1 0 0; open-read 1 0 0",
        "4 16 A 0; 5 18 A 9; 6 6 R 15; 7 5 A 9; end 1 0 1",
    ),
    (
        "thread-subject",
        "subject 4294967296 gives 2 as the maker of a thread, and 3 as its number",
        "thread 4294967296 1; thread 0 4294967297; thread 0 9223372036854775809; thread 0 1",
        "4 18 R 2; 5 18 R 3; 6 18 R 3; 7 18 A 9; end 0 0 0",
    ),
    (
        "h-subject",
        "subject 4294967296 gives 2, in every call with a subject",
        "create 4294967296 2; pipe 4294967296 2 0 1; open-read 4294967296 0 0; open-write 4294967296 0 0; \
         read 4294967296 0; write 4294967296 0; fork 4294967296 1; exec 4294967296 0; close 4294967296 0; \
         map 4294967296 0 0; mark 4294967296 0; connect 4294967296 0 5 6 0 1; connect 0 4294967296 5 6 0 1; \
         exit 4294967296; exit 0",
        "4 3 R 2; 5 4 R 2; 6 5 R 2; 7 6 R 2; 8 7 R 2; 9 8 R 2; 10 9 R 2; 11 10 R 2; 12 11 R 2; 13 14 R 2; 14 15 R 2; \
         15 17 R 2; 16 17 R 2; 17 12 R 2; 18 12 A 9; end 0 0 0",
    ),
    (
        "h-subject-new",
        "subject 4294967296 gives 3 as new, and so does the largest number",
        "admit 4294967296 9 255; admit 4294967297 9 255; fork 0 4294967297; admit 18446744073709551615 9 255; \
         fork 0 18446744073709551615; admit 1 9 255",
        "4 1 R 3; 5 1 R 3; 6 9 R 3; 7 1 R 3; 8 9 R 3; 9 1 A 9; end 0 0 0",
    ),
    (
        "h-place",
        "place 4294967296 gives 7, in every call with a place",
        "open-read 0 1 4294967296; open-write 0 1 4294967296; pipe 0 2 4294967296 1; pipe 0 2 1 4294967296; \
         map 0 1 4294967296; open-read 0 1 0; read 0 4294967296; write 0 4294967296; close 0 4294967296; \
         mark 0 4294967296; admit 1 9 255; connect 0 1 5 6 4294967297 2; connect 0 1 5 6 2 4294967297; \
         read 0 18446744073709551600; close 0 0",
        "4 5 R 7; 5 6 R 7; 6 4 R 7; 7 4 R 7; 8 14 R 7; 9 5 A 2; 10 7 R 7; 11 8 R 7; 12 11 R 7; 13 15 R 7; 14 1 A 9; \
         15 17 R 7; 16 17 R 7; 17 7 R 7; 18 11 A 9; end 1 1 0",
    ),
    (
        "h-largest-object",
        "the largest object number is registered, opened, read, run and retired, and can be used again",
        "register 18446744073709551615 4 255; register 18446744073709551615 4 255; open-read 0 18446744073709551615 0; \
         retire 18446744073709551615; read 0 0; close 0 0; exec 0 18446744073709551615; retire 18446744073709551615; \
         open-read 0 18446744073709551615 0; pipe 0 18446744073709551615 0 1; exec 0 18446744073709551615",
        "4 2 A 4; 5 2 R 3; 6 5 A 4; 7 13 R 10; 8 7 L 4 0; 9 11 A 4; 10 10 A 4; 11 13 A 4; 12 5 R 4; 13 4 A 4; 14 10 R 5; \
         end 3 1 2",
    ),
    (
        "h-other-numbers",
        "numbers that differ by 64 or in their upper bits alone are those of different objects",
        "register 64 3 255; register 4294967296 4 255; register 9223372036854775808 5 255; open-read 0 0 0; \
         open-read 0 64 1; \
         open-read 0 4294967296 2; open-read 0 9223372036854775808 3; retire 65; retire 4294967297; \
         retire 9223372036854775809; close 0 0; retire 0; open-read 0 0 0; retire 4294967296; close 0 2; \
         retire 4294967296; register 0 7 255; open-read 0 4294967296 2",
        "4 2 A 3; 5 2 A 4; 6 2 A 5; 7 5 A 9; 8 5 A 3; 9 5 A 4; 10 5 A 5; 11 13 R 4; 12 13 R 4; 13 13 R 4; 14 11 A 9; \
         15 13 A 9; 16 5 R 4; 17 13 R 10; 18 11 A 9; 19 13 A 4; 20 2 A 7; 21 5 R 4; end 4 2 2",
    ),
    (
        "h-every-kind",
        "files that are created, pipes and both pipes of a connect may have any number",
        "create 0 9223372036854775807; pipe 0 16384 0 1; admit 1 9 255; \
         connect 0 1 72057594037927936 18446744073709551614 2 3; write 0 3; read 1 2; write 1 3; read 0 2; \
         exec 0 16384; retire 72057594037927936; map 0 9223372036854775807 4; close 0 0; close 0 1; register 16384 1 255",
        "4 3 A 9; 5 4 A 9; 6 1 A 9; 7 17 A 9; 8 8 A 9; 9 7 A 9; 10 8 A 9; 11 7 A 9; 12 10 R 5; 13 13 R 5; 14 14 A 9; \
         15 11 A 9; 16 11 A 9; 17 2 A 1; end 7 2 5",
    ),
];

/// Name, what it shows, calls from empty tables, replies.
const FROM_EMPTY: &[(&str, &str, &str, &str)] = &[
    ("K10", "a padded length: 11", "bytes 80 00", "1 0 R 11; end 0 0 0"),
    ("K11", "a record without a body: 12", "bytes 00", "1 0 R 12; end 0 0 0"),
    (
        "example",
        "the journal of RULES K17",
        "bytes 05 02 00 02 ff 01 05 01 00 09 ff 01 04 05 00 00 00 03 07 00 00",
        "1 2 A 2; 2 1 A 9; 3 5 A 2; 4 7 L 2 0; end 1 0 1",
    ),
    ("empty", "empty journal: end 0 0 0 alone", "", "end 0 0 0"),
    ("level-15", "level 15 is taken", "admit 0 15 255; register 0 15 255", "1 1 A 15; 2 2 A 15; end 0 0 0"),
    ("level-16", "level 16 gives 6", "admit 0 16 255; register 0 16 255", "1 1 R 6; 2 2 R 6; end 0 0 0"),
    (
        "set-255",
        "set 255 is taken, 256 gives 6, and so does any above it; 3 is said before 6",
        "admit 0 9 255; register 0 9 255; admit 1 9 256; register 1 9 256; admit 1 16 256; admit 1 9 4294967296; \
         register 1 9 18446744073709551615; admit 0 9 256; admit 1 0 0",
        "1 1 A 9; 2 2 A 9; 3 1 R 6; 4 2 R 6; 5 1 R 6; 6 1 R 6; 7 2 R 6; 8 1 R 3; 9 1 A 0; end 0 0 0",
    ),
    (
        "set-record",
        "a record of an admit or a register has three numbers, the set last: without it, it is 12",
        "call 1 0 9; call 2 0 9; call 1 0; call 2; call 1 0 9 255 0; call 2 0 9 255 255; bytes 04 01 00 09 ff; \
         bytes 06 02 00 09 ff 81 00; bytes 05 01 00 09 ff 01; bytes 04 02 00 09 0f; call 1 1 255 9",
        "1 1 R 12; 2 2 R 12; 3 1 R 12; 4 2 R 12; 5 1 R 12; 6 2 R 12; 7 1 R 12; 8 2 R 12; 9 1 A 9; 10 2 A 9; 11 1 R 6; \
         end 0 0 0",
    ),
    (
        "label-read",
        "a read takes away the marks that the file lacks, and says lowered and how many, at the same level too",
        "register 0 5 3; admit 0 5 6; open-read 0 0 0; read 0 0; read 0 0",
        "1 2 A 5; 2 1 A 5; 3 5 A 5; 4 7 L 5 1; 5 7 A 5; end 1 0 1",
    ),
    (
        "label-apart",
        "labels of which neither is at least the other: the smaller level and the common set",
        "register 0 9 1; admit 0 5 254; open-read 0 0 0; read 0 0; read 0 0; register 1 5 255; admit 1 9 1; \
         open-read 1 1 0; \
         read 1 0; register 2 2 12; admit 2 9 10; open-read 2 2 0; read 2 0",
        "1 2 A 9; 2 1 A 5; 3 5 A 9; 4 7 L 5 7; 5 7 A 5; 6 2 A 5; 7 1 A 9; 8 5 A 5; 9 7 L 5 0; 10 2 A 2; 11 1 A 9; 12 5 A 2; \
         13 7 L 2 1; end 3 0 3",
    ),
    (
        "label-pipe",
        "a write takes away the marks of a pipe that the writer lacks, and gives the number that the pipe lost",
        "admit 0 9 255; register 0 9 15; pipe 0 5 0 1; open-read 0 0 2; read 0 2; write 0 1; write 0 1; fork 0 1; read 1 0",
        "1 1 A 9; 2 2 A 9; 3 4 A 9; 4 5 A 9; 5 7 L 9 4; 6 8 L 9 4; 7 8 A 9; 8 9 A 9; 9 7 A 9; end 6 0 6",
    ),
    (
        "label-flow",
        "an open is 9 for a mark that is needed and lacking, though the levels are the same; a close lets the mark go",
        "register 0 5 1; register 1 5 2; admit 0 5 3; open-write 0 0 0; open-read 0 1 1; open-write 0 1 1; open-read 0 0 2; \
         close 0 1; open-read 0 0 2; close 0 0; open-read 0 1 1; read 0 1; open-write 0 0 0; close 0 2; open-write 0 1 0",
        "1 2 A 5; 2 2 A 5; 3 1 A 5; 4 6 A 5; 5 5 R 9; 6 6 A 5; 7 5 R 9; 8 11 A 5; 9 5 A 5; 10 11 A 5; 11 5 A 5; 12 7 L 5 1; \
         13 6 R 9; 14 11 A 5; 15 6 A 5; end 5 3 2",
    ),
    (
        "label-upstream",
        "a mark that is needed downstream is needed of what is read upstream",
        "register 0 9 1; register 1 9 2; register 2 9 3; admit 0 9 3; pipe 0 5 0 1; fork 0 1; close 0 1; close 1 0; \
         open-write 0 0 2; open-read 1 1 2; open-read 1 2 2; close 0 2; open-read 1 1 3",
        "1 2 A 9; 2 2 A 9; 3 2 A 9; 4 1 A 9; 5 4 A 9; 6 9 A 9; 7 11 A 9; 8 11 A 9; 9 6 A 9; 10 5 R 9; 11 5 A 9; 12 11 A 9; \
         13 5 A 9; end 7 3 4",
    ),
    (
        "label-exec",
        "exec is 9 where the file lacks a mark that is needed, whatever its level, and takes marks away",
        "register 0 5 1; register 1 5 3; register 2 9 2; admit 0 9 3; open-write 0 0 0; exec 0 2; exec 0 1; close 0 0; \
         exec 0 2; exec 0 2",
        "1 2 A 5; 2 2 A 5; 3 2 A 9; 4 1 A 9; 5 6 A 5; 6 10 R 9; 7 10 L 5 0; 8 11 A 5; 9 10 L 5 1; 10 10 A 5; end 1 1 0",
    ),
    (
        "label-map",
        "a map takes marks away, from a mate too, and the number is that of one member",
        "register 0 9 240; admit 0 9 255; thread 0 1; map 1 0 0; create 0 5; admit 2 9 255; open-read 2 5 0; read 2 0",
        "1 2 A 9; 2 1 A 9; 3 18 A 9; 4 14 L 9 4; 5 3 A 9; 6 1 A 9; 7 5 A 9; 8 7 L 9 4; end 2 0 2",
    ),
    (
        "label-freeze",
        "the freeze looks at levels only",
        "register 0 9 0; register 1 9 255; register 2 8 255; admit 0 9 255; freeze 9; open-write 0 0 0; open-write 0 1 0; \
         open-write 0 2 0",
        "1 2 A 9; 2 2 A 9; 3 2 A 8; 4 1 A 9; 5 16 A 9; 6 6 R 15; 7 6 R 15; 8 6 A 8; end 1 0 1",
    ),
    (
        "label-connect",
        "each pipe of a connect has the label of its writer",
        "admit 0 9 3; admit 1 5 6; connect 0 1 5 6 0 1; read 1 0; read 0 0; write 0 1; write 1 1",
        "1 1 A 9; 2 1 A 5; 3 17 A 9; 4 7 L 5 1; 5 7 L 5 1; 6 8 L 5 1; 7 8 L 5 1; end 4 0 4",
    ),
    (
        "label-connect-flow",
        "a connect is 9 where each end lacks what the other needs: here a level, there a mark",
        "register 0 9 1; register 1 5 2; admit 0 9 1; admit 1 5 2; open-write 0 0 0; open-write 1 1 0; connect 0 1 5 6 1 2; \
         close 0 0; connect 0 1 5 6 1 2; close 1 0; connect 0 1 5 6 1 2",
        "1 2 A 9; 2 2 A 5; 3 1 A 9; 4 1 A 5; 5 6 A 9; 6 6 A 5; 7 17 R 9; 8 11 A 9; 9 17 R 9; 10 11 A 5; 11 17 A 9; \
         end 6 2 4",
    ),
    (
        "label-fork",
        "a fork's child, and the file that it creates, have the set of the parent",
        "admit 0 9 5; fork 0 1; create 1 0; admit 2 9 4; open-write 2 0 0; open-write 0 0 0",
        "1 1 A 9; 2 9 A 9; 3 3 A 9; 4 1 A 9; 5 6 R 9; 6 6 A 9; end 1 0 1",
    ),
    (
        "set-0-and-255",
        "sets 0 and 255 are taken",
        "admit 0 9 0; admit 1 9 255; register 0 9 0; register 1 9 255",
        "1 1 A 9; 2 1 A 9; 3 2 A 9; 4 2 A 9; end 0 0 0",
    ),
    (
        "set-256",
        "a set above 255 gives 6, however large it is; 3 is said before it, and 12 before both",
        "admit 0 9 256; register 0 9 256; admit 0 16 255; admit 0 16 256; admit 32 9 256; register 0 9 18446744073709551615; admit 0 9 4294967551; admit 0 9 255; admit 0 9 256; call 1 1 9 256 0",
        "1 1 R 6; 2 2 R 6; 3 1 R 6; 4 1 R 6; 5 1 R 3; 6 2 R 6; 7 1 R 6; 8 1 A 9; 9 1 R 3; 10 1 R 12; end 0 0 0",
    ),
    (
        "label-record",
        "a record of an admit or a register has three numbers, the set last: without the set it is 12",
        "call 1 0 9; call 2 0 9; call 1 0 9 255 0; call 2 0 9 255 0; bytes 05 01 00 09 ff 00; bytes 04 01 00 09 ff; call 1 255 9 0; call 1 0 255 9; call 1 0 9 255; call 2 0 9 255",
        "1 1 R 12; 2 2 R 12; 3 1 R 12; 4 2 R 12; 5 1 R 12; 6 1 R 12; 7 1 R 3; 8 1 R 6; 9 1 A 9; 10 2 A 9; end 0 0 0",
    ),
    (
        "label-mark-alone",
        "a mark lost alone is lowered: the level stays, and the fifth field says how many were lost; read again, nothing is",
        "register 0 9 1; admit 0 9 3; open-read 0 0 0; read 0 0; read 0 0",
        "1 2 A 9; 2 1 A 9; 3 5 A 9; 4 7 L 9 1; 5 7 A 9; end 1 0 1",
    ),
    (
        "label-level-alone",
        "a level that falls alone loses no mark: 0 is written; a higher level with fewer marks takes marks alone",
        "register 0 2 255; register 1 15 15; admit 0 9 255; open-read 0 0 0; open-read 0 1 1; read 0 0; read 0 1; read 0 1",
        "1 2 A 2; 2 2 A 15; 3 1 A 9; 4 5 A 2; 5 5 A 15; 6 7 L 2 0; 7 7 L 2 4; 8 7 A 2; end 2 0 2",
    ),
    (
        "label-count",
        "the marks lost are counted: none of those that both sets have, and none of those that neither has",
        "register 0 9 170; register 1 4 85; register 2 9 0; admit 0 9 255; admit 1 9 15; admit 2 0 128; open-read 0 0 0; read 0 0; open-read 1 1 0; read 1 0; open-read 2 2 0; read 2 0; open-read 0 1 1; read 0 1",
        "1 2 A 9; 2 2 A 4; 3 2 A 9; 4 1 A 9; 5 1 A 9; 6 1 A 0; 7 5 A 9; 8 7 L 9 4; 9 5 A 4; 10 7 L 4 2; 11 5 A 9; 12 7 L 0 1; 13 5 A 4; 14 7 L 4 4; end 4 0 4",
    ),
    (
        "label-pipe-reader",
        "a write gives the marks that the pipe lost, a read through it those of the reader",
        "register 0 9 15; admit 0 9 255; pipe 0 5 0 1; fork 0 1; open-read 1 0 2; read 1 2; write 1 1; write 1 1; read 0 0; write 0 1",
        "1 2 A 9; 2 1 A 9; 3 4 A 9; 4 9 A 9; 5 5 A 9; 6 7 L 9 4; 7 8 L 9 4; 8 8 A 9; 9 7 L 9 4; 10 8 A 9; end 5 0 5",
    ),
    (
        "label-write-file",
        "a file keeps its set: who lacks one of its marks does not open it for writing, and who has it open for writing loses none of them",
        "register 0 9 3; register 1 9 3; register 2 9 2; admit 0 9 1; admit 1 9 7; open-write 0 0 0; open-write 1 0 0; open-read 1 2 1; open-read 1 1 1; read 1 1; write 1 0",
        "1 2 A 9; 2 2 A 9; 3 2 A 9; 4 1 A 9; 5 1 A 9; 6 6 R 9; 7 6 A 9; 8 5 R 9; 9 5 A 9; 10 7 L 9 1; 11 8 A 9; end 2 0 2",
    ),
    (
        "label-map-exec",
        "a map and an exec give the marks that the subject lost",
        "register 0 9 240; register 1 9 16; admit 0 9 255; map 0 0 0; exec 0 1; exec 0 1",
        "1 2 A 9; 2 2 A 9; 3 1 A 9; 4 14 L 9 4; 5 10 L 9 3; 6 10 A 9; end 1 1 0",
    ),
    (
        "label-crossed",
        "of two labels each can be below the other: neither subject writes to the other's file, nor is one read while the other is open for writing",
        "register 0 2 3; register 1 9 1; admit 0 9 1; admit 1 2 3; open-write 0 0 0; open-write 1 1 0; open-write 0 1 0; open-write 1 0 0; open-read 0 0 1; open-read 1 1 1; close 0 0; close 1 0; open-read 0 0 1; read 0 1; open-read 1 1 1; read 1 1; open-write 0 1 0",
        "1 2 A 2; 2 2 A 9; 3 1 A 9; 4 1 A 2; 5 6 R 9; 6 6 R 9; 7 6 A 9; 8 6 A 2; 9 5 R 9; 10 5 R 9; 11 11 A 9; 12 11 A 2; 13 5 A 2; 14 7 L 2 0; 15 5 A 9; 16 7 L 2 1; 17 6 R 9; end 4 2 2",
    ),
    (
        "label-need",
        "a need has the highest level and all the sets: a program that lacks either is 9, and one that has both is run",
        "register 0 9 1; register 1 2 2; register 2 9 1; register 3 9 3; register 4 8 3; admit 0 9 3; open-write 0 0 0; open-write 0 1 1; exec 0 2; exec 0 4; exec 0 3; close 0 1; exec 0 2; open-write 0 1 1",
        "1 2 A 9; 2 2 A 2; 3 2 A 9; 4 2 A 9; 5 2 A 8; 6 1 A 9; 7 6 A 9; 8 6 A 2; 9 10 R 9; 10 10 R 9; 11 10 A 9; 12 11 A 9; 13 10 L 9 1; 14 6 R 9; end 2 1 1",
    ),
    (
        "label-upstream-level",
        "an open for writing asks the marks of everything upstream, as it asks the levels",
        "register 0 9 7; register 1 9 3; admit 0 9 7; pipe 0 5 0 1; fork 0 1; open-write 0 0 2; open-read 1 1 2; close 0 0; close 1 1; open-read 1 1 2; read 1 2; close 0 2",
        "1 2 A 9; 2 2 A 9; 3 1 A 9; 4 4 A 9; 5 9 A 9; 6 6 A 9; 7 5 R 9; 8 11 A 9; 9 11 A 9; 10 5 A 9; 11 7 L 9 1; 12 11 A 9; end 6 3 3",
    ),
    (
        "label-freeze-sets",
        "a freeze looks at levels only, whichever the set: 15 at its level and above, with marks or without, and none below",
        "register 0 9 0; register 1 9 255; register 2 8 255; register 3 8 0; admit 0 9 255; admit 1 9 0; freeze 9; open-write 0 0 0; open-write 0 1 0; open-write 0 2 0; open-write 0 3 1; open-write 1 0 0; open-write 1 1 0; open-write 1 2 0; freeze 16; open-write 1 0 0; open-write 1 1 1",
        "1 2 A 9; 2 2 A 9; 3 2 A 8; 4 2 A 8; 5 1 A 9; 6 1 A 9; 7 16 A 9; 8 6 R 15; 9 6 R 15; 10 6 A 8; 11 6 A 8; 12 6 R 15; 13 6 R 15; 14 6 R 9; 15 16 A 16; 16 6 A 9; 17 6 R 9; end 3 0 3",
    ),
    (
        "label-made",
        "a created file, a pipe and a forked subject have the caller's set, and a connect gives each pipe its writer's",
        "admit 0 9 5; create 0 0; admit 1 9 4; open-write 1 0 0; fork 0 2; open-write 2 0 0; connect 0 1 5 6 0 1; write 0 1; write 1 1; read 1 0; read 0 0; read 0 0",
        "1 1 A 9; 2 3 A 9; 3 1 A 9; 4 6 R 9; 5 9 A 9; 6 6 A 9; 7 17 A 9; 8 8 A 9; 9 8 A 9; 10 7 A 9; 11 7 L 9 1; 12 7 A 9; end 5 0 5",
    ),
    (
        "label-thread",
        "what takes a mark from one thread takes it from all of its group, and the answer gives the caller's",
        "register 0 9 1; register 1 9 2; admit 0 9 3; thread 0 1; open-write 0 1 0; close 0 0; open-read 1 0 0; read 1 0; close 1 0; open-write 0 1 0; open-write 0 0 0",
        "1 2 A 9; 2 2 A 9; 3 1 A 9; 4 18 A 9; 5 6 A 9; 6 11 A 9; 7 5 A 9; 8 7 L 9 1; 9 11 A 9; 10 6 R 9; 11 6 A 9; end 3 2 1",
    ),
    (
        "freeze-16",
        "freeze takes 0 to 16 and answers with that number",
        "freeze 0; freeze 15; freeze 16; freeze 16",
        "1 16 A 0; 2 16 A 15; 3 16 A 16; 4 16 A 16; end 0 0 0",
    ),
    (
        "freeze-17",
        "freeze 17 gives 6",
        "freeze 17; freeze 255; freeze 256; freeze 4294967295",
        "1 16 R 6; 2 16 R 6; 3 16 R 6; 4 16 R 6; end 0 0 0",
    ),
    (
        "freeze-record",
        "a record of freeze has one number",
        "call 16; call 16 9 9; bytes 02 10 80; bytes 02 10 09",
        "1 16 R 12; 2 16 R 12; 3 16 R 12; 4 16 A 9; end 0 0 0",
    ),
    (
        "mark-record",
        "a record of a mark has two numbers, the subject first",
        "admit 1 9 255; register 0 9 255; open-write 1 0 0; call 15; call 15 1; call 15 1 0 0; bytes 03 0f 01 80; \
         bytes 03 0f 00 01; bytes 03 0f 01 00",
        "1 1 A 9; 2 2 A 9; 3 6 A 9; 4 15 R 12; 5 15 R 12; 6 15 R 12; 7 15 R 12; 8 15 R 2; 9 15 A 9; end 1 0 1",
    ),
    (
        "map-record",
        "a record of a map has three numbers: the subject, the file, the place",
        "admit 1 9 255; register 2 9 255; call 14; call 14 1; call 14 1 2; call 14 1 2 3 4; bytes 04 0e 01 02 83; \
         bytes 04 0e 02 01 03; bytes 04 0e 01 02 03; close 1 3",
        "1 1 A 9; 2 2 A 9; 3 14 R 12; 4 14 R 12; 5 14 R 12; 6 14 R 12; 7 14 R 12; 8 14 R 2; 9 14 A 9; 10 11 A 9; \
         end 1 1 0",
    ),
    (
        "connect-record",
        "a record of a connect has six numbers: two subjects, two pipes, the place that reads and the one that writes",
        "admit 1 9 255; admit 2 4 255; call 17; call 17 1 2 3 4; call 17 1 2 3 4 5; call 17 1 2 3 4 5 6 7; \
         bytes 07 11 01 02 03 04 05 86; bytes 07 11 01 02 03 04 05 06; write 1 6; write 2 6; read 2 5; read 1 5",
        "1 1 A 9; 2 1 A 4; 3 17 R 12; 4 17 R 12; 5 17 R 12; 6 17 R 12; 7 17 R 12; 8 17 A 9; 9 8 A 9; 10 8 A 4; 11 7 A 4; \
         12 7 L 4 0; end 4 0 4",
    ),
    (
        "thread-record",
        "a record of a thread has two numbers, the maker first",
        "admit 1 9 255; call 18; call 18 1; call 18 1 2 3; bytes 03 12 01 82; bytes 03 12 00 01; bytes 03 12 01 00; \
         bytes 03 12 00 02",
        "1 1 A 9; 2 18 R 12; 3 18 R 12; 4 18 R 12; 5 18 R 12; 6 18 R 2; 7 18 A 9; 8 18 A 9; end 0 0 0",
    ),
    (
        "connect-32-bytes",
        "a record of 32 bytes: six numbers of five each",
        "bytes 1f 11 ff ff ff ff 0f ff ff ff ff 0f ff ff ff ff 0f ff ff ff ff 0f ff ff ff ff 0f ff ff ff ff 0f; \
         call 17 4294967295 4294967295 4294967295 4294967295 4294967295 4294967295",
        "1 17 R 2; 2 17 R 2; end 0 0 0",
    ),
    (
        "known-codes",
        "codes 1 to 18 are known, 0 and 19 are not",
        "call 0 9; call 1 9; call 13; call 14 9; call 15 9; call 16 9; call 17 9; call 18 9; call 19 9",
        "1 0 R 1; 2 1 R 12; 3 13 R 12; 4 14 R 12; 5 15 R 12; 6 16 A 9; 7 17 R 12; 8 18 R 12; 9 19 R 1; end 0 0 0",
    ),
    (
        "h-level",
        "a level above 15, and a freeze above 16, gives 6, however large it is",
        "admit 0 4294967296 255; admit 0 4294967312 255; admit 0 18446744073709551615 255; register 0 4294967296 255; \
         register 0 4294967312 255; freeze 4294967296; freeze 4294967312; freeze 18446744073709551615; register 0 0 255",
        "1 1 R 6; 2 1 R 6; 3 1 R 6; 4 2 R 6; 5 2 R 6; 6 16 R 6; 7 16 R 6; 8 16 R 6; 9 2 A 0; end 0 0 0",
    ),
    (
        "h-code",
        "an unknown code is 1, and is written whole",
        "call 4294967296; call 4294967297 0 9; call 4294967313 0 1 5 6 0 1; call 9223372036854775809 0 9; \
         call 18446744073709551615 1 2 3; admit 0 9 255",
        "1 4294967296 R 1; 2 4294967297 R 1; 3 4294967313 R 1; 4 9223372036854775809 R 1; 5 18446744073709551615 R 1; \
         6 1 A 9; end 0 0 0",
    ),
    (
        "h-62-bytes",
        "the longest record of all: 62 bytes",
        "bytes 3d 11 ff ff ff ff ff ff ff ff ff 01 ff ff ff ff ff ff ff ff ff 01 ff ff ff ff ff ff ff ff ff 01 \
         ff ff ff ff ff ff ff ff ff 01 ff ff ff ff ff ff ff ff ff 01 ff ff ff ff ff ff ff ff ff 01; admit 0 9 255",
        "1 17 R 2; 2 1 A 9; end 0 0 0",
    ),
    (
        "h-numbers",
        "numbers of nine, ten and eleven bytes in a record: good ones, and 12 for those above the largest, padded or too \
         long",
        "bytes 0d 02 ff ff ff ff ff ff ff ff 7f 04 ff 01; bytes 0e 02 80 80 80 80 80 80 80 80 80 01 04 ff 01; \
         bytes 0e 02 ff ff ff ff ff ff ff ff ff 01 04 ff 01; bytes 0e 02 80 80 80 80 80 80 80 80 80 02 04 ff 01; \
         bytes 0e 02 ff ff ff ff ff ff ff ff ff 03 04 ff 01; bytes 0e 02 ff ff ff ff ff ff ff ff ff 7f 04 ff 01; \
         bytes 0e 02 80 80 80 80 80 80 80 80 80 00 04 ff 01; bytes 0d 02 ff ff ff ff ff ff ff ff 00 04 ff 01; \
         bytes 0f 02 80 80 80 80 80 80 80 80 80 80 01 04 ff 01; bytes 0f 02 80 80 80 80 80 80 80 80 80 80 00 04 ff 01; \
         bytes 0f 02 ff ff ff ff ff ff ff ff ff 81 00 04 ff 01; bytes 0e 02 ff ff ff ff ff ff ff ff ff 81 04 ff 01; \
         bytes 0b 02 ff ff ff ff ff ff ff ff ff 81; bytes 0a 82 80 80 80 80 80 80 80 80 02",
        "1 2 A 4; 2 2 A 4; 3 2 A 4; 4 2 R 12; 5 2 R 12; 6 2 R 12; 7 2 R 12; 8 2 R 12; 9 2 R 12; 10 2 R 12; 11 2 R 12; \
         12 2 R 12; 13 2 R 12; 14 0 R 12; end 0 0 0",
    ),
    (
        "h-length-32-bits",
        "a length of 2 to the 32nd and 2 more runs past the end: 11",
        "admit 0 9 255; bytes 82 80 80 80 10 0c 00",
        "1 1 A 9; 2 0 R 11; end 0 0 0",
    ),
    (
        "h-length-largest",
        "the largest number as a length runs past the end: 11",
        "admit 0 9 255; bytes ff ff ff ff ff ff ff ff ff 01 0c 00",
        "1 1 A 9; 2 0 R 11; end 0 0 0",
    ),
    (
        "h-length-above",
        "a length of 2 to the 64th and 2 more is malformed: 11",
        "admit 0 9 255; bytes 82 80 80 80 80 80 80 80 80 02 0c 00",
        "1 1 A 9; 2 0 R 11; end 0 0 0",
    ),
    (
        "h-length-padded",
        "a length of 2 in ten bytes is malformed: 11",
        "admit 0 9 255; bytes 82 80 80 80 80 80 80 80 80 00 0c 00",
        "1 1 A 9; 2 0 R 11; end 0 0 0",
    ),
    (
        "h-length-eleven",
        "a length of eleven bytes is malformed: 11",
        "admit 0 9 255; bytes 82 80 80 80 80 80 80 80 80 80 01 0c 00",
        "1 1 A 9; 2 0 R 11; end 0 0 0",
    ),
    (
        "pipe-ends",
        "a pipe ends when its last handle goes, and its number is free",
        "admit 0 5 255; pipe 0 3 0 1; register 3 9 255; close 0 1; register 3 9 255; close 0 0; register 3 9 255",
        "1 1 A 5; 2 4 A 5; 3 2 R 3; 4 11 A 5; 5 2 R 3; 6 11 A 5; 7 2 A 9; end 2 2 0",
    ),
    (
        "unknown-code-skipped",
        "an unknown code is 1, whatever follows it; the next record is read",
        "bytes 03 4d 80 00; call 0; call 4294967295 1 2 3 4 5; admit 0 9 255",
        "1 77 R 1; 2 0 R 1; 3 4294967295 R 1; 4 1 A 9; end 0 0 0",
    ),
    (
        "twelve-first",
        "12 in a record comes before 2 to 10, and the next record is read",
        "call 12 40 1; call 7 40; bytes 03 0c 80 00; bytes 02 8c 00; admit 0 9 255",
        "1 12 R 12; 2 7 R 12; 3 12 R 12; 4 0 R 12; 5 1 A 9; end 0 0 0",
    ),
    (
        "past-the-end",
        "a length that runs past the end: 11, and the run stops there",
        "admit 0 9 255; bytes 06 01 01 09 ff 01",
        "1 1 A 9; 2 0 R 11; end 0 0 0",
    ),
];

/// Name, what it shows, how many files are live at first, and then each call with its answer; the end line.
///
/// At first there are subjects 0 and 1 at levels 9 and 2, and as many files: file 0 at level 9, the others, whose
/// numbers are those after it, at level 2.
type Crowd = (&'static str, &'static str, u64, &'static [(&'static str, &'static str)], &'static str);

const CROWDS: &[Crowd] = &[
    (
        "h-65-registers",
        "of 65 registers the last is 17, and after a retire it is allowed, under that number and under others",
        64,
        &[
            ("register 64 4 255", "R 17"),
            ("retire 5", "A 2"),
            ("register 64 4 255", "A 4"),
            ("register 5 4 255", "R 17"),
            ("retire 64", "A 4"),
            ("register 18446744073709551615 4 255", "A 4"),
            ("register 64 4 255", "R 17"),
            ("retire 18446744073709551615", "A 4"),
            ("register 5 4 255", "A 4"),
        ],
        "end 0 0 0",
    ),
    (
        "h-full-new",
        "with 64 objects live 17 is said of every call that makes one, before 6, 7 and 9",
        64,
        &[
            ("register 64 4 255", "R 17"),
            ("create 0 64", "R 17"),
            ("pipe 0 64 0 1", "R 17"),
            ("connect 0 1 64 65 0 1", "R 17"),
            ("register 64 16 255", "R 17"),
            ("pipe 0 64 0 0", "R 17"),
            ("connect 0 1 64 65 16 0", "R 17"),
            ("open-write 0 0 5", "A 9"),
            ("connect 0 1 64 65 0 1", "R 17"),
            ("register 4294967296 4294967296 255", "R 17"),
        ],
        "end 1 0 1",
    ),
    (
        "h-full-order",
        "with 64 objects live 2, 16, 3 and 12 are said before 17: 3 of a number in use, and of one that is to be two pipes",
        64,
        &[
            ("create 2 64", "R 2"),
            ("pipe 4294967296 64 0 1", "R 2"),
            ("connect 2 1 64 65 0 1", "R 2"),
            ("connect 0 2 64 65 0 1", "R 2"),
            ("connect 0 0 64 65 0 1", "R 16"),
            ("register 5 4 255", "R 3"),
            ("register 5 16 255", "R 3"),
            ("create 0 63", "R 3"),
            ("pipe 0 63 0 1", "R 3"),
            ("connect 0 1 64 64 0 1", "R 3"),
            ("connect 0 1 5 64 0 1", "R 3"),
            ("connect 0 1 64 5 0 1", "R 3"),
            ("call 2 64 4", "R 12"),
            ("call 2 64 4 255 0", "R 12"),
            ("call 17 0 1 64 65 0", "R 12"),
            ("register 64 4 255", "R 17"),
        ],
        "end 0 0 0",
    ),
    (
        "h-full-others",
        "with 64 objects live no other call is refused with 17",
        64,
        &[
            ("admit 2 9 255", "A 9"),
            ("open-read 0 0 0", "A 9"),
            ("open-write 0 0 1", "A 9"),
            ("map 2 0 0", "A 9"),
            ("fork 0 3", "A 9"),
            ("mark 0 0", "A 9"),
            ("exec 0 0", "A 9"),
            ("open-read 0 64 0", "R 4"),
            ("retire 64", "R 4"),
            ("freeze 9", "A 9"),
            ("exit 3", "A 9"),
        ],
        "end 5 3 2",
    ),
    (
        "h-connect-63",
        "a connect with 63 objects live is 17, and leaves neither pipe; one object more is allowed",
        63,
        &[
            ("connect 0 1 64 65 0 1", "R 17"),
            ("read 1 0", "R 7"),
            ("retire 64", "R 4"),
            ("pipe 0 64 0 1", "A 9"),
            ("connect 0 1 65 66 2 3", "R 17"),
            ("close 0 0", "A 9"),
            ("create 0 65", "R 17"),
            ("close 0 1", "A 9"),
            ("create 0 65", "A 9"),
        ],
        "end 2 2 0",
    ),
    (
        "h-connect-62",
        "a connect with 62 objects live is allowed; \
         each of its pipes makes space when it ends, by a close, an exit or an exec",
        62,
        &[
            ("connect 0 1 64 65 0 1", "A 9"),
            ("register 66 4 255", "R 17"),
            ("close 0 1", "A 9"),
            ("register 66 4 255", "R 17"),
            ("close 1 0", "A 2"),
            ("register 66 4 255", "A 4"),
            ("register 67 4 255", "R 17"),
            ("exit 1", "A 2"),
            ("register 67 4 255", "R 17"),
            ("mark 0 0", "A 9"),
            ("exec 0 0", "A 9"),
            ("register 67 4 255", "A 4"),
            ("register 68 4 255", "R 17"),
        ],
        "end 4 4 0",
    ),
    (
        "h-connect-flow",
        "a connect that offends the flow is 17 with 63 objects live, and 9 with 62",
        63,
        &[
            ("open-write 0 0 5", "A 9"),
            ("connect 0 1 64 65 0 1", "R 17"),
            ("retire 1", "A 2"),
            ("connect 0 1 64 65 0 1", "R 9"),
            ("close 0 5", "A 9"),
            ("connect 0 1 64 65 0 1", "A 9"),
        ],
        "end 5 1 4",
    ),
];

/// The calls of a crowd, and the replies to them.
fn crowded(live: u64, steps: &[(&str, &str)]) -> (String, String) {
    assert!(live <= LIMITS.objects);
    let file = |o: u64| match o {
        0 => ("register 0 9 255".to_string(), "A 9"),
        _ => (format!("register {o} 2 255"), "A 2"),
    };
    let subjects = [("admit 0 9 255".to_string(), "A 9"), ("admit 1 2 255".to_string(), "A 2")];
    let steps = steps.iter().map(|&(call, answer)| (call.to_string(), answer));
    let (mut calls, mut replies) = (String::new(), String::new());
    for (position, (call, answer)) in
        (1..).zip(subjects.into_iter().chain((0..live).map(file)).chain(steps))
    {
        let mut words = call.split(' ');
        let shape = words.next().and_then(shape_of_word);
        let code =
            shape.map_or_else(|| words.next().unwrap_or("").to_string(), |shape| shape.code.to_string());
        replies.push_str(&format!("{position} {code} {answer};"));
        calls.push_str(&format!("{call};"));
    }
    (calls, replies)
}

/// Every case.
pub fn all() -> Vec<Case> {
    let mut cases = Vec::new();
    let mut add = |name: &str, what: &str, journal: Vec<u8>, replies: &str| {
        cases.push(Case {
            name: name.to_string(),
            what: what.to_string(),
            journal,
            replies: lines(replies),
        });
    };

    for &(name, what, calls, replies) in AFTER_START {
        let journal = journal_of(&format!("{START}; {calls}"));
        add(name, what, journal, &format!("{START_REPLIES}; {replies}"));
    }
    let flow = [
        (
            "K6",
            "0 makes a pipe, forks 1; 0 opens file 0 for writing, 1 opens file 1 for reading: 9, as 1 can \
             still write to the pipe",
            format!("{K6}; open-read 1 1 2"),
            format!("{K6_REPLIES}; 7 5 R 9; end 5 0 5"),
        ),
        (
            "K7",
            "with 0's reading end and 1's writing end closed first: allowed",
            format!("{K7}; open-read 1 1 2"),
            format!("{K7_REPLIES}; 9 5 A 2; end 6 2 4"),
        ),
        (
            "K8",
            "1 then reads and is lowered to 2; 0 stays at 9",
            format!("{K7}; open-read 1 1 2; read 1 2; close 0 2"),
            format!("{K7_REPLIES}; 9 5 A 2; 10 7 L 2 0; 11 11 A 9; end 6 3 3"),
        ),
    ];
    for (name, what, calls, replies) in &flow {
        let journal = journal_of(&format!("{START}; {calls}"));
        add(name, what, journal, &format!("{START_REPLIES}; {replies}"));
    }
    for &(name, what, calls, replies) in FROM_EMPTY {
        add(name, what, journal_of(calls), replies);
    }
    for (name, what, live, steps, end) in CROWDS {
        let (calls, replies) = crowded(*live, steps);
        add(name, what, journal_of(&calls), &format!("{replies} {end}"));
    }

    // The limit of a journal's length: one long record of an unknown code.
    for (bytes, replies) in [(65_536, "1 77 R 1; end 0 0 0"), (65_537, "1 0 R 14; end 0 0 0")] {
        let mut body = vec![0; bytes - 3];
        body[0] = 77;
        let mut journal = Vec::new();
        crate::records::write_body(&body, &mut journal);
        let what = format!("a journal of {bytes} bytes");
        add(&format!("bytes-{bytes}"), &what, journal, replies);
    }

    // As many records as a journal can have.
    let replies: String = (1..=65_536).map(|position| format!("{position} 0 R 12;")).collect();
    add("records-65536", "65,536 records without a body", vec![0; 65_536], &format!("{replies} end 0 0 0"));

    // DWARF's examples, each as a code and as a length.
    for &(value, bytes) in DWARF_NUMBERS {
        let mut journal = vec![bytes.len() as u8];
        journal.extend_from_slice(bytes);
        let refusal = if value == 2 { 12 } else { 1 };
        let what = format!("DWARF's example {value} as the code of a record");
        let replies = format!("1 {value} R {refusal}; end 0 0 0");
        add(&format!("dwarf-{value}-code"), &what, journal, &replies);

        let mut journal = bytes.to_vec();
        journal.push(77);
        journal.resize(bytes.len() + value as usize, 0);
        journal.push(0);
        let what = format!("DWARF's example {value} as the length of a record");
        let replies = "1 77 R 1; 2 0 R 12; end 0 0 0";
        add(&format!("dwarf-{value}-length"), &what, journal, replies);
    }
    cases
}

/// The case of this name.
pub fn named(name: &str) -> Option<Case> {
    all().into_iter().find(|case| case.name == name)
}

/// DWARF's examples and the numbers at the limit, a line for each: the number, or `malformed`, and its bytes in hex.
pub fn numbers() -> String {
    let line = |value: String, bytes: &[u8]| {
        let hex: String = bytes.iter().map(|byte| format!(" {byte:02x}")).collect();
        format!("{value}{hex}\n")
    };
    let at_limit = |value: Option<u64>| value.map_or("malformed".to_string(), |value| value.to_string());
    let dwarf = DWARF_NUMBERS.iter().map(|&(value, bytes)| line(value.to_string(), bytes));
    dwarf.chain(LIMIT_NUMBERS.iter().map(|&(value, bytes)| line(at_limit(value), bytes))).collect()
}

fn lines(replies: &str) -> String {
    replies.split(';').map(|line| format!("{}\n", line.trim())).collect()
}

/// The calls above are words with `;` for line ends.
fn journal_of(calls: &str) -> Vec<u8> {
    words::journal_of(&calls.replace(';', "\n")).unwrap_or_else(|| panic!("a case is no journal: {calls}"))
}

//! The eighteen calls: RULES C1 to C18, codes and numbers.
//!
//! Which numbers a call takes and what each of them names. The effects are in `monitor`, the conditions
//! in `refusals`.

use crate::labels::Label;
use crate::tables::{Direction, Handle};

/// RULES C106: how many numbers a direct call has.
pub const NUMBERS: usize = 6;

/// The numbers of a direct call, of which it uses as many as its row has.
pub type Numbers = [u64; NUMBERS];

/// RULES C108: the numbers that are given, and 0 for each that is not.
pub fn filled(numbers: &[u64]) -> Numbers {
    let mut filled = [0; NUMBERS];
    for (slot, &number) in filled.iter_mut().zip(numbers) {
        *slot = number;
    }
    filled
}

/// A call's code, the word it has in assembly text, and the names of its numbers in their order,
/// in a direct call as in a record.
#[derive(Debug)]
pub struct Shape {
    pub code: u64,
    pub word: &'static str,
    pub numbers: &'static [&'static str],
}

const fn shape(code: u64, word: &'static str, numbers: &'static [&'static str]) -> Shape {
    Shape { code, word, numbers }
}

/// RULES C1 to C18, in the order of their codes.
pub const SHAPES: [Shape; 18] = [
    shape(1, "admit", &["s", "level", "set"]),
    shape(2, "register", &["o", "level", "set"]),
    shape(3, "create", &["s", "o"]),
    shape(4, "pipe", &["s", "o", "r", "w"]),
    shape(5, "open-read", &["s", "o", "p"]),
    shape(6, "open-write", &["s", "o", "p"]),
    shape(7, "read", &["s", "p"]),
    shape(8, "write", &["s", "p"]),
    shape(9, "fork", &["s", "c"]),
    shape(10, "exec", &["s", "o"]),
    shape(11, "close", &["s", "p"]),
    shape(12, "exit", &["s"]),
    shape(13, "retire", &["o"]),
    shape(14, "map", &["s", "o", "p"]),
    shape(15, "mark", &["s", "p"]),
    shape(16, "freeze", &["level"]),
    shape(17, "connect", &["s", "t", "a", "b", "p", "q"]),
    shape(18, "thread", &["s", "c"]),
];

/// The shape of the call with this code; none for a code not 1 to 18 (RULES R1).
pub fn shape_of_code(code: u64) -> Option<&'static Shape> {
    SHAPES.iter().find(|shape| shape.code == code)
}

/// The shape of the call with this word.
pub fn shape_of_word(word: &str) -> Option<&'static Shape> {
    SHAPES.iter().find(|shape| shape.word == word)
}

/// A call with its numbers by name, as RULES C1 to C18 name them.
#[derive(Clone, Copy, Debug, PartialEq, Eq)]
pub enum Call {
    Admit { s: u64, level: u64, shops: u64 },
    Register { o: u64, level: u64, shops: u64 },
    Create { s: u64, o: u64 },
    Pipe { s: u64, o: u64, r: u64, w: u64 },
    OpenRead { s: u64, o: u64, p: u64 },
    OpenWrite { s: u64, o: u64, p: u64 },
    Read { s: u64, p: u64 },
    Write { s: u64, p: u64 },
    Fork { s: u64, c: u64 },
    Exec { s: u64, o: u64 },
    Close { s: u64, p: u64 },
    Exit { s: u64 },
    Retire { o: u64 },
    Map { s: u64, o: u64, p: u64 },
    Mark { s: u64, p: u64 },
    Freeze { level: u64 },
    Connect { s: u64, t: u64, a: u64, b: u64, p: u64, q: u64 },
    Thread { s: u64, c: u64 },
}

impl Call {
    /// RULES C106, C107: a code and six numbers, of which the call uses as many as its row has.
    pub fn new(code: u64, numbers: Numbers) -> Option<Call> {
        let [a, b, c, d, e, f] = numbers;
        Some(match code {
            1 => Call::Admit { s: a, level: b, shops: c },
            2 => Call::Register { o: a, level: b, shops: c },
            3 => Call::Create { s: a, o: b },
            4 => Call::Pipe { s: a, o: b, r: c, w: d },
            5 => Call::OpenRead { s: a, o: b, p: c },
            6 => Call::OpenWrite { s: a, o: b, p: c },
            7 => Call::Read { s: a, p: b },
            8 => Call::Write { s: a, p: b },
            9 => Call::Fork { s: a, c: b },
            10 => Call::Exec { s: a, o: b },
            11 => Call::Close { s: a, p: b },
            12 => Call::Exit { s: a },
            13 => Call::Retire { o: a },
            14 => Call::Map { s: a, o: b, p: c },
            15 => Call::Mark { s: a, p: b },
            16 => Call::Freeze { level: a },
            17 => Call::Connect { s: a, t: b, a: c, b: d, p: e, q: f },
            18 => Call::Thread { s: a, c: b },
            _ => return None,
        })
    }

    /// The subject s that asks, in C3 to C12, C14, C15, C17 and C18.
    pub fn asker(self) -> Option<u64> {
        match self {
            Call::Create { s, .. }
            | Call::Pipe { s, .. }
            | Call::OpenRead { s, .. }
            | Call::OpenWrite { s, .. }
            | Call::Read { s, .. }
            | Call::Write { s, .. }
            | Call::Fork { s, .. }
            | Call::Exec { s, .. }
            | Call::Close { s, .. }
            | Call::Exit { s }
            | Call::Map { s, .. }
            | Call::Mark { s, .. }
            | Call::Connect { s, .. }
            | Call::Thread { s, .. } => Some(s),
            Call::Admit { .. } | Call::Register { .. } | Call::Retire { .. } | Call::Freeze { .. } => None,
        }
    }

    /// The subject t that C17 joins s to.
    pub fn partner(self) -> Option<u64> {
        match self {
            Call::Connect { t, .. } => Some(t),
            _ => None,
        }
    }

    /// The number for a new subject: C1, C9, C18.
    pub fn new_subject(self) -> Option<u64> {
        match self {
            Call::Admit { s, .. } => Some(s),
            Call::Fork { c, .. } | Call::Thread { c, .. } => Some(c),
            _ => None,
        }
    }

    /// The numbers for new objects: one in C2, C3 and C4, two in C17.
    pub fn new_objects(self) -> Vec<u64> {
        match self {
            Call::Register { o, .. } | Call::Create { o, .. } | Call::Pipe { o, .. } => vec![o],
            Call::Connect { a, b, .. } => vec![a, b],
            _ => Vec::new(),
        }
    }

    /// The object of C5, C6, C10, C13 and C14.
    pub fn named_object(self) -> Option<u64> {
        match self {
            Call::OpenRead { o, .. }
            | Call::OpenWrite { o, .. }
            | Call::Exec { o, .. }
            | Call::Retire { o }
            | Call::Map { o, .. } => Some(o),
            _ => None,
        }
    }

    /// The label under which a thing comes from outside, C1 and C2.
    pub fn label(self) -> Option<Label> {
        match self {
            Call::Admit { level, shops, .. } | Call::Register { level, shops, .. } => {
                Some(Label { level, shops })
            }
            _ => None,
        }
    }

    /// The handle that an open or a map asks for, with the subject that asks.
    pub fn sought(self) -> Option<(u64, Handle)> {
        match self {
            Call::OpenRead { s, o, .. } => Some((s, Handle::new(o, Direction::Reading))),
            Call::OpenWrite { s, o, .. } => Some((s, Handle::new(o, Direction::Writing))),
            Call::Map { s, o, .. } => Some((s, Handle::mapping(o))),
            _ => None,
        }
    }

    /// RULES C17: the four handles that a connect places, each with its subject and its place: s writes a,
    /// which t reads, and t writes b, which s reads.
    pub fn ends(self) -> Vec<(u64, u64, Handle)> {
        match self {
            Call::Connect { s, t, a, b, p, q } => vec![
                (s, q, Handle::new(a, Direction::Writing)),
                (t, p, Handle::new(a, Direction::Reading)),
                (t, q, Handle::new(b, Direction::Writing)),
                (s, p, Handle::new(b, Direction::Reading)),
            ],
            _ => Vec::new(),
        }
    }
}

//! Refusals: a number, the table at fault and a place.

use std::fmt;

/// The table at fault when a read's pattern is, or any that is no update's.
pub const READ: usize = 1;

/// The table at fault when an update's pattern is.
pub const UPDATE: usize = 2;

/// The table at fault when an inserted tree is.
pub const INSERTED: usize = 3;

/// The table at fault when the output or the room is.
pub const ROOM: usize = 4;

/// The table at fault when a document is, or a tree that is no inserted one.
pub const DOCUMENT: usize = 5;

/// The table at fault in a batch.
pub const BATCH: usize = 6;

/// The table at fault when a text is, a pattern's or a tree's.
pub const TEXT: usize = 7;

/// The table at fault when a list of names is.
pub const LIST: usize = 8;

/// Refusal numbers by what they are given for.
pub mod number {
    pub const NO_WORDS: usize = 1;
    pub const PAST_LIMIT: usize = 2;
    pub const WRONG_AXIS: usize = 3;
    pub const WRONG_PARENT: usize = 4;
    pub const LABEL_ZERO: usize = 5;
    pub const DELETE_ROOT: usize = 6;
    pub const TOO_SHORT: usize = 7;
    pub const WRONG_KIND: usize = 8;
    pub const FRAME_ENDS: usize = 9;
    pub const TOO_MANY: usize = 10;
    pub const NO_ROOM: usize = 11;
    pub const WRONG_DOCUMENT: usize = 12;
    pub const WRONG_LINE: usize = 13;
    pub const WRONG_TEXT: usize = 14;
    pub const NO_NAME: usize = 15;
    pub const NO_IDENTITY: usize = 16;
}

/// A refusal.
#[derive(Clone, Copy, Debug, PartialEq, Eq)]
pub struct Refusal {
    pub number: usize,
    pub table: usize,
    pub place: usize,
}

/// A refusal by its three numbers.
pub fn refused(number: usize, table: usize, place: usize) -> Refusal {
    Refusal {
        number,
        table,
        place,
    }
}

impl fmt::Display for Refusal {
    /// The three numbers with one space between.
    fn fmt(&self, f: &mut fmt::Formatter<'_>) -> fmt::Result {
        write!(f, "{} {} {}", self.number, self.table, self.place)
    }
}

//! The two forms of the day file.

use crate::day::{LONGEST_FILE, SHORTEST_FILE};
use crate::layout::SLOTS;

/// The second form tells what the first does, and the marks behind it.
#[derive(Clone, Copy, Debug, PartialEq, Eq)]
pub enum Form {
    First,
    Second,
}

impl Form {
    pub const ALL: [Form; 2] = [Form::First, Form::Second];

    /// The form that a file of this one is moved to.
    pub fn other(self) -> Form {
        match self {
            Form::First => Form::Second,
            Form::Second => Form::First,
        }
    }

    /// The length of the shortest file: in the second form the genesis is
    /// counted and named.
    pub fn shortest(self) -> usize {
        SHORTEST_FILE + self.marks(1)
    }

    /// The length of the longest file: in the second form every slot has a
    /// mark.
    pub fn longest(self) -> usize {
        LONGEST_FILE + self.marks(SLOTS)
    }

    /// Bytes of the section of so many marks.
    pub fn marks(self, count: usize) -> usize {
        match self {
            Form::First => 0,
            Form::Second => 2 + 2 * count,
        }
    }
}

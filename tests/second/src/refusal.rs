//! Why a call is refused, and the number and the value the caller gets.

#[derive(Clone, Copy, Debug, PartialEq, Eq)]
pub enum Refusal {
    /// The workspace has another length.
    Length,
    /// The header breaks a rule.
    BrokenHeader,
    /// The setting is not good.
    Setting,
    /// The new name is taken.
    NameBooked,
    /// The slot is the genesis' own, or there is none such.
    Slot,
    /// No parents, or too many.
    ParentCount,
    /// A parent that nobody booked.
    ParentUnknown,
    /// The same parent again.
    ParentTwice,
    /// No room for another booking.
    Full,
    /// The name asked for is not in the ledger.
    NameUnknown,
    /// The booking had its poll.
    NotWaiting,
    /// Not k votes.
    VoteCount,
    /// A byte that is no vote.
    VoteByte,
    /// The header is right and a record breaks a rule: the lowest that does.
    BrokenRecord(usize),
    /// Header and records are right and a slot entry breaks a rule: the
    /// lowest that does.
    BrokenEntry(usize),
    /// The buffer is shorter than the file.
    Room,
    /// No writer leaves such a file.
    File,
    /// The index has another length.
    IndexLength,
    /// Without its marks the file leads to others.
    OtherMarks,
    /// No cell of the index is empty.
    IndexFull,
}

impl Refusal {
    /// Every number that a call may be refused with, in rising order.
    pub fn numbers() -> impl Iterator<Item = u32> {
        (1..=19).chain([27])
    }

    pub fn number(self) -> u32 {
        match self {
            Refusal::Length => 1,
            Refusal::BrokenHeader => 2,
            Refusal::Setting => 3,
            Refusal::NameBooked => 4,
            Refusal::Slot => 5,
            Refusal::ParentCount => 6,
            Refusal::ParentUnknown => 7,
            Refusal::ParentTwice => 8,
            Refusal::Full => 9,
            Refusal::NameUnknown => 10,
            Refusal::NotWaiting => 11,
            Refusal::VoteCount => 12,
            Refusal::VoteByte => 13,
            Refusal::BrokenRecord(_) => 14,
            Refusal::BrokenEntry(_) => 15,
            Refusal::Room => 16,
            Refusal::File => 17,
            Refusal::IndexLength => 18,
            Refusal::OtherMarks => 19,
            Refusal::IndexFull => 27,
        }
    }

    /// The row that is damaged, where a row is named; otherwise 0.
    pub fn value(self) -> i64 {
        match self {
            Refusal::BrokenRecord(row) | Refusal::BrokenEntry(row) => row as i64,
            _ => 0,
        }
    }
}

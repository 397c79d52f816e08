//! Why a call was refused.
use core::fmt;

/// Why a call was refused, in the order of the numbers that C callers see.
///
/// A call that could be refused for several reasons names the first in its own list.
///
/// Two refusals carry a row, so two that are equal name the same row; match `DamagedRecord(_)` where the row doesn't matter.
#[derive(Clone, Copy, Debug, PartialEq, Eq, Hash)]
pub enum Refusal {
    /// The workspace isn't [`WORDS`](crate::WORDS) long.
    WrongLength,
    /// The words' header breaks a rule: it was never opened, or something else wrote there.
    DamagedHeader,
    /// The setting isn't [good](crate::Setting).
    BadSetting,
    /// A booking has this name already. Name 0 always is the genesis.
    NameTaken,
    /// The slot is 0 or above 255.
    BadSlot,
    /// No parents, or more than four.
    BadParents,
    /// No booking has the name of one of the parents.
    UnknownParent,
    /// Two parents are the same.
    ParentTwice,
    /// 512 bookings are there already.
    Full,
    /// No booking has the name; or none is found by the index.
    UnknownName,
    /// The booking was polled before. The genesis counts as polled.
    NotWaiting,
    /// The number of votes isn't the ledger's `k`.
    WrongVotes,
    /// A vote is neither [`YES`](crate::YES), [`NO`](crate::NO) nor [`SILENT`](crate::SILENT).
    BadVote,
    /// The header is right and a record breaks a rule: the number of the lowest such record.
    ///
    /// Of the records that share a name, or an ordinal above 0, or that are marked in one slot, all but the lowest break a rule.
    /// A mark is 0 or 1, and the genesis has 1. Records from `n` on, the number of bookings, have to be all zero. An ordinal
    /// that no record holds is charged to number `n`: 512, which no record has, can only be that, in a full ledger.
    DamagedRecord(u16),
    /// Header and records are right and a slot's entry breaks a rule: the lowest such slot, 0 to 255.
    DamagedSlot(u16),
    /// The buffer is shorter than the file. [`SECOND_FILE_MOST`](crate::SECOND_FILE_MOST) bytes are enough for any.
    ShortBuffer,
    /// The file isn't [good](crate::read) in the form that the call names.
    BadFile,
    /// The index hasn't [`CELLS`](crate::CELLS) cells.
    WrongIndex,
    /// A file of the second form can't be [moved](crate::move_from) to the first, which would be read with other marks: others
    /// would be accepted.
    OtherMarks,
    /// No cell of the index is empty.
    IndexFull,
}

impl Refusal {
    /// The number by which the text program and C callers know it.
    pub const fn number(self) -> u32 {
        match self {
            Refusal::WrongLength => 1,
            Refusal::DamagedHeader => 2,
            Refusal::BadSetting => 3,
            Refusal::NameTaken => 4,
            Refusal::BadSlot => 5,
            Refusal::BadParents => 6,
            Refusal::UnknownParent => 7,
            Refusal::ParentTwice => 8,
            Refusal::Full => 9,
            Refusal::UnknownName => 10,
            Refusal::NotWaiting => 11,
            Refusal::WrongVotes => 12,
            Refusal::BadVote => 13,
            Refusal::DamagedRecord(_) => 14,
            Refusal::DamagedSlot(_) => 15,
            Refusal::ShortBuffer => 16,
            Refusal::BadFile => 17,
            Refusal::WrongIndex => 18,
            Refusal::OtherMarks => 19,
            Refusal::IndexFull => 27,
        }
    }

    /// The record or slot that it names, if it names one. C callers see it as the value, and 0 with all other refusals.
    pub const fn row(self) -> Option<u16> {
        match self {
            Refusal::DamagedRecord(row) | Refusal::DamagedSlot(row) => Some(row),
            _ => None,
        }
    }

    /// The refusal that C callers see as this number and this value, and `None` if no refusal has them.
    ///
    /// It leads back from [`number`](Refusal::number) and [`row`](Refusal::row), as a log or a program in C may hold them. A
    /// value that isn't a row of its kind gives `None`: anything but 0 where no row is named, a record above 512, a slot
    /// above 255.
    ///
    /// ```
    /// use filzhammer::Refusal;
    ///
    /// assert_eq!(Refusal::from_answer(14, 3), Some(Refusal::DamagedRecord(3)));
    /// assert_eq!(Refusal::from_answer(10, 0), Some(Refusal::UnknownName));
    /// assert_eq!(Refusal::from_answer(10, 3), None);
    /// assert_eq!(Refusal::from_answer(0, 3), None); // a call that was taken
    /// ```
    pub fn from_answer(number: u32, value: i64) -> Option<Refusal> {
        let row = u16::try_from(value).ok()?;
        Some(match (number, row) {
            (1, 0) => Refusal::WrongLength,
            (2, 0) => Refusal::DamagedHeader,
            (3, 0) => Refusal::BadSetting,
            (4, 0) => Refusal::NameTaken,
            (5, 0) => Refusal::BadSlot,
            (6, 0) => Refusal::BadParents,
            (7, 0) => Refusal::UnknownParent,
            (8, 0) => Refusal::ParentTwice,
            (9, 0) => Refusal::Full,
            (10, 0) => Refusal::UnknownName,
            (11, 0) => Refusal::NotWaiting,
            (12, 0) => Refusal::WrongVotes,
            (13, 0) => Refusal::BadVote,
            (14, 0..=512) => Refusal::DamagedRecord(row),
            (15, 0..=255) => Refusal::DamagedSlot(row),
            (16, 0) => Refusal::ShortBuffer,
            (17, 0) => Refusal::BadFile,
            (18, 0) => Refusal::WrongIndex,
            (19, 0) => Refusal::OtherMarks,
            (27, 0) => Refusal::IndexFull,
            _ => return None,
        })
    }
}

impl fmt::Display for Refusal {
    fn fmt(&self, f: &mut fmt::Formatter<'_>) -> fmt::Result {
        f.write_str(match self {
            Refusal::WrongLength => "the workspace has the wrong length",
            Refusal::DamagedHeader => "the header breaks a rule: never opened, or damaged",
            Refusal::BadSetting => "the setting is not good",
            Refusal::NameTaken => "the name is already booked",
            Refusal::BadSlot => "the slot is not from 1 to 255",
            Refusal::BadParents => "a booking has one to four parents",
            Refusal::UnknownParent => "a parent is not booked",
            Refusal::ParentTwice => "a parent is named twice",
            Refusal::Full => "the ledger is full",
            Refusal::UnknownName => "no booking has the name",
            Refusal::NotWaiting => "the booking was polled before",
            Refusal::WrongVotes => "the number of votes is not that of the setting",
            Refusal::BadVote => "a vote is neither yes, no nor silent",
            Refusal::ShortBuffer => "the buffer is shorter than the file",
            Refusal::BadFile => "the day file is not good",
            Refusal::WrongIndex => "the index has the wrong length",
            Refusal::OtherMarks => "the first form of the file would be read with other marks",
            Refusal::IndexFull => "no cell of the index is empty",
            Refusal::DamagedRecord(512) => "an ordinal is missing in a full ledger (record 512)",
            Refusal::DamagedRecord(record) => {
                return write!(f, "record {record} breaks a rule, and none below it")
            }
            Refusal::DamagedSlot(slot) => {
                return write!(
                    f,
                    "the entry of slot {slot} breaks a rule, and none below it"
                )
            }
        })
    }
}

impl core::error::Error for Refusal {}

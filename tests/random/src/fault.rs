//! Why a file is bad, told by what has to hold of its numbers. Nothing is
//! booked and nothing is polled for it, so that it is a third opinion beside
//! those of both programs.

use crate::file::Reader;
use second::form::Form;
use second::layout::{BOOKINGS, PARENTS, SLOTS};
use std::collections::HashSet;

/// What is wrong first, from the file's first byte on.
#[derive(Clone, Copy, Debug, PartialEq, Eq)]
pub enum Fault {
    /// It ends before it should.
    Short,
    /// The first count is neither 4 nor 5.
    SettingCount,
    Setting,
    /// The first edition is told.
    EditionZero,
    /// An edition is told that there is none of.
    EditionAbove,
    /// There are more bookings than a ledger has room for.
    TooMany,
    /// A booking has the name of the genesis.
    NameZero,
    /// A booking has the name of an earlier one.
    NameTwice,
    Slot,
    ParentCount,
    /// A parent isn't a lower number.
    ParentNotLower,
    ParentTwice,
    /// A poll is of the genesis.
    PollOfGenesis,
    /// A poll is of a number that no booking has.
    PollUnbooked,
    PolledTwice,
    Outcome,
    /// Nobody is marked, not even the genesis.
    NoMarks,
    /// The first mark is not of the genesis.
    GenesisUnmarked,
    /// The same mark again.
    MarkTwice,
    /// A mark of a lower number than the one before.
    MarkFalls,
    /// A mark is of a number that no booking has.
    MarkUnbooked,
    /// A mark is of a slot that has one.
    MarkOfRival,
    /// There are bytes behind it.
    Surplus,
}

impl Fault {
    pub const ALL: [Fault; 23] = [
        Fault::Short,
        Fault::SettingCount,
        Fault::Setting,
        Fault::EditionZero,
        Fault::EditionAbove,
        Fault::TooMany,
        Fault::NameZero,
        Fault::NameTwice,
        Fault::Slot,
        Fault::ParentCount,
        Fault::ParentNotLower,
        Fault::ParentTwice,
        Fault::PollOfGenesis,
        Fault::PollUnbooked,
        Fault::PolledTwice,
        Fault::Outcome,
        Fault::NoMarks,
        Fault::GenesisUnmarked,
        Fault::MarkTwice,
        Fault::MarkFalls,
        Fault::MarkUnbooked,
        Fault::MarkOfRival,
        Fault::Surplus,
    ];

    /// The first fault of a file of this form, if it has one.
    pub fn of(file: &[u8], form: Form) -> Option<Fault> {
        judge(&mut Reader { file, at: 0 }, form).err()
    }

    /// Can a second form alone have it?
    pub fn is_of_marks(self) -> bool {
        match self {
            Fault::NoMarks
            | Fault::GenesisUnmarked
            | Fault::MarkTwice
            | Fault::MarkFalls
            | Fault::MarkUnbooked
            | Fault::MarkOfRival => true,
            _ => false,
        }
    }
}

fn judge(file: &mut Reader, form: Form) -> Result<(), Fault> {
    let numbers = number(file)?;
    if numbers != 4 && numbers != 5 {
        return Err(Fault::SettingCount);
    }
    let [k, a, beta1, beta2] = [number(file)?, number(file)?, number(file)?, number(file)?];
    let is_good = k > 0 && k <= 64 && a <= k && a + a > k;
    if !is_good || beta1 == 0 || beta1 > beta2 || beta2 > 510 {
        return Err(Fault::Setting);
    }
    if numbers == 5 {
        match number(file)? {
            0 => return Err(Fault::EditionZero),
            1 => (),
            _ => return Err(Fault::EditionAbove),
        }
    }
    let booked = number(file)?;
    let mut names = HashSet::new();
    // The genesis is of slot 0.
    let mut slots = vec![0];
    for own in 1..=booked {
        if own >= BOOKINGS {
            return Err(Fault::TooMany);
        }
        slots.push(judge_booking(file, own, &mut names)?);
    }
    let mut polled = HashSet::new();
    for _ in 0..number(file)? {
        let booking = number(file)?;
        if booking == 0 {
            return Err(Fault::PollOfGenesis);
        }
        if booking > booked {
            return Err(Fault::PollUnbooked);
        }
        if !polled.insert(booking) {
            return Err(Fault::PolledTwice);
        }
        if number(file)? > 1 {
            return Err(Fault::Outcome);
        }
    }
    if form == Form::Second {
        judge_marks(file, &slots)?;
    }
    if file.at < file.file.len() {
        return Err(Fault::Surplus);
    }
    Ok(())
}

/// The slots are those of the bookings.
fn judge_marks(file: &mut Reader, slots: &[usize]) -> Result<(), Fault> {
    let count = number(file)?;
    if count == 0 {
        return Err(Fault::NoMarks);
    }
    if number(file)? != 0 {
        return Err(Fault::GenesisUnmarked);
    }
    let mut before = 0;
    let mut marked = HashSet::from([0]);
    for _ in 1..count {
        let mark = number(file)?;
        if mark == before {
            return Err(Fault::MarkTwice);
        }
        if mark < before {
            return Err(Fault::MarkFalls);
        }
        let slot = slots.get(mark).ok_or(Fault::MarkUnbooked)?;
        if !marked.insert(*slot) {
            return Err(Fault::MarkOfRival);
        }
        before = mark;
    }
    Ok(())
}

/// Its slot.
fn judge_booking(file: &mut Reader, own: usize, names: &mut HashSet<u64>) -> Result<usize, Fault> {
    let name = file.number(8).map_err(|_| Fault::Short)?;
    if name == 0 {
        return Err(Fault::NameZero);
    }
    if !names.insert(name) {
        return Err(Fault::NameTwice);
    }
    let slot = number(file)?;
    if slot == 0 || slot >= SLOTS {
        return Err(Fault::Slot);
    }
    let count = number(file)?;
    if count == 0 || count > PARENTS {
        return Err(Fault::ParentCount);
    }
    let mut parents = Vec::with_capacity(count);
    for _ in 0..count {
        let parent = number(file)?;
        if parent >= own {
            return Err(Fault::ParentNotLower);
        }
        if parents.contains(&parent) {
            return Err(Fault::ParentTwice);
        }
        parents.push(parent);
    }
    Ok(slot)
}

fn number(file: &mut Reader) -> Result<usize, Fault> {
    match file.number(2) {
        Ok(number) => Ok(number as usize),
        Err(_) => Err(Fault::Short),
    }
}

#[cfg(test)]
mod tests {
    use super::*;
    use crate::draft::{Draft, Poll, Row};

    fn row(name: u64, slot: u16, parents: &[u16]) -> Row {
        Row {
            name,
            slot,
            parents: parents.to_vec(),
        }
    }

    fn poll(booking: u16, outcome: u16) -> Poll {
        Poll { booking, outcome }
    }

    fn draft() -> Draft {
        Draft {
            setting: vec![3, 2, 1, 2],
            rows: vec![
                row(9, 1, &[0]),
                row(8, 255, &[1, 0]),
                row(7, 1, &[2, 0, 1]),
                row(6, 2, &[0, 1, 2, 3]),
            ],
            polls: vec![poll(3, 0), poll(1, 1), poll(4, 1)],
            marks: None,
        }
    }

    /// In the second form: the marks are of slots 0, 255 and 2.
    fn marked() -> Draft {
        Draft {
            marks: Some(vec![0, 2, 4]),
            ..draft()
        }
    }

    fn fault(draft: &Draft) -> Option<Fault> {
        Fault::of(&draft.bytes(), draft.form())
    }

    /// Each fault by a change of a good file that makes no other.
    #[test]
    fn each_fault_is_what_its_name_says() {
        type Case = (Fault, fn(&mut Draft));
        let cases: [Case; 31] = [
            (Fault::SettingCount, |d| d.setting.extend([1, 0])),
            (Fault::SettingCount, |d| d.setting.truncate(3)),
            (Fault::EditionZero, |d| d.setting.push(0)),
            (Fault::EditionAbove, |d| d.setting.push(2)),
            (Fault::EditionAbove, |d| d.setting.push(257)),
            (Fault::Setting, |d| d.setting = vec![3, 1, 1, 2, 0]),
            (Fault::Setting, |d| d.setting[0] = 0),
            (Fault::Setting, |d| d.setting[0] = 4),
            (Fault::Setting, |d| d.setting[1] = 4),
            (Fault::Setting, |d| d.setting[1] = 32769),
            (Fault::Setting, |d| d.setting[2] = 0),
            (Fault::Setting, |d| d.setting[2] = 3),
            (Fault::Setting, |d| d.setting[3] = 511),
            (Fault::TooMany, |d| {
                d.rows.extend((5..=512).map(|b| row(100 + b, 1, &[0])));
            }),
            (Fault::NameZero, |d| d.rows[0].name = 0),
            (Fault::NameTwice, |d| d.rows[3].name = 9),
            (Fault::Slot, |d| d.rows[2].slot = 0),
            (Fault::Slot, |d| d.rows[2].slot = 256),
            (Fault::ParentCount, |d| d.rows[3].parents.clear()),
            (Fault::ParentCount, |d| {
                d.rows.push(row(5, 1, &[0, 1, 2, 3, 4]));
            }),
            (Fault::ParentNotLower, |d| d.rows[0].parents[0] = 1),
            (Fault::ParentNotLower, |d| d.rows[3].parents[3] = 65535),
            (Fault::ParentTwice, |d| d.rows[3].parents[3] = 0),
            (Fault::PollOfGenesis, |d| d.polls[0].booking = 0),
            (Fault::PollUnbooked, |d| d.polls[0].booking = 5),
            (Fault::PolledTwice, |d| d.polls[2].booking = 3),
            (Fault::PolledTwice, |d| d.polls[2] = poll(1, 0)),
            (Fault::Outcome, |d| d.polls[1].outcome = 2),
            (Fault::Outcome, |d| d.polls[1].outcome = 256),
            (Fault::Outcome, |d| d.polls[2].outcome = 65535),
            (Fault::SettingCount, |d| d.setting.clear()),
        ];
        for good in [draft(), marked()] {
            assert_eq!(fault(&good), None);
            for (meant, change) in cases {
                let mut draft = good.clone();
                change(&mut draft);
                assert_eq!(fault(&draft), Some(meant), "{draft:?}");
            }
            let mut later = good.clone();
            later.setting.push(1);
            for draft in [good, later] {
                let (file, form) = (draft.bytes(), draft.form());
                assert_eq!(Fault::of(&file, form), None);
                for length in 0..file.len() {
                    assert_eq!(Fault::of(&file[..length], form), Some(Fault::Short));
                }
                for more in 1..20 {
                    let longer = [&file[..], &vec![0; more]].concat();
                    assert_eq!(Fault::of(&longer, form), Some(Fault::Surplus));
                }
            }
        }
        assert_eq!(
            Fault::of(&marked().bytes(), Form::First),
            Some(Fault::Surplus)
        );
        assert_eq!(
            Fault::of(&draft().bytes(), Form::Second),
            Some(Fault::Short)
        );
    }

    /// The same of marks: 1 and 3 are of slot 1.
    #[test]
    fn each_fault_of_marks_is_what_its_name_says() {
        let cases: [(Option<Fault>, &[u16]); 16] = [
            (None, &[0]),
            (None, &[0, 1, 2, 4]),
            (None, &[0, 2, 3, 4]),
            (Some(Fault::NoMarks), &[]),
            (Some(Fault::GenesisUnmarked), &[1]),
            (Some(Fault::GenesisUnmarked), &[2, 3, 4]),
            (Some(Fault::GenesisUnmarked), &[65535]),
            (Some(Fault::MarkTwice), &[0, 0]),
            (Some(Fault::MarkTwice), &[0, 2, 4, 4]),
            (Some(Fault::MarkFalls), &[0, 2, 1]),
            (Some(Fault::MarkFalls), &[0, 4, 2]),
            (Some(Fault::MarkUnbooked), &[0, 5]),
            (Some(Fault::MarkUnbooked), &[0, 2, 4, 65535]),
            (Some(Fault::MarkUnbooked), &[0, 256]),
            (Some(Fault::MarkOfRival), &[0, 1, 3]),
            (Some(Fault::MarkOfRival), &[0, 1, 2, 3, 4]),
        ];
        for (meant, marks) in cases {
            let mut draft = marked();
            draft.marks = Some(marks.to_vec());
            assert_eq!(fault(&draft), meant, "{marks:?}");
            assert!(meant.is_none_or(Fault::is_of_marks));
        }
    }

    /// 511 bookings are not too many.
    #[test]
    fn a_full_ledger_has_a_file() {
        let mut draft = draft();
        draft.rows.extend((5..=511).map(|b| row(100 + b, 1, &[0])));
        assert_eq!(fault(&draft), None);
    }
}

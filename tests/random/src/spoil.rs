//! Good files spoiled, in one way each. What is spoiled may stay good: a name
//! may be another, and so may most slots, parents and outcomes.

use crate::draft::{Draft, Poll, Row};
use crate::prng::Prng;
use second::form::Form;
use second::layout::{BOOKINGS, PARENTS};
use std::collections::BTreeMap;

/// What is done to a file.
#[derive(Clone, Copy, Debug, PartialEq, Eq)]
pub enum Kind {
    // its bytes
    ByteChanged,
    SeveralChanged,
    BytesSwapped,
    Cut,
    Longer,
    /// The low sixteen bits of its length are right.
    MuchLonger,
    // one number, mostly to an end of its range
    SettingNumber,
    /// Fewer numbers than four, or more than five.
    SettingLonger,
    /// The numbers stand, and their count says neither four nor five.
    SettingCount,
    /// The first edition is told.
    EditionZero,
    /// An edition is told that there is none of.
    EditionAbove,
    /// The edition is told, or left out, and the count says something else.
    EditionUncounted,
    Count,
    ParentCount,
    NameOfGenesis,
    NameRepeated,
    NameOther,
    Slot,
    Parent,
    PollBooking,
    Outcome,
    // whole items, with counts that are true
    /// The same day in the other edition.
    EditionTurned,
    ParentMore,
    ParentFewer,
    ParentRepeated,
    /// Four are the most.
    FiveParents,
    BookingMore,
    BookingDropped,
    BookingRepeated,
    BookingsSwapped,
    PollMore,
    PollOfGenesis,
    PollDropped,
    PollRepeated,
    PollsSwapped,
    Overfull,
    // marks, in the second form alone
    /// Any marks that are good.
    MarksOther,
    /// Everybody's.
    MarksAll,
    MarksNone,
    MarkOfGenesisDropped,
    MarkDropped,
    MarkMore,
    MarkRepeated,
    MarksSwapped,
    /// One mark, mostly to an end of its range.
    MarkNumber,
    MarkOfRival,
    /// A rival has it instead.
    MarkHanded,
    /// Of a number that no booking has.
    MarkUnbooked,
    MarkCount,
    // the other form
    OtherForm,
    // nothing is left of it, or only its setting
    RandomBytes,
    RandomNumbers,
}

impl Kind {
    pub const ALL: [Kind; 52] = [
        Kind::ByteChanged,
        Kind::SeveralChanged,
        Kind::BytesSwapped,
        Kind::Cut,
        Kind::Longer,
        Kind::MuchLonger,
        Kind::SettingNumber,
        Kind::SettingLonger,
        Kind::SettingCount,
        Kind::EditionZero,
        Kind::EditionAbove,
        Kind::EditionUncounted,
        Kind::Count,
        Kind::ParentCount,
        Kind::NameOfGenesis,
        Kind::NameRepeated,
        Kind::NameOther,
        Kind::Slot,
        Kind::Parent,
        Kind::PollBooking,
        Kind::Outcome,
        Kind::EditionTurned,
        Kind::ParentMore,
        Kind::ParentFewer,
        Kind::ParentRepeated,
        Kind::FiveParents,
        Kind::BookingMore,
        Kind::BookingDropped,
        Kind::BookingRepeated,
        Kind::BookingsSwapped,
        Kind::PollMore,
        Kind::PollOfGenesis,
        Kind::PollDropped,
        Kind::PollRepeated,
        Kind::PollsSwapped,
        Kind::Overfull,
        Kind::MarksOther,
        Kind::MarksAll,
        Kind::MarksNone,
        Kind::MarkOfGenesisDropped,
        Kind::MarkDropped,
        Kind::MarkMore,
        Kind::MarkRepeated,
        Kind::MarksSwapped,
        Kind::MarkNumber,
        Kind::MarkOfRival,
        Kind::MarkHanded,
        Kind::MarkUnbooked,
        Kind::MarkCount,
        Kind::OtherForm,
        Kind::RandomBytes,
        Kind::RandomNumbers,
    ];

    /// What can be done to a file of this form.
    pub fn of(form: Form) -> Vec<Kind> {
        let is_one = |kind: &Kind| form == Form::Second || !kind.is_of_marks();
        Kind::ALL.into_iter().filter(is_one).collect()
    }

    pub fn is_of_marks(self) -> bool {
        match self {
            Kind::MarksOther
            | Kind::MarksAll
            | Kind::MarksNone
            | Kind::MarkOfGenesisDropped
            | Kind::MarkDropped
            | Kind::MarkMore
            | Kind::MarkRepeated
            | Kind::MarksSwapped
            | Kind::MarkNumber
            | Kind::MarkOfRival
            | Kind::MarkHanded
            | Kind::MarkUnbooked
            | Kind::MarkCount => true,
            _ => false,
        }
    }

    /// The draft as a file that is spoiled so.
    pub fn spoil(self, prng: &mut Prng, good: &Draft) -> Vec<u8> {
        match self {
            Kind::ByteChanged
            | Kind::SeveralChanged
            | Kind::BytesSwapped
            | Kind::Cut
            | Kind::Longer
            | Kind::MuchLonger => self.spoil_bytes(prng, good.bytes()),
            Kind::SettingCount | Kind::Count | Kind::ParentCount | Kind::MarkCount => {
                self.spoil_count(prng, good)
            }
            Kind::EditionUncounted => {
                let mut other = good.clone();
                turn_edition(&mut other, prng.word(0, 2));
                let mut file = other.bytes();
                file[..2].copy_from_slice(&good.bytes()[..2]);
                file
            }
            Kind::RandomBytes => {
                let length = prng.between(0, 120);
                (0..length).map(|_| prng.draw() as u8).collect()
            }
            Kind::RandomNumbers => random_numbers(prng, good),
            _ => {
                let mut draft = good.clone();
                self.spoil_draft(prng, &mut draft);
                draft.bytes()
            }
        }
    }

    fn spoil_bytes(self, prng: &mut Prng, mut file: Vec<u8>) -> Vec<u8> {
        let length = file.len();
        match self {
            Kind::Cut => {
                let any = prng.below(length);
                file.truncate(prng.pick(&[any, length - 1, length - 2]));
            }
            Kind::Longer if prng.chance(20) => file.extend_from_within(..),
            Kind::Longer => {
                let more = prng.pick(&[1, 1, 2, 3, 4, 14]);
                let byte = prng.pick(&[0, 0, 1, 255]);
                file.resize(length + more, byte);
            }
            Kind::MuchLonger => file.resize(length + 65_536, prng.draw() as u8),
            Kind::BytesSwapped => {
                let from = prng.below(length);
                let any = prng.below(length);
                let to = prng.pick(&[from + 1, from + 2, from + 8, any]);
                file.swap(from, to.min(length - 1));
            }
            _ => {
                let is_one = self == Kind::ByteChanged;
                for _ in 0..if is_one { 1 } else { prng.between(2, 4) } {
                    let at = prng.below(length);
                    file[at] = other_byte(prng, file[at]);
                }
            }
        }
        file
    }

    /// A count that is not true.
    fn spoil_count(self, prng: &mut Prng, good: &Draft) -> Vec<u8> {
        let mut draft = good.clone();
        let at = match self {
            Kind::ParentCount => {
                let b = some_row(prng, &mut draft);
                draft.row_at(b) + 10
            }
            Kind::MarkCount => draft.marks_at(),
            Kind::SettingCount => 0,
            _ => prng.pick(&[0, draft.rows_at(), draft.polls_at()]),
        };
        let mut file = draft.bytes();
        let count = u16::from_be_bytes([file[at], file[at + 1]]);
        let other = match self {
            // Some have the low byte, or the high one, of a count that is right.
            Kind::SettingCount => prng.pick(&[0, 1, 3, 3, 6, 6, 7, 260, 261, 1024, 1280, 65535]),
            _ => end_of_range(prng, count, &[0, 1, 4, 5, 511, 512]),
        };
        file[at..at + 2].copy_from_slice(&other.to_be_bytes());
        file
    }

    fn spoil_draft(self, prng: &mut Prng, draft: &mut Draft) {
        match self {
            Kind::SettingNumber => {
                let at = prng.below(draft.setting.len());
                let ends = [0, 1, 2, 63, 64, 65, 510, 511, 32769];
                draft.setting[at] = end_of_range(prng, draft.setting[at], &ends);
            }
            Kind::SettingLonger => {
                let length = prng.pick(&[0, 1, 3, 3, 6, 6, 7]);
                draft.setting.resize(length, prng.pick(&[0, 1, 4]));
            }
            Kind::EditionZero => {
                draft.setting.truncate(4);
                draft.setting.push(0);
            }
            Kind::EditionAbove => {
                draft.setting.truncate(4);
                let editions = [2, 2, 3, 256, 257, 257, 513, 65535];
                draft.setting.push(prng.pick(&editions));
            }
            Kind::EditionTurned => turn_edition(draft, 1),
            Kind::OtherForm => {
                let any = prng.pick(&[vec![], vec![0], vec![0, 1]]);
                draft.marks = match draft.marks {
                    None => Some(any),
                    Some(_) => None,
                };
            }
            _ if self.is_of_marks() => self.spoil_marks(prng, draft),
            Kind::Outcome | Kind::PollBooking => {
                let at = some_poll(prng, draft);
                let n = draft.rows.len() as u16 + 1;
                let poll = &mut draft.polls[at];
                if self == Kind::Outcome {
                    let ends = [0, 1, 1 - poll.outcome, 2, 255, 256, 257];
                    poll.outcome = end_of_range(prng, poll.outcome, &ends);
                } else {
                    let ends = [0, 0, 0, 0, 1, n - 1, n, n + 1, 511, 512];
                    poll.booking = end_of_range(prng, poll.booking, &ends);
                }
            }
            Kind::PollMore
            | Kind::PollOfGenesis
            | Kind::PollDropped
            | Kind::PollRepeated
            | Kind::PollsSwapped => self.spoil_polls(prng, draft),
            Kind::Overfull => {
                while draft.rows.len() < BOOKINGS {
                    add_row(prng, draft);
                }
            }
            Kind::FiveParents => {
                while draft.rows.len() <= PARENTS {
                    add_row(prng, draft);
                }
                let at = prng.between(PARENTS, draft.rows.len() - 1);
                let lower: Vec<u16> = (0..=at as u16).collect();
                draft.rows[at].parents = prng.sample(&lower, PARENTS + 1);
            }
            Kind::BookingMore | Kind::BookingDropped | Kind::BookingRepeated => {
                let at = some_row(prng, draft);
                match self {
                    Kind::BookingMore => add_row(prng, draft),
                    Kind::BookingDropped => drop(draft.rows.remove(at)),
                    _ => draft.rows.push(draft.rows[at].clone()),
                }
            }
            Kind::BookingsSwapped => {
                let at = some_row(prng, draft);
                let other = prng.below(draft.rows.len());
                draft.rows.swap(at, other);
            }
            _ => self.spoil_row(prng, draft),
        }
    }

    fn spoil_polls(self, prng: &mut Prng, draft: &mut Draft) {
        let at = some_poll(prng, draft);
        let again = draft.polls[at];
        match self {
            Kind::PollDropped => drop(draft.polls.remove(at)),
            Kind::PollOfGenesis => {
                let outcome = prng.word(0, 1);
                let to = prng.between(0, draft.polls.len());
                draft.polls.insert(
                    to,
                    Poll {
                        booking: 0,
                        outcome,
                    },
                );
            }
            Kind::PollsSwapped => {
                let other = prng.below(draft.polls.len());
                draft.polls.swap(at, other);
            }
            Kind::PollRepeated => {
                let outcome = prng.pick(&[again.outcome, 1 - again.outcome]);
                let to = prng.between(0, draft.polls.len());
                draft.polls.insert(to, Poll { outcome, ..again });
            }
            _ => draft.polls.push(Poll {
                booking: prng.between(0, draft.rows.len() + 1) as u16,
                outcome: prng.word(0, 1),
            }),
        }
    }

    /// Something about the marks.
    fn spoil_marks(self, prng: &mut Prng, draft: &mut Draft) {
        let at = some_mark(prng, draft);
        let n = draft.rows.len() as u16 + 1;
        let mut marks = draft.marks.take().expect("the form has marks");
        match self {
            Kind::MarksOther => marks = any_marks(prng, draft),
            Kind::MarksAll => marks = (0..n).collect(),
            Kind::MarksNone => marks.clear(),
            Kind::MarkOfGenesisDropped => drop(marks.remove(0)),
            Kind::MarkDropped => drop(marks.remove(at)),
            Kind::MarkRepeated => {
                let at = prng.pick(&[0, at, marks.len() - 1]);
                marks.insert(at, marks[at]);
            }
            Kind::MarksSwapped => {
                if marks.len() < 3 {
                    add_row(prng, draft);
                    marks.push(n);
                }
                // Mostly two that are not the genesis'.
                let any = prng.between(1, marks.len() - 2);
                let at = prng.pick(&[0, any, any]);
                marks.swap(at, at + 1);
            }
            Kind::MarkNumber => {
                let at = prng.pick(&[0, at, at, marks.len() - 1]);
                let near = [marks[at].wrapping_sub(1), marks[at] + 1];
                let ends = [0, 1, n - 1, n - 1, n, n, n, n + 1, 256, 511, 512, 65535];
                marks[at] = prng.pick(&[&ends[..], &near].concat());
            }
            Kind::MarkOfRival | Kind::MarkHanded => {
                let slot = draft.rows[usize::from(marks[at]) - 1].slot;
                let mut rivals = (1..n).filter(|b| draft.rows[usize::from(*b) - 1].slot == slot);
                let rival = rivals.find(|b| !marks.contains(b)).unwrap_or_else(|| {
                    add_row(prng, draft);
                    draft.rows[usize::from(n) - 1].slot = slot;
                    n
                });
                if self == Kind::MarkHanded {
                    marks.remove(at);
                }
                marks.push(rival);
                marks.sort();
            }
            Kind::MarkUnbooked => marks.push(prng.pick(&[n, n, n, n + 1, n + 256, 65535])),
            _ => {
                let unmarked: Vec<u16> = (1..n).filter(|b| !marks.contains(b)).collect();
                marks.extend(prng.sample(&unmarked, 1));
                marks.sort();
            }
        }
        draft.marks = Some(marks);
    }

    /// Something about one booking.
    fn spoil_row(self, prng: &mut Prng, draft: &mut Draft) {
        let mut at = some_row(prng, draft);
        // The last has most numbers below it.
        if self == Kind::ParentMore && prng.chance(50) {
            at = draft.rows.len() - 1;
        }
        let own = at as u16 + 1;
        let n = draft.rows.len() as u16 + 1;
        let names: Vec<u64> = draft.rows.iter().map(|row| row.name).collect();
        let row = &mut draft.rows[at];
        let place = prng.below(row.parents.len());
        match self {
            Kind::NameOfGenesis => row.name = 0,
            Kind::NameRepeated => row.name = prng.pick(&names),
            Kind::NameOther => {
                let near = prng.pick(&names);
                let flipped = near ^ (1 << prng.below(64));
                row.name = prng.pick(&[u64::MAX, 1 << 63, 1, flipped, near.rotate_left(16)]);
            }
            Kind::Slot => {
                let ends = [0, 1, 2, 254, 255, 256, 257, 511, 512];
                row.slot = end_of_range(prng, row.slot, &ends);
            }
            Kind::Parent => {
                let name = prng.pick(&names) as u16;
                let ends = [0, own - 1, own, own + 1, n - 1, n, 511, 512, name];
                row.parents[place] = end_of_range(prng, row.parents[place], &ends);
            }
            Kind::ParentRepeated => {
                let again = row.parents[place];
                if row.parents.len() == PARENTS {
                    row.parents[(place + prng.between(1, PARENTS - 1)) % PARENTS] = again;
                } else {
                    row.parents.insert(prng.between(0, place), again);
                }
            }
            Kind::ParentFewer => drop(row.parents.remove(place)),
            // One more or up to the fifth; where there is none, itself.
            _ => {
                let more = prng.pick(&[1, PARENTS + 1 - row.parents.len()]);
                let mut new: Vec<u16> = (0..own).filter(|p| !row.parents.contains(p)).collect();
                new.push(own);
                new.truncate(more);
                row.parents.splice(place..place, new);
            }
        }
    }
}

/// The edition left out where it is told, and told where it is not.
fn turn_edition(draft: &mut Draft, told: u16) {
    match draft.setting.len() {
        4 => draft.setting.push(told),
        _ => draft.setting.truncate(4),
    }
}

/// A byte next to this one, with a bit flipped, at an end, or any other.
pub fn other_byte(prng: &mut Prng, byte: u8) -> u8 {
    let [next, previous] = [byte.wrapping_add(1), byte.wrapping_sub(1)];
    let [flipped, any] = [byte ^ (1 << prng.below(8)), prng.draw() as u8];
    let other = prng.pick(&[next, previous, flipped, any, 0, 1, 255]);
    if other == byte {
        !byte
    } else {
        other
    }
}

/// One of the ends given, a number next to this one, or one with the same low
/// or high byte.
fn end_of_range(prng: &mut Prng, number: u16, ends: &[u16]) -> u16 {
    match prng.below(8) {
        0 => number.wrapping_add(1),
        1 => number.wrapping_sub(1),
        2 => prng.pick(&[number.wrapping_add(256), number.swap_bytes(), 65535]),
        _ => prng.pick(ends),
    }
}

/// The place of a booking, after one is added where there is none.
fn some_row(prng: &mut Prng, draft: &mut Draft) -> usize {
    if draft.rows.is_empty() {
        add_row(prng, draft);
    }
    prng.below(draft.rows.len())
}

/// The same of a poll.
fn some_poll(prng: &mut Prng, draft: &mut Draft) -> usize {
    if draft.polls.is_empty() {
        let booking = some_row(prng, draft) as u16 + 1;
        let outcome = prng.word(0, 1);
        draft.polls.push(Poll { booking, outcome });
    }
    prng.below(draft.polls.len())
}

/// The place of a mark that is not the genesis', after one is added where
/// there is none.
fn some_mark(prng: &mut Prng, draft: &mut Draft) -> usize {
    let booking = some_row(prng, draft) as u16 + 1;
    let marks = draft.marks.as_mut().expect("the form has marks");
    if marks.len() < 2 {
        marks.push(booking);
    }
    prng.between(1, marks.len() - 1)
}

/// Any good marks: of each slot one booking's, or nobody's.
pub fn any_marks(prng: &mut Prng, draft: &Draft) -> Vec<u16> {
    let percent = prng.pick(&[0, 30, 70, 100, 100]);
    let mut by_slot: BTreeMap<u16, Vec<u16>> = BTreeMap::new();
    for (row, number) in draft.rows.iter().zip(1..) {
        by_slot.entry(row.slot).or_default().push(number);
    }
    let mut marks = vec![0];
    for bookings in by_slot.values() {
        if prng.chance(percent) {
            let last = bookings[bookings.len() - 1];
            let any = prng.pick(bookings);
            marks.push(prng.pick(&[any, last]));
        }
    }
    marks.sort();
    marks
}

/// A booking behind the others, on one or two of them.
fn add_row(prng: &mut Prng, draft: &mut Draft) {
    let own = draft.rows.len() as u16 + 1;
    let lower: Vec<u16> = (0..own).collect();
    draft.rows.push(Row {
        name: prng.draw(),
        slot: prng.word(1, 255),
        parents: prng.some(&lower[lower.len().saturating_sub(9)..], 2),
    });
}

/// The setting, and then numbers as they might stand in a file.
fn random_numbers(prng: &mut Prng, good: &Draft) -> Vec<u8> {
    let mut file = good.bytes();
    file.truncate(good.rows_at());
    let most = prng.pick(&[1, 2, 4, 9]);
    // A handful may be good, more are hardly ever.
    let length = prng.pick(&[5, 24]);
    for _ in 0..prng.below(length) {
        file.extend(prng.word(0, most).to_be_bytes());
    }
    file
}

#[cfg(test)]
mod tests {
    use super::*;
    use crate::fault::Fault;
    use crate::grow::{grow, Style};
    use second::day::Day;
    use std::collections::BTreeSet;

    /// Every kind makes a file that is bad, and those that can make one that
    /// is good do that too. Together they meet every fault.
    #[test]
    fn each_kind_spoils() {
        let mut prng = Prng::new(1);
        let never_good = [
            Kind::Cut,
            Kind::Longer,
            Kind::MuchLonger,
            Kind::EditionZero,
            Kind::EditionAbove,
            Kind::EditionUncounted,
            Kind::NameOfGenesis,
            Kind::ParentRepeated,
            Kind::FiveParents,
            Kind::BookingRepeated,
            Kind::PollRepeated,
            Kind::Overfull,
            Kind::SettingLonger,
            Kind::SettingCount,
            Kind::PollOfGenesis,
            Kind::RandomBytes,
            Kind::MarksNone,
            Kind::MarkOfGenesisDropped,
            Kind::MarkRepeated,
            Kind::MarksSwapped,
            Kind::MarkOfRival,
            Kind::MarkUnbooked,
            Kind::OtherForm,
        ];
        let never_bad = [
            Kind::EditionTurned,
            Kind::BookingMore,
            Kind::PollDropped,
            Kind::PollsSwapped,
            Kind::MarksOther,
            Kind::MarkHanded,
            Kind::MarkDropped,
        ];
        let mut met = BTreeSet::new();
        let kinds = Form::ALL.map(|form| (form, Kind::of(form)));
        let kinds = kinds.into_iter().flat_map(|(form, kinds)| {
            let of_form = kinds.into_iter().map(move |kind| (form, kind));
            of_form.collect::<Vec<_>>()
        });
        for (form, kind) in kinds {
            let (mut good, mut bad) = (0, 0);
            for _ in 0..1200 {
                let style = Style::any(&mut prng);
                let n = prng.between(1, 7);
                let ledger = grow(&mut prng, style, n).ledger;
                let mut draft = Draft::of(&Day::of(&ledger, form));
                if form == Form::Second {
                    draft.marks = Some(any_marks(&mut prng, &draft));
                    assert_eq!(Fault::of(&draft.bytes(), form), None);
                }
                let file = kind.spoil(&mut prng, &draft);
                match Fault::of(&file, form) {
                    Some(fault) => {
                        met.insert(format!("{fault:?}"));
                        bad += 1;
                    }
                    None => good += 1,
                }
            }
            assert_eq!(good == 0, never_good.contains(&kind), "{form:?} {kind:?}");
            assert_eq!(bad == 0, never_bad.contains(&kind), "{form:?} {kind:?}");
        }
        let all = Fault::ALL.map(|fault| format!("{fault:?}"));
        assert_eq!(met, BTreeSet::from(all));
    }
}

//! What the writing of day files has reached: how much room they had, and
//! what was in them.

use crate::file;
use second::day::{EDITION_BYTES, LONGEST_FILE};
use second::form::Form;
use second::layout::{BOOKINGS, PARENTS};
use second::ledger::{Booking, Ledger, State};
use std::collections::BTreeSet;

/// A name, and whether a room for a file of a form and of some length is a
/// case of it.
pub type Room = (&'static str, fn(usize, Form, usize) -> bool);

/// The room that a file had.
pub const ROOMS: [Room; 10] = [
    ("room: none", |room, _, _| room == 0),
    ("room: 1 byte", |room, _, _| room == 1),
    ("room: one byte less than for any file", |room, form, _| {
        room + 1 == form.shortest()
    }),
    ("room: for a part of the file", |room, form, length| {
        form.shortest() <= room && room + 1 < length
    }),
    ("room: one byte too little", |room, _, length| {
        room + 1 == length
    }),
    ("room: just enough", |room, _, length| room == length),
    ("room: one byte to spare", |room, _, length| {
        room == length + 1
    }),
    ("room: much to spare", |room, _, length| room > length + 1),
    ("room: for the longest file", |room, form, _| {
        room == form.longest()
    }),
    (
        "room: enough, and too little by its low bits",
        |room, _, length| room >= length && room % 65_536 < length,
    ),
];

/// A name, and whether the file of a ledger is a case of it.
pub type File = (&'static str, fn(&Ledger) -> bool);

/// What was written.
pub const FILES: [File; 17] = [
    ("file: the genesis alone", |ledger| {
        ledger.bookings.len() == 1
    }),
    ("file: 512 bookings", |ledger| {
        ledger.bookings.len() == BOOKINGS
    }),
    ("file: the longest", |ledger| {
        file::length(ledger, Form::First) == LONGEST_FILE
    }),
    ("file: the longest of the first edition", |ledger| {
        file::length(ledger, Form::First) == LONGEST_FILE - EDITION_BYTES
            && !ledger.setting.is_later()
    }),
    ("file: the first edition", |ledger| {
        !ledger.setting.is_later()
    }),
    ("file: the later edition", |ledger| {
        ledger.setting.is_later()
    }),
    ("file: bookings and no polls", |ledger| {
        ledger.bookings.len() > 1 && ledger.polls == 0
    }),
    ("file: a booking that waits, and polls", |ledger| {
        ledger.polls > 0 && has(ledger, |booking| booking.state == State::Waiting)
    }),
    ("file: a poll with success", |ledger| {
        has(ledger, |booking| booking.state == State::Chit)
    }),
    ("file: a poll without", |ledger| {
        has(ledger, |booking| booking.state == State::Polled)
    }),
    ("file: polls out of booking order", |ledger| {
        let ordinals = ledger.bookings.iter().map(|booking| booking.ordinal);
        !is_rising(ordinals.filter(|&ordinal| ordinal > 0))
    }),
    ("file: a poll of a number above 255", |ledger| {
        let mut late = ledger.bookings.iter().skip(256);
        late.any(|booking| booking.ordinal > 0)
    }),
    ("file: four parents", |ledger| {
        has(ledger, |booking| booking.parents.len() == PARENTS)
    }),
    ("file: parents out of booking order", |ledger| {
        has(ledger, |booking| !is_rising(booking.parents.iter()))
    }),
    ("file: a parent with a number above 255", |ledger| {
        has(ledger, |booking| booking.parents.iter().any(|&p| p > 255))
    }),
    ("file: a name with its highest bit", |ledger| {
        has(ledger, |booking| booking.name >> 63 == 1)
    }),
    ("file: a name of eight different bytes", |ledger| {
        has(ledger, |booking| {
            let bytes = BTreeSet::from(booking.name.to_be_bytes());
            bytes.len() == 8
        })
    }),
];

/// What a second form told of marks.
pub const MARKS: [File; 7] = [
    ("marks: the genesis alone, of several", |ledger| {
        ledger.bookings.len() > 1 && !has(ledger, |booking| booking.is_marked)
    }),
    ("marks: somebody", |ledger| {
        has(ledger, |booking| booking.is_marked)
    }),
    ("marks: everybody, of several", |ledger| {
        ledger.bookings.len() > 1 && ledger.bookings.iter().all(|booking| booking.is_marked)
    }),
    ("marks: one of each slot, with rivals", |ledger| {
        let marked = ledger.marked().len();
        marked == ledger.slots.len() && marked < ledger.bookings.len()
    }),
    ("marks: the newest", |ledger| {
        ledger.bookings.len() > 1 && ledger.bookings.iter().last().is_some_and(|b| b.is_marked)
    }),
    ("marks: a number above 255", |ledger| {
        ledger.bookings.iter().skip(256).any(|b| b.is_marked)
    }),
    ("marks: one without a chit", |ledger| {
        has(ledger, |booking| {
            booking.is_marked && booking.confidence == 0
        })
    }),
];

/// Is there such a booking beside the genesis?
fn has(ledger: &Ledger, is_meant: impl Fn(&Booking) -> bool) -> bool {
    ledger.bookings.iter().skip(1).any(is_meant)
}

/// Is each number above the one before it?
fn is_rising<T: Ord>(numbers: impl Iterator<Item = T>) -> bool {
    let numbers: Vec<T> = numbers.collect();
    numbers.windows(2).all(|pair| pair[0] < pair[1])
}

#[cfg(test)]
mod tests {
    use super::*;
    use second::setting::Setting;

    #[test]
    fn each_room_is_what_its_name_says() {
        let meets_in = |form, room: usize, length: usize, cases: &[&'static str]| {
            let met = ROOMS
                .iter()
                .filter(|(_, is_met)| is_met(room, form, length));
            let met: Vec<&str> = met.map(|(case, _)| *case).collect();
            assert_eq!(met, cases, "{room} for {length}");
            met
        };
        let meets =
            |room, length, cases: &[&'static str]| meets_in(Form::First, room, length, cases);
        meets_in(Form::Second, 13, 92, &[]);
        meets_in(
            Form::Second,
            17,
            92,
            &["room: one byte less than for any file"],
        );
        meets_in(Form::Second, 18, 92, &["room: for a part of the file"]);
        meets_in(
            Form::Second,
            12_782,
            92,
            &["room: much to spare", "room: for the longest file"],
        );
        let met = [
            meets(0, 88, &["room: none"]),
            meets(1, 88, &["room: 1 byte"]),
            meets(12, 88, &[]),
            meets(13, 88, &["room: one byte less than for any file"]),
            meets(
                13,
                14,
                &[
                    "room: one byte less than for any file",
                    "room: one byte too little",
                ],
            ),
            meets(14, 88, &["room: for a part of the file"]),
            meets(86, 88, &["room: for a part of the file"]),
            meets(87, 88, &["room: one byte too little"]),
            meets(88, 88, &["room: just enough"]),
            meets(89, 88, &["room: one byte to spare"]),
            meets(90, 88, &["room: much to spare"]),
            meets(12_266, 12_266, &["room: just enough"]),
            meets(
                12_268,
                88,
                &["room: much to spare", "room: for the longest file"],
            ),
            meets(
                12_268,
                12_268,
                &["room: just enough", "room: for the longest file"],
            ),
            meets(65_535, 88, &["room: much to spare"]),
            meets(
                65_536 + 87,
                88,
                &[
                    "room: much to spare",
                    "room: enough, and too little by its low bits",
                ],
            ),
            meets(65_536 + 88, 88, &["room: much to spare"]),
        ];
        for (case, _) in ROOMS {
            assert!(met.iter().flatten().any(|met| *met == case), "{case}");
        }
    }

    /// Booking 1 in slot 7, 2 in slot 7 and 3 in slot 8; nobody has a chit.
    #[test]
    fn each_case_of_marks_is_what_its_name_says() {
        let mut ledger = Ledger::open(Setting::PAPER).expect("it is good");
        let meets = |ledger: &Ledger, marks: &[usize], cases: &[&'static str]| {
            let mut ledger = ledger.clone();
            for (b, booking) in ledger.bookings.iter_mut().enumerate() {
                booking.is_marked = marks.contains(&b);
            }
            let met = MARKS.iter().filter(|(_, is_met)| is_met(&ledger));
            let met: Vec<&str> = met.map(|(case, _)| *case).collect();
            assert_eq!(met, cases, "{marks:?}");
            met
        };
        meets(&ledger, &[0], &[]);
        ledger.book(1, 7, &[0]).expect("it is taken");
        let chit = "marks: one without a chit";
        let mut met = vec![meets(
            &ledger,
            &[0, 1],
            &[
                "marks: somebody",
                "marks: everybody, of several",
                "marks: the newest",
                chit,
            ],
        )];
        ledger.book(2, 7, &[0]).expect("it is taken");
        ledger.book(3, 8, &[0]).expect("it is taken");
        met.push(meets(
            &ledger,
            &[0],
            &["marks: the genesis alone, of several"],
        ));
        met.push(meets(&ledger, &[0, 2], &["marks: somebody", chit]));
        met.push(meets(
            &ledger,
            &[0, 2, 3],
            &[
                "marks: somebody",
                "marks: one of each slot, with rivals",
                "marks: the newest",
                chit,
            ],
        ));
        ledger.bookings[2].confidence = 1;
        meets(&ledger, &[0, 2], &["marks: somebody"]);
        for name in 4..300 {
            ledger.book(name, 9, &[0]).expect("it is taken");
        }
        meets(&ledger, &[0, 255], &["marks: somebody", chit]);
        let above = ["marks: somebody", "marks: a number above 255", chit];
        met.push(meets(&ledger, &[0, 256], &above));
        for (case, _) in MARKS {
            assert!(met.iter().flatten().any(|met| *met == case), "{case}");
        }
    }

    const FIRST: &str = "file: the first edition";

    #[test]
    fn each_file_is_what_its_name_says() {
        let meets = |ledger: &Ledger, cases: &[&'static str]| {
            let met = FILES.iter().filter(|(_, is_met)| is_met(ledger));
            let met: Vec<&str> = met.map(|(case, _)| *case).collect();
            assert_eq!(met, cases);
            met
        };
        let mut ledger = Ledger::open(Setting::PAPER).expect("it is good");
        let alone = ["file: the genesis alone", FIRST];
        let mut met = vec![meets(&ledger, &alone)];
        for name in 1..=4 {
            ledger.book(name, 7, &[name - 1]).expect("it is taken");
        }
        met.push(meets(&ledger, &[FIRST, "file: bookings and no polls"]));
        ledger.poll(2, &[1; 10]).expect("it is taken");
        ledger.poll(4, &[1; 10]).expect("it is taken");
        let polled = [
            FIRST,
            "file: a booking that waits, and polls",
            "file: a poll with success",
        ];
        met.push(meets(&ledger, &polled));
        ledger.poll(3, &[0; 10]).expect("it is taken");
        ledger.poll(1, &[0; 10]).expect("it is taken");
        let mut cases = vec![
            FIRST,
            "file: a poll with success",
            "file: a poll without",
            "file: polls out of booking order",
        ];
        met.push(meets(&ledger, &cases));
        ledger.book(5, 7, &[0, 1, 2, 4]).expect("it is taken");
        cases.insert(1, "file: a booking that waits, and polls");
        cases.push("file: four parents");
        met.push(meets(&ledger, &cases));
        ledger.book(u64::MAX, 7, &[1, 0]).expect("it is taken");
        ledger
            .book(0x0123_4567_89ab_cdef, 7, &[0])
            .expect("it is taken");
        cases.extend([
            "file: parents out of booking order",
            "file: a name with its highest bit",
            "file: a name of eight different bytes",
        ]);
        met.push(meets(&ledger, &cases));

        for (edition, own, longest) in [
            (0, FIRST, "file: the longest of the first edition"),
            (1, "file: the later edition", "file: the longest"),
        ] {
            let setting = Setting {
                edition,
                ..Setting::PAPER
            };
            let mut ledger = Ledger::open(setting).expect("it is good");
            for b in 1..512u64 {
                let parents: Vec<u64> = (b.saturating_sub(4)..b).collect();
                ledger.book(b, 1, &parents).expect("it is taken");
            }
            for b in 1..256 {
                ledger.poll(b, &[0; 10]).expect("it is taken");
            }
            let mut cases = vec![
                "file: 512 bookings",
                own,
                "file: a booking that waits, and polls",
                "file: a poll without",
                "file: four parents",
                "file: a parent with a number above 255",
            ];
            met.push(meets(&ledger, &cases));
            for b in 256..512 {
                ledger.poll(b, &[0; 10]).expect("it is taken");
            }
            cases.remove(2);
            cases.insert(1, longest);
            cases.insert(4, "file: a poll of a number above 255");
            met.push(meets(&ledger, &cases));
        }
        for (case, _) in FILES {
            assert!(met.iter().flatten().any(|met| *met == case), "{case}");
        }
    }
}

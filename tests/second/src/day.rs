//! The day file: a ledger's day as bytes, for a neighbour. `parse` and
//! `replay` lead back.
//!
//! First everything that the file carries is gathered into a `Day`, which
//! knows nothing of bytes; then each item becomes bytes by itself, and a
//! section is the number of its items and the items. So a count is never
//! taken from the header.

use crate::form::Form;
use crate::ledger::{Ledger, State, GENESIS};
use crate::setting::Setting;
use std::collections::BTreeMap;

/// The first form of the genesis alone, in the first edition: the setting after
/// its count, and two counts of nothing.
pub const SHORTEST_FILE: usize = 14;
/// The first form of a full ledger of the later edition where every booking
/// was polled and has four parents, but for numbers 1, 2 and 3, below which
/// there are not so many.
pub const LONGEST_FILE: usize = 12_268;
/// What the later edition adds to a file.
pub const EDITION_BYTES: usize = 2;

/// What a day file carries.
#[derive(Clone, Debug, PartialEq, Eq)]
pub struct Day {
    pub setting: Setting,
    /// Every booking but the genesis, in rising number.
    pub bookings: Vec<Booked>,
    /// Every poll by its ordinal.
    pub polls: BTreeMap<u16, Polled>,
    /// Numbers of the marked bookings, in rising order, where the form tells
    /// them.
    pub marks: Option<Vec<usize>>,
}

#[derive(Clone, Debug, PartialEq, Eq)]
pub struct Booked {
    pub name: u64,
    pub slot: u16,
    /// Numbers of the parents, in the order given.
    pub parents: Vec<usize>,
}

#[derive(Clone, Copy, Debug, PartialEq, Eq)]
pub struct Polled {
    /// The number of the booking that was polled.
    pub booking: usize,
    pub is_success: bool,
}

impl Day {
    /// What a file of this form carries of a ledger.
    pub fn of(ledger: &Ledger, form: Form) -> Day {
        let mut day = Day {
            setting: ledger.setting,
            bookings: Vec::new(),
            polls: BTreeMap::new(),
            marks: match form {
                Form::First => None,
                Form::Second => Some(ledger.marked()),
            },
        };
        for (number, booking) in ledger.bookings.iter().enumerate() {
            // It is in every ledger, and its state is that of no poll.
            if number == GENESIS {
                continue;
            }
            day.bookings.push(Booked {
                name: booking.name,
                slot: booking.slot,
                parents: booking.parents.clone(),
            });
            let is_success = match booking.state {
                State::Waiting => continue,
                State::Polled => false,
                State::Chit => true,
            };
            let polled = Polled {
                booking: number,
                is_success,
            };
            day.polls.insert(booking.ordinal, polled);
        }
        day
    }

    /// The first edition goes without saying, the later one is told.
    fn setting_numbers(&self) -> Vec<u16> {
        let Setting {
            k,
            a,
            beta1,
            beta2,
            edition,
        } = self.setting;
        let mut numbers = vec![k, a, beta1, beta2];
        if self.setting.is_later() {
            numbers.push(edition);
        }
        numbers
    }

    /// The bytes of the file.
    pub fn file(&self) -> Vec<u8> {
        let setting: Vec<_> = (self.setting_numbers().into_iter())
            .map(|n| number(n.into()).to_vec())
            .collect();
        let bookings: Vec<_> = self.bookings.iter().map(Booked::bytes).collect();
        let polls: Vec<_> = self.polls.values().map(Polled::bytes).collect();
        let mut sections = vec![section(&setting), section(&bookings), section(&polls)];
        if let Some(marks) = &self.marks {
            let marks: Vec<_> = marks.iter().map(|&b| number(b).to_vec()).collect();
            sections.push(section(&marks));
        }
        sections.concat()
    }
}

impl Booked {
    fn bytes(&self) -> Vec<u8> {
        let mut bytes = self.name.to_be_bytes().to_vec();
        bytes.extend(number(self.slot.into()));
        bytes.extend(number(self.parents.len()));
        bytes.extend(self.parents.iter().flat_map(|&parent| number(parent)));
        bytes
    }
}

impl Polled {
    fn bytes(&self) -> Vec<u8> {
        [number(self.booking), number(self.is_success.into())].concat()
    }
}

/// How many items, then each of them.
fn section(items: &[Vec<u8>]) -> Vec<u8> {
    let mut bytes = number(items.len()).to_vec();
    bytes.extend(items.concat());
    bytes
}

/// Two bytes, the high one first.
fn number(n: usize) -> [u8; 2] {
    u16::try_from(n)
        .expect("no number of a ledger is longer than a word")
        .to_be_bytes()
}

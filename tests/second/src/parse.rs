//! The bytes of a day file back to the day that they say.
//!
//! The bytes are taken off the front, one item after the other. Nothing is
//! known here of what a ledger allows: whether such a day can be is for
//! `replay` to find out.

use crate::day::{Booked, Day, Polled};
use crate::form::Form;
use crate::setting::Setting;

/// The day that the bytes say, if they are the sections of the form and
/// nothing more.
pub fn parse(file: &[u8], form: Form) -> Option<Day> {
    let mut rest = Rest(file);
    let setting = rest.section(Rest::number)?;
    let bookings = rest.section(Rest::booking)?;
    let polls = rest.section(Rest::poll)?;
    let marks = match form {
        Form::First => None,
        Form::Second => Some(rest.section(Rest::booked)?),
    };
    let (numbers, edition) = match setting[..] {
        [k, a, beta1, beta2] => ([k, a, beta1, beta2], 0),
        [k, a, beta1, beta2, edition] => ([k, a, beta1, beta2], edition),
        _ => return None,
    };
    let [k, a, beta1, beta2] = numbers;
    rest.0.is_empty().then(|| Day {
        setting: Setting {
            k,
            a,
            beta1,
            beta2,
            edition,
        },
        bookings,
        polls: (1..).zip(polls).collect(),
        marks,
    })
}

/// The bytes that are left.
struct Rest<'a>(&'a [u8]);

impl Rest<'_> {
    /// A count, and so many items. As soon as one is cut off, all are.
    fn section<T>(&mut self, item: fn(&mut Self) -> Option<T>) -> Option<Vec<T>> {
        let count = self.number()?;
        (0..count).map(|_| item(self)).collect()
    }

    fn booking(&mut self) -> Option<Booked> {
        Some(Booked {
            name: u64::from_be_bytes(self.bytes()?),
            slot: self.number()?,
            parents: self.section(Rest::booked)?,
        })
    }

    fn poll(&mut self) -> Option<Polled> {
        let booking = self.booked()?;
        let is_success = match self.number()? {
            0 => false,
            1 => true,
            _ => return None,
        };
        Some(Polled {
            booking,
            is_success,
        })
    }

    /// The number of a booking.
    fn booked(&mut self) -> Option<usize> {
        self.number().map(usize::from)
    }

    /// Two bytes, the high one first.
    fn number(&mut self) -> Option<u16> {
        self.bytes().map(u16::from_be_bytes)
    }

    fn bytes<const COUNT: usize>(&mut self) -> Option<[u8; COUNT]> {
        let (front, rest) = self.0.split_first_chunk()?;
        self.0 = rest;
        Some(*front)
    }
}

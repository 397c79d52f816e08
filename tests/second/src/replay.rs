//! The ledger that a day leads to: an opening, all bookings and then all
//! polls, as a station would make them. Where the day tells marks, those stand
//! instead of the ones that the polls have given.

use crate::day::Day;
use crate::ledger::{Ledger, GENESIS};
use std::collections::BTreeSet;

/// Nothing if some call on the way is refused, or the marks are not good.
pub fn replay(day: &Day) -> Option<Ledger> {
    let mut ledger = Ledger::open(day.setting).ok()?;
    for booked in &day.bookings {
        let parents = booked.parents.iter().map(|&number| name(&ledger, number));
        let parents: Vec<u64> = parents.collect::<Option<_>>()?;
        ledger.book(booked.name, booked.slot, &parents).ok()?;
    }
    for polled in day.polls.values() {
        let name = name(&ledger, polled.booking)?;
        // All stations said yes, or none was heard.
        let votes = vec![u8::from(polled.is_success); day.setting.k.into()];
        ledger.poll(name, &votes).ok()?;
    }
    if let Some(marks) = &day.marks {
        mark(&mut ledger, marks)?;
    }
    Some(ledger)
}

/// These are marked and nobody else, whoever has earned it. They must rise,
/// start with the genesis, be booked, and no two may be of one slot.
fn mark(ledger: &mut Ledger, marks: &[usize]) -> Option<()> {
    let slot = |&b: &usize| Some(ledger.bookings.get(b)?.slot);
    let slots: BTreeSet<u16> = marks.iter().map(slot).collect::<Option<_>>()?;
    let is_rising = marks.windows(2).all(|pair| pair[0] < pair[1]);
    let is_good = is_rising && marks.first() == Some(&GENESIS) && slots.len() == marks.len();
    for (b, booking) in ledger.bookings.iter_mut().enumerate() {
        booking.is_marked = marks.contains(&b);
    }
    is_good.then_some(())
}

/// The name of a booking, if it is there by now.
fn name(ledger: &Ledger, number: usize) -> Option<u64> {
    let booking = ledger.bookings.get(number)?;
    Some(booking.name)
}

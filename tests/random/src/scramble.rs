//! Sound ledgers that no history reaches.
//!
//! Names, slots and parents stay as they grew. Everything that the votes
//! have written is drawn anew, as freely as soundness allows.

use crate::prng::Prng;
use second::ledger::{Ledger, State};

pub fn scramble(prng: &mut Prng, ledger: &mut Ledger) {
    scramble_polls(prng, ledger);
    scramble_confidences(prng, ledger);
    scramble_slots(prng, ledger);
    scramble_marks(prng, ledger);
}

/// Any bookings polled, in any order, with any outcome.
fn scramble_polls(prng: &mut Prng, ledger: &mut Ledger) {
    let polled_percent = prng.pick(&[0, 20, 60, 95, 100]);
    let chit_percent = prng.pick(&[10, 50, 90, 100]);
    let mut polled: Vec<usize> = (1..ledger.bookings.len())
        .filter(|_| prng.chance(polled_percent))
        .collect();
    prng.shuffle(&mut polled);
    for booking in &mut ledger.bookings[1..] {
        booking.state = State::Waiting;
        booking.ordinal = 0;
    }
    for (before, &b) in polled.iter().enumerate() {
        let is_chit = prng.chance(chit_percent);
        ledger.bookings[b].state = if is_chit { State::Chit } else { State::Polled };
        ledger.bookings[b].ordinal = before as u16 + 1;
    }
    ledger.polls = polled.len() as u16;
}

/// The number of chits, which no confidence and no counter exceeds.
fn chits(ledger: &Ledger) -> u16 {
    let is_chit = |state| state == State::Chit;
    (ledger.bookings.iter())
        .filter(|booking| is_chit(booking.state))
        .count() as u16
}

/// Any confidences: all alike, at an end, close together, or anywhere.
fn scramble_confidences(prng: &mut Prng, ledger: &mut Ledger) {
    let chits = chits(ledger);
    let (low, high) = any_range(prng, chits);
    for booking in &mut ledger.bookings {
        booking.confidence = prng.word(low, high);
    }
}

fn any_range(prng: &mut Prng, chits: u16) -> (u16, u16) {
    match prng.below(4) {
        0 => (0, chits),
        1 => (chits, chits),
        2 => (chits.saturating_sub(1), chits),
        _ => (0, chits.min(2)),
    }
}

/// Any booking of the slot preferred, any last, any counter.
fn scramble_slots(prng: &mut Prng, ledger: &mut Ledger) {
    let chits = chits(ledger);
    let (low, high) = any_range(prng, chits);
    for slot in ledger.slots.values_mut() {
        slot.preferred = prng.pick(&slot.bookings);
        slot.last = if prng.chance(60) {
            slot.preferred
        } else {
            prng.pick(&slot.bookings)
        };
        slot.counter = prng.word(low, high);
    }
}

/// Any one booking of a slot marked, or none, earned or not. The genesis is.
pub fn scramble_marks(prng: &mut Prng, ledger: &mut Ledger) {
    let percent = prng.pick(&[0, 20, 60, 100]);
    for booking in &mut ledger.bookings[1..] {
        booking.is_marked = false;
    }
    for slot in ledger.slots.values() {
        if prng.chance(percent) {
            let b = prng.pick(&slot.bookings);
            ledger.bookings[b].is_marked = true;
        }
    }
}

#[cfg(test)]
mod tests {
    use super::*;
    use crate::grow::{any_size, grow, words_of, Style};
    use second::codec::decode;

    #[test]
    fn scrambled_ledgers_are_sound() {
        let mut prng = Prng::new(1);
        let (mut unearned, mut passed_over) = (0, 0);
        for run in 0..200 {
            let style = Style::any(&mut prng);
            let n = any_size(&mut prng, run);
            let mut ledger = grow(&mut prng, style, n).ledger;
            scramble(&mut prng, &mut ledger);
            for (b, booking) in ledger.bookings.iter().enumerate() {
                unearned += usize::from(booking.is_marked && !ledger.earns_mark(b));
                passed_over += usize::from(!booking.is_marked && ledger.earns_mark(b));
            }
            assert_eq!(decode(&words_of(&ledger)), Ok(ledger));
        }
        // Neither marks that nobody earned nor those left out are few.
        assert!(unearned > 500 && passed_over > 500);
    }
}

//! Words to a ledger and back.

use crate::layout::*;
use crate::ledger::{Booking, Ledger, Slot, State};
use crate::setting::Setting;
use crate::sound::{judge, Damage};
use std::collections::{BTreeMap, HashMap};

/// The ledger that a workspace's words hold, exactly if they are sound;
/// otherwise what is broken. The length is the caller's to judge.
pub fn decode(ws: &[u16]) -> Result<Ledger, Damage> {
    let damage = judge(ws);
    if damage.lowest().is_some() {
        return Err(damage);
    }
    Ok(ledger_of(ws))
}

/// The ledger that sound words hold.
pub fn ledger_of(ws: &[u16]) -> Ledger {
    let bookings: Vec<Booking> = (0..usize::from(ws[N]))
        .map(|b| booking_of(&ws[record(b)..record(b + 1)]))
        .collect();
    let mut numbers = HashMap::with_capacity(bookings.len());
    let mut slots = BTreeMap::new();
    for (b, booking) in bookings.iter().enumerate() {
        numbers.insert(booking.name, b);
        let words = &ws[entry(usize::from(booking.slot))..];
        slots
            .entry(booking.slot)
            .or_insert_with(|| Slot {
                preferred: usize::from(words[PREFERRED]),
                last: usize::from(words[LAST]),
                counter: words[COUNTER],
                bookings: Vec::new(),
            })
            .bookings
            .push(b);
    }
    Ledger {
        setting: Setting::of_words(ws),
        polls: ws[P],
        bookings,
        numbers,
        slots,
    }
}

fn booking_of(words: &[u16]) -> Booking {
    let places = &words[PARENT..STATE];
    let parents = places.iter().filter(|&&parent| parent != UNUSED);
    Booking {
        name: name_of(&words[NAME..SLOT]),
        slot: words[SLOT],
        parents: parents.map(|&parent| usize::from(parent)).collect(),
        state: match words[STATE] {
            0 => State::Waiting,
            1 => State::Polled,
            2 => State::Chit,
            3..=u16::MAX => unreachable!("sound words have no such state"),
        },
        confidence: words[CONFIDENCE],
        ordinal: words[ORDINAL],
        is_marked: words[MARK] == 1,
    }
}

/// Writes every word of the workspace.
pub fn encode(ledger: &Ledger, ws: &mut [u16]) {
    ws.fill(0);
    ws[N] = ledger.bookings.len() as u16;
    ws[K] = ledger.setting.k;
    ws[A] = ledger.setting.a;
    ws[BETA1] = ledger.setting.beta1;
    ws[BETA2] = ledger.setting.beta2;
    ws[P] = ledger.polls;
    ws[EDITION] = ledger.setting.edition;
    for (b, booking) in ledger.bookings.iter().enumerate() {
        let words = &mut ws[record(b)..record(b + 1)];
        words[NAME..SLOT].copy_from_slice(&name_words(booking.name));
        words[SLOT] = booking.slot;
        words[PARENT..STATE].fill(UNUSED);
        for (place, &parent) in words[PARENT..STATE].iter_mut().zip(&booking.parents) {
            *place = parent as u16;
        }
        words[STATE] = booking.state as u16;
        words[CONFIDENCE] = booking.confidence;
        words[ORDINAL] = booking.ordinal;
        words[MARK] = booking.is_marked.into();
    }
    for s in 0..SLOTS {
        let words = match ledger.slots.get(&(s as u16)) {
            None => EMPTY_ENTRY,
            Some(slot) => [
                slot.preferred as u16,
                slot.last as u16,
                slot.counter,
                slot.bookings.len() as u16,
            ],
        };
        ws[entry(s)..entry(s + 1)].copy_from_slice(&words);
    }
}

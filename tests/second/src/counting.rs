//! What a call may do to counters, checked from outside.
//!
//! The words before a taken poll are held against those after it. No member
//! is gone through in turn: who of an ancestry stands in a slot says by itself
//! who is last there and what the counter is.

use crate::laws::{holds, Breach, Law};
use crate::layout::*;
use std::collections::{BTreeMap, BTreeSet};

/// Last and counter of every slot after a taken poll of this booking.
pub fn check_poll(before: &[u16], after: &[u16], polled: usize) -> Result<(), Breach> {
    let is_success = after[record(polled) + STATE] == 2;
    let met = met(before, polled);
    for s in 0..SLOTS {
        let [old, new] = [before, after].map(|ws| &ws[entry(s)..entry(s + 1)]);
        let (last, counter) = (old[LAST], old[COUNTER]);
        let meant = match met.get(&s).map(|members| &members[..]) {
            None => [last, counter],
            Some(_) if !is_success && before[EDITION] == 1 => [last, 0],
            Some(_) if !is_success => [last, counter],
            Some(&[only]) if only == last => [last, counter + 1],
            // Whoever comes last in the slot was not last before it.
            Some(members) => [members[members.len() - 1], before[EDITION]],
        };
        let found = [new[LAST], new[COUNTER]];
        holds(found == meant, Law::Counted, || {
            format!("slot {s} has last and counter {found:?}, not {meant:?}")
        })?;
    }
    check_edition(before, after)
}

/// A taken booking leaves every counter; in an empty slot it starts at 0.
pub fn check_booking(before: &[u16], after: &[u16]) -> Result<(), Breach> {
    for s in 0..SLOTS {
        let counter = after[entry(s) + COUNTER];
        holds(counter == before[entry(s) + COUNTER], Law::Counted, || {
            format!("slot {s} has counter {counter} after a booking")
        })?;
    }
    check_edition(before, after)
}

fn check_edition(before: &[u16], after: &[u16]) -> Result<(), Breach> {
    holds(before[EDITION] == after[EDITION], Law::Counted, || {
        format!("the edition has become {}", after[EDITION])
    })
}

/// The slots that an ancestry stands in, each with its members in rising
/// number.
fn met(ws: &[u16], polled: usize) -> BTreeMap<usize, Vec<u16>> {
    let mut ancestry = BTreeSet::from([polled]);
    for m in (0..=polled).rev() {
        if ancestry.contains(&m) {
            let places = &ws[record(m) + PARENT..record(m) + STATE];
            let parents = places.iter().filter(|&&parent| parent != UNUSED);
            ancestry.extend(parents.map(|&parent| usize::from(parent)));
        }
    }
    let mut slots: BTreeMap<usize, Vec<u16>> = BTreeMap::new();
    for m in ancestry {
        let s = usize::from(ws[record(m) + SLOT]);
        slots.entry(s).or_default().push(m as u16);
    }
    slots
}

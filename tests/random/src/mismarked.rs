//! The marks with errors planted, for `planted`. Each gives most of them as
//! they are.

use crate::miscounted::{is_enough, Bound};
use crate::old_rule;
use crate::planted::Plant;
use second::ledger::{Ledger, GENESIS};
use std::collections::BTreeSet;

/// What an opening makes of marks.
pub fn open(plant: Option<Plant>, ledger: &mut Ledger) {
    if plant == Some(Plant::GenesisUnmarkedAtOpening) {
        ledger.bookings[GENESIS].is_marked = false;
    }
}

/// What a taken booking does to marks. It is the last.
pub fn book(plant: Option<Plant>, ledger: &mut Ledger) {
    let b = ledger.bookings.len() - 1;
    let slot = ledger.slot_of(b).bookings.clone();
    match plant {
        Some(Plant::MarkDroppedByRival) => {
            for rival in slot {
                ledger.bookings[rival].is_marked = false;
            }
        }
        Some(Plant::LoneMarkDroppedByRival) if slot.len() == 2 => {
            ledger.bookings[slot[0]].is_marked = false;
        }
        Some(Plant::MarksAfterBookingToo) => mark(plant, ledger, &ledger.ancestry(b)),
        _ => (),
    }
}

/// What a taken poll does to marks.
pub fn poll(plant: Option<Plant>, ledger: &mut Ledger, polled: usize, is_success: bool) {
    if plant == Some(Plant::FailedPollMarksNobody) && !is_success {
        return;
    }
    if plant == Some(Plant::MarksMadeAnew) {
        for booking in &mut ledger.bookings[1..] {
            booking.is_marked = false;
        }
    }
    mark(plant, ledger, &ledger.ancestry(polled));
}

/// The pass, after a poll or a booking with this ancestry.
fn mark(plant: Option<Plant>, ledger: &mut Ledger, ancestry: &BTreeSet<usize>) {
    let has = |other: Plant| plant == Some(other);
    let before: Vec<bool> = ledger.bookings.iter().map(|b| b.is_marked).collect();
    let by_old_rule = old_rule::accepted(ledger);
    for b in 1..ledger.bookings.len() {
        if has(Plant::MarksOnlyInAncestry) && !ancestry.contains(&b) {
            continue;
        }
        let is_accepted = |&parent: &usize| match plant {
            Some(Plant::AcceptedWithoutParents) => true,
            Some(Plant::ParentMarksOfPassUncounted) => before[parent],
            Some(Plant::ParentsByOldRule) => by_old_rule[parent],
            _ => ledger.bookings[parent].is_marked,
        };
        let slot = ledger.slot_of(b);
        let setting = ledger.setting;
        let is_own = slot.preferred == b && slot.last == b || has(Plant::AcceptedForBothRivals);
        let is_enough = |bound| is_enough(plant, &setting, bound, slot.counter);
        let by_beta2 = is_enough(Bound::Beta2) && is_own;
        let by_beta1 = is_enough(Bound::Beta1) && slot.bookings.len() == 1;
        let mut parents = ledger.bookings[b].parents.iter();
        let is_earned = by_beta2 || by_beta1 && parents.all(is_accepted);
        if !is_earned {
            continue;
        }
        let is_marked_rival = |&rival: &usize| rival != b && ledger.bookings[rival].is_marked;
        let rival = slot.bookings.iter().copied().find(is_marked_rival);
        let is_marked = match rival {
            None => true,
            Some(_) if has(Plant::TwoMarksInASlot) => true,
            Some(rival) if has(Plant::HigherMarkOverlooked) => rival > b,
            Some(rival) if has(Plant::OvertakerTakesMark) => {
                ledger.bookings[rival].is_marked = false;
                true
            }
            Some(_) => ledger.bookings[b].is_marked,
        };
        ledger.bookings[b].is_marked = is_marked;
    }
}

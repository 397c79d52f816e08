//! What is made of editions with errors planted, for `planted`. Each leaves
//! most of it as it is, and one edition always.

use crate::planted::Plant;
use second::ledger::{Ledger, GENESIS};
use second::setting::Setting;

/// The setting that an opening takes, where the words before had an edition.
pub fn opened(plant: Option<Plant>, setting: Setting, before: u16) -> Setting {
    let edition = match plant {
        Some(Plant::EditionAboveOneOpened) => setting.edition.min(Setting::LATER),
        Some(Plant::EditionInLowBits) => setting.edition % 256,
        Some(Plant::EditionByItsLowestBit) => setting.edition % 2,
        Some(Plant::EditionAboveOneIsFirst) if !setting.has_edition() => 0,
        Some(Plant::EditionLostAtOpening) if setting.is_later() => 0,
        Some(Plant::OpeningKeepsEdition) if setting.is_good() => before.min(Setting::LATER),
        _ => setting.edition,
    };
    Setting { edition, ..setting }
}

/// The counter of a slot whose last has changed, where it had this one.
pub fn restart(plant: Option<Plant>, setting: &Setting, counter: u16) -> u16 {
    match (plant, setting.is_later()) {
        (Some(Plant::NewLastUncountedInLater), true) => 0,
        (Some(Plant::CounterRisesAlsoForNewLast), false) => 1,
        (Some(Plant::CounterGoesOnInLater), true) => counter + 1,
        (Some(Plant::CounterKeptInLater), true) => counter.max(1),
        (_, is_later) => is_later.into(),
    }
}

/// Which bound a counter is held to.
#[derive(Clone, Copy, PartialEq, Eq)]
pub enum Bound {
    Beta1,
    Beta2,
}

pub fn is_enough(plant: Option<Plant>, setting: &Setting, bound: Bound, counter: u16) -> bool {
    let beta = match bound {
        Bound::Beta1 => setting.beta1,
        Bound::Beta2 => setting.beta2,
    };
    let is_turned = match (plant, setting.is_later()) {
        (Some(Plant::AboveBeta1InLater), true) => bound == Bound::Beta1,
        (Some(Plant::AboveBeta2InLater), true) => bound == Bound::Beta2,
        (Some(Plant::AtLeastBeta1InFirst), false) => bound == Bound::Beta1,
        (Some(Plant::AtLeastBeta2InFirst), false) => bound == Bound::Beta2,
        _ => false,
    };
    counter > beta || counter == beta && setting.is_later() != is_turned
}

/// What failure brings to the ancestry of a booking.
pub fn fail(plant: Option<Plant>, ledger: &mut Ledger, b: usize) {
    let has = |other: Plant| plant == Some(other);
    let clears = match ledger.setting.is_later() {
        true => !has(Plant::FailureClearsNothing),
        false => has(Plant::FailureClearsInFirst),
    };
    if !clears {
        return;
    }
    let own = ledger.bookings[b].slot;
    let near = ledger.bookings[b].parents.clone();
    let ancestry = ledger.ancestry(b);
    for &m in &ancestry {
        let s = ledger.bookings[m].slot;
        let slot = ledger.slots.get_mut(&s).expect("a booking is there");
        let is_left = match plant {
            Some(Plant::FailureLeavesSlot0) => m == GENESIS,
            Some(Plant::FailureLeavesOwnSlot) => s == own,
            Some(Plant::FailureClearsOwnSlotOnly) => s != own,
            Some(Plant::FailureClearsUpToParents) => m != b && !near.contains(&m),
            Some(Plant::FailureClearsWhereLast) => slot.last != m,
            Some(Plant::FailureClearsWherePreferred) => slot.preferred != m,
            Some(Plant::FailureClearsLoneBookings) => slot.bookings.len() > 1,
            _ => false,
        };
        if is_left {
            continue;
        }
        slot.counter = match plant {
            Some(Plant::FailureLowersByOne) => slot.counter.saturating_sub(1),
            Some(Plant::FailureClearsToOne) => slot.counter.min(1),
            _ => 0,
        };
        if has(Plant::FailureMovesLast) {
            slot.last = m;
        }
        if has(Plant::FailureUnmarks) && m != GENESIS {
            ledger.bookings[m].is_marked = false;
        }
        if has(Plant::FailureLowersConfidence) {
            let confidence = &mut ledger.bookings[m].confidence;
            *confidence = confidence.saturating_sub(1);
        }
    }
    if has(Plant::FailureClearsAllSlots) {
        ledger.slots.values_mut().for_each(|slot| slot.counter = 0);
    }
}

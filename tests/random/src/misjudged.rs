//! The test of soundness with errors planted, for `planted`. Each leaves most
//! of the verdict as it is, and charges or chooses something else at one
//! point.

use crate::planted::Plant;
use second::layout::*;
use second::refusal::Refusal;
use second::sound::{judge, Broken, Damage, Place};
use std::ops::Range;

/// The refusal that words are met with, if they are not taken for sound.
pub fn refusal(plant: Option<Plant>, ws: &[u16]) -> Option<Refusal> {
    let place = named(plant, &misjudge(plant, ws))?;
    Some(match (place, plant) {
        (Place::Record(row), Some(Plant::RecordsAndSlotsSwapped)) => Refusal::BrokenEntry(row),
        (Place::Slot(row), Some(Plant::RecordsAndSlotsSwapped)) => Refusal::BrokenRecord(row),
        (Place::Record(_), Some(Plant::DamageWithoutRow)) => Refusal::BrokenRecord(0),
        (Place::Slot(_), Some(Plant::DamageWithoutRow)) => Refusal::BrokenEntry(0),
        _ => place.refusal(),
    })
}

/// The place that is named.
fn named(plant: Option<Plant>, damage: &Damage) -> Option<Place> {
    let places = || damage.0.iter().map(|&(place, _)| place);
    let is_record = |place: &Place| matches!(place, Place::Record(_));
    let is_slot = |place: &Place| matches!(place, Place::Slot(_));
    let lowest = damage.lowest()?;
    let chosen = match plant {
        Some(Plant::HighestRowNamed) if is_record(&lowest) => places().filter(is_record).max(),
        Some(Plant::HighestRowNamed) if is_slot(&lowest) => places().max(),
        Some(Plant::RecordsBeforeHeader) => places().find(is_record),
        Some(Plant::SlotsBeforeRecords) if is_record(&lowest) => places().find(is_slot),
        _ => None,
    };
    chosen.or(Some(lowest))
}

/// What is broken, as the plant sees it.
fn misjudge(plant: Option<Plant>, ws: &[u16]) -> Damage {
    let Damage(judged) = judge(ws);
    let charged = judged.iter().filter_map(|&(place, broken)| {
        let place = charged(plant, ws, place, broken)?;
        Some((place, broken))
    });
    let mut damage = Damage(charged.collect());
    if plant == Some(Plant::ChitsOfBrokenRecordsUncounted) && usize::from(ws[N]) <= BOOKINGS {
        let is_right = |b: usize| {
            let mut broken = judged.iter().filter(|breach| breach.0 == Place::Record(b));
            broken.all(|breach| breach.1 == Broken::ConfidenceAboveChits)
        };
        let chits = below_n(ws)
            .filter(|&b| ws[record(b) + STATE] == 2 && is_right(b))
            .count();
        let above = below_n(ws).filter(|&b| usize::from(ws[record(b) + CONFIDENCE]) > chits);
        let breach = |b| (Place::Record(b), Broken::ConfidenceAboveChits);
        damage.0.extend(above.map(breach));
    }
    if plant == Some(Plant::LaterEditionRefused) && ws[EDITION] == 1 {
        damage.0.insert((Place::Header, Broken::HeaderRestNotZero));
    }
    damage
}

/// Where the plant charges a broken sentence, if it notices it.
fn charged(plant: Option<Plant>, ws: &[u16], place: Place, broken: Broken) -> Option<Place> {
    let Some(plant) = plant else {
        return Some(place);
    };
    let n = usize::from(ws[N]);
    let name_holders = |b| holders(ws, b, NAME..SLOT);
    let ordinal_holders = |b| holders(ws, b, ORDINAL..MARK);
    let mark_holders = |b| -> Vec<usize> {
        let mut marked = holders(ws, b, SLOT..PARENT);
        marked.retain(|&holder| ws[record(holder) + MARK] == 1);
        marked
    };
    match (plant, broken, place) {
        (Plant::CounterBoundUntested, Broken::CounterAboveChits, _) => None,
        (Plant::EditionUntested, Broken::EditionOutside, _) => None,
        (Plant::EditionTwoUntested, Broken::EditionOutside, _) => {
            (ws[EDITION] != 2).then_some(place)
        }
        (Plant::EditionAmongRecords, Broken::EditionOutside, _) => Some(Place::Record(0)),
        (Plant::LastHeaderWordUntested, Broken::HeaderRestNotZero, _) => None,
        (Plant::LastHeaderWordIsEdition, Broken::HeaderRestNotZero, _) => {
            (ws[REST] != 1).then_some(place)
        }
        (Plant::MissingOrdinalUntested, Broken::OrdinalMissing, _) => None,
        (Plant::MissingOrdinalOfFullUntested, Broken::OrdinalMissing, Place::Record(BOOKINGS)) => {
            None
        }
        (Plant::MissingOrdinalAtLastRecord, Broken::OrdinalMissing, _) => {
            Some(Place::Record(n - 1))
        }
        (Plant::PollsJudgedAmongRecords, Broken::PollsAboveBookings, _) => Some(Place::Record(n)),
        (Plant::UnusedRecordsChargedToN, Broken::UnusedRecordNotZero, _) => Some(Place::Record(n)),
        (Plant::NameChargedToLowest, Broken::NameTwice, Place::Record(b)) => {
            name_holders(b).first().copied().map(Place::Record)
        }
        (Plant::NameChargedToHighest, Broken::NameTwice, Place::Record(b)) => {
            name_holders(b).last().copied().map(Place::Record)
        }
        (Plant::OrdinalChargedToLowest, Broken::OrdinalTwice, Place::Record(b)) => {
            ordinal_holders(b).first().copied().map(Place::Record)
        }
        // The lowest of several holders is let off.
        (Plant::OrdinalAboveChargedToOthers, Broken::OrdinalAbovePolls, Place::Record(b)) => {
            let holders = ordinal_holders(b);
            (holders.len() == 1 || holders[0] != b).then_some(place)
        }
        (Plant::MarkOutsideUntested, Broken::MarkOutside, _) => None,
        (Plant::GenesisMarkUntested, Broken::GenesisUnmarked, _) => None,
        (Plant::MarkTwiceUntested, Broken::MarkTwice, _) => None,
        (Plant::UnusedMarkUntested, Broken::UnusedRecordNotZero, Place::Record(b)) => {
            let others = &ws[record(b)..record(b) + MARK];
            others.iter().any(|&word| word != 0).then_some(place)
        }
        (Plant::MarkChargedToLowest, Broken::MarkTwice, Place::Record(b)) => {
            mark_holders(b).first().copied().map(Place::Record)
        }
        (Plant::MarkChargedToHighest, Broken::MarkTwice, Place::Record(b)) => {
            mark_holders(b).last().copied().map(Place::Record)
        }
        (Plant::MarkTwiceAmongSlots, Broken::MarkTwice, Place::Record(b)) => {
            Some(Place::Slot(ws[record(b) + SLOT].into()))
        }
        (Plant::ConfidenceBoundAmongSlots, Broken::ConfidenceAboveChits, Place::Record(b)) => {
            let slot = usize::from(ws[record(b) + SLOT]);
            Some(Place::Slot(slot.min(SLOTS - 1)))
        }
        (Plant::CounterBoundAmongRecords, Broken::CounterAboveChits, Place::Slot(s)) => {
            let booking = below_n(ws).find(|&b| usize::from(ws[record(b) + SLOT]) == s);
            Some(Place::Record(booking.unwrap_or(0)))
        }
        _ => Some(place),
    }
}

/// The records below n that hold the same words as this one there, in rising
/// number.
fn holders(ws: &[u16], b: usize, words: Range<usize>) -> Vec<usize> {
    let held = |b: usize| &ws[record(b)..][words.clone()];
    below_n(ws)
        .filter(|&other| held(other) == held(b))
        .collect()
}

/// The numbers of the records in use, where n is a number of bookings.
fn below_n(ws: &[u16]) -> Range<usize> {
    0..usize::from(ws[N])
}

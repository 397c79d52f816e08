//! What a call may do to marks, checked from outside.
//!
//! The words before a taken call are held against those after it. No pass is
//! made again: parents have lower numbers and no mark is taken back, so the
//! marks after a poll show by themselves who had to be given one.

use crate::laws::{holds, Breach, Law};
use crate::layout::*;
use crate::ledger::GENESIS;

/// A taken opening marks the genesis and nobody else.
pub fn check_opening(after: &[u16]) -> Result<(), Breach> {
    for b in numbers(after) {
        let (is_marked, is_meant) = (is_marked(after, b), b == GENESIS);
        holds(is_marked || !is_meant, Law::MarkGiven, || {
            "the genesis has no mark after an opening".to_string()
        })?;
        holds(!is_marked || is_meant, Law::MarkEarned, || {
            format!("booking {b} has a mark after an opening")
        })?;
    }
    Ok(())
}

/// A taken booking leaves every mark as it is, and the new one has none.
pub fn check_booking(before: &[u16], after: &[u16]) -> Result<(), Breach> {
    check_lost(before, after)?;
    for b in newly_marked(before, after) {
        holds(false, Law::MarkEarned, || {
            format!("booking {b} has a mark that no poll gave")
        })?;
    }
    Ok(())
}

/// A taken poll gives marks to those that earn one where no rival has one,
/// and to all of them.
pub fn check_poll(before: &[u16], after: &[u16]) -> Result<(), Breach> {
    check_lost(before, after)?;
    let had_one = marked_slots(before);
    for b in newly_marked(before, after) {
        holds(earns(after, b), Law::MarkEarned, || {
            format!("booking {b} was marked and did not earn it")
        })?;
        holds(!had_one[slot(after, b)], Law::MarkEarned, || {
            format!("booking {b} was marked although a rival was")
        })?;
    }
    for b in numbers(after).filter(|&b| earns(after, b) && !is_marked(after, b)) {
        holds(had_one[slot(after, b)], Law::MarkGiven, || {
            format!("booking {b} earned a mark and has none, and no rival had one")
        })?;
    }
    Ok(())
}

fn check_lost(before: &[u16], after: &[u16]) -> Result<(), Breach> {
    for b in numbers(before).filter(|&b| is_marked(before, b)) {
        holds(is_marked(after, b), Law::AcceptedStays, || {
            format!("booking {b} has lost its mark")
        })?;
    }
    Ok(())
}

/// Those with a mark that they did not have, the new booking among them.
fn newly_marked<'a>(before: &'a [u16], after: &'a [u16]) -> impl Iterator<Item = usize> + 'a {
    let booked = usize::from(before[N]);
    let had_one = move |b: usize| b < booked && is_marked(before, b);
    numbers(after).filter(move |&b| is_marked(after, b) && !had_one(b))
}

/// Does a booking meet the rule, as these words stand?
fn earns(ws: &[u16], b: usize) -> bool {
    let words = &ws[record(b)..record(b + 1)];
    let entry = &ws[entry(slot(ws, b))..];
    let is_own = [entry[PREFERRED], entry[LAST]] == [b as u16; 2];
    let mut parents = words[PARENT..STATE].iter().filter(|&&p| p != UNUSED);
    // In the later edition a counter at a bound is as good as one above it.
    let counted = u32::from(entry[COUNTER]) + u32::from(ws[EDITION]);
    b == GENESIS
        || is_own && counted > ws[BETA2].into()
        || entry[COUNT] == 1
            && counted > ws[BETA1].into()
            && parents.all(|&parent| is_marked(ws, parent.into()))
}

/// Which slots have a mark.
fn marked_slots(ws: &[u16]) -> [bool; SLOTS] {
    let mut slots = [false; SLOTS];
    for b in numbers(ws).filter(|&b| is_marked(ws, b)) {
        slots[slot(ws, b)] = true;
    }
    slots
}

fn numbers(ws: &[u16]) -> std::ops::Range<usize> {
    0..usize::from(ws[N])
}

pub fn is_marked(ws: &[u16], b: usize) -> bool {
    ws[record(b) + MARK] == 1
}

fn slot(ws: &[u16], b: usize) -> usize {
    usize::from(ws[record(b) + SLOT])
}

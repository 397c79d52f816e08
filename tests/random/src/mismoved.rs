//! The moves between the forms with errors planted, for `planted`. Each moves
//! most files as they are to be.

use crate::misread;
use crate::miswritten;
use crate::old_rule;
use crate::planted::Plant;
use second::form::Form;
use second::ledger::{Ledger, GENESIS};
use second::refusal::Refusal;

/// A file of this form as one of the other, at the front of the buffer; gives
/// its length.
pub fn moved(
    plant: Option<Plant>,
    form: Form,
    file: &mut [u8],
    out: &mut [u8],
) -> Result<i64, Refusal> {
    let has = |other: Plant| plant == Some(other);
    if has(Plant::RoomBeforeBadFile) && out.len() < form.other().shortest() {
        return Err(Refusal::Room);
    }
    let moved = other_form(plant, form, file, out)?;
    let (length, room) = (moved.len(), out.len());
    if room < length || room == length && has(Plant::JustEnoughForMoveRefused) {
        if has(Plant::ShortMoveBegun) {
            out.copy_from_slice(&moved[..room]);
        }
        return Err(Refusal::Room);
    }
    out[..length].copy_from_slice(&moved);
    if has(Plant::RestClearedByMove) {
        out[length..].fill(0);
    }
    if has(Plant::MoveChangesFile) {
        file[0] = 1;
    }
    Ok(match plant {
        Some(Plant::MoveHasInputLength) => file.len() as i64,
        Some(Plant::MoveHasNoValue) => 0,
        _ => length as i64,
    })
}

/// What is to be written.
fn other_form(
    plant: Option<Plant>,
    form: Form,
    file: &[u8],
    out: &mut [u8],
) -> Result<Vec<u8>, Refusal> {
    let has = |other: Plant| plant == Some(other);
    let read = misread::read(plant, form, file);
    if read.is_err() && has(Plant::EitherFormMoved) {
        misread::read(None, form.other(), file)?;
        return Ok(file.to_vec());
    }
    if read.is_err() && has(Plant::OtherMarksBeforeBadFile) && form == Form::Second {
        let (front, at) = misread::read_front(file)?;
        let told: Vec<usize> = (file[at..].chunks_exact(2).skip(1))
            .map(|pair| u16::from_be_bytes([pair[0], pair[1]]).into())
            .collect();
        if told != front.marked() {
            return Err(Refusal::OtherMarks);
        }
    }
    let mut ledger = read?;
    if form == Form::First {
        mark(plant, &mut ledger);
        return Ok(miswritten::file(plant, Form::Second, &ledger));
    }
    let first = miswritten::file(None, Form::First, &ledger);
    if has(Plant::RoomBeforeOtherMarks) && out.len() < first.len() {
        return Err(Refusal::Room);
    }
    let (front, _) = misread::read_front(file)?;
    if !is_same(plant, &front.marked(), &ledger.marked()) {
        if has(Plant::OtherMarksMovedAnyway) && out.len() >= first.len() {
            out[..first.len()].copy_from_slice(&first);
        }
        return Err(Refusal::OtherMarks);
    }
    Ok(match plant {
        Some(Plant::SectionKeptMovingBack) => file.to_vec(),
        _ => first,
    })
}

/// The marks that a first form gets.
fn mark(plant: Option<Plant>, ledger: &mut Ledger) {
    let numbers = 0..ledger.bookings.len();
    let marks: Vec<bool> = match plant {
        Some(Plant::GenesisAloneMoved) => numbers.map(|b| b == GENESIS).collect(),
        Some(Plant::MarksByOldRuleMoved) => old_rule::accepted(ledger),
        Some(Plant::PreferredMoved) => numbers.map(|b| ledger.is_preferred(b)).collect(),
        _ => return,
    };
    for (booking, is_marked) in ledger.bookings.iter_mut().zip(marks) {
        booking.is_marked = is_marked;
    }
}

/// Are the marks of the reading those that the file tells?
fn is_same(plant: Option<Plant>, read: &[usize], told: &[usize]) -> bool {
    match plant {
        Some(Plant::OtherMarksDropped) => true,
        Some(Plant::LostMarksAloneCompared) => told.iter().all(|b| read.contains(b)),
        Some(Plant::NewMarksAloneCompared) => read.iter().all(|b| told.contains(b)),
        Some(Plant::MarksComparedByCount) => read.len() == told.len(),
        _ => read == told,
    }
}

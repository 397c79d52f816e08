//! The index of names with errors planted, for `planted`. Each finds most
//! names, and leaves most cells as they are.

use crate::call::Indexing;
use crate::planted::Plant;
use second::index::{CELLS, EMPTY};
use second::ledger::Ledger;
use second::refusal::Refusal;

/// Is this as many cells as an index has?
pub fn judge_length(plant: Option<Plant>, cells: &[u16]) -> Result<(), Refusal> {
    let is_taken = match plant {
        Some(Plant::LongerIndexTaken) => cells.len() >= CELLS,
        Some(Plant::IndexLengthInSixteenBits) => cells.len() % 65_536 == CELLS,
        _ => cells.len() == CELLS,
    };
    is_taken.then_some(()).ok_or(Refusal::IndexLength)
}

/// A call on an index of 1,024 cells, or of more that are taken for it.
pub fn call(
    plant: Option<Plant>,
    ledger: &Ledger,
    cells: &mut [u16],
    asked: Indexing,
) -> Result<i64, Refusal> {
    let mut index = Misindexed {
        plant,
        ledger,
        cells: &mut cells[..CELLS],
    };
    let newest = ledger.bookings.len() - 1;
    match asked {
        Indexing::Build => index.build(),
        Indexing::Enter => index.enter(newest),
        Indexing::Find(name) => index.find(name),
    }
}

struct Misindexed<'a> {
    plant: Option<Plant>,
    ledger: &'a Ledger,
    cells: &'a mut [u16],
}

impl Misindexed<'_> {
    fn has(&self, plant: Plant) -> bool {
        self.plant == Some(plant)
    }

    fn build(&mut self) -> Result<i64, Refusal> {
        if !self.has(Plant::BuildKeepsOld) {
            self.cells.fill(EMPTY);
        }
        let n = self.ledger.bookings.len();
        let mut numbers: Vec<usize> = (0..n).collect();
        if self.has(Plant::BuildInFallingOrder) {
            numbers.reverse();
        }
        if self.has(Plant::GenesisNotBuilt) {
            numbers.remove(0);
        }
        for number in numbers {
            let cell = self.room(number)?;
            self.cells[cell] = number as u16;
        }
        Ok(if self.has(Plant::BuildCounts) {
            n as i64
        } else {
            0
        })
    }

    fn enter(&mut self, newest: usize) -> Result<i64, Refusal> {
        let name = self.ledger.bookings[newest].name;
        if self.has(Plant::EnteringStopsAtName) && self.find(name).is_ok() {
            return Ok(0);
        }
        let room = self.room(newest);
        if room.is_err() && self.has(Plant::FullIndexOverwritten) {
            self.cells[self.home(name)] = newest as u16;
        }
        let cell = room?;
        let written = newest + usize::from(self.has(Plant::EntersN));
        self.cells[cell] = written as u16;
        Ok(if self.has(Plant::EnteringTellsCell) {
            cell as i64
        } else {
            0
        })
    }

    /// The cell that a number goes into.
    fn room(&self, number: usize) -> Result<usize, Refusal> {
        let is_free = |&cell: &usize| match self.plant {
            Some(Plant::UnusedNumberOverwritten) => !self.is_booked(self.cells[cell]),
            _ => self.cells[cell] == EMPTY,
        };
        let mut tried = self.tried(self.ledger.bookings[number].name);
        tried.find(is_free).ok_or(Refusal::IndexFull)
    }

    fn find(&mut self, name: u64) -> Result<i64, Refusal> {
        let booked = self.ledger.number(name);
        for cell in self.tried(name) {
            let number = self.cells[cell];
            if number == EMPTY && !self.has(Plant::EmptyCellPassedOver) {
                break;
            }
            if !self.is_booked(number) {
                // The record is all zero, as the name of the genesis is.
                let is_zero = usize::from(number) < second::layout::BOOKINGS && name == 0;
                if self.has(Plant::UnusedRecordFound) && is_zero {
                    return Ok(number.into());
                }
                if self.has(Plant::StopsAtUnusedNumber) && number != EMPTY {
                    break;
                }
                continue;
            }
            if booked == Ok(number.into()) || self.has(Plant::NamesUncompared) {
                if self.has(Plant::FoundMovesHome) {
                    self.cells.swap(cell, self.home(name));
                }
                return Ok(match self.plant {
                    Some(Plant::FindingTellsCell) => cell as i64,
                    _ => number.into(),
                });
            }
        }
        match booked {
            Ok(number) if self.has(Plant::FoundWithoutIndex) => Ok(number as i64),
            _ => Err(Refusal::NameUnknown),
        }
    }

    fn is_booked(&self, number: u16) -> bool {
        usize::from(number) < self.ledger.bookings.len()
    }

    fn home(&self, name: u64) -> usize {
        let bytes = match self.plant {
            Some(Plant::HashedLowestByteFirst) => name.to_le_bytes(),
            Some(Plant::HighHalfUnhashed) => (name as u32 as u64).to_be_bytes(),
            _ => name.to_be_bytes(),
        };
        let mut hash: u32 = 2_166_136_261;
        for byte in bytes {
            hash = match self.plant {
                Some(Plant::MultipliedBeforeXor) => hash.wrapping_mul(16_777_619) ^ u32::from(byte),
                _ => (hash ^ u32::from(byte)).wrapping_mul(16_777_619),
            };
        }
        hash as usize % CELLS
    }

    /// The cells that are tried for a name, in their order.
    fn tried(&self, name: u64) -> impl Iterator<Item = usize> {
        let home = self.home(name);
        let count = match self.plant {
            Some(Plant::NoWayRound) => CELLS - home,
            Some(Plant::LastCellUntried) => CELLS - 1,
            _ => CELLS,
        };
        let is_down = self.has(Plant::ProbedDownwards);
        (0..count).map(move |step| match is_down {
            true => (home + CELLS - step) % CELLS,
            false => (home + step) % CELLS,
        })
    }
}

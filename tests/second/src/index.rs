//! The index of names beside a ledger.
//!
//! It has 1,024 cells, and knows nothing of the ledger but numbers. A name is
//! looked for from its home on, up and round; so is the room for a number.

use crate::ledger::Ledger;
use crate::refusal::Refusal;

/// The length of an index.
pub const CELLS: usize = 1024;
/// Stands in a cell that holds no number.
pub const EMPTY: u16 = 65535;

/// The 32-bit FNV-1a hash of some bytes.
pub fn fnv1a(bytes: &[u8]) -> u32 {
    bytes.iter().fold(2_166_136_261, |hash, &byte| {
        (hash ^ u32::from(byte)).wrapping_mul(16_777_619)
    })
}

/// The cell where probing for a name starts.
pub fn home(name: u64) -> usize {
    fnv1a(&name.to_be_bytes()) as usize % CELLS
}

/// Every cell once, in the order in which a name meets them.
pub fn probed(name: u64) -> impl Iterator<Item = usize> {
    (home(name)..CELLS).chain(0..home(name))
}

/// The empty index with every booking entered, whatever was there.
pub fn build(ledger: &Ledger, cells: &mut [u16]) {
    cells.fill(EMPTY);
    for number in 0..ledger.bookings.len() {
        put(ledger, cells, number).expect("there are more cells than bookings");
    }
}

/// The newest booking, into the first cell that is empty.
pub fn enter(ledger: &Ledger, cells: &mut [u16]) -> Result<(), Refusal> {
    put(ledger, cells, ledger.bookings.len() - 1)
}

fn put(ledger: &Ledger, cells: &mut [u16], number: usize) -> Result<(), Refusal> {
    let mut probed = probed(ledger.bookings[number].name);
    let cell = probed
        .find(|&cell| cells[cell] == EMPTY)
        .ok_or(Refusal::IndexFull)?;
    cells[cell] = number as u16;
    Ok(())
}

/// The number that probing for a name meets before an empty cell. Numbers
/// that no booking has are met as those of other bookings are.
pub fn find(ledger: &Ledger, cells: &[u16], name: u64) -> Result<usize, Refusal> {
    let has_name = |&number: &usize| {
        let booking = ledger.bookings.get(number);
        booking.is_some_and(|booking| booking.name == name)
    };
    probed(name)
        .map(|cell| cells[cell])
        .take_while(|&number| number != EMPTY)
        .map(usize::from)
        .find(has_name)
        .ok_or(Refusal::NameUnknown)
}

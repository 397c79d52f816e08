//! The public calls on lent words: the number given back, and the value.
//!
//! Every call reads the words into a ledger, works there, and writes the
//! whole ledger back only when it was taken. So a refused call changes none.
//! Likewise a day file is whole before the first of its bytes is written, and
//! the ledger that a file leads to before the first word. A move needs no words.

use crate::codec::{encode, ledger_of};
use crate::day::Day;
use crate::form::Form;
use crate::index::{self, CELLS};
use crate::layout::WORDS;
use crate::ledger::{Ledger, Reading};
use crate::parse::parse;
use crate::refusal::Refusal;
use crate::replay::replay;
use crate::setting::Setting;
use crate::sound::judge;

/// A number, 0 for a taken call, and a value; a refusal's is 0 unless it
/// names a damaged row.
pub type Answer = (u32, i64);

fn answer(result: Result<i64, Refusal>) -> Answer {
    match result {
        Ok(value) => (0, value),
        Err(refusal) => (refusal.number(), refusal.value()),
    }
}

/// Refusals 1, 2, 14 and 15 come before all others.
fn load(ws: &[u16]) -> Result<Ledger, Refusal> {
    if ws.len() != WORDS {
        return Err(Refusal::Length);
    }
    match judge(ws).lowest() {
        Some(place) => Err(place.refusal()),
        None => Ok(ledger_of(ws)),
    }
}

/// Refusal 18 comes between the number of the words and what they hold.
fn load_beside(ws: &[u16], cells: &[u16]) -> Result<Ledger, Refusal> {
    if ws.len() == WORDS && cells.len() != CELLS {
        return Err(Refusal::IndexLength);
    }
    load(ws)
}

/// Opening looks at the length and the setting, never at the old words.
pub fn open(ws: &mut [u16], k: u16, a: u16, beta1: u16, beta2: u16, edition: u16) -> Answer {
    let setting = Setting {
        k,
        a,
        beta1,
        beta2,
        edition,
    };
    answer((|| {
        if ws.len() != WORDS {
            return Err(Refusal::Length);
        }
        encode(&Ledger::open(setting)?, ws);
        Ok(0)
    })())
}

pub fn book(ws: &mut [u16], name: u64, slot: u16, parents: &[u64]) -> Answer {
    change(ws, |ledger| ledger.book(name, slot, parents))
}

pub fn poll(ws: &mut [u16], name: u64, votes: &[u8]) -> Answer {
    change(ws, |ledger| ledger.poll(name, votes))
}

fn change(ws: &mut [u16], step: impl FnOnce(&mut Ledger) -> Result<(), Refusal>) -> Answer {
    answer((|| {
        let mut ledger = load(ws)?;
        step(&mut ledger)?;
        encode(&ledger, ws);
        Ok(0)
    })())
}

pub fn read(ws: &[u16], reading: Reading, name: u64) -> Answer {
    answer(load(ws).and_then(|ledger| ledger.read(reading, name)))
}

pub fn query(ws: &[u16], name: u64) -> Answer {
    read(ws, Reading::Query, name)
}

pub fn accepted(ws: &[u16], name: u64) -> Answer {
    read(ws, Reading::Accepted, name)
}

pub fn lead(ws: &[u16], name: u64) -> Answer {
    read(ws, Reading::Lead, name)
}

pub fn confidence(ws: &[u16], name: u64) -> Answer {
    read(ws, Reading::Confidence, name)
}

pub fn size(ws: &[u16], name: u64) -> Answer {
    read(ws, Reading::Size, name)
}

pub fn write_first(ws: &[u16], out: &mut [u8]) -> Answer {
    write_file(ws, Form::First, out)
}

pub fn write_second(ws: &[u16], out: &mut [u8]) -> Answer {
    write_file(ws, Form::Second, out)
}

/// The day file at the front of the buffer; the value is its length.
pub fn write_file(ws: &[u16], form: Form, out: &mut [u8]) -> Answer {
    answer(load(ws).and_then(|ledger| put(&Day::of(&ledger, form).file(), out)))
}

fn put(file: &[u8], out: &mut [u8]) -> Result<i64, Refusal> {
    let front = out.get_mut(..file.len()).ok_or(Refusal::Room)?;
    front.copy_from_slice(file);
    Ok(file.len() as i64)
}

pub fn read_first(ws: &mut [u16], file: &[u8]) -> Answer {
    read_file(ws, Form::First, file)
}

pub fn read_second(ws: &mut [u16], file: &[u8]) -> Answer {
    read_file(ws, Form::Second, file)
}

/// The words become those of the ledger that the file leads to. As in an
/// opening, the old words are not looked at.
pub fn read_file(ws: &mut [u16], form: Form, file: &[u8]) -> Answer {
    answer((|| {
        if ws.len() != WORDS {
            return Err(Refusal::Length);
        }
        let ledger = handed_over(file, form).ok_or(Refusal::File)?;
        encode(&ledger, ws);
        Ok(0)
    })())
}

pub fn move_first(file: &[u8], out: &mut [u8]) -> Answer {
    move_file(Form::First, file, out)
}

pub fn move_second(file: &[u8], out: &mut [u8]) -> Answer {
    move_file(Form::Second, file, out)
}

/// A file of this form as one of the other, at the front of the buffer; the
/// value is the length there. The first form cannot tell marks that its
/// reading would not give.
pub fn move_file(form: Form, file: &[u8], out: &mut [u8]) -> Answer {
    answer((|| {
        let ledger = handed_over(file, form).ok_or(Refusal::File)?;
        let moved = Day::of(&ledger, form.other()).file();
        if form == Form::Second {
            let read = handed_over(&moved, Form::First).expect("its sections are good");
            if read.marked() != ledger.marked() {
                return Err(Refusal::OtherMarks);
            }
        }
        put(&moved, out)
    })())
}

/// The ledger of a file, if a writer could have left it: the day that it says
/// can be lived through, and its file is this one, to the last byte.
fn handed_over(file: &[u8], form: Form) -> Option<Ledger> {
    let day = parse(file, form)?;
    let ledger = replay(&day)?;
    (Day::of(&ledger, form).file() == file).then_some(ledger)
}

/// The cells become the index of the ledger. What they held is not looked at.
pub fn index_build(ws: &[u16], cells: &mut [u16]) -> Answer {
    answer(load_beside(ws, cells).map(|ledger| {
        index::build(&ledger, cells);
        0
    }))
}

/// The newest booking goes into the index.
pub fn index_enter(ws: &[u16], cells: &mut [u16]) -> Answer {
    answer(load_beside(ws, cells).and_then(|ledger| {
        index::enter(&ledger, cells)?;
        Ok(0)
    }))
}

/// The number of the booking with this name, by the index alone.
pub fn index_find(ws: &[u16], cells: &[u16], name: u64) -> Answer {
    answer(load_beside(ws, cells).and_then(|ledger| {
        let number = index::find(&ledger, cells, name)?;
        Ok(number as i64)
    }))
}

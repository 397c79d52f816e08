//! A call that shows something on a given ledger: one meant to be taken, or
//! one meant for a certain refusal.

use crate::call::{Buffer, Call, Cells, Indexing};
use crate::cells;
use crate::draft::Draft;
use crate::file;
use crate::grow::{any_accepted, good_setting, grow, parents_beside, Style};
use crate::moved::moved;
use crate::names::Names;
use crate::prng::Prng;
use crate::spoil::{any_marks, Kind};
use second::day::Day;
use second::form::Form;
use second::layout::PARENTS;
use second::ledger::{Ledger, Reading, Slot, State};
use second::setting::Setting;

/// What a call is meant to show.
#[derive(Clone, Copy, Debug)]
enum Aim {
    Open,
    OpenBadly,
    Book,
    BookKnownName,
    BookBadSlot,
    BookBadCount,
    BookUnknownParent,
    BookParentTwice,
    BookAnything,
    Poll,
    PollUnknown,
    PollAgain,
    PollBadCount,
    PollBadByte,
    Read,
    ReadUnknown,
}

const AIMS: [(usize, Aim); 16] = [
    (2, Aim::Open),
    (3, Aim::OpenBadly),
    (22, Aim::Book),
    (2, Aim::BookKnownName),
    (2, Aim::BookBadSlot),
    (2, Aim::BookBadCount),
    (2, Aim::BookUnknownParent),
    (2, Aim::BookParentTwice),
    (2, Aim::BookAnything),
    (22, Aim::Poll),
    (2, Aim::PollUnknown),
    (2, Aim::PollAgain),
    (2, Aim::PollBadCount),
    (2, Aim::PollBadByte),
    (35, Aim::Read),
    (2, Aim::ReadUnknown),
];

/// How many calls of a hundred write the day file.
const WRITES: usize = 13;

/// And how many read or move one: less where it is long, as it takes its time
/// then.
fn reads(ledger: &Ledger) -> usize {
    if ledger.bookings.len() > 100 {
        6
    } else {
        22
    }
}

/// How many of a hundred of those are moves.
const MOVES: usize = 35;

/// How many have to do with the index.
const INDEXED: usize = 15;

/// A call on the ledger. The style says which slots, parents and names are
/// likely; `written` is a file of an earlier moment, if there is one, with its
/// form, and `index` the one that the run keeps.
pub fn choose(
    prng: &mut Prng,
    ledger: &Ledger,
    style: &Style,
    written: &Written,
    index: &[u16],
) -> Call {
    if prng.chance(INDEXED) {
        return choose_index(prng, ledger, style, index);
    }
    if prng.chance(WRITES) {
        let form = prng.pick(&Form::ALL);
        let room = any_room(prng, form, file::length(ledger, form));
        return Call::WriteFile(form, any_buffer(prng, room));
    }
    if prng.chance(reads(ledger)) {
        let (form, file) = any_file(prng, ledger, style, written);
        return match prng.chance(MOVES) {
            true => move_into_any(prng, form, file),
            false => Call::ReadFile(form, file),
        };
    }
    choose_line(prng, ledger, style)
}

/// Building, entering or a lookup, with an index of any kind.
fn choose_index(prng: &mut Prng, ledger: &Ledger, style: &Style, own: &[u16]) -> Call {
    let newest = ledger.bookings.len() - 1;
    let (asked, name) = match prng.below(20) {
        0..=3 => (Indexing::Build, ledger.bookings[newest].name),
        4..=9 => (Indexing::Enter, ledger.bookings[newest].name),
        _ => {
            let name = match prng.below(10) {
                0..=5 => known_name(prng, ledger),
                // Records from n on have this name too.
                6 => 0,
                7 => unknown_name(prng, ledger),
                _ => Names::Crowded.fresh(prng, |name| ledger.numbers.contains_key(&name)),
            };
            (Indexing::Find(name), name)
        }
    };
    let kind = prng.weigh(&cells::Kind::ALL);
    let cells = kind.cells(prng, ledger, style, own, name);
    Call::Index(asked, Cells(cells))
}

/// The last file that was written, and its form.
pub type Written = Option<(Form, Vec<u8>)>;

/// A file of this ledger, an earlier one, or one of another ledger; as it was
/// written, with other marks, or spoiled.
fn any_file(prng: &mut Prng, ledger: &Ledger, style: &Style, written: &Written) -> (Form, Vec<u8>) {
    let form = prng.pick(&Form::ALL);
    let (form, file) = match (prng.below(10), written) {
        (0..=4, _) => (form, Day::of(ledger, form).file()),
        (5..=8, Some(written)) => written.clone(),
        _ => {
            let n = prng.between(1, 9);
            let ledger = grow(prng, style.clone(), n).ledger;
            (form, Day::of(&ledger, form).file())
        }
    };
    match prng.below(100) {
        0..=29 => return (form, file),
        // It passes for one of the other form.
        30..=32 => return (form.other(), file),
        _ => (),
    }
    let mut draft = Draft::of_file(&file, form);
    if form == Form::Second && prng.chance(25) {
        draft.marks = Some(any_marks(prng, &draft));
        return (form, draft.bytes());
    }
    let kinds = Kind::of(form);
    let of_marks: Vec<Kind> = kinds.iter().copied().filter(|k| k.is_of_marks()).collect();
    let kind = match form {
        Form::Second if prng.chance(40) => prng.pick(&of_marks),
        _ => prng.pick(&kinds),
    };
    (form, kind.spoil(prng, &draft))
}

/// A move of the file, into a buffer with any room for what it gives, or for
/// what it would if it were taken.
pub fn move_into_any(prng: &mut Prng, form: Form, file: Vec<u8>) -> Call {
    let to = form.other();
    let length = moved(form, &file).map_or(file.len(), |moved| moved.len());
    let room = any_room(prng, to, length.max(to.shortest()));
    let buffer = any_buffer(prng, room);
    Call::MoveFile(form, file, buffer)
}

/// A buffer with so much room.
pub fn any_buffer(prng: &mut Prng, room: usize) -> Buffer {
    let seed = prng.draw();
    Buffer { room, seed }
}

/// Room for a file of this form and length, or not: shorter than any file,
/// around this one, for the longest, and at times so much that its low sixteen
/// bits are too little.
fn any_room(prng: &mut Prng, form: Form, length: usize) -> usize {
    match prng.below(16) {
        0 => 0,
        1 => 1,
        2 => form.shortest() - 1,
        3 | 4 => length - 1,
        5 | 6 => length,
        7 => length + 1,
        8 => length + prng.between(2, 2000),
        9 | 10 => form.longest(),
        11 | 12 => 65_536 + prng.pick(&[0, 1, length - 1, length]),
        13 => length - 2,
        _ => prng.below(2 * length),
    }
}

/// A call that the console has a line for.
pub fn choose_line(prng: &mut Prng, ledger: &Ledger, style: &Style) -> Call {
    let aim = prng.weigh(&AIMS);
    match aim {
        Aim::Open => Call::Open(good_setting(prng)),
        Aim::OpenBadly => Call::Open(any_setting(prng)),
        Aim::Poll | Aim::PollUnknown | Aim::PollAgain | Aim::PollBadCount | Aim::PollBadByte => {
            poll(prng, ledger, style, aim)
        }
        Aim::Read if prng.chance(20) => read_contested(prng, ledger),
        Aim::Read => Call::Read(prng.pick(&Reading::ALL), known_name(prng, ledger)),
        Aim::ReadUnknown => Call::Read(prng.pick(&Reading::ALL), unknown_name(prng, ledger)),
        _ => book(prng, ledger, style, aim),
    }
}

/// Is somebody accepted whose slot has both a mark and rivals? If there is no
/// such slot, anybody.
pub fn read_contested(prng: &mut Prng, ledger: &Ledger) -> Call {
    let is_marked = |b: &usize| ledger.bookings[*b].is_marked;
    let is_contested =
        |slot: &&Slot| slot.bookings.len() > 1 && slot.bookings.iter().any(is_marked);
    let contested: Vec<&Slot> = ledger.slots.values().filter(is_contested).collect();
    let name = if contested.is_empty() {
        known_name(prng, ledger)
    } else {
        let slot = prng.pick(&contested);
        // Not those that nobody polls.
        let marked = slot.bookings.iter().copied().find(is_marked);
        let b = prng.pick(&[slot.preferred, slot.last, marked.unwrap_or(slot.last)]);
        ledger.bookings[b].name
    };
    Call::Read(Reading::Accepted, name)
}

/// A poll of somebody who waits, if there is anybody.
pub fn choose_poll(prng: &mut Prng, ledger: &Ledger, style: &Style) -> Call {
    poll(prng, ledger, style, Aim::Poll)
}

/// A setting around the borders, good or not.
fn any_setting(prng: &mut Prng) -> Setting {
    let mut setting = good_setting(prng);
    let Setting { k, beta1, .. } = setting;
    match prng.below(8) {
        0 => setting.k = prng.pick(&[0, 65, 256, 65535]),
        1 => setting.a = prng.pick(&[0, k / 2, k / 2 + 1, k, k + 1, 32768 + k, 65535]),
        2 => setting.beta1 = prng.pick(&[0, setting.beta2, setting.beta2 + 1, 65535]),
        3 => setting.beta2 = prng.pick(&[0, beta1 - 1, beta1, 510, 511, 65535]),
        4 => {
            setting.k = prng.pick(&[63, 64, 65, 66]);
            setting.a = setting.k;
        }
        5 | 6 => {
            setting.edition = prng.pick(&[2, 2, 3, 255, 256, 257, 32768, 65535]);
            if prng.chance(20) {
                setting.a = k / 2;
            }
        }
        _ => {
            setting.k = prng.draw() as u16;
            setting.a = prng.draw() as u16;
        }
    }
    setting
}

fn book(prng: &mut Prng, ledger: &Ledger, style: &Style, aim: Aim) -> Call {
    let booked: Vec<u64> = ledger.bookings.iter().map(|b| b.name).collect();
    let mut name = style
        .names
        .fresh(prng, |name| ledger.numbers.contains_key(&name));
    let mut slot = style.slot(prng);
    let mut parents = style.shape.parents(prng, &booked);
    match aim {
        Aim::Book if prng.chance(LATE) => {
            if let Some(late) = any_late(prng, ledger) {
                (slot, parents) = late;
            }
        }
        Aim::BookKnownName => name = known_name(prng, ledger),
        Aim::BookBadSlot => slot = bad_slot(prng),
        Aim::BookBadCount => parents = bad_parent_count(prng, &booked),
        Aim::BookUnknownParent => {
            let at = prng.below(parents.len());
            parents[at] = unknown_name(prng, ledger);
            if prng.chance(30) && parents.len() < PARENTS {
                parents.push(parents[at]);
            }
        }
        Aim::BookParentTwice => {
            parents.truncate(PARENTS - 1);
            let again = prng.pick(&parents);
            parents.insert(prng.below(parents.len() + 1), again);
        }
        Aim::BookAnything => {
            // Several things wrong at once: the order of refusals decides.
            if prng.chance(40) {
                name = known_name(prng, ledger);
            }
            if prng.chance(40) {
                slot = bad_slot(prng);
            }
            let mut from = prng.some(&booked, 3);
            from.push(unknown_name(prng, ledger));
            parents = (0..prng.below(7)).map(|_| prng.pick(&from)).collect();
        }
        _ => (),
    }
    Call::Book {
        name,
        slot,
        parents,
    }
}

/// How many good bookings of a hundred have to do with late rivals.
const LATE: usize = 40;

/// Slot and parents of a rival to one that is accepted, or of a booking that
/// stands on such a rival.
fn any_late(prng: &mut Prng, ledger: &Ledger) -> Option<(u16, Vec<u64>)> {
    let accepted = any_accepted(prng, ledger)?;
    let slot = ledger.bookings[accepted].slot;
    let rivals = ledger.slot_of(accepted).bookings.iter();
    let rivals: Vec<usize> = rivals.copied().filter(|&b| b != accepted).collect();
    if rivals.is_empty() || prng.chance(30) {
        return Some((slot, parents_beside(prng, ledger, accepted)));
    }
    let other = 1 + (slot + prng.word(0, 253)) % 255;
    let rival = prng.pick(&rivals);
    Some((other, vec![ledger.bookings[rival].name]))
}

fn bad_slot(prng: &mut Prng) -> u16 {
    prng.pick(&[0, 256, 257, 511, 512, 32768, 65535])
}

/// None or more than four, at times so many that the low sixteen bits of
/// their number are good.
fn bad_parent_count(prng: &mut Prng, booked: &[u64]) -> Vec<u64> {
    let count = match prng.below(20) {
        0 => 65536 + 1,
        1 => 65536,
        2..=8 => 0,
        9..=14 => 5,
        _ => prng.between(6, 300),
    };
    let from = prng.below(booked.len());
    (booked.iter().cycle().skip(from).take(count))
        .copied()
        .collect()
}

fn poll(prng: &mut Prng, ledger: &Ledger, style: &Style, aim: Aim) -> Call {
    let has_state = |is_waiting: bool| -> Vec<u64> {
        (ledger.bookings.iter())
            .filter(|b| (b.state == State::Waiting) == is_waiting)
            .map(|b| b.name)
            .collect()
    };
    let waiting = has_state(true);
    let name = match aim {
        Aim::PollUnknown => unknown_name(prng, ledger),
        Aim::PollAgain => prng.pick(&has_state(false)),
        _ if waiting.is_empty() => prng.pick(&has_state(false)),
        _ => prng.pick(&waiting),
    };
    // The ledger may have been opened again since the style was drawn.
    let style = Style {
        setting: ledger.setting,
        ..style.clone()
    };
    let mut votes = style.votes(prng);
    if let Aim::PollBadByte = aim {
        let at = prng.below(votes.len());
        votes[at] = prng.pick(&[2, 3, 127, 128, 129, 253, 254]);
    }
    if let Aim::PollBadCount = aim {
        let k = votes.len();
        let count = prng.pick(&[0, k - 1, k + 1, k + 256, k + 65536, 2 * k]);
        let filler = prng.pick(&[0, 1, 255]);
        votes.resize(count, filler);
    }
    if prng.chance(3) {
        // Any bytes: with few votes they may all be good.
        votes = votes.iter().map(|_| prng.draw() as u8).collect();
    }
    Call::Poll { name, votes }
}

fn known_name(prng: &mut Prng, ledger: &Ledger) -> u64 {
    // The latest have the largest ancestries; the genesis is a case apart.
    let n = ledger.bookings.len();
    let b = match prng.below(10) {
        0 => 0,
        1..=3 => n - 1 - prng.below(n.min(4)),
        _ => prng.below(n),
    };
    ledger.bookings[b].name
}

/// A name that is not booked, often one bit from a name that is.
fn unknown_name(prng: &mut Prng, ledger: &Ledger) -> u64 {
    loop {
        let name = match prng.below(3) {
            0 => known_name(prng, ledger) ^ (1 << prng.below(64)),
            1 => known_name(prng, ledger).rotate_left(16),
            _ => prng.draw(),
        };
        if !ledger.numbers.contains_key(&name) {
            return name;
        }
    }
}

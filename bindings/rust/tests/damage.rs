//! Refusals 2, 14 and 15: which of them is given, which row is named, and that no word changes. Every expectation is worked
//! out by hand from the words of `ledger`.
use filzhammer::*;

mod listed;
mod refused;
use listed::*;
use refused::*;

const NONE: u16 = 65535;

/// Five bookings, of which 1 waits, 2 and 4 have a chit, and 3 lost its poll: n is 5, p is 3, and there are 2 chits.
///
/// | number | at | name | slot | parents | state | confidence | ordinal | mark |
/// |---|---|---|---|---|---|---|---|---|
/// | 0 | 8 | 0 | 0 | none | 1 | 2 | 0 | 1 |
/// | 1 | 21 | 1 | 7 | 0 | 0 | 1 | 0 | 0 |
/// | 2 | 34 | 2 | 7 | 0 | 2 | 2 | 1 | 0 |
/// | 3 | 47 | 3 | 9 | 1 | 1 | 0 | 2 | 0 |
/// | 4 | 60 | 4 | 10 | 1, 2 | 2 | 1 | 3 | 0 |
///
/// | slot | at | preferred | last | counter | bookings |
/// |---|---|---|---|---|---|
/// | 0 | 6664 | 0 | 0 | 2 | 1 |
/// | 7 | 6692 | 2 | 2 | 0 | 2 |
/// | 9 | 6700 | 3 | 3 | 0 | 1 |
/// | 10 | 6704 | 4 | 4 | 1 | 1 |
fn ledger() -> [u16; WORDS] {
    listed(3)
}

/// 512 bookings, the names 1 to 511 all in slot 7; 1 alone was polled, and lost.
fn full() -> [u16; WORDS] {
    let mut ws = [0; WORDS];
    open(&mut ws, SETTING).unwrap();
    for name in 1..=511 {
        book(&mut ws, name, 7, &[0]).unwrap();
    }
    poll(&mut ws, 1, &[NO; 3]).unwrap();
    ws
}

// Words of the header.
const N: usize = 0;
const K: usize = 1;
const A: usize = 2;
const BETA1: usize = 3;
const BETA2: usize = 4;
const P: usize = 5;
const EDITION: usize = 6;

// Words of a record: where each stands.
fn name(number: usize) -> usize {
    8 + 13 * number + 3 // the lowest of the name's four words
}
fn slot(number: usize) -> usize {
    8 + 13 * number + 4
}
fn parent(number: usize, place: usize) -> usize {
    8 + 13 * number + 5 + place
}
fn state(number: usize) -> usize {
    8 + 13 * number + 9
}
fn held(number: usize) -> usize {
    8 + 13 * number + 10 // the confidence
}
fn ordinal(number: usize) -> usize {
    8 + 13 * number + 11
}
fn mark(number: usize) -> usize {
    8 + 13 * number + 12
}

// Words of a slot entry.
fn preferred(slot: usize) -> usize {
    6664 + 4 * slot
}
fn last(slot: usize) -> usize {
    6664 + 4 * slot + 1
}
fn counter(slot: usize) -> usize {
    6664 + 4 * slot + 2
}
fn bookings(slot: usize) -> usize {
    6664 + 4 * slot + 3
}

/// The words with others in their place.
fn hit(mut ws: [u16; WORDS], hits: &[(usize, u16)]) -> [u16; WORDS] {
    for &(place, word) in hits {
        assert_ne!(ws[place], word, "word {place} is {word} already");
        ws[place] = word;
    }
    ws
}

/// The ledger hit so is refused by every call but open, with this.
#[track_caller]
fn damaged(hits: &[(usize, u16)], refusal: Refusal) {
    all_refused(refusal, &mut hit(ledger(), hits));
}

/// The ledger hit so breaks no rule.
#[track_caller]
fn sound(hits: &[(usize, u16)]) {
    assert_eq!(size(&hit(ledger(), hits), 0), Ok(1));
}

fn record(number: u16) -> Refusal {
    Refusal::DamagedRecord(number)
}
fn entry(slot: u16) -> Refusal {
    Refusal::DamagedSlot(slot)
}

// ---- 2, the header

#[test]
fn what_was_never_opened_has_a_damaged_header() {
    all_refused(Refusal::DamagedHeader, &mut [0; WORDS]);
    all_refused(Refusal::DamagedHeader, &mut [NONE; WORDS]);
}

#[test]
fn each_rule_of_the_header() {
    for (place, word) in [
        (N, 0),
        (N, 513),
        (N, NONE),
        (N, 3), // p is 3, and at most n - 1
        (K, 0),
        (K, 1), // a is 2
        (K, 4), // not more than half of it
        (K, 65),
        (A, 1),
        (A, 4),
        (BETA1, 0),
        (BETA1, 3),
        (BETA2, 0),
        (BETA2, 511),
        (P, 5),
        (P, NONE),
        (EDITION, 2),
        (EDITION, 257),
        (EDITION, NONE),
        (7, 1),
        (7, NONE),
    ] {
        damaged(&[(place, word)], Refusal::DamagedHeader);
    }
    for (place, word) in [
        (K, 2),
        (A, 3),
        (BETA1, 2),
        (BETA2, 1),
        (BETA2, 510),
        (EDITION, 1),
    ] {
        sound(&[(place, word)]);
    }
    damaged(&[(EDITION, 1), (7, 1)], Refusal::DamagedHeader);
}

/// With the later edition slots 0 and 7 have counter 1, and all else is as above.
#[test]
fn the_rules_are_the_same_with_the_later_edition() {
    let later = || listed_by(LATER, 3);
    assert_eq!(size(&later(), 0), Ok(1));
    for (place, word) in [(EDITION, 2), (7, 1), (K, 4), (BETA2, 511), (P, 5)] {
        all_refused(Refusal::DamagedHeader, &mut hit(later(), &[(place, word)]));
    }
    all_refused(record(3), &mut hit(later(), &[(slot(3), 0)]));
    all_refused(entry(7), &mut hit(later(), &[(counter(7), 3)])); // above the number of chits
    for (place, word) in [(EDITION, 0), (counter(7), 2), (counter(0), 0)] {
        assert_eq!(size(&hit(later(), &[(place, word)]), 0), Ok(1));
    }
}

#[test]
fn a_header_within_its_rules_is_told_by_the_records() {
    damaged(&[(P, 4)], record(5)); // nobody holds ordinal 4
    damaged(&[(P, 2)], record(4)); // whose ordinal is 3
    damaged(&[(N, 6)], record(5)); // as a booking it has the genesis's name
    damaged(&[(N, 512)], record(5));
    damaged(&[(N, 4)], record(0)); // without 4 there is one chit
}

// ---- 14, the records

#[test]
fn each_rule_of_the_genesis() {
    for place in 8..12 {
        damaged(&[(place, 1)], record(0));
    }
    damaged(&[(slot(0), 7)], record(0));
    for place in 0..4 {
        damaged(&[(parent(0, place), 0)], record(0));
    }
    damaged(&[(state(0), 0)], record(0));
    damaged(&[(state(0), 2)], record(0));
    damaged(&[(ordinal(0), 1)], record(0));
    damaged(&[(ordinal(0), 4)], record(0));
    damaged(&[(held(0), 3)], record(0));
    sound(&[(held(0), 1)]);
    damaged(&[(mark(0), 0)], record(0));
    damaged(&[(mark(0), 2)], record(0));
    damaged(&[(mark(0), NONE)], record(0));
}

#[test]
fn each_rule_of_slot_and_parents() {
    for word in [0, 256, NONE] {
        damaged(&[(slot(3), word)], record(3));
    }
    damaged(&[(parent(1, 0), NONE)], record(1)); // no parent
    damaged(&[(parent(1, 0), 1)], record(1)); // itself
    damaged(&[(parent(1, 0), 2)], record(1)); // above it
    damaged(&[(parent(4, 0), NONE)], record(4)); // unused before used
    damaged(&[(parent(4, 3), 0)], record(4)); // used after unused
    damaged(&[(parent(4, 1), 1)], record(4)); // twice the same
    damaged(&[(parent(4, 2), 4)], record(4));
    sound(&[(parent(4, 2), 3)]);
    sound(&[(parent(4, 2), 3), (parent(4, 3), 0)]);
    sound(&[(parent(4, 1), NONE)]);
}

#[test]
fn each_rule_of_state_and_ordinal() {
    damaged(&[(state(1), 1)], record(1)); // polled without an ordinal
    damaged(&[(state(1), 2)], record(1));
    damaged(&[(state(3), 0)], record(3)); // waiting with one
    damaged(&[(state(3), 3)], record(3));
    sound(&[(state(3), 2)]);
    damaged(&[(ordinal(1), 4)], record(1));
    damaged(&[(ordinal(4), 0)], record(4));
    damaged(&[(ordinal(4), 4)], record(4)); // p is 3
    damaged(&[(ordinal(2), NONE)], record(2));
    sound(&[(ordinal(2), 3), (ordinal(4), 1)]); // changed places
}

#[test]
fn a_name_held_twice_is_charged_to_the_higher() {
    damaged(&[(name(1), 3)], record(3));
    damaged(&[(name(3), 1)], record(3));
    damaged(&[(name(4), 0)], record(4)); // the genesis's
    damaged(&[(name(3), 1), (name(4), 1)], record(3)); // of three the second
    damaged(&[(name(2), 1), (name(3), 4)], record(2)); // of two pairs the lower
    sound(&[(name(4) - 3, 1)]); // another name by its highest word
    sound(&[(name(1), 2), (name(2), 1)]); // changed places
}

#[test]
fn an_ordinal_held_twice_is_charged_to_the_higher() {
    damaged(&[(ordinal(3), 1)], record(3));
    damaged(&[(ordinal(3), 3)], record(4));
    damaged(&[(ordinal(3), 1), (ordinal(4), 1)], record(3)); // of three the second
    damaged(&[(ordinal(3), 4), (ordinal(4), 4)], record(3)); // above p it is wrong at every holder
}

#[test]
fn a_confidence_above_the_chits() {
    for number in 0..5 {
        damaged(&[(held(number), 3)], record(number as u16));
        damaged(&[(held(number), NONE)], record(number as u16));
    }
    for number in [1, 3, 4] {
        sound(&[(held(number), 2)]);
    }
}

#[test]
fn a_lost_chit_is_told_of_the_genesis() {
    damaged(&[(state(4), 1)], record(0)); // one chit is left, and the genesis has confidence 2
    damaged(&[(state(4), 0)], record(0)); // though 4 has an ordinal
    damaged(&[(state(4), 3)], record(0)); // though that is no state
    damaged(&[(state(2), 1)], record(0));
    damaged(&[(state(4), 1), (held(0), 1)], record(2)); // the next that has confidence 2
    damaged(&[(state(4), 1), (held(0), 1), (held(2), 1)], entry(0)); // no confidence is above 1, but a counter
    sound(&[(state(4), 1), (held(0), 1), (held(2), 1), (counter(0), 1)]);
}

#[test]
fn a_mark_is_0_or_1() {
    for number in 1..5 {
        for word in [2, 3, 256, NONE] {
            damaged(&[(mark(number), word)], record(number as u16));
        }
        sound(&[(mark(number), 1)]); // waiting, with a chit, or lost: no rule ties a mark to these
        let marked = hit(ledger(), &[(mark(number), 1)]);
        assert_eq!(accepted(&marked, number as u64), Ok(1));
    }
    sound(&[(mark(1), 1), (mark(3), 1), (mark(4), 1)]); // each in a slot of its own
}

#[test]
fn two_marks_in_a_slot_are_charged_to_the_higher() {
    damaged(&[(mark(1), 1), (mark(2), 1)], record(2));
    damaged(&[(mark(1), 2), (mark(2), 1)], record(1)); // which is no mark at all
    damaged(&[(mark(1), 1), (mark(2), 2)], record(2));
    // booking 3 in slot 7, where 1 and 2 are; then 9 is empty
    let third = [
        (slot(3), 7),
        (bookings(7), 3),
        (preferred(9), NONE),
        (last(9), NONE),
        (bookings(9), 0),
    ];
    let with = |marks: &[(usize, u16)]| [&third[..], marks].concat();
    sound(&third);
    sound(&with(&[(mark(3), 1)]));
    damaged(&with(&[(mark(1), 1), (mark(3), 1)]), record(3));
    damaged(&with(&[(mark(2), 1), (mark(3), 1)]), record(3));
    let all = [(mark(1), 1), (mark(2), 1), (mark(3), 1)];
    damaged(&with(&all), record(2)); // of three the second

    // another slot for one of them, and the entries tell
    damaged(&[(mark(1), 1), (mark(2), 1), (slot(2), 9)], entry(7));
}

#[test]
fn marks_among_the_other_rules() {
    damaged(&[(mark(3), 2), (held(1), 3)], record(1));
    damaged(&[(mark(3), 2), (name(2), 1)], record(2));
    damaged(&[(mark(3), 2), (name(4), 1)], record(3));
    damaged(&[(mark(3), 2), (ordinal(4), 1)], record(3));
    damaged(&[(mark(3), 2), (P, 4)], record(3));
    damaged(&[(mark(3), 2), (mark(0), 0)], record(0));
    damaged(&[(mark(1), 1), (mark(2), 1), (slot(1), 0)], record(1));
    damaged(&[(mark(1), 1), (mark(2), 1), (slot(3), 0)], record(2));
    damaged(&[(mark(1), 1), (mark(2), 1), (mark(5), 1)], record(2));
    damaged(&[(mark(4), 1), (mark(5), 1)], record(5)); // past the bookings
    damaged(&[(mark(511), 1)], record(511));
    damaged(&[(mark(2), 2), (bookings(0), 2)], record(2));
    damaged(&[(mark(2), 2), (7, 1)], Refusal::DamagedHeader);
}

#[test]
fn records_from_n_on_are_zero() {
    for place in 0..13 {
        damaged(&[(8 + 13 * 5 + place, 1)], record(5));
        damaged(&[(8 + 13 * 511 + place, NONE)], record(511));
    }
    damaged(&[(name(511), 1), (state(64), 1)], record(64));
}

#[test]
fn a_missing_ordinal_is_charged_to_n() {
    damaged(&[(P, 4)], record(5));
    damaged(&[(state(3), 0), (ordinal(3), 0)], record(5)); // 2 is missing
    damaged(&[(P, 4), (name(511), 1)], record(5));
    damaged(&[(P, 4), (slot(4), 0)], record(4));
    let mut two = [0; WORDS];
    open(&mut two, SETTING).unwrap();
    book(&mut two, 1, 7, &[0]).unwrap();
    all_refused(record(2), &mut hit(two, &[(P, 1)]));
}

#[test]
fn a_missing_ordinal_of_a_full_ledger_is_charged_to_512() {
    all_refused(record(512), &mut hit(full(), &[(P, 2)]));
    all_refused(record(512), &mut hit(full(), &[(P, 511)]));
    all_refused(record(511), &mut hit(full(), &[(P, 2), (slot(511), 0)]));
    all_refused(Refusal::DamagedHeader, &mut hit(full(), &[(P, 512)]));
    all_refused(record(511), &mut hit(full(), &[(name(511), 510)]));
    all_refused(record(512), &mut hit(full(), &[(P, 2), (mark(511), 1)]));
    all_refused(record(511), &mut hit(full(), &[(P, 2), (mark(511), 2)]));
    let all = [(mark(1), 1), (mark(510), 1), (mark(511), 1)];
    all_refused(record(510), &mut hit(full(), &all));
    all_refused(record(511), &mut hit(full(), &all[1..]));
    assert_eq!(size(&full(), 511), Ok(2));
}

#[test]
fn the_lowest_record_is_named() {
    damaged(&[(slot(4), 0), (slot(2), 0)], record(2));
    damaged(&[(slot(4), 0), (name(64), 1)], record(4));
    damaged(&[(held(1), 3), (state(0), 2)], record(0));
}

// ---- 15, the slot entries

#[test]
fn each_rule_of_an_empty_slot() {
    for empty in [1, 8, 200, 255] {
        damaged(&[(preferred(empty), 0)], entry(empty as u16));
        damaged(&[(last(empty), 0)], entry(empty as u16));
        damaged(&[(counter(empty), 1)], entry(empty as u16));
        damaged(&[(bookings(empty), 1)], entry(empty as u16));
    }
}

#[test]
fn each_rule_of_a_slot_with_bookings() {
    for place in [preferred(7), last(7)] {
        damaged(&[(place, 3)], entry(7)); // a booking of slot 9
        damaged(&[(place, 0)], entry(7));
        damaged(&[(place, 5)], entry(7)); // n
        damaged(&[(place, NONE)], entry(7));
        sound(&[(place, 1)]);
    }
    damaged(&[(bookings(7), 1)], entry(7));
    damaged(&[(bookings(7), 3)], entry(7));
    damaged(&[(bookings(7), 0)], entry(7));
    damaged(&[(preferred(0), NONE)], entry(0));
    damaged(&[(last(0), 1)], entry(0));
    damaged(&[(bookings(0), 2)], entry(0));
}

#[test]
fn a_counter_above_the_chits_names_its_slot() {
    for of in [0, 7, 9, 10] {
        damaged(&[(counter(of), 3)], entry(of as u16));
        damaged(&[(counter(of), NONE)], entry(of as u16));
    }
    for of in [7, 9, 10] {
        sound(&[(counter(of), 2)]);
    }
}

#[test]
fn a_record_within_its_rules_is_told_by_the_slots() {
    damaged(&[(slot(3), 1)], entry(1)); // slots 1 and 9 disagree
    damaged(&[(slot(3), 255)], entry(9));
    damaged(&[(slot(3), 7)], entry(7));
    damaged(&[(slot(2), 8)], entry(7));
}

#[test]
fn the_lowest_slot_is_named() {
    damaged(&[(bookings(255), 1), (counter(10), 3)], entry(10));
    damaged(
        &[(preferred(200), 0), (last(8), 0), (bookings(7), 1)],
        entry(7),
    );
}

// ---- order

#[test]
fn the_header_hides_records_and_records_hide_slots() {
    let hits = [(7, 1), (slot(3), 0), (bookings(7), 3)];
    damaged(&hits, Refusal::DamagedHeader);
    damaged(&hits[1..], record(3));
    damaged(&hits[2..], entry(7));
    damaged(&[(name(511), 1), (preferred(0), 1)], record(511));
    damaged(&[(P, 4), (preferred(0), 1)], record(5));
}

#[test]
fn the_length_comes_first() {
    for hits in [[(7, 1)], [(slot(3), 0)], [(mark(0), 0)], [(bookings(7), 3)]] {
        let mut ws = hit(ledger(), &hits);
        all_refused(Refusal::WrongLength, &mut ws[..WORDS - 1]);
        all_refused(Refusal::WrongLength, &mut ws[..7176]);
        all_refused(Refusal::WrongLength, &mut [ws.as_slice(), &[0]].concat());
    }
}

#[test]
fn open_never_looks_at_the_words() {
    for hits in [[(7, 1)], [(slot(3), 0)], [(mark(0), 0)], [(bookings(7), 3)]] {
        let mut ws = hit(ledger(), &hits);
        refused(Refusal::BadSetting, &mut ws, |ws| {
            open(ws, Setting { k: 4, ..SETTING })
        });
        open(&mut ws, SETTING).unwrap();
        assert_eq!(size(&ws, 0), Ok(1));
        assert_eq!(size(&ws, 1), Err(Refusal::UnknownName));
        assert_eq!(accepted(&ws, 0), Ok(1));
    }
}

#[test]
fn every_other_refusal_comes_after_damage() {
    // each call of the sound ledger has its own refusal, which damage hides: see `all_refused`
    let mut ws = ledger();
    book_refused(Refusal::NameTaken, &mut ws, 0, 0, &[]);
    poll_refused(Refusal::UnknownName, &mut ws, 9, &[2]);
    readings_refused(Refusal::UnknownName, &ws, 9);
}

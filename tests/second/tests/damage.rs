//! Which place a refusal names when words are damaged: the header before the
//! records, the records before the slots, and of these the lowest. Run after
//! its polls stands in `soundness.rs`, row by row.

mod damaged;
mod ledgers;
use damaged::*;
use ledgers::*;
use second::layout::*;
use second::sound::{Broken, Place::*};
use second::words::*;

fn name_record(ws: &mut [u16], b: usize, name: u64) {
    ws[record(b) + NAME..record(b) + SLOT].copy_from_slice(&name_words(name));
}

/// Sets state and ordinal of a booking.
fn polled(ws: &mut [u16], b: usize, state: u16, ordinal: u16) {
    ws[record(b) + STATE] = state;
    ws[record(b) + ORDINAL] = ordinal;
}

/// Whoever was written to, the higher holder is charged.
#[test]
fn a_name_twice_is_charged_to_the_higher() {
    breaks(14, 4, Broken::NameTwice, |ws| name_record(ws, 4, 2));
    breaks(14, 4, Broken::NameTwice, |ws| name_record(ws, 2, 4));
    breaks(14, 2, Broken::NameTwice, |ws| name_record(ws, 1, 2));
    // The genesis holds name 0, and keeps it.
    breaks(14, 1, Broken::NameTwice, |ws| name_record(ws, 1, 0));
    // A genesis with another name breaks a rule of its own.
    let taken = [
        (Record(0), Broken::GenesisName),
        (Record(3), Broken::NameTwice),
    ];
    breaks_all(14, 0, &taken, |ws| name_record(ws, 0, 3));
    // The ends of a full ledger.
    let mut ws = chain(512);
    name_record(&mut ws, 511, 0);
    refused_by(14, 511, Broken::NameTwice, &ws);
    let mut ws = chain(512);
    name_record(&mut ws, 1, 511);
    refused_by(14, 511, Broken::NameTwice, &ws);
}

#[test]
fn of_three_with_a_name_the_second_is_the_lowest_that_breaks_it() {
    let three = [
        (Record(3), Broken::NameTwice),
        (Record(4), Broken::NameTwice),
    ];
    breaks_all(14, 3, &three, |ws| {
        name_record(ws, 3, 1);
        name_record(ws, 4, 1);
    });
    // All five share one.
    let five = [1, 2, 3, 4].map(|b| (Record(b), Broken::NameTwice));
    breaks_all(14, 1, &five, |ws| {
        for b in 1..5 {
            name_record(ws, b, 0);
        }
    });
    // Two pairs, 1 with 4 and 2 with 3: the lower of the two higher ones.
    breaks_all(14, 3, &three, |ws| {
        name_record(ws, 4, 1);
        name_record(ws, 3, 2);
    });
}

/// A name in an unused record is a word that should be zero, no more.
#[test]
fn names_are_compared_below_n() {
    breaks(14, 7, Broken::UnusedRecordNotZero, |ws| {
        name_record(ws, 7, 1)
    });
    let mut ws = opened(1, 1, 1, 2);
    name_record(&mut ws, 1, 5);
    name_record(&mut ws, 2, 5);
    let both = [1, 2].map(|b| (Record(b), Broken::UnusedRecordNotZero));
    refused(14, 1, &both, &ws);
}

#[test]
fn an_ordinal_twice_is_charged_to_the_higher() {
    // Booking 2 holds the only poll; one of its neighbours claims it too.
    let mut ws = run_polled(1);
    polled(&mut ws, 3, 2, 1);
    refused_by(14, 3, Broken::OrdinalTwice, &ws);
    let mut ws = run_polled(1);
    polled(&mut ws, 1, 1, 1);
    refused_by(14, 2, Broken::OrdinalTwice, &ws);
    // All of them do: every one but the first.
    polled(&mut ws, 3, 1, 1);
    polled(&mut ws, 4, 1, 1);
    let four = [2, 3, 4].map(|b| (Record(b), Broken::OrdinalTwice));
    refused(14, 2, &four, &ws);
    // One that changes its ordinal leaves a gap, which is charged higher up.
    let with_gap = [
        (Record(2), Broken::OrdinalTwice),
        (Record(5), Broken::OrdinalMissing),
    ];
    breaks_all(14, 2, &with_gap, |ws| ws[record(1) + ORDINAL] = 1);
}

/// Every booking waits with ordinal 0, and that is no repetition.
#[test]
fn ordinal_0_may_repeat() {
    let mut ws = run_booked();
    assert_eq!(size(&ws, 4), (0, 4));
    // Polled without an ordinal: each breaks that rule, none the other.
    ws[record(2) + STATE] = 1;
    ws[record(3) + STATE] = 1;
    let both = [2, 3].map(|b| (Record(b), Broken::PolledWithoutOrdinal));
    refused(14, 2, &both, &ws);
}

#[test]
fn an_ordinal_above_p_is_charged_to_the_lowest_holder_too() {
    let mut ws = run_booked();
    polled(&mut ws, 2, 1, 1);
    polled(&mut ws, 3, 1, 1);
    let both = [
        (Record(2), Broken::OrdinalAbovePolls),
        (Record(3), Broken::OrdinalAbovePolls),
        (Record(3), Broken::OrdinalTwice),
    ];
    refused(14, 2, &both, &ws);
    // p one too low: its last poll is the one above.
    breaks(14, 1, Broken::OrdinalAbovePolls, |ws| ws[P] = 3);
    // p at 0: every poll is.
    let all = [1, 2, 3, 4].map(|b| (Record(b), Broken::OrdinalAbovePolls));
    breaks_all(14, 1, &all, |ws| ws[P] = 0);
}

/// Nobody holds it, so no record can be charged with it: number n is.
#[test]
fn a_missing_ordinal_is_charged_to_n() {
    // p one too high, on ledgers of several sizes. None has a record 512.
    for n in [2, 3, 200, 511, 512] {
        let mut ws = chain(n);
        ws[P] = 1;
        refused_by(14, n as i64, Broken::OrdinalMissing, &ws);
    }
    // Booking 3 says that it waits.
    breaks(14, 5, Broken::OrdinalMissing, |ws| polled(ws, 3, 0, 0));
    // Its ordinal is lost and its state is not: it is charged itself.
    let lost = [
        (Record(3), Broken::PolledWithoutOrdinal),
        (Record(5), Broken::OrdinalMissing),
    ];
    breaks_all(14, 3, &lost, |ws| ws[record(3) + ORDINAL] = 0);
    // Words of records n and n + 1 beside it.
    let beside = [
        (Record(5), Broken::OrdinalMissing),
        (Record(5), Broken::UnusedRecordNotZero),
        (Record(6), Broken::UnusedRecordNotZero),
    ];
    breaks_all(14, 5, &beside[..2], |ws| {
        polled(ws, 3, 0, 0);
        ws[record(5) + ORDINAL] = 2;
    });
    breaks_all(14, 5, &[beside[0], beside[2]], |ws| {
        polled(ws, 3, 0, 0);
        ws[record(6) + ORDINAL] = 2;
    });
}

/// On a full ledger the value is 512, after every record and before any slot.
#[test]
fn a_missing_ordinal_of_a_full_ledger() {
    let mut ws = chain(512);
    ws[P] = 1;
    ws[entry(0) + COUNT] = 0;
    let mut broken = vec![
        (Record(512), Broken::OrdinalMissing),
        (Slot(0), Broken::CountNotTrue),
    ];
    refused(14, 512, &broken, &ws);
    ws[record(511) + PARENT] = 511;
    broken.push((Record(511), Broken::ParentNotLower));
    refused(14, 511, &broken, &ws);
    // Every one of 511 polls taken, and one of them lost.
    let mut ws = chain(512);
    for name in 1..512 {
        must_poll(&mut ws, name, &[0]);
    }
    polled(&mut ws, 100, 0, 0);
    refused_by(14, 512, Broken::OrdinalMissing, &ws);
}

fn mark(ws: &mut [u16], bookings: &[usize]) {
    for &b in bookings {
        ws[record(b) + MARK] = 1;
    }
}

/// Whoever was written to, the higher of two in a slot is charged. Slot 1 of
/// the chain has 1, 256 and 511, slot 2 has 2 and 257.
#[test]
fn two_marks_in_a_slot_are_charged_to_the_higher() {
    breaks(14, 2, Broken::MarkTwice, |ws| mark(ws, &[1, 2]));
    for pair in [[1, 256], [1, 511], [256, 511], [2, 257]] {
        let mut ws = chain(512);
        mark(&mut ws, &pair[..1]);
        assert_eq!(accepted(&ws, pair[0] as u64), (0, 1));
        mark(&mut ws, &pair[1..]);
        refused_by(14, pair[1] as i64, Broken::MarkTwice, &ws);
        ws[record(pair[0]) + MARK] = 0;
        assert_eq!(accepted(&ws, pair[1] as u64), (0, 1));
    }
}

#[test]
fn of_three_marks_in_a_slot_the_second_is_the_lowest_that_breaks_it() {
    let twice = |b| (Record(b), Broken::MarkTwice);
    let mut ws = chain(512);
    mark(&mut ws, &[1, 256, 511]);
    refused(14, 256, &[twice(256), twice(511)], &ws);
    // Two slots with too many: the lower of those that are charged.
    mark(&mut ws, &[2, 257]);
    refused(14, 256, &[twice(256), twice(257), twice(511)], &ws);
    ws[record(256) + MARK] = 0;
    refused(14, 257, &[twice(257), twice(511)], &ws);
    // A mark that is none is not counted with the others.
    ws[record(1) + MARK] = 2;
    let outside = (Record(1), Broken::MarkOutside);
    refused(14, 1, &[outside, twice(257)], &ws);
    ws[record(2) + MARK] = 65535;
    refused(14, 1, &[outside, (Record(2), Broken::MarkOutside)], &ws);
}

/// The slot is that of the record, wherever it should be.
#[test]
fn marks_of_records_in_wrong_slots() {
    // Booking 3 in slot 0, where the genesis has the mark.
    let in_slot_0 = [
        (Record(3), Broken::SlotOutside),
        (Record(3), Broken::MarkTwice),
        (Slot(0), Broken::CountNotTrue),
        (Slot(9), Broken::EmptySlotFilled),
    ];
    breaks_all(14, 3, &in_slot_0, |ws| {
        mark(ws, &[3]);
        ws[record(3) + SLOT] = 0;
    });
    // Two in a slot that is none: no slot has two marks.
    let in_none = [
        (Record(3), Broken::SlotOutside),
        (Record(4), Broken::SlotOutside),
        (Slot(9), Broken::EmptySlotFilled),
        (Slot(10), Broken::EmptySlotFilled),
    ];
    breaks_all(14, 3, &in_none, |ws| {
        mark(ws, &[3, 4]);
        ws[record(3) + SLOT] = 300;
        ws[record(4) + SLOT] = 300;
    });
    // The genesis in slot 10, where 4 has a mark too.
    let genesis = [
        (Record(0), Broken::GenesisSlot),
        (Record(4), Broken::MarkTwice),
        (Slot(0), Broken::EmptySlotFilled),
        (Slot(10), Broken::CountNotTrue),
    ];
    breaks_all(14, 0, &genesis, |ws| {
        mark(ws, &[4]);
        ws[record(0) + SLOT] = 10;
    });
}

/// Beside other damage a mark is a word of its record like the others.
#[test]
fn marks_among_other_damage() {
    let all = [
        (Record(2), Broken::MarkTwice),
        (Record(4), Broken::MarkOutside),
        (Record(5), Broken::UnusedRecordNotZero),
        (Slot(7), Broken::CountNotTrue),
    ];
    let mut ws = run_polled(4);
    ws[entry(7) + COUNT] = 3;
    refused(15, 7, &all[3..], &ws);
    mark(&mut ws, &[5]);
    refused(14, 5, &all[2..], &ws);
    ws[record(4) + MARK] = 2;
    refused(14, 4, &all[1..], &ws);
    mark(&mut ws, &[1, 2]);
    refused(14, 2, &all, &ws);
    ws[A] = 1;
    let mut with_header = vec![(Header, Broken::SettingBad)];
    with_header.extend(all);
    refused(2, 0, &with_header, &ws);
}

/// The bound on confidences is a rule of records, that on counters of slots.
#[test]
fn bounds_by_chits_on_both_sides() {
    breaks(14, 3, Broken::ConfidenceAboveChits, |ws| {
        ws[record(3) + CONFIDENCE] = 4
    });
    breaks(15, 9, Broken::CounterAboveChits, |ws| {
        ws[entry(9) + COUNTER] = 4
    });
    let both = [
        (Record(4), Broken::ConfidenceAboveChits),
        (Slot(0), Broken::CounterAboveChits),
    ];
    breaks_all(14, 4, &both, |ws| {
        ws[record(4) + CONFIDENCE] = 4;
        ws[entry(0) + COUNTER] = 4;
    });
}

/// The genesis gained from every chit, so that one chit less makes it the
/// lowest row that is inconsistent, wherever the damage was done.
#[test]
fn a_state_that_takes_a_chit_away() {
    let fewer = [
        (Record(0), Broken::ConfidenceAboveChits),
        (Slot(0), Broken::CounterAboveChits),
    ];
    breaks_all(14, 0, &fewer, |ws| ws[record(1) + STATE] = 1);
    breaks_all(14, 0, &fewer, |ws| ws[record(4) + STATE] = 1);
    // The damaged row breaks a rule too, and is not the lowest.
    let mut no_state = fewer.to_vec();
    no_state.push((Record(4), Broken::StateOutside));
    for state in [3, 258, 65535] {
        breaks_all(14, 0, &no_state, |ws| ws[record(4) + STATE] = state);
    }
    let mut waits = fewer.to_vec();
    waits.push((Record(4), Broken::WaitingWithOrdinal));
    breaks_all(14, 0, &waits, |ws| ws[record(4) + STATE] = 0);
    // Where the genesis has less, the next that has three is the lowest.
    let next = [
        (Record(2), Broken::ConfidenceAboveChits),
        (Slot(0), Broken::CounterAboveChits),
    ];
    breaks_all(14, 2, &next, |ws| {
        ws[record(4) + STATE] = 1;
        ws[record(0) + CONFIDENCE] = 2;
        ws[record(2) + CONFIDENCE] = 3;
    });
    // Where no record has three, only the counter is left.
    breaks(15, 0, Broken::CounterAboveChits, |ws| {
        ws[record(4) + STATE] = 1;
        ws[record(0) + CONFIDENCE] = 2;
    });
}

/// A chit counts by its state word alone, whatever else its record breaks.
#[test]
fn a_chit_of_a_broken_record_counts() {
    breaks(14, 4, Broken::NoParent, |ws| {
        ws[record(4) + PARENT..record(4) + STATE].fill(UNUSED)
    });
    let no_ordinal = [
        (Record(4), Broken::PolledWithoutOrdinal),
        (Record(5), Broken::OrdinalMissing),
    ];
    breaks_all(14, 4, &no_ordinal, |ws| ws[record(4) + ORDINAL] = 0);
    // One from n on does not count: the genesis would have four otherwise.
    let from_n_on = [
        (Record(0), Broken::ConfidenceAboveChits),
        (Record(5), Broken::UnusedRecordNotZero),
    ];
    breaks_all(14, 0, &from_n_on, |ws| {
        ws[record(0) + CONFIDENCE] = 4;
        ws[record(5) + STATE] = 2;
    });
}

/// n is right as a number and wrong for the records.
#[test]
fn another_n() {
    // The record of booking 5 is all zero: name 0 in slot 0 on 0, four times.
    let more = [
        (Record(5), Broken::NameTwice),
        (Record(5), Broken::SlotOutside),
        (Record(5), Broken::ParentTwice),
        (Slot(0), Broken::CountNotTrue),
    ];
    breaks_all(14, 5, &more, |ws| ws[N] = 6);
    // Booking 4 waits and is left out.
    let mut ws = run_polled(2);
    ws[N] = 4;
    let fewer = [
        (Record(4), Broken::UnusedRecordNotZero),
        (Slot(10), Broken::EmptySlotFilled),
    ];
    refused(14, 4, &fewer, &ws);
    // After all polls p has no room, and nothing else is said.
    let fewer = [
        (Header, Broken::PollsAboveBookings),
        (Record(0), Broken::ConfidenceAboveChits),
        (Record(4), Broken::OrdinalMissing),
        (Record(4), Broken::UnusedRecordNotZero),
        (Slot(0), Broken::CounterAboveChits),
        (Slot(10), Broken::EmptySlotFilled),
    ];
    breaks_all(2, 0, &fewer, |ws| ws[N] = 4);
    // The last of a full ledger: slot 1 has 1, 256 and 511.
    let mut ws = chain(512);
    ws[N] = 511;
    let last = [
        (Record(511), Broken::UnusedRecordNotZero),
        (Slot(1), Broken::CountNotTrue),
    ];
    refused(14, 511, &last, &ws);
}

#[test]
fn a_broken_header_hides_records_and_slots() {
    let all = [
        (Header, Broken::SettingBad),
        (Header, Broken::HeaderRestNotZero),
        (Record(0), Broken::GenesisState),
        (Record(2), Broken::NoParent),
        (Slot(7), Broken::CountNotTrue),
    ];
    let mut ws = run_polled(4);
    ws[entry(7) + COUNT] = 3;
    refused(15, 7, &all[4..], &ws);
    ws[record(2) + PARENT] = UNUSED;
    refused(14, 2, &all[3..], &ws);
    ws[record(0) + STATE] = 0;
    refused(14, 0, &all[2..], &ws);
    ws[REST] = 1;
    refused(2, 0, &all[1..], &ws);
    ws[K] = 0;
    refused(2, 0, &all, &ws);
}

/// A slot is named only when every record row is right: the unused ones and
/// row n too.
#[test]
fn a_broken_record_hides_slots() {
    let slot = (Slot(0), Broken::PreferredElsewhere);
    let hidden = |row: i64, broken: Broken, change: &dyn Fn(&mut [u16])| {
        let both = [(Record(row as usize), broken), slot];
        breaks_all(14, row, &both, |ws| {
            ws[entry(0) + PREFERRED] = 1;
            change(ws);
        });
    };
    hidden(4, Broken::NameTwice, &|ws| name_record(ws, 4, 1));
    hidden(3, Broken::StateOutside, &|ws| ws[record(3) + STATE] = 3);
    hidden(4, Broken::ConfidenceAboveChits, &|ws| {
        ws[record(4) + CONFIDENCE] = 4
    });
    hidden(5, Broken::OrdinalMissing, &|ws| polled(ws, 3, 0, 0));
    hidden(511, Broken::UnusedRecordNotZero, &|ws| {
        ws[record(511) + ORDINAL] = 1
    });
    breaks(15, 0, slot.1, |ws| ws[entry(0) + PREFERRED] = 1);
}

/// Two rows, in either order of the damage: the lower is named.
#[test]
fn of_two_rows_the_lower_is_named() {
    let records = [
        (Record(2), Broken::ParentNotLower),
        (Record(4), Broken::GapInParents),
    ];
    breaks_all(14, 2, &records, |ws| {
        ws[record(2) + PARENT] = 2;
        ws[record(4) + PARENT] = UNUSED;
    });
    let unused = [6, 511].map(|row| (Record(row), Broken::UnusedRecordNotZero));
    breaks_all(14, 6, &unused, |ws| {
        ws[record(511)] = 1;
        ws[record(6)] = 1;
    });
    let slots = [
        (Slot(7), Broken::LastElsewhere),
        (Slot(9), Broken::CounterAboveChits),
        (Slot(255), Broken::EmptySlotFilled),
    ];
    breaks_all(15, 7, &slots, |ws| {
        ws[entry(255) + LAST] = 0;
        ws[entry(9) + COUNTER] = 4;
        ws[entry(7) + LAST] = 3;
    });
    breaks_all(15, 9, &slots[1..], |ws| {
        ws[entry(255) + LAST] = 0;
        ws[entry(9) + COUNTER] = 4;
    });
}

/// Nothing of a workspace of another length is looked at.
#[test]
fn another_length_comes_before_all_damage() {
    let mut ws = run_polled(4);
    ws[entry(7) + COUNT] = 3;
    ws[record(2) + PARENT] = UNUSED;
    for length in [
        0,
        HEADER_WORDS,
        ENTRIES_START,
        WORDS_WITHOUT_MARKS,
        WORDS - 1,
        WORDS + 1,
    ] {
        ws.resize(length, 9);
        let before = ws.clone();
        assert_eq!(book(&mut ws, 9, 1, &[0]), (1, 0));
        assert_eq!(poll(&mut ws, 3, &[1, 1, 1]), (1, 0));
        for reading in [query, accepted, lead, confidence, size] {
            assert_eq!(reading(&ws, 0), (1, 0));
        }
        assert_eq!(write_first(&ws, &mut []), (1, 0));
        assert_eq!(ws, before);
    }
}

/// An edition that there is none of hides records and slots, and one that
/// there is leaves them to be named.
#[test]
fn an_edition_before_records_and_slots() {
    for (edition, is_known) in [(0, true), (1, true), (2, false), (65535, false)] {
        let mut ws = run_polled(4);
        ws[EDITION] = edition;
        ws[entry(9) + COUNTER] = 4;
        let header = (Header, Broken::EditionOutside);
        let mut all = vec![(Slot(9), Broken::CounterAboveChits)];
        if is_known {
            refused(15, 9, &all, &ws);
        } else {
            all.push(header);
            refused(2, 0, &all, &ws);
        }
        ws[record(3) + CONFIDENCE] = 4;
        all.push((Record(3), Broken::ConfidenceAboveChits));
        if is_known {
            refused(14, 3, &all, &ws);
        } else {
            refused(2, 0, &all, &ws);
        }
    }
}

/// All zero: no bookings, and so no room for polls either.
#[test]
fn words_before_an_opening() {
    let none = [
        (Header, Broken::BookingsOutside),
        (Header, Broken::SettingBad),
        (Header, Broken::PollsAboveBookings),
    ];
    refused(2, 0, &none, &vec![0; WORDS]);
    // With all bits set n is above the end, and p is not below it.
    let all = [
        (Header, Broken::BookingsOutside),
        (Header, Broken::SettingBad),
        (Header, Broken::EditionOutside),
        (Header, Broken::PollsAboveBookings),
        (Header, Broken::HeaderRestNotZero),
    ];
    refused(2, 0, &all, &vec![65535; WORDS]);
}

/// A header over zeroes: the genesis is missing, then the rest.
#[test]
fn a_header_over_zeroes() {
    let mut ws = opened(3, 2, 1, 2);
    ws[HEADER_WORDS..].fill(0);
    let mut broken = vec![
        (Record(0), Broken::GenesisParents),
        (Record(0), Broken::GenesisState),
        (Record(0), Broken::GenesisUnmarked),
        (Slot(0), Broken::CountNotTrue),
    ];
    broken.extend((1..256).map(|s| (Slot(s), Broken::EmptySlotFilled)));
    refused(14, 0, &broken, &ws);
    // With the genesis in place only slots are left to name.
    ws[record(0)..record(1)].copy_from_slice(&opened(3, 2, 1, 2)[record(0)..record(1)]);
    refused(15, 0, &broken[3..], &ws);
    ws[entry(0) + COUNT] = 1;
    refused(15, 1, &broken[4..], &ws);
}

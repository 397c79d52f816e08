//! Each sentence of soundness broken alone, with the number and the row that
//! the calls answer, and sound words at the borders.
//!
//! Every case starts from sound words, mostly those of Run after all polls,
//! and changes as little as breaks the sentence. Where a sentence is broken
//! only together with another (a record that leaves its slot is missing
//! there), a second case mends the other one. Run has n = 5, p = 4, three
//! chits, and these rows:
//!
//! ```text
//! record  slot  parents  state  confidence  ordinal  mark
//!      0     0               1           3        0     1
//!      1     7  0            2           2        4     0
//!      2     7  0            2           2        1     0
//!      3     9  1            1           0        2     0
//!      4    10  1 2          2           1        3     0
//!
//! slot  preferred  last  counter  bookings
//!    0          0     0        3         1
//!    7          2     1        0         2
//!    9          3     3        0         1
//!   10          4     4        1         1
//! ```

mod damaged;
mod ledgers;
use damaged::*;
use ledgers::*;
use second::layout::*;
use second::sound::{judge, Broken, Damage, Place::*};

/// The rows above are those that the other cases start from.
#[test]
fn run_stands_as_described() {
    let ws = run_polled(4);
    assert_eq!(ws[..HEADER_WORDS], [5, 3, 2, 1, 2, 4, 0, 0]);
    let rows = [
        [0, 0, UNUSED, UNUSED, 1, 3, 0, 1],
        [1, 7, 0, UNUSED, 2, 2, 4, 0],
        [2, 7, 0, UNUSED, 2, 2, 1, 0],
        [3, 9, 1, UNUSED, 1, 0, 2, 0],
        [4, 10, 1, 2, 2, 1, 3, 0],
    ];
    for (b, row) in rows.into_iter().enumerate() {
        let fields = [
            NAME + 3,
            SLOT,
            PARENT,
            PARENT + 1,
            STATE,
            CONFIDENCE,
            ORDINAL,
            MARK,
        ];
        assert_eq!(fields.map(|field| record_word(&ws, b, field)), row);
    }
    assert_eq!(entry_words(&ws, 0), [0, 0, 3, 1]);
    assert_eq!(entry_words(&ws, 7), [2, 1, 0, 2]);
    assert_eq!(entry_words(&ws, 9), [3, 3, 0, 1]);
    assert_eq!(entry_words(&ws, 10), [4, 4, 1, 1]);
}

#[test]
fn header() {
    breaks(2, 0, Broken::BookingsOutside, |ws| ws[N] = 513);
    breaks(2, 0, Broken::BookingsOutside, |ws| ws[N] = 65535);
    breaks(2, 0, Broken::SettingBad, |ws| ws[K] = 0);
    breaks(2, 0, Broken::SettingBad, |ws| ws[K] = 65);
    breaks(2, 0, Broken::SettingBad, |ws| ws[A] = 1);
    breaks(2, 0, Broken::SettingBad, |ws| ws[A] = 4);
    breaks(2, 0, Broken::SettingBad, |ws| ws[BETA1] = 0);
    breaks(2, 0, Broken::SettingBad, |ws| ws[BETA1] = 3);
    breaks(2, 0, Broken::SettingBad, |ws| ws[BETA2] = 511);
    for edition in [2, 3, 256, 257, 65535] {
        breaks(2, 0, Broken::EditionOutside, |ws| ws[EDITION] = edition);
    }
    for rest in [1, 2, 256, 65535] {
        breaks(2, 0, Broken::HeaderRestNotZero, |ws| ws[REST] = rest);
    }
    keeps(|ws| ws[A] = 3);
    keeps(|ws| ws[BETA2] = 510);
    // The words of a ledger of one edition are sound in the other.
    keeps(|ws| ws[EDITION] = 1);
    // The last word is no edition, whatever the edition is.
    breaks(2, 0, Broken::HeaderRestNotZero, |ws| {
        ws[EDITION] = 1;
        ws[REST] = 1;
    });
    let both = [
        (Header, Broken::EditionOutside),
        (Header, Broken::HeaderRestNotZero),
    ];
    breaks_all(2, 0, &both, |ws| ws[EDITION..HEADER_WORDS].fill(2));
    let bad_too = [
        (Header, Broken::SettingBad),
        (Header, Broken::EditionOutside),
    ];
    breaks_all(2, 0, &bad_too, |ws| {
        ws[A] = 1;
        ws[EDITION] = 2;
    });

    // With no booking at all p has no room either.
    let none = [
        (Header, Broken::BookingsOutside),
        (Header, Broken::PollsAboveBookings),
    ];
    breaks_all(2, 0, &none, |ws| ws[N] = 0);
    let mut ws = run_booked();
    ws[N] = 0;
    refused(2, 0, &none, &ws);
    // More polls than bookings cannot all be held.
    for polls in [5, 6, 65535] {
        let above = [
            (Header, Broken::PollsAboveBookings),
            (Record(5), Broken::OrdinalMissing),
        ];
        breaks_all(2, 0, &above, |ws| ws[P] = polls);
    }
    // Unless the genesis holds one, which it must not.
    let above = [
        (Header, Broken::PollsAboveBookings),
        (Record(0), Broken::GenesisOrdinal),
    ];
    breaks_all(2, 0, &above, |ws| {
        ws[P] = 5;
        ws[record(0) + ORDINAL] = 5;
    });
}

#[test]
fn genesis() {
    for part in 0..4 {
        breaks(14, 0, Broken::GenesisName, |ws| {
            ws[record(0) + NAME + part] = 9
        });
    }
    for place in 0..4 {
        breaks(14, 0, Broken::GenesisParents, |ws| {
            ws[record(0) + PARENT + place] = 0
        });
    }
    for state in [0, 2, 3] {
        breaks(14, 0, Broken::GenesisState, |ws| {
            ws[record(0) + STATE] = state
        });
    }
    // It leaves slot 0 behind, and slot 1 knows nothing of it.
    let left = [
        (Record(0), Broken::GenesisSlot),
        (Slot(0), Broken::EmptySlotFilled),
        (Slot(1), Broken::CountNotTrue),
        (Slot(1), Broken::PreferredElsewhere),
        (Slot(1), Broken::LastElsewhere),
    ];
    breaks_all(14, 0, &left, |ws| ws[record(0) + SLOT] = 1);
    // It moves to slot 1 with its entry.
    breaks(14, 0, Broken::GenesisSlot, |ws| {
        ws[record(0) + SLOT] = 1;
        move_entry(ws, 0, 1);
    });
    // Booking 2 holds ordinal 1, and nobody may hold 5.
    let held = [
        (Record(0), Broken::GenesisOrdinal),
        (Record(2), Broken::OrdinalTwice),
    ];
    breaks_all(14, 0, &held, |ws| ws[record(0) + ORDINAL] = 1);
    let above = [
        (Record(0), Broken::GenesisOrdinal),
        (Record(0), Broken::OrdinalAbovePolls),
    ];
    breaks_all(14, 0, &above, |ws| ws[record(0) + ORDINAL] = 5);
    // Booking 1 still waits, and the genesis holds the fourth poll.
    let mut ws = run_polled(3);
    ws[P] = 4;
    ws[record(0) + ORDINAL] = 4;
    refused_by(14, 0, Broken::GenesisOrdinal, &ws);
    // Its confidence is free up to the number of chits, which is three.
    keeps(|ws| ws[record(0) + CONFIDENCE] = 0);
}

#[test]
fn names() {
    breaks(14, 4, Broken::NameTwice, |ws| ws[record(4) + NAME + 3] = 1);
    breaks(14, 4, Broken::NameTwice, |ws| ws[record(4) + NAME + 3] = 0);
    for part in 0..4 {
        keeps(|ws| {
            ws[record(4) + NAME + 3] = 1;
            ws[record(4) + NAME + part] += 8;
        });
    }
    // Two bookings with their names exchanged.
    keeps(|ws| {
        ws[record(1) + NAME + 3] = 4;
        ws[record(4) + NAME + 3] = 1;
    });
}

#[test]
fn slots_of_records() {
    // Booking 3 leaves slot 9, whose entry says so, for slot 0 or for none.
    breaks(14, 3, Broken::SlotOutside, |ws| {
        ws[record(3) + SLOT] = 0;
        ws[entry(0) + COUNT] = 2;
        ws[entry(9)..entry(10)].copy_from_slice(&EMPTY_ENTRY);
    });
    for slot in [256, 65535] {
        breaks(14, 3, Broken::SlotOutside, |ws| {
            ws[record(3) + SLOT] = slot;
            ws[entry(9)..entry(10)].copy_from_slice(&EMPTY_ENTRY);
        });
        // The same, and the entry doesn't say so.
        let left = [
            (Record(3), Broken::SlotOutside),
            (Slot(9), Broken::EmptySlotFilled),
        ];
        breaks_all(14, 3, &left, |ws| ws[record(3) + SLOT] = slot);
    }
    let in_slot_0 = [
        (Record(3), Broken::SlotOutside),
        (Slot(0), Broken::CountNotTrue),
        (Slot(9), Broken::EmptySlotFilled),
    ];
    breaks_all(14, 3, &in_slot_0, |ws| ws[record(3) + SLOT] = 0);
    keeps(|ws| {
        ws[record(3) + SLOT] = 255;
        move_entry(ws, 9, 255);
    });
}

fn move_entry(ws: &mut [u16], from: usize, to: usize) {
    ws.copy_within(entry(from)..entry(from + 1), entry(to));
    ws[entry(from)..entry(from + 1)].copy_from_slice(&EMPTY_ENTRY);
}

#[test]
fn parents() {
    breaks(14, 3, Broken::NoParent, |ws| {
        ws[record(3) + PARENT] = UNUSED
    });
    breaks(14, 4, Broken::GapInParents, |ws| {
        ws[record(4) + PARENT] = UNUSED
    });
    breaks(14, 3, Broken::GapInParents, |ws| {
        ws[record(3) + PARENT + 2] = 0
    });
    breaks(14, 4, Broken::ParentTwice, |ws| {
        ws[record(4) + PARENT + 1] = 1
    });
    breaks(14, 4, Broken::ParentNotLower, |ws| {
        ws[record(4) + PARENT] = 4
    });
    for parent in [3, 4, 65534] {
        breaks(14, 3, Broken::ParentNotLower, |ws| {
            ws[record(3) + PARENT] = parent
        });
    }
    keeps(|ws| ws[record(4) + PARENT] = 3);
    keeps(|ws| ws[record(4) + PARENT + 2] = 0);
    // Several at once in one record.
    let far_and_twice = [
        (Record(4), Broken::GapInParents),
        (Record(4), Broken::ParentTwice),
        (Record(4), Broken::ParentNotLower),
    ];
    breaks_all(14, 4, &far_and_twice, |ws| {
        ws[record(4) + PARENT..record(4) + STATE].copy_from_slice(&[UNUSED, 9, UNUSED, 9])
    });
}

#[test]
fn states_and_ordinals() {
    breaks(14, 3, Broken::StateOutside, |ws| ws[record(3) + STATE] = 3);
    breaks(14, 3, Broken::StateOutside, |ws| {
        ws[record(3) + STATE] = 65535
    });
    breaks(14, 3, Broken::WaitingWithOrdinal, |ws| {
        ws[record(3) + STATE] = 0
    });
    // Polled without an ordinal, polled beyond p, two holders of one.
    let mut ws = run_booked();
    ws[record(3) + STATE] = 1;
    refused_by(14, 3, Broken::PolledWithoutOrdinal, &ws);
    ws[record(3) + ORDINAL] = 1;
    refused_by(14, 3, Broken::OrdinalAbovePolls, &ws);
    let mut ws = run_polled(1);
    ws[record(3) + STATE] = 1;
    ws[record(3) + ORDINAL] = 1;
    refused_by(14, 3, Broken::OrdinalTwice, &ws);
    // A poll that no record holds.
    let mut ws = run_booked();
    ws[P] = 1;
    refused_by(14, 5, Broken::OrdinalMissing, &ws);
    // A state that is none, and no ordinal with it.
    let mut ws = run_booked();
    ws[record(3) + STATE] = 3;
    let neither = [
        (Record(3), Broken::StateOutside),
        (Record(3), Broken::PolledWithoutOrdinal),
    ];
    refused(14, 3, &neither, &ws);
    keeps(|ws| {
        // Ordinals 1 and 4 change places.
        ws[record(2) + ORDINAL] = 4;
        ws[record(1) + ORDINAL] = 1;
    });
    keeps(|ws| ws[record(3) + STATE] = 2);
}

#[test]
fn marks() {
    for b in 1..5 {
        keeps(|ws| ws[record(b) + MARK] = 1);
        for mark in [2, 3, 256, 257, 65535] {
            breaks(14, b as i64, Broken::MarkOutside, |ws| {
                ws[record(b) + MARK] = mark
            });
        }
    }
    breaks(14, 0, Broken::GenesisUnmarked, |ws| {
        ws[record(0) + MARK] = 0
    });
    // What is neither 0 nor 1 is not 1 either.
    let neither = [
        (Record(0), Broken::GenesisUnmarked),
        (Record(0), Broken::MarkOutside),
    ];
    breaks_all(14, 0, &neither, |ws| ws[record(0) + MARK] = 2);
    // Slot 7 has 1 and 2; 3 and 4 are in slots of their own.
    for rivals in [[1, 0], [0, 1]] {
        keeps(|ws| {
            ws[record(1) + MARK] = rivals[0];
            ws[record(2) + MARK] = rivals[1];
            ws[record(3) + MARK] = 1;
            ws[record(4) + MARK] = 1;
        });
    }
    breaks(14, 2, Broken::MarkTwice, |ws| {
        ws[record(1) + MARK] = 1;
        ws[record(2) + MARK] = 1;
    });
}

#[test]
fn records_from_n_on() {
    for field in 0..RECORD_WORDS {
        for row in [5, 6, 300, 511] {
            breaks(14, row, Broken::UnusedRecordNotZero, |ws| {
                ws[record(row as usize) + field] = 1
            });
        }
        breaks(14, 511, Broken::UnusedRecordNotZero, |ws| {
            ws[record(511) + field] = 65535
        });
    }
    // The last booking left out of n, with its words still there.
    let mut ws = chain(3);
    ws[N] = 2;
    ws[entry(2)..entry(3)].copy_from_slice(&EMPTY_ENTRY);
    refused_by(14, 2, Broken::UnusedRecordNotZero, &ws);
}

#[test]
fn entries() {
    for s in [1, 8, 255] {
        for field in 0..ENTRY_WORDS {
            breaks(15, s, Broken::EmptySlotFilled, |ws| {
                ws[entry(s as usize) + field] = 1
            });
        }
        breaks(15, s, Broken::EmptySlotFilled, |ws| {
            ws[entry(s as usize)..entry(s as usize + 1)].fill(0)
        });
    }
    for s in [0, 7, 9] {
        let at = entry(s as usize);
        breaks(15, s, Broken::CountNotTrue, |ws| ws[at + COUNT] += 1);
        breaks(15, s, Broken::CountNotTrue, |ws| ws[at + COUNT] -= 1);
        for elsewhere in [4, 5, 511, UNUSED] {
            breaks(15, s, Broken::PreferredElsewhere, |ws| {
                ws[at + PREFERRED] = elsewhere
            });
            breaks(15, s, Broken::LastElsewhere, |ws| ws[at + LAST] = elsewhere);
        }
    }
    // An entry that calls itself empty although the records say otherwise.
    let emptied = [
        (Slot(9), Broken::CountNotTrue),
        (Slot(9), Broken::PreferredElsewhere),
        (Slot(9), Broken::LastElsewhere),
    ];
    breaks_all(15, 9, &emptied, |ws| {
        ws[entry(9)..entry(10)].copy_from_slice(&EMPTY_ENTRY)
    });
    keeps(|ws| ws[entry(7) + PREFERRED] = 1);
    keeps(|ws| ws[entry(7) + LAST] = 2);
}

/// Run ends with three chits.
#[test]
fn bounds_by_chits() {
    for b in 0..5 {
        let at = record(b as usize) + CONFIDENCE;
        keeps(|ws| ws[at] = 3);
        breaks(14, b, Broken::ConfidenceAboveChits, |ws| ws[at] = 4);
        breaks(14, b, Broken::ConfidenceAboveChits, |ws| ws[at] = 65535);
    }
    for s in [0, 7, 9, 10] {
        let at = entry(s as usize) + COUNTER;
        keeps(|ws| ws[at] = 3);
        breaks(15, s, Broken::CounterAboveChits, |ws| ws[at] = 4);
        breaks(15, s, Broken::CounterAboveChits, |ws| ws[at] = 65535);
    }
    // In a slot without bookings the counter has to be 0, by both sentences
    // if it is above three.
    let both = [
        (Slot(8), Broken::EmptySlotFilled),
        (Slot(8), Broken::CounterAboveChits),
    ];
    breaks_all(15, 8, &both, |ws| ws[entry(8) + COUNTER] = 4);
}

/// A counter that starts at 1 is within the bound, since the poll that starts
/// it is a chit.
#[test]
fn ledgers_of_the_later_edition_are_sound() {
    for count in 0..5 {
        assert_eq!(judge(&run_polled_in(1, count)), Damage::default());
    }
    let mut ws = opened_in(1, 1, 1, 1, 2);
    must_book(&mut ws, 1, 7, &[0]);
    must_book(&mut ws, 2, 7, &[0]);
    must_poll(&mut ws, 2, &[1]);
    assert_eq!(entry_words(&ws, 7), [2, 2, 1, 2]);
    assert_eq!(judge(&ws), Damage::default());
    ws[entry(7) + COUNTER] = 2;
    refused_by(15, 7, Broken::CounterAboveChits, &ws);
}

#[test]
fn ledgers_at_both_ends_are_sound() {
    for n in [1, 2, 511, 512] {
        assert_eq!(judge(&chain(n)), Damage::default());
    }
}

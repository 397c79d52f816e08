//! The two editions of the rules side by side, worked out by hand: where a
//! counter starts, what a failed poll does, and what a counter is enough for.
//! `syntax.rs` has the console's fifth number, `day_file.rs` and
//! `read_file.rs` the edition in a file.

mod ledgers;
use ledgers::*;
use second::counting;
use second::laws::Law;
use second::layout::*;
use second::marking;
use second::words::*;

/// A taken poll with one vote, after which these are marked.
fn marks(ws: &mut [u16], name: u64, vote: u8, expected: &[usize]) {
    let before = ws.to_vec();
    must_poll(ws, name, &[vote]);
    assert_eq!(marked(ws), expected);
    assert_eq!(marking::check_poll(&before, ws), Ok(()));
    let polled = name as usize;
    assert_eq!(counting::check_poll(&before, ws, polled), Ok(()));
}

/// The words are those before with these changed, and no other.
fn becomes(ws: &[u16], before: &[u16], changes: &[(usize, u16)]) {
    let mut expected = before.to_vec();
    for &(at, word) in changes {
        expected[at] = word;
    }
    assert_eq!(ws, expected);
}

/// An opening writes the edition, and 0 behind it, whatever stood there.
#[test]
fn an_opening_writes_the_edition() {
    for edition in [0, 1] {
        let mut ws = vec![9; WORDS];
        assert_eq!(open(&mut ws, 3, 2, 1, 2, edition), (0, 0));
        assert_eq!(ws[..HEADER_WORDS], [1, 3, 2, 1, 2, 0, edition, 0]);
        becomes(&ws, &opened(3, 2, 1, 2), &[(EDITION, edition)]);
    }
}

/// Bookings and polls keep it.
#[test]
fn every_call_keeps_the_edition() {
    for edition in [0, 1] {
        for count in 0..5 {
            let ws = run_polled_in(edition, count);
            assert_eq!(ws[EDITION..HEADER_WORDS], [edition, 0]);
        }
    }
}

/// A booking is the same in both.
#[test]
fn bookings_know_no_edition() {
    becomes(&run_booked_in(1), &run_booked_in(0), &[(EDITION, 1)]);
}

// ---- the neighbours of P2, P4 and P9

/// P2 in the later edition: the chit that makes 2 the last is counted.
#[test]
fn p2_first_chit_in_the_later_edition() {
    let ws = run_polled_in(1, 1);
    assert_eq!(entry_words(&ws, 7), [2, 2, 1, 2]);
    assert_eq!(query(&ws, 3), (0, 0));
    assert_eq!(readings(&ws, lead), [-1, 1]);
}

/// P4 in the later edition: 3 stands on 1 and the genesis, so that slots 9, 7
/// and 0 count from 0, slot 7 too, where 2 is last, on which 3 does not stand.
#[test]
fn p4_failed_poll_in_the_later_edition() {
    let before = run_polled_in(1, 1);
    assert_eq!(entry_words(&before, 0), [0, 0, 1, 1]);
    assert_eq!(entry_words(&before, 7), [2, 2, 1, 2]);
    let changes = [
        (P, 2),
        (record(3) + STATE, 1),
        (record(3) + ORDINAL, 2),
        (entry(0) + COUNTER, 0),
        (entry(7) + COUNTER, 0),
    ];
    becomes(&run_polled_in(1, 2), &before, &changes);
}

/// P9 and P10 in the later edition: a counter at β1 accepts.
#[test]
fn p9_p10_acceptance_at_beta1_in_the_later_edition() {
    let mut ws = opened_in(1, 1, 1, 1, 2);
    must_book(&mut ws, 1, 7, &[0]);
    must_book(&mut ws, 2, 8, &[1]);
    marks(&mut ws, 1, 1, &[0, 1]);
    assert_eq!(entry_words(&ws, 7), [1, 1, 1, 1]);
    assert_eq!(readings(&ws, accepted), [1, 0]);
    marks(&mut ws, 2, 1, &[0, 1, 2]);
    assert_eq!(entry_words(&ws, 7), [1, 1, 2, 1]);
    assert_eq!(entry_words(&ws, 8), [2, 2, 1, 1]);
}

/// Run to its end. Confidences and preferences are those of the first edition.
#[test]
fn run_in_the_later_edition() {
    let ws = run_polled_in(1, 4);
    let changes = [
        (EDITION, 1),
        (entry(0) + COUNTER, 2),
        (entry(7) + COUNTER, 1),
        (entry(10) + COUNTER, 1),
    ];
    becomes(&ws, &run_polled(4), &changes);
    assert_eq!(entry_words(&ws, 0), [0, 0, 2, 1]);
    assert_eq!(entry_words(&ws, 7), [2, 1, 1, 2]);
    assert_eq!(entry_words(&ws, 9), [3, 3, 0, 1]);
    assert_eq!(marked(&ws), [0]);
}

// ---- where a counter starts

/// A chain of 1, 2 and 3 in slot 7. Each becomes last in its turn, and the
/// third of them leaves the counter where a new last starts it.
#[test]
fn members_of_one_slot_start_the_counter_in_turn() {
    for (edition, counter) in [(0, 0), (1, 1)] {
        let mut ws = opened_in(edition, 1, 1, 10, 20);
        must_book(&mut ws, 1, 7, &[0]);
        must_book(&mut ws, 2, 7, &[1]);
        must_book(&mut ws, 3, 7, &[2]);
        must_book(&mut ws, 4, 8, &[3]);
        must_poll(&mut ws, 3, &[1]);
        assert_eq!(entry_words(&ws, 7), [1, 3, counter, 3]);
        // Again from 1 to 3, however high the counter was.
        must_poll(&mut ws, 4, &[1]);
        assert_eq!(entry_words(&ws, 7), [1, 3, counter, 3]);
    }
}

/// Who is last already starts at 0 with the booking, and is counted by every
/// chit in both editions.
#[test]
fn the_first_of_a_slot_is_counted_alike() {
    for edition in [0, 1] {
        let mut ws = opened_in(edition, 1, 1, 10, 20);
        must_book(&mut ws, 1, 7, &[0]);
        must_book(&mut ws, 2, 8, &[1]);
        assert_eq!(entry_words(&ws, 7), [1, 1, 0, 1]);
        must_poll(&mut ws, 1, &[1]);
        assert_eq!(entry_words(&ws, 7), [1, 1, 1, 1]);
        must_poll(&mut ws, 2, &[1]);
        assert_eq!(entry_words(&ws, 7), [1, 1, 2, 1]);
        assert_eq!(entry_words(&ws, 0), [0, 0, 2, 1]);
    }
}

// ---- what a failed poll does

/// 4 stands in slot 7 beside 1, and on 3; 2 and 5 stand on 1 only.
///
/// ```text
/// slot  0: genesis    7: 1, 4    8: 2    9: 3    10: 5
/// ```
fn before_failure(edition: u16) -> Vec<u16> {
    let mut ws = opened_in(edition, 1, 1, 10, 20);
    must_book(&mut ws, 1, 7, &[0]);
    must_book(&mut ws, 2, 8, &[1]);
    must_book(&mut ws, 3, 9, &[0]);
    must_book(&mut ws, 4, 7, &[3]);
    must_book(&mut ws, 5, 10, &[1]);
    for name in [1, 2, 3] {
        must_poll(&mut ws, name, &[1]);
    }
    for (s, entry) in [
        (0, [0, 0, 3, 1]),
        (7, [1, 1, 2, 2]),
        (8, [2, 2, 1, 1]),
        (9, [3, 3, 1, 1]),
        (10, [5, 5, 0, 1]),
    ] {
        assert_eq!(entry_words(&ws, s), entry);
    }
    ws
}

/// The slots of the genesis, of the parent, and of the booking itself, where
/// another is last. Slot 8 is met by nobody of the ancestry.
#[test]
fn a_failed_poll_clears_every_slot_of_the_ancestry() {
    for vote in [0, 255] {
        let before = before_failure(1);
        let mut ws = before.clone();
        must_poll(&mut ws, 4, &[vote]);
        let changes = [
            (P, 4),
            (record(4) + STATE, 1),
            (record(4) + ORDINAL, 4),
            (entry(0) + COUNTER, 0),
            (entry(7) + COUNTER, 0),
            (entry(9) + COUNTER, 0),
        ];
        becomes(&ws, &before, &changes);
        assert_eq!(entry_words(&ws, 8), [2, 2, 1, 1]);
    }
}

/// The same calls in the first edition leave every counter.
#[test]
fn a_failed_poll_clears_nothing_in_the_first_edition() {
    let before = before_failure(0);
    let mut ws = before.clone();
    must_poll(&mut ws, 4, &[0]);
    let changes = [(P, 4), (record(4) + STATE, 1), (record(4) + ORDINAL, 4)];
    becomes(&ws, &before, &changes);
}

/// A booking on the genesis alone, in a slot of its own: slot 0 only.
#[test]
fn a_failed_poll_on_the_genesis_clears_slot_0() {
    let mut ws = before_failure(1);
    must_book(&mut ws, 6, 11, &[0]);
    let before = ws.clone();
    must_poll(&mut ws, 6, &[0]);
    let changes = [
        (P, 4),
        (record(6) + STATE, 1),
        (record(6) + ORDINAL, 4),
        (entry(0) + COUNTER, 0),
    ];
    becomes(&ws, &before, &changes);
}

/// The next chit counts on from 0 where its member is still last, and starts
/// at 1 where it is not.
#[test]
fn counting_goes_on_after_a_failed_poll() {
    let mut ws = before_failure(1);
    must_poll(&mut ws, 4, &[0]);
    must_book(&mut ws, 6, 11, &[4]);
    must_poll(&mut ws, 5, &[1]);
    assert_eq!(entry_words(&ws, 7), [1, 1, 1, 2]);
    assert_eq!(entry_words(&ws, 0), [0, 0, 1, 1]);
    assert_eq!(entry_words(&ws, 9), [3, 3, 0, 1]);
    must_poll(&mut ws, 6, &[1]);
    assert_eq!(entry_words(&ws, 7), [1, 4, 1, 2]);
    assert_eq!(entry_words(&ws, 0), [0, 0, 2, 1]);
    assert_eq!(entry_words(&ws, 9), [3, 3, 1, 1]);
}

/// A refused poll is none: no counter moves.
#[test]
fn a_refused_poll_clears_nothing() {
    let before = before_failure(1);
    for (number, name, votes) in [
        (10, 77, &[0][..]),
        (11, 1, &[0]),
        (12, 4, &[]),
        (12, 4, &[0, 0]),
        (13, 4, &[2]),
    ] {
        let mut ws = before.clone();
        assert_eq!(poll(&mut ws, name, votes), (number, 0));
        assert_eq!(ws, before);
    }
}

/// A full chain, each slot with two or three bookings: all 256 slots are met,
/// most of them more than once.
#[test]
fn a_failed_poll_clears_a_full_ledger() {
    let mut ws = opened_in(1, 1, 1, 510, 510);
    for name in 1..512 {
        must_book(&mut ws, name, 1 + (name as u16 - 1) % 255, &[name - 1]);
    }
    // 510 stands on all below it, and is counted in every slot: where there are
    // two of them, the second starts the counter again.
    must_poll(&mut ws, 510, &[1]);
    for s in 0..256 {
        assert_eq!(entry_words(&ws, s)[COUNTER], 1, "slot {s}");
    }
    let before = ws.clone();
    must_poll(&mut ws, 511, &[0]);
    let mut changes = vec![(P, 2), (record(511) + STATE, 1), (record(511) + ORDINAL, 2)];
    changes.extend((0..256).map(|s| (entry(s) + COUNTER, 0)));
    becomes(&ws, &before, &changes);
}

// ---- what a counter is enough for

/// 1 has the rival 2, and β2 is 2. The second chit on 1 brings it there; then
/// 3, alone on 1 with counter 1, is at β1 and has an accepted parent.
#[test]
fn a_counter_at_beta2_is_enough_in_the_later_edition() {
    for edition in [0, 1] {
        let mut ws = opened_in(edition, 1, 1, 1, 2);
        must_book(&mut ws, 1, 7, &[0]);
        must_book(&mut ws, 2, 7, &[0]);
        must_book(&mut ws, 3, 8, &[1]);
        must_book(&mut ws, 4, 9, &[1]);
        marks(&mut ws, 1, 1, &[0]);
        let at_both: &[usize] = if edition == 0 { &[0] } else { &[0, 1, 3] };
        marks(&mut ws, 3, 1, at_both);
        assert_eq!(entry_words(&ws, 7), [1, 1, 2, 2]);
        assert_eq!(entry_words(&ws, 8), [3, 3, 1, 1]);
        // The third is above β2; 3 is above β1 in neither.
        let above: &[usize] = if edition == 0 { &[0, 1] } else { &[0, 1, 3, 4] };
        marks(&mut ws, 4, 1, above);
        assert_eq!(entry_words(&ws, 7), [1, 1, 3, 2]);
    }
}

/// One below the bound is not enough in either edition.
#[test]
fn a_counter_below_is_not_enough() {
    let mut ws = opened_in(1, 1, 1, 2, 3);
    must_book(&mut ws, 1, 7, &[0]);
    must_book(&mut ws, 2, 8, &[1]);
    must_book(&mut ws, 3, 9, &[2]);
    marks(&mut ws, 1, 1, &[0]);
    marks(&mut ws, 2, 1, &[0, 1]);
    marks(&mut ws, 3, 1, &[0, 1, 2]);
    assert_eq!(entry_words(&ws, 7), [1, 1, 3, 1]);
    assert_eq!(entry_words(&ws, 8), [2, 2, 2, 1]);
    assert_eq!(entry_words(&ws, 9), [3, 3, 1, 1]);
}

/// A new last has its first chit counted, and so needs one less: 2 overtakes
/// 1, which has none, and is accepted by its second.
#[test]
fn a_new_last_is_accepted_by_beta2_chits() {
    let mut ws = opened_in(1, 1, 1, 1, 2);
    must_book(&mut ws, 1, 7, &[0]);
    must_book(&mut ws, 2, 7, &[0]);
    must_book(&mut ws, 3, 8, &[2]);
    marks(&mut ws, 2, 1, &[0]);
    assert_eq!(entry_words(&ws, 7), [2, 2, 1, 2]);
    marks(&mut ws, 3, 1, &[0, 2, 3]);
    assert_eq!(entry_words(&ws, 7), [2, 2, 2, 2]);
}

/// With β1 = β2 = 1 a new last is accepted by the chit that makes it so, if it
/// is preferred by then.
#[test]
fn a_new_last_is_accepted_at_once() {
    for (edition, expected) in [(0, &[0][..]), (1, &[0, 2])] {
        let mut ws = opened_in(edition, 1, 1, 1, 1);
        must_book(&mut ws, 1, 7, &[0]);
        must_book(&mut ws, 2, 7, &[0]);
        marks(&mut ws, 2, 1, expected);
    }
}

/// A failed poll between two chits keeps 1 from its mark, and takes none away
/// that was given.
#[test]
fn a_failed_poll_delays_acceptance() {
    let mut ws = opened_in(1, 1, 1, 2, 510);
    must_book(&mut ws, 1, 7, &[0]);
    for name in 2..7 {
        must_book(&mut ws, name, 6 + name as u16, &[1]);
    }
    marks(&mut ws, 2, 1, &[0]);
    marks(&mut ws, 3, 0, &[0]);
    assert_eq!(entry_words(&ws, 7), [1, 1, 0, 1]);
    marks(&mut ws, 4, 1, &[0]);
    marks(&mut ws, 5, 1, &[0, 1]);
    marks(&mut ws, 6, 0, &[0, 1]);
    assert_eq!(entry_words(&ws, 7), [1, 1, 0, 1]);
    assert_eq!(accepted(&ws, 1), (0, 1));
    assert_eq!(confidence(&ws, 1), (0, 3));
}

// ---- on words that no history reaches

/// A failed poll clears first and marks then: 1 is at β1 by its counter, and
/// a poll that fails on it leaves it without; one that fails elsewhere finds
/// it so.
#[test]
fn marks_are_given_after_counters_are_cleared() {
    let mut ws = opened_in(1, 1, 1, 2, 510);
    must_book(&mut ws, 1, 7, &[0]);
    must_book(&mut ws, 2, 8, &[1]);
    must_book(&mut ws, 3, 9, &[0]);
    must_book(&mut ws, 4, 10, &[0]);
    must_book(&mut ws, 5, 11, &[0]);
    must_poll(&mut ws, 4, &[1]);
    must_poll(&mut ws, 5, &[1]);
    ws[entry(7) + COUNTER] = 2;
    let mut other = ws.clone();
    marks(&mut ws, 2, 0, &[0]);
    assert_eq!(entry_words(&ws, 7), [1, 1, 0, 1]);
    marks(&mut other, 3, 0, &[0, 1]);
    assert_eq!(entry_words(&other, 7), [1, 1, 2, 1]);
}

/// The words say which rules a poll follows, whoever made them.
#[test]
fn the_word_decides() {
    let mut ws = run_polled(1);
    ws[EDITION] = 1;
    let before = ws.clone();
    must_poll(&mut ws, 3, &[1, 0, 0]);
    let changes = [
        (P, 2),
        (record(3) + STATE, 1),
        (record(3) + ORDINAL, 2),
        (entry(0) + COUNTER, 0),
    ];
    becomes(&ws, &before, &changes);
}

// ---- what the counters are held to can be broken

/// The law that is broken by a poll of 4 with this vote, its outcome changed.
fn broken_poll(edition: u16, vote: u8, change: impl FnOnce(&mut [u16])) -> Option<Law> {
    let before = before_failure(edition);
    let mut after = before.clone();
    must_poll(&mut after, 4, &[vote]);
    change(&mut after);
    let kept = counting::check_poll(&before, &after, 4);
    kept.err().map(|breach| breach.law)
}

/// Slots 0, 7 and 9 are met: by the genesis, by 4 where 1 was last, and by 3.
#[test]
fn what_a_poll_does_to_counters() {
    for edition in [0, 1] {
        for vote in [0, 1] {
            assert_eq!(broken_poll(edition, vote, |_| ()), None);
            for s in [0, 7, 8, 9, 10, 11, 255] {
                let other = broken_poll(edition, vote, |ws| ws[entry(s) + COUNTER] += 1);
                assert_eq!(other, Some(Law::Counted), "slot {s}");
            }
            for last in [3, 5, UNUSED] {
                let other = broken_poll(edition, vote, |ws| ws[entry(7) + LAST] = last);
                assert_eq!(other, Some(Law::Counted));
            }
            let other = broken_poll(edition, vote, |ws| ws[EDITION] = 1 - edition);
            assert_eq!(other, Some(Law::Counted));
        }
    }
    // Each edition's outcome is none of the other's.
    let started = broken_poll(1, 1, |ws| ws[entry(7) + COUNTER] = 0);
    assert_eq!(started, Some(Law::Counted));
    let started = broken_poll(0, 1, |ws| ws[entry(7) + COUNTER] = 1);
    assert_eq!(started, Some(Law::Counted));
    for (s, counter) in [(0, 3), (7, 2), (9, 1)] {
        let kept = broken_poll(1, 0, |ws| ws[entry(s) + COUNTER] = counter);
        assert_eq!(kept, Some(Law::Counted));
        let cleared = broken_poll(0, 0, |ws| ws[entry(s) + COUNTER] = 0);
        assert_eq!(cleared, Some(Law::Counted));
    }
}

#[test]
fn what_a_booking_does_to_counters() {
    let before = before_failure(1);
    let mut after = before.clone();
    must_book(&mut after, 6, 11, &[4]);
    assert_eq!(counting::check_booking(&before, &after), Ok(()));
    for s in [0, 7, 11] {
        let mut other = after.clone();
        other[entry(s) + COUNTER] += 1;
        assert!(counting::check_booking(&before, &other).is_err());
    }
    after[EDITION] = 0;
    assert!(counting::check_booking(&before, &after).is_err());
}

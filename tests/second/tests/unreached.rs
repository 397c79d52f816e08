//! Sound words that no history reaches are answered by the rules too.

mod ledgers;
use ledgers::*;
use second::layout::*;
use second::words::*;

/// Run after its polls, changed within soundness.
fn changed(change: impl FnOnce(&mut [u16])) -> Vec<u16> {
    let mut ws = run_polled(4);
    change(&mut ws);
    ws
}

/// A rival may have more than the preferred booking; the reading says so.
#[test]
fn a_rival_above_the_preferred() {
    let ws = changed(|ws| ws[record(1) + CONFIDENCE] = 3);
    assert_eq!(readings(&ws, lead), [1, -1]);
    assert_eq!(readings(&ws, query), [0, 1, 0, 0]);
}

/// Preference goes to the first member strictly above, after all are raised,
/// and members of one slot take it in rising number.
#[test]
fn members_of_one_slot_in_rising_number() {
    // 1, 2 and 3 in slot 7, a chain; 2 is preferred, nobody has confidence.
    let mut ws = opened(1, 1, 1, 2);
    must_book(&mut ws, 1, 7, &[0]);
    must_book(&mut ws, 2, 7, &[1]);
    must_book(&mut ws, 3, 7, &[2]);
    ws[entry(7) + PREFERRED] = 2;
    must_poll(&mut ws, 3, &[1]);
    // All stand at one: a tie, thrice. Each became last in its turn.
    assert_eq!(entry_words(&ws, 7), [2, 3, 0, 3]);
}

/// The counter rises for the one that is last, and falls for the next.
#[test]
fn a_counter_rises_and_falls_in_one_poll() {
    let mut ws = opened(1, 1, 1, 2);
    must_book(&mut ws, 1, 7, &[0]);
    must_book(&mut ws, 2, 7, &[1]);
    must_book(&mut ws, 3, 8, &[2]);
    must_poll(&mut ws, 1, &[1]);
    assert_eq!(entry_words(&ws, 7), [1, 1, 1, 2]);
    must_poll(&mut ws, 3, &[1]);
    assert_eq!(entry_words(&ws, 7), [1, 2, 0, 2]);
}

/// Who of 1 to 4 is accepted after a poll that fails, of a booking that has
/// nothing to do with them, on words changed before it. Until the poll the
/// marks alone count, and the change made none.
fn accepted_after(change: impl FnOnce(&mut [u16])) -> [i64; 4] {
    let mut ws = run_polled(4);
    must_book(&mut ws, 5, 11, &[0]);
    change(&mut ws);
    let before: [i64; 4] = readings(&ws, accepted);
    assert_eq!(before.map(|value| value as usize), marks_of_1_to_4(&ws));
    let mut expected = ws.clone();
    must_poll(&mut ws, 5, &[1, 255, 0]);
    // Beside marks only p, state and ordinal move.
    expected[P] = 5;
    expected[record(5) + STATE] = 1;
    expected[record(5) + ORDINAL] = 5;
    for b in 0..6 {
        expected[record(b) + MARK] = ws[record(b) + MARK];
    }
    assert_eq!(ws, expected);
    assert_eq!(accepted(&ws, 5), (0, 0));
    readings(&ws, accepted)
}

fn marks_of_1_to_4(ws: &[u16]) -> [usize; 4] {
    [1, 2, 3, 4].map(|b| record_word(ws, b, MARK).into())
}

/// β2 counts for the booking that is both preferred and last.
#[test]
fn the_second_arm_needs_both() {
    // β2 is 2, so a counter of 3 is above it.
    let both = accepted_after(|ws| ws[entry(7)..entry(8)].copy_from_slice(&[2, 2, 3, 2]));
    assert_eq!(both, [0, 1, 0, 0]);
    let apart = accepted_after(|ws| ws[entry(7)..entry(8)].copy_from_slice(&[2, 1, 3, 2]));
    assert_eq!(apart, [0, 0, 0, 0]);
    let at = accepted_after(|ws| ws[entry(7)..entry(8)].copy_from_slice(&[2, 2, 2, 2]));
    assert_eq!(at, [0, 0, 0, 0]);
}

/// β1 counts for one alone in its slot, and only on accepted parents.
#[test]
fn the_first_arm_needs_accepted_parents() {
    let alone = accepted_after(|ws| ws[entry(9) + COUNTER] = 2);
    assert_eq!(alone, [0, 0, 0, 0]);
    // Parent 1 is accepted by its own counter; then 3 is by β1.
    let on_accepted = accepted_after(|ws| {
        ws[entry(9) + COUNTER] = 2;
        ws[entry(7)..entry(8)].copy_from_slice(&[1, 1, 3, 2]);
    });
    assert_eq!(on_accepted, [1, 0, 1, 0]);
    // Booking 4 also stands on 2, which is not accepted.
    let one_parent_short = accepted_after(|ws| {
        ws[entry(10) + COUNTER] = 2;
        ws[entry(7)..entry(8)].copy_from_slice(&[1, 1, 3, 2]);
    });
    assert_eq!(one_parent_short, [1, 0, 0, 0]);
    // Above β2 it needs no parents.
    let by_beta2 = accepted_after(|ws| ws[entry(10) + COUNTER] = 3);
    assert_eq!(by_beta2, [0, 0, 0, 1]);
}

/// A parent's mark counts, not whether it would be accepted today: 1 is not
/// even last in slot 7.
#[test]
fn the_first_arm_asks_for_marks_of_parents() {
    let on_marked = accepted_after(|ws| {
        ws[entry(9) + COUNTER] = 2;
        ws[record(1) + MARK] = 1;
    });
    assert_eq!(on_marked, [1, 0, 1, 0]);
    // At β1 it is not enough.
    let at_beta1 = accepted_after(|ws| {
        ws[entry(9) + COUNTER] = 1;
        ws[record(1) + MARK] = 1;
    });
    assert_eq!(at_beta1, [1, 0, 0, 0]);
}

/// Nobody is marked beside a rival that is, whichever of them is lower; and
/// what stands on who is passed over is not marked either.
#[test]
fn a_mark_stands_in_the_way_of_rivals() {
    let beside_2 = accepted_after(|ws| {
        ws[entry(7)..entry(8)].copy_from_slice(&[1, 1, 3, 2]);
        ws[entry(9) + COUNTER] = 2;
        ws[record(2) + MARK] = 1;
    });
    assert_eq!(beside_2, [0, 1, 0, 0]);
    let beside_1 = accepted_after(|ws| {
        ws[entry(7)..entry(8)].copy_from_slice(&[2, 2, 3, 2]);
        ws[record(1) + MARK] = 1;
    });
    assert_eq!(beside_1, [1, 0, 0, 0]);
}

/// A mark that nothing earned stays, too.
#[test]
fn marks_that_no_poll_gave_stay() {
    let kept = accepted_after(|ws| {
        ws[record(2) + MARK] = 1;
        ws[record(4) + MARK] = 1;
    });
    assert_eq!(kept, [0, 1, 0, 1]);
}

/// The genesis is accepted and preferred whatever its counter is.
#[test]
fn the_genesis_is_accepted() {
    let ws = changed(|ws| ws[entry(0) + COUNTER] = 0);
    assert_eq!(accepted(&ws, 0), (0, 1));
    assert_eq!(query(&ws, 0), (0, 1));
}

/// A poll takes p + 1 whatever order the earlier ordinals stand in.
#[test]
fn ordinals_in_another_order() {
    let mut ws = run_polled(2);
    ws[record(2) + ORDINAL] = 2;
    ws[record(3) + ORDINAL] = 1;
    must_poll(&mut ws, 4, &[0, 0, 0]);
    assert_eq!(record_word(&ws, 4, ORDINAL), 3);
}

/// The lowest lead of all: every booking polled with success, none of that
/// shown by the last one's confidence, all of it by its rival's.
#[test]
fn the_lead_of_minus_511() {
    let mut ws = chain(512);
    for name in 1..512 {
        must_poll(&mut ws, name, &[1]);
    }
    // Slots are taken in turn, so that 256 and 511 are rivals.
    ws[record(256) + CONFIDENCE] = 511;
    ws[record(511) + CONFIDENCE] = 0;
    assert_eq!(lead(&ws, 511), (0, -511));
    assert_eq!(lead(&ws, 256).0, 0);
}

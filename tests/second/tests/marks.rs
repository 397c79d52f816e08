//! Who is marked by which poll, worked out by hand: acceptance is given once
//! and stays. `unreached.rs` has words that no history reaches, `read_file.rs`
//! what a reading makes of marks.

mod ledgers;
use ledgers::*;
use second::console;
use second::laws::Law;
use second::layout::*;
use second::marking::{check_booking, check_opening, check_poll};
use second::words::*;

/// A taken booking that changes no mark.
fn books(ws: &mut [u16], name: u64, slot: u16, parents: &[u64]) {
    let before = ws.to_vec();
    must_book(ws, name, slot, parents);
    assert_eq!(marked(ws), marked(&before));
    assert_eq!(check_booking(&before, ws), Ok(()));
}

/// A taken poll with one vote, after which these are marked.
fn marks(ws: &mut [u16], name: u64, vote: u8, expected: &[usize]) {
    let before = ws.to_vec();
    must_poll(ws, name, &[vote]);
    assert_eq!(marked(ws), expected);
    assert_eq!(check_poll(&before, ws), Ok(()));
}

#[test]
fn an_opening_marks_the_genesis() {
    let mut ws = overtaken();
    assert_eq!(open(&mut ws, 1, 1, 1, 2, 0), (0, 0));
    assert_eq!(marked(&ws), [0]);
    assert_eq!(accepted(&ws, 0), (0, 1));
    assert_eq!(check_opening(&ws), Ok(()));
    assert_eq!(ws, opened(1, 1, 1, 2));
}

/// P9 and P10, and the rival that used to take the acceptance away: slot 7
/// has two bookings then, and its counter of 2 is not above β2.
#[test]
fn a_rival_that_comes_later_leaves_it_accepted() {
    let mut ws = opened(1, 1, 1, 2);
    books(&mut ws, 1, 7, &[0]);
    books(&mut ws, 2, 8, &[1]);
    marks(&mut ws, 1, 1, &[0]);
    marks(&mut ws, 2, 1, &[0, 1]);
    assert_eq!(ws, accepted_1());
    books(&mut ws, 3, 7, &[0]);
    assert_eq!(entry_words(&ws, 7), [1, 1, 2, 2]);
    assert_eq!(readings(&ws, accepted), [1, 0, 0]);
    // A poll that fails asks everybody again, and takes nothing away.
    books(&mut ws, 4, 7, &[0]);
    marks(&mut ws, 4, 0, &[0, 1]);
}

/// 3 is preferred and last in slot 7 with counter 3, above β2, and is not
/// accepted, since 1 is.
#[test]
fn a_rival_that_overtakes_is_not_accepted() {
    let mut ws = accepted_1();
    books(&mut ws, 3, 7, &[0]);
    for name in 4..7 {
        books(&mut ws, name, 7 + name as u16, &[3]);
    }
    // preferred, last, counter, bookings
    let slot_7 = [[1, 3, 0, 2], [1, 3, 1, 2], [3, 3, 2, 2], [3, 3, 3, 2]];
    for (name, expected) in (3..7).zip(slot_7) {
        marks(&mut ws, name, 1, &[0, 1]);
        assert_eq!(entry_words(&ws, 7), expected);
    }
    assert_eq!(ws, overtaken());
    assert_eq!(readings(&ws, accepted), [1, 0, 0, 0, 0, 0]);
    assert_eq!(readings(&ws, query), [0, 0, 1, 1, 1, 1]);
}

/// The same on the console, where the last field says it.
#[test]
fn a_list_shows_marks() {
    let input = "open 1 1 1 2 0\nbook 1 7 0\nbook 2 8 1\npoll 1 1\npoll 2 1\n\
        book 3 7 0\nbook 4 11 3\nbook 5 12 3\nbook 6 13 3\n\
        poll 3 1\npoll 4 1\npoll 5 1\npoll 6 1\nlist\naccepted 1\naccepted 3\n";
    let printed = "number slot state confidence preferred accepted\n\
        0 0 1 6 1 1\n\
        1 7 2 2 0 1\n\
        2 8 2 1 1 0\n\
        3 7 2 4 1 0\n\
        4 11 2 1 1 0\n\
        5 12 2 1 1 0\n\
        6 13 2 1 1 0\n\
        1\n\
        0\n";
    assert_eq!(console::run(input.as_bytes()), printed.as_bytes());
}

/// A chain of 1, 2 and 3 in slots of their own. The second poll brings 1 and
/// 2 to counter 2, and 2 needs the mark that 1 gets by the same poll.
#[test]
fn parent_and_child_are_marked_by_one_poll() {
    let mut ws = opened(1, 1, 1, 510);
    books(&mut ws, 1, 7, &[0]);
    books(&mut ws, 2, 8, &[1]);
    books(&mut ws, 3, 9, &[2]);
    marks(&mut ws, 2, 1, &[0]);
    marks(&mut ws, 3, 1, &[0, 1, 2]);
}

/// 3 stands alone in slot 8 with counter 2 above β1, but on 1, which has the
/// rival 2. A poll of 5, which stands on 1 and not on 3, brings slot 7 to
/// counter 3, above β2: 1 is marked, and 3 with it.
#[test]
fn a_booking_outside_the_ancestry_is_marked() {
    let mut ws = opened(1, 1, 1, 2);
    books(&mut ws, 1, 7, &[0]);
    books(&mut ws, 2, 7, &[0]);
    books(&mut ws, 3, 8, &[1]);
    books(&mut ws, 4, 9, &[3]);
    books(&mut ws, 5, 10, &[1]);
    marks(&mut ws, 3, 1, &[0]);
    marks(&mut ws, 4, 1, &[0]);
    assert_eq!(entry_words(&ws, 8), [3, 3, 2, 1]);
    marks(&mut ws, 5, 1, &[0, 1, 3]);
    assert_eq!(entry_words(&ws, 7), [1, 1, 3, 2]);
    assert_eq!(entry_words(&ws, 8), [3, 3, 2, 1]);
    assert_eq!(size(&ws, 5), (0, 3));
}

/// After a poll nobody is left who earns a mark, and a booking earns none for
/// anybody, so that in a history a poll that fails finds nobody to mark.
#[test]
fn polls_that_fail_mark_nobody_in_a_history() {
    for mut ws in [accepted_1(), overtaken(), run_polled(4)] {
        let votes = vec![255; ws[K].into()];
        let before = marked(&ws);
        for (name, slot) in [(90, 7), (91, 200)] {
            must_book(&mut ws, name, slot, &[0]);
            let booked = ws.clone();
            must_poll(&mut ws, name, &votes);
            assert_eq!(marked(&ws), before);
            assert_eq!(check_poll(&booked, &ws), Ok(()));
        }
    }
}

/// 1 would not be accepted today: it has a rival, and β2 is far. Its mark
/// counts for 2 all the same.
#[test]
fn a_child_stands_on_its_parents_mark() {
    let mut ws = opened(1, 1, 1, 510);
    books(&mut ws, 1, 7, &[0]);
    books(&mut ws, 2, 8, &[1]);
    marks(&mut ws, 1, 1, &[0]);
    marks(&mut ws, 2, 1, &[0, 1]);
    books(&mut ws, 3, 7, &[0]);
    books(&mut ws, 4, 9, &[2]);
    marks(&mut ws, 4, 1, &[0, 1, 2]);
}

/// A rival that comes before the mark is given keeps 1 from it until the
/// counter is above β2: 3 with the third poll.
#[test]
fn a_rival_that_comes_in_time_asks_for_beta2() {
    let mut ws = opened(1, 1, 1, 2);
    books(&mut ws, 1, 7, &[0]);
    books(&mut ws, 2, 8, &[1]);
    books(&mut ws, 3, 8, &[1]);
    marks(&mut ws, 1, 1, &[0]);
    books(&mut ws, 4, 7, &[0]);
    marks(&mut ws, 2, 1, &[0]);
    marks(&mut ws, 3, 1, &[0, 1]);
    // 4 becomes last: the counter is 0, and the mark stays.
    marks(&mut ws, 4, 1, &[0, 1]);
    assert_eq!(entry_words(&ws, 7), [1, 4, 0, 2]);
}

#[test]
fn refused_calls_leave_marks() {
    let before = overtaken();
    let mut ws = before.clone();
    assert_eq!(open(&mut ws, 2, 1, 1, 2, 0), (3, 0));
    assert_eq!(book(&mut ws, 1, 7, &[0]), (4, 0));
    assert_eq!(poll(&mut ws, 1, &[1]), (11, 0));
    assert_eq!(read_first(&mut ws, &[]), (17, 0));
    assert_eq!(ws, before);
}

// ---- what the marks are held to can be broken

/// The poll of 2 in P10, with its outcome changed.
fn broken_poll(change: impl FnOnce(&mut [u16])) -> Option<Law> {
    let mut before = opened(1, 1, 1, 2);
    must_book(&mut before, 1, 7, &[0]);
    must_book(&mut before, 2, 8, &[1]);
    must_poll(&mut before, 1, &[1]);
    let mut after = accepted_1();
    change(&mut after);
    let kept = check_poll(&before, &after);
    kept.err().map(|breach| breach.law)
}

#[test]
fn what_a_poll_does_to_marks() {
    assert_eq!(broken_poll(|_| ()), None);
    let lost = broken_poll(|ws| ws[record(0) + MARK] = 0);
    assert_eq!(lost, Some(Law::AcceptedStays));
    let passed_over = broken_poll(|ws| ws[record(1) + MARK] = 0);
    assert_eq!(passed_over, Some(Law::MarkGiven));
    // The counter of 2 is at β1.
    let not_earned = broken_poll(|ws| ws[record(2) + MARK] = 1);
    assert_eq!(not_earned, Some(Law::MarkEarned));
    // One that is above it was earned.
    let earned = broken_poll(|ws| {
        ws[record(2) + MARK] = 1;
        ws[entry(8) + COUNTER] = 2;
    });
    assert_eq!(earned, None);
}

/// 3 earns a mark by its fourth poll, which 1 keeps it from.
#[test]
fn a_mark_that_a_rival_has_is_not_given() {
    let after = overtaken();
    let mut before = after.clone();
    assert_eq!(check_poll(&before, &after), Ok(()));
    // Had 1 no mark before, 3 would have to have one.
    before[record(1) + MARK] = 0;
    let law = |before: &[u16], after: &[u16]| check_poll(before, after).unwrap_err().law;
    let mut unmarked = after.clone();
    unmarked[record(1) + MARK] = 0;
    assert_eq!(law(&before, &unmarked), Law::MarkGiven);
    // 1 itself does not earn it any more.
    assert_eq!(law(&before, &after), Law::MarkEarned);
    let mut handed = unmarked.clone();
    handed[record(3) + MARK] = 1;
    assert_eq!(check_poll(&before, &handed), Ok(()));
    // It must not be taken over, nor be held by both.
    assert_eq!(law(&after, &handed), Law::AcceptedStays);
    handed[record(1) + MARK] = 1;
    assert_eq!(law(&after, &handed), Law::MarkEarned);
}

#[test]
fn what_a_booking_does_to_marks() {
    let before = accepted_1();
    let mut after = before.clone();
    must_book(&mut after, 3, 7, &[0]);
    assert_eq!(check_booking(&before, &after), Ok(()));
    for (b, mark, law) in [
        (1, 0, Law::AcceptedStays),
        (0, 0, Law::AcceptedStays),
        (2, 1, Law::MarkEarned),
        (3, 1, Law::MarkEarned),
    ] {
        let mut other = after.clone();
        other[record(b) + MARK] = mark;
        assert_eq!(check_booking(&before, &other).unwrap_err().law, law);
    }
}

#[test]
fn what_an_opening_does_to_marks() {
    let mut ws = opened(1, 1, 1, 2);
    ws[record(0) + MARK] = 0;
    assert_eq!(check_opening(&ws).unwrap_err().law, Law::MarkGiven);
    let ws = accepted_1();
    assert_eq!(check_opening(&ws).unwrap_err().law, Law::MarkEarned);
}

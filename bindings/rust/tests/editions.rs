//! What the later edition changes, beside the first: where a counter starts again, which counter is enough, and what a failed
//! poll clears. Every expectation is worked out by hand.
use filzhammer::*;

mod listed;
use listed::*;

/// One vote in a poll.
fn one_vote(beta1: u16, beta2: u16, edition: u16) -> Setting {
    Setting {
        k: 1,
        a: 1,
        beta1,
        beta2,
        edition,
    }
}

/// A ledger with these bookings: name, slot, and the one parent. Names and numbers are the same.
fn booked(setting: Setting, bookings: &[(u64, u16, u64)]) -> [u16; WORDS] {
    let mut ws = [0; WORDS];
    open(&mut ws, setting).unwrap();
    for &(name, slot, parent) in bookings {
        book(&mut ws, name, slot, &[parent]).unwrap();
    }
    ws
}

/// A slot's preferred number, last number, counter, and how many bookings it has.
fn entry(ws: &[u16], slot: usize) -> [u16; 4] {
    let start = 6664 + 4 * slot;
    ws[start..start + 4].try_into().unwrap()
}

fn counter(slot: usize) -> usize {
    6664 + 4 * slot + 2
}

fn mark(number: usize) -> usize {
    8 + 13 * number + 12
}

/// Who is accepted, of the names from 0 on.
fn all_accepted<const N: usize>(ws: &[u16]) -> [i64; N] {
    std::array::from_fn(|name| accepted(ws, name as u64).unwrap())
}

// ---- the example

/// Of slots 0 and 7, which change. Slot 9 has [3, 3, 0, 1] throughout, and slot 10 [4, 4, 1, 1] from the third poll on.
#[test]
fn the_examples_slots_after_each_poll() {
    let first = [
        ([0, 0, 0, 1], [1, 1, 0, 2]),
        ([0, 0, 1, 1], [2, 2, 0, 2]), // 2 won, and is last now
        ([0, 0, 1, 1], [2, 2, 0, 2]), // 3 lost
        ([0, 0, 2, 1], [2, 2, 0, 2]), // 4 won: 1 is last, and then 2 again
        ([0, 0, 3, 1], [2, 1, 0, 2]), // 1 won
    ];
    let later = [
        ([0, 0, 0, 1], [1, 1, 0, 2]),
        ([0, 0, 1, 1], [2, 2, 1, 2]), // the raise by which 2 is last counts
        ([0, 0, 0, 1], [2, 2, 0, 2]), // 3 rests on 1 and 0: slot 7 is cleared, though 2 is last
        ([0, 0, 1, 1], [2, 2, 1, 2]),
        ([0, 0, 2, 1], [2, 1, 1, 2]),
    ];
    for (setting, expected) in [(SETTING, first), (LATER, later)] {
        for (polls, (slot_0, slot_7)) in expected.into_iter().enumerate() {
            let ws = listed_by(setting, polls);
            assert_eq!(entry(&ws, 0), slot_0);
            assert_eq!(entry(&ws, 7), slot_7);
            assert_eq!(entry(&ws, 9), [3, 3, 0, 1]);
            assert_eq!(entry(&ws, 10), [4, 4, (polls > 2) as u16, 1]);
        }
    }
}

#[test]
fn only_the_edition_and_counters_differ() {
    for polls in 0..=4 {
        let (first, later) = (listed(polls), listed_by(LATER, polls));
        let differ = |&place: &usize| first[place] != later[place];
        for place in (0..WORDS).filter(differ) {
            assert!(place == 6 || place == counter(0) || place == counter(7));
        }
        for name in 0..=4 {
            for reading in [query, accepted, lead, confidence, size] {
                assert_eq!(reading(&first, name), reading(&later, name));
            }
        }
    }
}

// ---- which counter is enough

#[test]
fn a_counter_of_beta1_is_enough() {
    let bookings = [(1, 7, 0), (2, 8, 1), (3, 9, 2)];
    for (edition, after_one, after_two) in [(0, 0, 0), (1, 0, 1)] {
        let mut ws = booked(one_vote(2, 3, edition), &bookings);
        poll(&mut ws, 1, &[YES]).unwrap();
        assert_eq!(entry(&ws, 7), [1, 1, 1, 1]);
        assert_eq!(accepted(&ws, 1), Ok(after_one));
        poll(&mut ws, 2, &[YES]).unwrap();
        assert_eq!(entry(&ws, 7), [1, 1, 2, 1]);
        assert_eq!(accepted(&ws, 1), Ok(after_two));
        poll(&mut ws, 3, &[YES]).unwrap(); // slot 7 has 3, which is above 2
        assert_eq!(accepted(&ws, 1), Ok(1));
    }
}

#[test]
fn one_success_is_enough_for_a_beta1_of_1() {
    let mut ws = booked(one_vote(1, 2, 1), &[(1, 7, 0), (2, 8, 1)]);
    poll(&mut ws, 1, &[YES]).unwrap();
    assert_eq!(entry(&ws, 7), [1, 1, 1, 1]);
    assert_eq!(all_accepted(&ws), [1, 1, 0]);
    poll(&mut ws, 2, &[NO]).unwrap(); // clears slots 0, 7 and 8
    assert_eq!(entry(&ws, 7), [1, 1, 0, 1]);
    assert_eq!(all_accepted(&ws), [1, 1, 0]);
}

/// 1 has a rival. 3 rests on 1, and is accepted along with it.
#[test]
fn a_counter_of_beta2_is_enough() {
    let bookings = [(1, 7, 0), (2, 7, 0), (3, 8, 1)];
    for (edition, expected) in [(0, [1, 0, 0, 0]), (1, [1, 1, 0, 1])] {
        let mut ws = booked(one_vote(1, 2, edition), &bookings);
        poll(&mut ws, 1, &[YES]).unwrap();
        assert_eq!(all_accepted(&ws), [1, 0, 0, 0]);
        poll(&mut ws, 3, &[YES]).unwrap();
        assert_eq!(entry(&ws, 7), [1, 1, 2, 2]);
        assert_eq!(all_accepted(&ws), expected);
    }
}

// ---- where a counter starts again

/// 2 takes slot 7 from 1 by its first poll, and the second raises it again.
#[test]
fn a_new_last_has_counter_1() {
    let bookings = [(1, 7, 0), (2, 7, 0), (3, 8, 2)];
    for (edition, restart, expected) in [(0, 0, [1, 0, 0, 0]), (1, 1, [1, 0, 1, 1])] {
        let mut ws = booked(one_vote(1, 2, edition), &bookings);
        assert_eq!(entry(&ws, 7), [1, 1, 0, 2]); // the first of a slot has counter 0 with either
        poll(&mut ws, 2, &[YES]).unwrap();
        assert_eq!(entry(&ws, 7), [2, 2, restart, 2]);
        assert_eq!(all_accepted(&ws), [1, 0, 0, 0]);
        poll(&mut ws, 3, &[YES]).unwrap();
        assert_eq!(entry(&ws, 7), [2, 2, restart + 1, 2]);
        assert_eq!(all_accepted(&ws), expected);
    }
}

// ---- what a failed poll clears

/// 3 rests on 2, 2 on 1, and 5 is a rival of 1 and last in slot 7. Then 2 loses its poll: its ancestry is 0, 1 and 2, in slots
/// 0, 7 and 8. Slots 9 and 10 are those of 3, which rests on it, and of 4, which has nothing to do with it.
#[test]
fn a_failed_poll_clears_the_slots_of_its_ancestry() {
    let bookings = [(1, 7, 0), (2, 8, 1), (3, 9, 2), (4, 10, 0), (5, 7, 0)];
    for edition in [0, 1] {
        let mut ws = booked(one_vote(3, 4, edition), &bookings);
        for name in [3, 4, 5] {
            poll(&mut ws, name, &[YES]).unwrap();
        }
        assert_eq!(entry(&ws, 0), [0, 0, 3, 1]);
        assert_eq!(entry(&ws, 7), [1, 5, edition, 2]);
        for (slot, number) in [(8, 2), (9, 3), (10, 4)] {
            assert_eq!(entry(&ws, slot), [number, number, 1, 1]);
        }
        let mut expected = ws;
        expected[5] = 4; // p
        expected[8 + 13 * 2 + 9] = 1; // the state of 2
        expected[8 + 13 * 2 + 11] = 4; // its ordinal
        if edition == 1 {
            for slot in [0, 7, 8] {
                assert_ne!(expected[counter(slot)], 0);
                expected[counter(slot)] = 0;
            }
        }
        poll(&mut ws, 2, &[SILENT]).unwrap();
        assert_eq!(ws, expected);
    }
}

/// After a poll that failed counting starts again: the second success after it is one too few.
#[test]
fn successes_before_a_failure_do_not_count() {
    let bookings = [(1, 7, 0), (2, 8, 1), (3, 9, 1), (4, 10, 1), (5, 11, 1)];
    let mut ws = booked(one_vote(3, 4, 1), &bookings);
    for (name, vote, slot_7, is_accepted) in [
        (2, YES, 1, 0),
        (3, YES, 2, 0),
        (1, NO, 0, 0),
        (4, YES, 1, 0),
        (5, YES, 2, 0),
    ] {
        poll(&mut ws, name, &[vote]).unwrap();
        assert_eq!(entry(&ws, 7), [1, 1, slot_7, 1]);
        assert_eq!(accepted(&ws, 1), Ok(is_accepted));
    }
    book(&mut ws, 6, 12, &[1]).unwrap();
    poll(&mut ws, 6, &[YES]).unwrap();
    assert_eq!(entry(&ws, 7), [1, 1, 3, 1]);
    assert_eq!(accepted(&ws, 1), Ok(1));
    assert_eq!(confidence(&ws, 1), Ok(5)); // every success counts here
}

/// Words that no calls lead to: slot 7 prefers 3, which is last too, with counter 2, and nobody of it is marked. A failed poll
/// marks 3, unless it clears slot 7 before that.
#[test]
fn counters_are_cleared_before_marks_are_given() {
    for (parent, marked) in [(0, 1), (3, 0)] {
        let mut ws = booked(one_vote(1, 2, 1), &[(1, 7, 0), (2, 8, 1)]);
        poll(&mut ws, 1, &[YES]).unwrap();
        poll(&mut ws, 2, &[YES]).unwrap();
        book(&mut ws, 3, 7, &[0]).unwrap();
        assert_eq!(all_accepted(&ws), [1, 1, 1, 0]);
        assert_eq!(entry(&ws, 7), [1, 1, 2, 2]);
        ws[mark(1)] = 0;
        ws[6664 + 4 * 7] = 3;
        ws[6664 + 4 * 7 + 1] = 3;
        book(&mut ws, 4, 9, &[parent]).unwrap();
        poll(&mut ws, 4, &[NO]).unwrap();
        assert_eq!(all_accepted(&ws), [1, 0, 1, marked, 0]);
    }
}

//! The worked run of the rules and its cases, with every expectation worked out by hand. It goes by the first edition; the later
//! one has `editions.rs`.
use filzhammer::*;

const ONE_VOTE: Setting = Setting {
    k: 1,
    a: 1,
    beta1: 1,
    beta2: 2,
    edition: 0,
};

/// Three votes in a poll, of which two must be yes; five bookings, of which 1 and 2 compete for slot 7.
fn booked() -> [u16; WORDS] {
    let mut ws = [0; WORDS];
    open(
        &mut ws,
        Setting {
            k: 3,
            a: 2,
            beta1: 1,
            beta2: 2,
            edition: 0,
        },
    )
    .unwrap();
    book(&mut ws, 1, 7, &[0]).unwrap();
    book(&mut ws, 2, 7, &[0]).unwrap();
    book(&mut ws, 3, 9, &[1]).unwrap();
    book(&mut ws, 4, 10, &[1, 2]).unwrap();
    ws
}

type Reading = fn(&[u16], u64) -> Result<i64, Refusal>;

/// The readings of the names from 0 on.
fn column<const N: usize>(ws: &[u16], reading: Reading) -> [i64; N] {
    std::array::from_fn(|name| reading(ws, name as u64).unwrap())
}

/// A slot's preferred number, last number, counter, and how many bookings it has.
fn entry(ws: &[u16], slot: usize) -> [u16; 4] {
    let start = 6664 + 4 * slot;
    ws[start..start + 4].try_into().unwrap()
}

#[test]
fn before_any_poll_the_first_of_a_slot_is_preferred() {
    let ws = booked();
    assert_eq!(column(&ws, query), [1, 1, 0, 1, 0]);
    assert_eq!(column(&ws, size), [1, 2, 2, 3, 4]);
    assert_eq!(column(&ws, confidence), [0; 5]);
}

#[test]
fn a_won_poll_moves_the_preference() {
    let mut ws = booked();
    poll(&mut ws, 2, &[YES, YES, NO]).unwrap();
    assert_eq!(entry(&ws, 7), [2, 2, 0, 2]);
    assert_eq!(column(&ws, query), [1, 0, 1, 0, 0]);
    assert_eq!(column(&ws, lead), [1, -1, 1, 0, 0]);
}

#[test]
fn a_lost_poll_moves_state_ordinal_and_p_only() {
    let mut ws = booked();
    poll(&mut ws, 2, &[YES, YES, NO]).unwrap();
    let mut expected = ws;
    poll(&mut ws, 3, &[YES, SILENT, SILENT]).unwrap();
    let record = 8 + 13 * 3;
    expected[5] = 2; // p
    expected[record + 9] = 1; // state
    expected[record + 11] = 2; // ordinal
    assert_eq!(ws, expected);
}

#[test]
fn three_noes_lose() {
    let mut ws = booked();
    poll(&mut ws, 1, &[NO; 3]).unwrap();
    assert_eq!(column(&ws, confidence), [0; 5]);
}

#[test]
fn an_ancestor_is_raised_once_though_two_paths_reach_it() {
    let mut ws = booked();
    poll(&mut ws, 2, &[YES, YES, NO]).unwrap();
    poll(&mut ws, 3, &[YES, SILENT, SILENT]).unwrap();
    poll(&mut ws, 4, &[YES; 3]).unwrap();
    assert_eq!(column(&ws, confidence), [2, 1, 2, 0, 1]);
}

#[test]
fn a_tie_leaves_the_preference() {
    let mut ws = booked();
    poll(&mut ws, 2, &[YES, YES, NO]).unwrap();
    poll(&mut ws, 3, &[YES, SILENT, SILENT]).unwrap();
    poll(&mut ws, 4, &[YES; 3]).unwrap();
    poll(&mut ws, 1, &[YES, YES, SILENT]).unwrap();
    assert_eq!(column(&ws, confidence), [3, 2, 2, 0, 1]);
    assert_eq!(column(&ws, lead), [3, 0, 0, 0, 1]);
    assert_eq!(column(&ws, query), [1, 0, 1, 0, 0]);
    assert_eq!(column(&ws, accepted), [1, 0, 0, 0, 0]);
    assert_eq!(entry(&ws, 0), [0, 0, 3, 1]);
    assert_eq!(entry(&ws, 7), [2, 1, 0, 2]);
    assert_eq!(entry(&ws, 9), [3, 3, 0, 1]);
    assert_eq!(entry(&ws, 10), [4, 4, 1, 1]);
}

#[test]
fn a_booking_is_accepted_above_beta1_and_not_at_it() {
    let mut ws = [0; WORDS];
    open(&mut ws, ONE_VOTE).unwrap();
    book(&mut ws, 1, 7, &[0]).unwrap();
    book(&mut ws, 2, 8, &[1]).unwrap();
    poll(&mut ws, 1, &[YES]).unwrap();
    assert_eq!(entry(&ws, 7), [1, 1, 1, 1]);
    assert_eq!(column(&ws, accepted), [1, 0, 0]);
    poll(&mut ws, 2, &[YES]).unwrap();
    assert_eq!(entry(&ws, 7), [1, 1, 2, 1]);
    assert_eq!(column(&ws, accepted), [1, 1, 0]);
}

/// The marks of the numbers from 0 on.
fn marks<const N: usize>(ws: &[u16]) -> [u16; N] {
    std::array::from_fn(|number| ws[8 + 13 * number + 12])
}

/// 1 was accepted alone in slot 7, and 3 came after that.
fn late_rival() -> [u16; WORDS] {
    let mut ws = [0; WORDS];
    open(&mut ws, ONE_VOTE).unwrap();
    book(&mut ws, 1, 7, &[0]).unwrap();
    book(&mut ws, 2, 8, &[1]).unwrap();
    poll(&mut ws, 1, &[YES]).unwrap();
    poll(&mut ws, 2, &[YES]).unwrap();
    book(&mut ws, 3, 7, &[0]).unwrap();
    ws
}

#[test]
fn a_late_rival_leaves_an_acceptance() {
    let mut ws = late_rival();
    assert_eq!(marks(&ws), [1, 1, 0, 0]);
    assert_eq!(column(&ws, accepted), [1, 1, 0, 0]);
    for name in 4..=6 {
        book(&mut ws, name, 7 + name as u16, &[3]).unwrap(); // alone in their slots, on the rival
    }
    for (name, slot_7) in [
        (3, [1, 3, 0, 2]), // 2 against 1
        (4, [1, 3, 1, 2]), // 2 against 2
        (5, [3, 3, 2, 2]), // 2 against 3
        (6, [3, 3, 3, 2]), // 2 against 4: preferred and last, and 3 is above beta2
    ] {
        poll(&mut ws, name, &[YES]).unwrap();
        assert_eq!(entry(&ws, 7), slot_7);
        assert_eq!(column(&ws, accepted), [1, 1, 0, 0, 0, 0, 0]);
    }
    assert_eq!(column(&ws, query), [1, 0, 0, 1, 1, 1, 1]);
}

#[test]
fn an_acceptance_lasts_until_a_taken_opening() {
    let mut ws = late_rival();
    let bad = Setting { k: 2, ..ONE_VOTE };
    assert_eq!(open(&mut ws, bad), Err(Refusal::BadSetting));
    assert_eq!(column(&ws, accepted), [1, 1, 0, 0]);
    open(&mut ws, ONE_VOTE).unwrap();
    assert_eq!(marks(&ws), [1, 0, 0, 0]);
    book(&mut ws, 1, 7, &[0]).unwrap();
    assert_eq!(column(&ws, accepted), [1, 0]);
}

#[test]
fn parent_and_child_are_accepted_by_one_poll() {
    let mut ws = [0; WORDS];
    open(&mut ws, ONE_VOTE).unwrap();
    for name in 1..=3 {
        book(&mut ws, name, 7 + name as u16, &[name - 1]).unwrap(); // each alone, on the one before
    }
    poll(&mut ws, 2, &[YES]).unwrap(); // slots 8 and 9 have counter 1
    assert_eq!(column(&ws, accepted), [1, 0, 0, 0]);
    poll(&mut ws, 3, &[YES]).unwrap(); // and 2, and slot 10 has 1
    assert_eq!(column(&ws, accepted), [1, 1, 1, 0]);
}

/// 1 has a rival, and 3 rests on it. The poll of 5, which has 1 in its ancestry and not 3, accepts both.
#[test]
fn a_poll_accepts_outside_its_ancestry() {
    let mut ws = [0; WORDS];
    open(&mut ws, ONE_VOTE).unwrap();
    book(&mut ws, 1, 7, &[0]).unwrap();
    book(&mut ws, 2, 7, &[0]).unwrap();
    book(&mut ws, 3, 8, &[1]).unwrap();
    book(&mut ws, 4, 9, &[3]).unwrap();
    book(&mut ws, 5, 10, &[1]).unwrap();
    poll(&mut ws, 3, &[YES]).unwrap();
    poll(&mut ws, 4, &[YES]).unwrap(); // slots 7 and 8 have counter 2: not above beta2, and above beta1 without the parent
    assert_eq!(column(&ws, accepted), [1, 0, 0, 0, 0, 0]);
    poll(&mut ws, 5, &[YES]).unwrap(); // slot 7 has counter 3
    assert_eq!(column(&ws, accepted), [1, 1, 0, 1, 0, 0]);
}

/// 1 meets no rule any more, with a rival and beta2 far away. Whether 2, which rests on it, is accepted depends on its mark.
#[test]
fn a_parent_counts_by_its_mark() {
    for mark in [1, 0] {
        let mut ws = late_rival();
        ws[4] = 510; // beta2
        ws[8 + 13 + 12] = mark;
        book(&mut ws, 4, 9, &[2]).unwrap();
        poll(&mut ws, 4, &[YES]).unwrap(); // slot 7 has counter 3, slot 8 has 2
        assert_eq!(marks(&ws), [1, mark, mark, 0, 0]);
    }
}

/// Words that no calls lead to: slot 7 prefers 3, which is last too, with counter 2 and beta2 1, and nobody of it is marked.
#[test]
fn a_failed_poll_accepts_and_no_other_call_does() {
    let mut ws = late_rival();
    ws[8 + 13 + 12] = 0;
    ws[4] = 1; // beta2
    ws[6664 + 4 * 7] = 3;
    ws[6664 + 4 * 7 + 1] = 3;
    assert_eq!(column(&ws, accepted), [1, 0, 0, 0]);
    book(&mut ws, 4, 9, &[0]).unwrap();
    assert_eq!(poll(&mut ws, 4, &[]), Err(Refusal::WrongVotes));
    assert_eq!(column(&ws, accepted), [1, 0, 0, 0, 0]);
    let mut expected = ws;
    poll(&mut ws, 4, &[NO]).unwrap();
    expected[5] = 3; // p
    expected[8 + 13 * 4 + 9] = 1; // the state of 4
    expected[8 + 13 * 4 + 11] = 3; // its ordinal
    expected[8 + 13 * 3 + 12] = 1; // the mark of 3
    assert_eq!(ws, expected);
}

#[test]
fn a_name_is_kept_whole() {
    let mut ws = [0; WORDS];
    open(&mut ws, Setting::PAPER).unwrap();
    let name = 0x0001_0002_0003_0004;
    book(&mut ws, name, 255, &[0]).unwrap();
    assert_eq!(ws[21..25], [1, 2, 3, 4]);
    assert_eq!(size(&ws, name), Ok(2));
    assert_eq!(size(&ws, name + 0x1_0000), Err(Refusal::UnknownName));
    book(&mut ws, u64::MAX, 255, &[name, 0]).unwrap();
    assert_eq!(size(&ws, u64::MAX), Ok(3));
}

#[test]
fn opening_again_forgets_everything() {
    let mut ws = booked();
    poll(&mut ws, 4, &[YES; 3]).unwrap();
    let mut fresh = [65535; WORDS];
    open(&mut ws, Setting::PAPER).unwrap();
    open(&mut fresh, Setting::PAPER).unwrap();
    assert_eq!(ws, fresh);
    assert_eq!(ws[..8], [1, 10, 8, 11, 150, 0, 0, 0]);
    let later = Setting {
        edition: Setting::LATER_EDITION,
        ..Setting::PAPER
    };
    open(&mut ws, later).unwrap();
    assert_eq!(ws[..8], [1, 10, 8, 11, 150, 0, 1, 0]);
    fresh[6] = 1;
    assert_eq!(ws, fresh);
}

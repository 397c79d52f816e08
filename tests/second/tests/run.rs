//! The listing of Run, the cases P1 to P12, and the cases beside them. P2, P4
//! and P9 are about the first edition; `editions.rs` has their neighbours.

mod ledgers;
use ledgers::*;
use second::console;
use second::layout::*;
use second::setting::Setting;
use second::words::*;

#[test]
fn run_prints_its_list() {
    let input = format!("{RUN_BOOKINGS}{RUN_POLLS}list\n");
    let printed = "number slot state confidence preferred accepted\n\
        0 0 1 3 1 1\n\
        1 7 2 2 0 0\n\
        2 7 2 2 1 0\n\
        3 9 1 0 1 0\n\
        4 10 2 1 1 0\n";
    assert_eq!(console::run(input.as_bytes()), printed.as_bytes());
}

/// Before any poll the first booking of a slot is preferred.
#[test]
fn p1_query_before_any_poll() {
    assert_eq!(readings(&run_booked(), query), [1, 0, 1, 0]);
}

/// A chit moves the preference and leaves the new last with counter 0.
#[test]
fn p2_first_chit() {
    let ws = run_polled(1);
    assert_eq!(entry_words(&ws, 7), [2, 2, 0, 2]);
    assert_eq!(query(&ws, 3), (0, 0));
}

/// A lead is signed.
#[test]
fn p3_leads() {
    assert_eq!(readings(&run_polled(1), lead), [-1, 1]);
}

/// A failed poll moves state, ordinal and p only.
#[test]
fn p4_failed_poll() {
    let mut expected = run_polled(1);
    expected[P] = 2;
    expected[record(3) + STATE] = 1;
    expected[record(3) + ORDINAL] = 2;
    assert_eq!(run_polled(2), expected);
}

/// Two paths to the genesis raise it once.
#[test]
fn p5_raised_once() {
    let ws = run_polled(3);
    assert_eq!(confidences(&ws), [2, 1, 2, 0, 1]);
    assert_eq!(confidences(&ws).iter().sum::<u16>(), 2 + 4);
}

/// A tie leaves the preference where it is.
#[test]
fn p6_tie() {
    let ws = run_polled(4);
    assert_eq!(confidences(&ws)[1..3], [2, 2]);
    assert_eq!(entry_words(&ws, 7)[PREFERRED], 2);
    assert_eq!(readings(&ws, lead), [0, 0]);
}

/// The total is the sum of the ancestries polled with success.
#[test]
fn p7_total() {
    let ws = run_polled(4);
    assert_eq!(confidences(&ws).iter().sum::<u16>(), 2 + 4 + 2);
}

#[test]
fn p8_sizes() {
    let ws = run_booked();
    assert_eq!(size(&ws, 4), (0, 4));
    assert_eq!(size(&ws, 0), (0, 1));
}

/// A counter at β1 does not accept; one above does.
#[test]
fn p9_p10_acceptance_above_beta1() {
    let mut ws = opened(1, 1, 1, 2);
    must_book(&mut ws, 1, 7, &[0]);
    must_book(&mut ws, 2, 8, &[1]);
    must_poll(&mut ws, 1, &[1]);
    assert_eq!(entry_words(&ws, 7)[COUNTER], 1);
    assert_eq!(accepted(&ws, 1), (0, 0));
    must_poll(&mut ws, 2, &[1]);
    assert_eq!(entry_words(&ws, 7)[COUNTER], 2);
    assert_eq!(accepted(&ws, 1), (0, 1));
}

#[test]
fn p11_three_no_votes_fail() {
    let mut ws = run_booked();
    must_poll(&mut ws, 1, &[255, 255, 255]);
    assert_eq!(record_word(&ws, 1, STATE), 1);
}

#[test]
fn p12_half_is_no_majority() {
    let mut ws = vec![0; WORDS];
    assert_eq!(open(&mut ws, 2, 1, 1, 2, 0), (3, 0));
    assert_eq!(open(&mut ws, 2, 2, 1, 2, 0), (0, 0));
}

#[test]
fn name_0_in_slot_0_is_refused_by_its_name() {
    assert_eq!(book_call(0, 0, &[0]), (4, 0));
}

#[test]
fn the_genesis_is_polled() {
    assert_eq!(poll(&mut run_booked(), 0, &[1, 1, 1]), (11, 0));
}

#[test]
fn equal_parents_are_first_looked_up() {
    assert_eq!(book_call(9, 1, &[77, 77]), (7, 0));
    assert_eq!(book_call(9, 1, &[1, 1]), (8, 0));
}

#[test]
fn the_512th_booking_is_the_last() {
    let mut ws = chain(511);
    assert_eq!(book(&mut ws, 511, 5, &[510]), (0, 0));
    assert_eq!(book(&mut ws, 512, 5, &[510]), (9, 0));
}

#[test]
fn beta2_goes_to_510() {
    let mut ws = vec![0; WORDS];
    assert_eq!(open(&mut ws, 1, 1, 1, 510, 0), (0, 0));
    assert_eq!(open(&mut ws, 1, 1, 1, 511, 0), (3, 0));
}

#[test]
fn the_papers_setting_is_good() {
    let Setting {
        k,
        a,
        beta1,
        beta2,
        edition,
    } = Setting::PAPER;
    assert_eq!([k, a, beta1, beta2, edition], [10, 8, 11, 150, 0]);
    opened(k, a, beta1, beta2);
}

/// With 511 chits every number of the ledger is at its end.
#[test]
fn every_booking_of_a_full_chain_is_polled() {
    let mut ws = chain(512);
    for name in 1..512 {
        must_poll(&mut ws, name, &[1]);
    }
    assert_eq!(ws[P], 511);
    assert_eq!(lead(&ws, 0), (0, 511));
    assert_eq!(size(&ws, 511), (0, 512));
    assert_eq!(entry_words(&ws, 0), [0, 0, 511, 1]);
}

/// A booking without confidence against a rival that every chit is built on.
#[test]
fn the_lowest_lead() {
    let mut ws = chain(512);
    for name in 1..511 {
        must_poll(&mut ws, name, &[1]);
    }
    // 255 slots in turn: numbers 1, 256 and 511 share slot 1.
    assert_eq!(lead(&ws, 511), (0, -510));
    must_poll(&mut ws, 511, &[255]);
    assert_eq!(lead(&ws, 511), (0, -510));
}

fn book_call(name: u64, slot: u16, parents: &[u64]) -> Answer {
    book(&mut run_booked(), name, slot, parents)
}

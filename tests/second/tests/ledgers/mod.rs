//! Ledgers that several tests start from.
#![allow(dead_code)]

use second::layout::*;
use second::words;

/// The length of a workspace before records had marks.
pub const WORDS_WITHOUT_MARKS: usize = 7_176;

/// The lines of Run before its polls, in the first edition, and its polls.
pub const RUN_BOOKINGS: &str = "open 3 2 1 2 0\n\
    book 1 7 0\n\
    book 2 7 0\n\
    book 3 9 1\n\
    book 4 10 1 2\n";
pub const RUN_POLLS: &str = "poll 2 1 1 -1\n\
    poll 3 1 0 0\n\
    poll 4 1 1 1\n\
    poll 1 1 1 0\n";

/// A workspace opened with the setting, in the first edition.
pub fn opened(k: u16, a: u16, beta1: u16, beta2: u16) -> Vec<u16> {
    opened_in(0, k, a, beta1, beta2)
}

/// The same in either edition.
pub fn opened_in(edition: u16, k: u16, a: u16, beta1: u16, beta2: u16) -> Vec<u16> {
    let mut ws = vec![0; WORDS];
    assert_eq!(words::open(&mut ws, k, a, beta1, beta2, edition), (0, 0));
    ws
}

/// A booking that must be taken.
pub fn must_book(ws: &mut [u16], name: u64, slot: u16, parents: &[u64]) {
    assert_eq!(words::book(ws, name, slot, parents), (0, 0));
}

/// A poll that must be taken.
pub fn must_poll(ws: &mut [u16], name: u64, votes: &[u8]) {
    assert_eq!(words::poll(ws, name, votes), (0, 0));
}

/// Run before any poll.
pub fn run_booked() -> Vec<u16> {
    run_booked_in(0)
}

pub fn run_booked_in(edition: u16) -> Vec<u16> {
    let mut ws = opened_in(edition, 3, 2, 1, 2);
    must_book(&mut ws, 1, 7, &[0]);
    must_book(&mut ws, 2, 7, &[0]);
    must_book(&mut ws, 3, 9, &[1]);
    must_book(&mut ws, 4, 10, &[1, 2]);
    ws
}

/// Run after its first `count` polls.
pub fn run_polled(count: usize) -> Vec<u16> {
    run_polled_in(0, count)
}

pub fn run_polled_in(edition: u16, count: usize) -> Vec<u16> {
    let polls: [(u64, [u8; 3]); 4] = [
        (2, [1, 1, 255]),
        (3, [1, 0, 0]),
        (4, [1, 1, 1]),
        (1, [1, 1, 0]),
    ];
    let mut ws = run_booked_in(edition);
    for (name, votes) in &polls[..count] {
        must_poll(&mut ws, *name, votes);
    }
    ws
}

/// P10: 1 is accepted by its counter of 2, alone in slot 7; 2 has counter 1.
pub fn accepted_1() -> Vec<u16> {
    let mut ws = opened(1, 1, 1, 2);
    must_book(&mut ws, 1, 7, &[0]);
    must_book(&mut ws, 2, 8, &[1]);
    must_poll(&mut ws, 1, &[1]);
    must_poll(&mut ws, 2, &[1]);
    ws
}

/// P10, then 3 comes to slot 7 and three bookings on it, all polled with
/// success: 3 becomes last with counter 0, has as much confidence as 1 after
/// two polls and more after three, and its counter is 3 after the fourth.
pub fn overtaken() -> Vec<u16> {
    let mut ws = accepted_1();
    must_book(&mut ws, 3, 7, &[0]);
    for name in 4..7 {
        must_book(&mut ws, name, 7 + name as u16, &[3]);
    }
    for name in 3..7 {
        must_poll(&mut ws, name, &[1]);
    }
    ws
}

/// A chain of `n` bookings, names and numbers alike, each in a slot of its
/// own as long as there are slots.
pub fn chain(n: u64) -> Vec<u16> {
    let mut ws = opened(1, 1, 1, 2);
    for name in 1..n {
        must_book(&mut ws, name, 1 + (name as u16 - 1) % 255, &[name - 1]);
    }
    ws
}

/// The longest file that an edition has: a full ledger where every place for
/// a parent is used and every booking was polled, the last one first, with
/// success where the number is even.
pub fn longest_in(edition: u16) -> Vec<u16> {
    let name = |b: u64| if b == 0 { 0 } else { u64::MAX - b };
    let mut ws = opened_in(edition, 1, 1, 1, 2);
    for b in 1..512 {
        let slot = 1 + (b as u16 - 1) % 255;
        let parents: Vec<u64> = (0..b).rev().take(4).map(name).collect();
        must_book(&mut ws, name(b), slot, &parents);
    }
    for b in (1..512).rev() {
        must_poll(&mut ws, name(b), &[u8::from(b % 2 == 0)]);
    }
    ws
}

/// Words of the right length: never used, all alike, a ledger, a ledger with
/// its header and a record damaged, and as different as words can be.
pub fn any_words() -> [Vec<u16>; 5] {
    let mut damaged = run_polled(4);
    damaged[N] = 0;
    damaged[record(3) + PARENT] = 9;
    let mixed = (0..WORDS).map(|at| (at as u16).wrapping_mul(40503));
    [
        vec![0; WORDS],
        vec![65535; WORDS],
        chain(512),
        damaged,
        mixed.collect(),
    ]
}

pub fn record_word(ws: &[u16], b: usize, field: usize) -> u16 {
    ws[record(b) + field]
}

/// Who has a mark, in rising number.
pub fn marked(ws: &[u16]) -> Vec<usize> {
    (0..BOOKINGS)
        .filter(|&b| record_word(ws, b, MARK) == 1)
        .collect()
}

pub fn entry_words(ws: &[u16], s: usize) -> &[u16] {
    &ws[entry(s)..entry(s + 1)]
}

/// The confidences of all bookings in rising number.
pub fn confidences(ws: &[u16]) -> Vec<u16> {
    (0..usize::from(ws[N]))
        .map(|b| record_word(ws, b, CONFIDENCE))
        .collect()
}

/// A reading of names 1 and up, which must be taken.
pub fn readings<const NAMES: usize>(
    ws: &[u16],
    reading: fn(&[u16], u64) -> (u32, i64),
) -> [i64; NAMES] {
    std::array::from_fn(|i| {
        let (number, value) = reading(ws, i as u64 + 1);
        assert_eq!(number, 0);
        value
    })
}

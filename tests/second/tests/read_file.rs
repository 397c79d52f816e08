//! Reading a day file: what it makes of any words, that it leads back to
//! what was written, and every way in which a file is bad, on both sides of
//! its border.

mod digits;
mod ledgers;
use digits::*;
use ledgers::*;
use second::codec::decode;
use second::day::{EDITION_BYTES, LONGEST_FILE, SHORTEST_FILE};
use second::form::Form;
use second::laws::{History, Picture};
use second::layout::*;
use second::parse::parse;
use second::words::*;

/// The file makes these words, whatever words it is read into, and is written
/// again with the same bytes.
fn makes(file: &[u8], words: &[u16]) {
    for mut ws in any_words() {
        assert_eq!(read_first(&mut ws, file), (0, 0));
        assert_eq!(ws, words);
    }
    assert_eq!(written(words), file);
}

/// The file is refused, and every word stays.
fn refuses(file: &[u8]) {
    for before in any_words() {
        let mut ws = before.clone();
        assert_eq!(read_first(&mut ws, file), (17, 0));
        assert_eq!(ws, before);
    }
}

/// The same for a file in digits.
fn bad(sections: [&str; 3]) {
    refuses(&bytes(&sections.concat()));
}

/// A file that is taken. What it makes is a ledger, from which the same file
/// is written, and in which the laws hold that its polls ask for.
fn good(sections: [&str; 3]) {
    taken(&bytes(&sections.concat()));
}

fn taken(file: &[u8]) -> Vec<u16> {
    let mut ws = vec![9; WORDS];
    assert_eq!(read_first(&mut ws, file), (0, 0));
    assert!(decode(&ws).is_ok());
    assert_eq!(written(&ws), file);
    let mut history = History::default();
    history.handed_over(&parse(file, Form::First).expect("it was taken"));
    let picture = Picture::of_words(&ws, |name| accepted(&ws, name) == (0, 1));
    assert_eq!(picture, Picture::of_marks(&ws));
    assert_eq!(history.check(&picture), Ok(()));
    ws
}

fn written(ws: &[u16]) -> Vec<u8> {
    let mut out = vec![0; LONGEST_FILE];
    let (number, length) = write_first(ws, &mut out);
    assert_eq!(number, 0);
    out.truncate(length as usize);
    out
}

const SETTING: &str = "0004  0003 0002 0001 0002";
const LATER_SETTING: &str = "0005  0003 0002 0001 0002 0001";
const BOOKED: &str = "0004
    0000000000000001  0007  0001  0000
    0000000000000002  0007  0001  0000
    0000000000000003  0009  0001  0001
    0000000000000004  000a  0002  0001 0002";
const POLLS: &str = "0004  0002 0001  0003 0000  0004 0001  0001 0001";
/// A booking and no polls, for what is asked of single bookings.
const ONE: &str = "0001  0000000000000001 0007 0001 0000";

fn run_file() -> Vec<u8> {
    bytes(&[SETTING, BOOKED, POLLS].concat())
}

/// Run's file in the later edition.
fn later_file() -> Vec<u8> {
    bytes(&[LATER_SETTING, BOOKED, POLLS].concat())
}

// ---- what reading makes

#[test]
fn the_file_of_run_makes_run() {
    makes(&run_file(), &run_polled(4));
    for count in 0..4 {
        let ws = run_polled(count);
        makes(&written(&ws), &ws);
    }
}

/// The edition is read with the setting, and the file's polls are taken by its
/// rules.
#[test]
fn a_file_of_the_later_edition() {
    makes(&later_file(), &run_polled_in(1, 4));
    for count in 0..4 {
        let ws = run_polled_in(1, count);
        makes(&written(&ws), &ws);
    }
    // Slots 0 and 7 show which rules they were.
    let counters = |file: &[u8]| {
        let ws = taken(file);
        [0, 7].map(|s| entry_words(&ws, s)[COUNTER])
    };
    assert_eq!(counters(&run_file()), [3, 0]);
    assert_eq!(counters(&later_file()), [2, 1]);
}

/// A day goes on in the edition of the file, whatever that of the words was.
#[test]
fn a_reading_changes_the_edition() {
    for (before, after) in [(0, 1), (1, 0), (1, 1), (0, 0)] {
        let mut ws = run_polled_in(before, 4);
        let file = written(&run_polled_in(after, 2));
        assert_eq!(read_first(&mut ws, &file), (0, 0));
        assert_eq!(ws[EDITION], after);
        must_poll(&mut ws, 4, &[1, 1, 1]);
        must_poll(&mut ws, 1, &[1, 1, 0]);
        assert_eq!(ws, run_polled_in(after, 4));
    }
}

/// The file comes first, the calls after it: as if it had all been one day.
#[test]
fn a_day_goes_on_after_reading() {
    let mut ws = vec![0; WORDS];
    assert_eq!(read_first(&mut ws, &written(&run_polled(2))), (0, 0));
    must_poll(&mut ws, 4, &[1, 1, 1]);
    must_poll(&mut ws, 1, &[1, 1, 0]);
    assert_eq!(ws, run_polled(4));
    assert_eq!(poll(&mut ws, 2, &[1, 1, 1]), (11, 0));
    must_book(&mut ws, 5, 10, &[4]);
    assert_eq!(size(&ws, 5), (0, 5));
    assert_eq!(read_first(&mut ws, &run_file()), (0, 0));
    assert_eq!(ws, run_polled(4));
}

#[test]
fn the_shortest_file_opens() {
    let file = bytes("0004 0003 0002 0001 0002 0000 0000");
    assert_eq!(file.len(), SHORTEST_FILE);
    makes(&file, &opened(3, 2, 1, 2));
    let file = bytes("0005 0003 0002 0001 0002 0001 0000 0000");
    assert_eq!(file.len(), SHORTEST_FILE + EDITION_BYTES);
    makes(&file, &opened_in(1, 3, 2, 1, 2));
}

/// Polls in another order than the bookings, names with all their bits.
#[test]
fn polls_in_the_order_of_the_file() {
    let [first, second, third] = [0x0123_4567_89ab_cdef, u64::MAX, 1 << 63];
    let mut ws = opened(5, 3, 2, 300);
    must_book(&mut ws, first, 255, &[0]);
    must_book(&mut ws, second, 1, &[first, 0]);
    must_book(&mut ws, third, 255, &[0, second, first]);
    must_poll(&mut ws, third, &[1, 1, 1, 0, 0]);
    must_poll(&mut ws, first, &[1, 255, 255, 255, 1]);
    must_poll(&mut ws, second, &[1; 5]);
    makes(&written(&ws), &ws);
}

/// A full ledger with the longest file, polled from the last to the first.
#[test]
fn the_longest_file() {
    for (edition, length) in [(0, 12_266), (1, LONGEST_FILE)] {
        let ws = longest_in(edition);
        let file = written(&ws);
        assert_eq!(file.len(), length);
        makes(&file, &ws);
    }
}

/// Only what a file carries is kept: from words that no history reaches the
/// setting, the bookings and the polls, and the rest is made by the rules.
#[test]
fn what_no_poll_led_to_is_not_kept() {
    let mut ws = run_polled(4);
    for b in 0..5 {
        ws[record(b) + CONFIDENCE] = 0;
    }
    ws[record(3) + MARK] = 1;
    ws[entry(7)..entry(8)].copy_from_slice(&[1, 2, 3, 2]);
    makes(&written(&ws), &run_polled(4));
}

/// Every word but the marks.
fn without_marks(mut ws: Vec<u16>) -> Vec<u16> {
    for b in 0..BOOKINGS {
        ws[record(b) + MARK] = 0;
    }
    ws
}

/// A reading makes the marks that come of the bookings first and the polls
/// after them. Here 1 was alone when its counter came to 2; in the file it
/// has a rival from the start, and counter 2 is not above β2.
#[test]
fn a_reading_loses_the_mark_of_a_booking_with_a_late_rival() {
    let mut ws = accepted_1();
    must_book(&mut ws, 3, 7, &[0]);
    assert_eq!(marked(&ws), [0, 1]);
    let read = taken(&written(&ws));
    assert_eq!(marked(&read), [0]);
    assert_eq!(without_marks(read), without_marks(ws));
}

/// Where the rival overtakes, a reading hands the mark to it: 1 has no mark
/// there that would stand in its way. 4, 5 and 6 have counters of 1.
#[test]
fn a_reading_hands_the_mark_to_a_late_rival() {
    let ws = overtaken();
    assert_eq!(marked(&ws), [0, 1]);
    let file = written(&ws);
    assert_eq!(file.len(), 14 + 6 * 14 + 6 * 4);
    let mut read = taken(&file);
    assert_eq!(marked(&read), [0, 3]);
    assert_eq!(without_marks(read.clone()), without_marks(ws.clone()));
    assert_eq!(read_first(&mut read, &written(&accepted_1())), (0, 0));
    assert_eq!(read, accepted_1());
    // Read into the very words it was written from, it does the same.
    let mut own = ws;
    assert_eq!(read_first(&mut own, &file), (0, 0));
    assert_eq!(marked(&own), [0, 3]);
}

/// Without late rivals the marks are the same too.
#[test]
fn a_reading_gives_back_the_marks_of_a_day_without_late_rivals() {
    makes(&written(&accepted_1()), &accepted_1());
    let mut ws = chain(40);
    for name in 1..40 {
        must_poll(&mut ws, name, &[1]);
    }
    // The counters are 39, 38 and on to 1: all but the last are above β1.
    assert_eq!(marked(&ws), (0..39).collect::<Vec<_>>());
    makes(&written(&ws), &ws);
}

// ---- the length of the workspace comes first

#[test]
fn refusal_1_before_17() {
    let lengths = [0, 1, HEADER_WORDS, WORDS - 1, WORDS + 1, 2 * WORDS];
    for length in lengths.into_iter().chain([WORDS_WITHOUT_MARKS]) {
        let mut ws = run_polled(4);
        ws.resize(length, 0);
        let before = ws.clone();
        for file in [&run_file()[..], &[], &[0; 14]] {
            assert_eq!(read_first(&mut ws, file), (1, 0));
            assert_eq!(ws, before);
        }
    }
}

// ---- each way in which a file is bad

#[test]
fn a_file_that_ends_early() {
    let file = run_file();
    for length in 0..file.len() {
        refuses(&file[..length]);
    }
    refuses(&[]);
}

#[test]
fn bytes_behind_the_file() {
    let file = run_file();
    for more in [&[0][..], &[1], &[0; 2], &[0; 4], &[0; 14], &file] {
        refuses(&[&file[..], more].concat());
    }
    refuses(&[0; 70_000]);
}

#[test]
fn the_count_of_the_setting() {
    for count in ["0000", "0003", "0005", "0400", "0104", "ffff"] {
        bad([&format!("{count} 0003 0002 0001 0002"), BOOKED, POLLS]);
    }
    for count in ["0000", "0003", "0004", "0006", "0500", "0105", "ffff"] {
        bad([&format!("{count} 0003 0002 0001 0002 0001"), BOOKED, POLLS]);
    }
    // As many numbers as it says: none, three, and six.
    bad(["0000", "0000", "0000"]);
    bad(["0003 0003 0002 0001", "0000", "0000"]);
    bad(["0006 0003 0002 0001 0002 0001 0000", "0000", "0000"]);
    bad(["0006 0003 0002 0001 0002 0001 0001", "0000", "0000"]);
}

/// Only the later edition is told: the first is never written so.
#[test]
fn the_edition() {
    let told = |edition: &str| format!("0005 0003 0002 0001 0002 {edition}");
    for (booked, polls) in [("0000", "0000"), (ONE, "0000"), (BOOKED, POLLS)] {
        good([&told("0001"), booked, polls]);
        good([SETTING, booked, polls]);
        for edition in ["0000", "0002", "0003", "0100", "0101", "8001", "ffff"] {
            bad([&told(edition), booked, polls]);
        }
        // Told, and the count says that it is not.
        for edition in ["0000", "0001", "0002"] {
            bad([&format!("{SETTING} {edition}"), booked, polls]);
        }
    }
}

/// The same numbers behind the setting are counts or an edition, as the first
/// count says.
#[test]
fn four_numbers_and_what_follows_them() {
    good(["0004 0003 0002 0001 0002", "0000", "0000"]);
    bad(["0004 0003 0002 0001 0002", "0000", "0000 0000"]);
    bad(["0005 0003 0002 0001 0002", "0000", "0000"]);
    bad(["0005 0003 0002 0001 0002", "0001", "0000"]);
    good(["0005 0003 0002 0001 0002", "0001", "0000 0000"]);
}

#[test]
fn the_setting() {
    let opens = |numbers: &str| format!("0004 {numbers}");
    for numbers in [
        "0001 0001 0001 0001",
        "0040 0040 01fe 01fe",
        "0040 0021 0001 01fe",
    ] {
        good([&opens(numbers), ONE, "0000"]);
    }
    for numbers in [
        "0000 0000 0001 0002",
        "0041 0041 0001 0002",
        "0003 0004 0001 0002",
        "0004 0002 0001 0002",
        "0001 8001 0001 0002",
        "0003 0002 0000 0002",
        "0003 0002 0003 0002",
        "0003 0002 0001 01ff",
    ] {
        bad([&opens(numbers), ONE, "0000"]);
        bad([&format!("0005 {numbers} 0001"), ONE, "0000"]);
    }
}

/// 511 bookings are taken. One more is too many, with the count that is true
/// and with that of 511 before it.
#[test]
fn too_many_bookings() {
    let full = written(&chain(512));
    taken(&full);
    let end = full.len() - 2;
    let more = bytes("0000000000000200 0001 0001 01ff");
    let mut longer = [&full[..end], &more, &[0, 0]].concat();
    refuses(&longer);
    longer[10..12].copy_from_slice(&[2, 0]);
    refuses(&longer);
}

#[test]
fn a_name_that_is_taken() {
    // the genesis', an earlier booking's, and one that differs by a bit
    bad([SETTING, "0001 0000000000000000 0007 0001 0000", "0000"]);
    let two = |name: &str| {
        let second = format!("{name} 0008 0001 0000");
        ["0002", "8000000000000001 0007 0001 0000", &second].concat()
    };
    bad([SETTING, &two("8000000000000001"), "0000"]);
    bad([SETTING, &two("0000000000000000"), "0000"]);
    good([SETTING, &two("8000000000000000"), "0000"]);
    good([SETTING, &two("0000000000000001"), "0000"]);
}

#[test]
fn a_slot_that_is_none() {
    let booked = |slot: &str| format!("0001 0000000000000001 {slot} 0001 0000");
    for slot in ["0001", "00ff"] {
        good([SETTING, &booked(slot), "0000"]);
    }
    for slot in ["0000", "0100", "0107", "ffff"] {
        bad([SETTING, &booked(slot), "0000"]);
    }
}

/// A fifth booking on none to five of the others.
#[test]
fn none_to_five_parents() {
    let booked = |parents: &str| {
        let fifth = format!("0000000000000005 0001 {parents}");
        [&BOOKED.replacen("0004", "0005", 1), &fifth[..]].concat()
    };
    for parents in ["0001 0004", "0002 0004 0000", "0004 0000 0001 0002 0003"] {
        good([SETTING, &booked(parents), POLLS]);
    }
    for parents in ["0000", "0005 0000 0001 0002 0003 0004", "0101 0004"] {
        bad([SETTING, &booked(parents), POLLS]);
    }
}

#[test]
fn a_parent_that_is_not_lower() {
    let booked = |parent: &str| BOOKED.replace("0001  0001", &format!("0001  {parent}"));
    for parent in ["0000", "0001", "0002"] {
        good([SETTING, &booked(parent), POLLS]);
    }
    for parent in ["0003", "0004", "0005", "0100", "ffff"] {
        bad([SETTING, &booked(parent), POLLS]);
    }
}

/// A number is no name: the parent of name 9 is told as 1.
#[test]
fn parents_are_numbers() {
    let booked = |parent: &str| {
        let second = format!("0000000000000001 0008 0001 {parent}");
        ["0002", "0000000000000009 0007 0001 0000", &second].concat()
    };
    bad([SETTING, &booked("0009"), "0000"]);
    good([SETTING, &booked("0001"), "0000"]);
    let file = bytes(&[SETTING, &booked("0001"), "0000"].concat());
    let mut ws = opened(3, 2, 1, 2);
    must_book(&mut ws, 9, 7, &[0]);
    must_book(&mut ws, 1, 8, &[9]);
    makes(&file, &ws);
}

#[test]
fn a_parent_twice() {
    let booked = |parents: &str| BOOKED.replace("0001 0002", parents);
    good([SETTING, &booked("0002 0001"), POLLS]);
    for parents in ["0001 0001", "0000 0000", "0003 0003"] {
        bad([SETTING, &booked(parents), POLLS]);
    }
}

#[test]
fn polls_of_who_is_not_there() {
    for poll in ["0001 0001", "0004 0001", "0004 0000"] {
        good([SETTING, BOOKED, &format!("0001 {poll}")]);
    }
    for poll in [
        "0000 0000",
        "0000 0001",
        "0005 0001",
        "0101 0001",
        "ffff 0000",
    ] {
        bad([SETTING, BOOKED, &format!("0001 {poll}")]);
    }
}

#[test]
fn a_booking_polled_twice() {
    good([SETTING, BOOKED, "0002  0003 0000  0002 0001"]);
    bad([SETTING, BOOKED, "0002  0003 0000  0003 0000"]);
    bad([SETTING, BOOKED, "0002  0003 0000  0003 0001"]);
    bad([SETTING, BOOKED, "0003  0003 0001  0001 0001  0003 0001"]);
    // More polls than bookings.
    bad([SETTING, ONE, "0002  0001 0001  0001 0001"]);
}

#[test]
fn an_outcome_that_is_none() {
    for outcome in ["0000", "0001"] {
        good([SETTING, BOOKED, &format!("0001 0003 {outcome}")]);
    }
    for outcome in ["0002", "00ff", "0100", "0101", "ffff"] {
        bad([SETTING, BOOKED, &format!("0001 0003 {outcome}")]);
    }
}

#[test]
fn counts_that_are_not_true() {
    for count in ["0000", "0001", "0003", "0005", "0104", "ffff"] {
        bad([SETTING, &BOOKED.replacen("0004", count, 1), POLLS]);
        bad([SETTING, BOOKED, &POLLS.replacen("0004", count, 1)]);
    }
}

// ---- one byte of Run's file, every place and every value

/// Which values of the byte leave a good file, by the rules.
fn good_values(at: usize) -> Vec<u8> {
    let other_than = |bad: &[u8]| (0..=255).filter(|value| !bad.contains(value)).collect();
    match at {
        3 | 5 => vec![2, 3],   // k from a to 2 a - 1; a up to k, twice a above k
        7 => vec![1, 2],       // β1 from 1 to β2
        8 => vec![0, 1],       // β2 up to 510, here 258
        9 => other_than(&[0]), // β2 from β1 on
        19 => other_than(&[0, 2, 3, 4]), // no name of another, and not the genesis'
        33 => other_than(&[0, 1, 3, 4]),
        47 => other_than(&[0, 1, 2, 4]),
        61 => other_than(&[0, 1, 2, 3]),
        12..=18 | 26..=32 | 40..=46 | 54..=60 => other_than(&[]),
        21 | 35 | 49 | 63 => other_than(&[0]), // slots
        39 => vec![0, 1],                      // the parent of 2
        53 => vec![0, 1, 2],                   // the parent of 3
        67 => vec![0, 1, 3],                   // the parents of 4, which are two
        69 => vec![0, 2, 3],
        // Booking 3 on 1 and 0: then 4 has the name 4000a in slot 2, on 2.
        51 => vec![1, 2],
        75 | 79 | 83 | 87 => vec![0, 1], // outcomes
        _ => vec![run_file()[at]],       // high bytes, counts, and the polls of all four
    }
}

#[test]
fn every_value_of_every_byte() {
    assert_eq!(others_that_are_good(&run_file(), good_values), 9_430); // docs/DAYFILE.md says so
}

/// The edition is two bytes more, neither of which may be another.
#[test]
fn every_value_of_every_byte_in_the_later_edition() {
    let good_values = |at| match at {
        0 => vec![0],
        1 => vec![5],
        2..10 => good_values(at),
        10 => vec![0],
        11 => vec![1],
        _ => good_values(at - 2),
    };
    assert_eq!(others_that_are_good(&later_file(), good_values), 9_430);
}

/// How many other files with one byte changed are good; exactly those that
/// have one of these values there.
fn others_that_are_good(file: &[u8], good_values: impl Fn(usize) -> Vec<u8>) -> usize {
    let before = run_polled(1);
    let mut others = 0;
    for at in 0..file.len() {
        let values = good_values(at);
        for value in 0..=255 {
            let mut other = file.to_vec();
            other[at] = value;
            let mut ws = before.clone();
            let (number, _) = read_first(&mut ws, &other);
            assert_eq!(number == 0, values.contains(&value), "byte {at} as {value}");
            if number == 0 {
                others += usize::from(other != file);
                assert_eq!(written(&ws), other);
                if value % 16 < 3 {
                    assert_eq!(taken(&other), ws);
                }
            } else {
                assert_eq!((number, &ws), (17, &before));
            }
        }
    }
    others
}

/// The one count of the file that may be another.
#[test]
fn two_parents_for_booking_3() {
    let mut file = run_file();
    file[51] = 2;
    let mut ws = opened(3, 2, 1, 2);
    must_book(&mut ws, 1, 7, &[0]);
    must_book(&mut ws, 2, 7, &[0]);
    must_book(&mut ws, 3, 9, &[1, 0]);
    must_book(&mut ws, 0x4000a, 2, &[2]);
    must_poll(&mut ws, 2, &[1, 1, 255]);
    must_poll(&mut ws, 3, &[1, 0, 0]);
    must_poll(&mut ws, 0x4000a, &[1, 1, 1]);
    must_poll(&mut ws, 1, &[1, 1, 0]);
    makes(&file, &ws);
}

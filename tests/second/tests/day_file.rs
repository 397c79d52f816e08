//! The day file, byte for byte as worked out by hand, what a buffer of any
//! length is left with, and its refusals on both sides of their borders.

mod digits;
mod ledgers;
mod lent;
use digits::*;
use ledgers::*;
use lent::*;
use second::day::{LONGEST_FILE, SHORTEST_FILE};
use second::layout::*;
use second::words::*;

/// The file is written where it fits, and a shorter buffer stays as it is.
fn writes(ws: &[u16], file: &[u8]) {
    fills(file, |out| write_first(ws, out));
}

/// The call is refused, and every byte stays.
fn refuses(ws: &[u16], room: usize, answer: Answer) {
    leaves(room, answer, |out| write_first(ws, out));
}

/// The file of a ledger, as its three sections.
fn writes_sections(ws: &[u16], sections: [&str; 3]) {
    writes(ws, &bytes(&sections.concat()));
}

const RUN_SETTING: &str = "0004  0003 0002 0001 0002";
const RUN_BOOKED: &str = "0004
    0000000000000001  0007  0001  0000
    0000000000000002  0007  0001  0000
    0000000000000003  0009  0001  0001
    0000000000000004  000a  0002  0001 0002";

/// 10 bytes, 2 + 14 + 14 + 14 + 16, and 2 + 4 * 4.
#[test]
fn the_file_of_run() {
    let polls = "0004  0002 0001  0003 0000  0004 0001  0001 0001";
    let ws = run_polled(4);
    writes_sections(&ws, [RUN_SETTING, RUN_BOOKED, polls]);
    assert_eq!(write_first(&ws, &mut [0; 88]), (0, 88));
}

/// The third section grows by a pair with each poll, and the others stay.
#[test]
fn the_file_of_run_poll_by_poll() {
    let polls = [
        "0000",
        "0001  0002 0001",
        "0002  0002 0001  0003 0000",
        "0003  0002 0001  0003 0000  0004 0001",
    ];
    for (count, polls) in polls.into_iter().enumerate() {
        writes_sections(&run_polled(count), [RUN_SETTING, RUN_BOOKED, polls]);
    }
}

#[test]
fn the_genesis_alone() {
    let ws = opened(3, 2, 1, 2);
    writes_sections(&ws, [RUN_SETTING, "0000", "0000"]);
    assert_eq!(write_first(&ws, &mut [0; 14]), (0, 14));
    assert_eq!(SHORTEST_FILE, 14);
}

/// Settings at their ends, and bounds that need both bytes.
#[test]
fn the_setting() {
    let ws = opened(64, 33, 256, 510);
    writes_sections(&ws, ["0004  0040 0021 0100 01fe", "0000", "0000"]);
    let ws = opened(1, 1, 1, 1);
    writes_sections(&ws, ["0004  0001 0001 0001 0001", "0000", "0000"]);
    let ws = opened(10, 8, 11, 150);
    writes_sections(&ws, ["0004  000a 0008 000b 0096", "0000", "0000"]);
}

/// The later edition is a fifth number, and the count says so. Nothing else
/// of the file is another.
#[test]
fn the_later_edition_is_told() {
    let setting = "0005  0003 0002 0001 0002 0001";
    let ws = opened_in(1, 3, 2, 1, 2);
    writes_sections(&ws, [setting, "0000", "0000"]);
    assert_eq!(write_first(&ws, &mut [0; 16]), (0, 16));
    refuses(&ws, 15, (16, 0));
    refuses(&ws, 14, (16, 0));
    let polls = "0004  0002 0001  0003 0000  0004 0001  0001 0001";
    let ws = run_polled_in(1, 4);
    writes_sections(&ws, [setting, RUN_BOOKED, polls]);
    assert_eq!(write_first(&ws, &mut [0; 90]), (0, 90));
    refuses(&ws, 89, (16, 0));
    refuses(&ws, 88, (16, 0));
    let ws = opened_in(1, 64, 33, 256, 510);
    writes_sections(&ws, ["0005  0040 0021 0100 01fe 0001", "0000", "0000"]);
}

/// What makes the edition is its word alone: that of words which no history
/// of the edition reaches is told too.
#[test]
fn the_edition_of_words_is_told() {
    let polls = "0004  0002 0001  0003 0000  0004 0001  0001 0001";
    let mut ws = run_polled(4);
    ws[EDITION] = 1;
    let setting = "0005  0003 0002 0001 0002 0001";
    writes_sections(&ws, [setting, RUN_BOOKED, polls]);
    for edition in [2, 65535] {
        ws[EDITION] = edition;
        for room in [0, 13, 88, 90, LONGEST_FILE] {
            refuses(&ws, room, (2, 0));
        }
    }
}

/// All 64 bits of a name, the highest byte first. A parent is written by its
/// number, which says nothing of its name, and in the order given.
#[test]
fn names_in_eight_bytes_and_parents_by_number() {
    let [first, second, third] = [0x0123_4567_89ab_cdef, 0xf0e1_d2c3_b4a5_9687, u64::MAX];
    let mut ws = opened(3, 2, 1, 2);
    must_book(&mut ws, first, 255, &[0]);
    must_book(&mut ws, second, 1, &[first, 0]);
    must_book(&mut ws, third, 128, &[0, second, first]);
    must_book(&mut ws, 1 << 63, 255, &[second, third, 0, first]);
    must_book(&mut ws, 256, 2, &[third, 1 << 63]);
    let booked = "0005
        0123456789abcdef  00ff  0001  0000
        f0e1d2c3b4a59687  0001  0002  0001 0000
        ffffffffffffffff  0080  0003  0000 0002 0001
        8000000000000000  00ff  0004  0002 0003 0000 0001
        0000000000000100  0002  0002  0003 0004";
    writes_sections(&ws, [RUN_SETTING, booked, "0000"]);
}

/// In the order of the polls, which is not that of the bookings; each with
/// its outcome, and without those that wait.
#[test]
fn polls_in_ordinal_order() {
    let mut ws = opened(3, 2, 1, 2);
    for name in [90, 80, 70, 60, 50] {
        must_book(&mut ws, name, 9, &[0]);
    }
    let booked = "0005
        000000000000005a  0009  0001  0000
        0000000000000050  0009  0001  0000
        0000000000000046  0009  0001  0000
        000000000000003c  0009  0001  0000
        0000000000000032  0009  0001  0000";
    must_poll(&mut ws, 50, &[0, 1, 255]);
    must_poll(&mut ws, 90, &[1, 1, 0]);
    must_poll(&mut ws, 60, &[0, 0, 0]);
    let polls = "0003  0005 0000  0001 0001  0004 0000";
    writes_sections(&ws, [RUN_SETTING, booked, polls]);
    must_poll(&mut ws, 80, &[1, 1, 1]);
    must_poll(&mut ws, 70, &[255, 255, 255]);
    let polls = "0005  0005 0000  0001 0001  0004 0000  0002 0001  0003 0000";
    writes_sections(&ws, [RUN_SETTING, booked, polls]);
}

/// The ordinals say the order, also in words that no history reaches.
#[test]
fn ordinals_in_another_order() {
    let mut ws = run_polled(4);
    for (b, ordinal) in [(1, 2), (2, 3), (3, 4), (4, 1)] {
        ws[record(b) + ORDINAL] = ordinal;
    }
    let polls = "0004  0004 0001  0001 0001  0002 0001  0003 0000";
    writes_sections(&ws, [RUN_SETTING, RUN_BOOKED, polls]);
}

/// Confidences, marks and slot entries are no part of the file.
#[test]
fn what_the_votes_led_to_is_not_written() {
    let mut ws = run_polled(4);
    for b in 0..5 {
        ws[record(b) + CONFIDENCE] = 3 - b as u16 % 4;
    }
    for b in [2, 3, 4] {
        ws[record(b) + MARK] = 1;
    }
    ws[entry(7)..entry(8)].copy_from_slice(&[1, 2, 3, 2]);
    let polls = "0004  0002 0001  0003 0000  0004 0001  0001 0001";
    writes_sections(&ws, [RUN_SETTING, RUN_BOOKED, polls]);
}

/// The bookings start at 12: one of 14 bytes, 16, 18, and 20 each from
/// number 4 on, at 60. The polls start at 60 + 20 * 508 + 2 = 10222, and the
/// end is 10222 + 4 * 511. With the edition all of it is two bytes further.
#[test]
fn the_longest_file() {
    has_pieces(0, "0004  0001 0001 0001 0002");
    has_pieces(1, "0005  0001 0001 0001 0002 0001");
    assert_eq!(LONGEST_FILE, 12_268);
}

fn has_pieces(edition: u16, setting: &str) {
    let more = 2 * usize::from(edition);
    let length = 12_266 + more;
    let ws = longest_in(edition);
    let mut out = vec![0xa5; length];
    assert_eq!(write_first(&ws, &mut out), (0, length as i64));
    refuses(&ws, length - 1, (16, 0));
    writes(&ws, &out);
    assert!(out.starts_with(&bytes(setting)));
    let pieces = [
        (10, "01ff"),
        (12, "fffffffffffffffe  0001  0001  0000"),
        (26, "fffffffffffffffd  0002  0002  0001 0000"),
        (42, "fffffffffffffffc  0003  0003  0002 0001 0000"),
        (60, "fffffffffffffffb  0004  0004  0003 0002 0001 0000"),
        (5100, "fffffffffffffeff  0001  0004  00ff 00fe 00fd 00fc"),
        (5120, "fffffffffffffefe  0002  0004  0100 00ff 00fe 00fd"),
        (10200, "fffffffffffffe00  0001  0004  01fe 01fd 01fc 01fb"),
        (10220, "01ff  01ff 0000  01fe 0001  01fd 0000"),
        (11242, "0100 0001  00ff 0000"),
        (12258, "0002 0001  0001 0000"),
    ];
    for (at, digits) in pieces {
        let (at, piece) = (at + more, bytes(digits));
        assert_eq!(out[at..at + piece.len()], piece, "from byte {at} on");
    }
}

/// A chain has one parent each: 14 bytes for each booking, and for each poll
/// 4.
#[test]
fn lengths_of_files() {
    for (n, length) in [(1, 14), (2, 28), (3, 42), (257, 3598), (511, 7154)] {
        let mut ws = chain(n);
        let mut out = [0; LONGEST_FILE];
        assert_eq!(write_first(&ws, &mut out), (0, length));
        if n > 1 {
            must_poll(&mut ws, n - 1, &[0]);
            assert_eq!(write_first(&ws, &mut out), (0, length + 4));
        }
    }
}

#[test]
fn refusal_1_before_the_others() {
    let lengths = [0, 1, HEADER_WORDS, WORDS - 1, WORDS + 1, 2 * WORDS];
    for length in lengths.into_iter().chain([WORDS_WITHOUT_MARKS]) {
        let mut ws = run_polled(4);
        ws.resize(length, 0);
        for room in [0, 87, 88, LONGEST_FILE] {
            refuses(&ws, room, (1, 0));
        }
    }
}

/// A header, a record and a slot entry at their borders and one step beyond,
/// each before a short buffer.
#[test]
fn refusals_2_14_and_15_before_16() {
    let cases = [
        // k below 4, twice a, and β1 up to β2, which is 2
        (K, 3, 4, (2, 0)),
        (BETA1, 2, 3, (2, 0)),
        (REST, 0, 1, (2, 0)),
        // three chits bound confidences and counters
        (record(3) + CONFIDENCE, 3, 4, (14, 3)),
        (record(5) + ORDINAL, 0, 1, (14, 5)),
        (record(4) + MARK, 1, 2, (14, 4)),
        (record(511) + MARK, 0, 1, (14, 511)),
        (entry(9) + COUNTER, 3, 4, (15, 9)),
        (entry(255) + COUNT, 0, 1, (15, 255)),
    ];
    for (at, good, bad, answer) in cases {
        let mut ws = run_polled(4);
        ws[at] = good;
        assert_eq!(write_first(&ws, &mut [0; 88]), (0, 88));
        refuses(&ws, 87, (16, 0));
        ws[at] = bad;
        for room in [0, 13, 87, 88, LONGEST_FILE] {
            refuses(&ws, room, answer);
        }
    }
}

/// A poll held twice, a parent that is not lower, and a poll of a full ledger
/// that nobody holds: no file says that, and the row is named.
#[test]
fn damage_to_what_a_file_carries() {
    let mut ws = run_polled(4);
    ws[record(4) + ORDINAL] = 1;
    refuses(&ws, LONGEST_FILE, (14, 4));
    let mut ws = run_polled(4);
    ws[record(2) + PARENT] = 2;
    refuses(&ws, LONGEST_FILE, (14, 2));
    let mut ws = longest_in(0);
    ws[record(511) + STATE] = 0;
    ws[record(511) + ORDINAL] = 0;
    refuses(&ws, LONGEST_FILE, (14, 512));
}

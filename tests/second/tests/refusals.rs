//! Every refusal on both sides of its border, the order of refusals, and
//! that a refused call changes no word. All have value 0 but 14 and 15, of
//! which `soundness.rs` and `damage.rs` say more; of the day file's refusals
//! `day_file.rs`, `read_file.rs`, `second_form.rs` and `moves.rs` do.

mod ledgers;
use ledgers::*;
use second::layout::*;
use second::words::*;

/// A call on the words answers the number, with value 0 and, if it is a
/// refusal, with every word as before.
fn answers(ws: &[u16], number: u32, call: impl FnOnce(&mut [u16]) -> Answer) {
    names(ws, number, 0, call);
}

/// The same with a value.
fn names(ws: &[u16], number: u32, value: i64, call: impl FnOnce(&mut [u16]) -> Answer) {
    let mut after = ws.to_vec();
    assert_eq!(call(&mut after), (number, value));
    if number != 0 {
        assert_eq!(after, ws);
    }
}

/// In both editions, and in none where there is no such edition.
fn opens(number: u32, k: u16, a: u16, beta1: u16, beta2: u16) {
    let opens_in = |edition, number| {
        answers(&vec![7; WORDS], number, |ws| {
            open(ws, k, a, beta1, beta2, edition)
        });
    };
    opens_in(0, number);
    opens_in(1, number);
    for edition in [2, 3, 255, 256, 257, 32768, 65535] {
        opens_in(edition, 3);
    }
}

fn books(number: u32, name: u64, slot: u16, parents: &[u64]) {
    answers(&run_booked(), number, |ws| book(ws, name, slot, parents));
}

fn polls(number: u32, name: u64, votes: &[u8]) {
    answers(&run_polled(2), number, |ws| poll(ws, name, votes));
}

/// 8 + 512 * 13 + 256 * 4, the entries from 8 + 512 * 13 on.
#[test]
fn the_workspace_has_7688_words() {
    assert_eq!((ENTRIES_START, WORDS), (6_664, 7_688));
    answers(&[7; 7_688], 0, |ws| open(ws, 1, 1, 1, 1, 0));
}

#[test]
fn refusal_1_any_other_length() {
    for length in [
        0,
        1,
        HEADER_WORDS,
        WORDS_WITHOUT_MARKS,
        WORDS - 1,
        WORDS + 1,
        2 * WORDS,
    ] {
        let mut ws = run_booked();
        ws.resize(length, 0);
        // The length comes first, before a setting or a name is looked at.
        answers(&ws, 1, |ws| open(ws, 0, 0, 0, 0, 0));
        answers(&ws, 1, |ws| book(ws, 0, 0, &[]));
        answers(&ws, 1, |ws| poll(ws, 77, &[]));
        for reading in [query, accepted, lead, confidence, size] {
            answers(&ws, 1, |ws| reading(ws, 0));
        }
    }
    answers(&run_booked(), 0, |ws| open(ws, 1, 1, 1, 1, 0));
}

#[test]
fn refusal_2_all_zero_words() {
    let ws = vec![0; WORDS];
    answers(&ws, 2, |ws| book(ws, 0, 0, &[]));
    answers(&ws, 2, |ws| poll(ws, 77, &[]));
    for reading in [query, accepted, lead, confidence, size] {
        answers(&ws, 2, |ws| reading(ws, 0));
    }
    // Opening does not look at the old words.
    answers(&ws, 0, |ws| open(ws, 1, 1, 1, 1, 0));
}

/// Run's chits number three: that many, then one more.
#[test]
fn refusal_14_a_record() {
    let mut ws = run_polled(4);
    ws[record(3) + CONFIDENCE] = 3;
    answers(&ws, 0, |ws| book(ws, 9, 1, &[0]));
    answers(&ws, 11, |ws| poll(ws, 1, &[]));
    ws[record(3) + CONFIDENCE] = 4;
    names(&ws, 14, 3, |ws| book(ws, 9, 1, &[0]));
    names(&ws, 14, 3, |ws| poll(ws, 1, &[]));
    for reading in [query, accepted, lead, confidence, size] {
        names(&ws, 14, 3, |ws| reading(ws, 77));
    }
    answers(&ws, 3, |ws| open(ws, 0, 0, 0, 0, 0));
    answers(&ws, 0, |ws| open(ws, 1, 1, 1, 1, 0));
}

#[test]
fn refusal_15_a_slot_entry() {
    let mut ws = run_polled(4);
    ws[entry(9) + COUNTER] = 3;
    answers(&ws, 0, |ws| book(ws, 9, 1, &[0]));
    answers(&ws, 11, |ws| poll(ws, 1, &[]));
    ws[entry(9) + COUNTER] = 4;
    names(&ws, 15, 9, |ws| book(ws, 9, 1, &[0]));
    names(&ws, 15, 9, |ws| poll(ws, 1, &[]));
    for reading in [query, accepted, lead, confidence, size] {
        names(&ws, 15, 9, |ws| reading(ws, 77));
    }
    answers(&ws, 3, |ws| open(ws, 0, 0, 0, 0, 0));
    answers(&ws, 0, |ws| open(ws, 1, 1, 1, 1, 0));
}

#[test]
fn refusal_3_the_setting() {
    // k from 1 to 64
    opens(3, 0, 0, 1, 1);
    opens(0, 1, 1, 1, 1);
    opens(0, 64, 64, 1, 1);
    opens(3, 65, 65, 1, 1);
    // a up to k, and twice a above k
    opens(3, 10, 11, 1, 1);
    opens(0, 10, 6, 1, 1);
    opens(3, 10, 5, 1, 1);
    opens(0, 9, 5, 1, 1);
    opens(3, 9, 4, 1, 1);
    // twice 32769 is 2 in sixteen bits
    opens(3, 1, 32769, 1, 1);
    // β1 from 1, β2 from β1 to 510
    opens(3, 1, 1, 0, 1);
    opens(0, 1, 1, 2, 2);
    opens(3, 1, 1, 3, 2);
    opens(0, 1, 1, 510, 510);
    opens(3, 1, 1, 1, 511);
    opens(3, 65535, 65535, 65535, 65535);
}

#[test]
fn refusal_4_the_name() {
    books(4, 0, 1, &[0]);
    books(4, 4, 1, &[0]);
    books(0, 5, 1, &[0]);
    books(0, u64::MAX, 1, &[0]);
    // Names that agree in their lowest words are still different.
    books(0, 4 + (1 << 16), 1, &[0]);
    books(0, 4 + (1 << 32), 1, &[0]);
    books(0, 4 + (1 << 48), 1, &[0]);
}

#[test]
fn refusal_5_the_slot() {
    books(5, 5, 0, &[0]);
    books(0, 5, 1, &[0]);
    books(0, 5, 255, &[0]);
    books(5, 5, 256, &[0]);
    books(5, 5, 65535, &[0]);
}

#[test]
fn refusal_6_the_number_of_parents() {
    books(6, 5, 1, &[]);
    books(0, 5, 1, &[0]);
    books(0, 5, 1, &[3, 2, 1, 0]);
    books(6, 5, 1, &[4, 3, 2, 1, 0]);
    books(6, 5, 1, &[0; 70000]);
}

#[test]
fn refusal_7_an_unknown_parent() {
    books(7, 5, 1, &[5]);
    books(7, 5, 1, &[0, 1, 2, 77]);
    books(7, 5, 1, &[77, 1, 2, 0]);
}

#[test]
fn refusal_8_a_parent_twice() {
    books(8, 5, 1, &[0, 0]);
    books(8, 5, 1, &[1, 2, 3, 1]);
    books(7, 5, 1, &[1, 1, 77]);
}

#[test]
fn refusal_9_no_room() {
    answers(&chain(511), 0, |ws| book(ws, 600, 1, &[0]));
    let full = chain(512);
    answers(&full, 9, |ws| book(ws, 600, 1, &[0]));
    // It is the last refusal of a booking.
    answers(&full, 8, |ws| book(ws, 600, 1, &[0, 0]));
    answers(&full, 7, |ws| book(ws, 600, 1, &[601]));
    answers(&full, 6, |ws| book(ws, 600, 1, &[]));
    answers(&full, 5, |ws| book(ws, 600, 0, &[]));
    answers(&full, 4, |ws| book(ws, 1, 0, &[]));
}

#[test]
fn refusal_10_an_unknown_name() {
    polls(10, 5, &[]);
    polls(10, u64::MAX, &[2]);
    let ws = run_booked();
    for reading in [query, accepted, lead, confidence, size] {
        answers(&ws, 10, |ws| reading(ws, 5));
        assert_eq!(reading(&ws, 4).0, 0);
    }
}

#[test]
fn refusal_11_polled_before() {
    polls(11, 0, &[]);
    polls(11, 2, &[1, 1, 1]);
    polls(11, 3, &[2]);
    polls(0, 4, &[1, 1, 1]);
}

#[test]
fn refusal_12_the_number_of_votes() {
    polls(12, 4, &[]);
    polls(12, 4, &[1, 1]);
    polls(0, 4, &[1, 1, 1]);
    polls(12, 4, &[1, 1, 1, 2]);
    polls(12, 4, &[1; 65539]);
}

#[test]
fn refusal_13_a_byte_that_is_no_vote() {
    for byte in 2..=254 {
        polls(13, 4, &[1, 1, byte]);
    }
    polls(13, 4, &[128, 1, 1]);
    for byte in [0, 1, 255] {
        polls(0, 4, &[byte, byte, byte]);
    }
}

/// Run's file has 88 bytes.
#[test]
fn refusal_16_a_short_buffer() {
    let ws = run_polled(4);
    answers(&ws, 16, |ws| write_first(ws, &mut []));
    answers(&ws, 16, |ws| write_first(ws, &mut [0; 87]));
    names(&ws, 0, 88, |ws| write_first(ws, &mut [0; 88]));
    names(&ws, 0, 88, |ws| write_first(ws, &mut [0; 89]));
    // It is the last refusal of the call.
    answers(&vec![0; WORDS], 2, |ws| write_first(ws, &mut []));
    answers(&ws[1..], 1, |ws| write_first(ws, &mut []));
}

/// The shortest file there is, and with a setting that is not good.
#[test]
fn refusal_17_a_bad_file() {
    let file = [0, 4, 0, 3, 0, 2, 0, 1, 0, 2, 0, 0, 0, 0];
    let mut other = file;
    other[3] = 4;
    // It does not matter whether the words are a ledger.
    for ws in [run_polled(4), vec![0; WORDS]] {
        answers(&ws, 0, |ws| read_first(ws, &file));
        answers(&ws, 17, |ws| read_first(ws, &other));
        answers(&ws, 17, |ws| read_first(ws, &file[..13]));
        answers(&ws, 17, |ws| read_first(ws, &[]));
        answers(&ws[1..], 1, |ws| read_first(ws, &[]));
    }
}

/// The genesis alone, told as marked and not. A move lends no words.
#[test]
fn refusals_of_the_second_form() {
    let file = [0, 4, 0, 3, 0, 2, 0, 1, 0, 2, 0, 0, 0, 0, 0, 1, 0, 0];
    let mut other = file;
    other[17] = 1;
    for ws in [run_polled(4), vec![0; WORDS]] {
        answers(&ws, 0, |ws| read_second(ws, &file));
        answers(&ws, 17, |ws| read_second(ws, &other));
        answers(&ws, 17, |ws| read_second(ws, &file[..17]));
        answers(&ws, 17, |ws| read_second(ws, &file[..14]));
        answers(&ws[1..], 1, |ws| read_second(ws, &[]));
    }
    let ws = opened(3, 2, 1, 2);
    names(&ws, 0, 18, |ws| write_second(ws, &mut [0; 18]));
    answers(&ws, 16, |ws| write_second(ws, &mut [0; 17]));
    answers(&vec![0; WORDS], 2, |ws| write_second(ws, &mut []));
    answers(&ws[1..], 1, |ws| write_second(ws, &mut []));
    assert_eq!(move_first(&file[..14], &mut [0; 18]), (0, 18));
    assert_eq!(move_first(&file[..14], &mut [0; 17]), (16, 0));
    assert_eq!(move_first(&file, &mut [0; 17]), (17, 0));
    assert_eq!(move_second(&file, &mut [0; 14]), (0, 14));
    assert_eq!(move_second(&file, &mut [0; 13]), (16, 0));
    assert_eq!(move_second(&other, &mut [0; 13]), (17, 0));
    assert_eq!(move_second(&file[..14], &mut [0; 14]), (17, 0));
}

/// A no takes nothing from the yes votes, and silence is no vote at all.
#[test]
fn only_yes_votes_are_counted() {
    for (votes, state) in [
        ([1, 1, 255], 2),
        ([1, 1, 0], 2),
        ([1, 255, 0], 1),
        ([0, 0, 0], 1),
    ] {
        let mut ws = run_booked();
        must_poll(&mut ws, 4, &votes);
        assert_eq!(record_word(&ws, 4, STATE), state);
    }
}

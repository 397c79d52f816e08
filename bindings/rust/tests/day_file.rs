//! The day file: every byte worked out by hand, its length, what stays, and refusal 16 in its order.
use filzhammer::*;

mod listed;
mod refused;
use listed::*;
use refused::*;

/// The file of the example: 14 bytes, 12 for each of four bookings, 2 for each of five parents, 4 for each of four polls.
const LISTED: [u8; 88] = [
    0, 4, 0, 3, 0, 2, 0, 1, 0, 2, // four numbers: k, a, beta1, beta2
    0, 4, // four bookings
    0, 0, 0, 0, 0, 0, 0, 1, 0, 7, 0, 1, 0, 0, // name 1, slot 7, one parent: the genesis
    0, 0, 0, 0, 0, 0, 0, 2, 0, 7, 0, 1, 0, 0, // name 2, slot 7, one parent: the genesis
    0, 0, 0, 0, 0, 0, 0, 3, 0, 9, 0, 1, 0, 1, // name 3, slot 9, one parent: 1
    0, 0, 0, 0, 0, 0, 0, 4, 0, 10, 0, 2, 0, 1, 0, 2, // name 4, slot 10, two parents: 1 and 2
    0, 4, // four polls
    0, 2, 0, 1, // of 2: two yes
    0, 3, 0, 0, // of 3: one yes, and two are needed
    0, 4, 0, 1, // of 4: three yes
    0, 1, 0, 1, // of 1: two yes
];

/// The genesis alone.
fn opened(setting: Setting) -> [u16; WORDS] {
    let mut ws = [0; WORDS];
    open(&mut ws, setting).unwrap();
    ws
}

/// The file is these bytes: in a buffer just as long, and in longer ones, whose other bytes stay, as do those around the
/// buffer and the words; and a buffer one byte shorter is refused.
#[track_caller]
fn writes(ws: &mut [u16], file: &[u8]) {
    let words = ws.to_vec();
    for bytes in [file.len(), file.len() + 1, FILE_MOST, FILE_MOST + 500] {
        let before = filled(8 + bytes + 8);
        let mut after = before.clone();
        let length = write_first(ws, &mut after[8..8 + bytes]);
        assert_eq!(length, Ok(file.len()));
        let expected = [&before[..8], file, &before[8 + file.len()..]].concat();
        assert_eq!(after, expected);
        assert_eq!(ws, words, "writing changed a word");
    }
    write_refused(Refusal::ShortBuffer, ws, file.len() - 1);
}

// ---- the bytes

#[test]
fn the_file_of_the_examples_ledger() {
    writes(&mut listed(4), &LISTED);
}

/// One number more in the first section, and all else as it was.
#[test]
fn the_same_with_the_later_edition() {
    let file = [&[0, 5], &LISTED[2..10], &[0, 1], &LISTED[10..]].concat();
    assert_eq!(file.len(), 90);
    writes(&mut listed_by(LATER, 4), &file);
    writes(
        &mut opened(LATER),
        &[0, 5, 0, 3, 0, 2, 0, 1, 0, 2, 0, 1, 0, 0, 0, 0],
    );
}

#[test]
fn the_genesis_alone_has_the_shortest_file() {
    let file = [0, 4, 0, 3, 0, 2, 0, 1, 0, 2, 0, 0, 0, 0];
    assert_eq!(file.len(), FILE_LEAST);
    writes(&mut opened(SETTING), &file);
    writes(
        &mut opened(Setting::PAPER),
        &[0, 4, 0, 10, 0, 8, 0, 11, 0, 150, 0, 0, 0, 0],
    );
}

#[test]
fn a_number_has_its_high_byte_first() {
    let setting = Setting {
        k: 64,
        a: 33,
        beta1: 258,
        beta2: 510,
        edition: 0,
    };
    writes(
        &mut opened(setting),
        &[0, 4, 0, 64, 0, 33, 1, 2, 1, 254, 0, 0, 0, 0],
    );
}

#[test]
fn a_name_has_its_highest_byte_first() {
    let mut ws = opened(SETTING);
    book(&mut ws, 0x0102_0304_0506_0708, 255, &[0]).unwrap();
    book(&mut ws, u64::MAX - 1, 1, &[0]).unwrap();
    book(&mut ws, 1 << 56, 2, &[0]).unwrap();
    let file = [
        &[0, 4, 0, 3, 0, 2, 0, 1, 0, 2][..],
        &[0, 3],
        &[1, 2, 3, 4, 5, 6, 7, 8, 0, 255, 0, 1, 0, 0],
        &[255, 255, 255, 255, 255, 255, 255, 254, 0, 1, 0, 1, 0, 0],
        &[1, 0, 0, 0, 0, 0, 0, 0, 0, 2, 0, 1, 0, 0],
        &[0, 0],
    ]
    .concat();
    writes(&mut ws, &file);
}

#[test]
fn parents_and_polls_are_told_by_number_and_not_by_name() {
    let mut ws = opened(SETTING);
    book(&mut ws, 3, 7, &[0]).unwrap(); // number 1
    book(&mut ws, 1, 7, &[3]).unwrap(); // number 2
    book(&mut ws, 2, 7, &[1, 0, 3]).unwrap(); // number 3, on 2, 0 and 1
    book(&mut ws, 9, 7, &[3, 1, 2, 0]).unwrap(); // number 4, on 1, 2, 3 and 0
    poll(&mut ws, 1, &[YES; 3]).unwrap();
    poll(&mut ws, 9, &[NO; 3]).unwrap();
    let file = [
        &[0, 4, 0, 3, 0, 2, 0, 1, 0, 2][..],
        &[0, 4],
        &[0, 0, 0, 0, 0, 0, 0, 3, 0, 7, 0, 1, 0, 0],
        &[0, 0, 0, 0, 0, 0, 0, 1, 0, 7, 0, 1, 0, 1],
        &[0, 0, 0, 0, 0, 0, 0, 2, 0, 7, 0, 3, 0, 2, 0, 0, 0, 1],
        &[0, 0, 0, 0, 0, 0, 0, 9, 0, 7, 0, 4, 0, 1, 0, 2, 0, 3, 0, 0],
        &[0, 2],
        &[0, 2, 0, 1],
        &[0, 4, 0, 0],
    ]
    .concat();
    writes(&mut ws, &file);
}

#[test]
fn who_waits_has_no_poll() {
    let mut ws = opened(SETTING);
    for name in 1..=3 {
        book(&mut ws, name, 7, &[0]).unwrap();
    }
    let booked = [
        &[0, 4, 0, 3, 0, 2, 0, 1, 0, 2][..],
        &[0, 3],
        &[0, 0, 0, 0, 0, 0, 0, 1, 0, 7, 0, 1, 0, 0],
        &[0, 0, 0, 0, 0, 0, 0, 2, 0, 7, 0, 1, 0, 0],
        &[0, 0, 0, 0, 0, 0, 0, 3, 0, 7, 0, 1, 0, 0],
    ]
    .concat();
    writes(&mut ws, &[&booked[..], &[0, 0]].concat());
    poll(&mut ws, 3, &[SILENT; 3]).unwrap();
    writes(&mut ws, &[&booked[..], &[0, 1], &[0, 3, 0, 0]].concat());
    poll(&mut ws, 1, &[NO, YES, YES]).unwrap();
    let polls = [0, 2, 0, 3, 0, 0, 0, 1, 0, 1];
    writes(&mut ws, &[&booked[..], &polls].concat());
}

/// 511 bookings after the genesis, number i on the numbers below it, the nearest first, as many as there are up to four. All
/// are polled, from the last to the first, and one in three wins.
#[test]
fn the_longest_file() {
    let name = |number: u64| number.wrapping_mul(0x9e37_79b9_7f4a_7c15); // an odd factor, so no two are equal
    let slot = |number: u64| (number % 255 + 1) as u16;
    let fill = |setting| {
        let mut ws = opened(setting);
        for number in 1..512 {
            let parents: Vec<u64> = (0..number).rev().take(4).map(name).collect();
            book(&mut ws, name(number), slot(number), &parents).unwrap();
        }
        for number in (1..512).rev() {
            let votes = [YES, SILENT, if number % 3 == 0 { YES } else { NO }];
            poll(&mut ws, name(number), &votes).unwrap();
        }
        ws
    };

    let mut file = vec![];
    let mut add = |number: u16| file.extend([(number >> 8) as u8, number as u8]);
    add(511);
    for number in 1..512 {
        for part in [48, 32, 16, 0] {
            add((name(number) >> part) as u16);
        }
        add(slot(number));
        add(number.min(4) as u16);
        for before in 1..=number.min(4) {
            add((number - before) as u16);
        }
    }
    add(511);
    for number in (1..512).rev() {
        add(number);
        add((number % 3 == 0) as u16);
    }
    let first = [&[0, 4, 0, 3, 0, 2, 0, 1, 0, 2][..], &file].concat();
    assert_eq!(first.len(), 12_266);
    writes(&mut fill(SETTING), &first);
    let later = [&[0, 5, 0, 3, 0, 2, 0, 1, 0, 2, 0, 1][..], &file].concat();
    assert_eq!(later.len(), 12_268);
    assert_eq!(later.len(), FILE_MOST);
    writes(&mut fill(LATER), &later);
}

// ---- what it does not carry

/// Single votes and the order between bookings and polls are gone, and so are words that follow from the rest.
#[test]
fn other_votes_and_another_order_give_the_same_file() {
    let mut ws = opened(SETTING);
    book(&mut ws, 1, 7, &[0]).unwrap();
    book(&mut ws, 2, 7, &[0]).unwrap();
    poll(&mut ws, 2, &[YES, YES, YES]).unwrap();
    book(&mut ws, 3, 9, &[1]).unwrap();
    poll(&mut ws, 3, &[NO, NO, YES]).unwrap();
    book(&mut ws, 4, 10, &[1, 2]).unwrap();
    poll(&mut ws, 4, &[SILENT, YES, YES]).unwrap();
    poll(&mut ws, 1, &[YES, NO, YES]).unwrap();
    assert_eq!(ws, listed(4));
    writes(&mut ws, &LISTED);
}

#[test]
fn confidences_marks_and_slot_entries_are_not_in_the_file() {
    let mut ws = listed(4);
    for (place, word) in [
        (8 + 13 + 10, 3),       // the confidence of booking 1, within the three chits
        (8 + 13 + 12, 1),       // its mark
        (6664 + 4 * 7, 1),      // the preferred booking of slot 7
        (6664 + 4 * 7 + 1, 2),  // its last
        (6664 + 4 * 10 + 2, 3), // the counter of slot 10
    ] {
        assert_ne!(ws[place], word);
        ws[place] = word;
    }
    writes(&mut ws, &LISTED);
}

/// 1 is accepted before its rival comes, or the rival is there from the start: the same file.
#[test]
fn who_is_accepted_is_not_in_the_file() {
    let one_vote = Setting {
        k: 1,
        a: 1,
        beta1: 1,
        beta2: 2,
        edition: 0,
    };
    let file = [
        &[0, 4, 0, 1, 0, 1, 0, 1, 0, 2][..],
        &[0, 3],
        &[0, 0, 0, 0, 0, 0, 0, 1, 0, 7, 0, 1, 0, 0],
        &[0, 0, 0, 0, 0, 0, 0, 2, 0, 8, 0, 1, 0, 1],
        &[0, 0, 0, 0, 0, 0, 0, 3, 0, 7, 0, 1, 0, 0],
        &[0, 2],
        &[0, 1, 0, 1],
        &[0, 2, 0, 1],
    ]
    .concat();
    let mut late = opened(one_vote);
    book(&mut late, 1, 7, &[0]).unwrap();
    book(&mut late, 2, 8, &[1]).unwrap();
    poll(&mut late, 1, &[YES]).unwrap();
    poll(&mut late, 2, &[YES]).unwrap();
    book(&mut late, 3, 7, &[0]).unwrap();
    assert_eq!(accepted(&late, 1), Ok(1));
    writes(&mut late, &file);

    let mut early = opened(one_vote);
    book(&mut early, 1, 7, &[0]).unwrap();
    book(&mut early, 2, 8, &[1]).unwrap();
    book(&mut early, 3, 7, &[0]).unwrap();
    poll(&mut early, 1, &[YES]).unwrap();
    poll(&mut early, 2, &[YES]).unwrap();
    assert_eq!(accepted(&early, 1), Ok(0)); // not alone, and counter 2 is not above beta2
    writes(&mut early, &file);
}

// ---- 16, and what comes before it

#[test]
fn every_shorter_buffer_is_refused() {
    let mut ws = listed(4);
    for bytes in 0..LISTED.len() {
        write_refused(Refusal::ShortBuffer, &mut ws, bytes);
    }
    assert_eq!(write_first(&ws, &mut []), Err(Refusal::ShortBuffer));
    let mut genesis = opened(SETTING);
    for bytes in 0..FILE_LEAST {
        write_refused(Refusal::ShortBuffer, &mut genesis, bytes);
    }
}

/// Each is told in an empty buffer, in one too short for any file, and in one with room for every file: see `all_refused`.
#[test]
fn the_length_and_damage_come_first() {
    for ws in [
        &mut listed(4)[..WORDS - 1],
        &mut listed(4)[..7176],
        &mut [0; WORDS + 1],
        &mut [],
    ] {
        all_refused(Refusal::WrongLength, ws);
    }
    let mut ws = listed(4);
    ws[6664 + 4 * 7 + 3] = 3; // slot 7 has two bookings
    all_refused(Refusal::DamagedSlot(7), &mut ws);
    ws[8 + 13 * 3 + 4] = 0; // booking 3 in the slot of the genesis
    all_refused(Refusal::DamagedRecord(3), &mut ws);
    ws[8 + 13 * 2 + 12] = 2; // a mark is 0 or 1
    all_refused(Refusal::DamagedRecord(2), &mut ws);
    ws[7] = 1; // the spare word of the header
    all_refused(Refusal::DamagedHeader, &mut ws);
    all_refused(Refusal::WrongLength, &mut ws[1..]);
}

/// A refused call leaves a ledger of which the file can still be written.
#[test]
fn after_a_refusal_a_longer_buffer_is_taken() {
    let mut ws = listed(4);
    let mut room = [9; LISTED.len()];
    let (front, _) = room.split_at_mut(LISTED.len() - 1);
    assert_eq!(write_first(&ws, front), Err(Refusal::ShortBuffer));
    assert_eq!(room, [9; LISTED.len()]);
    assert_eq!(write_first(&ws, &mut room), Ok(LISTED.len()));
    assert_eq!(room, LISTED);

    // over an older file, which was longer
    open(&mut ws, SETTING).unwrap();
    assert_eq!(write_first(&ws, &mut room), Ok(FILE_LEAST));
    assert_eq!(
        room[..FILE_LEAST],
        [0, 4, 0, 3, 0, 2, 0, 1, 0, 2, 0, 0, 0, 0]
    );
    assert_eq!(room[FILE_LEAST..], LISTED[FILE_LEAST..]);
}

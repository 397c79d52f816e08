//! Reading a day file: what it makes of any words, that writing leads back, and every way in which a file is bad, worked out by
//! hand on both sides of each border.
use filzhammer::*;

mod listed;
mod refused;
use listed::*;
use refused::*;

/// A file, in its three sections.
type Sections<'a> = [&'a [u8]; 3];

/// The file of the example: see `day_file.rs`.
const LISTED: Sections = [
    &[0, 4, 0, 3, 0, 2, 0, 1, 0, 2],
    &[
        0, 4, // four bookings
        0, 0, 0, 0, 0, 0, 0, 1, 0, 7, 0, 1, 0, 0, // 12: name 1, slot 7, on 0
        0, 0, 0, 0, 0, 0, 0, 2, 0, 7, 0, 1, 0, 0, // 26: name 2, slot 7, on 0
        0, 0, 0, 0, 0, 0, 0, 3, 0, 9, 0, 1, 0, 1, // 40: name 3, slot 9, on 1
        0, 0, 0, 0, 0, 0, 0, 4, 0, 10, 0, 2, 0, 1, 0, 2, // 54: name 4, slot 10, on 1 and 2
    ],
    &[0, 4, 0, 2, 0, 1, 0, 3, 0, 0, 0, 4, 0, 1, 0, 1, 0, 1], // of 2, 3, 4 and 1
];

const NONE: &[u8] = &[0, 0];

fn example() -> Vec<u8> {
    LISTED.concat()
}

/// Words of the right length: never used, all alike, a ledger, and one whose header and last slot entry are damaged.
fn any_words() -> [[u16; WORDS]; 4] {
    let mut damaged = listed(4);
    damaged[0] = 600;
    damaged[WORDS - 1] = 9;
    [[0; WORDS], [u16::MAX; WORDS], listed(4), damaged]
}

fn written(ws: &[u16]) -> Vec<u8> {
    let mut out = vec![0; FILE_MOST];
    let length = write_first(ws, &mut out).unwrap();
    out.truncate(length);
    out
}

/// The file makes these words of any, and is written again.
#[track_caller]
fn makes(file: &[u8], words: &[u16]) {
    for mut ws in any_words() {
        assert_eq!(read_first(&mut ws, file), Ok(()));
        assert_eq!(ws[..], words[..]);
    }
    assert_eq!(written(words), file);
}

/// The file is taken, and written again.
#[track_caller]
fn good(sections: Sections) {
    let file = sections.concat();
    let mut ws = [9; WORDS];
    assert_eq!(read_first(&mut ws, &file), Ok(()));
    assert_eq!(written(&ws), file);
}

/// The file is refused, and leaves any words alone.
#[track_caller]
fn bad(sections: Sections) {
    for mut ws in any_words() {
        read_refused(Refusal::BadFile, &mut ws, &sections.concat());
    }
}

// ---- what it makes

#[test]
fn the_file_of_the_example() {
    makes(&example(), &listed(4));
}

#[test]
fn what_was_written_is_read_back() {
    for polls in 0..=4 {
        for setting in [SETTING, LATER] {
            let ws = listed_by(setting, polls);
            makes(&written(&ws), &ws);
        }
    }
    let mut ws = [0; WORDS];
    open(&mut ws, Setting::PAPER).unwrap();
    makes(&written(&ws), &ws);
}

/// Names of all 64 bits, parents that are not their names, polls that are not in the order of the bookings.
#[test]
fn names_numbers_and_orders() {
    let mut ws = [0; WORDS];
    let setting = Setting {
        k: 5,
        a: 3,
        beta1: 258,
        beta2: 510,
        edition: 0,
    };
    open(&mut ws, setting).unwrap();
    book(&mut ws, 3, 255, &[0]).unwrap();
    book(&mut ws, u64::MAX, 1, &[3]).unwrap();
    book(&mut ws, 0x0102_0304_0506_0708, 255, &[u64::MAX, 0, 3]).unwrap();
    book(&mut ws, 1, 255, &[0x0102_0304_0506_0708]).unwrap();
    poll(&mut ws, 1, &[YES; 5]).unwrap();
    poll(&mut ws, 3, &[YES, YES, NO, NO, SILENT]).unwrap();
    poll(&mut ws, u64::MAX, &[YES, YES, YES, NO, NO]).unwrap();
    makes(&written(&ws), &ws);
}

#[test]
fn the_day_goes_on_after_reading() {
    let mut ws = [0; WORDS];
    read_first(&mut ws, &written(&listed(2))).unwrap();
    poll_refused(Refusal::NotWaiting, &mut ws, 2, &[YES; 3]);
    poll(&mut ws, 4, &[YES; 3]).unwrap();
    poll(&mut ws, 1, &[YES; 3]).unwrap();
    assert_eq!(ws, listed(4));
    book_refused(Refusal::NameTaken, &mut ws, 4, 8, &[0]);
    book(&mut ws, 5, 8, &[4]).unwrap();
    assert_eq!(size(&ws, 5), Ok(5));
}

/// 511 bookings after the genesis, with as many parents as they can have, all polled from the last to the first.
#[test]
fn the_longest_file() {
    for (setting, length, count) in [(SETTING, FILE_MOST - 2, 10), (LATER, FILE_MOST, 12)] {
        let mut ws = [0; WORDS];
        open(&mut ws, setting).unwrap();
        for name in 1..512u64 {
            let parents: Vec<u64> = (0..name).rev().take(4).collect();
            book(&mut ws, name, (name % 255 + 1) as u16, &parents).unwrap();
        }
        for name in (1..512).rev() {
            let vote = if name % 3 == 0 { YES } else { NO };
            poll(&mut ws, name, &[YES, SILENT, vote]).unwrap();
        }
        let file = written(&ws);
        assert_eq!(file.len(), length);
        makes(&file, &ws);

        // One booking more, at the end of its section, with the count that is true then.
        let polls = length - 2 - 4 * 511;
        let more = [9, 0, 0, 0, 0, 0, 0, 0, 0, 1, 0, 1, 0, 0];
        let mut longer = [&file[..polls], &more, &file[polls..]].concat();
        assert_eq!(longer[count..count + 2], [1, 255]);
        longer[count..count + 2].copy_from_slice(&[2, 0]);
        bad([&longer, &[], &[]]);
    }
}

/// What no poll led to is not in a file, and is made by the rules.
#[test]
fn confidences_marks_and_slot_entries_are_made_again() {
    let mut ws = listed(4);
    ws[8 + 13 + 10] = 3; // the confidence of booking 1
    ws[8 + 13 + 12] = 1; // its mark
    ws[6664 + 4 * 7] = 1; // the preferred booking of slot 7
    let file = written(&ws);
    makes(&file, &listed(4));
}

// ---- marks

fn mark(number: usize) -> usize {
    8 + 13 * number + 12
}

/// One vote in a poll, with beta1 1 and beta2 2; six bookings, of which 1 and 3 compete for slot 7. So many of them come before
/// the first poll, so many polls are taken, each with a yes, then the other bookings come, and then the polls up to the last.
fn rivals(before: usize, between: u64, last: u64) -> [u16; WORDS] {
    let setting = Setting {
        k: 1,
        a: 1,
        beta1: 1,
        beta2: 2,
        edition: 0,
    };
    let bookings = [
        (1, 7, 0),
        (2, 8, 1),
        (3, 7, 0),
        (4, 11, 3),
        (5, 12, 3),
        (6, 13, 3),
    ];
    let mut ws = [0; WORDS];
    open(&mut ws, setting).unwrap();
    for &(name, slot, parent) in &bookings[..before] {
        book(&mut ws, name, slot, &[parent]).unwrap();
    }
    for name in 1..=between {
        poll(&mut ws, name, &[YES]).unwrap();
    }
    for &(name, slot, parent) in &bookings[before..] {
        book(&mut ws, name, slot, &[parent]).unwrap();
    }
    for name in between + 1..=last {
        poll(&mut ws, name, &[YES]).unwrap();
    }
    ws
}

/// The names that are accepted.
fn all_accepted(ws: &[u16]) -> Vec<u64> {
    (0..=6)
        .filter(|&name| accepted(ws, name).unwrap() == 1)
        .collect()
}

/// With the rival there from the start, slot 7 has counters 1 and 2 for 1, which are not above beta2, and then 0 to 3 for 3,
/// which is preferred from the third of its polls on.
#[test]
fn marks_are_those_of_all_bookings_and_then_all_polls() {
    let early = rivals(6, 0, 6);
    assert_eq!(all_accepted(&early), [0, 3]);
    makes(&written(&early), &early);

    let mut ws = [0; WORDS];
    read_first(&mut ws, &written(&rivals(6, 0, 5))).unwrap();
    assert_eq!(all_accepted(&ws), [0]);
    poll(&mut ws, 6, &[YES]).unwrap();
    assert_eq!(ws, early);
}

/// 1 is accepted by the third poll, with slot 7 at counter 3. The fourth makes its rival last, and 1 meets no rule any more.
#[test]
fn an_acceptance_on_the_way_stays() {
    let mut ws = [0; WORDS];
    let setting = Setting {
        k: 1,
        a: 1,
        beta1: 1,
        beta2: 2,
        edition: 0,
    };
    open(&mut ws, setting).unwrap();
    for (name, slot, parent) in [(1, 7, 0), (2, 7, 0), (3, 8, 1), (4, 9, 1)] {
        book(&mut ws, name, slot, &[parent]).unwrap();
    }
    for name in [1, 3, 4, 2] {
        poll(&mut ws, name, &[YES]).unwrap();
    }
    assert_eq!(ws[6664 + 4 * 7..][..4], [1, 2, 0, 2]);
    assert_eq!(ws[mark(1)], 1);
    makes(&written(&ws), &ws);
}

/// 1 is accepted by the second poll, alone in its slot, and its rival comes after that. The file doesn't tell: every word comes
/// back but the marks.
#[test]
fn an_acceptance_is_lost_to_a_late_rival() {
    let late = rivals(2, 2, 2);
    assert_eq!(all_accepted(&late), [0, 1]);
    let mut expected = late;
    expected[mark(1)] = 0;
    makes(&written(&late), &expected);
    assert_eq!(all_accepted(&expected), [0]);
}

/// And if the rival wins the polls that follow, the acceptance stands at the rival.
#[test]
fn an_acceptance_goes_to_a_late_rival() {
    let late = rivals(2, 2, 6);
    assert_eq!(all_accepted(&late), [0, 1]);
    let mut expected = late;
    expected[mark(1)] = 0;
    expected[mark(3)] = 1;
    makes(&written(&late), &expected);
    assert_eq!(all_accepted(&expected), [0, 3]);
    assert_eq!(expected, rivals(6, 0, 6));
}

#[test]
fn a_refused_file_leaves_the_acceptances() {
    let mut ws = rivals(2, 2, 6);
    let file = written(&ws);
    read_refused(Refusal::BadFile, &mut ws, &file[1..]);
    assert_eq!(all_accepted(&ws), [0, 1]);
    read_first(&mut ws, &file).unwrap();
    assert_eq!(all_accepted(&ws), [0, 3]);
}

// ---- 1 comes first

#[test]
fn words_of_another_length() {
    for ws in [
        &mut listed(4)[..WORDS - 1],
        &mut listed(4)[..7176],
        &mut [0; WORDS + 1],
        &mut [],
    ] {
        read_refused(Refusal::WrongLength, ws, &example());
        read_refused(Refusal::WrongLength, ws, &[]);
        read_refused(Refusal::WrongLength, ws, &[0; 14]);
        all_refused(Refusal::WrongLength, ws);
    }
}

// ---- each way in which a file is bad

#[test]
fn a_file_that_ends_early() {
    let file = example();
    let mut ws = listed(1);
    for length in 0..file.len() {
        read_refused(Refusal::BadFile, &mut ws, &file[..length]);
    }
    bad([&[], &[], &[]]);
}

#[test]
fn a_file_with_bytes_behind() {
    let [setting, bookings, polls] = LISTED;
    for more in [&[0][..], &[7], &[0; 2], &[0, 1, 0, 1], &example()] {
        bad([setting, bookings, &[polls, more].concat()]);
    }
    let mut room = [0; FILE_MOST];
    let length = write_first(&listed(4), &mut room).unwrap();
    read_refused(Refusal::BadFile, &mut listed(4), &room);
    read_first(&mut listed(4), &room[..length]).unwrap();
}

#[test]
fn a_setting_of_another_count() {
    let [_, bookings, polls] = LISTED;
    bad([&[0, 5, 0, 3, 0, 2, 0, 1, 0, 2], bookings, polls]);
    bad([&[0, 5, 0, 3, 0, 2, 0, 1, 0, 2, 0, 0], bookings, polls]);
    bad([&[0, 3, 0, 3, 0, 2, 0, 1], bookings, polls]);
    bad([&[4, 4, 0, 3, 0, 2, 0, 1, 0, 2], bookings, polls]);
    bad([NONE, bookings, polls]);
}

/// A fifth number is the edition, and 1: the first edition has no other file than that with four.
#[test]
fn a_setting_of_five_numbers() {
    let [_, bookings, polls] = LISTED;
    let five = |high: u8, low: u8| [0, 5, 0, 3, 0, 2, 0, 1, 0, 2, high, low];
    good([&five(0, 1), bookings, polls]);
    for (high, low) in [(0, 0), (0, 2), (0, 255), (1, 0), (1, 1), (255, 255)] {
        bad([&five(high, low), bookings, polls]);
    }
    bad([&[0, 4, 0, 3, 0, 2, 0, 1, 0, 2, 0, 1], bookings, polls]);
    bad([&[0, 6, 0, 3, 0, 2, 0, 1, 0, 2, 0, 1], bookings, polls]);
    bad([&[0, 6, 0, 3, 0, 2, 0, 1, 0, 2, 0, 1, 0, 0], bookings, polls]);
    bad([&[5, 5, 0, 3, 0, 2, 0, 1, 0, 2, 0, 1], bookings, polls]);
    bad([&[0, 5, 0, 3, 0, 2, 0, 1, 0, 2, 0, 1], &[], &[]]);
    bad([&[0, 5, 0, 3, 0, 2, 0, 1, 0, 2], &[], &[]]);
    // the other numbers have the same limits
    good([&[0, 5, 0, 64, 0, 33, 1, 254, 1, 254, 0, 1], NONE, NONE]);
    bad([&[0, 5, 0, 64, 0, 32, 1, 254, 1, 254, 0, 1], NONE, NONE]);
    bad([&[0, 5, 0, 64, 0, 33, 1, 254, 1, 255, 0, 1], NONE, NONE]);
}

#[test]
fn a_setting_that_is_not_good() {
    let [_, bookings, polls] = LISTED;
    let setting = |k: u8, a: u8, beta1: u8, beta2: u16| {
        let [high, low] = beta2.to_be_bytes();
        [0, 4, 0, k, 0, a, 0, beta1, high, low]
    };
    for (k, a, beta1, beta2) in [(1, 1, 1, 1), (64, 33, 1, 510), (64, 64, 2, 2)] {
        good([&setting(k, a, beta1, beta2), bookings, polls]);
    }
    for (k, a, beta1, beta2) in [
        (0, 0, 1, 2),
        (65, 40, 1, 2),
        (4, 2, 1, 2),
        (3, 4, 1, 2),
        (3, 2, 0, 2),
        (3, 2, 3, 2),
        (3, 2, 1, 511),
    ] {
        bad([&setting(k, a, beta1, beta2), bookings, polls]);
    }
}

/// A file with one booking: its name, slot, how many parents, and these.
fn booking(name: u8, slot: u16, count: u8, parents: &[u8]) -> Vec<u8> {
    let [high, low] = slot.to_be_bytes();
    let mut bytes = vec![0, 1, 0, 0, 0, 0, 0, 0, 0, name, high, low, 0, count];
    bytes.extend(parents.iter().flat_map(|&parent| [0, parent]));
    bytes
}

#[test]
fn a_name_that_is_taken() {
    let [setting, bookings, polls] = LISTED;
    good([setting, &booking(1, 7, 1, &[0]), NONE]);
    bad([setting, &booking(0, 7, 1, &[0]), NONE]);
    let mut twice = bookings.to_vec();
    twice[2 + 14 + 7] = 1; // name 1 again
    bad([setting, &twice, polls]);
}

#[test]
fn a_slot_that_is_none() {
    let [setting, ..] = LISTED;
    for slot in [1, 255] {
        good([setting, &booking(1, slot, 1, &[0]), NONE]);
    }
    for slot in [0, 256, 263, 65535] {
        bad([setting, &booking(1, slot, 1, &[0]), NONE]);
    }
}

#[test]
fn parents_that_are_none() {
    let [setting, bookings, polls] = LISTED;
    let fifth = |count: u8, parents: &[u8]| {
        let mut five = [bookings, &booking(5, 9, count, parents)[2..]].concat();
        five[1] = 5;
        five
    };
    for parents in [&[4][..], &[0, 4], &[4, 3, 2], &[0, 1, 2, 3]] {
        good([setting, &fifth(parents.len() as u8, parents), polls]);
    }
    // none, five, itself, one that comes later, one twice
    for parents in [
        &[][..],
        &[0, 1, 2, 3, 4],
        &[5],
        &[6],
        &[255],
        &[2, 2],
        &[0, 4, 3, 0],
    ] {
        bad([setting, &fifth(parents.len() as u8, parents), polls]);
    }
    // a count that is not theirs
    bad([setting, &fifth(1, &[0, 4]), polls]);
    bad([setting, &fifth(3, &[0, 4]), polls]);
    bad([setting, &booking(1, 7, 1, &[1]), NONE]); // the first can only rest on the genesis
}

#[test]
fn polls_that_cannot_be() {
    let [setting, bookings, _] = LISTED;
    for polls in [&[0, 1, 0, 4, 0, 1][..], &[0, 2, 0, 4, 0, 0, 0, 1, 0, 1]] {
        good([setting, bookings, polls]);
    }
    for polls in [
        &[0, 1, 0, 0, 0, 1][..],         // of the genesis
        &[0, 1, 0, 5, 0, 1],             // of a number that is not there
        &[0, 1, 1, 1, 0, 1],             // the same, by its high byte
        &[0, 1, 0, 4, 0, 2],             // an outcome of 2
        &[0, 1, 0, 4, 1, 0],             // one of 256
        &[0, 2, 0, 4, 0, 1, 0, 4, 0, 1], // one booking twice
        &[0, 2, 0, 4, 0, 1, 0, 4, 0, 0], // with another outcome
        &[0, 2, 0, 4, 0, 1],             // a poll less than the count says
        &[0, 0, 0, 4, 0, 1],             // and one more
    ] {
        bad([setting, bookings, polls]);
    }
}

// ---- one byte of the example, every place and every value

/// Which values of the byte leave the example's file good, by the rules.
fn good_values(at: usize) -> Vec<u8> {
    let all_but = |bad: &[u8]| (0..=255).filter(|value| !bad.contains(value)).collect();
    match at {
        3 | 5 => vec![2, 3],          // a at most k, and k below 2 × a
        7 => vec![1, 2],              // beta1 from 1 to beta2
        8 => vec![0, 1],              // beta2 up to 510: 258
        9 => all_but(&[0]),           // beta2 from beta1 on
        19 => all_but(&[0, 2, 3, 4]), // the last bytes of the names: 0 and the others' are taken
        33 => all_but(&[0, 1, 3, 4]),
        47 => all_but(&[0, 1, 2, 4]),
        61 => all_but(&[0, 1, 2, 3]),
        12..=60 if (at - 12) % 14 < 7 => all_but(&[]), // their other bytes
        21 | 35 | 49 | 63 => all_but(&[0]),            // slots
        39 => vec![0, 1],                              // the parent of 2
        51 => vec![1, 2], // 3 on 1 and 0: the bytes after it are then a booking of slot 2 on 2
        53 => vec![0, 1, 2], // the parent of 3
        67 => vec![0, 1, 3], // the parents of 4
        69 => vec![0, 2, 3],
        75 | 79 | 83 | 87 => vec![0, 1], // outcomes
        _ => vec![example()[at]], // counts, high bytes, and whom the polls are of: all four are polled
    }
}

#[test]
fn every_value_of_every_byte() {
    every_value(example(), good_values);
}

/// The same with the later edition: two bytes more, which have one good value, and so has the count before them.
#[test]
fn every_value_of_every_byte_with_the_later_edition() {
    let [_, bookings, polls] = LISTED;
    let later = [0, 5, 0, 3, 0, 2, 0, 1, 0, 2, 0, 1];
    every_value([&later, bookings, polls].concat(), |at| match at {
        0 | 1 | 10 | 11 => vec![later[at]],
        2..=9 => good_values(at),
        _ => good_values(at - 2),
    });
}

/// Every other file of one changed byte is refused, and leaves the words.
#[track_caller]
fn every_value(file: Vec<u8>, good_values: impl Fn(usize) -> Vec<u8>) {
    let before = listed(1);
    for at in 0..file.len() {
        let values = good_values(at);
        for value in 0..=255 {
            let mut other = file.clone();
            other[at] = value;
            let mut ws = before;
            let answer = read_first(&mut ws, &other);
            let place = format!("byte {at} as {value}");
            if values.contains(&value) {
                assert_eq!(answer, Ok(()), "{place}");
                assert_eq!(written(&ws), other, "{place}");
            } else {
                assert_eq!(answer, Err(Refusal::BadFile), "{place}");
                assert_eq!(ws, before, "{place}");
            }
        }
    }
}

//! The second form of the day file: its fourth section byte for byte, what a
//! reading makes of it, and every way in which it is bad, on both sides of its
//! border.

mod digits;
mod ledgers;
mod lent;
use digits::*;
use ledgers::*;
use lent::*;
use second::codec::decode;
use second::form::Form;
use second::layout::*;
use second::words::*;

/// The file of words in either form.
fn written(ws: &[u16], form: Form) -> Vec<u8> {
    let mut out = vec![0; form.longest()];
    let (number, length) = write_file(ws, form, &mut out);
    assert_eq!(number, 0);
    out.truncate(length as usize);
    out
}

/// The words with these marks and no others.
fn marked_as(mut ws: Vec<u16>, marks: &[usize]) -> Vec<u16> {
    for b in 0..BOOKINGS {
        ws[record(b) + MARK] = marks.contains(&b).into();
    }
    ws
}

/// The file makes these words, whatever words it is read into, and is written
/// again with the same bytes.
fn makes(file: &[u8], words: &[u16]) {
    for mut ws in any_words() {
        assert_eq!(read_second(&mut ws, file), (0, 0));
        assert_eq!(ws, words);
    }
    assert!(decode(words).is_ok());
    assert_eq!(written(words, Form::Second), file);
}

/// The file is refused, and every word stays. Nor is it moved, whatever room
/// there is.
fn refuses(file: &[u8]) {
    for before in any_words() {
        let mut ws = before.clone();
        assert_eq!(read_second(&mut ws, file), (17, 0));
        assert_eq!(ws, before);
    }
    for room in [0, 13, file.len(), 13_000] {
        leaves(room, (17, 0), |out| move_second(file, out));
    }
}

/// Run's first three sections, 88 bytes, and these marks behind them. Bookings
/// 1 and 2 are of slot 7, 3 of slot 9 and 4 of slot 10.
fn run_with(marks: &str) -> Vec<u8> {
    let sections = "0004  0003 0002 0001 0002
        0004
        0000000000000001  0007  0001  0000
        0000000000000002  0007  0001  0000
        0000000000000003  0009  0001  0001
        0000000000000004  000a  0002  0001 0002
        0004  0002 0001  0003 0000  0004 0001  0001 0001";
    bytes(&[sections, marks].concat())
}

fn good(digits: &str, marks: &[usize]) {
    makes(&run_with(digits), &marked_as(run_polled(4), marks));
}

fn bad(digits: &str) {
    refuses(&run_with(digits));
}

// ---- writing

/// The first form, and the marks behind it.
#[test]
fn the_fourth_section_is_written() {
    let writes = |ws: &[u16], marks: &str| {
        let file = [written(ws, Form::First), bytes(marks)].concat();
        fills(&file, |out| write_second(ws, out));
        makes(&file, ws);
    };
    // Of Run nobody is accepted but the genesis.
    writes(&run_polled(4), "0001 0000");
    writes(&opened(3, 2, 1, 2), "0001 0000");
    writes(&opened_in(1, 3, 2, 1, 2), "0001 0000");
    writes(&accepted_1(), "0002 0000 0001");
    writes(&overtaken(), "0002 0000 0001");
    // Marks are told as they stand, earned or not.
    for (marks, digits) in [
        (&[0, 1, 3, 4][..], "0004 0000 0001 0003 0004"),
        (&[0, 2], "0002 0000 0002"),
        (&[0, 4], "0002 0000 0004"),
    ] {
        let ws = marked_as(run_polled(4), marks);
        assert_eq!(written(&ws, Form::First), run_with(""));
        assert_eq!(written(&ws, Form::Second), run_with(digits));
    }
}

/// 10 bytes, 2 + 6 * 14, 2 + 6 * 4, and 2 + 2 * 2.
#[test]
fn the_file_of_a_day_with_a_late_rival() {
    let file = bytes(
        "0004  0001 0001 0001 0002
         0006
         0000000000000001  0007  0001  0000
         0000000000000002  0008  0001  0001
         0000000000000003  0007  0001  0000
         0000000000000004  000b  0001  0003
         0000000000000005  000c  0001  0003
         0000000000000006  000d  0001  0003
         0006  0001 0001  0002 0001  0003 0001  0004 0001  0005 0001  0006 0001
         0002  0000 0001",
    );
    assert_eq!(file.len(), 128);
    assert_eq!(written(&overtaken(), Form::Second), file);
    makes(&file, &overtaken());
}

#[test]
fn the_shortest_file() {
    let file = bytes("0004 0003 0002 0001 0002 0000 0000 0001 0000");
    assert_eq!((file.len(), Form::Second.shortest()), (18, 18));
    makes(&file, &opened(3, 2, 1, 2));
    assert_eq!(Form::First.shortest(), 14);
}

/// Booking b of slot b for b up to 255, of slot b - 255 above it: with every
/// slot marked the fourth section has 2 + 2 * 256 bytes.
#[test]
fn the_longest_file() {
    for (edition, length) in [(0, 12_266), (1, 12_268)] {
        let low: Vec<usize> = (0..256).collect();
        let high: Vec<usize> = [0].into_iter().chain(257..512).collect();
        for (marks, first, last) in [(low, "0100 0000 0001", 255), (high, "0100 0000 0101", 511)] {
            let ws = marked_as(longest_in(edition), &marks);
            let file = written(&ws, Form::Second);
            assert_eq!(file.len(), length + 514);
            assert_eq!(file[length..length + 6], bytes(first));
            assert_eq!(file[length + 512..], u16::to_be_bytes(last));
            makes(&file, &ws);
            leaves(length + 513, (16, 0), |out| write_second(&ws, out));
            // 511 is the newest.
            let mut other = file.clone();
            other[length + 512..].copy_from_slice(&bytes("0200"));
            refuses(&other);
            // 256 is of slot 1, as 1 is and 511.
            other[length + 512..].copy_from_slice(&bytes("0100"));
            refuses(&other);
        }
    }
    assert_eq!(Form::Second.longest(), 12_782);
}

#[test]
fn refusals_1_2_14_and_15_before_16() {
    let ws = run_polled(4);
    for room in [0, 17, 91, 92, Form::Second.longest()] {
        for length in [0, WORDS_WITHOUT_MARKS, WORDS - 1, WORDS + 1] {
            let mut ws = ws.clone();
            ws.resize(length, 0);
            leaves(room, (1, 0), |out| write_second(&ws, out));
        }
        for (at, word, answer) in [
            (K, 4, (2, 0)),
            (record(0) + MARK, 0, (14, 0)),
            (record(4) + MARK, 2, (14, 4)),
            (entry(9) + COUNTER, 4, (15, 9)),
        ] {
            let mut ws = ws.clone();
            ws[at] = word;
            leaves(room, answer, |out| write_second(&ws, out));
        }
        // Two marks in slot 7.
        let ws = marked_as(ws.clone(), &[0, 1, 2]);
        leaves(room, (14, 2), |out| write_second(&ws, out));
    }
}

// ---- what reading makes

/// The marks of the file stand instead of those that its polls lead to: more
/// of them, fewer, and another of the slot.
#[test]
fn the_marks_of_the_file_stand() {
    good("0001 0000", &[0]);
    good("0002 0000 0003", &[0, 3]);
    good("0004 0000 0002 0003 0004", &[0, 2, 3, 4]);
    let three = written(&accepted_1(), Form::First);
    for (digits, marks) in [
        ("0001 0000", &[0][..]),
        ("0002 0000 0002", &[0, 2]),
        ("0003 0000 0001 0002", &[0, 1, 2]),
    ] {
        let file = [&three[..], &bytes(digits)].concat();
        makes(&file, &marked_as(accepted_1(), marks));
    }
}

/// By the first form 3 is accepted, by the second 1 stays so.
#[test]
fn a_mark_is_not_handed_to_a_late_rival() {
    let mut read = overtaken();
    assert_eq!(
        read_first(&mut read, &written(&overtaken(), Form::First)),
        (0, 0)
    );
    assert_eq!(marked(&read), [0, 3]);
    assert_eq!(
        read_second(&mut read, &written(&overtaken(), Form::Second)),
        (0, 0)
    );
    assert_eq!(read, overtaken());
    assert_eq!((accepted(&read, 1), accepted(&read, 3)), ((0, 1), (0, 0)));
    // It stays so after another chit for 3.
    must_book(&mut read, 7, 14, &[3]);
    must_poll(&mut read, 7, &[1]);
    assert_eq!(marked(&read), [0, 1]);
}

/// Parents are accepted by the marks of the file. By its own polls 1 has
/// counter 2 in slot 7, 2 has counter 1 in slot 8, and both are alone.
#[test]
fn a_day_goes_on_with_the_marks_of_the_file() {
    let three = written(&accepted_1(), Form::First);
    let polled_on = |digits: &str| {
        let mut ws = vec![0; WORDS];
        let file = [&three[..], &bytes(digits)].concat();
        assert_eq!(read_second(&mut ws, &file), (0, 0));
        must_book(&mut ws, 3, 9, &[2]);
        must_book(&mut ws, 4, 10, &[3]);
        must_poll(&mut ws, 3, &[1]);
        must_poll(&mut ws, 4, &[0]);
        marked(&ws)
    };
    // Then 1 has 3 and 2 has 2, both above β1, and 1 is above β2 too.
    assert_eq!(polled_on("0001 0000"), [0, 1, 2]);
    assert_eq!(polled_on("0002 0000 0002"), [0, 1, 2]);
}

#[test]
fn refusal_1_before_17() {
    for length in [0, 1, WORDS_WITHOUT_MARKS, WORDS - 1, WORDS + 1] {
        let mut ws = run_polled(4);
        ws.resize(length, 0);
        let before = ws.clone();
        for file in [&run_with("0001 0000")[..], &run_with(""), &[]] {
            assert_eq!(read_second(&mut ws, file), (1, 0));
            assert_eq!(ws, before);
        }
    }
}

// ---- each way in which a fourth section is bad

/// A first form is no second one, and the other way round.
#[test]
fn no_fourth_section() {
    bad("");
    let mut ws = run_polled(4);
    assert_eq!(read_first(&mut ws, &run_with("0001 0000")), (17, 0));
    assert_eq!(read_first(&mut ws, &run_with("0000")), (17, 0));
    assert_eq!(ws, run_polled(4));
}

#[test]
fn a_fourth_section_that_ends_early() {
    for digits in ["00", "0001", "0001 00", "0002 0000", "0002 0000 00"] {
        bad(digits);
    }
}

#[test]
fn a_fourth_section_without_the_genesis() {
    bad("0000");
    bad("0001 0001");
    bad("0001 0004");
    bad("0002 0001 0003");
    bad("0002 0001 0000");
}

#[test]
fn marks_that_do_not_rise() {
    good("0003 0000 0003 0004", &[0, 3, 4]);
    bad("0003 0000 0004 0003");
    bad("0003 0000 0002 0001");
    bad("0003 0003 0000 0004");
    bad("0002 0000 0000");
    bad("0003 0000 0000 0003");
    bad("0003 0000 0003 0003");
}

/// n is 5.
#[test]
fn marks_of_who_is_not_there() {
    good("0002 0000 0004", &[0, 4]);
    for number in ["0005", "0006", "0100", "0104", "01ff", "0200", "ffff"] {
        bad(&["0002 0000", number].concat());
        bad(&["0003 0000 0003", number].concat());
    }
}

#[test]
fn two_marks_of_one_slot() {
    good("0002 0000 0001", &[0, 1]);
    good("0002 0000 0002", &[0, 2]);
    bad("0003 0000 0001 0002");
    bad("0005 0000 0001 0002 0003 0004");
}

/// As many marks as bookings, where each has a slot of its own.
#[test]
fn everybody_marked() {
    let ws = chain(4);
    let file = |digits: &str| [written(&ws, Form::First), bytes(digits)].concat();
    makes(
        &file("0004 0000 0001 0002 0003"),
        &marked_as(ws.clone(), &[0, 1, 2, 3]),
    );
    refuses(&file("0005 0000 0001 0002 0003 0004"));
    refuses(&file("0005 0000 0001 0002 0003 0003"));
}

#[test]
fn counts_of_marks_that_are_not_true() {
    for count in ["0000", "0001", "0003", "0102", "0200", "ffff"] {
        bad(&[count, "0000 0003"].concat());
    }
}

#[test]
fn bytes_behind_the_marks() {
    for more in ["00", "0000", "0001 0000", "0004", "ff"] {
        bad(&["0002 0000 0003", more].concat());
    }
    let file = run_with("0001 0000");
    refuses(&[&file[..], &file].concat());
    refuses(&[&file[..], &[0; 65_536]].concat());
}

/// What makes a first form bad makes the second bad, whatever is marked: k, a
/// slot, a parent and a poll.
#[test]
fn the_first_three_sections() {
    for (at, byte) in [(3, 4), (49, 0), (53, 3), (87, 2)] {
        let mut file = run_with("0002 0000 0003");
        file[at] = byte;
        refuses(&file);
    }
}

/// Which values of the byte leave a good file of Run with 2, 3 and 4 marked,
/// by the rules.
fn good_values(at: usize) -> Vec<u8> {
    let other_than = |bad: &[u8]| (0..=255).filter(|value| !bad.contains(value)).collect();
    match at {
        3 | 5 => vec![2, 3],
        7 => vec![1, 2],
        8 => vec![0, 1],
        9 => other_than(&[0]),
        19 => other_than(&[0, 2, 3, 4]),
        33 => other_than(&[0, 1, 3, 4]),
        47 => other_than(&[0, 1, 2, 4]),
        61 => other_than(&[0, 1, 2, 3]),
        12..=18 | 26..=32 | 40..=46 | 54..=60 => other_than(&[]),
        21 => other_than(&[0]), // a slot whose booking has no mark
        35 => other_than(&[0, 9, 10]),
        49 => other_than(&[0, 7, 10]),
        63 => other_than(&[0, 7, 9]),
        39 => vec![0, 1],
        53 => vec![0, 1, 2],
        67 => vec![0, 1, 3],
        69 => vec![0, 2, 3],
        51 => vec![1, 2], // then 4 is of slot 2
        75 | 79 | 83 | 87 => vec![0, 1],
        93 => vec![1, 2], // the other of slot 7
        _ => vec![run_with("0004 0000 0002 0003 0004")[at]],
    }
}

/// The first three sections have 9,430 good neighbours. Three slots may not
/// be two others' then, and one mark may be another: 9,430 - 6 + 1.
#[test]
fn every_value_of_every_byte() {
    let file = run_with("0004 0000 0002 0003 0004");
    let before = run_polled(1);
    let mut others = 0;
    for at in 0..file.len() {
        let values = good_values(at);
        for value in 0..=255 {
            let mut other = file.clone();
            other[at] = value;
            let mut ws = before.clone();
            let (number, _) = read_second(&mut ws, &other);
            assert_eq!(number == 0, values.contains(&value), "byte {at} as {value}");
            if number == 0 {
                others += usize::from(other != file);
                assert_eq!(written(&ws, Form::Second), other);
            } else {
                assert_eq!((number, &ws), (17, &before));
            }
        }
    }
    assert_eq!(others, 9_425);
}

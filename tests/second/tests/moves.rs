//! Moves between the forms of the day file: what is added and dropped, what a
//! buffer is left with, and the refusals in their order.

mod digits;
mod ledgers;
mod lent;
use digits::*;
use ledgers::*;
use lent::*;
use second::form::Form;
use second::words::*;

/// The first form of words.
fn first(ws: &[u16]) -> Vec<u8> {
    let mut out = vec![0; Form::First.longest()];
    let (number, length) = write_first(ws, &mut out);
    assert_eq!(number, 0);
    out.truncate(length as usize);
    out
}

/// The file gets this fourth section, and is the same again after the move
/// back.
fn gains(file: &[u8], marks: &str) {
    let second = [file, &bytes(marks)].concat();
    fills(&second, |out| move_first(file, out));
    fills(file, |out| move_second(&second, out));
}

/// The file with this fourth section is not moved back, whatever room there
/// is.
fn keeps(file: &[u8], marks: &str) {
    let second = [file, &bytes(marks)].concat();
    for room in [0, 13, file.len() - 1, file.len(), second.len(), 13_000] {
        leaves(room, (19, 0), |out| move_second(&second, out));
    }
}

#[test]
fn the_marks_of_the_reading_are_added() {
    gains(&first(&opened(3, 2, 1, 2)), "0001 0000");
    gains(&first(&opened_in(1, 3, 2, 1, 2)), "0001 0000");
    // Of Run nobody is accepted but the genesis; of P10 it is 1 too.
    gains(&first(&run_polled(4)), "0001 0000");
    gains(&first(&accepted_1()), "0002 0000 0001");
    // Counters of 39 and on to 1: all but the last are above β1.
    let mut ws = chain(40);
    for name in 1..40 {
        must_poll(&mut ws, name, &[1]);
    }
    let all: String = (0..39).map(|b| format!("{b:04x}")).collect();
    gains(&first(&ws), &format!("0027 {all}"));
}

/// The file's own polls give the mark to the late rival, and so does a move.
/// The file of the ledger itself keeps it at 1, and does not go back.
#[test]
fn a_late_rival() {
    let ws = overtaken();
    let file = first(&ws);
    assert_eq!(file.len(), 122);
    gains(&file, "0002 0000 0003");
    keeps(&file, "0002 0000 0001");
    let mut second = vec![0; 128];
    assert_eq!(write_second(&ws, &mut second), (0, 128));
    assert_eq!(second[122..], bytes("0002 0000 0001"));
    leaves(122, (19, 0), |out| move_second(&second, out));
}

/// In the later edition 1 has counter 1 = β1 while it is alone, and counter
/// 2 = β2 with its rival: it is marked either way, and 2 on it. 4, 5 and 6 have
/// counter 1 and stand on 3, which has no mark.
#[test]
fn a_late_rival_in_the_later_edition() {
    let mut file = first(&overtaken());
    file.splice(..10, bytes("0005 0001 0001 0001 0002 0001"));
    gains(&file, "0003 0000 0001 0002");
    keeps(&file, "0002 0000 0003");
}

/// More marks than the reading gives, fewer, as many others, and another of
/// the slot.
#[test]
fn other_marks_do_not_go_back() {
    let run = first(&run_polled(4));
    keeps(&run, "0002 0000 0001");
    keeps(&run, "0002 0000 0004");
    keeps(&run, "0004 0000 0002 0003 0004");
    let file = first(&accepted_1());
    keeps(&file, "0001 0000");
    keeps(&file, "0002 0000 0002");
    keeps(&file, "0003 0000 0001 0002");
}

/// A booking that came late may have cost a mark, and one that did not earn
/// its own may be told: reading tells neither.
#[test]
fn a_lost_mark() {
    let mut ws = accepted_1();
    must_book(&mut ws, 3, 7, &[0]);
    let file = first(&ws);
    gains(&file, "0001 0000");
    keeps(&file, "0002 0000 0001");
}

/// A full ledger, polled from the last to the first, with success where the
/// number is even; b and b + 255 are of one slot. An ancestry is all that is
/// lower. As long as both are in it the counter starts again with each chit; once
/// b alone is, three more chits bring it above β2. In the later edition every
/// other poll clears it.
#[test]
fn the_longest_file() {
    let digits =
        |marks: std::ops::Range<usize>| -> String { marks.map(|b| format!("{b:04x}")).collect() };
    let file = first(&longest_in(0));
    assert_eq!(file.len(), 12_266);
    gains(&file, &format!("0100 {}", digits(0..256)));
    keeps(&file, &format!("0100 0000 {}", digits(257..512)));
    let file = first(&longest_in(1));
    assert_eq!(file.len(), 12_268);
    assert_eq!(move_first(&file, &mut [0; 12_272]), (0, 12_272));
    leaves(12_271, (16, 0), |out| move_first(&file, out));
    keeps(&file, &format!("0100 {}", digits(0..256)));
}

// ---- the order of the refusals

/// Run's file, bad in one byte, one short, and one too long.
#[test]
fn refusal_17_before_the_others() {
    let file = first(&run_polled(4));
    let mut other = file.clone();
    other[3] = 4;
    let files = [
        &other[..],
        &file[..87],
        &[&file[..], &[0]].concat(),
        &[&file[..], &bytes("0001 0000")].concat(),
        &[],
    ];
    for file in files {
        for room in [0, 17, 91, 92, 13_000] {
            leaves(room, (17, 0), |out| move_first(file, out));
        }
    }
    // The last ones would have other marks too.
    for marks in [
        "",
        "0000",
        "0001 0001",
        "0001 0000 00",
        "0002 0000 0005",
        "0003 0000 0003 0003",
        "0003 0000 0001 0002",
        "0002 0000 0003 0000",
        "0003 0000 0003",
    ] {
        let file = [&file[..], &bytes(marks)].concat();
        for room in [0, 13, 87, 88, 13_000] {
            leaves(room, (17, 0), |out| move_second(&file, out));
        }
    }
    let mut file = [&file[..], &bytes("0002 0000 0003")].concat();
    file[3] = 4;
    for room in [0, 88, 13_000] {
        leaves(room, (17, 0), |out| move_second(&file, out));
    }
}

/// A good file that goes neither way for want of room: 88 bytes and 92.
#[test]
fn refusal_16_comes_last() {
    let file = first(&run_polled(4));
    let second = [&file[..], &bytes("0001 0000")].concat();
    leaves(91, (16, 0), |out| move_first(&file, out));
    leaves(88, (16, 0), |out| move_first(&file, out));
    assert_eq!(move_first(&file, &mut [0; 92]), (0, 92));
    leaves(87, (16, 0), |out| move_second(&second, out));
    assert_eq!(move_second(&second, &mut [0; 88]), (0, 88));
}

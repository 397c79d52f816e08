//! The index: its cells, what is found by it, and its refusals on both sides of each border. Homes and cells are worked out by hand.
use filzhammer::*;

mod refused;
use refused::*;

/// An empty cell.
const NONE: u16 = 65535;

/// A name is the number of its eight bytes, the highest first.
const fn letters(bytes: &[u8; 8]) -> u64 {
    u64::from_be_bytes(*bytes)
}

/// Names, their homes, and the cells that they get as numbers 0 to 6. 1390 finds 1 in its home, 1803 goes round the end, and 39
/// finds it there.
const EXAMPLE: [(u64, usize, usize); 7] = [
    (0, 357, 357),
    (1, 978, 978),
    (1390, 978, 979),
    (552, 1023, 1023),
    (1803, 1023, 0),
    (letters(b"chongo w"), 304, 304),
    (39, 0, 1),
];

/// A ledger of these names, in this order.
fn booked(names: &[u64]) -> [u16; WORDS] {
    let mut ws = [0; WORDS];
    open(&mut ws, Setting::PAPER).unwrap();
    for &name in names {
        book(&mut ws, name, 7, &[0]).unwrap();
    }
    ws
}

fn example() -> [u16; WORDS] {
    booked(&EXAMPLE.map(|(name, _, _)| name)[1..])
}

fn built(ws: &[u16]) -> [u16; CELLS] {
    let mut index = [0; CELLS];
    index_build(ws, &mut index).unwrap();
    index
}

/// Only these cells are not empty.
fn only<const N: usize>(cells: [(usize, u16); N]) -> [u16; CELLS] {
    let mut index = [NONE; CELLS];
    for (cell, number) in cells {
        index[cell] = number;
    }
    index
}

/// The cells that are not empty.
fn used(index: &[u16]) -> Vec<(usize, u16)> {
    let cells = index.iter().copied().enumerate();
    cells.filter(|(_, number)| *number != NONE).collect()
}

#[track_caller]
fn same(index: &[u16], expected: &[u16]) {
    assert_eq!(used(index), used(expected));
}

#[track_caller]
fn unknown(ws: &[u16], index: &[u16], name: u64) {
    assert_eq!(index_find(ws, index, name), Err(Refusal::UnknownName));
}

// ---- building and entering

#[test]
fn the_cells_of_the_example() {
    let cells: [(usize, u16); 7] = std::array::from_fn(|number| (EXAMPLE[number].2, number as u16));
    same(&built(&example()), &only(cells));
}

/// Alone beside the genesis, a name stands in its home.
#[test]
fn homes() {
    let others = [
        (188, 1),
        (2, 575),
        (255, 8),
        (256, 764),
        (1391, 358), // behind the genesis, in 357
        (u64::MAX, 605),
        (0x0102_0304_0506_0708, 909),
        (letters(b"feedface"), 316),  // the hash is 0588b13c
        (letters(b"chongo \0"), 549), // and 34787625
    ];
    let of_example = EXAMPLE.map(|(name, home, _)| (name, home));
    for (name, cell) in others.iter().chain(&of_example[1..]) {
        same(&built(&booked(&[*name])), &only([(357, 0), (*cell, 1)]));
    }
}

#[test]
fn building_forgets_what_the_cells_held() {
    let ws = example();
    for cell in [0, 6, 7, 511, 512, 65534, NONE] {
        let mut index = [cell; CELLS];
        index_build(&ws, &mut index).unwrap();
        same(&index, &built(&ws));
    }
}

#[test]
fn entering_each_booking_is_building() {
    let mut ws = booked(&[]);
    let mut index = built(&ws);
    same(&index, &only([(357, 0)]));
    for (name, _, cell) in &EXAMPLE[1..] {
        book(&mut ws, *name, 7, &[0]).unwrap();
        let mut expected = index;
        expected[*cell] = ws[0] - 1;
        unknown(&ws, &index, *name);
        index_enter(&ws, &mut index).unwrap();
        same(&index, &expected);
        same(&index, &built(&ws));
    }
}

#[test]
fn entering_twice_writes_twice() {
    let ws = example();
    let mut index = built(&ws);
    let mut expected = index;
    for cell in [2, 3] {
        expected[cell] = 6; // 0 and 1 are taken, by 1803 and by 39 itself
        index_enter(&ws, &mut index).unwrap();
        same(&index, &expected);
    }
    assert_eq!(index_find(&ws, &index, 39), Ok(6));
}

/// Of the words around the lent cells none is touched, and no word of the ledger.
#[test]
fn nothing_else_changes() {
    let ws = example();
    let before = ws;
    let mut around = [77; 8 + CELLS + 8];
    index_build(&ws, &mut around[8..8 + CELLS]).unwrap();
    index_enter(&ws, &mut around[8..8 + CELLS]).unwrap();
    let index: [u16; CELLS] = around[8..8 + CELLS].try_into().unwrap();
    assert_eq!(index_find(&ws, &around[8..8 + CELLS], 39), Ok(6));
    assert_eq!(around[8..8 + CELLS], index);
    assert_eq!(around[..8], [77; 8]);
    assert_eq!(around[8 + CELLS..], [77; 8]);
    assert_eq!(ws, before);
}

// ---- looking up

#[test]
fn what_is_booked_is_found_and_nothing_else() {
    let ws = example();
    let index = built(&ws);
    for (number, (name, _, _)) in EXAMPLE.iter().enumerate() {
        assert_eq!(index_find(&ws, &index, *name), Ok(number));
    }
    for name in [
        2,                     // its home is empty
        1391,                  // its home has the genesis
        188,                   // its home, 1, has 39
        2282,                  // its home is 1023: 552, 1803 and 39 are met
        0x0000_0000_053f_0001, // the home and the lowest word of 1
        0x0000_056f_0000_0001, // and its lowest two
        0x055f_0000_0000_0001, // and its lowest three
    ] {
        unknown(&ws, &index, name);
    }
}

/// 512 bookings are found by entering each, and by building, with many homes that several names share.
#[test]
fn a_full_ledger() {
    let names: Vec<u64> = (1..512).map(|number| 1000 * number).collect();
    let mut ws = booked(&[]);
    let mut index = built(&ws);
    for name in &names {
        book(&mut ws, *name, 7, &[0]).unwrap();
        index_enter(&ws, &mut index).unwrap();
    }
    same(&index, &built(&ws));
    assert_eq!(index.iter().filter(|cell| **cell == NONE).count(), 512);
    for (number, name) in names.iter().enumerate() {
        assert_eq!(index_find(&ws, &index, *name), Ok(number + 1));
        unknown(&ws, &index, name + 1);
    }
}

#[test]
fn other_calls_leave_the_built_index_but_opening_and_reading() {
    let mut ws = example();
    let mut file = [0; FILE_MOST];
    let index = built(&ws);
    poll(&mut ws, 39, &[YES; 10]).unwrap();
    poll(&mut ws, 1, &[NO; 10]).unwrap();
    book_refused(Refusal::NameTaken, &mut ws, 39, 8, &[0]);
    let length = write_first(&ws, &mut file).unwrap();
    same(&built(&ws), &index);

    open(&mut ws, Setting::PAPER).unwrap();
    same(&built(&ws), &only([(357, 0)]));
    assert_eq!(index_find(&ws, &index, 0), Ok(0));
    for (name, _, _) in &EXAMPLE[1..] {
        unknown(&ws, &index, *name); // the old index has their numbers, which nobody has now
    }

    let fresh = built(&ws);
    read_first(&mut ws, &file[..length]).unwrap();
    unknown(&ws, &fresh, 39);
    same(&built(&ws), &index);
}

// ---- by other indexes

#[test]
fn numbers_from_n_on_are_passed_over() {
    let ws = example();
    for number in [7, 8, 511, 512, 513, 65534] {
        let index = only([(357, number), (358, number), (359, 0)]);
        assert_eq!(index_find(&ws, &index, 0), Ok(0));
        let index = only([(357, number)]);
        unknown(&ws, &index, 0); // a record that is all zero has the name 0, but is no booking
    }
}

#[test]
fn an_empty_cell_ends_it() {
    let ws = example();
    let mut index = built(&ws);
    index[978] = NONE; // which was 1's
    unknown(&ws, &index, 1);
    unknown(&ws, &index, 1390); // it stands behind
    assert_eq!(index_find(&ws, &index, 552), Ok(3));
}

#[test]
fn a_number_may_be_found_out_of_its_place() {
    let ws = example();
    let index = only([(978, 2), (979, 5), (980, 1)]);
    assert_eq!(index_find(&ws, &index, 1390), Ok(2));
    assert_eq!(index_find(&ws, &index, 1), Ok(1));
}

#[test]
fn by_the_index_of_another_ledger() {
    let index = built(&example());
    let ws = booked(&[39, 1]);
    assert_eq!(index_find(&ws, &index, 0), Ok(0));
    assert_eq!(index_find(&ws, &index, 1), Ok(2)); // 978 has 1, which is 39 here, and 979 has 2
    unknown(&ws, &index, 39); // 0 and 1 have 4 and 6
    unknown(&ws, &index, 1390);
}

/// Every cell is tried, and none twice: the last is that below the home.
#[test]
fn every_cell_is_tried() {
    let ws = example();
    for (name, home) in [(1, 978), (552, 1023), (39, 0)] {
        let number = index_find(&ws, &built(&ws), name).unwrap();
        let mut index = [7; CELLS];
        unknown(&ws, &index, name);
        let last = (home + CELLS - 1) % CELLS;
        index[last] = number as u16;
        assert_eq!(index_find(&ws, &index, name), Ok(number));
        index[(home + 500) % CELLS] = NONE;
        unknown(&ws, &index, name);
    }
}

// ---- refusals

#[test]
fn r18_wrong_index() {
    assert_eq!(CELLS, 1024);
    for cells in [0, 1, CELLS - 1, CELLS + 1, WORDS] {
        index_refused(Refusal::WrongIndex, &mut example(), cells);
    }
}

/// 1, 18, 2, 14 and 15, on words where each hides the next.
#[test]
fn the_order_of_the_refusals() {
    let mut ws = example();
    ws[6664 + 4 * 7 + 2] = 1; // the counter of slot 7, above the number of chits
    all_refused(Refusal::DamagedSlot(7), &mut ws);
    ws[8 + 13 * 3 + 4] = 256; // the slot of record 3
    all_refused(Refusal::DamagedRecord(3), &mut ws);
    ws[5] = 7; // p, above n - 1
    all_refused(Refusal::DamagedHeader, &mut ws);
    all_refused(Refusal::WrongLength, &mut ws[1..]);
}

#[test]
fn r10_nothing_found() {
    let ws = example();
    for index in [[NONE; CELLS], [0; CELLS], [7; CELLS]] {
        unknown(&ws, &index, 2);
        unknown(&ws, &index, 1);
    }
    assert_eq!(index_find(&ws, &[0; CELLS], 0), Ok(0));
}

#[test]
fn r27_index_full() {
    let mut ws = example(); // 39 is entered, whose home is 0
    for cell in [0, 6, 7, 65534] {
        for free in [0, 1, 500, 1023] {
            let mut index = [cell; CELLS];
            index[free] = NONE;
            let mut expected = index;
            expected[free] = 6;
            index_enter(&ws, &mut index).unwrap();
            same(&index, &expected);
            refused(Refusal::IndexFull, &mut ws, |ws| {
                index_enter(ws, &mut index)
            });
            same(&index, &expected);
        }
    }
}

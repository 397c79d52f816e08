//! The index of names: homes by published hashes and by hand, what entering
//! and building leave, what a lookup meets, and every refusal in its order.

mod ledgers;
use ledgers::*;
use second::index::{fnv1a, home, CELLS, EMPTY};
use second::layout::*;
use second::words::*;

/// An index that is empty but for these cells.
fn cells_with(held: &[(usize, u16)]) -> Vec<u16> {
    let mut cells = vec![EMPTY; CELLS];
    for &(cell, number) in held {
        cells[cell] = number;
    }
    cells
}

/// The cells that are not empty, in rising order.
fn held(cells: &[u16]) -> Vec<(usize, u16)> {
    let cells = cells.iter().copied().enumerate();
    cells.filter(|&(_, number)| number != EMPTY).collect()
}

/// The index of a ledger.
fn built(ws: &[u16]) -> Vec<u16> {
    let mut cells = vec![0; CELLS];
    assert_eq!(index_build(ws, &mut cells), (0, 0));
    cells
}

/// A ledger with these names on the genesis.
fn booked(names: &[u64]) -> Vec<u16> {
    let mut ws = opened(1, 1, 1, 2);
    for &name in names {
        must_book(&mut ws, name, 1, &[0]);
    }
    ws
}

/// The plain search: the lowest record below n with the name.
fn searched(ws: &[u16], name: u64) -> Answer {
    let mut numbers = 0..usize::from(ws[N]);
    let has_name = |&b: &usize| name_of(&ws[record(b) + NAME..record(b) + SLOT]) == name;
    match numbers.find(has_name) {
        Some(b) => (0, b as i64),
        None => (10, 0),
    }
}

// ---- homes

/// Of the test vectors that were published with the hash. Three have as many
/// bytes as a name.
#[test]
fn published_hashes() {
    for (text, hash) in [
        ("", 0x811c_9dc5),
        ("a", 0xe40c_292c),
        ("foobar", 0xbf9c_f968),
        ("chongo w", 0xdd77_ed30),
        ("chongo \0", 0x3478_7625),
        ("feedface", 0x0588_b13c),
    ] {
        assert_eq!(fnv1a(text.as_bytes()), hash, "{text:?}");
    }
}

/// A name's bytes are those of the text, highest first; its home is what the
/// hash has in its lowest ten bits.
#[test]
fn homes_of_published_hashes() {
    assert_eq!(home(u64::from_be_bytes(*b"chongo w")), 0x130);
    assert_eq!(home(u64::from_be_bytes(*b"chongo \0")), 0x225);
    assert_eq!(home(u64::from_be_bytes(*b"feedface")), 0x13c);
}

/// By hand. Ten bits come of ten bits: the start is 453, the factor 403.
/// Seven bytes of 0 lead to 453 * 403^7 = 39, so that a name below 256 has the
/// home (39 xor name) * 403. Six lead to 925.
#[test]
fn homes_by_hand() {
    for (name, cell) in [
        (0, 357),
        (1, 978),
        (2, 575),
        (3, 172),
        (4, 793),
        (39, 0),
        // 925 xor 2 is 927, times 403 is 845; 845 xor 40 is 869
        (0x0228, 1023),
        // 925 xor 7 is 922, times 403 is 878; 878 xor 11 is 869
        (0x070b, 1023),
        // 925 xor 5 is 920, times 403 is 72; 72 xor 111 is 39
        (0x056f, 357),
    ] {
        assert_eq!(home(name), cell, "{name}");
    }
}

// ---- building and entering

#[test]
fn the_genesis_alone() {
    let ws = opened(1, 1, 1, 2);
    assert_eq!(built(&ws), cells_with(&[(357, 0)]));
}

#[test]
fn runs_index() {
    let expected = cells_with(&[(357, 0), (978, 1), (575, 2), (172, 3), (793, 4)]);
    assert_eq!(built(&run_booked()), expected);
    // Polls book nothing.
    assert_eq!(built(&run_polled(4)), expected);
}

/// 0x056f has the home of the genesis, and comes after it. 0x0228 and 0x070b
/// have the last cell, so that the later goes to cell 0, and 39, whose home
/// that is, to cell 1.
#[test]
fn collisions_go_up_and_round() {
    let ws = booked(&[0x056f, 0x0228, 0x070b, 39]);
    let cells = built(&ws);
    assert_eq!(
        held(&cells),
        [(0, 3), (1, 4), (357, 0), (358, 1), (1023, 2)]
    );
    for (number, name) in [0, 0x056f, 0x0228, 0x070b, 39].into_iter().enumerate() {
        assert_eq!(index_find(&ws, &cells, name), (0, number as i64));
    }
    // The other order of booking
    let ws = booked(&[39, 0x070b, 0x0228]);
    let cells = built(&ws);
    assert_eq!(held(&cells), [(0, 1), (1, 3), (357, 0), (1023, 2)]);
}

#[test]
fn building_ignores_what_was_there() {
    let ws = run_polled(4);
    for word in [0, 1, 4, 5, 511, 512, 65534, 65535] {
        let mut cells = vec![word; CELLS];
        assert_eq!(index_build(&ws, &mut cells), (0, 0));
        assert_eq!(cells, built(&ws));
    }
}

/// 4 has the home 793.
#[test]
fn entering_twice_writes_twice() {
    let ws = run_booked();
    let mut cells = cells_with(&[]);
    for expected in [
        &[(793, 4)][..],
        &[(793, 4), (794, 4)],
        &[(793, 4), (794, 4), (795, 4)],
    ] {
        assert_eq!(index_enter(&ws, &mut cells), (0, 0));
        assert_eq!(held(&cells), expected);
    }
    assert_eq!(index_find(&ws, &cells, 4), (0, 4));
}

/// Whatever number a cell holds, it is taken.
#[test]
fn entering_looks_for_65535_alone() {
    let ws = run_booked();
    let taken = [(793, 0), (794, 4), (795, 5), (796, 512), (797, 65534)];
    let mut cells = cells_with(&taken);
    assert_eq!(index_enter(&ws, &mut cells), (0, 0));
    assert_eq!(held(&cells), [&taken[..], &[(798, 4)]].concat());
}

/// The one cell that is empty is the last that is tried.
#[test]
fn entering_tries_every_cell() {
    let ws = run_booked();
    let mut cells = vec![5; CELLS];
    cells[792] = EMPTY;
    let mut expected = cells.clone();
    expected[792] = 4;
    assert_eq!(index_enter(&ws, &mut cells), (0, 0));
    assert_eq!(cells, expected);
    assert_eq!(index_enter(&ws, &mut cells), (27, 0));
    assert_eq!(cells, expected);
}

/// To 512 bookings, with names of all lengths, of which 136 do not stand at
/// their homes.
#[test]
fn entering_each_booking_keeps_the_built_index() {
    let mut ws = opened(1, 1, 1, 2);
    let mut cells = built(&ws);
    let names: Vec<u64> = (1..512).map(|b| (2 * b + 1) << (b % 48)).collect();
    for &name in &names {
        must_book(&mut ws, name, 1, &[0]);
        assert_eq!(index_enter(&ws, &mut cells), (0, 0));
        assert_eq!(cells, built(&ws));
    }
    let is_elsewhere = |&(b, &name): &(u16, &u64)| cells[home(name)] != b;
    assert_eq!((1..).zip(&names).filter(is_elsewhere).count(), 136);
}

// ---- lookups

#[test]
fn by_the_built_index_a_lookup_is_the_plain_search() {
    for ws in [opened(1, 1, 1, 2), run_polled(4), overtaken(), chain(512)] {
        let cells = built(&ws);
        for name in 0..600 {
            for name in [name, name << 32, !name] {
                assert_eq!(index_find(&ws, &cells, name), searched(&ws, name), "{name}");
            }
        }
    }
}

/// 1 has the home 978. Run has n = 5: 4 is another booking's number, and from
/// 5 on no booking has the number.
#[test]
fn numbers_of_others_and_of_nobody_are_passed_over() {
    let ws = run_booked();
    let passed = [(978, 4), (979, 5), (980, 511), (981, 512), (982, 65534)];
    let mut cells = cells_with(&passed);
    cells[983] = 1;
    assert_eq!(index_find(&ws, &cells, 1), (0, 1));
    // An empty cell ends it, wherever it is met.
    for cell in 978..983 {
        let mut cells = cells.clone();
        cells[cell] = EMPTY;
        assert_eq!(index_find(&ws, &cells, 1), (10, 0));
    }
}

/// Record 5 is all zero, and has the name of the genesis for whoever forgets
/// that there is no booking 5. The home is 357.
#[test]
fn records_from_n_on_have_no_name() {
    let ws = run_booked();
    let cells = cells_with(&[(357, 5), (358, 511), (359, 0)]);
    assert_eq!(index_find(&ws, &cells, 0), (0, 0));
    let cells = cells_with(&[(357, 5), (358, 511)]);
    assert_eq!(index_find(&ws, &cells, 0), (10, 0));
}

#[test]
fn a_lookup_goes_round() {
    let ws = booked(&[0x0228]);
    for cell in [0, 1, 1022] {
        let mut cells = vec![2; CELLS];
        cells[cell] = 1;
        assert_eq!(index_find(&ws, &cells, 0x0228), (0, 1));
    }
    let cells = cells_with(&[(1023, 0), (0, 0), (1, 1)]);
    assert_eq!(index_find(&ws, &cells, 0x0228), (0, 1));
    let cells = cells_with(&[(1023, 0), (1, 1)]);
    assert_eq!(index_find(&ws, &cells, 0x0228), (10, 0));
}

/// No cell is empty: the lookup ends when every cell was tried.
#[test]
fn a_lookup_in_a_full_index_ends() {
    let ws = run_booked();
    for word in [0, 5, 512, 65534] {
        let mut cells = vec![word; CELLS];
        assert_eq!(index_find(&ws, &cells, 1), (10, 0));
        assert_eq!(index_find(&ws, &cells, 77), (10, 0));
        // The last cell that is tried
        cells[977] = 1;
        assert_eq!(index_find(&ws, &cells, 1), (0, 1));
    }
}

/// By the index of another ledger a booked name may not be found, or in a
/// cell out of its place; a number that is found is the booking's all the same.
#[test]
fn a_foreign_index() {
    let ws = booked(&[1, 2, 3]);
    // 3 was number 1 there, and number 3 stands where 1 has its home.
    let foreign = built(&booked(&[3, 2, 1]));
    assert_eq!(held(&foreign), [(172, 1), (357, 0), (575, 2), (978, 3)]);
    assert_eq!(index_find(&ws, &foreign, 2), (0, 2));
    assert_eq!(index_find(&ws, &foreign, 1), (10, 0));
    assert_eq!(index_find(&ws, &foreign, 3), (10, 0));
    // 0x056f was booked second there, after 0x0228, and stands at 358.
    let ws = booked(&[0x070b, 0x056f]);
    let foreign = built(&booked(&[0x0228, 0x056f]));
    assert_eq!(held(&foreign), [(357, 0), (358, 2), (1023, 1)]);
    assert_eq!(index_find(&ws, &foreign, 0x056f), (0, 2));
    assert_eq!(index_find(&ws, &foreign, 0x070b), (0, 1));
    // Nobody has this name here, and its number is there.
    assert_eq!(index_find(&ws, &foreign, 0x0228), (10, 0));
}

/// Bookings that were not entered are not found, and those before them are.
#[test]
fn an_index_left_behind() {
    let mut ws = run_booked();
    let cells = built(&ws);
    must_book(&mut ws, 5, 1, &[0]);
    assert_eq!(index_find(&ws, &cells, 5), (10, 0));
    assert_eq!(index_find(&ws, &cells, 4), (0, 4));
}

// ---- refusals

type Call = fn(&[u16], &mut [u16]) -> Answer;
const CALLS: [Call; 3] = [index_build, index_enter, |ws, cells| {
    index_find(ws, cells, 77)
}];

/// Every call gives the answer and leaves the index.
fn all_refuse(ws: &[u16], cells: &[u16], answer: Answer) {
    for call in CALLS {
        refuses(ws, cells, answer, call);
    }
}

fn refuses(ws: &[u16], cells: &[u16], answer: Answer, call: Call) {
    let mut after = cells.to_vec();
    assert_eq!(call(ws, &mut after), answer);
    assert_eq!(after, cells);
}

/// Lengths around 1,024, and one that is 1,024 in sixteen bits.
const LENGTHS: [usize; 6] = [0, 1, 1023, 1025, 2048, 66_560];

/// Run with a record or a slot entry damaged: a confidence, or a counter,
/// above the three chits.
fn damaged(word: usize) -> Vec<u16> {
    let mut ws = run_polled(4);
    ws[word] = 4;
    ws
}

#[test]
fn refusal_1_comes_before_18() {
    for length in [0, 1, WORDS_WITHOUT_MARKS, WORDS - 1, WORDS + 1] {
        let mut ws = run_polled(4);
        ws.resize(length, 0);
        all_refuse(&ws, &vec![7; CELLS], (1, 0));
        for cells in LENGTHS {
            all_refuse(&ws, &vec![7; cells], (1, 0));
        }
    }
}

#[test]
fn refusal_18_comes_before_2_14_and_15() {
    let header = vec![0; WORDS];
    let record = damaged(record(3) + CONFIDENCE);
    let entry = damaged(entry(9) + COUNTER);
    for ws in [&run_polled(4), &header, &record, &entry] {
        for cells in LENGTHS {
            all_refuse(ws, &vec![7; cells], (18, 0));
            all_refuse(ws, &vec![EMPTY; cells], (18, 0));
        }
    }
    let cells = vec![7; CELLS];
    all_refuse(&header, &cells, (2, 0));
    all_refuse(&record, &cells, (14, 3));
    all_refuse(&entry, &cells, (15, 9));
}

/// The last refusal of a lookup and of entering; building has none.
#[test]
fn refusals_10_and_27_come_last() {
    let ws = run_polled(4);
    let full = vec![7; CELLS];
    refuses(&ws, &full, (27, 0), index_enter);
    refuses(&ws, &full, (10, 0), |ws, cells| index_find(ws, cells, 1));
    assert_eq!(index_build(&ws, &mut full.clone()), (0, 0));
    // One cell makes the difference.
    let mut cells = full;
    cells[7] = 1;
    assert_eq!(index_find(&ws, &cells, 1), (0, 1));
    cells[7] = EMPTY;
    assert_eq!(index_enter(&ws, &mut cells), (0, 0));
}

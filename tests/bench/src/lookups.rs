//! What a lookup costs by itself, with no test of soundness in front: by the
//! index, and by the plain search for a name.
//!
//! Every booked name is looked up in turn, and again where there are few: one
//! lookup is hardly longer than the clock.

use crate::calls::{middle, timed};
use crate::ledgers::{case, name, SIZES};
use random::call::{Beside, Call, Cells, Face, Indexing};
use second::codec::ledger_of;
use second::index::find;
use second::ledger::Reading;
use std::hint::black_box;

/// Turns, of which the middle one is reported.
const TURNS: usize = 501;
/// Lookups in a turn, or more.
const LOOKUPS: usize = 256;

/// The product's functions on words known to be a ledger are in no public
/// face; `known` has them, if it was given.
pub fn measure_and_print(known: Option<&dyn Face>) {
    println!("\nlookups on words known to be a ledger: nanoseconds of one, every name in turn\n");
    println!(
        "{:>4} {:>11} {:>11} {:>11} {:>12} {:>14}",
        "n", "ours: find", "search", "find/search", "second: find", "second: search"
    );
    for n in SIZES {
        let row = Row::measure(n, known);
        let ours = |value: Option<f64>, digits: usize| match value {
            Some(value) => format!("{value:.digits$}"),
            None => "-".to_string(),
        };
        println!(
            "{n:>4} {:>11} {:>11} {:>11} {:>12.1} {:>14.1}",
            ours(row.find, 1),
            ours(row.search, 1),
            ours(
                row.find.zip(row.search).map(|(find, search)| find / search),
                2
            ),
            row.second_find,
            row.second_search
        );
    }
}

struct Row {
    find: Option<f64>,
    search: Option<f64>,
    second_find: f64,
    second_search: f64,
}

impl Row {
    fn measure(n: usize, known: Option<&dyn Face>) -> Row {
        let case = case("index_find", n);
        let (mut ws, mut cells) = (case.ws.clone(), case.call.lent_cells());
        let ledger = ledger_of(&ws);
        let names: Vec<u64> = (0..n).cycle().take(n.max(LOOKUPS)).map(name).collect();
        let (finds, searches): (Vec<Call>, Vec<Call>) = names
            .iter()
            .map(|&name| {
                let find = Call::Index(Indexing::Find(name), Cells(Vec::new()));
                (find, Call::Read(Reading::Confidence, name))
            })
            .unzip();
        let mut times: [Vec<f64>; 4] = Default::default();
        for _ in 0..TURNS {
            if let Some(face) = known {
                for (calls, times) in [&finds, &searches].into_iter().zip(&mut times) {
                    times.push(each(calls, |call| {
                        let beside = Beside {
                            cells: &mut cells,
                            ..Beside::default()
                        };
                        black_box(face.call(&mut ws, beside, call));
                    }));
                }
            }
            times[2].push(each(&names, |&name| {
                let _ = black_box(find(&ledger, &cells, name));
            }));
            times[3].push(each(&names, |&name| {
                let mut bookings = ledger.bookings.iter();
                black_box(bookings.position(|booking| booking.name == name));
            }));
        }
        let [find, search, second_find, second_search] = times;
        let of_ours = |times: Vec<f64>| (!times.is_empty()).then(|| middle(times));
        Row {
            find: of_ours(find),
            search: of_ours(search),
            second_find: middle(second_find),
            second_search: middle(second_search),
        }
    }
}

/// Nanoseconds of one action, each in turn.
fn each<T>(all: &[T], mut action: impl FnMut(&T)) -> f64 {
    let mut all_in_turn = || {
        for one in all {
            action(black_box(one));
        }
    };
    timed(1, &mut all_in_turn) / all.len() as f64
}

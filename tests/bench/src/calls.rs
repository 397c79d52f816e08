//! Nanoseconds of each call, of a reading on the same words, and of comparing
//! the words with a copy.
//!
//! Every call is timed by itself. A sample of several calls lasts about as
//! long as the machine lets a program run before another's turn, so that on a
//! busy machine more than half of one side's samples can be interrupted, and
//! the middle one with them. A single call is seldom interrupted.

use crate::ledgers::{case, rows, words_for, REFUSED, SIZES};
use random::call::{Beside, Call, Face, Second};
use second::layout::EDITION;
use std::hint::black_box;
use std::time::{Duration, Instant};

/// Calls timed, of which the middle one is reported.
const SAMPLES: usize = 501;
/// Where so much time has gone, this many are enough.
const ENOUGH: usize = 101;
const LONG: Duration = Duration::from_secs(5);
/// Comparisons in one sample, as one is not much longer than the clock.
const BATCH: usize = 8;

/// What a call costs on a ledger of `n`, in nanoseconds.
pub struct Cost {
    /// The row: a kind of call, or one that is made otherwise.
    pub kind: &'static str,
    pub n: usize,
    /// Nothing if the product was not linked.
    pub ours: Option<f64>,
    /// Another build of the product, if one was given.
    pub before: Option<f64>,
    /// The product's confidence on the same words: what a call costs beyond
    /// finding the ledger sound shows beside it.
    pub reading: Option<f64>,
    pub second: f64,
    /// The second program once more: what differs from it is chance.
    pub control: f64,
    /// Comparing the bytes of the workspace with a copy.
    pub memcmp: f64,
    pub note: String,
}

#[cfg(feature = "station")]
const OURS: Option<&dyn Face> = Some(&random::station::LINKED);
#[cfg(not(feature = "station"))]
const OURS: Option<&dyn Face> = None;

pub fn measure(before: Option<&dyn Face>) -> Vec<Cost> {
    let mut costs = Vec::new();
    for kind in rows() {
        for n in SIZES {
            costs.push(measure_case(kind, n, before));
        }
    }
    costs
}

/// All take turns, and take turns at being first.
fn measure_case(kind: &'static str, n: usize, before: Option<&dyn Face>) -> Cost {
    let case = case(kind, n);
    let copy = case.ws.clone();
    let mut lent = case.ws.clone();
    let (mut file, mut out) = (case.call.lent_file(), case.call.lent_out());
    let (index, mut cells) = (case.call.lent_cells(), case.call.lent_cells());
    let (call, reading) = (&case.call, &case.reading());
    let beside = Beside {
        file: &mut file,
        out: &mut out,
        cells: &mut cells,
    };
    let (number, _) = Second.call(&mut lent, beside, call);
    let is_refused = case.note.starts_with(REFUSED);
    assert_eq!(number != 0, is_refused, "{kind} on {n}");
    // An older build may ask for fewer words than there are now, and know
    // nothing of editions.
    let before =
        before.filter(|face| face.has(kind) && (face.has_editions() || case.ws[EDITION] == 0));
    let sized = before.and_then(|face| Some((face, words_for(face)?)));
    let older = sized.map_or(Vec::new(), |(face, words)| case.words_by(face, words));
    let sides: [(Option<&dyn Face>, &Call, &[u16]); 5] = [
        (OURS, call, &case.ws),
        (sized.map(|(face, _)| face), call, &older),
        (Some(&Second), call, &case.ws),
        (Some(&Second), call, &case.ws),
        (OURS, reading, &case.ws),
    ];
    let mut times: [Vec<f64>; 5] = Default::default();
    let mut memcmp = Vec::new();
    let start = Instant::now();
    for turn in 0..SAMPLES {
        if turn >= ENOUGH && start.elapsed() > LONG {
            break;
        }
        for place in 0..sides.len() {
            let who = (turn + place) % sides.len();
            if let (Some(face), call, words) = sides[who] {
                // Words and cells are copied anew outside of the time taken,
                // so they are warm and the same for every call, and stand at
                // the same place for all.
                let ws = &mut lent[..words.len()];
                ws.copy_from_slice(words);
                cells.copy_from_slice(&index);
                let beside = Beside {
                    file: &mut file,
                    out: &mut out,
                    cells: &mut cells,
                };
                times[who].push(sample(face, call, ws, beside));
            }
        }
        memcmp.push(timed(BATCH, || {
            black_box(black_box(&case.ws[..]) == black_box(&copy[..]));
        }));
    }
    let [ours, before, second, control, reading] = times;
    let of_ours = |times: Vec<f64>| (!times.is_empty()).then(|| middle(times));
    Cost {
        kind,
        n,
        ours: of_ours(ours),
        before: of_ours(before),
        reading: of_ours(reading),
        second: middle(second),
        control: middle(control),
        memcmp: middle(memcmp),
        note: case.note,
    }
}

/// One call.
fn sample(face: &dyn Face, call: &Call, ws: &mut [u16], beside: Beside) -> f64 {
    let mut lent = Some(beside);
    timed(1, || {
        let beside = lent.take().expect("one call is timed");
        black_box(face.call(black_box(ws), black_box(beside), black_box(call)));
    })
}

/// Nanoseconds of one of so many actions.
pub fn timed(times: usize, mut action: impl FnMut()) -> f64 {
    let start = Instant::now();
    for _ in 0..times {
        action();
    }
    start.elapsed().as_nanos() as f64 / times as f64
}

pub fn middle(mut samples: Vec<f64>) -> f64 {
    samples.sort_by(f64::total_cmp);
    samples[samples.len() / 2]
}

pub fn print(costs: &[Cost]) {
    println!("calls: nanoseconds, the middle of {SAMPLES} calls, or of {ENOUGH} where they take long, words warm");
    let clock = middle((0..SAMPLES).map(|_| timed(1, || ())).collect());
    println!("reading the clock costs {clock:.0}, and is in every call");
    println!("a reading is our confidence of the last booking on the same words\n");
    println!(
        "{:<12} {:>4} {:>11} {:>11} {:>11} {:>8} {:>12} {:>12} {:>12} {:>13}",
        "call",
        "n",
        "ours",
        "before",
        "second",
        "memcmp",
        "ours/before",
        "ours/second",
        "ours/memcmp",
        "ours/reading"
    );
    for cost in costs {
        let number = |value: Option<f64>, digits: usize| match value {
            Some(value) => format!("{value:.digits$}"),
            None => "-".to_string(),
        };
        println!(
            "{:<12} {:>4} {:>11} {:>11} {:>11.0} {:>8.0} {:>12} {:>12} {:>12} {:>13}  {}",
            cost.kind,
            cost.n,
            number(cost.ours, 0),
            number(cost.before, 0),
            cost.second,
            cost.memcmp,
            number(
                cost.ours
                    .zip(cost.before)
                    .map(|(ours, before)| ours / before),
                3
            ),
            number(cost.ours.map(|ours| ours / cost.second), 2),
            number(cost.ours.map(|ours| ours / cost.memcmp), 1),
            number(
                cost.ours
                    .zip(cost.reading)
                    .map(|(ours, reading)| ours / reading),
                2
            ),
            cost.note
        );
    }
    let control = || costs.iter().map(|cost| cost.control / cost.second);
    println!(
        "\ncontrol: the second program against itself gave ratios from {:.2} to {:.2};\n\
         a ratio to it within that range says nothing",
        control().fold(f64::INFINITY, f64::min),
        control().fold(0.0, f64::max)
    );
}

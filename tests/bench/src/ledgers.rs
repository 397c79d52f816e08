//! The ledgers that calls are measured on.
//!
//! Every booking has the two before it as parents, so that the ancestry of
//! the last is the whole ledger. Slots are taken in turn, names are spread
//! over all 64 bits, the setting is the paper's, in the first edition but for
//! two rows, and every booking but the last has a chit. The day file, written, read or moved, is that of a ledger with
//! four parents each and every booking polled: no file of so many bookings is
//! longer, but for the edition and further marks. All bookings come before all polls,
//! so that the second form can be moved back. An index is the built one, and before the last booking is entered that
//! of all others.
//!
//! A ledger is a list of calls. Another build of the product may lay its words
//! out otherwise, and is led to the same ledger by its own answers to them.

use random::call::{Beside, Buffer, Call, Cells, Face, Indexing};
use random::cells::built;
use random::file;
use random::grow::words_of;
use random::planted::WORDS_WITHOUT_MARKS;
use second::day::Day;
use second::form::Form;
use second::index::{CELLS, EMPTY};
use second::layout::{BOOKINGS, N, PARENTS, SLOTS, WORDS};
use second::ledger::{Ledger, Reading};
use second::setting::Setting;

pub const SIZES: [usize; 4] = [1, 64, 256, 512];
/// How the note of a call starts that is not taken.
pub const REFUSED: &str = "refused:";

/// The name of booking `b`.
pub fn name(b: usize) -> u64 {
    (b as u64).wrapping_mul(0x9e37_79b9_7f4a_7c15)
}

fn slot(b: usize) -> u16 {
    (1 + (b - 1) % (SLOTS - 1)) as u16
}

/// The names of the `count` bookings before it.
fn parents(b: usize, count: usize) -> Vec<u64> {
    (b.saturating_sub(count)..b).map(name).collect()
}

/// Just enough yes votes.
fn votes() -> Vec<u8> {
    yes_votes(Setting::PAPER.a)
}

fn yes_votes(count: u16) -> Vec<u8> {
    let places = 0..Setting::PAPER.k;
    places.map(|place| u8::from(place < count)).collect()
}

/// A poll that fails, and polls of the later edition, beside the kinds of
/// calls.
const FAILS: &str = "poll fails";
const LATER: &str = "poll later";
const FAILS_LATER: &str = "fails later";

/// The rows of the table: each kind of call, and the other polls behind the
/// first.
pub fn rows() -> Vec<&'static str> {
    let others = |kind| match kind {
        "poll" => &[FAILS, LATER, FAILS_LATER][..],
        _ => &[],
    };
    let kinds = Call::KINDS.into_iter();
    kinds
        .flat_map(|kind| [&[kind], others(kind)].concat())
        .collect()
}

/// The paper's setting in the later edition.
const PAPER_LATER: Setting = Setting {
    edition: Setting::LATER,
    ..Setting::PAPER
};

/// Parents of a booking, where there are so many.
const USUAL_PARENTS: usize = 2;

/// A ledger of `n` bookings with so many parents each, of which those below
/// `waiting` are polled.
fn booked(n: usize, count: usize, waiting: usize) -> Vec<Call> {
    let bookings = (1..n).map(|b| Call::Book {
        name: name(b),
        slot: slot(b),
        parents: parents(b, count),
    });
    let polls = (1..waiting).map(|b| Call::Poll {
        name: name(b),
        votes: votes(),
    });
    let opening = [Call::Open(Setting::PAPER)];
    (opening.into_iter()).chain(bookings).chain(polls).collect()
}

/// A ledger of `n` bookings, the last of which waits.
fn usual(n: usize) -> Vec<Call> {
    booked(n, USUAL_PARENTS, n - 1)
}

/// The second program's ledger after these calls.
fn ledger(calls: &[Call]) -> Ledger {
    let Call::Open(setting) = calls[0] else {
        unreachable!("a ledger is opened first");
    };
    let mut ledger = Ledger::open(setting).expect("the paper's setting is good");
    for call in &calls[1..] {
        match call {
            Call::Book {
                name,
                slot,
                parents,
            } => ledger.book(*name, *slot, parents),
            Call::Poll { name, votes } => ledger.poll(*name, votes),
            _ => unreachable!("a ledger is booked and polled"),
        }
        .expect("its parents are booked, and it waits");
    }
    ledger
}

/// How many words a build of the product asks for: as many as this one, or as
/// many as before there were marks.
pub fn words_for(face: &dyn Face) -> Option<usize> {
    let is_taken = |words: &usize| {
        let opening = Call::Open(Setting::PAPER);
        face.call(&mut vec![0; *words], Beside::default(), &opening) == (0, 0)
    };
    [WORDS, WORDS_WITHOUT_MARKS].into_iter().find(is_taken)
}

/// A call to measure and the words that it is made on.
pub struct Case {
    pub call: Call,
    /// The calls that lead to the words.
    pub calls: Vec<Call>,
    pub ws: Vec<u16>,
    /// What has to be known to read the row.
    pub note: String,
}

impl Case {
    /// So many words, as the calls leave them by this face's own answers.
    pub fn words_by(&self, face: &dyn Face, words: usize) -> Vec<u16> {
        let mut ws = vec![0; words];
        for call in &self.calls {
            let answer = face.call(&mut ws, Beside::default(), call);
            assert_eq!(answer, (0, 0), "{call:?}");
        }
        ws
    }

    /// A short reading on the same words.
    pub fn reading(&self) -> Call {
        let last = usize::from(self.ws[N]) - 1;
        Call::Read(Reading::Confidence, name(last))
    }
}

/// The index of the first `count` bookings.
fn index(count: usize) -> Cells {
    Cells(match count {
        0 => vec![EMPTY; CELLS],
        _ => built(&ledger(&usual(count))),
    })
}

/// What is done with the longest file of a ledger.
fn file_call(kind: &str, form: Form, ledger: &Ledger) -> Call {
    let file = Day::of(ledger, form).file();
    let buffer = |form: Form| Buffer {
        room: file::length(ledger, form),
        seed: 0,
    };
    match kind {
        "write_first" | "write_second" => Call::WriteFile(form, buffer(form)),
        "read_first" | "read_second" => Call::ReadFile(form, file),
        _ => Call::MoveFile(form, file, buffer(form.other())),
    }
}

/// The case of each row on a ledger of `n`.
pub fn case(kind: &str, n: usize) -> Case {
    let last = name(n - 1);
    let mut calls = usual(n);
    let mut note = String::new();
    let call = match kind {
        "open" => Call::Open(Setting::PAPER),
        "book" => {
            let mut b = n;
            if n == BOOKINGS {
                b = n - 1;
                calls = usual(b);
                note = "on 511, as the last that is taken".to_string();
            }
            Call::Book {
                name: name(b),
                slot: slot(b),
                parents: parents(b, USUAL_PARENTS),
            }
        }
        "poll" | FAILS | LATER | FAILS_LATER => {
            if n == 1 {
                note = format!("{REFUSED} the genesis is polled");
            }
            if kind == LATER || kind == FAILS_LATER {
                calls[0] = Call::Open(PAPER_LATER);
            }
            let is_success = kind == "poll" || kind == LATER;
            Call::Poll {
                name: last,
                votes: yes_votes(Setting::PAPER.a - u16::from(!is_success)),
            }
        }
        "write_first" | "read_first" | "write_second" | "read_second" | "move_first"
        | "move_second" => {
            calls = booked(n, PARENTS, n);
            let ledger = ledger(&calls);
            let form = match kind.ends_with("_first") {
                true => Form::First,
                false => Form::Second,
            };
            let bytes = file::length(&ledger, form);
            note = format!("{bytes} bytes: four parents each, all polled");
            file_call(kind, form, &ledger)
        }
        "index_build" => Call::Index(Indexing::Build, index(n)),
        "index_enter" => {
            if n == 1 {
                note = "into the empty index".to_string();
            }
            Call::Index(Indexing::Enter, index(n - 1))
        }
        "index_find" => {
            note = "the reading searches for the same name".to_string();
            Call::Index(Indexing::Find(last), index(n))
        }
        _ => {
            let reading = Reading::ALL.into_iter().find(|r| r.word() == kind);
            Call::Read(reading.expect("the kinds are known"), last)
        }
    };
    let ws = words_of(&ledger(&calls));
    Case {
        call,
        calls,
        ws,
        note,
    }
}

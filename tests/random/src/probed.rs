//! An index held to the words: what each call on it has to answer and to
//! leave, and what the runs have reached of it.
//!
//! Nothing is entered and nothing built here. The cells are laid out in the
//! order in which a name meets them, and what has to stand where shows there.

use crate::call::Indexing;
use crate::made::Verdict;
use second::index::{build, CELLS, EMPTY};
use second::layout::*;
use second::ledger::{Ledger, GENESIS};
use second::words::Answer;

/// The cell where a name is met first. Its ten bits come of ten bits: those of
/// the hash's start are 453, of its factor 403.
fn home(name: u64) -> usize {
    let bytes = (0..8).rev().map(|byte| (name >> (8 * byte)) as usize % 256);
    bytes.fold(453, |hash, byte| (hash ^ byte) * 403 % CELLS)
}

/// What stands in the cells, in the order in which a name meets them.
fn met(cells: &[u16], name: u64) -> impl Iterator<Item = u16> + '_ {
    let (below, above) = cells.split_at(home(name));
    above.iter().chain(below).copied()
}

/// The names of the bookings, as the words have them.
fn names(ws: &[u16]) -> Vec<u64> {
    (0..usize::from(ws[N]))
        .map(|b| name_of(&ws[record(b) + NAME..record(b) + SLOT]))
        .collect()
}

/// Is this the built index of these names? Then a cell is held for each of
/// them, and the first number that it meets and that is no lower one is its own.
fn is_built(cells: &[u16], names: &[u64]) -> bool {
    let held = cells.iter().filter(|&&number| number != EMPTY).count();
    let mut numbers = (0..).zip(names);
    cells.len() == CELLS
        && held == names.len()
        && numbers.all(|(b, &name)| met(cells, name).find(|&number| number >= b) == Some(b))
}

/// Did a call do what it has to, whoever else did the same? The index held
/// `before`, and `after` it.
pub fn check(
    asked: Indexing,
    (ws, verdict): (&[u16], &Verdict),
    (before, after): (&[u16], &[u16]),
    answer: Answer,
) -> Result<(), String> {
    let told = |is_so: bool, what: &str| if is_so { Ok(()) } else { Err(what.to_string()) };
    let meant = match verdict {
        _ if ws.len() != WORDS => (1, 0),
        _ if before.len() != CELLS => (18, 0),
        Ok(_) => meant(asked, &names(ws), before),
        // Which row has to be named is for the damage to tell.
        Err(_) => {
            let is_left = matches!(answer.0, 2 | 14 | 15) && before == after;
            return told(is_left, "damaged words were taken, or cost a cell");
        }
    };
    if answer != meant {
        return Err(format!("{asked:?} answered {answer:?}, not {meant:?}"));
    }
    match asked {
        Indexing::Build if answer.0 == 0 => told(
            is_built(after, &names(ws)),
            "the index is not that of the words",
        ),
        Indexing::Enter if answer.0 == 0 => check_entered(&names(ws), before, after),
        _ => told(
            before == after,
            "a refused call or a lookup changed the index",
        ),
    }
}

/// What a call on a ledger with these names has to answer.
fn meant(asked: Indexing, names: &[u64], cells: &[u16]) -> Answer {
    match asked {
        Indexing::Build => (0, 0),
        Indexing::Enter if cells.contains(&EMPTY) => (0, 0),
        Indexing::Enter => (27, 0),
        Indexing::Find(name) => {
            let number = names.iter().position(|&booked| booked == name);
            let mut met = met(cells, name).take_while(|&number| number != EMPTY);
            match number {
                Some(b) if met.any(|number| usize::from(number) == b) => (0, b as i64),
                _ => (10, 0),
            }
        }
    }
}

/// One cell has changed: the first that was empty, to the newest number. If
/// the index was right before that booking, it is right after.
fn check_entered(names: &[u64], before: &[u16], after: &[u16]) -> Result<(), String> {
    let newest = names.len() - 1;
    let pairs = || met(before, names[newest]).zip(met(after, names[newest]));
    let first = pairs().position(|(before, _)| before == EMPTY);
    let changed: Vec<usize> = (0..CELLS)
        .zip(pairs())
        .filter(|(_, (before, after))| before != after)
        .map(|(at, _)| at)
        .collect();
    let written = pairs().nth(first.unwrap_or(0)).map(|(_, after)| after);
    if changed != first.into_iter().collect::<Vec<_>>() || written != Some(newest as u16) {
        return Err(format!(
            "{first:?} cells after the home is an empty one, written were {changed:?}"
        ));
    }
    if is_built(before, &names[..newest]) && !is_built(after, names) {
        return Err("the index was that of the words, and is no longer".to_string());
    }
    Ok(())
}

/// An answered call that looked into an index, on a ledger.
pub struct Probe<'a> {
    asked: Indexing,
    number: u32,
    ledger: &'a Ledger,
    cells: &'a [u16],
    home: usize,
    /// What stood in the cells that were tried, in that order, but for the one
    /// that ended it.
    passed: Vec<u16>,
    /// Whether a cell ended it. Otherwise every cell was tried.
    is_ended: bool,
}

impl Probe<'_> {
    pub fn new<'a>(
        asked: Indexing,
        (number, value): Answer,
        ledger: &'a Ledger,
        cells: &'a [u16],
    ) -> Probe<'a> {
        let newest = ledger.bookings.len() - 1;
        let name = match asked {
            Indexing::Find(name) => name,
            _ => ledger.bookings[newest].name,
        };
        let end = match (asked, number) {
            (Indexing::Find(_), 0) => value as u16,
            _ => EMPTY,
        };
        let passed: Vec<u16> = met(cells, name).take_while(|&met| met != end).collect();
        Probe {
            asked,
            number,
            ledger,
            cells,
            home: home(name),
            is_ended: passed.len() < cells.len(),
            passed,
        }
    }

    /// The cases that this is one of.
    pub fn cases(&self) -> impl Iterator<Item = &'static str> + '_ {
        let met = PROBES.iter().filter(|(_, is_met)| is_met(self));
        met.map(|(case, _)| *case)
    }

    fn is_found(&self) -> bool {
        matches!(self.asked, Indexing::Find(_)) && self.number == 0
    }

    fn is_unfound(&self) -> bool {
        self.number == 10
    }

    fn is_entered(&self) -> bool {
        self.asked == Indexing::Enter && self.number == 0
    }

    fn is_building(&self) -> bool {
        self.asked == Indexing::Build
    }

    fn is_at_home(&self) -> bool {
        self.is_ended && self.passed.is_empty()
    }

    fn n(&self) -> usize {
        self.ledger.bookings.len()
    }

    fn passes_booked(&self) -> bool {
        let mut passed = self.passed.iter();
        passed.any(|&number| usize::from(number) < self.n())
    }

    fn passes_unused(&self) -> bool {
        let mut passed = self.passed.iter();
        passed.any(|&number| usize::from(number) >= self.n())
    }

    /// Does it go on from the last cell to cell 0?
    fn goes_round(&self) -> bool {
        self.is_ended && self.home + self.passed.len() >= CELLS
    }

    fn is_last(&self) -> bool {
        self.is_ended && self.passed.len() == CELLS - 1
    }

    /// Who has the name that is looked up.
    fn booked(&self) -> Option<u16> {
        let Indexing::Find(name) = self.asked else {
            return None;
        };
        let number = self.ledger.numbers.get(&name);
        number.map(|&number| number as u16)
    }

    fn count(&self, number: usize) -> usize {
        let cells = self.cells.iter();
        cells.filter(|&&cell| usize::from(cell) == number).count()
    }

    fn built(&self) -> Vec<u16> {
        let mut cells = vec![EMPTY; CELLS];
        build(self.ledger, &mut cells);
        cells
    }

    fn has_built(&self) -> bool {
        self.cells == self.built()
    }

    /// Is it the built index of the first bookings, some or none?
    fn is_behind(&self) -> bool {
        let held = CELLS - self.count(EMPTY.into());
        held < self.n() && self.is_built_of(held)
    }

    fn is_built_of(&self, held: usize) -> bool {
        let bookings = &self.ledger.bookings[..held];
        let names: Vec<u64> = bookings.iter().map(|booking| booking.name).collect();
        is_built(self.cells, &names)
    }
}

/// A name, and whether a call on an index is a case of it.
type Case = (&'static str, fn(&Probe) -> bool);

/// Which cells were tried, and what the index was.
pub const PROBES: [Case; 40] = [
    ("found at home", |p| p.is_found() && p.is_at_home()),
    ("found past other bookings", |p| {
        p.is_found() && p.passes_booked()
    }),
    ("found past unused numbers", |p| {
        p.is_found() && p.passes_unused()
    }),
    ("found past cell 1023", |p| p.is_found() && p.goes_round()),
    ("found in the last cell", |p| p.is_found() && p.is_last()),
    ("found out of its place", |p| {
        let at = (p.home + p.passed.len()) % CELLS;
        p.is_found() && p.built()[at] != p.cells[at]
    }),
    ("found, and there twice", |p| {
        p.is_found() && p.booked().is_some_and(|b| p.count(b.into()) > 1)
    }),
    ("the genesis found past a record from n on", |p| {
        let mut passed = p.passed.iter().map(|&number| usize::from(number));
        p.is_found()
            && p.booked() == Some(GENESIS as u16)
            && passed.any(|number| p.n() <= number && number < BOOKINGS)
    }),
    ("found by the built index", |p| {
        p.is_found() && p.has_built()
    }),
    ("not found at home", |p| p.is_unfound() && p.is_at_home()),
    ("not found past other bookings", |p| {
        p.is_unfound() && p.passes_booked()
    }),
    ("not found past unused numbers", |p| {
        p.is_unfound() && p.passes_unused()
    }),
    ("not found past cell 1023", |p| {
        p.is_unfound() && p.goes_round()
    }),
    ("not found in any cell", |p| p.is_unfound() && !p.is_ended),
    ("not found by the built index", |p| {
        p.is_unfound() && p.has_built()
    }),
    ("booked and not found, before an empty cell", |p| {
        p.is_unfound() && p.booked().is_some_and(|b| p.count(b.into()) > 0)
    }),
    ("booked and not found, nowhere there", |p| {
        p.is_unfound() && p.booked().is_some_and(|b| p.count(b.into()) == 0)
    }),
    ("booked and not found, every cell tried", |p| {
        p.is_unfound() && p.booked().is_some() && !p.is_ended
    }),
    ("entered at home", |p| p.is_entered() && p.is_at_home()),
    ("entered past other bookings", |p| {
        p.is_entered() && p.passes_booked()
    }),
    ("entered past unused numbers", |p| {
        p.is_entered() && p.passes_unused()
    }),
    ("entered past cell 1023", |p| {
        p.is_entered() && p.goes_round()
    }),
    ("entered in the last cell", |p| {
        p.is_entered() && p.is_last()
    }),
    ("entered twice", |p| {
        p.is_entered() && p.passed.contains(&(p.n() as u16 - 1))
    }),
    ("entered into the index of all before", |p| {
        p.is_entered() && p.is_built_of(p.n() - 1)
    }),
    ("entered nowhere, and there before", |p| {
        p.number == 27 && p.count(p.n() - 1) > 0
    }),
    ("entered nowhere, and not there", |p| {
        p.number == 27 && p.count(p.n() - 1) == 0
    }),
    ("built as it was", |p| p.is_building() && p.has_built()),
    ("built over another", |p| p.is_building() && !p.has_built()),
    ("built for the genesis alone", |p| {
        p.is_building() && p.n() == 1
    }),
    ("built for 512 bookings", |p| {
        p.is_building() && p.n() == BOOKINGS
    }),
    ("built past cell 1023", |p| {
        let is_round = |(at, &number): (usize, &u16)| {
            let booking = p.ledger.bookings.get(usize::from(number));
            booking.is_some_and(|booking| at < home(booking.name))
        };
        p.is_building() && p.built().iter().enumerate().any(is_round)
    }),
    ("index: of fewer bookings", |p| p.is_behind()),
    ("index: empty", |p| p.count(EMPTY.into()) == CELLS),
    ("index: one cell empty", |p| p.count(EMPTY.into()) == 1),
    ("index: no cell empty", |p| p.count(EMPTY.into()) == 0),
    ("index: nothing but unused numbers", |p| {
        p.cells
            .iter()
            .all(|&number| number != EMPTY && usize::from(number) >= p.n())
    }),
    ("index: n in a cell", |p| p.count(p.n()) > 0),
    ("index: 512 in a cell", |p| p.count(BOOKINGS) > 0),
    ("index: 65534 in a cell", |p| p.count(65534) > 0),
];

/// A name, and whether an index of another length is a case of it.
type Length = (&'static str, fn(usize) -> bool);

pub const LENGTHS: [Length; 6] = [
    ("cells: none", |cells| cells == 0),
    ("cells: 1", |cells| cells == 1),
    ("cells: one too few", |cells| cells + 1 == CELLS),
    ("cells: one too many", |cells| cells == CELLS + 1),
    ("cells: twice as many", |cells| cells == 2 * CELLS),
    ("cells: right by their low bits", |cells| {
        cells > 65_535 && cells % 65_536 == CELLS
    }),
];

#[cfg(test)]
mod tests {
    use super::*;
    use crate::cells::built;
    use crate::grow::words_of;
    use crate::prng::Prng;
    use second::setting::Setting;
    use second::sound::{Broken, Damage, Place};
    use Indexing::*;

    /// Names and numbers alike. Their homes: 0 at 357, 1 at 978, 2 at 575.
    fn ledger(names: &[u64]) -> Ledger {
        let mut ledger = Ledger::open(Setting::PAPER).expect("it is good");
        for &name in names {
            ledger.book(name, 1, &[0]).expect("it is taken");
        }
        ledger
    }

    fn cells_with(held: &[(usize, u16)]) -> Vec<u16> {
        let mut cells = vec![EMPTY; CELLS];
        for &(at, number) in held {
            cells[at] = number;
        }
        cells
    }

    #[test]
    fn homes_are_those_of_the_second_program() {
        let mut prng = Prng::new(1);
        for name in (0..1000).chain((0..1000).map(|_| prng.draw())) {
            assert_eq!(home(name), second::index::home(name), "{name}");
        }
    }

    /// Whatever is done to a built index, it is none any more.
    #[test]
    fn an_index_is_built_in_one_way() {
        let names: Vec<u64> = (1..40).chain([0x0228, 0x070b, 0x056f]).collect();
        let ledger = ledger(&names);
        let names = [&[0], &names[..]].concat();
        let cells = built(&ledger);
        assert!(is_built(&cells, &names));
        assert!(!is_built(&cells, &names[1..]));
        assert!(!is_built(&cells[..CELLS - 1], &names));
        for at in 0..CELLS {
            for other in [EMPTY, 0, 1, 41, 42, 43, 512, 65534] {
                let mut changed = cells.clone();
                changed[at] = other;
                assert_eq!(is_built(&changed, &names), cells[at] == other);
            }
            for with in (0..CELLS).filter(|&with| cells[with] != EMPTY) {
                let mut swapped = cells.clone();
                swapped.swap(at, with);
                assert_eq!(is_built(&swapped, &names), swapped == cells, "{at} {with}");
            }
        }
    }

    /// Of what a call may answer and leave, one thing is right.
    #[test]
    fn one_answer_and_one_index_are_right() {
        let ledger = ledger(&[1, 2]);
        let ws = words_of(&ledger);
        let sound: Verdict = Ok(ledger);
        let full = vec![2; CELLS];
        let before = cells_with(&[(357, 0), (575, 1), (978, 1)]);
        let entered = cells_with(&[(357, 0), (575, 1), (576, 2), (978, 1)]);
        let built = cells_with(&[(357, 0), (575, 2), (978, 1)]);
        type Case<'a> = (Indexing, &'a [u16], Answer, &'a [u16]);
        let cases: [Case; 8] = [
            (Build, &before, (0, 0), &built),
            (Build, &full, (0, 0), &built),
            (Build, &full[1..], (18, 0), &full[1..]),
            (Enter, &before, (0, 0), &entered),
            (Enter, &full, (27, 0), &full),
            (Find(1), &before, (0, 1), &before),
            (Find(2), &before, (10, 0), &before),
            (Find(2), &full, (0, 2), &full),
        ];
        for (asked, before, answer, after) in cases {
            let is_right = |answer: Answer, after: &[u16]| {
                check(asked, (&ws, &sound), (before, after), answer).is_ok()
            };
            assert!(is_right(answer, after), "{asked:?}");
            let answers = cases.map(|(_, _, answer, _)| answer);
            for other in answers.into_iter().chain([(1, 0), (2, 0), (0, 576)]) {
                let is_same = other == answer;
                assert_eq!(is_right(other, after), is_same, "{asked:?} {other:?}");
            }
            for at in 0..after.len() {
                let mut changed = after.to_vec();
                changed[at] ^= 3;
                assert!(!is_right(answer, &changed), "{asked:?} {at}");
            }
        }
    }

    /// Nor may words of another length be taken, or damaged ones.
    #[test]
    fn an_index_of_no_ledger_stays() {
        let ws = words_of(&ledger(&[1, 2]));
        let broken: Verdict = Err(Damage([(Place::Record(1), Broken::NoParent)].into()));
        let (before, after) = ([7; CELLS], [8; CELLS]);
        for asked in [Build, Enter, Find(1)] {
            let is_right = |words: &[u16], number: u32, after: &[u16]| {
                check(asked, (words, &broken), (&before, after), (number, 0)).is_ok()
            };
            for number in [0, 1, 2, 10, 14, 15, 18, 27] {
                let is_damage = [2, 14, 15].contains(&number);
                assert_eq!(is_right(&ws, number, &before), is_damage);
                assert_eq!(is_right(&ws[1..], number, &before), number == 1);
                assert!(!is_right(&ws, number, &after));
                assert!(!is_right(&ws[1..], number, &after));
            }
        }
    }

    /// A call on the index of a ledger is a case of exactly these.
    fn meets(
        asked: Indexing,
        answer: Answer,
        ledger: &Ledger,
        cells: &[u16],
        cases: &[&'static str],
    ) -> Vec<&'static str> {
        let met: Vec<&str> = Probe::new(asked, answer, ledger, cells).cases().collect();
        assert_eq!(met, cases, "{asked:?}");
        met
    }

    #[test]
    fn each_case_is_what_its_name_says() {
        let small = ledger(&[1, 2]);
        let right = built(&small);
        let empty = cells_with(&[]);
        let genesis = ledger(&[]);
        // 0x0228 and 0x070b have the home 1023.
        let round = ledger(&[0x0228, 0x070b]);
        let many: Vec<u64> = (1..512).collect();
        let many = ledger(&many);
        let mut last = vec![512; CELLS];
        last[574] = 2;
        let mut room = vec![512; CELLS];
        room[574] = EMPTY;
        let met = [
            meets(
                Find(2),
                (0, 2),
                &small,
                &right,
                &["found at home", "found by the built index"],
            ),
            meets(
                Find(2),
                (0, 2),
                &small,
                &cells_with(&[(575, 3), (576, 1), (577, 2), (578, 2)]),
                &[
                    "found past other bookings",
                    "found past unused numbers",
                    "found out of its place",
                    "found, and there twice",
                    "index: n in a cell",
                ],
            ),
            meets(
                Find(0x070b),
                (0, 2),
                &round,
                &built(&round),
                &[
                    "found past other bookings",
                    "found past cell 1023",
                    "found by the built index",
                ],
            ),
            meets(
                Find(2),
                (0, 2),
                &small,
                &last,
                &[
                    "found past unused numbers",
                    "found past cell 1023",
                    "found in the last cell",
                    "found out of its place",
                    "index: no cell empty",
                    "index: 512 in a cell",
                ],
            ),
            meets(
                Find(0),
                (0, 0),
                &small,
                &cells_with(&[(357, 511), (358, 0)]),
                &[
                    "found past unused numbers",
                    "found out of its place",
                    "the genesis found past a record from n on",
                ],
            ),
            meets(
                Find(3),
                (10, 0),
                &small,
                &right,
                &["not found at home", "not found by the built index"],
            ),
            meets(
                Find(2),
                (10, 0),
                &small,
                &cells_with(&[(575, 1), (576, 65534), (578, 2)]),
                &[
                    "not found past other bookings",
                    "not found past unused numbers",
                    "booked and not found, before an empty cell",
                    "index: 65534 in a cell",
                ],
            ),
            meets(
                Find(0x0228),
                (10, 0),
                &round,
                &cells_with(&[(1023, 0)]),
                &[
                    "not found past other bookings",
                    "not found past cell 1023",
                    "booked and not found, nowhere there",
                ],
            ),
            meets(
                Find(2),
                (10, 0),
                &small,
                &[512; CELLS],
                &[
                    "not found past unused numbers",
                    "not found in any cell",
                    "booked and not found, nowhere there",
                    "booked and not found, every cell tried",
                    "index: no cell empty",
                    "index: nothing but unused numbers",
                    "index: 512 in a cell",
                ],
            ),
            meets(
                Enter,
                (0, 0),
                &small,
                &cells_with(&[(357, 0), (978, 1)]),
                &[
                    "entered at home",
                    "entered into the index of all before",
                    "index: of fewer bookings",
                ],
            ),
            meets(
                Enter,
                (0, 0),
                &small,
                &cells_with(&[(575, 2), (576, 4)]),
                &[
                    "entered past other bookings",
                    "entered past unused numbers",
                    "entered twice",
                ],
            ),
            meets(
                Enter,
                (0, 0),
                &small,
                &room,
                &[
                    "entered past unused numbers",
                    "entered past cell 1023",
                    "entered in the last cell",
                    "index: one cell empty",
                    "index: 512 in a cell",
                ],
            ),
            meets(
                Enter,
                (27, 0),
                &small,
                &last,
                &[
                    "entered nowhere, and there before",
                    "index: no cell empty",
                    "index: 512 in a cell",
                ],
            ),
            meets(
                Enter,
                (27, 0),
                &small,
                &[1; CELLS],
                &["entered nowhere, and not there", "index: no cell empty"],
            ),
            meets(Build, (0, 0), &small, &right, &["built as it was"]),
            meets(
                Build,
                (0, 0),
                &genesis,
                &empty,
                &[
                    "built over another",
                    "built for the genesis alone",
                    "index: of fewer bookings",
                    "index: empty",
                ],
            ),
            meets(
                Build,
                (0, 0),
                &round,
                &built(&round),
                &["built as it was", "built past cell 1023"],
            ),
            meets(
                Build,
                (0, 0),
                &many,
                &built(&many),
                &["built as it was", "built for 512 bookings"],
            ),
        ];
        for (case, _) in PROBES {
            assert!(met.iter().flatten().any(|met| *met == case), "{case}");
        }
    }

    #[test]
    fn each_length_is_what_its_name_says() {
        for (cells, cases) in [
            (0, &["cells: none"][..]),
            (1, &["cells: 1"]),
            (2, &[]),
            (1022, &[]),
            (1023, &["cells: one too few"]),
            (1025, &["cells: one too many"]),
            (2048, &["cells: twice as many"]),
            (65_536, &[]),
            (66_560, &["cells: right by their low bits"]),
            (132_096, &["cells: right by their low bits"]),
        ] {
            let met = LENGTHS.iter().filter(|(_, is_met)| is_met(cells));
            let met: Vec<&str> = met.map(|(case, _)| *case).collect();
            assert_eq!(met, cases, "{cells}");
        }
    }
}

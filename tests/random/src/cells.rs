//! Indexes of all kinds: right ones, and those that a call has to get along
//! with.

use crate::grow::{grow, Style};
use crate::prng::Prng;
use second::index::{build, probed, CELLS, EMPTY};
use second::layout::BOOKINGS;
use second::ledger::Ledger;

#[derive(Clone, Copy, Debug, PartialEq, Eq)]
pub enum Kind {
    /// The built index of the ledger.
    Built,
    /// The one that the run keeps.
    Own,
    /// The built index of the first bookings.
    Behind,
    /// The built index of another ledger.
    Foreign,
    /// The built index with its numbers given to others.
    Renumbered,
    /// The built index with some cells changed.
    Changed,
    /// The built index with the number that is probed for out of its place, at
    /// times twice.
    Displaced,
    /// The built index with its empty cells filled.
    Full,
    /// The same without that number.
    FullWithout,
    /// That number in the last cell that is tried, and no cell empty.
    LastTried,
    /// Numbers that no booking has.
    Unused,
    /// No cell empty but one.
    OneEmpty,
    /// Nothing else.
    Empty,
    /// Any words.
    Any,
    /// Not 1,024 cells.
    OtherLength,
}

impl Kind {
    pub const ALL: [(usize, Kind); 15] = [
        (18, Kind::Built),
        (14, Kind::Own),
        (8, Kind::Behind),
        (8, Kind::Foreign),
        (5, Kind::Renumbered),
        (16, Kind::Changed),
        (10, Kind::Displaced),
        (5, Kind::Full),
        (6, Kind::FullWithout),
        (5, Kind::LastTried),
        (4, Kind::Unused),
        (8, Kind::OneEmpty),
        (3, Kind::Empty),
        (3, Kind::Any),
        (20, Kind::OtherLength),
    ];

    /// An index of this kind for a ledger. The cells that are tried for `name`
    /// get most of what is done; `own` is the index that the run keeps.
    pub fn cells(
        self,
        prng: &mut Prng,
        ledger: &Ledger,
        style: &Style,
        own: &[u16],
        name: u64,
    ) -> Vec<u16> {
        let mut cells = built(ledger);
        let n = ledger.bookings.len();
        let number = ledger.numbers.get(&name).map(|&number| number as u16);
        let tried: Vec<usize> = probed(name).collect();
        let other = |prng: &mut Prng| loop {
            let filler = any_number(prng, n);
            if Some(filler) != number {
                return filler;
            }
        };
        match self {
            Kind::Built => (),
            Kind::Own => cells = own.to_vec(),
            Kind::Behind => {
                let first = prng.below(n) as u16;
                let later = cells.iter_mut().filter(|number| **number >= first);
                later.for_each(|number| *number = EMPTY);
            }
            Kind::Foreign => {
                let bookings = prng.between(1, 40);
                cells = built(&grow(prng, style.clone(), bookings).ledger);
            }
            Kind::Renumbered => {
                let mut others: Vec<u16> = (0..n as u16).collect();
                prng.shuffle(&mut others);
                let held = cells.iter_mut().filter(|number| **number != EMPTY);
                held.for_each(|number| *number = others[usize::from(*number)]);
            }
            Kind::Changed => {
                for _ in 0..prng.between(1, 12) {
                    let (near, any) = (prng.below(6), prng.below(CELLS));
                    let at = tried[prng.pick(&[near, near, any])];
                    cells[at] = match prng.below(3) {
                        0 => EMPTY,
                        _ => any_number(prng, n),
                    };
                }
            }
            Kind::Displaced => {
                let steps = prng.between(1, 6);
                for &at in &tried[..steps] {
                    cells[at] = other(prng);
                }
                for &at in &tried[steps..][..prng.between(1, 2)] {
                    cells[at] = number.unwrap_or(n as u16);
                }
            }
            Kind::Full | Kind::FullWithout | Kind::LastTried | Kind::OneEmpty => {
                for cell in &mut cells {
                    let is_meant = self != Kind::Full && Some(*cell) == number;
                    if *cell == EMPTY || is_meant {
                        *cell = other(prng);
                    }
                }
                let last = tried[CELLS - 1];
                if let (Kind::LastTried, Some(number)) = (self, number) {
                    cells[last] = number;
                }
                if self == Kind::OneEmpty {
                    let any = tried[prng.below(CELLS)];
                    cells[prng.pick(&[last, last, tried[0], any])] = EMPTY;
                }
            }
            Kind::Unused => {
                let lowest = n as u16;
                let highest = prng.pick(&[lowest, 512.max(lowest), EMPTY - 1]);
                cells.fill_with(|| prng.word(lowest, highest));
            }
            Kind::Empty => cells.fill(EMPTY),
            Kind::Any => cells.fill_with(|| prng.draw() as u16),
            Kind::OtherLength => {
                let much = 65_536 * prng.between(1, 2) + CELLS;
                let lengths = [0, 1, CELLS - 1, CELLS - 1, CELLS + 1, 2 * CELLS, much];
                cells.resize(prng.pick(&lengths), EMPTY);
            }
        }
        cells
    }
}

/// The index of a ledger.
pub fn built(ledger: &Ledger) -> Vec<u16> {
    let mut cells = vec![EMPTY; CELLS];
    build(ledger, &mut cells);
    cells
}

/// A number: of a booking, or around where they end, or far above.
fn any_number(prng: &mut Prng, n: usize) -> u16 {
    match prng.below(8) {
        0..=2 => prng.below(n) as u16,
        3 | 4 => n as u16,
        5 => prng.pick(&[BOOKINGS as u16 - 1, BOOKINGS as u16]),
        6 => EMPTY - 1,
        _ => prng.word(n as u16, EMPTY - 1),
    }
}

#[cfg(test)]
mod tests {
    use super::*;
    use crate::grow::any_size;

    /// The cells that hold something, and what.
    fn held(cells: &[u16]) -> Vec<(usize, u16)> {
        let cells = cells.iter().copied().enumerate();
        cells.filter(|&(_, number)| number != EMPTY).collect()
    }

    #[test]
    fn each_kind_is_what_its_name_says() {
        let mut prng = Prng::new(1);
        for run in 0..100 {
            let style = Style::any(&mut prng);
            let n = any_size(&mut prng, run);
            let ledger = grow(&mut prng, style.clone(), n).ledger;
            let newest = ledger.bookings[n - 1].name;
            let name = prng.pick(&[0, newest, prng.clone().draw()]);
            let number = ledger.numbers.get(&name).map(|&number| number as u16);
            let built = built(&ledger);
            let tried: Vec<usize> = probed(name).collect();
            for (_, kind) in Kind::ALL {
                let cells = kind.cells(&mut prng, &ledger, &style, &[7; CELLS], name);
                let empty = cells.iter().filter(|&&cell| cell == EMPTY).count();
                let is_there = number.is_some_and(|number| cells.contains(&number));
                let is_right = match kind {
                    Kind::Built => cells == built,
                    Kind::Own => cells == [7; CELLS],
                    Kind::Behind => {
                        let first = (CELLS - empty) as u16;
                        let is_first = |&(_, number): &(usize, u16)| number < first;
                        let meant: Vec<_> = held(&built).into_iter().filter(is_first).collect();
                        usize::from(first) < n && held(&cells) == meant
                    }
                    Kind::Foreign => (CELLS - 40..CELLS).contains(&empty),
                    Kind::Renumbered => {
                        let is_same = (held(&cells).iter().map(|(at, _)| at))
                            .eq(held(&built).iter().map(|(at, _)| at));
                        let mut numbers: Vec<u16> = held(&cells).iter().map(|h| h.1).collect();
                        numbers.sort();
                        is_same && numbers.into_iter().eq(0..n as u16)
                    }
                    Kind::Changed => {
                        let pairs = cells.iter().zip(&built);
                        pairs.filter(|(now, before)| now != before).count() <= 12
                    }
                    Kind::Displaced => {
                        let meant = number.unwrap_or(n as u16);
                        let is_end = |&at: &usize| [EMPTY, meant].contains(&cells[at]);
                        let steps = tried.iter().position(is_end).expect("it is there");
                        let is_away = number.is_none() || (1..=6).contains(&steps);
                        is_away && cells[tried[steps]] == meant
                    }
                    Kind::Full => empty == 0 && held(&built).iter().all(|h| cells[h.0] == h.1),
                    Kind::FullWithout => empty == 0 && !is_there,
                    Kind::LastTried => {
                        let last = tried.iter().position(|&at| Some(cells[at]) == number);
                        empty == 0 && last == number.map(|_| CELLS - 1)
                    }
                    Kind::Unused => empty == 0 && cells.iter().all(|&cell| cell >= n as u16),
                    Kind::OneEmpty => empty == 1 && !is_there,
                    Kind::Empty => empty == CELLS,
                    Kind::Any => held(&cells) != held(&built),
                    Kind::OtherLength => cells.len() != CELLS,
                };
                let has_length = cells.len() == CELLS || kind == Kind::OtherLength;
                assert!(is_right && has_length, "{kind:?} of {n}, {name}: {cells:?}");
            }
        }
    }
}

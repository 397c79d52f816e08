//! The marks and counters that a reading has to make, told by the words that it
//! left, or by the file. They say who was booked where and on whom, and which polls came in which order;
//! here all bookings come before all polls. Nothing is asked of either
//! program, so that it is a third opinion beside theirs.

use crate::file::Reader;
use second::layout::*;

/// What the polls lead to.
pub struct Outcome {
    /// Who is marked, in rising number.
    pub marks: Vec<bool>,
    /// Each slot's counter.
    pub counters: Vec<u16>,
}

impl Outcome {
    /// The numbers of those that are marked.
    pub fn marked(&self) -> Vec<usize> {
        let numbers = 0..self.marks.len();
        numbers.filter(|&b| self.marks[b]).collect()
    }
}

/// A day as words tell it, or a file.
pub struct Told {
    beta1: u16,
    beta2: u16,
    edition: u16,
    bookings: Vec<Booking>,
    /// Who was polled in which order, and with success or without.
    polls: Vec<(usize, bool)>,
}

impl Told {
    /// What sound words tell.
    pub fn of_words(ws: &[u16]) -> Told {
        Told {
            beta1: ws[BETA1],
            beta2: ws[BETA2],
            edition: ws[EDITION],
            bookings: (0..usize::from(ws[N])).map(|b| booking(ws, b)).collect(),
            polls: polls(ws),
        }
    }

    /// What the first three sections of a good file tell, and where they end.
    pub fn of_file(file: &[u8]) -> (Told, usize) {
        let mut file = Reader { file, at: 0 };
        let setting = items(&mut file, number);
        let genesis = Booking {
            slot: 0,
            parents: Vec::new(),
        };
        let booked = items(&mut file, |file| {
            file.at += 8; // its name
            Booking {
                slot: number(file).into(),
                parents: items(file, |file| number(file).into()),
            }
        });
        let polls = items(&mut file, |file| (number(file).into(), number(file) == 1));
        let told = Told {
            beta1: setting[2],
            beta2: setting[3],
            edition: setting.get(4).copied().unwrap_or(0),
            bookings: [genesis].into_iter().chain(booked).collect(),
            polls,
        };
        (told, file.at)
    }
}

/// Two bytes of a good file.
pub fn number(file: &mut Reader) -> u16 {
    file.number(2).expect("the file is good") as u16
}

/// A section of a good file.
pub fn items<T>(file: &mut Reader, item: impl Fn(&mut Reader) -> T) -> Vec<T> {
    let count = number(file);
    (0..count).map(|_| item(file)).collect()
}

impl Told {
    /// What the polls lead to.
    pub fn outcome(&self) -> Outcome {
        let bookings = &self.bookings;
        let mut slots = [Slot::default(); SLOTS];
        for (b, booking) in bookings.iter().enumerate() {
            let slot = &mut slots[booking.slot];
            if slot.count == 0 {
                (slot.preferred, slot.last) = (b, b);
            }
            slot.count += 1;
        }
        let ancestries = ancestries(bookings);
        let mut confidences = vec![0; bookings.len()];
        let mut marks = vec![false; bookings.len()];
        marks[0] = true;
        slots[0].is_marked = true;
        // What the later edition counts, and the first does not.
        let more = self.edition;
        for &(b, is_success) in &self.polls {
            let members = (0..=b).filter(|&m| ancestries[b][m / 64] >> (m % 64) & 1 == 1);
            let members: Vec<usize> = members.collect();
            if is_success {
                members.iter().for_each(|&m| confidences[m] += 1);
                for m in members {
                    slots[bookings[m].slot].follow(m, &confidences, more);
                }
            } else if more == 1 {
                members
                    .iter()
                    .for_each(|&m| slots[bookings[m].slot].counter = 0);
            }
            for b in 1..bookings.len() {
                let slot = &mut slots[bookings[b].slot];
                let is_own = (slot.preferred, slot.last) == (b, b);
                let is_earned = is_own && slot.counter + more > self.beta2
                    || slot.count == 1
                        && slot.counter + more > self.beta1
                        && bookings[b].parents.iter().all(|&parent| marks[parent]);
                if is_earned && !slot.is_marked {
                    slot.is_marked = true;
                    marks[b] = true;
                }
            }
        }
        Outcome {
            marks,
            counters: slots.iter().map(|slot| slot.counter).collect(),
        }
    }
}

struct Booking {
    slot: usize,
    parents: Vec<usize>,
}

#[derive(Clone, Copy, Default)]
struct Slot {
    preferred: usize,
    last: usize,
    counter: u16,
    count: usize,
    is_marked: bool,
}

impl Slot {
    /// A member of a successful poll's ancestry has had its confidence raised.
    fn follow(&mut self, m: usize, confidences: &[u16], start: u16) {
        if confidences[m] > confidences[self.preferred] {
            self.preferred = m;
        }
        let is_last = self.last == m;
        self.counter = if is_last { self.counter + 1 } else { start };
        self.last = m;
    }
}

fn booking(ws: &[u16], b: usize) -> Booking {
    let words = &ws[record(b)..record(b + 1)];
    let places = words[PARENT..STATE].iter().filter(|&&p| p != UNUSED);
    Booking {
        slot: words[SLOT].into(),
        parents: places.map(|&parent| parent.into()).collect(),
    }
}

/// A bit for each member. A parent's ancestry is known before it is asked for.
fn ancestries(bookings: &[Booking]) -> Vec<[u64; BOOKINGS / 64]> {
    let mut all: Vec<[u64; BOOKINGS / 64]> = Vec::with_capacity(bookings.len());
    for (b, booking) in bookings.iter().enumerate() {
        let mut own = [0; BOOKINGS / 64];
        own[b / 64] |= 1 << (b % 64);
        for &parent in &booking.parents {
            for (word, more) in own.iter_mut().zip(all[parent]) {
                *word |= more;
            }
        }
        all.push(own);
    }
    all
}

fn polls(ws: &[u16]) -> Vec<(usize, bool)> {
    let mut polls = vec![(0, false); ws[P].into()];
    for b in 1..usize::from(ws[N]) {
        let words = &ws[record(b)..record(b + 1)];
        if words[ORDINAL] > 0 {
            polls[usize::from(words[ORDINAL]) - 1] = (b, words[STATE] == 2);
        }
    }
    polls
}

#[cfg(test)]
mod tests {
    use super::*;
    use crate::grow::{any_size, grow, Style};
    use crate::prng::Prng;
    use second::day::Day;
    use second::form::Form;
    use second::ledger::Ledger;
    use second::words::read_first;

    fn marked(ledger: &Ledger) -> Vec<bool> {
        ledger.bookings.iter().map(|b| b.is_marked).collect()
    }

    /// The second program makes the same marks and counters, often other marks
    /// than the history did, and at times a slot's goes to another booking.
    #[test]
    fn a_reading_makes_these_marks_and_counters() {
        let mut prng = Prng::new(1);
        let (mut others, mut handed) = (0, 0);
        let mut editions = [0, 0];
        for run in 0..200 {
            let style = Style::any(&mut prng);
            let n = any_size(&mut prng, run);
            let ledger = grow(&mut prng, style, n).ledger;
            let mut ws = vec![0; WORDS];
            assert_eq!(
                read_first(&mut ws, &Day::of(&ledger, Form::First).file()),
                (0, 0)
            );
            let outcome = Told::of_words(&ws).outcome();
            let file = Day::of(&ledger, Form::First).file();
            let (told, end) = Told::of_file(&file);
            assert_eq!(
                (told.outcome().marks, end),
                (outcome.marks.clone(), file.len())
            );
            assert_eq!(told.outcome().counters, outcome.counters);
            let made = outcome.marks;
            for (b, &is_marked) in made.iter().enumerate() {
                assert_eq!(ws[record(b) + MARK], u16::from(is_marked), "run {run}");
            }
            for (s, &counter) in outcome.counters.iter().enumerate() {
                assert_eq!(ws[entry(s) + COUNTER], counter, "run {run}");
            }
            editions[usize::from(ws[EDITION])] += 1;
            others += usize::from(made != marked(&ledger));
            let is_new = |b: usize| made[b] && ledger.has_marked_rival(b);
            handed += usize::from((0..made.len()).any(is_new));
        }
        assert!(others > 20 && handed > 5, "{others} and {handed} of 200");
        assert!(editions[0] > 60 && editions[1] > 60, "{editions:?}");
    }
}

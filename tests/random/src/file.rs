//! The day file read back: how long it has to be, and whether its bytes say
//! what the words do. Both faces write it; this is a third opinion, which an
//! error of both would not pass.

use second::day::{EDITION_BYTES, SHORTEST_FILE};
use second::form::Form;
use second::layout::*;
use second::ledger::Ledger;

/// Bytes of a booking without its parents, of a parent and of a poll.
const BOOKING: usize = 12;
const PARENT_NUMBER: usize = 2;
const POLL: usize = 4;

/// How long the file of a ledger is.
pub fn length(ledger: &Ledger, form: Form) -> usize {
    let booking = |parents: usize| BOOKING + PARENT_NUMBER * parents;
    let bookings = ledger.bookings.iter().skip(1);
    let booked: usize = bookings.map(|b| booking(b.parents.len())).sum();
    let edition = EDITION_BYTES * usize::from(ledger.setting.edition);
    let marks = match form {
        Form::First => 0,
        Form::Second => 2 + 2 * ledger.bookings.iter().filter(|b| b.is_marked).count(),
    };
    SHORTEST_FILE + edition + booked + POLL * usize::from(ledger.polls) + marks
}

/// Does the file say what the words do, and nothing else? They must be sound.
pub fn check(file: &[u8], form: Form, ws: &[u16]) -> Result<(), String> {
    let mut file = Reader { file, at: 0 };
    let setting = [K, A, BETA1, BETA2, EDITION];
    // Without the edition where it is the first.
    let told = &setting[..4 + usize::from(ws[EDITION])];
    file.says(2, told.len() as u16)?;
    for &word in told {
        file.says(2, ws[word])?;
    }
    let n = usize::from(ws[N]);
    file.says(2, ws[N] - 1)?;
    for b in 1..n {
        let words = &ws[record(b)..record(b + 1)];
        file.says(8, name_of(&words[NAME..SLOT]))?;
        file.says(2, words[SLOT])?;
        let places = words[PARENT..STATE].iter();
        let parents: Vec<u16> = places.copied().filter(|&p| p != UNUSED).collect();
        file.says(2, parents.len() as u16)?;
        for parent in parents {
            file.says(2, parent)?;
        }
    }
    file.says(2, ws[P])?;
    for ordinal in 1..=ws[P] {
        // The record that the file points to must know of its poll.
        let b = file.number(2)? as usize;
        if b == 0 || b >= n || ws[record(b) + ORDINAL] != ordinal {
            return Err(format!("poll {ordinal} is said to be of booking {b}"));
        }
        file.says(2, u16::from(ws[record(b) + STATE] == 2))?;
    }
    if form == Form::Second {
        let marks = (0..n).filter(|&b| ws[record(b) + MARK] == 1);
        file.says(2, marks.clone().count() as u16)?;
        for b in marks {
            file.says(2, b as u16)?;
        }
    }
    if file.at < file.file.len() {
        return Err(format!("the file should end at byte {}", file.at));
    }
    Ok(())
}

pub struct Reader<'a> {
    pub file: &'a [u8],
    pub at: usize,
}

impl Reader<'_> {
    /// The number in so many bytes, the highest first.
    pub fn number(&mut self, bytes: usize) -> Result<u64, String> {
        let Some(read) = self.file.get(self.at..self.at + bytes) else {
            return Err(format!("the file ends before byte {}", self.at + bytes));
        };
        self.at += bytes;
        Ok(read.iter().fold(0, |n, &byte| n * 256 + u64::from(byte)))
    }

    fn says(&mut self, bytes: usize, meant: impl Into<u64>) -> Result<(), String> {
        let (at, meant) = (self.at, meant.into());
        match self.number(bytes)? {
            said if said == meant => Ok(()),
            said => Err(format!("byte {at} says {said}, not {meant}")),
        }
    }
}

#[cfg(test)]
mod tests {
    use super::*;
    use crate::grow::{any_size, grow, grow_longest, words_of, Style};
    use crate::prng::Prng;
    use crate::scramble::scramble;
    use second::day::LONGEST_FILE;
    use second::words::write_file;

    /// A ledger, its words and its file.
    fn written(prng: &mut Prng, run: usize, form: Form) -> (Ledger, Vec<u16>, Vec<u8>) {
        let style = Style::any(prng);
        let n = any_size(prng, run);
        let mut ledger = grow(prng, style, n).ledger;
        if prng.chance(50) {
            scramble(prng, &mut ledger);
        }
        let ws = words_of(&ledger);
        let mut out = vec![0; form.longest()];
        let (number, value) = write_file(&ws, form, &mut out);
        assert_eq!(number, 0);
        out.truncate(value as usize);
        (ledger, ws, out)
    }

    #[test]
    fn lengths_and_contents_are_those_of_the_second_program() {
        let mut prng = Prng::new(1);
        for run in 0..100 {
            for form in Form::ALL {
                let (ledger, ws, file) = written(&mut prng, run, form);
                assert_eq!(length(&ledger, form), file.len());
                assert_eq!(check(&file, form, &ws), Ok(()));
                assert!(check(&file, form.other(), &ws).is_err());
            }
        }
    }

    /// Whatever byte is another, and wherever the file ends, it is told.
    #[test]
    fn every_byte_is_looked_at() {
        let mut prng = Prng::new(2);
        for run in 1..60 {
            let form = prng.pick(&Form::ALL);
            let (_, ws, file) = written(&mut prng, run, form);
            for at in (0..file.len()).step_by(1 + file.len() / 400) {
                let mut other = file.clone();
                other[at] ^= 1 << prng.below(8);
                assert!(check(&other, form, &ws).is_err(), "byte {at}");
                assert!(check(&file[..at], form, &ws).is_err(), "cut at {at}");
            }
            let longer = [&file[..], &[0]].concat();
            assert!(check(&longer, form, &ws).is_err());
        }
    }

    #[test]
    fn the_longest_file_is_grown() {
        let mut prng = Prng::new(3);
        for (edition, longest) in [(0, 12_266), (1, LONGEST_FILE)] {
            let mut style = Style::any(&mut prng);
            style.setting.edition = edition;
            let grown = grow_longest(&mut prng, style);
            assert_eq!(length(&grown.ledger, Form::First), longest);
        }
    }
}

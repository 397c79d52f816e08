//! A day file as anybody may write one down, right or not. Counts are those
//! of the items; `spoil` has files whose counts are others.

use second::day::Day;
use second::form::Form;
use second::parse::parse;
use second::setting::Setting;

#[derive(Clone, Debug, PartialEq, Eq)]
pub struct Draft {
    /// Four numbers, or five with the edition, if it is right.
    pub setting: Vec<u16>,
    pub rows: Vec<Row>,
    pub polls: Vec<Poll>,
    /// Numbers of marked bookings, in the second form.
    pub marks: Option<Vec<u16>>,
}

/// A booking.
#[derive(Clone, Debug, PartialEq, Eq)]
pub struct Row {
    pub name: u64,
    pub slot: u16,
    pub parents: Vec<u16>,
}

#[derive(Clone, Copy, Debug, PartialEq, Eq)]
pub struct Poll {
    pub booking: u16,
    pub outcome: u16,
}

impl Draft {
    pub fn of(day: &Day) -> Draft {
        let Setting {
            k,
            a,
            beta1,
            beta2,
            edition,
        } = day.setting;
        let mut setting = vec![k, a, beta1, beta2];
        if edition > 0 {
            setting.push(edition);
        }
        let rows = day.bookings.iter().map(|booked| Row {
            name: booked.name,
            slot: booked.slot,
            parents: booked.parents.iter().map(|&p| p as u16).collect(),
        });
        let polls = day.polls.values().map(|polled| Poll {
            booking: polled.booking as u16,
            outcome: polled.is_success.into(),
        });
        Draft {
            setting,
            rows: rows.collect(),
            polls: polls.collect(),
            marks: (day.marks.as_ref()).map(|marks| marks.iter().map(|&b| b as u16).collect()),
        }
    }

    /// The draft of a good file.
    pub fn of_file(file: &[u8], form: Form) -> Draft {
        Draft::of(&parse(file, form).expect("a good file is read"))
    }

    pub fn form(&self) -> Form {
        match self.marks {
            None => Form::First,
            Some(_) => Form::Second,
        }
    }

    pub fn bytes(&self) -> Vec<u8> {
        let mut bytes = Vec::with_capacity(self.marks_at());
        let mut number = |n: usize| bytes.extend((n as u16).to_be_bytes());
        number(self.setting.len());
        self.setting.iter().for_each(|&n| number(n.into()));
        number(self.rows.len());
        for row in &self.rows {
            for shift in [48, 32, 16, 0] {
                number((row.name >> shift) as usize);
            }
            number(row.slot.into());
            number(row.parents.len());
            row.parents.iter().for_each(|&parent| number(parent.into()));
        }
        number(self.polls.len());
        for poll in &self.polls {
            number(poll.booking.into());
            number(poll.outcome.into());
        }
        if let Some(marks) = &self.marks {
            number(marks.len());
            marks.iter().for_each(|&b| number(b.into()));
        }
        bytes
    }

    /// Where the count of the bookings stands.
    pub fn rows_at(&self) -> usize {
        2 + 2 * self.setting.len()
    }

    /// Where the row after so many others stands.
    pub fn row_at(&self, before: usize) -> usize {
        let length = |row: &Row| 12 + 2 * row.parents.len();
        let rows = &self.rows[..before];
        self.rows_at() + 2 + rows.iter().map(length).sum::<usize>()
    }

    /// Where the count of the polls stands.
    pub fn polls_at(&self) -> usize {
        self.row_at(self.rows.len())
    }

    /// Where the count of the marks stands, or would.
    pub fn marks_at(&self) -> usize {
        self.polls_at() + 2 + 4 * self.polls.len()
    }
}

#[cfg(test)]
mod tests {
    use super::*;
    use crate::grow::{any_size, grow, Style};
    use crate::prng::Prng;

    #[test]
    fn a_draft_of_a_day_has_its_file() {
        let mut prng = Prng::new(1);
        let mut editions = [0, 0];
        for run in 0..60 {
            let style = Style::any(&mut prng);
            let n = any_size(&mut prng, run);
            let ledger = grow(&mut prng, style, n).ledger;
            let form = prng.pick(&Form::ALL);
            let file = Day::of(&ledger, form).file();
            let draft = Draft::of_file(&file, form);
            assert_eq!((draft.bytes(), draft.form()), (file.clone(), form));
            let mut counts = vec![
                (0, draft.setting.len()),
                (draft.rows_at(), draft.rows.len()),
                (draft.polls_at(), draft.polls.len()),
            ];
            match &draft.marks {
                None => assert_eq!(draft.marks_at(), file.len()),
                Some(marks) => counts.push((draft.marks_at(), marks.len())),
            }
            for (at, count) in counts {
                assert_eq!(file[at..at + 2], (count as u16).to_be_bytes());
            }
            let edition = ledger.setting.edition;
            assert_eq!(draft.setting.len(), 4 + usize::from(edition));
            editions[usize::from(edition)] += 1;
        }
        assert!(editions[0] > 10 && editions[1] > 10, "{editions:?}");
    }
}

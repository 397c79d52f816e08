//! What must hold after every history, checked from outside.
//!
//! A `History` is told each taken call since the last taken opening, or
//! reading of a day file, and nothing else. From it alone it knows what a
//! `Picture` of the ledger (taken from words, or from a printed list) has to
//! show. It keeps the ancestry of each booking as the union of its parents'
//! ancestries, and who was accepted in the pictures that it has seen.
//! `marking` says what a single call may do to marks, `counting` what to
//! counters.

use crate::console::LIST_HEADER;
use crate::day::Day;
use crate::layout::*;
use crate::ledger::GENESIS;
use crate::setting::Setting;
use std::collections::{BTreeMap, HashMap, HashSet};

/// What can be seen of a booking.
#[derive(Clone, Debug, PartialEq, Eq)]
pub struct Row {
    pub slot: u16,
    pub is_polled: bool,
    pub confidence: u16,
    pub is_preferred: bool,
    pub is_accepted: bool,
}

/// What can be seen of a ledger: p, and a row for each booking.
#[derive(Clone, Debug, PartialEq, Eq)]
pub struct Picture {
    pub polls: usize,
    pub rows: Vec<Row>,
}

#[derive(Clone, Copy, Debug, PartialEq, Eq)]
pub enum Law {
    /// The picture shows the bookings of the history, each in its slot.
    Bookings,
    /// p counts the taken polls, and as many bookings were polled.
    Polls,
    /// A confidence counts the successful polls of bookings built upon it.
    Confidence,
    /// All confidences together are the sizes of the successful polls'
    /// ancestries.
    Total,
    /// No rival has more confidence than the preferred booking.
    Preferred,
    /// A slot has at most one accepted booking.
    AcceptedOnce,
    /// More than β1 chits are built on an accepted booking, the genesis and
    /// those apart that a file told as marked, or in the later edition β1 of
    /// them: no counter is enough for β1 by less.
    AcceptedByChits,
    /// Who is accepted stays so until a taken opening or reading.
    AcceptedStays,
    /// A mark is given by a poll alone, to one that meets the rule after it
    /// in a slot that had none.
    MarkEarned,
    /// After a poll, whoever meets the rule has a mark, or a rival had one.
    MarkGiven,
    /// Last and counter of each slot are what the poll makes of them in the
    /// ledger's edition, which stays.
    Counted,
}

#[derive(Clone, Debug, PartialEq, Eq)]
pub struct Breach {
    pub law: Law,
    pub said: String,
}

/// The breach of a law, unless it is kept.
pub fn holds(is_kept: bool, law: Law, said: impl FnOnce() -> String) -> Result<(), Breach> {
    if is_kept {
        Ok(())
    } else {
        let said = said();
        Err(Breach { law, said })
    }
}

struct Past {
    slot: u16,
    ancestry: HashSet<usize>,
}

/// The taken calls since the last taken opening or reading.
#[derive(Default)]
pub struct History {
    /// Yes votes that a poll needs, and the chits without which nobody is
    /// accepted.
    needed: usize,
    least_chits: u16,
    bookings: Vec<Past>,
    numbers: HashMap<u64, usize>,
    polls: usize,
    /// Bookings of successful polls.
    chits: Vec<usize>,
    /// Those that a picture has shown accepted, or a file told as marked.
    accepted: HashSet<usize>,
    /// Those that need not have earned it: the genesis, and whom a file told.
    given: HashSet<usize>,
}

impl History {
    /// A taken opening: everything before it is forgotten.
    pub fn opened(&mut self, setting: &Setting) {
        *self = History {
            needed: usize::from(setting.a),
            least_chits: setting.beta1 + 1 - setting.edition,
            given: HashSet::from([GENESIS]),
            ..History::default()
        };
        self.add(0, 0, HashSet::new());
    }

    /// A taken reading of this day's file: everything before it is forgotten,
    /// and the file's polls are the history's first.
    pub fn handed_over(&mut self, day: &Day) {
        self.opened(&day.setting);
        for booked in &day.bookings {
            self.add_on(booked.name, booked.slot, &booked.parents);
        }
        for polled in day.polls.values() {
            self.add_poll(polled.booking, polled.is_success);
        }
        for &b in day.marks.iter().flatten() {
            self.given.insert(b);
            self.accepted.insert(b);
        }
    }

    /// A taken booking.
    pub fn booked(&mut self, name: u64, slot: u16, parents: &[u64]) {
        let parents: Vec<usize> = parents.iter().map(|name| self.numbers[name]).collect();
        self.add_on(name, slot, &parents);
    }

    fn add_on(&mut self, name: u64, slot: u16, parents: &[usize]) {
        let ancestry = parents
            .iter()
            .flat_map(|&parent| &self.bookings[parent].ancestry)
            .copied()
            .collect();
        self.add(name, slot, ancestry);
    }

    fn add(&mut self, name: u64, slot: u16, mut ancestry: HashSet<usize>) {
        let number = self.bookings.len();
        ancestry.insert(number);
        self.numbers.insert(name, number);
        self.bookings.push(Past { slot, ancestry });
    }

    /// A taken poll, with its vote bytes.
    pub fn polled(&mut self, name: u64, votes: &[u8]) {
        let yes = votes.iter().filter(|&&byte| byte == 1).count();
        self.add_poll(self.numbers[&name], yes >= self.needed);
    }

    fn add_poll(&mut self, number: usize, is_success: bool) {
        self.polls += 1;
        if is_success {
            self.chits.push(number);
        }
    }

    /// Does the picture show what this history must have led to? Pictures
    /// are shown in the order in which they were taken.
    pub fn check(&mut self, picture: &Picture) -> Result<(), Breach> {
        let rows = &picture.rows;
        let slots: Vec<u16> = self.bookings.iter().map(|past| past.slot).collect();
        let seen: Vec<u16> = rows.iter().map(|row| row.slot).collect();
        holds(slots == seen, Law::Bookings, || {
            format!("slots booked {slots:?}, slots seen {seen:?}")
        })?;

        let polled = rows.iter().skip(1).filter(|row| row.is_polled).count();
        holds(
            picture.polls == self.polls && polled == self.polls,
            Law::Polls,
            || {
                format!(
                    "{} polls taken, p is {}, {polled} bookings polled",
                    self.polls, picture.polls
                )
            },
        )?;

        let mut counted = vec![0u16; rows.len()];
        for &chit in &self.chits {
            for &m in &self.bookings[chit].ancestry {
                counted[m] += 1;
            }
        }
        for (b, row) in rows.iter().enumerate() {
            holds(row.confidence == counted[b], Law::Confidence, || {
                format!(
                    "booking {b} has confidence {}, {} chits are built on it",
                    row.confidence, counted[b]
                )
            })?;
        }
        check_total(rows, self.summed_sizes())?;
        check_preferred(rows)?;
        check_accepted_once(rows)?;
        self.check_accepted(rows)
    }

    fn check_accepted(&mut self, rows: &[Row]) -> Result<(), Breach> {
        let accepted = rows.iter().enumerate().filter(|(_, row)| row.is_accepted);
        let accepted: HashSet<usize> = accepted.map(|(b, _)| b).collect();
        for &b in accepted.difference(&self.given) {
            let confidence = rows[b].confidence;
            holds(confidence >= self.least_chits, Law::AcceptedByChits, || {
                format!("booking {b} is accepted with {confidence} chits built on it")
            })?;
        }
        let mut lost = self.accepted.difference(&accepted);
        if let Some(b) = lost.next() {
            holds(false, Law::AcceptedStays, || {
                format!("booking {b} was accepted and is no longer")
            })?;
        }
        self.accepted = accepted;
        Ok(())
    }

    /// The sizes of the successful polls' ancestries, together.
    pub fn summed_sizes(&self) -> usize {
        self.chits
            .iter()
            .map(|&chit| self.bookings[chit].ancestry.len())
            .sum()
    }
}

pub fn check_total(rows: &[Row], summed: usize) -> Result<(), Breach> {
    let total: usize = rows.iter().map(|row| usize::from(row.confidence)).sum();
    holds(total == summed, Law::Total, || {
        format!("confidences sum to {total}, ancestries to {summed}")
    })
}

pub fn check_preferred(rows: &[Row]) -> Result<(), Breach> {
    for (s, bookings) in by_slot(rows) {
        let preferred: Vec<_> = bookings.iter().filter(|row| row.is_preferred).collect();
        let most = bookings.iter().map(|row| row.confidence).max();
        holds(
            preferred.len() == 1 && Some(preferred[0].confidence) == most,
            Law::Preferred,
            || format!("slot {s} prefers {preferred:?}, its most confidence is {most:?}"),
        )?;
    }
    Ok(())
}

/// This one holds on every sound workspace, whatever its history.
pub fn check_accepted_once(rows: &[Row]) -> Result<(), Breach> {
    for (s, bookings) in by_slot(rows) {
        let accepted = bookings.iter().filter(|row| row.is_accepted).count();
        holds(accepted <= 1, Law::AcceptedOnce, || {
            format!("slot {s} has {accepted} accepted bookings")
        })?;
    }
    Ok(())
}

fn by_slot(rows: &[Row]) -> BTreeMap<u16, Vec<&Row>> {
    let mut slots: BTreeMap<u16, Vec<&Row>> = BTreeMap::new();
    for row in rows {
        slots.entry(row.slot).or_default().push(row);
    }
    slots
}

impl Picture {
    /// The picture that sound words show. Whether a name is accepted is for
    /// the reading to say, whatever its mark is.
    pub fn of_words(ws: &[u16], mut is_accepted: impl FnMut(u64) -> bool) -> Picture {
        let mut picture = Picture::of_marks(ws);
        for (b, row) in picture.rows.iter_mut().enumerate() {
            row.is_accepted = is_accepted(name_of(&ws[record(b) + NAME..record(b) + SLOT]));
        }
        picture
    }

    /// The same where the mark says it.
    pub fn of_marks(ws: &[u16]) -> Picture {
        let rows = (0..usize::from(ws[N]))
            .map(|b| {
                let words = &ws[record(b)..record(b + 1)];
                let slot = words[SLOT];
                let preferred = ws[entry(usize::from(slot)) + PREFERRED];
                Row {
                    slot,
                    is_polled: words[STATE] != 0,
                    confidence: words[CONFIDENCE],
                    is_preferred: usize::from(preferred) == b,
                    is_accepted: words[MARK] == 1,
                }
            })
            .collect();
        Picture {
            polls: usize::from(ws[P]),
            rows,
        }
    }

    /// The picture that a printed list shows, if it is one.
    pub fn of_list(text: &str) -> Option<Picture> {
        let mut rows = Vec::new();
        for (b, line) in text.strip_prefix(LIST_HEADER)?.lines().enumerate() {
            let fields: Vec<u16> = line
                .split(' ')
                .map(|field| field.parse().ok())
                .collect::<Option<_>>()?;
            let [number, slot, state, confidence, preferred, accepted] = fields[..] else {
                return None;
            };
            if usize::from(number) != b {
                return None;
            }
            rows.push(Row {
                slot,
                is_polled: state != 0,
                confidence,
                is_preferred: preferred == 1,
                is_accepted: accepted == 1,
            });
        }
        let polls = rows.iter().skip(1).filter(|row| row.is_polled).count();
        Some(Picture { polls, rows })
    }
}

//! What the runs have reached. A run that reached too little is a failure:
//! it would have found nothing.

use crate::call::{Buffer, Call, Cells, Indexing};
use crate::damage::Kind;
use crate::editions::{Turn, EDITIONS, UNREACHED_EDITIONS};
use crate::events::{Moment, EVENTS, UNREACHED_EVENTS};
use crate::fault::Fault;
use crate::file;
use crate::made::Verdict;
use crate::moved::moved;
use crate::probed::{Probe, LENGTHS, PROBES};
use crate::written::{FILES, MARKS, ROOMS};
use second::codec::ledger_of;
use second::form::Form;
use second::index::CELLS;
use second::layout::{BOOKINGS, SLOTS};
use second::ledger::Ledger;
use second::refusal::Refusal;
use second::sound::{Broken, Damage, Place};
use second::words::Answer;
use std::collections::{BTreeMap, BTreeSet};
use std::fmt::{self, Display, Formatter};

/// From this many calls on, everything must have been seen.
pub const ENOUGH: usize = 10_000;

#[derive(Default)]
pub struct Tally {
    pub calls: usize,
    seen: BTreeMap<String, usize>,
}

impl Tally {
    pub fn add(&mut self, what: impl Into<String>) {
        *self.seen.entry(what.into()).or_default() += 1;
    }

    /// Counts an answered call; `before` is the ledger it was made on, or
    /// what is broken in it, and `after` the words that it left.
    pub fn add_call(&mut self, call: &Call, answer: Answer, before: &Verdict, after: &[u16]) {
        self.calls += 1;
        let (number, value) = answer;
        let kind = call.kind();
        if let Call::WriteFile(form, buffer) = call {
            self.add_write(*form, *buffer, number, before);
        }
        if let Call::ReadFile(form, file) = call {
            self.add_read(*form, file, number, before, after);
        }
        if let Call::MoveFile(..) = call {
            self.add_move(call, number);
        }
        if let Call::Index(asked, cells) = call {
            self.add_index(*asked, cells, answer, before);
            self.add(answered(kind, number));
        }
        if let (Call::Open(setting), 0 | 3) = (call, number) {
            self.add(match (setting.edition, setting.has_good_numbers()) {
                (0, true) => OPENED_IN_FIRST,
                (1, true) => OPENED_IN_LATER,
                (_, true) => BAD_EDITION,
                (0, false) => BAD_IN_FIRST,
                (1, false) => BAD_IN_LATER,
                (_, false) => BAD_EDITION_AND_MORE,
            });
        }
        if number != 0 {
            self.add(format!("{kind} refused"));
            self.add(refused(number));
            if let (2 | 14 | 15, Err(damage)) = (number, before) {
                self.add_broken(damage);
            }
            return;
        }
        if !matches!(call, Call::MoveFile(..)) {
            self.add(taken(kind));
        }
        match (call, before) {
            (Call::Poll { votes, .. }, Ok(ledger)) => {
                let yes = votes.iter().filter(|&&byte| byte == 1).count();
                let succeeds = yes >= usize::from(ledger.setting.a);
                self.add(if succeeds { CHIT } else { NO_CHIT });
            }
            // The genesis' readings show nothing.
            (Call::Read(_, 0), _) => (),
            (Call::Read(..), _) => match kind {
                "query" | "accepted" => self.add(format!("{kind} is {value}")),
                "lead" => self.add(match value {
                    ..0 => "lead below 0",
                    0 => "lead is 0",
                    1.. => "lead above 0",
                }),
                _ => (),
            },
            _ => (),
        }
    }

    /// Counts how much room a file had, and what was in it. Of words that
    /// have no file it is counted whether any could have been written.
    fn add_write(&mut self, form: Form, buffer: Buffer, number: u32, before: &Verdict) {
        let Ok(ledger) = before else {
            if buffer.room < form.shortest() {
                self.add(hides_short_buffer(number));
            } else if buffer.room >= form.longest() {
                self.add(keeps_long_buffer(number));
            }
            return;
        };
        self.add_room(writes(form), buffer.room, form, file::length(ledger, form));
        if number == 0 {
            self.add_contents(form, ledger, "");
        }
    }

    /// Counts how much room a call had for a file.
    fn add_room(&mut self, kind: &str, room: usize, form: Form, length: usize) {
        for (case, is_met) in ROOMS {
            if is_met(room, form, length) {
                self.add(for_room(kind, case));
            }
        }
    }

    /// Counts what was in a file that was written, or read.
    fn add_contents(&mut self, form: Form, ledger: &Ledger, how: &str) {
        let marks = match form {
            Form::First => &[][..],
            Form::Second => &MARKS,
        };
        for (case, is_met) in FILES.iter().chain(marks) {
            if is_met(ledger) {
                self.add(format!("{how}{case}"));
            }
        }
    }

    /// Counts what was in a file that was read, or why it was bad, and what
    /// words it was read into.
    fn add_read(&mut self, form: Form, file: &[u8], number: u32, before: &Verdict, after: &[u16]) {
        let fault = Fault::of(file, form);
        self.add(match (number, fault, before) {
            (1, Some(_), _) => HIDES_BAD_FILE,
            (1, None, _) => KEEPS_GOOD_FILE,
            (_, None, Ok(_)) => GOOD_ON_SOUND,
            (_, None, Err(_)) => GOOD_ON_DAMAGED,
            (_, Some(_), Ok(_)) => BAD_ON_SOUND,
            (_, Some(_), Err(_)) => BAD_ON_DAMAGED,
        });
        if let Some(fault) = fault {
            self.add(bad_for(fault));
        }
        if number == 0 {
            self.add_contents(form, &ledger_of(after), READ);
        }
    }

    /// Counts why a file was not moved, or how much room it had; and which
    /// refusal came before another.
    pub fn add_move(&mut self, call: &Call, number: u32) {
        let Call::MoveFile(form, file, buffer) = call else {
            unreachable!("it is a move");
        };
        let (kind, to, room) = (call.kind(), form.other(), buffer.room);
        if number != 0 {
            self.add(answered(kind, number));
        } else {
            self.add(taken(kind));
        }
        let fault = Fault::of(file, *form);
        if let Some(fault) = fault {
            self.add(bad_for(fault));
            self.add(unmoved(fault));
            if fault.is_of_marks() {
                self.add(HIDES_OTHER_MARKS);
            }
        }
        match moved(*form, file) {
            Ok(moved) => self.add_room(kind, room, to, moved.len()),
            Err(_) if room < to.shortest() => self.add(hides_short_move(kind, number)),
            Err(_) if room >= to.longest() => self.add(keeps_long_move(kind, number)),
            Err(_) => (),
        }
    }

    /// Counts which cells a call tried, and of what index; or of which length
    /// the index was, and which refusal it came before or after.
    fn add_index(&mut self, asked: Indexing, cells: &Cells, answer: Answer, before: &Verdict) {
        if cells.0.len() != CELLS {
            let hidden = before.as_ref().err().and_then(Damage::lowest);
            self.add(match (answer.0, hidden) {
                (1, _) => HIDES_OTHER_INDEX.to_string(),
                (_, None) => OTHER_INDEX_ON_SOUND.to_string(),
                (_, Some(place)) => hidden_by_index(place.refusal().number()),
            });
            for (case, is_met) in LENGTHS {
                if is_met(cells.0.len()) {
                    self.add(case);
                }
            }
        } else if let Ok(ledger) = before {
            for case in Probe::new(asked, answer, ledger, &cells.0).cases() {
                self.add(case);
            }
        }
    }

    /// Counts what was broken when a call was refused for it.
    fn add_broken(&mut self, damage: &Damage) {
        let sentences: BTreeSet<Broken> = damage.0.iter().map(|&(_, broken)| broken).collect();
        for &broken in &sentences {
            self.add(if damage.0.len() == 1 {
                alone(broken)
            } else {
                among_others(broken)
            });
        }
        for (case, is_met) in CASES {
            if is_met(damage) {
                self.add(case);
            }
        }
    }

    /// Counts what was done to words before a call was refused for it.
    pub fn add_damage(&mut self, kinds: &[Kind]) {
        for &kind in kinds {
            self.add(done(kind));
        }
    }

    /// Counts what a taken call showed of marks, on a ledger that a history
    /// led to or on another.
    pub fn add_events(&mut self, moment: &Moment, is_reached: bool) {
        for event in moment.events(is_reached) {
            self.add(event);
        }
    }

    /// Counts what a taken poll showed of editions.
    pub fn add_turn(&mut self, turn: &Turn) {
        for event in turn.events() {
            self.add(event);
        }
    }

    /// What should have been seen and was not.
    pub fn missing(&self) -> Vec<String> {
        let refusals = Refusal::numbers().map(refused);
        let kinds = Call::KINDS.into_iter().map(taken);
        // p above n - 1 is never alone: no ledger has so many ordinals.
        let by_itself = |broken: &Broken| *broken != Broken::PollsAboveBookings;
        let sentences = (Broken::ALL.into_iter().filter(by_itself).map(alone))
            .chain(Broken::ALL.into_iter().map(among_others));
        let damages = Kind::all().map(done);
        let damaged = [1, 2, 14, 15].into_iter();
        let cases = (CASES.into_iter().map(|(case, _)| case.to_string()))
            .chain(
                (Form::ALL.into_iter())
                    .flat_map(|form| ROOMS.map(|(case, _)| for_room(writes(form), case))),
            )
            .chain(["", READ].into_iter().flat_map(|how| {
                let cases = FILES.into_iter().chain(MARKS);
                cases.map(move |(case, _)| format!("{how}{case}"))
            }))
            .chain(moves())
            .chain(EVENTS.into_iter().map(|(event, _)| event.to_string()))
            .chain(EDITIONS.into_iter().map(|(event, _)| event.to_string()))
            .chain(
                UNREACHED_EDITIONS
                    .into_iter()
                    .map(|(event, _)| event.to_string()),
            )
            .chain(
                UNREACHED_EVENTS
                    .into_iter()
                    .map(|(event, _)| event.to_string()),
            )
            .chain(Fault::ALL.into_iter().map(bad_for))
            .chain(damaged.clone().map(hides_short_buffer))
            .chain(damaged.clone().map(keeps_long_buffer))
            .chain(damaged.skip(1).map(hidden_by_index))
            .chain(PROBES.into_iter().map(|(case, _)| case.to_string()))
            .chain(LENGTHS.into_iter().map(|(case, _)| case.to_string()))
            .chain(Call::of_index().flat_map(|kind| {
                let own = match kind {
                    "index_enter" => Some(27),
                    "index_find" => Some(10),
                    _ => None,
                };
                let numbers = [1, 18, 2, 14, 15].into_iter().chain(own);
                numbers.map(|number| answered(kind, number))
            }));
        let outcomes = [
            CHIT,
            NO_CHIT,
            "query is 0",
            "query is 1",
            "accepted is 0",
            "accepted is 1",
            "lead below 0",
            "lead is 0",
            "lead above 0",
            REACHED,
            UNREACHED,
            LAWS,
            TOLD,
            READ_BACK,
            MARK_LOST,
            HANDED_ON,
            LENGTH_WITHOUT_MARKS,
            OPENED_IN_FIRST,
            OPENED_IN_LATER,
            BAD_EDITION,
            BAD_IN_FIRST,
            BAD_IN_LATER,
            BAD_EDITION_AND_MORE,
            HIDES_BAD_FILE,
            KEEPS_GOOD_FILE,
            GOOD_ON_SOUND,
            GOOD_ON_DAMAGED,
            BAD_ON_SOUND,
            BAD_ON_DAMAGED,
            HIDES_OTHER_INDEX,
            OTHER_INDEX_ON_SOUND,
        ];
        let all = refusals.chain(kinds).chain(sentences).chain(damages);
        self.unseen(all.chain(cases).chain(outcomes.map(String::from)))
    }

    pub fn count(&self, what: &str) -> usize {
        self.seen.get(what).copied().unwrap_or(0)
    }

    /// Those of the list that were never counted.
    pub fn unseen(&self, list: impl Iterator<Item = String>) -> Vec<String> {
        list.filter(|what| !self.seen.contains_key(what)).collect()
    }
}

const CHIT: &str = "poll with a chit";
const NO_CHIT: &str = "poll without a chit";
pub const REACHED: &str = "ledgers reached";
pub const UNREACHED: &str = "ledgers no history reaches";
pub const LAWS: &str = "laws checked";
pub const TOLD: &str = "places told by the damage";
pub const READ_BACK: &str = "files read back";
pub const MARK_LOST: &str = "files read back, a mark lost";
pub const HANDED_ON: &str = "files read back, a mark at a rival";
pub const LENGTH_WITHOUT_MARKS: &str = "words as many as without marks";
const OPENED_IN_FIRST: &str = "open: the first edition";
const OPENED_IN_LATER: &str = "open: the later edition";
const BAD_EDITION: &str = "open: an edition above 1, and nothing else bad";
const BAD_IN_FIRST: &str = "open: bad numbers, the first edition";
const BAD_IN_LATER: &str = "open: bad numbers, the later edition";
const BAD_EDITION_AND_MORE: &str = "open: an edition above 1, and bad numbers";
const HIDES_BAD_FILE: &str = "1 hides 17";
const KEEPS_GOOD_FILE: &str = "1 with a good file";
const GOOD_ON_SOUND: &str = "a good file into sound words";
const GOOD_ON_DAMAGED: &str = "a good file into damaged words";
const BAD_ON_SOUND: &str = "a bad file and sound words";
const BAD_ON_DAMAGED: &str = "a bad file and damaged words";
const HIDES_OTHER_MARKS: &str = "17 for marks, and 19 might be";
const HIDES_OTHER_INDEX: &str = "1 hides 18";
const OTHER_INDEX_ON_SOUND: &str = "18 on sound words";

fn refused(number: u32) -> String {
    format!("refusal {number:>2}")
}

fn taken(kind: &str) -> String {
    format!("{kind} taken")
}

fn alone(broken: Broken) -> String {
    format!("broken alone: {broken:?}")
}

fn among_others(broken: Broken) -> String {
    format!("broken among others: {broken:?}")
}

fn done(kind: Kind) -> String {
    format!("done: {kind:?}")
}

fn hides_short_buffer(number: u32) -> String {
    format!("{number} hides 16")
}

fn keeps_long_buffer(number: u32) -> String {
    format!("{number} with room for any file")
}

fn hidden_by_index(number: u32) -> String {
    format!("18 hides {number}")
}

fn answered(kind: &str, number: u32) -> String {
    format!("{kind} answered {number:>2}")
}

/// Before a case of a file that was written, for one that was read.
const READ: &str = "read ";

/// A case of room, for one kind of call.
fn for_room(kind: &str, case: &str) -> String {
    format!("{kind} {case}")
}

fn writes(form: Form) -> &'static str {
    match form {
        Form::First => "write_first",
        Form::Second => "write_second",
    }
}

pub fn unmoved(fault: Fault) -> String {
    format!("not moved: {fault:?}")
}

fn hides_short_move(kind: &str, number: u32) -> String {
    format!("{kind}: {number} hides 16")
}

fn keeps_long_move(kind: &str, number: u32) -> String {
    format!("{kind}: {number} with room for any file")
}

/// What has to be reached of moves, but for the faults of files.
pub fn moves() -> impl Iterator<Item = String> {
    let kinds = [("move_first", &[17][..]), ("move_second", &[17, 19])];
    let each = kinds.into_iter().flat_map(|(kind, numbers)| {
        let rooms = ROOMS.map(|(case, _)| for_room(kind, case));
        let refusals = numbers.iter().flat_map(move |&number| {
            [
                answered(kind, number),
                hides_short_move(kind, number),
                keeps_long_move(kind, number),
            ]
        });
        let own = [taken(kind), answered(kind, 16)];
        rooms.into_iter().chain(refusals).chain(own)
    });
    each.chain([HIDES_OTHER_MARKS.to_string()])
}

/// A file that was bad, whatever was to be done with it.
fn bad_for(fault: Fault) -> String {
    format!("bad file: {fault:?}")
}

pub fn unread(fault: Fault) -> String {
    format!("not read: {fault:?}")
}

/// A name, and whether damage is a case of it.
type Case = (&'static str, fn(&Damage) -> bool);

/// Which row is named, and what is broken beside it.
const CASES: [Case; 21] = [
    ("damage: two sentences", |damage| damage.0.len() == 2),
    ("damage: three sentences or more", |damage| {
        damage.0.len() > 2
    }),
    ("damage: two sentences in one row", |damage| {
        rows(damage, |_| true) < damage.0.len()
    }),
    ("damage: several records", |damage| {
        rows(damage, is_record) > 1
    }),
    ("damage: several slots", |damage| rows(damage, is_slot) > 1),
    ("2 hides records", |damage| {
        at(damage, is_header) && rows(damage, is_record) > 0
    }),
    ("2 hides slots", |damage| {
        at(damage, is_header) && rows(damage, is_slot) > 0
    }),
    ("14 hides slots", |damage| {
        at(damage, is_record) && rows(damage, is_slot) > 0
    }),
    ("14 names 0", |damage| {
        damage.lowest() == Some(Place::Record(0))
    }),
    ("14 names the genesis for its confidence", |damage| {
        is_named_for(damage, Broken::ConfidenceAboveChits)
            && damage.lowest() == Some(Place::Record(0))
    }),
    ("14 names a row above 0 for its confidence", |damage| {
        is_named_for(damage, Broken::ConfidenceAboveChits)
            && damage.lowest() != Some(Place::Record(0))
    }),
    ("14 names a record from n on", |damage| {
        is_named_for(damage, Broken::UnusedRecordNotZero)
    }),
    ("14 names 511", |damage| {
        damage.lowest() == Some(Place::Record(BOOKINGS - 1))
    }),
    ("14 names n below 512 for an ordinal", |damage| {
        is_named_for(damage, Broken::OrdinalMissing)
            && damage.lowest() != Some(Place::Record(BOOKINGS))
    }),
    ("14 names 512", |damage| {
        damage.lowest() == Some(Place::Record(BOOKINGS))
    }),
    ("14 names the genesis for its mark", |damage| {
        is_named_for(damage, Broken::GenesisUnmarked)
    }),
    ("14 names the second mark of a slot", |damage| {
        is_named_for(damage, Broken::MarkTwice)
    }),
    ("damage: three marks in a slot, or two in two", |damage| {
        let twice = |breach: &&(Place, Broken)| breach.1 == Broken::MarkTwice;
        damage.0.iter().filter(twice).count() > 1
    }),
    ("15 names 0", |damage| {
        damage.lowest() == Some(Place::Slot(0))
    }),
    ("15 names a slot between", |damage| {
        at(damage, is_slot)
            && damage.lowest() > Some(Place::Slot(0))
            && damage.lowest() < Some(Place::Slot(SLOTS - 1))
    }),
    ("15 names 255", |damage| {
        damage.lowest() == Some(Place::Slot(SLOTS - 1))
    }),
];

fn is_header(place: Place) -> bool {
    place == Place::Header
}

fn is_record(place: Place) -> bool {
    matches!(place, Place::Record(_))
}

fn is_slot(place: Place) -> bool {
    matches!(place, Place::Slot(_))
}

/// Is the place named one of these?
fn at(damage: &Damage, is_meant: fn(Place) -> bool) -> bool {
    damage.lowest().is_some_and(is_meant)
}

/// Does the row that is named break this sentence and no other?
fn is_named_for(damage: &Damage, broken: Broken) -> bool {
    let named = damage
        .0
        .iter()
        .filter(|breach| Some(breach.0) == damage.lowest());
    named.map(|breach| breach.1).eq([broken])
}

/// How many of these rows are damaged.
fn rows(damage: &Damage, is_meant: fn(Place) -> bool) -> usize {
    let places: BTreeSet<Place> = damage.0.iter().map(|&(place, _)| place).collect();
    places.into_iter().filter(|&place| is_meant(place)).count()
}

impl Display for Tally {
    fn fmt(&self, f: &mut Formatter) -> fmt::Result {
        for (what, count) in &self.seen {
            writeln!(f, "{count:>9}  {what}")?;
        }
        Ok(())
    }
}

#[cfg(test)]
mod tests {
    use super::*;
    use crate::grow::words_of;
    use second::index::EMPTY;
    use second::setting::Setting;
    use Place::*;

    /// Damage with these breaches is a case of exactly these.
    fn meets(breaches: &[(Place, Broken)], cases: &[&'static str]) -> Vec<&'static str> {
        let damage = Damage(breaches.iter().copied().collect());
        let met = CASES.iter().filter(|(_, is_met)| is_met(&damage));
        let met: Vec<&str> = met.map(|(case, _)| *case).collect();
        assert_eq!(met, cases, "{breaches:?}");
        met
    }

    #[test]
    fn each_case_is_what_its_name_says() {
        let met = [
            meets(&[(Header, Broken::SettingBad)], &[]),
            meets(
                &[
                    (Header, Broken::SettingBad),
                    (Header, Broken::HeaderRestNotZero),
                ],
                &["damage: two sentences", "damage: two sentences in one row"],
            ),
            meets(
                &[
                    (Header, Broken::SettingBad),
                    (Record(0), Broken::ConfidenceAboveChits),
                ],
                &["damage: two sentences", "2 hides records"],
            ),
            meets(
                &[
                    (Header, Broken::PollsAboveBookings),
                    (Record(512), Broken::OrdinalMissing),
                    (Slot(0), Broken::CountNotTrue),
                ],
                &[
                    "damage: three sentences or more",
                    "2 hides records",
                    "2 hides slots",
                ],
            ),
            meets(&[(Record(0), Broken::GenesisState)], &["14 names 0"]),
            meets(
                &[(Record(0), Broken::ConfidenceAboveChits)],
                &["14 names 0", "14 names the genesis for its confidence"],
            ),
            meets(
                &[(Record(3), Broken::ConfidenceAboveChits)],
                &["14 names a row above 0 for its confidence"],
            ),
            meets(
                &[(Record(0), Broken::GenesisUnmarked)],
                &["14 names 0", "14 names the genesis for its mark"],
            ),
            meets(
                &[(Record(3), Broken::MarkTwice)],
                &["14 names the second mark of a slot"],
            ),
            meets(
                &[
                    (Record(3), Broken::MarkTwice),
                    (Record(4), Broken::MarkTwice),
                ],
                &[
                    "damage: two sentences",
                    "damage: several records",
                    "14 names the second mark of a slot",
                    "damage: three marks in a slot, or two in two",
                ],
            ),
            // It breaks another rule too, and would be named without this.
            meets(
                &[
                    (Record(3), Broken::NoParent),
                    (Record(3), Broken::ConfidenceAboveChits),
                ],
                &["damage: two sentences", "damage: two sentences in one row"],
            ),
            meets(
                &[
                    (Record(9), Broken::NameTwice),
                    (Record(12), Broken::NameTwice),
                ],
                &["damage: two sentences", "damage: several records"],
            ),
            meets(
                &[(Record(9), Broken::UnusedRecordNotZero)],
                &["14 names a record from n on"],
            ),
            meets(&[(Record(511), Broken::NameTwice)], &["14 names 511"]),
            meets(
                &[(Record(511), Broken::OrdinalMissing)],
                &["14 names 511", "14 names n below 512 for an ordinal"],
            ),
            meets(
                &[
                    (Record(512), Broken::OrdinalMissing),
                    (Slot(0), Broken::CountNotTrue),
                ],
                &["damage: two sentences", "14 hides slots", "14 names 512"],
            ),
            meets(&[(Slot(0), Broken::CountNotTrue)], &["15 names 0"]),
            meets(
                &[
                    (Slot(7), Broken::CountNotTrue),
                    (Slot(255), Broken::EmptySlotFilled),
                ],
                &[
                    "damage: two sentences",
                    "damage: several slots",
                    "15 names a slot between",
                ],
            ),
            meets(&[(Slot(255), Broken::EmptySlotFilled)], &["15 names 255"]),
        ];
        for (case, _) in CASES {
            assert!(met.iter().flatten().any(|met| *met == case), "{case}");
        }
    }

    fn is_missing(tally: &Tally, what: &str) -> bool {
        tally.missing().iter().any(|missing| missing == what)
    }

    /// What a run never reached is told, and what it reached is not.
    #[test]
    fn what_was_not_reached_is_missing() {
        let mut tally = Tally::default();
        let call = Call::Read(second::ledger::Reading::Size, 0);
        let damage = Damage([(Slot(255), Broken::EmptySlotFilled)].into());
        let reached = [
            "refusal 15",
            "broken alone: EmptySlotFilled",
            "15 names 255",
        ];
        for what in reached {
            assert!(is_missing(&tally, what));
        }
        tally.add_call(&call, (15, 255), &Err(damage), &[]);
        for what in reached {
            assert!(!is_missing(&tally, what));
        }
        for what in [
            "refusal 14",
            "broken among others: EmptySlotFilled",
            "done: Breaks(EmptySlotFilled)",
            "14 names 512",
        ] {
            assert!(is_missing(&tally, what));
        }
    }

    /// The same of a file: how much room it had, what was in it, and which
    /// refusal came before.
    #[test]
    fn what_was_not_written_or_read_is_missing() {
        let opened = || Ledger::open(Setting::PAPER).expect("it is good");
        let ledger = || Ok(opened());
        let damage = || Err(Damage([(Header, Broken::SettingBad)].into()));
        type Step = (usize, Answer, Verdict, &'static [&'static str]);
        let steps: [Step; 5] = [
            (
                14,
                (0, 14),
                ledger(),
                &["write_first room: just enough", "file: the genesis alone"],
            ),
            (
                13,
                (16, 0),
                ledger(),
                &["refusal 16", "write_first room: one byte too little"],
            ),
            (13, (2, 0), damage(), &["refusal  2", "2 hides 16"]),
            (12_267, (2, 0), damage(), &[]),
            (12_268, (2, 0), damage(), &["2 with room for any file"]),
        ];
        let mut tally = Tally::default();
        for (room, answer, before, reached) in steps {
            for what in reached {
                assert!(is_missing(&tally, what), "{what}");
            }
            let call = Call::WriteFile(Form::First, Buffer { room, seed: 0 });
            tally.add_call(&call, answer, &before, &[]);
            for what in reached {
                assert!(!is_missing(&tally, what), "{what}");
            }
        }
        type Reading = (&'static [u8], Answer, Verdict, &'static [&'static str]);
        const FILE: [u8; 14] = [0, 4, 0, 3, 0, 2, 0, 1, 0, 2, 0, 0, 0, 0];
        let readings: [Reading; 5] = [
            (
                &FILE,
                (0, 0),
                damage(),
                &[
                    "a good file into damaged words",
                    "read file: the genesis alone",
                    "read_first taken",
                ],
            ),
            (
                &FILE[..13],
                (17, 0),
                ledger(),
                &[
                    "refusal 17",
                    "a bad file and sound words",
                    "bad file: Short",
                ],
            ),
            (&[1; 14], (1, 0), damage(), &["refusal  1", "1 hides 17"]),
            (&FILE, (1, 0), damage(), &["1 with a good file"]),
            (
                &[0; 14],
                (17, 0),
                damage(),
                &["a bad file and damaged words"],
            ),
        ];
        for (file, answer, before, reached) in readings {
            for what in reached {
                assert!(is_missing(&tally, what), "{what}");
            }
            let call = Call::ReadFile(Form::First, file.to_vec());
            tally.add_call(&call, answer, &before, &words_of(&opened()));
            for what in reached {
                assert!(!is_missing(&tally, what), "{what}");
            }
        }
        for what in [
            "15 hides 16",
            "a good file into sound words",
            "bad file: Outcome",
            "read file: the longest",
            "14 with room for any file",
            "write_first room: none",
            "write_second room: just enough",
            "file: the longest",
            "marks: somebody",
            "read marks: somebody",
        ] {
            assert!(is_missing(&tally, what), "{what}");
        }
    }

    /// The same of a move: why there was none, and how much room there was.
    #[test]
    fn what_was_not_moved_is_missing() {
        const FIRST: [u8; 14] = [0, 4, 0, 3, 0, 2, 0, 1, 0, 2, 0, 0, 0, 0];
        let second = |marks: &[u8]| [&FIRST[..], marks].concat();
        type Step = (Form, Vec<u8>, usize, Answer, &'static [&'static str]);
        let steps: [Step; 6] = [
            (
                Form::First,
                FIRST.to_vec(),
                18,
                (0, 18),
                &["move_first taken", "move_first room: just enough"],
            ),
            (
                Form::First,
                FIRST.to_vec(),
                17,
                (16, 0),
                &[
                    "move_first answered 16",
                    "move_first room: one byte too little",
                ],
            ),
            (
                Form::First,
                FIRST[..13].to_vec(),
                17,
                (17, 0),
                &["move_first: 17 hides 16", "move_first answered 17"],
            ),
            (
                Form::Second,
                second(&[0, 1, 0, 0]),
                14,
                (0, 14),
                &["move_second taken", "move_second room: just enough"],
            ),
            (
                Form::Second,
                second(&[0, 0]),
                12_268,
                (17, 0),
                &[
                    "move_second: 17 with room for any file",
                    "17 for marks, and 19 might be",
                ],
            ),
            // Booking 1 is marked, and no poll was made.
            (
                Form::Second,
                [
                    &FIRST[..10],
                    &[0, 1, 0, 0, 0, 0, 0, 0, 0, 1, 0, 7, 0, 1, 0, 0, 0, 0],
                    &[0, 2, 0, 0, 0, 1],
                ]
                .concat(),
                13,
                (19, 0),
                &["move_second: 19 hides 16", "move_second answered 19"],
            ),
        ];
        let mut tally = Tally::default();
        for (form, file, room, answer, reached) in steps {
            for what in reached {
                assert!(is_missing(&tally, what), "{what}");
            }
            let call = Call::MoveFile(form, file, Buffer { room, seed: 0 });
            tally.add_call(&call, answer, &Err(Damage::default()), &[]);
            for what in reached {
                assert!(!is_missing(&tally, what), "{what}");
            }
        }
        for what in [
            "move_first room: none",
            "move_second: 17 hides 16",
            "move_second: 19 with room for any file",
            "move_second answered 16",
        ] {
            assert!(is_missing(&tally, what), "{what}");
        }
    }

    /// The same of an index: what was tried of it, its length, and which
    /// refusal came before or after.
    #[test]
    fn what_was_not_indexed_is_missing() {
        let ledger = || Ok(Ledger::open(Setting::PAPER).expect("it is good"));
        let damage = || Err(Damage([(Record(0), Broken::GenesisState)].into()));
        type Step = (Indexing, usize, Answer, Verdict, &'static [&'static str]);
        let steps: [Step; 6] = [
            (
                Indexing::Find(0),
                CELLS,
                (10, 0),
                ledger(),
                &[
                    "not found at home",
                    "index: empty",
                    "index_find answered 10",
                ],
            ),
            (
                Indexing::Enter,
                CELLS,
                (0, 0),
                ledger(),
                &["index_enter taken", "entered at home"],
            ),
            (
                Indexing::Build,
                CELLS,
                (14, 0),
                damage(),
                &["index_build answered 14"],
            ),
            (
                Indexing::Build,
                1023,
                (18, 0),
                ledger(),
                &["cells: one too few", "18 on sound words", "refusal 18"],
            ),
            (
                Indexing::Find(0),
                1025,
                (18, 0),
                damage(),
                &["18 hides 14", "index_find answered 18"],
            ),
            (
                Indexing::Enter,
                0,
                (1, 0),
                Err(Damage::default()),
                &["1 hides 18", "index_enter answered  1", "cells: none"],
            ),
        ];
        let mut tally = Tally::default();
        for (asked, cells, answer, before, reached) in steps {
            for what in reached {
                assert!(is_missing(&tally, what), "{what}");
            }
            let call = Call::Index(asked, Cells(vec![EMPTY; cells]));
            tally.add_call(&call, answer, &before, &[]);
            for what in reached {
                assert!(!is_missing(&tally, what), "{what}");
            }
        }
        for what in [
            "refusal 27",
            "index_enter answered 27",
            "index_build answered  1",
            "18 hides 2",
            "18 hides 15",
            "found at home",
            "entered twice",
            "cells: right by their low bits",
        ] {
            assert!(is_missing(&tally, what), "{what}");
        }
    }
}

//! Which sentences of soundness a workspace breaks, and where.
//!
//! Every row is judged by itself: the header, each record and each slot
//! entry gives the list of the sentences that it breaks. What a row alone
//! cannot show (who held a name first, how many chits there are) is gathered
//! from the words as they stand, damaged or not. The refusal then names the
//! lowest place where anything is broken.

use crate::layout::*;
use crate::ledger::GENESIS;
use crate::refusal::Refusal;
use crate::setting::Setting;
use std::collections::{BTreeSet, HashMap};

/// The sentences of soundness, each named by what breaks it.
#[derive(Clone, Copy, Debug, PartialEq, Eq, PartialOrd, Ord)]
pub enum Broken {
    // the header
    BookingsOutside,
    SettingBad,
    EditionOutside,
    PollsAboveBookings,
    HeaderRestNotZero,
    // record 0
    GenesisName,
    GenesisSlot,
    GenesisParents,
    GenesisState,
    GenesisOrdinal,
    GenesisUnmarked,
    // every other record below n
    NameTwice,
    SlotOutside,
    NoParent,
    GapInParents,
    ParentTwice,
    ParentNotLower,
    StateOutside,
    WaitingWithOrdinal,
    PolledWithoutOrdinal,
    OrdinalAbovePolls,
    OrdinalTwice,
    OrdinalMissing,
    MarkOutside,
    MarkTwice,
    // records from n on
    UnusedRecordNotZero,
    // slot entries
    EmptySlotFilled,
    CountNotTrue,
    PreferredElsewhere,
    LastElsewhere,
    // the bound by chits
    ConfidenceAboveChits,
    CounterAboveChits,
}

impl Broken {
    pub const ALL: [Broken; 32] = [
        Broken::BookingsOutside,
        Broken::SettingBad,
        Broken::EditionOutside,
        Broken::PollsAboveBookings,
        Broken::HeaderRestNotZero,
        Broken::GenesisName,
        Broken::GenesisSlot,
        Broken::GenesisParents,
        Broken::GenesisState,
        Broken::GenesisOrdinal,
        Broken::GenesisUnmarked,
        Broken::NameTwice,
        Broken::SlotOutside,
        Broken::NoParent,
        Broken::GapInParents,
        Broken::ParentTwice,
        Broken::ParentNotLower,
        Broken::StateOutside,
        Broken::WaitingWithOrdinal,
        Broken::PolledWithoutOrdinal,
        Broken::OrdinalAbovePolls,
        Broken::OrdinalTwice,
        Broken::OrdinalMissing,
        Broken::MarkOutside,
        Broken::MarkTwice,
        Broken::UnusedRecordNotZero,
        Broken::EmptySlotFilled,
        Broken::CountNotTrue,
        Broken::PreferredElsewhere,
        Broken::LastElsewhere,
        Broken::ConfidenceAboveChits,
        Broken::CounterAboveChits,
    ];
}

/// Where a sentence is broken. Their order is that of the refusals: the
/// header before the records, these before the slots, each from below.
#[derive(Clone, Copy, Debug, PartialEq, Eq, PartialOrd, Ord)]
pub enum Place {
    Header,
    /// A record's number. On a full ledger n itself is 512 and no record's,
    /// and a missing ordinal is charged to it all the same.
    Record(usize),
    Slot(usize),
}

impl Place {
    pub fn refusal(self) -> Refusal {
        match self {
            Place::Header => Refusal::BrokenHeader,
            Place::Record(row) => Refusal::BrokenRecord(row),
            Place::Slot(row) => Refusal::BrokenEntry(row),
        }
    }
}

/// Everything that is broken in a workspace, each sentence at its place.
#[derive(Clone, Debug, Default, PartialEq, Eq)]
pub struct Damage(pub BTreeSet<(Place, Broken)>);

impl Damage {
    /// The place that the refusal names, if anything is broken.
    pub fn lowest(&self) -> Option<Place> {
        self.0.first().map(|&(place, _)| place)
    }

    fn add(&mut self, place: Place, broken: Vec<Broken>) {
        self.0.extend(broken.into_iter().map(|b| (place, b)));
    }
}

/// All that is broken in the words; their number is the caller's to judge.
/// Where n is no number of bookings nobody can say what a record has to be,
/// and the header alone is judged.
pub fn judge(ws: &[u16]) -> Damage {
    let mut damage = Damage::default();
    damage.add(Place::Header, judge_header(ws));
    let n = usize::from(ws[N]);
    if !is_bookings(n) {
        return damage;
    }
    let ledger = Together::of(ws, n);
    for b in 0..n {
        damage.add(Place::Record(b), ledger.judge_record(b));
    }
    for b in n..BOOKINGS {
        damage.add(
            Place::Record(b),
            judge_unused(&ws[record(b)..record(b + 1)]),
        );
    }
    damage.add(Place::Record(n), ledger.judge_missing());
    for s in 0..SLOTS {
        damage.add(Place::Slot(s), ledger.judge_slot(s));
    }
    damage
}

/// Those of the sentences that do not hold.
fn not_held<const COUNT: usize>(sentences: [(bool, Broken); COUNT]) -> Vec<Broken> {
    let is_broken = |&(holds, _): &(bool, Broken)| !holds;
    let broken = sentences.into_iter().filter(is_broken);
    broken.map(|(_, broken)| broken).collect()
}

/// From the genesis alone to a full ledger.
fn is_bookings(n: usize) -> bool {
    (1..=BOOKINGS).contains(&n)
}

fn judge_header(ws: &[u16]) -> Vec<Broken> {
    let (n, polls) = (ws[N], ws[P]);
    let setting = Setting::of_words(ws);
    let rest = &ws[REST..HEADER_WORDS];
    not_held([
        (is_bookings(usize::from(n)), Broken::BookingsOutside),
        (setting.has_good_numbers(), Broken::SettingBad),
        (setting.has_edition(), Broken::EditionOutside),
        (polls < n, Broken::PollsAboveBookings),
        (is_zero(rest), Broken::HeaderRestNotZero),
    ])
}

fn judge_unused(words: &[u16]) -> Vec<Broken> {
    not_held([(is_zero(words), Broken::UnusedRecordNotZero)])
}

fn is_zero(words: &[u16]) -> bool {
    words.iter().all(|&word| word == 0)
}

/// What the records below n show together.
struct Together<'a> {
    ws: &'a [u16],
    /// The lowest holder of each name, and of each ordinal above 0.
    by_name: HashMap<u64, usize>,
    by_ordinal: HashMap<u16, usize>,
    /// How many records have state 2.
    chits: u16,
    /// The bookings of each slot. One whose slot is none of ours is in none.
    members: Vec<Vec<usize>>,
    /// The lowest of a slot whose mark is 1.
    marked: HashMap<u16, usize>,
}

impl Together<'_> {
    fn of(ws: &[u16], n: usize) -> Together<'_> {
        let mut together = Together {
            ws,
            by_name: HashMap::with_capacity(n),
            by_ordinal: HashMap::new(),
            chits: 0,
            members: vec![Vec::new(); SLOTS],
            marked: HashMap::new(),
        };
        for b in 0..n {
            let words = &ws[record(b)..record(b + 1)];
            let name = name_of(&words[NAME..SLOT]);
            together.by_name.entry(name).or_insert(b);
            if words[ORDINAL] != 0 {
                together.by_ordinal.entry(words[ORDINAL]).or_insert(b);
            }
            if words[STATE] == 2 {
                together.chits += 1;
            }
            if let Some(members) = together.members.get_mut(usize::from(words[SLOT])) {
                members.push(b);
                if words[MARK] == 1 {
                    together.marked.entry(words[SLOT]).or_insert(b);
                }
            }
        }
        together
    }

    /// A record below n.
    fn judge_record(&self, b: usize) -> Vec<Broken> {
        let words = &self.ws[record(b)..record(b + 1)];
        let mut broken = if b == GENESIS {
            judge_genesis(words)
        } else {
            self.judge_booking(b, words)
        };
        let ordinal = words[ORDINAL];
        let is_first = ordinal == 0 || self.by_ordinal[&ordinal] == b;
        let lowest_marked = self.marked.get(&words[SLOT]);
        let is_only_mark = words[MARK] != 1 || lowest_marked.is_none_or(|&lowest| lowest == b);
        broken.extend(not_held([
            (ordinal <= self.ws[P], Broken::OrdinalAbovePolls),
            (is_first, Broken::OrdinalTwice),
            (words[MARK] <= 1, Broken::MarkOutside),
            (is_only_mark, Broken::MarkTwice),
            (
                words[CONFIDENCE] <= self.chits,
                Broken::ConfidenceAboveChits,
            ),
        ]));
        broken
    }

    /// A record below n that is not the genesis.
    fn judge_booking(&self, b: usize, words: &[u16]) -> Vec<Broken> {
        let name = name_of(&words[NAME..SLOT]);
        let slot = usize::from(words[SLOT]);
        let (state, ordinal) = (words[STATE], words[ORDINAL]);
        let places = &words[PARENT..STATE];
        let parents: Vec<u16> = places.iter().copied().filter(|&p| p != UNUSED).collect();
        let is_repeated = |i: usize| parents[..i].contains(&parents[i]);
        let is_gap = |pair: &[u16]| pair[0] == UNUSED && pair[1] != UNUSED;
        not_held([
            (self.by_name[&name] == b, Broken::NameTwice),
            ((1..SLOTS).contains(&slot), Broken::SlotOutside),
            (!parents.is_empty(), Broken::NoParent),
            (!places.windows(2).any(is_gap), Broken::GapInParents),
            (!(0..parents.len()).any(is_repeated), Broken::ParentTwice),
            (
                parents.iter().all(|&p| usize::from(p) < b),
                Broken::ParentNotLower,
            ),
            (state <= 2, Broken::StateOutside),
            (state != 0 || ordinal == 0, Broken::WaitingWithOrdinal),
            (state == 0 || ordinal != 0, Broken::PolledWithoutOrdinal),
        ])
    }

    /// Is there a poll that no record holds?
    fn judge_missing(&self) -> Vec<Broken> {
        let is_held = |ordinal| self.by_ordinal.contains_key(&ordinal);
        not_held([((1..=self.ws[P]).all(is_held), Broken::OrdinalMissing)])
    }

    /// A slot entry. The records say which bookings the slot has.
    fn judge_slot(&self, s: usize) -> Vec<Broken> {
        let words = &self.ws[entry(s)..entry(s + 1)];
        let members = &self.members[s];
        let is_member = |word: u16| members.contains(&usize::from(word));
        let mut broken = if members.is_empty() {
            not_held([(words == EMPTY_ENTRY, Broken::EmptySlotFilled)])
        } else {
            not_held([
                (
                    usize::from(words[COUNT]) == members.len(),
                    Broken::CountNotTrue,
                ),
                (is_member(words[PREFERRED]), Broken::PreferredElsewhere),
                (is_member(words[LAST]), Broken::LastElsewhere),
            ])
        };
        let is_bounded = words[COUNTER] <= self.chits;
        broken.extend(not_held([(is_bounded, Broken::CounterAboveChits)]));
        broken
    }
}

/// Record 0: nothing but its confidence is free.
fn judge_genesis(words: &[u16]) -> Vec<Broken> {
    let places = &words[PARENT..STATE];
    not_held([
        (is_zero(&words[NAME..SLOT]), Broken::GenesisName),
        (words[SLOT] == 0, Broken::GenesisSlot),
        (places.iter().all(|&p| p == UNUSED), Broken::GenesisParents),
        (words[STATE] == 1, Broken::GenesisState),
        (words[ORDINAL] == 0, Broken::GenesisOrdinal),
        (words[MARK] == 1, Broken::GenesisUnmarked),
    ])
}

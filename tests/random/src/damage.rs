//! Words that break sentences of soundness, and the place that a refusal
//! has to name for it.
//!
//! Damage is done to sound words and tells its place by what it did: nothing
//! here asks the second program what is broken. Where it can be done, damage
//! meant for a sentence breaks no other, so that a test of soundness that
//! forgets the sentence is found out.

use crate::prng::Prng;
use second::layout::*;
use second::sound::{Broken, Place};

/// A way to damage sound words.
#[derive(Clone, Copy, Debug, PartialEq, Eq)]
pub enum Kind {
    /// The sentence is broken.
    Breaks(Broken),
    /// Three records hold one name.
    NameThrice,
    /// A record takes the name of a higher one, which is charged with it.
    NameOfHigher,
    /// Three records hold one ordinal.
    OrdinalThrice,
    /// Two records hold one ordinal above p: both break the rule.
    OrdinalAboveTwice,
    /// A slot without marks has two.
    MarkPair,
    /// A booking gets a mark whose slot has one at a higher number, which is
    /// charged with it.
    MarkOfHigher,
    /// Three bookings of a slot have marks.
    MarkThrice,
    /// A record from n on has a mark, and nothing else.
    MarkUnused,
    /// A chit's state is lost. What counted it is above the bound then, and
    /// that is the genesis wherever a history led.
    ChitLost,
    /// n is one more, and the record there all zero.
    BookingMore,
    /// n is one less, and the record there is not.
    BookingFewer,
    /// An entry calls itself empty although its slot has bookings.
    SlotEmptied,
    /// A record is in another slot than the entries say.
    BookingMoved,
}

impl Kind {
    /// Those that break a rule of the header, a record, a slot entry.
    pub const HEADER: [Kind; 5] = [
        Kind::Breaks(Broken::BookingsOutside),
        Kind::Breaks(Broken::SettingBad),
        Kind::Breaks(Broken::EditionOutside),
        Kind::Breaks(Broken::PollsAboveBookings),
        Kind::Breaks(Broken::HeaderRestNotZero),
    ];
    pub const RECORDS: [Kind; 33] = [
        Kind::Breaks(Broken::GenesisName),
        Kind::Breaks(Broken::GenesisSlot),
        Kind::Breaks(Broken::GenesisParents),
        Kind::Breaks(Broken::GenesisState),
        Kind::Breaks(Broken::GenesisOrdinal),
        Kind::Breaks(Broken::GenesisUnmarked),
        Kind::Breaks(Broken::NameTwice),
        Kind::Breaks(Broken::SlotOutside),
        Kind::Breaks(Broken::NoParent),
        Kind::Breaks(Broken::GapInParents),
        Kind::Breaks(Broken::ParentTwice),
        Kind::Breaks(Broken::ParentNotLower),
        Kind::Breaks(Broken::StateOutside),
        Kind::Breaks(Broken::WaitingWithOrdinal),
        Kind::Breaks(Broken::PolledWithoutOrdinal),
        Kind::Breaks(Broken::OrdinalAbovePolls),
        Kind::Breaks(Broken::OrdinalTwice),
        Kind::Breaks(Broken::OrdinalMissing),
        Kind::Breaks(Broken::MarkOutside),
        Kind::Breaks(Broken::MarkTwice),
        Kind::Breaks(Broken::UnusedRecordNotZero),
        Kind::Breaks(Broken::ConfidenceAboveChits),
        Kind::NameThrice,
        Kind::NameOfHigher,
        Kind::OrdinalThrice,
        Kind::OrdinalAboveTwice,
        Kind::MarkPair,
        Kind::MarkOfHigher,
        Kind::MarkThrice,
        Kind::MarkUnused,
        Kind::ChitLost,
        Kind::BookingMore,
        Kind::BookingFewer,
    ];
    pub const SLOTS: [Kind; 7] = [
        Kind::Breaks(Broken::EmptySlotFilled),
        Kind::Breaks(Broken::CountNotTrue),
        Kind::Breaks(Broken::PreferredElsewhere),
        Kind::Breaks(Broken::LastElsewhere),
        Kind::Breaks(Broken::CounterAboveChits),
        Kind::SlotEmptied,
        Kind::BookingMoved,
    ];

    /// Those that have a place only where a slot has several bookings, and
    /// mostly a mark: without a share of their own they would be rare.
    const MARKS: [Kind; 4] = [
        Kind::Breaks(Broken::MarkTwice),
        Kind::MarkPair,
        Kind::MarkOfHigher,
        Kind::MarkThrice,
    ];

    pub fn all() -> impl Iterator<Item = Kind> {
        (Kind::HEADER.into_iter())
            .chain(Kind::RECORDS)
            .chain(Kind::SLOTS)
    }

    /// Does this damage stay what it is whatever steady damage is done
    /// beside it? Then the lowest of their places is named. What writes
    /// states or ordinals, or moves names and bookings about, may mend other
    /// damage or break more; so may a good mark in a row that is not charged.
    fn is_steady(self) -> bool {
        match self {
            Kind::Breaks(broken) => !matches!(
                broken,
                Broken::GenesisOrdinal
                    | Broken::StateOutside
                    | Broken::WaitingWithOrdinal
                    | Broken::PolledWithoutOrdinal
                    | Broken::OrdinalAbovePolls
                    | Broken::OrdinalTwice
                    | Broken::OrdinalMissing
            ),
            Kind::NameThrice | Kind::MarkUnused | Kind::SlotEmptied => true,
            _ => false,
        }
    }

    fn any(prng: &mut Prng) -> Kind {
        let all: Vec<Kind> = Kind::all().collect();
        prng.pick(&all)
    }

    /// Header, records and slots each have their share.
    fn any_by_part(prng: &mut Prng) -> Kind {
        let part = prng.weigh(&[
            (1, &Kind::HEADER[..]),
            (3, &Kind::RECORDS[..]),
            (2, &Kind::SLOTS[..]),
        ]);
        prng.pick(part)
    }
}

/// A damaged copy of sound words.
pub struct Damaged {
    pub words: Vec<u16>,
    /// What was done; words changed at random are not among it.
    pub kinds: Vec<Kind>,
    /// What the refusal has to name, where that is known.
    pub place: Option<Place>,
}

impl Damaged {
    /// Mostly one kind, often two or three at once, at times words changed at
    /// random instead or beside. What is changed at random may stay sound.
    pub fn any(prng: &mut Prng, sound: &[u16]) -> Damaged {
        let (kinds, changes) = prng.weigh(&[
            (12, (1, 0)),
            (3, (2, 0)),
            (2, (3, 0)),
            (1, (1, 1)),
            (1, (0, 1)),
            (1, (0, 3)),
        ]);
        let mut damaged = if kinds == 1 {
            Damaged::by_one(prng, sound)
        } else {
            let kinds: Vec<Kind> = (0..kinds).map(|_| Kind::any_by_part(prng)).collect();
            Damaged::by(prng, sound, &kinds)
        };
        for _ in 0..changes {
            damaged.place = None;
            change_any_word(prng, &mut damaged.words);
        }
        damaged
    }

    /// By one kind that these words have a place for.
    fn by_one(prng: &mut Prng, sound: &[u16]) -> Damaged {
        loop {
            // Only a full ledger has the number 512 to be named.
            let kind = if sound[N] == BOOKINGS as u16 && prng.chance(30) {
                Kind::Breaks(Broken::OrdinalMissing)
            } else if prng.chance(10) {
                prng.pick(&Kind::MARKS)
            } else {
                Kind::any(prng)
            };
            let damaged = Damaged::by(prng, sound, &[kind]);
            if !damaged.kinds.is_empty() {
                return damaged;
            }
        }
    }

    /// By each of these kinds that the words have a place for. Each is done to
    /// the sound words; where two write the same word, the later one stays,
    /// and a name is written whole.
    pub fn by(prng: &mut Prng, sound: &[u16], kinds: &[Kind]) -> Damaged {
        let mut words = sound.to_vec();
        let (mut done, mut places) = (Vec::new(), Vec::new());
        for &kind in kinds {
            let mut alone = sound.to_vec();
            let Some(place) = damage(prng, &mut alone, kind) else {
                continue;
            };
            for at in (0..WORDS).filter(|&at| alone[at] != sound[at]) {
                words[at] = alone[at];
            }
            for b in 0..BOOKINGS {
                let name = record(b) + NAME..record(b) + SLOT;
                if alone[name.clone()] != sound[name.clone()] {
                    words[name.clone()].copy_from_slice(&alone[name]);
                }
            }
            done.push(kind);
            places.push(place);
        }
        let is_known = done.len() == 1 || done.iter().all(|kind| kind.is_steady());
        Damaged {
            words,
            kinds: done,
            place: places.into_iter().min().filter(|_| is_known),
        }
    }
}

/// Sound words about to be damaged.
struct Target<'a> {
    prng: &'a mut Prng,
    ws: &'a mut [u16],
    n: usize,
    p: u16,
}

/// Damages sound words, and tells the place that has to be named. Some
/// ledgers have no place for some damage (one without bookings has no second
/// name): then nothing is done.
pub fn damage(prng: &mut Prng, ws: &mut [u16], kind: Kind) -> Option<Place> {
    let (n, p) = (usize::from(ws[N]), ws[P]);
    Target { prng, ws, n, p }.apply(kind)
}

/// Changes one word anywhere, to something near or something far. The words
/// may stay sound.
fn change_any_word(prng: &mut Prng, ws: &mut [u16]) {
    let n = usize::from(ws[N]).min(BOOKINGS);
    let at = match prng.below(8) {
        0 => prng.below(HEADER_WORDS),
        1..=3 => record(prng.below(n.max(1))) + prng.below(RECORD_WORDS),
        4 => record(0) + prng.below(BOOKINGS * RECORD_WORDS),
        5 => entry(prng.below(SLOTS)) + prng.below(ENTRY_WORDS),
        _ => {
            // The entry of a slot that has bookings.
            let s = ws[record(prng.below(n.max(1))) + SLOT];
            entry(usize::from(s).min(SLOTS - 1)) + prng.below(ENTRY_WORDS)
        }
    };
    ws[at] = match prng.below(6) {
        0 => ws[at].wrapping_add(1),
        1 => ws[at].wrapping_sub(1),
        2 => ws[at] ^ (1 << prng.below(16)),
        3 => prng.pick(&[0, 1, 2, 3, UNUSED]),
        4 => prng.word(0, 520),
        _ => prng.draw() as u16,
    };
}

impl Target<'_> {
    fn apply(&mut self, kind: Kind) -> Option<Place> {
        match kind {
            Kind::Breaks(broken) => self.breaks(broken),
            Kind::NameThrice => {
                let [first, second, third] = self.records(0)?;
                self.copy_name(first, second);
                self.copy_name(first, third);
                Some(Place::Record(second))
            }
            Kind::NameOfHigher => {
                let [low, high] = self.records(1)?;
                self.copy_name(high, low);
                Some(Place::Record(high))
            }
            Kind::OrdinalThrice => {
                let holder = self.any_of(|target, b| target.ordinal(b) != 0)?;
                let [one, other] = self.records(1)?;
                if one == holder || other == holder {
                    return None;
                }
                let ordinal = self.ordinal(holder);
                self.poll(one, ordinal);
                self.poll(other, ordinal);
                let mut holders = [holder, one, other];
                holders.sort();
                Some(Place::Record(holders[1]))
            }
            Kind::OrdinalAboveTwice => {
                let [low, high] = self.records(1)?;
                let above = self.prng.pick(&[self.p + 1, 65535]);
                self.poll(low, above);
                self.poll(high, above);
                Some(Place::Record(low))
            }
            Kind::MarkPair => {
                let [low, high] = self.rivals(|marked| marked.is_empty())?;
                self.mark(&[low, high]);
                Some(Place::Record(high))
            }
            Kind::MarkOfHigher => {
                let marks = self.slot_marks();
                let lower = self.any_of(|target, b| marks[target.slot(b)] > Some(b))?;
                self.mark(&[lower]);
                marks[self.slot(lower)].map(Place::Record)
            }
            Kind::MarkThrice => {
                // With the mark that the slot has, if it has one.
                let rivals: [usize; 3] = self.rivals(|_| true)?;
                self.mark(&rivals);
                let s = self.slot(rivals[0]);
                let marked: Vec<usize> = self.marked(s).collect();
                Some(Place::Record(marked[1]))
            }
            Kind::MarkUnused => {
                let b = self.unused()?;
                self.field(b, MARK, &[1, 1, 2, 65535])
            }
            Kind::ChitLost => self.chit_lost(),
            Kind::BookingMore => {
                (self.n < BOOKINGS).then_some(())?;
                self.ws[N] += 1;
                Some(Place::Record(self.n))
            }
            Kind::BookingFewer => {
                let last = self.n - 1;
                (last > 0 && self.state(last) == 0).then_some(())?;
                self.ws[N] -= 1;
                Some(Place::Record(last))
            }
            Kind::SlotEmptied => {
                let s = self.used_slot();
                self.clear_entry(s);
                Some(Place::Slot(s))
            }
            Kind::BookingMoved => {
                let b = self.booking()?;
                let from = self.slot(b);
                let to = self.prng.between(1, SLOTS - 1);
                // Two marks would meet there, and a record be charged.
                let is_second = self.is_marked(b) && self.marked(to).next().is_some();
                (to != from && !is_second).then_some(())?;
                self.ws[record(b) + SLOT] = to as u16;
                Some(Place::Slot(from.min(to)))
            }
        }
    }

    fn breaks(&mut self, broken: Broken) -> Option<Place> {
        match broken {
            Broken::BookingsOutside => self.header(N, &[0, 513, 1024, 65535]),
            Broken::SettingBad => self.setting(),
            Broken::EditionOutside => self.header(EDITION, &[2, 2, 3, 256, 257, 65535]),
            Broken::PollsAboveBookings => {
                let n = self.n as u16;
                self.header(P, &[n, n + 1, 65535])
            }
            Broken::HeaderRestNotZero => {
                let at = self.prng.between(REST, HEADER_WORDS - 1);
                self.header(at, &[1, 256, 65535])
            }
            Broken::GenesisName => {
                let part = self.prng.below(4);
                self.field(0, NAME + part, &[1, 9, 32768, 65535])
            }
            Broken::GenesisSlot => self.genesis_slot(),
            Broken::GenesisParents => {
                let place = self.prng.below(PARENTS);
                self.field(0, PARENT + place, &[0, 1, 65534])
            }
            Broken::GenesisState => self.field(0, STATE, &[0, 2, 3, 257]),
            Broken::GenesisOrdinal => self.genesis_ordinal(),
            Broken::GenesisUnmarked => self.field(0, MARK, &[0, 0, 2, 65535]),
            Broken::NameTwice => {
                let [low, high] = self.records(0)?;
                self.copy_name(low, high);
                Some(Place::Record(high))
            }
            Broken::SlotOutside => self.slot_outside(),
            Broken::NoParent
            | Broken::GapInParents
            | Broken::ParentTwice
            | Broken::ParentNotLower => self.parents(broken),
            Broken::StateOutside => self.state_outside(),
            Broken::WaitingWithOrdinal
            | Broken::PolledWithoutOrdinal
            | Broken::OrdinalAbovePolls
            | Broken::OrdinalTwice
            | Broken::OrdinalMissing => self.ordinals(broken),
            Broken::MarkOutside => {
                let b = self.prng.below(self.n);
                self.field(b, MARK, &[2, 2, 3, 256, 257, 65535])
            }
            Broken::MarkTwice => {
                // One above the mark that a slot has.
                let marks = self.slot_marks();
                let is_higher = |mark: Option<usize>, b| mark.is_some() && mark < Some(b);
                let b = self.any_of(|target, b| is_higher(marks[target.slot(b)], b))?;
                self.mark(&[b]);
                Some(Place::Record(b))
            }
            Broken::UnusedRecordNotZero => {
                let b = self.unused()?;
                let word = self.prng.below(RECORD_WORDS);
                self.field(b, word, &[1, 2, 65535])
            }
            Broken::EmptySlotFilled => self.empty_slot(),
            Broken::CountNotTrue => {
                let s = self.used_slot();
                let count = self.ws[entry(s) + COUNT];
                self.entry(s, COUNT, &[count + 1, count - 1, count + 256, 65535])
            }
            Broken::PreferredElsewhere => self.elsewhere(PREFERRED),
            Broken::LastElsewhere => self.elsewhere(LAST),
            Broken::ConfidenceAboveChits => {
                let b = self.prng.below(self.n);
                let above = self.chits() + 1;
                self.field(b, CONFIDENCE, &[above, above, 65535])
            }
            Broken::CounterAboveChits => {
                let s = self.used_slot();
                let above = self.chits() + 1;
                self.entry(s, COUNTER, &[above, above, 65535])
            }
        }
    }

    fn header(&mut self, at: usize, values: &[u16]) -> Option<Place> {
        self.ws[at] = self.prng.pick(values);
        Some(Place::Header)
    }

    fn field(&mut self, b: usize, word: usize, values: &[u16]) -> Option<Place> {
        self.ws[record(b) + word] = self.prng.pick(values);
        Some(Place::Record(b))
    }

    fn entry(&mut self, s: usize, word: usize, values: &[u16]) -> Option<Place> {
        self.ws[entry(s) + word] = self.prng.pick(values);
        Some(Place::Slot(s))
    }

    fn state(&self, b: usize) -> u16 {
        self.ws[record(b) + STATE]
    }

    fn ordinal(&self, b: usize) -> u16 {
        self.ws[record(b) + ORDINAL]
    }

    fn slot(&self, b: usize) -> usize {
        usize::from(self.ws[record(b) + SLOT])
    }

    fn is_marked(&self, b: usize) -> bool {
        self.ws[record(b) + MARK] == 1
    }

    /// Who has a mark in this slot, in rising number.
    fn marked(&self, s: usize) -> impl Iterator<Item = usize> + '_ {
        (0..self.n).filter(move |&b| self.slot(b) == s && self.is_marked(b))
    }

    /// Each slot's mark, if it has one.
    fn slot_marks(&self) -> Vec<Option<usize>> {
        let mut marks = vec![None; SLOTS];
        for b in (0..self.n).filter(|&b| self.is_marked(b)) {
            marks[self.slot(b)] = Some(b);
        }
        marks
    }

    fn mark(&mut self, bookings: &[usize]) {
        for &b in bookings {
            self.ws[record(b) + MARK] = 1;
        }
    }

    /// So many bookings of one slot, in rising number, of a slot whose marks
    /// are as they are meant to be.
    fn rivals<const COUNT: usize>(
        &mut self,
        is_meant: impl Fn(&[usize]) -> bool,
    ) -> Option<[usize; COUNT]> {
        let mut slots = vec![Vec::new(); SLOTS];
        for b in 1..self.n {
            slots[self.slot(b)].push(b);
        }
        slots.retain(|bookings| {
            let marked = bookings.iter().copied().filter(|&b| self.is_marked(b));
            bookings.len() >= COUNT && is_meant(&marked.collect::<Vec<_>>())
        });
        let slot = (!slots.is_empty()).then(|| self.prng.pick(&slots))?;
        let mut some: [usize; COUNT] = self.prng.sample(&slot, COUNT).try_into().ok()?;
        some.sort();
        Some(some)
    }

    /// A record from n on: the first, the last, or one between.
    fn unused(&mut self) -> Option<usize> {
        (self.n < BOOKINGS).then_some(())?;
        let last = BOOKINGS - 1;
        let any = self.prng.between(self.n, last);
        Some(self.prng.pick(&[self.n, any, last]))
    }

    fn chits(&self) -> u16 {
        (1..self.n).filter(|&b| self.state(b) == 2).count() as u16
    }

    /// A booking that is not the genesis.
    fn booking(&mut self) -> Option<usize> {
        self.any_of(|_, _| true)
    }

    /// One of those that are not the genesis and are meant.
    fn any_of(&mut self, is_meant: impl Fn(&Self, usize) -> bool) -> Option<usize> {
        let meant: Vec<usize> = (1..self.n).filter(|&b| is_meant(self, b)).collect();
        (!meant.is_empty()).then(|| self.prng.pick(&meant))
    }

    /// Different records from this number on, in rising number.
    fn records<const COUNT: usize>(&mut self, from: usize) -> Option<[usize; COUNT]> {
        let mut all: Vec<usize> = (from..self.n).collect();
        self.prng.shuffle(&mut all);
        let mut some: [usize; COUNT] = all.get(..COUNT)?.try_into().ok()?;
        some.sort();
        Some(some)
    }

    fn copy_name(&mut self, from: usize, to: usize) {
        let name = record(from) + NAME..record(from) + SLOT;
        self.ws.copy_within(name, record(to) + NAME);
    }

    /// A booking that waits is polled, with or without a chit; one that was
    /// polled keeps its state. Either holds the ordinal.
    fn poll(&mut self, b: usize, ordinal: u16) {
        if self.state(b) == 0 {
            self.ws[record(b) + STATE] = self.prng.pick(&[1, 2]);
        }
        self.ws[record(b) + ORDINAL] = ordinal;
    }

    fn clear_entry(&mut self, s: usize) {
        self.ws[entry(s)..entry(s + 1)].copy_from_slice(&EMPTY_ENTRY);
    }

    /// The slot of a booking, the genesis' too.
    fn used_slot(&mut self) -> usize {
        let b = self.prng.below(self.n);
        self.slot(b)
    }

    fn setting(&mut self) -> Option<Place> {
        let (k, beta2) = (self.ws[K], self.ws[BETA2]);
        let (word, value) = self.prng.pick(&[
            (K, 0),
            (K, 65),
            (A, 0),
            (A, k / 2),
            (A, k + 1),
            (A, 32768 + k),
            (BETA1, 0),
            (BETA1, beta2 + 1),
            (BETA2, 0),
            (BETA2, 511),
            (BETA2, 65535),
        ]);
        self.header(word, &[value])
    }

    /// The genesis in another slot, mostly with its entry, or as one more
    /// booking of that slot.
    fn genesis_slot(&mut self) -> Option<Place> {
        let to = self.prng.between(1, SLOTS - 1);
        self.ws[record(0) + SLOT] = to as u16;
        if self.prng.chance(70) {
            if self.ws[entry(to) + COUNT] == 0 {
                self.ws.copy_within(entry(0)..entry(1), entry(to));
            } else {
                self.ws[entry(to) + COUNT] += 1;
            }
            self.clear_entry(0);
        }
        Some(Place::Record(0))
    }

    /// An ordinal that another holds, or one above p, or one that is new with
    /// p raised for it.
    fn genesis_ordinal(&mut self) -> Option<Place> {
        let next = self.p + 1;
        if usize::from(next) < self.n && self.prng.chance(50) {
            self.ws[P] = next;
            return self.field(0, ORDINAL, &[next]);
        }
        self.field(0, ORDINAL, &[1, next, 65535])
    }

    /// A booking in slot 0 or in none. The slot it leaves, and slot 0, say so.
    fn slot_outside(&mut self) -> Option<Place> {
        let b = self.booking()?;
        let from = self.slot(b);
        let rival = (1..self.n).find(|&other| other != b && self.slot(other) == from);
        match rival {
            None => self.clear_entry(from),
            Some(rival) => {
                self.ws[entry(from) + COUNT] -= 1;
                for word in [PREFERRED, LAST] {
                    if usize::from(self.ws[entry(from) + word]) == b {
                        self.ws[entry(from) + word] = rival as u16;
                    }
                }
            }
        }
        let to = self.prng.pick(&[0, 0, 256, 257, 512, 65535]);
        if to == 0 {
            self.ws[entry(0) + COUNT] += 1;
        }
        self.field(b, SLOT, &[to])
    }

    fn parents(&mut self, broken: Broken) -> Option<Place> {
        let b = self.booking()?;
        let at = record(b) + PARENT;
        let places = &mut self.ws[at..at + PARENTS];
        let used = places.iter().filter(|&&parent| parent != UNUSED).count();
        match broken {
            Broken::NoParent => places.fill(UNUSED),
            // One out of the middle, or one with a gap before it.
            Broken::GapInParents if used > 1 => places[self.prng.below(used - 1)] = UNUSED,
            Broken::GapInParents => {
                let place = self.prng.between(used, PARENTS - 1);
                places.swap(0, place);
            }
            Broken::ParentTwice if used < PARENTS => {
                places[used] = places[self.prng.below(used)];
            }
            Broken::ParentTwice => places[PARENTS - 1] = places[self.prng.below(PARENTS - 1)],
            _ => {
                let place = self.prng.below(used);
                let not_lower = [b, b + 1, self.n, BOOKINGS, 65534];
                places[place] = self.prng.pick(&not_lower) as u16;
            }
        }
        Some(Place::Record(b))
    }

    /// Not done to a chit, which would be one less. One that waits gets an
    /// ordinal at times, since its state is 0 no more.
    fn state_outside(&mut self) -> Option<Place> {
        let b = self.any_of(|target, b| target.state(b) != 2)?;
        if self.state(b) == 0 && self.prng.chance(50) {
            self.ws[P] = self.p + 1;
            self.ws[record(b) + ORDINAL] = self.p + 1;
        }
        self.field(b, STATE, &[3, 4, 256, 258, 65535])
    }

    fn ordinals(&mut self, broken: Broken) -> Option<Place> {
        let next = self.p + 1;
        let waiting = self.any_of(|target, b| target.state(b) == 0);
        let polled = self.any_of(|target, b| target.state(b) != 0);
        let without_chit = self.any_of(|target, b| target.state(b) == 1);
        // Whatever can be done: to a booking that waits, so that no ordinal
        // goes missing, or to one that was polled.
        let is_waiting = self.prng.chance(60);
        match broken {
            Broken::WaitingWithOrdinal => match (waiting, without_chit) {
                (Some(b), other) if is_waiting || other.is_none() => {
                    self.ws[P] = next;
                    self.field(b, ORDINAL, &[next])
                }
                (_, b) => self.field(b?, STATE, &[0]),
            },
            Broken::PolledWithoutOrdinal => match (waiting, polled) {
                (Some(b), other) if is_waiting || other.is_none() => self.field(b, STATE, &[1, 2]),
                (_, b) => self.field(b?, ORDINAL, &[0]),
            },
            Broken::OrdinalAbovePolls if self.p > 0 && self.prng.chance(30) => {
                // The last poll is no longer counted.
                let holder = self.any_of(|target, b| target.ordinal(b) == target.p)?;
                self.ws[P] -= 1;
                Some(Place::Record(holder))
            }
            Broken::OrdinalAbovePolls => {
                let b = waiting.filter(|_| is_waiting).or(polled).or(waiting)?;
                let above = self.prng.pick(&[next, 65535]);
                self.poll(b, above);
                Some(Place::Record(b))
            }
            Broken::OrdinalTwice => {
                let b = waiting.filter(|_| is_waiting).or(polled)?;
                let holder = self.any_of(|target, h| h != b && target.ordinal(h) != 0)?;
                let ordinal = self.ordinal(holder);
                self.poll(b, ordinal);
                Some(Place::Record(b.max(holder)))
            }
            _ => {
                if waiting.is_some() && (is_waiting || without_chit.is_none()) {
                    self.ws[P] = next;
                } else {
                    let b = without_chit?;
                    self.ws[record(b) + STATE] = 0;
                    self.ws[record(b) + ORDINAL] = 0;
                }
                Some(Place::Record(self.n))
            }
        }
    }

    /// What stood at the number of chits is above it now, and a state that
    /// does not go with the ordinal breaks a rule of its own.
    fn chit_lost(&mut self) -> Option<Place> {
        let chits = self.chits();
        let b = self.any_of(|target, b| target.state(b) == 2)?;
        let state = self.prng.pick(&[1, 1, 0, 3, 258]);
        let records = (0..self.n)
            .filter(|&r| self.ws[record(r) + CONFIDENCE] == chits || r == b && state != 1)
            .map(Place::Record);
        let slots = (0..SLOTS)
            .filter(|&s| self.ws[entry(s) + COUNTER] == chits)
            .map(Place::Slot);
        let place = records.chain(slots).min()?;
        self.ws[record(b) + STATE] = state;
        Some(place)
    }

    fn empty_slot(&mut self) -> Option<Place> {
        let empty: Vec<usize> = (1..SLOTS)
            .filter(|&s| self.ws[entry(s) + COUNT] == 0)
            .collect();
        let (&first, &last) = (empty.first()?, empty.last()?);
        let any = self.prng.pick(&empty);
        let s = self.prng.pick(&[first, any, last, last]);
        if self.prng.chance(20) {
            self.ws[entry(s)..entry(s + 1)].fill(0);
            return Some(Place::Slot(s));
        }
        let word = self.prng.below(ENTRY_WORDS);
        self.entry(s, word, &[1, 2, 256, 65534])
    }

    /// A slot's preferred or last becomes a booking of another slot, or none.
    fn elsewhere(&mut self, word: usize) -> Option<Place> {
        let s = self.used_slot();
        let mut others: Vec<u16> = (0..self.n)
            .filter(|&b| self.slot(b) != s)
            .map(|b| b as u16)
            .collect();
        others.extend([self.n as u16, 512, 65535]);
        self.entry(s, word, &others)
    }
}

#[cfg(test)]
mod tests {
    use super::*;
    use crate::grow::{any_size, grow, words_of, Style};
    use crate::scramble::scramble;
    use second::sound::{judge, Damage};
    use second::words::{self, Answer};

    /// Sound words of many sizes, reached by a history or not.
    fn sound_words(prng: &mut Prng, run: usize, is_reached: bool) -> Vec<u16> {
        let style = Style::any(prng);
        let n = any_size(prng, run);
        let mut ledger = grow(prng, style, n).ledger;
        if !is_reached {
            scramble(prng, &mut ledger);
        }
        words_of(&ledger)
    }

    /// What a call has to answer where damage is named.
    fn answer(place: Place) -> Answer {
        match place {
            Place::Header => (2, 0),
            Place::Record(row) => (14, row as i64),
            Place::Slot(row) => (15, row as i64),
        }
    }

    /// The second program names the place that the damage was done at, and
    /// finds the sentence broken there that was meant. Every sentence is
    /// broken alone by some damage meant for it, but for p above n - 1: then
    /// some ordinal cannot be held.
    #[test]
    fn damage_is_named_where_it_was_done() {
        let mut prng = Prng::new(2);
        let (mut done, mut alone) = (Vec::new(), Vec::new());
        for run in 0..200 {
            let ws = sound_words(&mut prng, run, run % 2 == 0);
            for kind in Kind::all() {
                let mut damaged = ws.clone();
                let Some(place) = damage(&mut prng, &mut damaged, kind) else {
                    assert_eq!(damaged, ws);
                    continue;
                };
                assert_eq!(words::size(&damaged, 0), answer(place), "{kind:?}");
                let Damage(judged) = judge(&damaged);
                if let Kind::Breaks(broken) = kind {
                    assert!(judged.contains(&(place, broken)), "{kind:?}: {judged:?}");
                    if judged.len() == 1 {
                        alone.push(broken);
                    }
                }
                done.push(kind);
            }
        }
        for kind in Kind::all() {
            assert!(done.contains(&kind), "{kind:?} was never done");
        }
        for broken in Broken::ALL {
            let is_alone = broken != Broken::PollsAboveBookings;
            assert_eq!(alone.contains(&broken), is_alone, "{broken:?}");
        }
    }

    /// Header kinds give 2, slot kinds 15, record kinds 14. Only a lost chit
    /// may be noticed by a counter alone.
    #[test]
    fn each_part_has_its_number() {
        let mut prng = Prng::new(3);
        for run in 0..60 {
            let ws = sound_words(&mut prng, run, run % 2 == 0);
            let mut number_of = |kind: Kind| {
                let mut damaged = ws.clone();
                let place = damage(&mut prng, &mut damaged, kind);
                place.map(|_| words::size(&damaged, 0).0)
            };
            for kind in Kind::HEADER {
                assert_eq!(number_of(kind), Some(2), "{kind:?}");
            }
            for kind in Kind::RECORDS {
                let number = number_of(kind);
                let by_counter = kind == Kind::ChitLost && number == Some(15);
                assert!(number.unwrap_or(14) == 14 || by_counter, "{kind:?}");
            }
            for kind in Kind::SLOTS {
                assert_eq!(number_of(kind).unwrap_or(15), 15, "{kind:?}");
            }
        }
    }

    /// Every chit raised the genesis, so that it is named when one is lost.
    #[test]
    fn a_chit_lost_after_a_history_names_the_genesis() {
        let mut prng = Prng::new(4);
        let mut seen = 0;
        for run in 0..60 {
            let mut ws = sound_words(&mut prng, run, true);
            if damage(&mut prng, &mut ws, Kind::ChitLost).is_some() {
                assert_eq!(words::size(&ws, 0), (14, 0));
                seen += 1;
            }
        }
        assert!(seen > 20);
    }

    #[test]
    fn an_ordinal_missing_from_a_full_ledger_names_512() {
        let mut prng = Prng::new(5);
        let mut seen = 0;
        for _ in 0..20 {
            let style = Style::any(&mut prng);
            let mut ws = grow(&mut prng, style, BOOKINGS).words();
            let kind = Kind::Breaks(Broken::OrdinalMissing);
            if damage(&mut prng, &mut ws, kind).is_some() {
                assert_eq!(words::size(&ws, 0), (14, 512));
                seen += 1;
            }
        }
        assert!(seen > 10);
    }

    /// Of several damages that do not touch each other the lowest is named:
    /// a header before records, these before slots, and of two the lower.
    #[test]
    fn of_steady_damages_the_lowest_is_named() {
        let mut prng = Prng::new(6);
        let steady: Vec<Kind> = Kind::all().filter(|kind| kind.is_steady()).collect();
        for run in 0..400 {
            let ws = sound_words(&mut prng, run, run % 2 == 0);
            for _ in 0..40 {
                let count = prng.between(2, 4);
                let kinds: Vec<Kind> = (0..count).map(|_| prng.pick(&steady)).collect();
                let damaged = Damaged::by(&mut prng, &ws, &kinds);
                let expected = damaged.place.map(answer);
                let judged = expected.map(|_| words::size(&damaged.words, 0));
                assert_eq!(judged, expected, "{kinds:?}");
            }
        }
    }

    /// Whatever is done beside a setting, an edition or a last word of the
    /// header that is wrong, 2 is answered.
    #[test]
    fn a_damaged_header_hides_all_else() {
        let mut prng = Prng::new(7);
        for run in 0..60 {
            let ws = sound_words(&mut prng, run, run % 2 == 0);
            for kind in Kind::all() {
                let header = prng.pick(&[
                    Broken::SettingBad,
                    Broken::EditionOutside,
                    Broken::HeaderRestNotZero,
                ]);
                let damaged = Damaged::by(&mut prng, &ws, &[kind, Kind::Breaks(header)]);
                assert_eq!(words::size(&damaged.words, 0), (2, 0), "{kind:?}");
            }
        }
    }

    /// A record that is wrong hides the slots: their damage changes nothing
    /// in number and row.
    #[test]
    fn a_damaged_record_hides_slots() {
        let mut prng = Prng::new(8);
        for run in 0..60 {
            let ws = sound_words(&mut prng, run, run % 2 == 0);
            let slots = Kind::SLOTS.into_iter().filter(|kind| kind.is_steady());
            for (record, slot) in Kind::RECORDS
                .into_iter()
                .flat_map(|record| slots.clone().map(move |slot| (record, slot)))
            {
                let mut alone = ws.clone();
                let place = damage(&mut prng.clone(), &mut alone, record);
                let Some(place @ Place::Record(_)) = place else {
                    continue;
                };
                let damaged = Damaged::by(&mut prng, &ws, &[record, slot]);
                let judged = words::size(&damaged.words, 0);
                assert_eq!(judged, answer(place), "{record:?} {slot:?}");
            }
        }
    }
}

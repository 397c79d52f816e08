//! The rules of the vote, on a ledger kept in maps.
//!
//! Nothing here knows of words or text. Refusals 3 to 13 are decided here,
//! in the order of their table; the others are about what was lent, and
//! belong to whoever keeps the ledger.

use crate::layout::{BOOKINGS, PARENTS, SLOTS};
use crate::refusal::Refusal;
use crate::setting::Setting;
use std::collections::{BTreeMap, BTreeSet, HashMap};

pub const GENESIS: usize = 0;

#[derive(Clone, Copy, Debug, PartialEq, Eq)]
pub enum State {
    Waiting = 0,
    Polled = 1,
    Chit = 2,
}

#[derive(Clone, Debug, PartialEq, Eq)]
pub struct Booking {
    pub name: u64,
    pub slot: u16,
    /// Numbers of the parents, in the order given.
    pub parents: Vec<usize>,
    pub state: State,
    pub confidence: u16,
    pub ordinal: u16,
    /// Accepted once, and from then on.
    pub is_marked: bool,
}

#[derive(Clone, Debug, PartialEq, Eq)]
pub struct Slot {
    pub preferred: usize,
    pub last: usize,
    pub counter: u16,
    /// Every booking of the slot, in rising number.
    pub bookings: Vec<usize>,
}

#[derive(Clone, Debug, PartialEq, Eq)]
pub struct Ledger {
    pub setting: Setting,
    /// Polls taken.
    pub polls: u16,
    pub bookings: Vec<Booking>,
    /// A booking's number by its name.
    pub numbers: HashMap<u64, usize>,
    /// Only the slots that have bookings.
    pub slots: BTreeMap<u16, Slot>,
}

/// The readings, which change nothing.
#[derive(Clone, Copy, Debug, PartialEq, Eq)]
pub enum Reading {
    Query,
    Accepted,
    Lead,
    Confidence,
    Size,
}

impl Reading {
    pub const ALL: [Reading; 5] = [
        Reading::Query,
        Reading::Accepted,
        Reading::Lead,
        Reading::Confidence,
        Reading::Size,
    ];

    pub fn word(self) -> &'static str {
        match self {
            Reading::Query => "query",
            Reading::Accepted => "accepted",
            Reading::Lead => "lead",
            Reading::Confidence => "confidence",
            Reading::Size => "size",
        }
    }
}

/// What a vote byte says, or nothing where the byte is refused.
#[derive(Clone, Copy, Debug, PartialEq, Eq)]
pub enum Vote {
    Silent,
    Yes,
    No,
}

pub fn read_vote(byte: u8) -> Option<Vote> {
    match byte {
        0 => Some(Vote::Silent),
        1 => Some(Vote::Yes),
        2..=254 => None,
        255 => Some(Vote::No),
    }
}

impl Ledger {
    /// A ledger with the genesis only.
    pub fn open(setting: Setting) -> Result<Ledger, Refusal> {
        if !setting.is_good() {
            return Err(Refusal::Setting);
        }
        let genesis = Booking {
            name: 0,
            slot: 0,
            parents: Vec::new(),
            state: State::Polled,
            confidence: 0,
            ordinal: 0,
            is_marked: true,
        };
        let own_slot = Slot {
            preferred: GENESIS,
            last: GENESIS,
            counter: 0,
            bookings: vec![GENESIS],
        };
        Ok(Ledger {
            setting,
            polls: 0,
            bookings: vec![genesis],
            numbers: HashMap::from([(0, GENESIS)]),
            slots: BTreeMap::from([(0, own_slot)]),
        })
    }

    pub fn book(&mut self, name: u64, slot: u16, parents: &[u64]) -> Result<(), Refusal> {
        if self.numbers.contains_key(&name) {
            return Err(Refusal::NameBooked);
        }
        if slot == 0 || usize::from(slot) >= SLOTS {
            return Err(Refusal::Slot);
        }
        if parents.is_empty() || parents.len() > PARENTS {
            return Err(Refusal::ParentCount);
        }
        // Every parent is looked up before any is compared with another.
        let mut found = Vec::with_capacity(parents.len());
        for parent in parents {
            let Some(&number) = self.numbers.get(parent) else {
                return Err(Refusal::ParentUnknown);
            };
            found.push(number);
        }
        if found.iter().collect::<BTreeSet<_>>().len() < found.len() {
            return Err(Refusal::ParentTwice);
        }
        if self.bookings.len() == BOOKINGS {
            return Err(Refusal::Full);
        }

        let number = self.bookings.len();
        self.bookings.push(Booking {
            name,
            slot,
            parents: found,
            state: State::Waiting,
            confidence: 0,
            ordinal: 0,
            is_marked: false,
        });
        self.numbers.insert(name, number);
        // The first booking of a slot is preferred and last; a later one
        // only stands beside it.
        self.slots
            .entry(slot)
            .or_insert(Slot {
                preferred: number,
                last: number,
                counter: 0,
                bookings: Vec::new(),
            })
            .bookings
            .push(number);
        Ok(())
    }

    pub fn poll(&mut self, name: u64, votes: &[u8]) -> Result<(), Refusal> {
        let b = self.number(name)?;
        if self.bookings[b].state != State::Waiting {
            return Err(Refusal::NotWaiting);
        }
        if votes.len() != usize::from(self.setting.k) {
            return Err(Refusal::VoteCount);
        }
        let Some(votes) = votes
            .iter()
            .map(|&byte| read_vote(byte))
            .collect::<Option<Vec<_>>>()
        else {
            return Err(Refusal::VoteByte);
        };

        self.polls += 1;
        self.bookings[b].ordinal = self.polls;
        // Only yes votes are counted: a no takes nothing away.
        let yes = votes.iter().filter(|&&vote| vote == Vote::Yes).count();
        if yes >= usize::from(self.setting.a) {
            self.bookings[b].state = State::Chit;
            self.succeed(b);
        } else {
            self.bookings[b].state = State::Polled;
            self.fail(b);
        }
        // Whatever came of the poll, and whoever was polled.
        self.mark_all();
        Ok(())
    }

    /// What success brings to the ancestry of a booking.
    fn succeed(&mut self, b: usize) {
        let ancestry = self.ancestry(b);
        // All confidences rise before any two are compared.
        for &m in &ancestry {
            self.bookings[m].confidence += 1;
        }
        for &m in &ancestry {
            self.follow(m);
        }
    }

    /// What failure brings to the ancestry of a booking: nothing in the first
    /// edition; in the later one every slot that it stands in counts from
    /// nothing again, whoever is last there.
    fn fail(&mut self, b: usize) {
        if !self.setting.is_later() {
            return;
        }
        for m in self.ancestry(b) {
            self.slot_mut(m).counter = 0;
        }
    }

    /// A member of a successful poll's ancestry moves its slot: first the
    /// preference, by strictly more confidence, then last and counter.
    fn follow(&mut self, m: usize) {
        let preferred = self.slot_of(m).preferred;
        let overtakes = self.bookings[m].confidence > self.bookings[preferred].confidence;
        let restart = self.setting.restart();
        let slot = self.slot_mut(m);
        if overtakes {
            slot.preferred = m;
        }
        if slot.last == m {
            slot.counter += 1;
        } else {
            slot.last = m;
            slot.counter = restart;
        }
    }

    pub fn read(&self, reading: Reading, name: u64) -> Result<i64, Refusal> {
        let b = self.number(name)?;
        Ok(match reading {
            Reading::Query => i64::from(self.ancestry(b).iter().all(|&m| self.is_preferred(m))),
            Reading::Accepted => i64::from(self.bookings[b].is_marked),
            Reading::Lead => self.lead(b),
            Reading::Confidence => i64::from(self.bookings[b].confidence),
            Reading::Size => self.ancestry(b).len() as i64,
        })
    }

    /// The number of the booking with this name.
    pub fn number(&self, name: u64) -> Result<usize, Refusal> {
        self.numbers.get(&name).copied().ok_or(Refusal::NameUnknown)
    }

    /// The booking itself and all that is reached through parents, once each.
    pub fn ancestry(&self, b: usize) -> BTreeSet<usize> {
        let mut members = BTreeSet::new();
        self.gather(b, &mut members);
        members
    }

    fn gather(&self, m: usize, members: &mut BTreeSet<usize>) {
        if members.insert(m) {
            for &parent in &self.bookings[m].parents {
                self.gather(parent, members);
            }
        }
    }

    pub fn slot_of(&self, b: usize) -> &Slot {
        &self.slots[&self.bookings[b].slot]
    }

    fn slot_mut(&mut self, b: usize) -> &mut Slot {
        let slot = self.slots.get_mut(&self.bookings[b].slot);
        slot.expect("a booking's slot has bookings")
    }

    pub fn is_preferred(&self, b: usize) -> bool {
        self.slot_of(b).preferred == b
    }

    /// Marks whoever earns it and has no rival with a mark. Parents have
    /// lower numbers, so that theirs are given before they are asked for.
    fn mark_all(&mut self) {
        for b in 0..self.bookings.len() {
            if self.earns_mark(b) && !self.has_marked_rival(b) {
                self.bookings[b].is_marked = true;
            }
        }
    }

    /// The genesis earns a mark. Another booking earns one by its slot's
    /// counter being enough for β1 if it stands alone on marked parents, or
    /// for β2 if the counter is its own: preferred and last.
    pub fn earns_mark(&self, b: usize) -> bool {
        if b == GENESIS {
            return true;
        }
        let slot = self.slot_of(b);
        let is_enough = |beta| self.setting.is_enough(slot.counter, beta);
        let own = slot.preferred == b && slot.last == b && is_enough(self.setting.beta2);
        let alone = slot.bookings.len() == 1 && is_enough(self.setting.beta1);
        let mut parents = self.bookings[b].parents.iter();
        own || alone && parents.all(|&parent| self.bookings[parent].is_marked)
    }

    /// Who has a mark, in rising number.
    pub fn marked(&self) -> Vec<usize> {
        let numbers = 0..self.bookings.len();
        numbers.filter(|&b| self.bookings[b].is_marked).collect()
    }

    pub fn has_marked_rival(&self, b: usize) -> bool {
        let mut bookings = self.slot_of(b).bookings.iter();
        bookings.any(|&rival| rival != b && self.bookings[rival].is_marked)
    }

    /// Confidence over the best rival's, or over 0 without rivals.
    fn lead(&self, b: usize) -> i64 {
        let best_rival = self
            .slot_of(b)
            .bookings
            .iter()
            .filter(|&&rival| rival != b)
            .map(|&rival| self.bookings[rival].confidence)
            .max()
            .unwrap_or(0);
        i64::from(self.bookings[b].confidence) - i64::from(best_rival)
    }
}

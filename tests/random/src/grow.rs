//! Ledgers that a history reaches, with that history.

use crate::call::Call;
use crate::names::Names;
use crate::prng::Prng;
use second::codec::encode;
use second::laws::History;
use second::layout::{BOOKINGS, PARENTS, WORDS};
use second::ledger::{Ledger, State};
use second::setting::Setting;

/// Which parents a booking takes.
#[derive(Clone, Copy, Debug)]
pub enum Shape {
    /// Mostly the genesis.
    Wide,
    /// The booking before.
    Chain,
    /// Two or three of the last few: many paths to every ancestor.
    Diamonds,
    /// Any one to four.
    Any,
    /// Any four, or all where there are less.
    Most,
}

impl Shape {
    pub const ALL: [Shape; 5] = [
        Shape::Wide,
        Shape::Chain,
        Shape::Diamonds,
        Shape::Any,
        Shape::Most,
    ];

    /// Names of parents out of those booked, in order of booking.
    pub fn parents(self, prng: &mut Prng, booked: &[u64]) -> Vec<u64> {
        let latest = |count: usize| &booked[booked.len().saturating_sub(count)..];
        match self {
            Shape::Wide if prng.chance(70) => vec![booked[0]],
            Shape::Chain if prng.chance(90) => latest(1).to_vec(),
            Shape::Diamonds => prng.some(latest(4), 3),
            Shape::Most => prng.sample(booked, PARENTS),
            Shape::Wide | Shape::Chain | Shape::Any => prng.some(booked, PARENTS),
        }
    }
}

/// How a ledger grows.
#[derive(Clone, Debug)]
pub struct Style {
    pub setting: Setting,
    pub shape: Shape,
    pub names: Names,
    /// Slots are taken from 1 to this: few make many rivals.
    pub slots: u16,
    /// How many of a hundred polls succeed.
    pub success: usize,
    /// How many of a hundred bookings are rivals of one that is accepted.
    pub late_rivals: usize,
}

impl Style {
    pub fn any(prng: &mut Prng) -> Style {
        match prng.below(100) {
            0..20 => return Style::accepting(prng),
            20..45 => return Style::contested(prng),
            45..55 => return Style::failing(prng),
            _ => (),
        }
        Style {
            setting: good_setting(prng),
            shape: prng.pick(&Shape::ALL),
            names: prng.pick(&Names::ALL),
            slots: prng.pick(&[1, 2, 3, 8, 40, 255, 255]),
            success: prng.pick(&[30, 60, 90, 100]),
            late_rivals: prng.pick(&[0, 5, 20]),
        }
    }

    /// Small bounds, and rivals that come when somebody is accepted.
    pub fn contested(prng: &mut Prng) -> Style {
        let beta1 = prng.word(1, 2);
        let beta2 = beta1 + prng.word(0, 2);
        Style {
            setting: setting(prng, 1, 1, beta1, beta2),
            shape: prng.pick(&[Shape::Chain, Shape::Chain, Shape::Diamonds, Shape::Any]),
            names: prng.pick(&Names::ALL),
            slots: prng.pick(&[30, 255]),
            success: 95,
            late_rivals: 40,
        }
    }

    /// Small bounds, and chains whose counters pass them.
    pub fn accepting(prng: &mut Prng) -> Style {
        let beta1 = prng.word(1, 2);
        // out of reach every other time: then no booking with a rival is accepted, and nothing that rests on one
        let beta2 = if prng.chance(50) {
            prng.word(beta1, 4)
        } else {
            prng.word(200, 510)
        };
        Style {
            setting: setting(prng, 1, 1, beta1, beta2),
            shape: Shape::Chain,
            names: prng.pick(&Names::ALL),
            slots: prng.pick(&[5, 30, 255]),
            success: 95,
            late_rivals: prng.pick(&[0, 5, 20]),
        }
    }

    /// The later edition, and chains where polls fail between chits: their
    /// number is soon enough for a bound, and seldom without a break.
    pub fn failing(prng: &mut Prng) -> Style {
        let beta1 = prng.word(2, 5);
        let beta2 = beta1 + prng.word(0, 2);
        let mut setting = setting(prng, 1, 1, beta1, beta2);
        setting.edition = Setting::LATER;
        Style {
            setting,
            shape: prng.pick(&[Shape::Chain, Shape::Chain, Shape::Diamonds]),
            names: prng.pick(&Names::ALL),
            slots: prng.pick(&[3, 8, 30, 255]),
            success: prng.pick(&[50, 60, 70]),
            late_rivals: prng.pick(&[0, 5, 20]),
        }
    }

    pub fn slot(&self, prng: &mut Prng) -> u16 {
        prng.word(1, self.slots)
    }

    /// The votes of a poll, which succeeds as often as the style says.
    pub fn votes(&self, prng: &mut Prng) -> Vec<u8> {
        let is_success = prng.chance(self.success);
        self.votes_for(prng, is_success)
    }

    /// The votes of a poll, just enough of them yes or just too few, or far
    /// from the border.
    fn votes_for(&self, prng: &mut Prng, is_success: bool) -> Vec<u8> {
        let (k, a) = (usize::from(self.setting.k), usize::from(self.setting.a));
        let at_border = prng.chance(50);
        let yes = match (is_success, at_border) {
            (true, true) => a,
            (true, false) => prng.between(a, k),
            (false, true) => a - 1,
            (false, false) => prng.below(a),
        };
        let mut votes: Vec<u8> = (0..k)
            .map(|place| if place < yes { 1 } else { prng.pick(&[0, 255]) })
            .collect();
        prng.shuffle(&mut votes);
        votes
    }
}

/// A good setting of either edition: mostly small, so that counters pass the
/// bounds.
pub fn good_setting(prng: &mut Prng) -> Setting {
    if prng.chance(10) {
        let [k, a, beta1, beta2] = prng.pick(&[
            [10, 8, 11, 150],
            [64, 64, 510, 510],
            [64, 33, 1, 510],
            [63, 32, 1, 1],
        ]);
        return setting(prng, k, a, beta1, beta2);
    }
    let most_votes = prng.weigh(&[(6, 5), (1, Setting::MOST_VOTES)]);
    let k = prng.word(1, most_votes);
    let a = prng.word(k / 2 + 1, k);
    let most_beta1 = prng.weigh(&[(6, 1), (3, 2), (1, 20)]);
    let beta1 = prng.word(1, most_beta1);
    let most_more = prng.weigh(&[(4, 0), (4, 1), (1, 20)]);
    let beta2 = beta1 + prng.word(0, most_more);
    setting(prng, k, a, beta1, beta2)
}

/// A setting with these numbers, of either edition.
pub fn setting(prng: &mut Prng, k: u16, a: u16, beta1: u16, beta2: u16) -> Setting {
    Setting {
        k,
        a,
        beta1,
        beta2,
        edition: prng.word(0, 1),
    }
}

/// A ledger, how it grew, and what a history of its calls knows.
pub struct Grown {
    pub style: Style,
    pub ledger: Ledger,
    pub history: History,
    /// The calls that it grew by, the opening first.
    pub calls: Vec<Call>,
}

impl Grown {
    pub fn words(&self) -> Vec<u16> {
        words_of(&self.ledger)
    }

    /// The same as it was before its last calls, and those, which are still
    /// to be made.
    pub fn before_last(mut self, count: usize) -> (Grown, Vec<Call>) {
        let first = self.calls.len().saturating_sub(count).max(1);
        let last = self.calls.split_off(first);
        self.ledger = Ledger::open(self.style.setting).expect("the style's setting is good");
        self.history.opened(&self.style.setting);
        for call in &self.calls[1..] {
            let result = match call {
                Call::Book {
                    name,
                    slot,
                    parents,
                } => {
                    self.history.booked(*name, *slot, parents);
                    self.ledger.book(*name, *slot, parents)
                }
                Call::Poll { name, votes } => {
                    self.history.polled(*name, votes);
                    self.ledger.poll(*name, votes)
                }
                _ => unreachable!("a ledger grows by bookings and polls"),
            };
            result.expect("it was taken before");
        }
        (self, last)
    }
}

pub fn words_of(ledger: &Ledger) -> Vec<u16> {
    let mut ws = vec![0; WORDS];
    encode(ledger, &mut ws);
    ws
}

/// How many bookings a run starts from: mostly few, sometimes many, and all
/// of them, or one or two less in turn, in one run of ten.
pub fn any_size(prng: &mut Prng, run: usize) -> usize {
    if run % 10 == 0 {
        return BOOKINGS - run / 10 % 3;
    }
    match prng.below(20) {
        0 => 1,
        1 => prng.between(60, 300),
        2..=5 => prng.between(2, 6),
        _ => prng.between(6, 40),
    }
}

/// Grows a ledger to `n` bookings, polls among them.
pub fn grow(prng: &mut Prng, style: Style, n: usize) -> Grown {
    let ledger = Ledger::open(style.setting).expect("the style's setting is good");
    let mut history = History::default();
    history.opened(&style.setting);
    let calls = vec![Call::Open(style.setting)];
    let mut grown = Grown {
        style,
        ledger,
        history,
        calls,
    };
    let polls = match grown.style.late_rivals {
        0..=20 => prng.pick(&[0, 30, 60, 90]),
        _ => 90,
    };
    while grown.ledger.bookings.len() < n {
        if prng.chance(grown.style.late_rivals) {
            if prng.chance(60) {
                add_late_rival(prng, &mut grown, n);
            } else {
                add_waiting_child(prng, &mut grown, n);
            }
            continue;
        }
        add_booking(prng, &mut grown);
        if prng.chance(polls) {
            add_poll(prng, &mut grown);
        }
    }
    // At times the ledger has hardly anything left to poll.
    if prng.chance(25) {
        for _ in 0..n {
            add_poll(prng, &mut grown);
        }
    }
    grown
}

/// Grows a ledger with the longest day file of its edition: full, with as many
/// parents as there can be, and all of it polled.
pub fn grow_longest(prng: &mut Prng, style: Style) -> Grown {
    let style = Style {
        shape: Shape::Most,
        late_rivals: 0,
        ..style
    };
    let mut grown = grow(prng, style, BOOKINGS);
    while usize::from(grown.ledger.polls) < BOOKINGS - 1 {
        add_poll(prng, &mut grown);
    }
    grown
}

fn add_booking(prng: &mut Prng, grown: &mut Grown) {
    let booked: Vec<u64> = grown.ledger.bookings.iter().map(|b| b.name).collect();
    let parents = grown.style.shape.parents(prng, &booked);
    let slot = grown.style.slot(prng);
    book(prng, grown, slot, parents);
}

/// A rival for somebody who is accepted, with bookings on it that are polled:
/// mostly as many as it needs to overtake, if there is room below `n`. It is
/// new, or one that was there before, perhaps with a lower number. Where nobody
/// is accepted, any booking.
fn add_late_rival(prng: &mut Prng, grown: &mut Grown, n: usize) {
    let ledger = &grown.ledger;
    let Some(accepted) = any_accepted(prng, ledger) else {
        return add_booking(prng, grown);
    };
    let slot = ledger.bookings[accepted].slot;
    let others = ledger.slot_of(accepted).bookings.iter();
    let others: Vec<usize> = others.copied().filter(|&b| b != accepted).collect();
    let rival = if !others.is_empty() && prng.chance(50) {
        // The lowest is mostly below the one that is accepted.
        let any = prng.pick(&others);
        ledger.bookings[prng.pick(&[others[0], any])].name
    } else {
        let parents = parents_beside(prng, ledger, accepted);
        book(prng, grown, slot, parents)
    };
    build_on(prng, grown, rival, accepted, n);
}

/// Bookings on a rival of one that is accepted, each of them polled.
fn build_on(prng: &mut Prng, grown: &mut Grown, rival: u64, accepted: usize, n: usize) {
    let ledger = &grown.ledger;
    let slot = ledger.bookings[accepted].slot;
    let [behind, ahead] = [ledger.numbers[&rival], accepted].map(|b| &ledger.bookings[b]);
    // More chits than the other has, and so many that the counter, which is 0
    // with the first of them, is above β2; in the later edition, which is 1
    // with the first, at β2.
    let lead = ahead.confidence.saturating_sub(behind.confidence) + 1;
    let counted = match ledger.setting.is_later() {
        true => ledger.setting.beta2,
        false => ledger.setting.beta2 + 2,
    };
    let needed = usize::from(lead.max(counted));
    let chits = match prng.below(4) {
        0 => prng.below(4),
        1 => needed - 1,
        _ => needed,
    };
    let room = (n - ledger.bookings.len()).min(MOST_ON_A_RIVAL);
    let is_waiting = behind.state == State::Waiting;
    if is_waiting {
        poll(prng, grown, rival);
    }
    let mut latest = rival;
    for _ in 0..chits.saturating_sub(is_waiting.into()).min(room) {
        let other = 1 + (slot + prng.word(0, 253)) % 255;
        let parent = prng.pick(&[rival, latest]);
        latest = book(prng, grown, other, vec![parent]);
        poll(prng, grown, latest);
    }
}

/// A booking with a rival, and one on it that stands alone and has chits
/// enough to be accepted as soon as its parent is. That takes polls of others
/// that stand on the parent: the last of them brings a mark to the child, which
/// it does not stand on. Where bounds or room are too small, any booking.
fn add_waiting_child(prng: &mut Prng, grown: &mut Grown, n: usize) {
    let setting = grown.style.setting;
    let Setting { beta1, beta2, .. } = setting;
    let ledger = &grown.ledger;
    let free = (1..=255).filter(|slot| !ledger.slots.contains_key(slot));
    let free = prng.sample(&free.collect::<Vec<u16>>(), 2);
    let needed = usize::from(beta2) + 4;
    let is_room = ledger.bookings.len() + needed <= n && needed <= MOST_ON_A_RIVAL;
    let (&[slot, own], true) = (&free[..], beta1 < beta2 && is_room) else {
        return add_booking(prng, grown);
    };
    let mut rivals = [(); 2].map(|()| book(prng, grown, slot, vec![0]));
    // The second becomes last by its first chit, which counts for nothing in
    // the first edition.
    let is_second = prng.chance(50);
    if is_second {
        rivals.swap(0, 1);
    }
    let [parent, rival] = rivals;
    let child = book(prng, grown, own, vec![parent]);
    let mut polls = vec![child];
    // Chits beside the child's own: on it, and on both it and its parent.
    let (on_child, on_both) = match setting.is_later() {
        true => (beta1 - 1, beta2 - 1),
        false => (beta1, beta2 + u16::from(is_second)),
    };
    for chits in 1..=on_both {
        let stands_on = if chits <= on_child { child } else { parent };
        let other = 1 + (slot + prng.word(0, 253)) % 255;
        polls.push(book(prng, grown, other, vec![stands_on]));
    }
    for name in polls {
        poll(prng, grown, name);
    }
    if prng.chance(40) {
        let accepted = grown.ledger.numbers[&parent];
        build_on(prng, grown, rival, accepted, n);
    }
}

/// The most bookings that a late rival gets at once.
const MOST_ON_A_RIVAL: usize = 12;

/// Somebody who is accepted beside the genesis, mostly the one with the least
/// confidence, which is overtaken soonest.
pub fn any_accepted(prng: &mut Prng, ledger: &Ledger) -> Option<usize> {
    let is_marked = |b: &usize| ledger.bookings[*b].is_marked;
    let accepted: Vec<usize> = (1..ledger.bookings.len()).filter(is_marked).collect();
    let weakest = (accepted.iter().copied()).min_by_key(|&b| ledger.bookings[b].confidence)?;
    let any = prng.pick(&accepted);
    Some(prng.pick(&[weakest, weakest, any]))
}

/// The genesis, or what a booking stands on itself: not the booking.
pub fn parents_beside(prng: &mut Prng, ledger: &Ledger, b: usize) -> Vec<u64> {
    if prng.chance(50) {
        return vec![0];
    }
    let parents = ledger.bookings[b].parents.iter();
    parents
        .map(|&parent| ledger.bookings[parent].name)
        .collect()
}

/// A booking that is taken.
fn book(prng: &mut Prng, grown: &mut Grown, slot: u16, parents: Vec<u64>) -> u64 {
    let ledger = &mut grown.ledger;
    let name = grown
        .style
        .names
        .fresh(prng, |name| ledger.numbers.contains_key(&name));
    ledger
        .book(name, slot, &parents)
        .expect("a fresh name on booked parents is taken");
    grown.history.booked(name, slot, &parents);
    grown.calls.push(Call::Book {
        name,
        slot,
        parents,
    });
    name
}

fn add_poll(prng: &mut Prng, grown: &mut Grown) {
    let waiting: Vec<u64> = (grown.ledger.bookings.iter())
        .filter(|booking| booking.state == State::Waiting)
        .map(|booking| booking.name)
        .collect();
    if waiting.is_empty() {
        return;
    }
    let name = prng.pick(&waiting);
    let votes = grown.style.votes(prng);
    take_poll(grown, name, votes);
}

/// A poll that mostly succeeds, whatever the style says.
fn poll(prng: &mut Prng, grown: &mut Grown, name: u64) {
    let is_success = prng.chance(95);
    let votes = grown.style.votes_for(prng, is_success);
    take_poll(grown, name, votes);
}

fn take_poll(grown: &mut Grown, name: u64, votes: Vec<u8>) {
    grown
        .ledger
        .poll(name, &votes)
        .expect("k votes on a waiting booking are taken");
    grown.history.polled(name, &votes);
    grown.calls.push(Call::Poll { name, votes });
}

#[cfg(test)]
mod tests {
    use super::*;
    use crate::old_rule;

    /// Where rivals come late, marks often part from acceptance as it was, in
    /// both ways.
    #[test]
    fn late_rivals_part_marks_from_the_old_rule() {
        let mut prng = Prng::new(1);
        let (mut kept, mut withheld) = (0, 0);
        for _ in 0..100 {
            let style = Style::contested(&mut prng);
            let ledger = grow(&mut prng, style, 40).ledger;
            let old = old_rule::accepted(&ledger);
            let pairs = || ledger.bookings.iter().map(|b| b.is_marked).zip(&old);
            kept += usize::from(pairs().any(|(is_marked, &old)| is_marked && !old));
            withheld += usize::from(pairs().any(|(is_marked, &old)| !is_marked && old));
        }
        assert!(kept > 60 && withheld > 30, "{kept} and {withheld} of 100");
    }

    /// What is held back leads to the same ledger.
    #[test]
    fn last_calls_can_be_made_later() {
        let mut prng = Prng::new(2);
        for count in 0..60 {
            let style = Style::any(&mut prng);
            let grown = grow(&mut prng, style, 20);
            let (words, calls) = (grown.words(), grown.calls.clone());
            let (mut earlier, last) = grown.before_last(count);
            assert_eq!([&earlier.calls[..], &last].concat(), calls);
            assert_eq!(last.len(), count.min(calls.len() - 1));
            for call in last {
                match call {
                    Call::Book {
                        name,
                        slot,
                        parents,
                    } => earlier.ledger.book(name, slot, &parents),
                    Call::Poll { name, votes } => earlier.ledger.poll(name, &votes),
                    _ => unreachable!("a ledger grows by bookings and polls"),
                }
                .expect("it was taken before");
            }
            assert_eq!(earlier.words(), words);
        }
    }
}

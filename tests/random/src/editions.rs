//! What the runs have shown of the two editions: where polls start counters,
//! which of them a failed poll clears, and what they are enough for.

use second::ledger::{Ledger, State, GENESIS};
use std::collections::BTreeSet;

/// A taken poll, and the ledger before it and after.
pub struct Turn<'a> {
    before: &'a Ledger,
    after: &'a Ledger,
    polled: usize,
    ancestry: BTreeSet<usize>,
    is_success: bool,
}

/// A name, and whether a poll is a case of it.
type Event = (&'static str, fn(&Turn) -> bool);

/// What polls show, on ledgers that a history reaches or on others.
pub const EDITIONS: [Event; 19] = [
    ("first edition: a new last, not counted", |turn| {
        turn.is_in(0) && turn.has_slot(|turn, s| turn.is_new_last(s) && turn.counter(s) == 0)
    }),
    ("later edition: a new last, counted", |turn| {
        turn.is_in(1) && turn.has_slot(|turn, s| turn.is_new_last(s) && turn.counter(s) == 1)
    }),
    (
        "later edition: a new last, and the counter was higher",
        |turn| turn.is_in(1) && turn.has_slot(|turn, s| turn.is_new_last(s) && turn.was(s) > 1),
    ),
    ("later edition: a new last of several members", |turn| {
        turn.is_in(1)
            && turn.is_success
            && turn.has_slot(|turn, s| turn.members(s) > 1 && turn.counter(s) == 1)
    }),
    ("first edition: a failed poll leaves slot 0", |turn| {
        turn.fails_in(0) && turn.was(0) > 0 && turn.counter(0) > 0
    }),
    ("first edition: a failed poll leaves its own slot", |turn| {
        turn.fails_in(0) && turn.was(turn.own()) > 0 && turn.counter(turn.own()) > 0
    }),
    ("later edition: a failed poll clears slot 0", |turn| {
        turn.fails_in(1) && turn.is_cleared(0)
    }),
    ("later edition: a failed poll clears its own slot", |turn| {
        turn.fails_in(1) && turn.is_cleared(turn.own())
    }),
    (
        "later edition: a failed poll clears a slot between",
        |turn| {
            turn.fails_in(1) && turn.has_slot(|turn, s| turn.is_between(s) && turn.is_cleared(s))
        },
    ),
    (
        "later edition: a failed poll clears beyond its parents",
        |turn| {
            let is_beyond = |turn: &Turn, s: u16| {
                let parents = &turn.after.bookings[turn.polled].parents;
                let near = parents.iter().map(|&p| turn.after.bookings[p].slot);
                turn.is_between(s) && near.into_iter().all(|near| near != s)
            };
            turn.fails_in(1) && turn.has_slot(|turn, s| is_beyond(turn, s) && turn.is_cleared(s))
        },
    ),
    (
        "later edition: a failed poll clears where another is last",
        |turn| {
            let is_others =
                |turn: &Turn, s: u16| !turn.ancestry.contains(&turn.after.slots[&s].last);
            turn.fails_in(1) && turn.has_slot(|turn, s| is_others(turn, s) && turn.is_cleared(s))
        },
    ),
    ("later edition: a failed poll clears more than 1", |turn| {
        turn.fails_in(1) && turn.has_slot(|turn, s| turn.was(s) > 1 && turn.is_cleared(s))
    }),
    (
        "later edition: a failed poll leaves a slot outside",
        |turn| {
            turn.fails_in(1) && turn.has_slot(|turn, s| turn.members(s) == 0 && turn.counter(s) > 0)
        },
    ),
    ("later edition: a failed poll clears under a mark", |turn| {
        let is_kept = |turn: &Turn, s: u16| {
            let mut bookings = turn.after.slots[&s].bookings.iter();
            s > 0 && bookings.any(|&b| turn.after.bookings[b].is_marked)
        };
        turn.fails_in(1) && turn.has_slot(|turn, s| is_kept(turn, s) && turn.is_cleared(s))
    }),
    ("first edition: at β1, and not enough", |turn| {
        turn.is_in(0) && turn.has_booking(|turn, b| turn.is_at_beta1(b) && !turn.is_marked(b))
    }),
    ("first edition: at β2, and not enough", |turn| {
        turn.is_in(0) && turn.has_booking(|turn, b| turn.is_at_beta2(b) && !turn.is_marked(b))
    }),
    ("later edition: marked at β1", |turn| {
        turn.is_in(1) && turn.has_booking(|turn, b| turn.is_at_beta1(b) && turn.is_new(b))
    }),
    ("later edition: marked at β2", |turn| {
        turn.is_in(1) && turn.has_booking(|turn, b| turn.is_at_beta2(b) && turn.is_new(b))
    }),
    ("later edition: one below, and not enough", |turn| {
        let is_below = |turn: &Turn, b: usize| {
            turn.stands_alone(b) && turn.counter_of(b) + 1 == turn.after.setting.beta1
        };
        turn.is_in(1) && turn.has_booking(|turn, b| is_below(turn, b) && !turn.is_marked(b))
    }),
];

/// What only words show that no history reaches: there nobody is left who
/// earns a mark, and so a cleared counter keeps nobody from one.
pub const UNREACHED_EDITIONS: [Event; 1] = [(
    "later edition: a failed poll keeps one from a mark",
    |turn| {
        let is_kept = |turn: &Turn, b: usize| {
            let is_free = !turn.before.has_marked_rival(b) && !turn.is_marked(b);
            turn.before.earns_mark(b) && is_free
        };
        turn.fails_in(1) && turn.has_booking(is_kept)
    },
)];

impl Turn<'_> {
    pub fn new<'a>(name: u64, before: &'a Ledger, after: &'a Ledger) -> Turn<'a> {
        let polled = after.numbers[&name];
        Turn {
            before,
            after,
            polled,
            ancestry: after.ancestry(polled),
            is_success: after.bookings[polled].state == State::Chit,
        }
    }

    /// The names of what it shows.
    pub fn events(&self) -> Vec<&'static str> {
        let events = EDITIONS.iter().chain(&UNREACHED_EDITIONS);
        (events.filter(|(_, is_met)| is_met(self)))
            .map(|(event, _)| *event)
            .collect()
    }

    fn is_in(&self, edition: u16) -> bool {
        self.after.setting.edition == edition
    }

    fn fails_in(&self, edition: u16) -> bool {
        self.is_in(edition) && !self.is_success
    }

    /// Is there such a slot with bookings?
    fn has_slot(&self, is_meant: impl Fn(&Self, u16) -> bool) -> bool {
        self.after.slots.keys().any(|&s| is_meant(self, s))
    }

    /// Is there such a booking beside the genesis?
    fn has_booking(&self, is_meant: impl Fn(&Self, usize) -> bool) -> bool {
        (GENESIS + 1..self.after.bookings.len()).any(|b| is_meant(self, b))
    }

    /// The slot of the booking that was polled.
    fn own(&self) -> u16 {
        self.after.bookings[self.polled].slot
    }

    /// A slot of the ancestry that is neither its first nor its last.
    fn is_between(&self, s: u16) -> bool {
        self.members(s) > 0 && s != 0 && s != self.own()
    }

    fn counter(&self, s: u16) -> u16 {
        self.after.slots[&s].counter
    }

    fn was(&self, s: u16) -> u16 {
        self.before.slots[&s].counter
    }

    fn is_cleared(&self, s: u16) -> bool {
        self.was(s) > 0 && self.counter(s) == 0
    }

    fn is_new_last(&self, s: u16) -> bool {
        self.before.slots[&s].last != self.after.slots[&s].last
    }

    /// How many of the ancestry stand in a slot.
    fn members(&self, s: u16) -> usize {
        let bookings = self.after.slots[&s].bookings.iter();
        bookings.filter(|&b| self.ancestry.contains(b)).count()
    }

    fn counter_of(&self, b: usize) -> u16 {
        self.after.slot_of(b).counter
    }

    fn is_marked(&self, b: usize) -> bool {
        self.after.bookings[b].is_marked
    }

    /// Marked by this poll.
    fn is_new(&self, b: usize) -> bool {
        self.is_marked(b) && !self.before.bookings[b].is_marked
    }

    /// Without rivals, on parents that are all accepted.
    fn stands_alone(&self, b: usize) -> bool {
        let mut parents = self.after.bookings[b].parents.iter();
        self.after.slot_of(b).bookings.len() == 1 && parents.all(|&parent| self.is_marked(parent))
    }

    /// Only β1 can decide, and the counter is there.
    fn is_at_beta1(&self, b: usize) -> bool {
        let setting = self.after.setting;
        let is_there = self.counter_of(b) == setting.beta1 && setting.beta1 < setting.beta2;
        is_there && self.stands_alone(b)
    }

    /// Only β2 can decide, and the counter is there.
    fn is_at_beta2(&self, b: usize) -> bool {
        let slot = self.after.slot_of(b);
        let is_own = slot.preferred == b && slot.last == b && slot.bookings.len() > 1;
        let is_free = !self.before.has_marked_rival(b);
        is_own && is_free && slot.counter == self.after.setting.beta2
    }
}

#[cfg(test)]
mod tests {
    use super::*;
    use second::setting::Setting;

    /// A ledger that is led on, and all that its polls showed.
    struct Day {
        ledger: Ledger,
        met: Vec<&'static str>,
    }

    impl Day {
        fn new(edition: u16, beta1: u16, beta2: u16) -> Day {
            let setting = Setting {
                k: 1,
                a: 1,
                beta1,
                beta2,
                edition,
            };
            Day {
                ledger: Ledger::open(setting).expect("it is good"),
                met: Vec::new(),
            }
        }

        fn book(&mut self, name: u64, slot: u16, parents: &[u64]) {
            self.ledger.book(name, slot, parents).expect("it is taken");
        }

        fn poll(&mut self, name: u64, vote: u8, expected: &[&'static str]) {
            let before = self.ledger.clone();
            self.ledger.poll(name, &[vote]).expect("it is taken");
            let met = Turn::new(name, &before, &self.ledger).events();
            assert_eq!(met, expected, "poll of {name}");
            self.met.extend(met);
        }
    }

    /// 1 and 2 in slot 7, of which 2 becomes last; then 3 on 2 fails.
    fn first() -> Day {
        let mut day = Day::new(0, 1, 2);
        day.book(1, 7, &[0]);
        day.book(2, 7, &[0]);
        day.book(3, 8, &[2]);
        day.book(4, 7, &[2]);
        day.book(5, 9, &[2]);
        day.poll(2, 1, &["first edition: a new last, not counted"]);
        let leaves = "first edition: a failed poll leaves slot 0";
        day.poll(3, 0, &[leaves]);
        day.poll(5, 1, &[]);
        let own = "first edition: a failed poll leaves its own slot";
        day.poll(4, 0, &[leaves, own]);
        day
    }

    /// Counters that reach a bound and do not pass it: 1 alone in slot 7 at
    /// β1; then 3, preferred and last in slot 8, at β2.
    fn first_at_bounds() -> Day {
        let mut day = Day::new(0, 1, 2);
        day.book(1, 7, &[0]);
        day.poll(1, 1, &["first edition: at β1, and not enough"]);
        day.book(3, 8, &[0]);
        day.book(4, 8, &[0]);
        day.book(5, 9, &[3]);
        let at_1 = "first edition: at β1, and not enough";
        day.poll(3, 1, &[at_1]);
        // Slot 9 has counter 1, but 5 stands on 3.
        day.poll(5, 1, &[at_1, "first edition: at β2, and not enough"]);
        day
    }

    /// A chain of slots 7, 8, 9 and 7 again.
    fn later() -> Day {
        let counted = "later edition: a new last, counted";
        let mut day = Day::new(1, 10, 20);
        day.book(1, 7, &[0]);
        day.book(2, 8, &[1]);
        day.book(3, 9, &[2]);
        day.book(4, 7, &[3]);
        day.book(5, 10, &[0]);
        day.book(6, 11, &[4]);
        day.book(7, 9, &[0]);
        day.book(8, 12, &[0]);
        day.poll(1, 1, &[]);
        day.poll(2, 1, &[]);
        day.poll(3, 1, &[]);
        // Slot 7 is at 3, 8 at 2, 9 at 1; 7 stands beside 3 in slot 9.
        let cleared = [
            "later edition: a failed poll clears slot 0",
            "later edition: a failed poll clears its own slot",
            "later edition: a failed poll clears where another is last",
            "later edition: a failed poll clears more than 1",
            "later edition: a failed poll leaves a slot outside",
        ];
        day.poll(7, 0, &cleared);
        day.poll(
            8,
            0,
            &["later edition: a failed poll leaves a slot outside"],
        );
        // 1 and 4 are both of slot 7.
        let higher = "later edition: a new last, and the counter was higher";
        let several = "later edition: a new last of several members";
        day.poll(6, 1, &[counted, higher, several]);
        day.poll(5, 1, &[]);
        day
    }

    /// 4 stands on 3, that on 2 and that on 1, each alone; nobody is accepted.
    fn later_between() -> Day {
        let mut day = Day::new(1, 10, 20);
        for name in 1..5 {
            day.book(name, 6 + name as u16, &[name - 1]);
        }
        day.poll(1, 1, &[]);
        let slot_0 = "later edition: a failed poll clears slot 0";
        let between = "later edition: a failed poll clears a slot between";
        let outside = "later edition: a failed poll leaves a slot outside";
        day.poll(2, 0, &[slot_0, between]);
        day.poll(3, 1, &[]);
        day.book(5, 20, &[0]);
        day.poll(5, 0, &[slot_0, outside]);
        day.book(6, 21, &[2]);
        // Slot 8 is that of its parent, slot 7 is beyond; slot 9 is outside.
        let beyond = "later edition: a failed poll clears beyond its parents";
        day.poll(6, 0, &[between, beyond, outside]);
        day
    }

    /// β1 and β2 are reached: 1 by two chits, alone; then 3 by three, beside 4.
    fn later_at_bounds() -> Day {
        let below = "later edition: one below, and not enough";
        let mut day = Day::new(1, 2, 3);
        day.book(1, 7, &[0]);
        day.book(2, 8, &[1]);
        day.poll(1, 1, &[below]);
        // 2 is one below now, on 1, which is marked.
        day.poll(2, 1, &["later edition: marked at β1", below]);
        let counted = "later edition: a new last, counted";
        day.book(4, 9, &[0]);
        day.book(3, 9, &[0]);
        day.book(5, 10, &[3]);
        day.book(6, 10, &[3]);
        day.poll(3, 1, &[counted, below]);
        day.poll(5, 1, &[below]);
        let at_2 = "later edition: marked at β2";
        day.poll(6, 1, &[counted, at_2, below]);
        // A failed poll on 1 leaves it its mark.
        day.book(9, 13, &[1]);
        let cleared = [
            "later edition: a failed poll clears slot 0",
            "later edition: a failed poll clears a slot between",
            "later edition: a failed poll clears more than 1",
            "later edition: a failed poll leaves a slot outside",
            "later edition: a failed poll clears under a mark",
            below,
        ];
        day.poll(9, 0, &cleared);
        day
    }

    #[test]
    fn each_event_is_what_its_name_says() {
        let days = [
            first(),
            first_at_bounds(),
            later(),
            later_between(),
            later_at_bounds(),
        ];
        let met: Vec<&str> = days.into_iter().flat_map(|day| day.met).collect();
        for (event, _) in EDITIONS {
            assert!(met.contains(&event), "{event}");
        }
        for (event, _) in UNREACHED_EDITIONS {
            assert!(!met.contains(&event), "{event}");
        }
    }

    /// A counter at β1 that no poll made, and a poll on it that fails.
    #[test]
    fn the_unreached_event_is_what_its_name_says() {
        let mut day = Day::new(1, 1, 2);
        day.book(1, 7, &[0]);
        day.book(2, 8, &[1]);
        day.ledger.slots.get_mut(&7).expect("1 is there").counter = 1;
        let expected = [
            "later edition: a failed poll clears a slot between",
            "later edition: one below, and not enough",
            "later edition: a failed poll keeps one from a mark",
        ];
        day.poll(2, 0, &expected);
    }
}

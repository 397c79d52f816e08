//! What the runs have shown of marks: what bookings and polls did with them,
//! and where they part from acceptance as it was.

use crate::call::Call;
use crate::old_rule::accepted;
use second::ledger::{Ledger, Reading, State};

/// A taken call, and the ledger before it and after.
pub struct Moment<'a> {
    call: &'a Call,
    before: &'a Ledger,
    after: &'a Ledger,
    /// Who would be accepted without marks, before and after.
    old_before: Vec<bool>,
    old_after: Vec<bool>,
    /// Who has a mark now and had none.
    newly: Vec<usize>,
}

/// A name, and whether a moment is a case of it.
type Event = (&'static str, fn(&Moment) -> bool);

/// What a history shows.
pub const EVENTS: [Event; 15] = [
    ("a late rival", |moment| {
        let late = moment.booked();
        late.is_some_and(|b| moment.after.has_marked_rival(b))
    }),
    ("a booking that would drop an acceptance", |moment| {
        moment.booked().is_some() && moment.is_dropped()
    }),
    ("a poll that would drop an acceptance", |moment| {
        moment.polled().is_some() && moment.is_dropped()
    }),
    ("a poll that marks nobody", |moment| {
        moment.polled().is_some() && moment.newly.is_empty()
    }),
    ("a poll that marks one", |moment| moment.newly.len() == 1),
    ("a poll that marks several", |moment| moment.newly.len() > 1),
    ("a poll that marks parent and child", |moment| {
        moment.marks(|b| {
            let mut parents = moment.after.bookings[b].parents.iter();
            parents.any(|parent| moment.newly.contains(parent))
        })
    }),
    ("a poll that marks outside the ancestry", |moment| {
        moment.polled().is_some_and(|polled| {
            let ancestry = moment.after.ancestry(polled);
            moment.marks(|b| !ancestry.contains(&b))
        })
    }),
    ("a poll that marks one without rivals", |moment| {
        moment.marks(|b| moment.after.slot_of(b).bookings.len() == 1)
    }),
    ("a poll that marks one of several rivals", |moment| {
        moment.marks(|b| moment.after.slot_of(b).bookings.len() > 1)
    }),
    ("a poll that marks on an unmarked parent", |moment| {
        moment.marks(|b| moment.has_parent(b, |p| !moment.after.bookings[p].is_marked))
    }),
    ("a poll that marks for a parent's mark alone", |moment| {
        moment.marks(|b| !moment.old_after[b])
    }),
    ("a poll where a rival's mark is in the way", |moment| {
        let bookings = 0..moment.after.bookings.len();
        let is_unmarked = |b: &usize| !moment.after.bookings[*b].is_marked;
        moment.polled().is_some()
            && (bookings.filter(is_unmarked)).any(|b| moment.after.earns_mark(b))
    }),
    ("accepted for its mark alone", |moment| {
        (moment.read()).is_some_and(|b| moment.is_marked(b) && !moment.old_after[b])
    }),
    ("not accepted for another's mark alone", |moment| {
        (moment.read()).is_some_and(|b| !moment.is_marked(b) && moment.old_after[b])
    }),
];

/// What only words show that no history reaches, or whose marks a file told:
/// after a poll there is nobody left who earns a mark, and a booking earns none for
/// anybody, so that in a history a failed poll finds nobody to mark.
pub const UNREACHED_EVENTS: [Event; 3] = [
    ("a failed poll that marks", |moment| {
        moment.is_failed() && !moment.newly.is_empty()
    }),
    ("a failed poll that marks outside the ancestry", |moment| {
        let polled = moment.polled().filter(|_| moment.is_failed());
        polled.is_some_and(|polled| {
            let ancestry = moment.after.ancestry(polled);
            moment.marks(|b| !ancestry.contains(&b))
        })
    }),
    ("a booking where somebody earns a mark", |moment| {
        let unmarked = |b: &usize| !moment.after.bookings[*b].is_marked;
        let mut bookings = (0..moment.after.bookings.len()).filter(unmarked);
        let is_free = |b| moment.after.earns_mark(b) && !moment.after.has_marked_rival(b);
        moment.booked().is_some() && bookings.any(is_free)
    }),
];

impl Moment<'_> {
    pub fn new<'a>(call: &'a Call, before: &'a Ledger, after: &'a Ledger) -> Moment<'a> {
        let had_one = |b: usize| before.bookings.get(b).is_some_and(|b| b.is_marked);
        let newly = (0..after.bookings.len())
            .filter(|&b| after.bookings[b].is_marked && !had_one(b))
            .collect();
        Moment {
            call,
            before,
            after,
            old_before: accepted(before),
            old_after: accepted(after),
            newly,
        }
    }

    /// Is this a moment that could show something?
    pub fn is_one(call: &Call) -> bool {
        matches!(
            call,
            Call::Book { .. } | Call::Poll { .. } | Call::Read(Reading::Accepted, _)
        )
    }

    /// The names of what it shows, after a history or not.
    pub fn events(&self, is_reached: bool) -> Vec<&'static str> {
        let events = if is_reached {
            &EVENTS[..]
        } else {
            &UNREACHED_EVENTS
        };
        (events.iter())
            .filter(|(_, is_met)| is_met(self))
            .map(|(event, _)| *event)
            .collect()
    }

    fn number(&self, name: u64) -> usize {
        self.after.numbers[&name]
    }

    fn booked(&self) -> Option<usize> {
        match self.call {
            Call::Book { name, .. } => Some(self.number(*name)),
            _ => None,
        }
    }

    fn polled(&self) -> Option<usize> {
        match self.call {
            Call::Poll { name, .. } => Some(self.number(*name)),
            _ => None,
        }
    }

    /// Whose acceptance was asked for.
    fn read(&self) -> Option<usize> {
        match self.call {
            Call::Read(Reading::Accepted, name) => Some(self.number(*name)),
            _ => None,
        }
    }

    fn is_failed(&self) -> bool {
        self.polled()
            .is_some_and(|b| self.after.bookings[b].state == State::Polled)
    }

    fn is_marked(&self, b: usize) -> bool {
        self.after.bookings[b].is_marked
    }

    fn marks(&self, is_meant: impl Fn(usize) -> bool) -> bool {
        self.newly.iter().any(|&b| is_meant(b))
    }

    fn has_parent(&self, b: usize, is_meant: impl Fn(usize) -> bool) -> bool {
        let mut parents = self.after.bookings[b].parents.iter();
        parents.any(|&parent| is_meant(parent))
    }

    /// Was somebody accepted who would no longer be, were there no mark?
    fn is_dropped(&self) -> bool {
        let is_dropped = |b: usize| {
            self.before.bookings[b].is_marked && self.old_before[b] && !self.old_after[b]
        };
        (0..self.old_before.len()).any(is_dropped)
    }
}

#[cfg(test)]
mod tests {
    use super::*;
    use second::setting::Setting;

    /// A ledger that is led on call by call, and all that it showed.
    struct Day {
        ledger: Ledger,
        is_reached: bool,
        met: Vec<&'static str>,
    }

    impl Day {
        fn new(beta1: u16, beta2: u16) -> Day {
            let setting = Setting {
                k: 1,
                a: 1,
                beta1,
                beta2,
                edition: 0,
            };
            Day {
                ledger: Ledger::open(setting).expect("it is good"),
                is_reached: true,
                met: Vec::new(),
            }
        }

        fn shows(&mut self, call: Call, before: Ledger, expected: &[&'static str]) {
            assert!(Moment::is_one(&call));
            let moment = Moment::new(&call, &before, &self.ledger);
            let met = moment.events(self.is_reached);
            assert_eq!(met, expected, "{call:?}");
            self.met.extend(met);
        }

        fn book(&mut self, name: u64, slot: u16, parent: u64, expected: &[&'static str]) {
            let before = self.ledger.clone();
            let parents = vec![parent];
            (self.ledger.book(name, slot, &parents)).expect("it is taken");
            let call = Call::Book {
                name,
                slot,
                parents,
            };
            self.shows(call, before, expected);
        }

        fn poll(&mut self, name: u64, vote: u8, expected: &[&'static str]) {
            let before = self.ledger.clone();
            let votes = vec![vote];
            self.ledger.poll(name, &votes).expect("it is taken");
            self.shows(Call::Poll { name, votes }, before, expected);
        }

        fn accepted(&mut self, name: u64, expected: &[&'static str]) {
            let call = Call::Read(Reading::Accepted, name);
            self.shows(call, self.ledger.clone(), expected);
        }
    }

    const NOBODY: &str = "a poll that marks nobody";
    const ONE: &str = "a poll that marks one";
    const ALONE: &str = "a poll that marks one without rivals";

    /// P10, then a rival that comes late and overtakes.
    fn overtaken() -> Day {
        let mut day = Day::new(1, 2);
        day.book(1, 7, 0, &[]);
        day.book(2, 8, 1, &[]);
        day.poll(1, 1, &[NOBODY]);
        day.poll(2, 1, &[ONE, ALONE]);
        day.accepted(1, &[]);
        let late = ["a late rival", "a booking that would drop an acceptance"];
        day.book(3, 7, 0, &late);
        day.accepted(1, &["accepted for its mark alone"]);
        for name in 4..7 {
            day.book(name, 7 + name as u16, 3, &[]);
        }
        for name in 3..6 {
            day.poll(name, 1, &[NOBODY]);
        }
        day.accepted(3, &[]);
        let in_the_way = "a poll where a rival's mark is in the way";
        day.poll(6, 1, &[NOBODY, in_the_way]);
        day.accepted(3, &["not accepted for another's mark alone"]);
        day
    }

    /// One poll brings 1 and 3 their marks, and 3 is not built upon by it.
    fn outside() -> Day {
        let mut day = Day::new(1, 2);
        for (name, slot, parent) in [(1, 7, 0), (2, 7, 0), (3, 8, 1), (4, 9, 3), (5, 10, 1)] {
            day.book(name, slot, parent, &[]);
        }
        day.poll(3, 1, &[NOBODY]);
        day.poll(4, 1, &[NOBODY]);
        let expected = [
            "a poll that marks several",
            "a poll that marks parent and child",
            "a poll that marks outside the ancestry",
            ALONE,
            "a poll that marks one of several rivals",
        ];
        day.poll(5, 1, &expected);
        // A chit for 2, and 1 is no longer last.
        day.poll(2, 1, &["a poll that would drop an acceptance", NOBODY]);
        day
    }

    /// 3 passes β2 alone in its slot; 1 and 2 take turns as last below it.
    fn on_unmarked() -> Day {
        let mut day = Day::new(1, 2);
        for (name, slot, parent) in [(1, 7, 0), (2, 7, 0), (3, 8, 1)] {
            day.book(name, slot, parent, &[]);
        }
        for (name, slot, parent) in [(4, 9, 3), (5, 9, 3), (6, 10, 2)] {
            day.book(name, slot, parent, &[]);
        }
        for name in [3, 2, 4, 6] {
            day.poll(name, 1, &[NOBODY]);
        }
        let on_unmarked = "a poll that marks on an unmarked parent";
        day.poll(5, 1, &[ONE, ALONE, on_unmarked]);
        day
    }

    /// 2 stands on 1, which has a mark and a rival, and β2 is far.
    fn on_a_mark() -> Day {
        let mut day = Day::new(1, 510);
        day.book(1, 7, 0, &[]);
        day.book(2, 8, 1, &[]);
        day.poll(1, 1, &[NOBODY]);
        day.poll(2, 1, &[ONE, ALONE]);
        let late = ["a late rival", "a booking that would drop an acceptance"];
        day.book(3, 7, 0, &late);
        day.book(4, 9, 2, &[]);
        let for_a_mark = "a poll that marks for a parent's mark alone";
        day.poll(4, 1, &[ONE, ALONE, for_a_mark]);
        day
    }

    #[test]
    fn each_event_is_what_its_name_says() {
        let days = [overtaken(), outside(), on_unmarked(), on_a_mark()];
        let met: Vec<&str> = days.into_iter().flat_map(|day| day.met).collect();
        for (event, _) in EVENTS {
            assert!(met.contains(&event), "{event}");
        }
    }

    /// A counter above β1 that no poll made.
    #[test]
    fn each_unreached_event_is_what_its_name_says() {
        let mut day = Day::new(1, 2);
        day.book(1, 7, 0, &[]);
        day.book(2, 8, 0, &[]);
        day.is_reached = false;
        day.book(3, 9, 0, &[]);
        day.poll(3, 0, &[]);
        let slot = day.ledger.slots.get_mut(&7).expect("1 is there");
        slot.counter = 2;
        day.book(4, 10, 0, &["a booking where somebody earns a mark"]);
        let outside = "a failed poll that marks outside the ancestry";
        day.poll(2, 0, &["a failed poll that marks", outside]);
        day.poll(4, 0, &[]);
        // Of itself.
        day.book(5, 11, 0, &[]);
        let slot = day.ledger.slots.get_mut(&11).expect("5 is there");
        slot.counter = 2;
        day.poll(5, 255, &["a failed poll that marks"]);
        for (event, _) in UNREACHED_EVENTS {
            assert!(day.met.contains(&event), "{event}");
        }
    }
}

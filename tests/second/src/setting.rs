//! The setting of a ledger.

use crate::layout::{A, BETA1, BETA2, EDITION, K};

/// k votes in a poll, a yes votes needed, the two acceptance bounds, and the
/// edition of the rules that the ledger follows: 0 the first, 1 the later.
#[derive(Clone, Copy, Debug, PartialEq, Eq)]
pub struct Setting {
    pub k: u16,
    pub a: u16,
    pub beta1: u16,
    pub beta2: u16,
    pub edition: u16,
}

impl Setting {
    /// The setting of the paper, in the first edition.
    pub const PAPER: Setting = Setting {
        k: 10,
        a: 8,
        beta1: 11,
        beta2: 150,
        edition: 0,
    };
    pub const MOST_VOTES: u16 = 64;
    pub const MOST_BETA: u16 = 510;
    pub const LATER: u16 = 1;

    /// The setting that a header holds, good or not.
    pub fn of_words(ws: &[u16]) -> Setting {
        Setting {
            k: ws[K],
            a: ws[A],
            beta1: ws[BETA1],
            beta2: ws[BETA2],
            edition: ws[EDITION],
        }
    }

    /// Good numbers, and an edition that there is.
    pub fn is_good(&self) -> bool {
        self.has_good_numbers() && self.has_edition()
    }

    /// k within its limits, a more than half of k and not above it,
    /// the bounds in order and within theirs.
    pub fn has_good_numbers(&self) -> bool {
        let votes = (1..=Self::MOST_VOTES).contains(&self.k);
        let majority = self.a <= self.k && 2 * u32::from(self.a) > u32::from(self.k);
        let bounds = 1 <= self.beta1 && self.beta1 <= self.beta2 && self.beta2 <= Self::MOST_BETA;
        votes && majority && bounds
    }

    /// There are two editions.
    pub fn has_edition(&self) -> bool {
        self.edition <= Self::LATER
    }

    pub fn is_later(&self) -> bool {
        self.edition == Self::LATER
    }

    /// The counter of a slot whose last has just become another. The later
    /// edition counts the poll that made it so.
    pub fn restart(&self) -> u16 {
        u16::from(self.is_later())
    }

    /// Has a counter done enough for a bound? It has to pass the bound in the
    /// first edition, and to reach it in the later one.
    pub fn is_enough(&self, counter: u16, beta: u16) -> bool {
        if self.is_later() {
            counter >= beta
        } else {
            counter > beta
        }
    }
}

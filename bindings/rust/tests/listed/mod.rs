//! The ledger of the example in `README.md`, and its setting, with either edition. What several test files begin with.
use filzhammer::*;

pub const SETTING: Setting = Setting {
    k: 3,
    a: 2,
    beta1: 1,
    beta2: 2,
    edition: Setting::FIRST_EDITION,
};

pub const LATER: Setting = Setting {
    edition: Setting::LATER_EDITION,
    ..SETTING
};

/// With so many of its polls, of four. Its numbers are its names.
pub fn listed(polls: usize) -> [u16; WORDS] {
    listed_by(SETTING, polls)
}

/// The same by another setting with three votes in a poll.
pub fn listed_by(setting: Setting, polls: usize) -> [u16; WORDS] {
    let mut ws = [0; WORDS];
    open(&mut ws, setting).unwrap();
    book(&mut ws, 1, 7, &[0]).unwrap();
    book(&mut ws, 2, 7, &[0]).unwrap();
    book(&mut ws, 3, 9, &[1]).unwrap();
    book(&mut ws, 4, 10, &[1, 2]).unwrap();
    let votes = [
        (2, [YES, YES, NO]),
        (3, [YES, SILENT, SILENT]),
        (4, [YES, YES, YES]),
        (1, [YES, YES, SILENT]),
    ];
    for (name, votes) in &votes[..polls] {
        poll(&mut ws, *name, votes).unwrap();
    }
    ws
}

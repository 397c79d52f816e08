//! Booking names of several kinds.

use crate::prng::Prng;
use second::index::{home, CELLS};
use second::layout::name_of;

#[derive(Clone, Copy, Debug)]
pub enum Names {
    /// 1, 2, 3 and on.
    Counting,
    /// Any of the 2^64.
    Any,
    /// Names that differ in a word or two, and have the same words in
    /// another order.
    Near,
    /// Names up to 2^64 - 1, counted down.
    Highest,
    /// Names that have the last cells of an index for homes, and so lack room
    /// there.
    Crowded,
}

impl Names {
    pub const ALL: [Names; 5] = [
        Names::Counting,
        Names::Any,
        Names::Near,
        Names::Highest,
        Names::Crowded,
    ];

    /// A name that is not taken.
    pub fn fresh(self, prng: &mut Prng, is_taken: impl Fn(u64) -> bool) -> u64 {
        (0..)
            .map(|tries| match self {
                Names::Counting => 1 + tries,
                Names::Highest => u64::MAX - tries,
                Names::Any | Names::Crowded => prng.draw(),
                Names::Near => name_of(&[(); 4].map(|()| prng.pick(&NEAR_WORDS))),
            })
            .find(|&name| !is_taken(name) && self.is_meant(name))
            .expect("there are more names than bookings")
    }

    fn is_meant(self, name: u64) -> bool {
        !matches!(self, Names::Crowded) || home(name) >= CELLS - CROWDED_CELLS
    }
}

/// How many of the last cells are homes of names that crowd there.
const CROWDED_CELLS: usize = 4;

const NEAR_WORDS: [u16; 8] = [0, 1, 2, 255, 256, 32768, 65534, 65535];

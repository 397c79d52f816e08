//! Where each word of the workspace stands.
//!
//! ```text
//! header       8 words   n, k, a, β1, β2, p, edition, 0
//! records    512 × 13    name (4, highest part first), slot, parents (4),
//!                        state, confidence, ordinal, mark
//! entries    256 × 4     preferred, last, counter, how many bookings
//! ```

pub const HEADER_WORDS: usize = 8;
pub const RECORD_WORDS: usize = 13;
pub const ENTRY_WORDS: usize = 4;

/// The most bookings, the genesis among them.
pub const BOOKINGS: usize = 512;
/// The number of slots, slot 0 among them.
pub const SLOTS: usize = 256;
/// The most parents of one booking.
pub const PARENTS: usize = 4;

pub const ENTRIES_START: usize = HEADER_WORDS + BOOKINGS * RECORD_WORDS;
/// The length of a workspace.
pub const WORDS: usize = ENTRIES_START + SLOTS * ENTRY_WORDS;

/// Words of the header.
pub const N: usize = 0;
pub const K: usize = 1;
pub const A: usize = 2;
pub const BETA1: usize = 3;
pub const BETA2: usize = 4;
pub const P: usize = 5;
pub const EDITION: usize = 6;
pub const REST: usize = 7;

/// Words of a record.
pub const NAME: usize = 0;
pub const SLOT: usize = 4;
pub const PARENT: usize = 5;
pub const STATE: usize = 9;
pub const CONFIDENCE: usize = 10;
pub const ORDINAL: usize = 11;
pub const MARK: usize = 12;

/// Words of a slot entry.
pub const PREFERRED: usize = 0;
pub const LAST: usize = 1;
pub const COUNTER: usize = 2;
pub const COUNT: usize = 3;

/// Stands where no booking's number stands.
pub const UNUSED: u16 = 65535;
pub const EMPTY_ENTRY: [u16; ENTRY_WORDS] = [UNUSED, UNUSED, 0, 0];

/// Where the record of booking `b` starts.
pub fn record(b: usize) -> usize {
    HEADER_WORDS + b * RECORD_WORDS
}

/// Where the entry of slot `s` starts.
pub fn entry(s: usize) -> usize {
    ENTRIES_START + s * ENTRY_WORDS
}

/// The four words of a name, highest part first.
pub fn name_words(name: u64) -> [u16; 4] {
    [48, 32, 16, 0].map(|shift| (name >> shift) as u16)
}

/// The name that four words hold.
pub fn name_of(words: &[u16]) -> u64 {
    words
        .iter()
        .fold(0, |name, &word| (name << 16) | u64::from(word))
}

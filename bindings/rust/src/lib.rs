//! A ledger of bookings that compete for slots, by the votes of a network of stations.
//!
//! A caller lends [`WORDS`] words of 16 bits. [`open`] makes them a ledger, [`book`] enters a booking, [`poll`] enters the
//! votes of a completed poll, and the readings [`query`], [`accepted`], [`lead`], [`confidence`] and [`size`] answer by name.
//! [`write()`] writes the ledger as a day file, into bytes that are lent too, and [`read`] makes a ledger of such a file. It has
//! two forms, and [`move_from`] leads from each to the other.
//! [`index_find`] tells a booking's number by its name, from an index of [`CELLS`] words that are lent as well.
//! Nothing is allocated and nothing is kept outside the lent words: copy them, store them, or have as many ledgers as you like.
//!
//! ```
//! use filzhammer::{accepted, book, open, poll, query, Refusal, Setting, WORDS, YES};
//!
//! let mut ledger = [0u16; WORDS];
//! open(&mut ledger, Setting { k: 1, a: 1, beta1: 1, beta2: 2, edition: 0 })?;
//! book(&mut ledger, 1, 7, &[0])?; // name 1, slot 7, on the genesis
//! book(&mut ledger, 2, 8, &[1])?;
//! poll(&mut ledger, 1, &[YES])?;
//! assert_eq!(accepted(&ledger, 1), Ok(0)); // one success is not above beta1
//! poll(&mut ledger, 2, &[YES])?; // which also speaks for 1
//! assert_eq!(accepted(&ledger, 1), Ok(1));
//! assert_eq!(query(&ledger, 3), Err(Refusal::UnknownName));
//! book(&mut ledger, 3, 7, &[0])?; // a rival that comes too late
//! assert_eq!(accepted(&ledger, 1), Ok(1));
//! # Ok::<(), Refusal>(())
//! ```
//!
//! # Editions
//!
//! The rules have two editions, and a ledger goes by the one that its [`Setting`] names, [`Setting::FIRST_EDITION`] or
//! [`Setting::LATER_EDITION`]. They differ in three places. Where another booking becomes a slot's last, the first edition sets
//! the slot's counter to 0 and the later one to 1. For an acceptance the first wants a counter above `beta1` or `beta2`, and the
//! later one a counter of at least that. And a failed poll leaves all counters in the first edition, while in the later one it
//! sets those of all slots in its ancestry to 0. Confidence and preference are the same in both. Stations whose ledgers are to
//! agree take the same edition.
//!
//! ```
//! use filzhammer::{accepted, book, open, poll, Refusal, Setting, NO, WORDS, YES};
//!
//! let mut ledger = [0u16; WORDS];
//! let setting = Setting { k: 1, a: 1, beta1: 1, beta2: 2, edition: Setting::LATER_EDITION };
//! open(&mut ledger, setting)?;
//! book(&mut ledger, 1, 7, &[0])?;
//! book(&mut ledger, 2, 8, &[1])?;
//! poll(&mut ledger, 1, &[YES])?;
//! assert_eq!(accepted(&ledger, 1), Ok(1)); // one success is at least beta1
//! let counter = 6664 + 4 * 7 + 2; // of slot 7
//! assert_eq!(ledger[counter], 1);
//! poll(&mut ledger, 2, &[NO])?; // which fails, and rests on 1
//! assert_eq!(ledger[counter], 0);
//! assert_eq!(accepted(&ledger, 1), Ok(1)); // who is accepted stays so
//! assert_eq!(open(&mut ledger, Setting { edition: 2, ..setting }), Err(Refusal::BadSetting));
//! # Ok::<(), Refusal>(())
//! ```
//!
//! # What is guaranteed
//!
//! The library behind these functions is proved against its rules. In short:
//!
//! 1. **Every call ends in an answer, and a refused call leaves no trace.** Any words and any arguments may be passed; nothing
//!    has to be tested first, and no call panics. Which refusal is given is settled for every input, the first of the call's
//!    list that applies, and so is the row that it names. Then no word has changed, no byte of a buffer for a file, and no cell
//!    of an index.
//!    Whatever a taken call leaves is again a sound ledger.
//! 2. **Answers and words are those of the rules, to the last word.** The rules say what an ancestry is (the booking and
//!    everything reached through parents, each once), when a poll succeeds and what it writes, what a query answers,
//!    when a booking is accepted, each byte of a day file, and each cell of an index. For the same words and arguments there is
//!    one possible outcome, and it is this one. Of the bookings of a slot never more than one is accepted at a time, and who is
//!    accepted stays so until the next taken opening or reading of a day file. By the built index a name is found exactly if it
//!    is booked.
//! 3. **Confidence is earned.** Over every run since the last taken opening or reading of a day file, whatever calls came in
//!    whatever order: a booking's confidence is the number of successful polls of bookings that have it in their ancestry, those
//!    of the file among them; all confidences together are the sum of those ancestries' sizes; and no booking has more
//!    confidence than the preferred one of its slot.
//!
//! What the proofs do not cover is this crate's own few lines, which pass slices on and turn numbers into [`Refusal`]; they are
//! tested. And a ledger is as good as its words: while another program can write there, soundness is tested again at every call,
//! but damage that happens to look like a ledger is taken for one.
//!
//! # Damage
//!
//! Every call on a ledger but [`open`] and [`read`] first tests all words.
//! [`DamagedHeader`](Refusal::DamagedHeader) says that the header breaks a rule,
//! [`DamagedRecord`](Refusal::DamagedRecord) that the header is right and a record breaks one,
//! [`DamagedSlot`](Refusal::DamagedSlot) that only slot entries do. The last two carry a row: the lowest record's number, or the
//! lowest slot, that breaks a rule. That row doesn't fit the others; the word that was hit may stand elsewhere.
//!
//! The header has 8 words, each of the 512 records 13 and each of the 256 slot entries 4. The last but one of the header is the
//! edition. The last word of a record is its mark, 1 if the booking is accepted.
//!
//! ```
//! use filzhammer::{book, open, poll, query, Refusal, Setting, WORDS, YES};
//!
//! let mut ledger = [0u16; WORDS];
//! assert_eq!(query(&ledger, 0), Err(Refusal::DamagedHeader)); // never opened: n is 0
//! open(&mut ledger, Setting { k: 1, a: 1, beta1: 1, beta2: 2, edition: 0 })?;
//! book(&mut ledger, 1, 7, &[0])?;
//! book(&mut ledger, 2, 8, &[1])?;
//! poll(&mut ledger, 2, &[YES])?; // the one chit, so 0, 1 and 2 have confidence 1
//! let good = ledger;
//!
//! ledger[8 + 13 * 2 + 5] = 2; // booking 2 would rest on itself
//! assert_eq!(query(&ledger, 1), Err(Refusal::DamagedRecord(2)));
//! assert_eq!(query(&ledger, 1).unwrap_err().row(), Some(2));
//!
//! ledger = good;
//! ledger[8 + 13 * 2 + 9] = 1; // no chit is left, so no confidence may exceed 0: 0, 1 and 2 break it
//! assert_eq!(query(&ledger, 1), Err(Refusal::DamagedRecord(0)));
//!
//! ledger = good;
//! ledger[8 + 13 + 12] = 2; // the mark of booking 1, which is 0 or 1
//! assert_eq!(query(&ledger, 1), Err(Refusal::DamagedRecord(1)));
//!
//! ledger = good;
//! ledger[6664 + 4 * 7 + 2] = 4; // the counter of slot 7, above the number of chits
//! assert_eq!(query(&ledger, 1), Err(Refusal::DamagedSlot(7)));
//!
//! ledger = good;
//! assert_eq!(query(&ledger, 1), Ok(1));
//! # Ok::<(), Refusal>(())
//! ```
//!
//! A refused call has changed nothing, so the words can still be looked at. Put a good copy back, read a day file, or open anew.
//!
//! # The day file
//!
//! [`write()`] writes today's ledger as bytes, to hand over to a neighbour. A file has one of two forms: [`Form::First`] has
//! three sections, and [`Form::Second`] a fourth behind the same three. Each section stands after its count. A number takes two
//! bytes and a name eight, the highest byte first.
//!
//! 1. 4, then k, a, beta1 and beta2; or, with the later edition, 5, then these four and the edition, 1.
//! 2. How many bookings there are beside the genesis, then for each, from number 1 on: its name, its slot, how many parents it
//!    has, and the parents' numbers.
//! 3. How many polls were taken, then for each, in that order: the booking's number, and 1 if the poll succeeded or 0.
//! 4. In the second form alone: how many bookings are accepted, then their numbers in rising order, from the genesis on.
//!
//! ```
//! use filzhammer::{book, open, poll, write, Form, Refusal, Setting, NO, SECOND_FILE_MOST, WORDS, YES};
//!
//! let mut ledger = [0u16; WORDS];
//! open(&mut ledger, Setting { k: 1, a: 1, beta1: 1, beta2: 2, edition: 0 })?;
//! book(&mut ledger, 0x0102_0304_0506_0708, 7, &[0])?; // number 1
//! book(&mut ledger, 1, 255, &[0x0102_0304_0506_0708, 0])?; // number 2
//! poll(&mut ledger, 1, &[YES])?; // of number 2
//! poll(&mut ledger, 0x0102_0304_0506_0708, &[NO])?; // of number 1
//!
//! let mut room = [0u8; SECOND_FILE_MOST]; // enough for every ledger, in either form
//! let length = write(&ledger, Form::Second, &mut room)?;
//! let expected = [
//!     0, 4, 0, 1, 0, 1, 0, 1, 0, 2, // the setting
//!     0, 2, // two bookings
//!     1, 2, 3, 4, 5, 6, 7, 8, 0, 7, 0, 1, 0, 0, // the name, slot 7, one parent: 0, the genesis
//!     0, 0, 0, 0, 0, 0, 0, 1, 0, 255, 0, 2, 0, 1, 0, 0, // the name 1, slot 255, two parents: 1 and 0
//!     0, 2, // two polls
//!     0, 2, 0, 1, // the first was of number 2, and succeeded
//!     0, 1, 0, 0, // the second was of number 1, and did not
//!     0, 1, 0, 0, // one is accepted: number 0, the genesis
//! ];
//! assert_eq!(room[..length], expected);
//! assert_eq!(write(&ledger, Form::Second, &mut room[..length - 1]), Err(Refusal::ShortBuffer));
//!
//! assert_eq!(write(&ledger, Form::First, &mut room), Ok(length - 4));
//! assert_eq!(room[..length - 4], expected[..length - 4]);
//! # Ok::<(), Refusal>(())
//! ```
//!
//! Confidences, preferences and single votes are in neither: they follow from the bookings and the outcomes, or no longer
//! matter. Who is accepted isn't in the first form, and may come out otherwise where that is read. `docs/DAYFILE.md` of the
//! repository explains a file byte by byte.
//!
//! [`read`] is the way back: the neighbour's words become the ledger that the file tells of, and the day goes on there.
//!
//! ```
//! use filzhammer::{book, confidence, open, poll, read, write, Form, Refusal, Setting, SECOND_FILE_MOST, WORDS, YES};
//!
//! let mut ours = [0u16; WORDS];
//! open(&mut ours, Setting { k: 1, a: 1, beta1: 1, beta2: 2, edition: 0 })?;
//! book(&mut ours, 1, 7, &[0])?;
//! book(&mut ours, 2, 8, &[1])?;
//! poll(&mut ours, 2, &[YES])?;
//! let mut file = [0u8; SECOND_FILE_MOST];
//! let length = write(&ours, Form::Second, &mut file)?;
//!
//! let mut theirs = [9u16; WORDS]; // any words will do
//! read(&mut theirs, Form::Second, &file[..length])?;
//! assert_eq!(theirs, ours);
//! assert_eq!(confidence(&theirs, 1), Ok(1)); // earned by the poll of 2, which is in the file
//! poll(&mut theirs, 1, &[YES])?;
//! assert_eq!(poll(&mut theirs, 2, &[YES]), Err(Refusal::NotWaiting)); // it was polled before the handover
//!
//! let cut_off = read(&mut theirs, Form::Second, &file[..length - 1]);
//! assert_eq!(cut_off, Err(Refusal::BadFile)); // and the ledger stays
//! assert_eq!(confidence(&theirs, 1), Ok(2));
//! # Ok::<(), Refusal>(())
//! ```
//!
//! A file has all bookings before all polls, and where the first form is read, who is accepted is found out by the polls in that
//! order. So a booking that was accepted before its rival came has the rival from the start. It may not be accepted at the
//! neighbour's, and the rival may be in its stead. The second form tells who is accepted, and is the one to send:
//!
//! ```
//! use filzhammer::{accepted, book, open, poll, read, write, Form, Refusal, Setting, SECOND_FILE_MOST, WORDS, YES};
//!
//! let mut ours = [0u16; WORDS];
//! open(&mut ours, Setting { k: 1, a: 1, beta1: 1, beta2: 2, edition: 0 })?;
//! book(&mut ours, 1, 7, &[0])?;
//! book(&mut ours, 2, 8, &[1])?;
//! poll(&mut ours, 1, &[YES])?;
//! poll(&mut ours, 2, &[YES])?; // 1 is alone in its slot, and its counter is above beta1
//! book(&mut ours, 3, 7, &[0])?; // no longer
//! assert_eq!(accepted(&ours, 1), Ok(1));
//!
//! let mut file = [0u8; SECOND_FILE_MOST];
//! let mut theirs = [0u16; WORDS];
//! let length = write(&ours, Form::First, &mut file)?;
//! read(&mut theirs, Form::First, &file[..length])?;
//! assert_eq!(accepted(&theirs, 1), Ok(0)); // not alone, and the counter is not above beta2
//!
//! let length = write(&ours, Form::Second, &mut file)?;
//! read(&mut theirs, Form::Second, &file[..length])?;
//! assert_eq!(accepted(&theirs, 1), Ok(1)); // it is in the file
//! # Ok::<(), Refusal>(())
//! ```
//!
//! [`move_from`] makes a file of one form into one of the other, for neighbours of which one knows only the first. From the first
//! form it adds who is accepted where that is read; from the second it refuses to drop what reading the first form wouldn't give:
//!
//! ```
//! use filzhammer::{book, move_from, open, poll, write, Form, Refusal, Setting, FILE_MOST, SECOND_FILE_MOST, WORDS, YES};
//!
//! let mut ledger = [0u16; WORDS];
//! open(&mut ledger, Setting { k: 1, a: 1, beta1: 1, beta2: 2, edition: 0 })?;
//! book(&mut ledger, 1, 7, &[0])?;
//! book(&mut ledger, 2, 8, &[1])?;
//! poll(&mut ledger, 1, &[YES])?;
//! poll(&mut ledger, 2, &[YES])?; // 1 is accepted
//! let (mut first, mut second) = ([0u8; FILE_MOST], [0u8; SECOND_FILE_MOST]);
//! let length = write(&ledger, Form::Second, &mut second)?;
//! let shorter = move_from(Form::Second, &second[..length], &mut first)?; // no rival came, so nothing is lost
//! assert_eq!(shorter, length - 2 - 2 * 2); // the count, 0 and 1
//!
//! let mut again = [0u8; SECOND_FILE_MOST];
//! assert_eq!(move_from(Form::First, &first[..shorter], &mut again), Ok(length));
//! assert_eq!(again[..length], second[..length]);
//!
//! book(&mut ledger, 3, 7, &[0])?; // a rival that comes too late
//! let length = write(&ledger, Form::Second, &mut second)?;
//! assert_eq!(move_from(Form::Second, &second[..length], &mut first), Err(Refusal::OtherMarks));
//! # Ok::<(), Refusal>(())
//! ```
//!
//! # The index
//!
//! An index tells a booking's number by its name: [`CELLS`] words of 16 bits that are lent beside the ledger, its cells. A cell
//! holds a number, or 65535 if it is empty. [`index_build`] makes an index, and [`index_enter`] keeps it.
//!
//! ```
//! use filzhammer::{book, index_build, index_enter, index_find, open, poll, Refusal, Setting, CELLS, WORDS, YES};
//!
//! let (mut ledger, mut index) = ([0u16; WORDS], [0u16; CELLS]);
//! open(&mut ledger, Setting { k: 1, a: 1, beta1: 1, beta2: 2, edition: 0 })?;
//! index_build(&ledger, &mut index)?; // after each opening, and after each day file that is read
//! book(&mut ledger, 1, 7, &[0])?;
//! assert_eq!(index_find(&ledger, &index, 1), Err(Refusal::UnknownName)); // booked, and not entered yet
//! index_enter(&ledger, &mut index)?; // after each booking that is taken
//! assert_eq!(index_find(&ledger, &index, 1), Ok(1));
//! book(&mut ledger, 1390, 8, &[1])?;
//! index_enter(&ledger, &mut index)?;
//! assert_eq!(index[978..981], [1, 2, 65535]); // 978 is the home of both names
//! poll(&mut ledger, 1390, &[YES])?; // polls and readings change nothing that an index depends on
//! assert_eq!(index_find(&ledger, &index, 1390), Ok(2));
//! assert_eq!(index_find(&ledger, &index, 2), Err(Refusal::UnknownName));
//! # Ok::<(), Refusal>(())
//! ```
//!
//! Nothing in an index says to which ledger it belongs. By one that is stale, another ledger's or damaged a booked name may be
//! refused as unknown, but a number that is found is always that of the booking with the name. `docs/INDEX.md` of the repository
//! has the cells of an example.
#![no_std]
#![warn(missing_docs)]

mod face;
mod refusal;

pub use refusal::Refusal;

/// How many words a workspace has: 8 for the header, 13 for each of 512 records, 4 for each of 256 slots.
pub const WORDS: usize = 7688;

/// How many bookings a ledger holds, with the genesis.
pub const BOOKINGS: usize = 512;

/// How many bytes the shortest day file of the first form has, that of the genesis alone, with the first edition.
pub const FILE_LEAST: usize = 14;

/// How many bytes the longest day file of the first form has, that of a full ledger with as many parents as there can be and all
/// polls, with the later edition. A buffer of so many bytes has room for every file of that form.
pub const FILE_MOST: usize = 12268;

/// How many bytes the shortest day file of the second form has: two more for the count of those accepted, two for the genesis.
pub const SECOND_FILE_LEAST: usize = 18;

/// How many bytes the longest day file of the second form has: two more for that count, and two for one booking of each of the
/// 256 slots. A buffer of so many bytes has room for every file of either form.
pub const SECOND_FILE_MOST: usize = 12782;

/// How many cells an index has.
pub const CELLS: usize = 1024;

/// The vote of a station that prefers the booking and its whole ancestry.
pub const YES: u8 = 1;

/// The vote against: the signed byte −1.
pub const NO: u8 = 255;

/// No answer came. It counts neither way, so it helps a poll no more than [`NO`] does.
pub const SILENT: u8 = 0;

/// The setting of a ledger. It is good if 1 ≤ k ≤ 64, a ≤ k < 2 × a, 1 ≤ beta1 ≤ beta2 ≤ 510, and edition ≤ 1.
#[derive(Clone, Copy, Debug, PartialEq, Eq)]
pub struct Setting {
    /// How many votes a poll has.
    pub k: u16,
    /// How many of them must be yes.
    pub a: u16,
    /// A booking that is alone in its slot and rests on accepted parents is accepted when the slot's counter is above this, or,
    /// with the later edition, at least this.
    pub beta1: u16,
    /// Any booking that is preferred and last in its slot is accepted when the slot's counter is above this, or, with the later
    /// edition, at least this, and no rival is accepted.
    pub beta2: u16,
    /// Which [edition](crate#editions) of the rules the ledger goes by: [`FIRST_EDITION`](Setting::FIRST_EDITION) or
    /// [`LATER_EDITION`](Setting::LATER_EDITION).
    pub edition: u16,
}

impl Setting {
    /// The first edition of the rules.
    pub const FIRST_EDITION: u16 = 0;

    /// The later edition of the rules.
    pub const LATER_EDITION: u16 = 1;

    /// The setting of the paper that the rules come from, with the first edition. With the later one it is
    /// `Setting { edition: Setting::LATER_EDITION, ..Setting::PAPER }`.
    pub const PAPER: Setting = Setting {
        k: 10,
        a: 8,
        beta1: 11,
        beta2: 150,
        edition: Setting::FIRST_EDITION,
    };
}

/// The forms of a [day file](crate#the-day-file). No file is good in both.
#[derive(Clone, Copy, Debug, PartialEq, Eq, Hash)]
pub enum Form {
    /// Setting, bookings and polls: for programs that know no other form. Who is accepted is found out where it is read, and may
    /// come out otherwise.
    First,
    /// The same, and who is accepted. The one to send to a neighbour.
    Second,
}

/// Makes the words a ledger that has only the genesis: name 0 in slot 0, accepted. Whatever they held before is gone.
///
/// Refuses [`WrongLength`](Refusal::WrongLength), [`BadSetting`](Refusal::BadSetting), in this order.
pub fn open(ws: &mut [u16], setting: Setting) -> Result<(), Refusal> {
    let Setting {
        k,
        a,
        beta1,
        beta2,
        edition,
    } = setting;
    face::open(ws, k, a, beta1, beta2, edition).map(drop)
}

/// Books `name` for `slot` on one to four parents, given by their names. It waits for its poll, with confidence 0, and is
/// preferred if the slot was empty. No booking makes another accepted, or takes that away.
///
/// Refuses [`WrongLength`](Refusal::WrongLength), [`DamagedHeader`](Refusal::DamagedHeader),
/// [`DamagedRecord`](Refusal::DamagedRecord), [`DamagedSlot`](Refusal::DamagedSlot),
/// [`NameTaken`](Refusal::NameTaken), [`BadSlot`](Refusal::BadSlot), [`BadParents`](Refusal::BadParents),
/// [`UnknownParent`](Refusal::UnknownParent), [`ParentTwice`](Refusal::ParentTwice), [`Full`](Refusal::Full), in this order.
pub fn book(ws: &mut [u16], name: u64, slot: u16, parents: &[u64]) -> Result<(), Refusal> {
    face::book(ws, name, slot, parents).map(drop)
}

/// Enters the votes of a completed poll of a waiting booking, [`YES`], [`NO`] or [`SILENT`] for each station asked.
///
/// With at least `a` yes votes the whole ancestry gains one confidence each, and those that are then strictly ahead of their
/// slot's preferred booking take its place. With fewer the booking only counts as polled, and with the later
/// [edition](crate#editions) the counters of all slots in the ancestry become 0. Either way, all bookings that then meet the
/// rule of [`accepted`] are.
///
/// Refuses [`WrongLength`](Refusal::WrongLength), [`DamagedHeader`](Refusal::DamagedHeader),
/// [`DamagedRecord`](Refusal::DamagedRecord), [`DamagedSlot`](Refusal::DamagedSlot),
/// [`UnknownName`](Refusal::UnknownName), [`NotWaiting`](Refusal::NotWaiting), [`WrongVotes`](Refusal::WrongVotes),
/// [`BadVote`](Refusal::BadVote), in this order.
pub fn poll(ws: &mut [u16], name: u64, votes: &[u8]) -> Result<(), Refusal> {
    face::poll(ws, name, votes).map(drop)
}

/// 1 if every member of the booking's ancestry is preferred in its slot, else 0. It is how this station votes.
///
/// Refuses [`WrongLength`](Refusal::WrongLength), [`DamagedHeader`](Refusal::DamagedHeader),
/// [`DamagedRecord`](Refusal::DamagedRecord), [`DamagedSlot`](Refusal::DamagedSlot),
/// [`UnknownName`](Refusal::UnknownName), in this order, as all readings do.
pub fn query(ws: &[u16], name: u64) -> Result<i64, Refusal> {
    face::query(ws, name)
}

/// 1 if the booking is accepted, else 0.
///
/// The genesis is. After each taken poll, one that fails too, the bookings are looked at in the order of their numbers, and each
/// that meets a rule becomes accepted if no other of its slot is: it is alone in its slot, its parents are accepted (perhaps
/// just now) and the slot's counter is above `beta1`; or it is both preferred and last in its slot and the counter is above
/// `beta2`. With the later [edition](crate#editions) a counter of at least `beta1`, or `beta2`, is enough. It stays accepted
/// until the next taken [`open`] or [`read`], whoever comes for its slot; a day file of the second [form](Form) that is read
/// makes those accepted whom it names. Refuses as [`query`] does.
pub fn accepted(ws: &[u16], name: u64) -> Result<i64, Refusal> {
    face::accepted(ws, name)
}

/// The booking's confidence, less the greatest confidence among its slot's other bookings, or less 0 if there are none: from
/// −511 to 511. Refuses as [`query`] does.
pub fn lead(ws: &[u16], name: u64) -> Result<i64, Refusal> {
    face::lead(ws, name)
}

/// The booking's confidence, from 0 to 511. Refuses as [`query`] does.
pub fn confidence(ws: &[u16], name: u64) -> Result<i64, Refusal> {
    face::confidence(ws, name)
}

/// How many members the booking's ancestry has, itself among them: from 1 to 512. Refuses as [`query`] does.
pub fn size(ws: &[u16], name: u64) -> Result<i64, Refusal> {
    face::size(ws, name)
}

/// Writes the ledger's day file, in this form, to the front of `out`, and gives its length: [`FILE_LEAST`] to [`FILE_MOST`] in
/// the first form, [`SECOND_FILE_LEAST`] to [`SECOND_FILE_MOST`] in the second. The bytes past the file stay as they were; if it
/// is refused, all do. Who is accepted is in the second form alone.
///
/// Refuses [`WrongLength`](Refusal::WrongLength), [`DamagedHeader`](Refusal::DamagedHeader),
/// [`DamagedRecord`](Refusal::DamagedRecord), [`DamagedSlot`](Refusal::DamagedSlot),
/// [`ShortBuffer`](Refusal::ShortBuffer), in this order.
pub fn write(ws: &[u16], form: Form, out: &mut [u8]) -> Result<usize, Refusal> {
    face::write(ws, form, out).map(length)
}

/// [`write()`] in the [first form](Form::First).
pub fn write_first(ws: &[u16], out: &mut [u8]) -> Result<usize, Refusal> {
    write(ws, Form::First, out)
}

/// Reads a day file of this form and makes the words the ledger that it tells of, whatever they held before: the one that an
/// opening with its setting, its bookings in their order and then its polls with their outcomes make. If it is refused, every
/// word stays.
///
/// With the first form, who is accepted comes of these calls too, with every booking made before the first poll: one that was
/// accepted where the file was written may not be here, and a rival that came later may be in its stead. With the second form
/// those are accepted that the file names, and no others. Every other word of a ledger that calls have made comes back, and
/// [`write()`] in the same form then gives the same bytes.
///
/// A file of the first form is good if [`write()`] could have written it after calls that were taken. It begins with 4 and a good
/// [`Setting`] of the first edition, or with 5 and one of the later. It has at most 511 bookings, each with a name that is not 0
/// and that no earlier one has, a slot from 1 to 255, and one to four parents, all of them lower numbers than its own and none
/// twice. Each poll is of a booking other than the genesis, which no earlier poll is of, and its outcome is 0 or 1.
///
/// A file of the second form is good if its first three sections are such a file, and the fourth begins with the genesis: its
/// numbers rise, each of them is a booking's, and no slot has two of them. They are taken as the sender tells them.
///
/// In either form no byte is missing, and none follows: lend as many bytes as the file has, and not the rest of a buffer.
///
/// Refuses [`WrongLength`](Refusal::WrongLength), [`BadFile`](Refusal::BadFile), in this order.
pub fn read(ws: &mut [u16], form: Form, file: &[u8]) -> Result<(), Refusal> {
    face::restore(ws, form, file).map(drop)
}

/// [`read`] of a file of the [first form](Form::First).
pub fn read_first(ws: &mut [u16], file: &[u8]) -> Result<(), Refusal> {
    read(ws, Form::First, file)
}

/// Moves a day file from this form to the other, without a ledger: the file of the other form goes to the front of `out`, and its
/// length is given. The bytes past it stay as they were; if it is refused, all do.
///
/// From the first form it adds who is accepted where the file is read. From the second it drops the fourth section, if reading
/// the first form gives the same; else the first form would change who is accepted, and the file is refused. A file that was
/// moved from the first form is moved back to its own bytes.
///
/// It holds a workspace of its own and takes up to 16,832 bytes of stack.
///
/// Refuses [`BadFile`](Refusal::BadFile), from the second form then [`OtherMarks`](Refusal::OtherMarks), then
/// [`ShortBuffer`](Refusal::ShortBuffer), in this order.
pub fn move_from(form: Form, file: &[u8], out: &mut [u8]) -> Result<usize, Refusal> {
    face::move_from(form, file, out).map(length)
}

/// A file's length, at most [`SECOND_FILE_MOST`].
fn length(value: i64) -> usize {
    value as usize
}

/// Builds the index of the ledger, whatever its cells held: all of them become empty, 65535, and then the numbers of all
/// bookings are entered in rising order, each as [`index_enter`] does it. If it is refused, every cell stays.
///
/// Refuses [`WrongLength`](Refusal::WrongLength), [`WrongIndex`](Refusal::WrongIndex),
/// [`DamagedHeader`](Refusal::DamagedHeader), [`DamagedRecord`](Refusal::DamagedRecord),
/// [`DamagedSlot`](Refusal::DamagedSlot), in this order.
pub fn index_build(ws: &[u16], index: &mut [u16]) -> Result<(), Refusal> {
    face::index_build(ws, index).map(drop)
}

/// Enters the newest booking: its number goes into the first empty cell from its name's home on, round the end to cell 0. After a
/// booking that was taken, this makes its built index of the built index before it. If it is refused, every cell stays.
///
/// A name's home is the 32-bit FNV-1a hash of its eight bytes, the highest first, modulo [`CELLS`]. Which numbers the cells hold
/// already is not looked at: entering twice writes the number twice.
///
/// Refuses [`WrongLength`](Refusal::WrongLength), [`WrongIndex`](Refusal::WrongIndex),
/// [`DamagedHeader`](Refusal::DamagedHeader), [`DamagedRecord`](Refusal::DamagedRecord),
/// [`DamagedSlot`](Refusal::DamagedSlot), [`IndexFull`](Refusal::IndexFull), in this order.
pub fn index_enter(ws: &[u16], index: &mut [u16]) -> Result<(), Refusal> {
    face::index_enter(ws, index).map(drop)
}

/// The number of the booking with this name, as probing finds it: from the name's home on, round the end to cell 0, until a cell
/// has the number of that booking, or is empty, or all were tried. Other bookings' numbers, and numbers that no booking has, are
/// passed over.
///
/// By the built index every booked name is found. By any index a number that is found is that of the booking with the name.
///
/// Refuses [`WrongLength`](Refusal::WrongLength), [`WrongIndex`](Refusal::WrongIndex),
/// [`DamagedHeader`](Refusal::DamagedHeader), [`DamagedRecord`](Refusal::DamagedRecord),
/// [`DamagedSlot`](Refusal::DamagedSlot), [`UnknownName`](Refusal::UnknownName), in this order.
pub fn index_find(ws: &[u16], index: &[u16], name: u64) -> Result<usize, Refusal> {
    // A number of at most 511.
    face::index_find(ws, index, name).map(|number| number as usize)
}

//! The second program: a ledger of bookings written from the rules alone.
//!
//! It shares no code and no plan with the product. The product works on the
//! lent words in place, with sweeps and sets of bits; this program reads the words
//! into maps, walks ancestries by recursion, and writes the words back.
//!
//! - `layout`: where each word of the workspace stands
//! - `setting`: k, a, β1, β2 and the edition, and which are good
//! - `refusal`: the numbered refusals, and the row that some of them name
//! - `ledger`: the rules of the vote, on maps
//! - `sound`: which sentences of soundness words break, and at which row
//! - `codec`: words to a ledger and back
//! - `form`: the two forms of the day file
//! - `day`: what a day file carries, and its bytes
//! - `parse`: the bytes back to a day
//! - `replay`: the ledger that a day leads to
//! - `index`: the index of names beside a ledger
//! - `words`: the public calls on lent words
//! - `command`: a line of text to a command
//! - `console`: the text program
//! - `laws`: what must hold after every history, checked from outside
//! - `marking`: what a call may do to marks, checked from outside
//! - `counting`: the same of counters

pub mod codec;
pub mod command;
pub mod console;
pub mod counting;
pub mod day;
pub mod form;
pub mod index;
pub mod laws;
pub mod layout;
pub mod ledger;
pub mod marking;
pub mod parse;
pub mod refusal;
pub mod replay;
pub mod setting;
pub mod sound;
pub mod words;

//! Random runs of the product against the second program.
//!
//! Chance:
//! - `prng`: seeded numbers
//! - `names`: booking names of several kinds
//!
//! Ledgers:
//! - `grow`: ledgers that a history reaches
//! - `scramble`: sound ledgers that no history reaches
//! - `damage`: words that break sentences of soundness, and where
//! - `old_rule`: who would be accepted if there were no marks
//!
//! Day files:
//! - `file`: the day file held to the words
//! - `draft`: a file as anybody may write one down
//! - `spoil`: good files spoiled
//! - `fault`: why a file is bad
//! - `replayed`: the marks and counters that reading one has to make
//! - `moved`: the file that moving one has to give
//!
//! Indexes of names:
//! - `cells`: indexes of all kinds
//! - `probed`: an index held to the words, and what was reached of it
//!
//! Call against call:
//! - `call`: a call, and who answers it
//! - `choose`: a call that shows something on a given ledger
//! - `guard`: lent memory with guards around it
//! - `made`: one call, made by both
//! - `compare`: the runs
//! - `files`: many files, read by both
//! - `tally`: what the runs have reached
//! - `written`: the same of day files
//! - `events`: the same of marks
//! - `editions`: the same of editions
//! - `station`: the product through its C face
//! - `relay`: the same in a program beside this one
//! - `planted`: a copy of the rules with errors to be found
//! - `mismarked`: the errors in how it gives marks
//! - `miscounted`: the errors in what it makes of editions
//! - `misjudged`: the errors in what it says of damage
//! - `miswritten`: the errors in the day files that it writes
//! - `misread`: the errors in how it reads them
//! - `mismoved`: the errors in how it moves them
//! - `misindexed`: the errors in its index of names
//!
//! Console against console:
//! - `flaw`: lines that are no command
//! - `text`: inputs of all kinds
//! - `consoles`: the runs
//!
//! - `report`: a failing run, written out

pub mod call;
pub mod cells;
pub mod choose;
pub mod compare;
pub mod consoles;
pub mod damage;
pub mod draft;
pub mod editions;
pub mod events;
pub mod fault;
pub mod file;
pub mod files;
pub mod flaw;
pub mod grow;
pub mod guard;
pub mod made;
pub mod miscounted;
pub mod misindexed;
pub mod misjudged;
pub mod mismarked;
pub mod mismoved;
pub mod misread;
pub mod miswritten;
pub mod moved;
pub mod names;
pub mod old_rule;
pub mod planted;
pub mod prng;
pub mod probed;
pub mod relay;
pub mod replayed;
pub mod report;
pub mod scramble;
pub mod spoil;
#[cfg(feature = "station")]
pub mod station;
pub mod tally;
pub mod text;
pub mod written;

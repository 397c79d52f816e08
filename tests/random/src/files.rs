//! File against file: both faces read the same files, good and bad, each into
//! some words, or move them to the other form. A million are a matter of minutes,
//! as most are short.
//!
//! A round starts from a good file of few bookings, in one form. It is read or moved as it is, then
//! with every byte changed to several values, cut off at every length, and
//! spoiled in every other way that `spoil` has. One round of forty has long
//! files of both forms, of which a few bytes are changed. Ledgers that were read go on to be
//! what the next files are read into.

use crate::call::{Buffer, Call, Face};
use crate::choose::{any_buffer, move_into_any};
use crate::compare::Difference;
use crate::draft::Draft;
use crate::fault::Fault;
use crate::grow::{grow, grow_longest, Style};
use crate::made::Made;
use crate::planted::WORDS_WITHOUT_MARKS;
use crate::prng::Prng;
use crate::replayed::Told;
use crate::spoil::{any_marks, other_byte, Kind};
use crate::tally::{moves, unmoved, unread, Tally};
use second::codec::{decode, ledger_of};
use second::day::Day;
use second::form::Form;
use second::laws::{History, Picture};
use second::layout::{BOOKINGS, EDITION, N, SLOTS, WORDS};
use second::parse::parse;
use second::replay::replay;
use second::sound::Damage;

/// From this many files on, everything must have been seen.
pub const ENOUGH: usize = 10_000;
/// One round of so many has a long file.
const LONG_EVERY: usize = 40;
/// How many files of a hundred are moved, and not read.
const MOVED: usize = 35;
/// A ledger up to this many bookings is held to the laws of its polls.
const FEW: u16 = 40;

/// Reads `count` files of rounds under the seed.
pub fn compare(
    ours: &dyn Face,
    theirs: &dyn Face,
    count: usize,
    seed: u64,
) -> (Tally, Option<Difference>) {
    let mut tally = Tally::default();
    let mut words = vec![0; WORDS];
    for run in 0.. {
        let mut prng = Prng::of_run(seed, run);
        for case in round(&mut prng, run) {
            if tally.calls >= count {
                return (tally, None);
            }
            let mut contest = Contest {
                ours,
                theirs,
                words: &mut words,
                tally: &mut tally,
            };
            let label = case.label();
            if let Err(what) = contest.make(&mut prng, case) {
                let text = format!("seed {seed}, run {run}, {label}\n{what}");
                return (tally, Some(Difference { run, text }));
            }
        }
    }
    unreachable!("rounds have no end")
}

/// What should have been seen and was not.
pub fn missing(tally: &Tally) -> Vec<String> {
    // Those that leave nearly every file good.
    let harmless = [
        Kind::EditionTurned,
        Kind::NameOther,
        Kind::BookingMore,
        Kind::PollDropped,
        Kind::PollsSwapped,
        Kind::MarksOther,
        Kind::MarkHanded,
        Kind::MarkDropped,
    ];
    let kinds = |form: Form| {
        let bad = (Kind::of(form).into_iter())
            .filter(move |kind| !harmless.contains(kind))
            .map(move |kind| format!("{BAD}{}", label(form, Some(kind))));
        let good = [
            None,
            Some(Kind::ByteChanged),
            Some(Kind::EditionTurned),
            Some(Kind::PollsSwapped),
        ];
        bad.chain(good.map(|kind| format!("{GOOD}{}", label(form, kind))))
    };
    let of_marks = [
        Kind::MarksOther,
        Kind::MarksAll,
        Kind::MarkMore,
        Kind::MarkHanded,
        Kind::MarkDropped,
    ]
    .map(|kind| format!("{GOOD}{}", label(Form::Second, Some(kind))));
    let kinds = (Form::ALL.into_iter().flat_map(kinds)).chain(of_marks);
    let faults = (Fault::ALL.into_iter())
        .flat_map(|fault| [unread(fault), unmoved(fault)])
        .chain(moves());
    let others = [
        FULL,
        LONGEST,
        OTHER_MARKS,
        THERE_AND_BACK,
        MARKED,
        MARKED_LATER,
        FIRST,
        LATER,
        LATER_INTO_FIRST,
        FIRST_INTO_LATER,
        INTO_LAST,
        INTO_ZEROS,
        INTO_ANY,
        INTO_CHANGED,
        INTO_OTHER_LENGTH,
        WRITTEN_AGAIN,
    ];
    let mut missing =
        tally.unseen((kinds.chain(faults)).chain(others.into_iter().map(String::from)));
    // Neither good nor bad files are few.
    for what in ["good", "bad"] {
        if 5 * tally.count(what) < tally.calls {
            missing.push(format!("a fifth of the files {what}"));
        }
    }
    missing
}

const GOOD: &str = "good: ";
const BAD: &str = "bad: ";
const FULL: &str = "a good file of 512 bookings";
const LONGEST: &str = "a good second form with a mark in every slot";
const OTHER_MARKS: &str = "a good second form with other marks than its polls lead to";
const THERE_AND_BACK: &str = "moved there and back";
const MARKED: &str = "a good file that leads to acceptance";
const MARKED_LATER: &str = "a good file that leads to acceptance in the later edition";
const FIRST: &str = "a good file of the first edition";
const LATER: &str = "a good file of the later edition";
const LATER_INTO_FIRST: &str = "a good file of the later edition into a ledger of the first";
const FIRST_INTO_LATER: &str = "a good file of the first edition into a ledger of the later";
const INTO_LAST: &str = "into the ledger read last";
const INTO_ZEROS: &str = "into zeros";
const INTO_ANY: &str = "into any words";
const INTO_CHANGED: &str = "into the ledger read last, some words changed";
const INTO_OTHER_LENGTH: &str = "into another number of words";
const WRITTEN_AGAIN: &str = "written again";

fn label(form: Form, kind: Option<Kind>) -> String {
    match kind {
        Some(kind) => format!("{form:?} {kind:?}"),
        None => format!("{form:?} as written"),
    }
}

/// A file that is to be one of the form, and what was done to it, if something
/// was.
struct Case {
    form: Form,
    kind: Option<Kind>,
    file: Vec<u8>,
}

impl Case {
    fn label(&self) -> String {
        label(self.form, self.kind)
    }
}

fn round(prng: &mut Prng, run: usize) -> Vec<Case> {
    let mut style = Style::any(prng);
    let is_long = run % LONG_EVERY == 2;
    // So few bookings are hardly ever accepted but by low bounds.
    if !is_long && prng.chance(50) {
        style.setting.beta1 = 1;
        style.setting.beta2 = prng.word(1, 2);
    }
    // full, one less, and the longest, in turn
    let grown = match (is_long, run / LONG_EVERY % 3) {
        (true, 2) => grow_longest(prng, style),
        (true, less) => grow(prng, style, BOOKINGS - less),
        (false, _) => {
            let n = prng.pick(&[1, 2, 2, 3, 3, 4, 5, 6, 7, 10]);
            grow(prng, style, n)
        }
    };
    let forms = match is_long {
        true => &Form::ALL[..],
        false => &[prng.pick(&Form::ALL)],
    };
    let mut cases = Vec::new();
    for &form in forms {
        let mut draft = Draft::of(&Day::of(&grown.ledger, form));
        if form == Form::Second {
            mark(prng, &mut draft, is_long);
        }
        spoil_all(prng, &draft, is_long, &mut cases);
    }
    prng.shuffle(&mut cases);
    cases
}

/// The marks of the ledger, those that the polls lead to, or any. A long file
/// has a mark in every slot.
fn mark(prng: &mut Prng, draft: &mut Draft, is_long: bool) {
    if is_long {
        for (row, at) in draft.rows.iter_mut().zip(0..) {
            row.slot = 1 + at % (SLOTS as u16 - 1);
        }
        let above = prng.word(0, 1) * (SLOTS as u16 - 1);
        draft.marks = Some([0].into_iter().chain((1..256).map(|b| b + above)).collect());
        return;
    }
    match prng.below(3) {
        0 => (),
        1 => {
            let first = Draft {
                marks: None,
                ..draft.clone()
            };
            let day = parse(&first.bytes(), Form::First).expect("it is good");
            let marked = replay(&day).expect("it is good").marked();
            draft.marks = Some(marked.iter().map(|&b| b as u16).collect());
        }
        _ => draft.marks = Some(any_marks(prng, draft)),
    }
}

/// The draft's file as it is, and spoiled in every way.
fn spoil_all(prng: &mut Prng, draft: &Draft, is_long: bool, cases: &mut Vec<Case>) {
    let (form, good) = (draft.form(), draft.bytes());
    let mut add = |kind, file| cases.push(Case { form, kind, file });
    add(None, good.clone());
    add(None, good.clone());
    if !is_long {
        for at in 0..good.len() {
            let any = other_byte(prng, good[at]);
            for byte in [good[at].wrapping_add(1), good[at].wrapping_sub(1), any] {
                let mut other = good.clone();
                other[at] = byte;
                add(Some(Kind::ByteChanged), other);
            }
            add(Some(Kind::Cut), good[..at].to_vec());
        }
    }
    for kind in Kind::of(form) {
        let times = match kind {
            Kind::Overfull => usize::from(is_long || prng.chance(60)),
            Kind::ByteChanged | Kind::Cut if !is_long => 0,
            _ if is_long || kind == Kind::MuchLonger => 1,
            _ => 4,
        };
        for _ in 0..times {
            add(Some(kind), kind.spoil(prng, draft));
        }
    }
}

/// Both faces, and the words that the last good file made.
struct Contest<'a> {
    ours: &'a dyn Face,
    theirs: &'a dyn Face,
    words: &'a mut Vec<u16>,
    tally: &'a mut Tally,
}

impl Contest<'_> {
    /// The file is read or moved.
    fn make(&mut self, prng: &mut Prng, case: Case) -> Result<(), String> {
        let fault = Fault::of(&case.file, case.form);
        self.tally.calls += 1;
        let (total, each) = match fault {
            None => ("good", GOOD),
            Some(_) => ("bad", BAD),
        };
        self.tally.add(total);
        self.tally.add(format!("{each}{}", case.label()));
        if prng.chance(MOVED) {
            return self.move_it(prng, case);
        }
        if let Some(fault) = fault {
            self.tally.add(unread(fault));
        }
        self.read(prng, case)
    }

    fn read(&mut self, prng: &mut Prng, case: Case) -> Result<(), String> {
        let Case { form, file, .. } = case;
        let (into, before) = any_words(prng, self.words);
        let call = Call::ReadFile(form, file.clone());
        let made = Made::by(self.ours, self.theirs, &before, &call);
        // Of the words before nothing is asked.
        made.check(&before, &call, &Err(Damage::default()))?;
        self.tally.add(into);
        if made.our_answer.0 == 0 {
            self.count_editions(&before, &made.words);
            *self.words = made.words;
            self.check_laws(form, &file)?;
            if prng.chance(10) {
                self.write_again(form, &file)?;
            }
        }
        Ok(())
    }

    /// A first form that is moved there and back is the same.
    fn move_it(&mut self, prng: &mut Prng, case: Case) -> Result<(), String> {
        let call = move_into_any(prng, case.form, case.file);
        let moved = self.move_by(&call)?;
        let (Call::MoveFile(Form::First, file, _), Some(moved)) = (&call, moved) else {
            return Ok(());
        };
        let buffer = any_buffer(prng, Form::First.longest());
        match self.move_by(&Call::MoveFile(Form::Second, moved, buffer))? {
            Some(back) if back == *file => self.tally.add(THERE_AND_BACK),
            _ => return Err("moved there and back it is another".to_string()),
        }
        Ok(())
    }

    /// What a move gives, if it is taken.
    fn move_by(&mut self, call: &Call) -> Result<Option<Vec<u8>>, String> {
        let made = Made::by(self.ours, self.theirs, self.words, call);
        made.check(self.words, call, &Err(Damage::default()))?;
        self.tally.add_move(call, made.our_answer.0);
        let (number, value) = made.our_answer;
        Ok((number == 0).then(|| made.out[..value as usize].to_vec()))
    }

    /// Of which edition the file was, and of which the words that it was read
    /// into.
    fn count_editions(&mut self, before: &[u16], after: &[u16]) {
        self.tally.add([FIRST, LATER][usize::from(after[EDITION])]);
        if before[N] == 0 {
            return;
        }
        match (before[EDITION], after[EDITION]) {
            (0, 1) => self.tally.add(LATER_INTO_FIRST),
            (1, 0) => self.tally.add(FIRST_INTO_LATER),
            _ => (),
        }
    }

    /// The ledger shows what the file's polls ask for.
    fn check_laws(&mut self, form: Form, file: &[u8]) -> Result<(), String> {
        if usize::from(self.words[N]) == BOOKINGS {
            self.tally.add(FULL);
        }
        if form == Form::Second {
            let marked = ledger_of(self.words).marked();
            if marked.len() == SLOTS {
                self.tally.add(LONGEST);
            }
            if marked != Told::of_words(self.words).outcome().marked() {
                self.tally.add(OTHER_MARKS);
            }
        }
        if self.words[N] > FEW {
            return Ok(());
        }
        let mut history = History::default();
        history.handed_over(&parse(file, form).expect("the file was taken"));
        let picture = Picture::of_marks(self.words);
        let is_accepted = picture.rows.iter().skip(1).any(|row| row.is_accepted);
        if form == Form::First && is_accepted {
            self.tally.add(MARKED);
            if self.words[EDITION] == 1 {
                self.tally.add(MARKED_LATER);
            }
        }
        let kept = history.check(&picture);
        kept.map_err(|breach| format!("law {:?}: {}", breach.law, breach.said))
    }

    /// Writing after reading gives the same bytes.
    fn write_again(&mut self, form: Form, file: &[u8]) -> Result<(), String> {
        let (room, seed) = (form.longest(), 0);
        let call = Call::WriteFile(form, Buffer { room, seed });
        let made = Made::by(self.ours, self.theirs, self.words, &call);
        made.check(self.words, &call, &decode(self.words))?;
        if made.out[..file.len()] != *file {
            return Err("another file is written than was read".to_string());
        }
        self.tally.add(WRITTEN_AGAIN);
        Ok(())
    }
}

/// What a file is read into.
fn any_words(prng: &mut Prng, last: &[u16]) -> (&'static str, Vec<u16>) {
    match prng.below(20) {
        0 => (INTO_ZEROS, vec![0; WORDS]),
        1 => {
            let any = (0..WORDS).map(|_| prng.draw() as u16);
            (INTO_ANY, any.collect())
        }
        2..=6 => {
            let mut changed = last.to_vec();
            for _ in 0..prng.between(1, 3) {
                let within = prng.pick(&[8, 80, WORDS]);
                changed[prng.below(within)] = prng.draw() as u16;
            }
            (INTO_CHANGED, changed)
        }
        7 => {
            let mut resized = last.to_vec();
            let lengths = [0, WORDS_WITHOUT_MARKS, WORDS - 1, WORDS + 1, 2 * WORDS];
            let length = prng.pick(&lengths);
            resized.resize(length, 0);
            (INTO_OTHER_LENGTH, resized)
        }
        _ => (INTO_LAST, last.to_vec()),
    }
}

#[cfg(test)]
mod tests {
    use super::*;
    use crate::call::Second;
    use crate::planted::{Plant, Planted};

    /// So many files reach everything, whatever the seed.
    #[test]
    fn enough_files_reach_everything() {
        for seed in 1..6 {
            let (tally, difference) = compare(&Planted(None), &Second, ENOUGH, seed);
            assert!(difference.is_none());
            assert_eq!(missing(&tally), Vec::<String>::new(), "seed {seed}");
        }
    }

    /// Two programs with the same error agree, and the third opinion tells.
    #[test]
    fn a_file_that_both_misread_is_found() {
        for plant in Plant::of_files() {
            let both = Planted(Some(plant));
            let (_, difference) = compare(&both, &both, ENOUGH, 1);
            assert!(difference.is_some(), "{plant:?}");
        }
    }
}

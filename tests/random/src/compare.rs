//! Call against call: two faces answer the same calls on the same words.
//!
//! A run starts from a ledger (reached by a history, or sound without one)
//! and makes calls on it. Some calls are made on a copy that is damaged or
//! has another length. After each call the numbers, the values, all words, the
//! lent bytes, the lent cells and the guards are compared; on reached ledgers
//! the laws are checked, the row named for damage is held to where it was done, a
//! day file and an index to the words, a moved file to its bytes, and marks to the
//! words before. The ledger that a run has grown is written and read back in both
//! forms.

use crate::call::{Beside, Call, Cells, Face, Indexing};
use crate::cells::built;
use crate::choose::{any_buffer, choose, choose_poll, move_into_any, read_contested, Written};
use crate::damage::Damaged;
use crate::editions::Turn;
use crate::events::Moment;
use crate::file;
use crate::grow::{any_size, grow, grow_longest, words_of, Style};
use crate::guard::Guarded;
use crate::made::{Made, Verdict};
use crate::planted::WORDS_WITHOUT_MARKS;
use crate::prng::Prng;
use crate::replayed::Told;
use crate::report::words_text;
use crate::scramble::{scramble, scramble_marks};
use crate::tally::{
    Tally, HANDED_ON, LAWS, LENGTH_WITHOUT_MARKS, MARK_LOST, REACHED, READ_BACK, TOLD, UNREACHED,
};
use second::codec::{decode, ledger_of};
use second::form::Form;
use second::laws::{check_accepted_once, History, Picture};
use second::layout::{record, BOOKINGS, MARK, WORDS};
use second::ledger::{Ledger, Reading};
use second::parse::parse;
use second::sound::Damage;
use second::words::Answer;
use std::collections::VecDeque;
use std::fmt::{self, Display, Formatter};

/// Calls in a run.
const RUN_CALLS: usize = 50;
/// One run of so many starts from a ledger with the longest day file.
const LONGEST_EVERY: usize = 60;
/// Where rivals come late to a ledger of so few bookings, both faces make the
/// last of the calls that it grows by.
const FEW: usize = 60;
const RIVALS: usize = 20;
/// How many taken bookings of a hundred are entered into the run's index.
const ENTERED: usize = 50;

/// A difference, with the run that led to it as text.
#[derive(Debug)]
pub struct Difference {
    pub run: usize,
    pub text: String,
}

/// Makes `count` calls of runs under the seed.
pub fn compare(
    ours: &dyn Face,
    theirs: &dyn Face,
    count: usize,
    seed: u64,
) -> (Tally, Option<Difference>) {
    let mut tally = Tally::default();
    for run in 0.. {
        if tally.calls >= count {
            break;
        }
        let calls = RUN_CALLS.min(count - tally.calls);
        let mut prng = Prng::of_run(seed, run);
        let mut contest = Contest::start(ours, theirs, run, &mut prng, &mut tally);
        if let Err(what) = contest.run(&mut prng, &mut tally, calls) {
            let text = format!("seed {seed}, run {run}\n{what}\n\n{}", contest.trail());
            return (tally, Some(Difference { run, text }));
        }
    }
    (tally, None)
}

/// One run.
struct Contest<'a> {
    ours: &'a dyn Face,
    theirs: &'a dyn Face,
    style: Style,
    ws: Vec<u16>,
    /// What led to the words, if a history did.
    history: Option<History>,
    /// Whether a file told other marks than its polls lead to.
    are_told: bool,
    /// The last file that was written of the run's own words.
    written: Written,
    /// The index that the run keeps: built, or left behind by bookings, or by
    /// an opening or a reading.
    index: Vec<u16>,
    /// Calls that are still to be made before any are chosen.
    ahead: VecDeque<Call>,
    /// The words that the run started from, and all that was done.
    start: Vec<u16>,
    steps: Vec<Step>,
}

/// What was done.
enum Step {
    /// A call that was made, and its answers.
    Made {
        note: &'static str,
        call: Call,
        ours: Answer,
        theirs: Answer,
    },
    /// The words got other marks, and these were drawn.
    Marked(Vec<u16>),
}

impl<'a> Contest<'a> {
    fn start(
        ours: &'a dyn Face,
        theirs: &'a dyn Face,
        run: usize,
        prng: &mut Prng,
        tally: &mut Tally,
    ) -> Contest<'a> {
        let mut style = Style::any(prng);
        let size = any_size(prng, run);
        let is_longest = run % LONGEST_EVERY == 0;
        if is_longest {
            // The editions take turns.
            style.setting.edition = (1 + run / LONGEST_EVERY) as u16 % 2;
        }
        let mut grown = if is_longest {
            grow_longest(prng, style)
        } else {
            grow(prng, style, size)
        };
        let is_reached = is_longest || prng.chance(60);
        if !is_reached {
            scramble(prng, &mut grown.ledger);
        }
        tally.add(if is_reached { REACHED } else { UNREACHED });
        let mut ahead = Vec::new();
        if is_reached && grown.style.late_rivals >= RIVALS && grown.ledger.bookings.len() < FEW {
            let count = prng.between(10, 30);
            (grown, ahead) = grown.before_last(count);
        }
        let ws = words_of(&grown.ledger);
        Contest {
            ours,
            theirs,
            style: grown.style,
            start: ws.clone(),
            index: built(&grown.ledger),
            ws,
            history: is_reached.then_some(grown.history),
            are_told: false,
            written: None,
            ahead: ahead.into(),
            steps: Vec::new(),
        }
    }

    /// The whole run as text.
    fn trail(&self) -> String {
        let mut text = format!("the run starts from {}", words_text(&self.start));
        for step in &self.steps {
            text.push_str(&step.to_string());
        }
        text
    }

    fn run(&mut self, prng: &mut Prng, tally: &mut Tally, calls: usize) -> Result<(), String> {
        let mut chosen = 0;
        for _ in 0..calls {
            let ledger = decode(&self.ws).map_err(|damage| format!("unsound: {:?}", damage.0))?;
            if !self.ahead.is_empty() {
                let next = match prng.chance(75) {
                    true => self.ahead.pop_front(),
                    false => None,
                };
                let call = next.unwrap_or_else(|| read_contested(prng, &ledger));
                self.step(prng, ledger, &call, tally)?;
                continue;
            }
            // The ledger that has grown is written once in each form; the file
            // is read once, and moved.
            chosen += 1;
            if let Some(form) = Form::ALL.get((chosen - 1) / 3).copied() {
                match (chosen % 3, &self.written) {
                    (0, Some((_, file))) => {
                        let call = move_into_any(prng, form, file.clone());
                        self.step(prng, ledger, &call, tally)?;
                    }
                    (2, Some((_, file))) => self.read_back(prng, form, file.clone(), tally)?,
                    _ => {
                        let buffer = any_buffer(prng, file::length(&ledger, form));
                        self.step(prng, ledger, &Call::WriteFile(form, buffer), tally)?;
                    }
                }
                continue;
            }
            if self.history.is_none() && prng.chance(25) {
                let ledger = self.mark_anew(prng, ledger);
                let call = choose_poll(prng, &ledger, &self.style);
                self.step(prng, ledger, &call, tally)?;
                continue;
            }
            let call = choose(prng, &ledger, &self.style, &self.written, &self.index);
            match prng.below(100) {
                0..=3 => {
                    let resized = any_length(prng, &self.ws);
                    if resized.len() == WORDS_WITHOUT_MARKS {
                        tally.add(LENGTH_WITHOUT_MARKS);
                    }
                    let verdict = decode_any(&resized);
                    self.both("other length", &resized, &verdict, &call, tally)?;
                }
                4..=38 => self.damaged(prng, &call, tally)?,
                _ => self.step(prng, ledger, &call, tally)?,
            }
        }
        self.check_laws(tally)
    }

    /// Other marks on words that no history reaches: a poll leaves none to be
    /// given by the next one.
    fn mark_anew(&mut self, prng: &mut Prng, mut ledger: Ledger) -> Ledger {
        scramble_marks(prng, &mut ledger);
        self.ws = words_of(&ledger);
        self.steps.push(Step::Marked(self.ws.clone()));
        ledger
    }

    /// A call on the run's own words.
    fn step(
        &mut self,
        prng: &mut Prng,
        ledger: Ledger,
        call: &Call,
        tally: &mut Tally,
    ) -> Result<(), String> {
        let before = self.ws.clone();
        let verdict = Ok(ledger);
        let made = self.both("own words", &before, &verdict, call, tally)?;
        self.ws = made.words;
        let (number, value) = made.our_answer;
        if number != 0 {
            return Ok(());
        }
        if let (Ok(before), true) = (&verdict, Moment::is_one(call)) {
            let after = ledger_of(&self.ws);
            let is_reached = self.history.is_some() && !self.are_told;
            tally.add_events(&Moment::new(call, before, &after), is_reached);
            if let Call::Poll { name, .. } = call {
                tally.add_turn(&Turn::new(*name, before, &after));
            }
        }
        match (call, &mut self.history) {
            // Whatever was before, an opening starts a history.
            (Call::Open(setting), history) => {
                history.get_or_insert_with(History::default).opened(setting);
                self.style.setting = *setting;
                self.are_told = false;
            }
            (
                Call::Book {
                    name,
                    slot,
                    parents,
                },
                Some(history),
            ) => history.booked(*name, *slot, parents),
            (Call::Poll { name, votes }, Some(history)) => history.polled(*name, votes),
            // So does a reading, with the file's polls as its start.
            (Call::ReadFile(form, file), history) => {
                let day = parse(file, *form).expect("the file was taken");
                let history = history.get_or_insert_with(History::default);
                history.handed_over(&day);
                self.style.setting = day.setting;
                let read = Told::of_words(&self.ws).outcome().marked();
                self.are_told = day.marks.is_some_and(|told| told != read);
            }
            (Call::WriteFile(form, _), _) => {
                self.written = Some((*form, made.out[..value as usize].to_vec()));
            }
            _ => (),
        }
        match call {
            Call::Index(Indexing::Build, _) => self.index = made.cells,
            Call::Index(Indexing::Enter, lent) if lent.0 == self.index => self.index = made.cells,
            Call::Book { .. } if prng.chance(ENTERED) => {
                let cells = Cells(self.index.clone());
                self.ahead.push_front(Call::Index(Indexing::Enter, cells));
            }
            _ => (),
        }
        Ok(())
    }

    /// The file of the run's words, read into any other words. It leads back
    /// to every word that a history led to; but in the first form the marks are what
    /// comes of all bookings before all polls.
    fn read_back(
        &mut self,
        prng: &mut Prng,
        form: Form,
        file: Vec<u8>,
        tally: &mut Tally,
    ) -> Result<(), String> {
        let call = Call::ReadFile(form, file);
        let before = match prng.below(3) {
            0 => vec![0; WORDS],
            1 => (0..WORDS).map(|_| prng.draw() as u16).collect(),
            _ => Damaged::any(prng, &self.ws).words,
        };
        let verdict = decode(&before);
        let made = self.both("read back", &before, &verdict, &call, tally)?;
        if self.history.is_some() {
            let told = |ws: &[u16]| match form {
                Form::First => without_marks(ws),
                Form::Second => ws.to_vec(),
            };
            if told(&made.words) != told(&self.ws) {
                let (words, meant) = (words_text(&made.words), words_text(&self.ws));
                return Err(format!("a file read back gives {words}and not {meant}"));
            }
            let (led_to, read) = (ledger_of(&self.ws), ledger_of(&made.words));
            let marked = (0..read.bookings.len()).filter(|&b| led_to.bookings[b].is_marked);
            let lost: Vec<usize> = marked.filter(|&b| !read.bookings[b].is_marked).collect();
            if !lost.is_empty() {
                tally.add(MARK_LOST);
            }
            if lost.iter().any(|&b| read.has_marked_rival(b)) {
                tally.add(HANDED_ON);
            }
        }
        tally.add(READ_BACK);
        Ok(())
    }

    /// A call on a damaged copy. Where the damage itself tells the place that
    /// has to be named, that is a third opinion beside those of both faces.
    fn damaged(&mut self, prng: &mut Prng, call: &Call, tally: &mut Tally) -> Result<(), String> {
        let Damaged {
            words,
            kinds,
            place,
        } = Damaged::any(prng, &self.ws);
        let verdict = decode(&words);
        let answer = self
            .both("damaged", &words, &verdict, call, tally)?
            .our_answer;
        let (Some(place), false) = (place, call.is_blind()) else {
            return Ok(());
        };
        let refusal = place.refusal();
        if answer != (refusal.number(), refusal.value()) {
            let words = words_text(&words);
            return Err(format!(
                "{kinds:?} damaged {place:?}, answered {answer:?}\n{call:?} on {words}"
            ));
        }
        tally.add_damage(&kinds);
        tally.add(TOLD);
        Ok(())
    }

    /// Both faces make the call on these words.
    fn both(
        &mut self,
        note: &'static str,
        before: &[u16],
        verdict: &Verdict,
        call: &Call,
        tally: &mut Tally,
    ) -> Result<Made, String> {
        let made = Made::by(self.ours, self.theirs, before, call);
        self.steps.push(Step::Made {
            note,
            call: call.clone(),
            ours: made.our_answer,
            theirs: made.their_answer,
        });
        made.check(before, call, verdict)?;
        tally.add_call(call, made.our_answer, verdict, &made.words);
        Ok(made)
    }

    /// Who is accepted, and the laws of a history, or those of any sound
    /// ledger, as our face shows them.
    fn check_laws(&mut self, tally: &mut Tally) -> Result<(), String> {
        let mut guarded = Guarded::new(&self.ws);
        let mut theirs = self.ws.clone();
        let mut told_otherwise = None;
        let picture = Picture::of_words(&self.ws, |name| {
            let call = Call::Read(Reading::Accepted, name);
            let answer = self.ours.call(guarded.lend(), Beside::default(), &call);
            if answer != self.theirs.call(&mut theirs, Beside::default(), &call) {
                told_otherwise = Some(name);
            }
            answer == (0, 1)
        });
        if let Some(name) = told_otherwise {
            return Err(format!(
                "another answer to accepted {name}, as the run ends"
            ));
        }
        match &mut self.history {
            Some(history) => history.check(&picture),
            None => check_accepted_once(&picture.rows),
        }
        .map_err(|breach| format!("law {:?}: {}", breach.law, breach.said))?;
        tally.add(LAWS);
        Ok(())
    }
}

impl Display for Step {
    fn fmt(&self, f: &mut Formatter) -> fmt::Result {
        match self {
            Step::Made {
                note,
                call,
                ours,
                theirs,
            } => writeln!(f, "{note} {call:?}: ours {ours:?}, theirs {theirs:?}"),
            Step::Marked(ws) => write!(f, "other marks: {}", words_text(ws)),
        }
    }
}

fn without_marks(ws: &[u16]) -> Vec<u16> {
    let mut others = ws.to_vec();
    for b in 0..BOOKINGS {
        others[record(b) + MARK] = 0;
    }
    others
}

/// Words of another length, at times one whose low sixteen bits are right, or
/// that of words without marks.
fn any_length(prng: &mut Prng, ws: &[u16]) -> Vec<u16> {
    let length = match prng.below(10) {
        0 => 0,
        1 => 1,
        2..=3 => WORDS - 1,
        4..=5 => WORDS + 1,
        6..=7 => WORDS_WITHOUT_MARKS,
        8 => prng.pick(&[8, 20, 2 * WORDS, 65536 + WORDS]),
        _ => prng.below(2 * WORDS),
    };
    let mut resized = ws.to_vec();
    resized.resize(length, 0);
    resized
}

/// The verdict on words of any length, for the tally only: nothing is judged
/// in words of another length.
fn decode_any(ws: &[u16]) -> Result<Ledger, Damage> {
    if ws.len() == WORDS {
        decode(ws)
    } else {
        Err(Damage::default())
    }
}

#[cfg(test)]
mod tests {
    use super::*;
    use crate::planted::{Plant, Planted};

    /// Two programs with the same error agree, and where the damage was done
    /// tells it all the same.
    #[test]
    fn a_wrong_row_that_both_name_is_found() {
        for plant in [
            Plant::RecordsAndSlotsSwapped,
            Plant::DamageWithoutRow,
            Plant::HighestRowNamed,
            Plant::RecordsBeforeHeader,
            Plant::SlotsBeforeRecords,
            Plant::NameChargedToLowest,
            Plant::MissingOrdinalAtLastRecord,
            Plant::ConfidenceBoundAmongSlots,
            Plant::CounterBoundAmongRecords,
            Plant::MarkChargedToLowest,
            Plant::MarkChargedToHighest,
            Plant::MarkTwiceAmongSlots,
        ] {
            let both = Planted(Some(plant));
            let (_, difference) = compare(&both, &both, 10_000, 1);
            let text = difference.expect("it is found").text;
            let found = text.lines().nth(1).unwrap_or_default();
            assert!(found.contains(", answered ("), "{plant:?}: {found}");
        }
        let (_, difference) = compare(&Planted(None), &Planted(None), 2000, 1);
        assert!(difference.is_none());
    }

    /// Likewise marks that both give, keep or read wrongly.
    #[test]
    fn a_wrong_mark_of_both_is_found() {
        for plant in Plant::MARKS {
            let both = Planted(Some(plant));
            let (_, difference) = compare(&both, &both, 10_000, 1);
            assert!(difference.is_some(), "{plant:?}");
        }
    }

    /// Likewise rules that both take from the wrong edition.
    #[test]
    fn a_wrong_edition_of_both_is_found() {
        for plant in Plant::EDITION {
            let both = Planted(Some(plant));
            let (_, difference) = compare(&both, &both, 10_000, 1);
            assert!(difference.is_some(), "{plant:?}");
        }
    }

    /// Likewise a file that both write wrongly, a buffer or words that both
    /// leave changed, and a file that both read or move wrongly.
    #[test]
    fn a_wrong_file_of_both_is_found() {
        let writing = Plant::FILE.into_iter().chain(Plant::WRITING);
        for plant in writing.chain(Plant::of_files()) {
            let both = Planted(Some(plant));
            let (_, difference) = compare(&both, &both, 10_000, 1);
            assert!(difference.is_some(), "{plant:?}");
        }
    }

    /// Likewise an index that both make or read wrongly.
    #[test]
    fn a_wrong_index_of_both_is_found() {
        for plant in Plant::INDEX {
            let both = Planted(Some(plant));
            let (_, difference) = compare(&both, &both, 10_000, 1);
            assert!(difference.is_some(), "{plant:?}");
        }
    }
}

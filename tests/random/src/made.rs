//! One call, made by both faces on the same words: what they say and leave
//! must be the same, and what the rules ask of any call must hold.

use crate::call::{Beside, Call, Face};
use crate::fault::Fault;
use crate::file;
use crate::guard::Guarded;
use crate::moved::moved;
use crate::probed;
use crate::replayed::Told;
use crate::report::{bytes_text, cells_text, words_text};
use second::codec::decode;
use second::counting;
use second::form::Form;
use second::layout::{entry, record, COUNTER, EDITION, MARK, REST, WORDS};
use second::ledger::{Ledger, Reading};
use second::marking::{check_booking, check_opening, check_poll, is_marked};
use second::sound::Damage;
use second::words::Answer;

/// The verdict on words: the ledger that they hold, or what is broken.
pub type Verdict = Result<Ledger, Damage>;

/// What a call was answered with, and what it left.
pub struct Made {
    pub our_answer: Answer,
    pub their_answer: Answer,
    our_words: Guarded<u16>,
    our_file: Guarded<u8>,
    our_out: Guarded<u8>,
    our_cells: Guarded<u16>,
    /// What theirs left, which is what ours left where nothing differs.
    pub words: Vec<u16>,
    pub file: Vec<u8>,
    pub out: Vec<u8>,
    pub cells: Vec<u16>,
}

impl Made {
    pub fn by(ours: &dyn Face, theirs: &dyn Face, before: &[u16], call: &Call) -> Made {
        let mut words = before.to_vec();
        let (mut file, mut out) = (call.lent_file(), call.lent_out());
        let mut cells = call.lent_cells();
        let mut our_words = Guarded::new(before);
        let (mut our_file, mut our_out) = (Guarded::new(&file[..]), Guarded::new(&out[..]));
        let mut our_cells = Guarded::new(&cells[..]);
        let beside = Beside {
            file: our_file.lend(),
            out: our_out.lend(),
            cells: our_cells.lend(),
        };
        let our_answer = ours.call(our_words.lend(), beside, call);
        let beside = Beside {
            file: &mut file,
            out: &mut out,
            cells: &mut cells,
        };
        let their_answer = theirs.call(&mut words, beside, call);
        Made {
            our_answer,
            their_answer,
            our_words,
            our_file,
            our_out,
            our_cells,
            words,
            file,
            out,
            cells,
        }
    }

    /// What differs, or is not as it has to be, with all that was left.
    pub fn check(&self, before: &[u16], call: &Call, verdict: &Verdict) -> Result<(), String> {
        let lent = call.lent_out();
        self.compare(before, &lent, call, verdict).map_err(|what| {
            let text = |words: &[u16], file: &[u8], out: &[u8], cells: &[u16]| {
                let [file, out] = [file, out].map(bytes_text);
                format!(
                    "{}file {file}out {out}{}",
                    words_text(words),
                    cells_text(cells)
                )
            };
            let before = text(before, &call.lent_file(), &lent, &call.lent_cells());
            let (file, out) = (self.our_file.lent(), self.our_out.lent());
            let ours = text(self.our_words.lent(), file, out, self.our_cells.lent());
            let theirs = text(&self.words, &self.file, &self.out, &self.cells);
            let (answer, other) = (self.our_answer, self.their_answer);
            format!(
                "{what}\n{} answered {answer:?}, theirs {other:?}\n\
                 before: {before}\nours: {ours}\ntheirs: {theirs}",
                call.kind()
            )
        })
    }

    fn compare(
        &self,
        before: &[u16],
        lent: &[u8],
        call: &Call,
        verdict: &Verdict,
    ) -> Result<(), String> {
        let told = |is_so: bool, what: &str| if is_so { Ok(()) } else { Err(what.to_string()) };
        told(self.our_answer == self.their_answer, "another answer")?;
        told(self.our_words.lent() == self.words, "other words")?;
        same("bytes of the file", self.our_file.lent(), &self.file)?;
        same("bytes", self.our_out.lent(), &self.out)?;
        same("cells", self.our_cells.lent(), &self.cells)?;
        told(
            self.our_words.is_intact(),
            "a word outside the lent ones was written",
        )?;
        told(
            self.our_file.is_intact() && self.our_out.is_intact(),
            "a byte outside the lent ones was written",
        )?;
        told(
            self.our_cells.is_intact(),
            "a word outside the lent index was written",
        )?;
        let may_change = self.our_answer.0 == 0 && call.is_change();
        told(
            may_change || self.words == before,
            "a refused call or a reading changed a word",
        )?;
        told(
            !may_change || decode(&self.words).is_ok(),
            "a taken call left unsound words",
        )?;
        told(
            self.file == call.lent_file(),
            "a byte of the file was changed",
        )?;
        self.check_marks(before, call, verdict)?;
        self.check_counters(before, call, verdict)?;
        match call {
            Call::WriteFile(form, _) => self.check_written(*form, lent, before, verdict),
            Call::ReadFile(form, file) => self.check_read(*form, file, before),
            Call::MoveFile(form, file, _) => self.check_moved(*form, file, lent),
            Call::Index(asked, lent) => probed::check(
                *asked,
                (before, verdict),
                (&lent.0, &self.cells),
                self.our_answer,
            ),
            _ => Ok(()),
        }
    }

    /// Did a taken call do with marks what it may and has to, whoever else did
    /// the same?
    fn check_marks(&self, before: &[u16], call: &Call, verdict: &Verdict) -> Result<(), String> {
        if self.our_answer.0 != 0 {
            return Ok(());
        }
        let after = &self.words;
        let kept = match (call, verdict) {
            (Call::Open(_), _) => check_opening(after),
            (Call::Book { .. }, Ok(_)) => check_booking(before, after),
            (Call::Poll { .. }, Ok(_)) => check_poll(before, after),
            (Call::Read(Reading::Accepted, name), Ok(ledger)) => {
                let is_accepted = is_marked(before, ledger.numbers[name]);
                return match self.our_answer.1 == i64::from(is_accepted) {
                    true => Ok(()),
                    false => Err("another acceptance than the mark says".to_string()),
                };
            }
            _ => Ok(()),
        };
        kept.map_err(|breach| format!("law {:?}: {}", breach.law, breach.said))
    }

    /// The same of counters, and of the edition.
    fn check_counters(&self, before: &[u16], call: &Call, verdict: &Verdict) -> Result<(), String> {
        if self.our_answer.0 != 0 {
            return Ok(());
        }
        let after = &self.words;
        let kept = match (call, verdict) {
            (Call::Open(setting), _) => {
                let header = [after[EDITION], after[REST]];
                return match header == [setting.edition, 0] {
                    true => Ok(()),
                    false => Err(format!("the opening leaves {header:?} in the header")),
                };
            }
            (Call::Book { .. }, Ok(_)) => counting::check_booking(before, after),
            (Call::Poll { name, .. }, Ok(ledger)) => {
                counting::check_poll(before, after, ledger.numbers[name])
            }
            _ => Ok(()),
        };
        kept.map_err(|breach| format!("law {:?}: {}", breach.law, breach.said))
    }

    /// Did writing the file of these words do what it has to, whoever else
    /// did the same? The buffer had the bytes `lent`.
    fn check_written(
        &self,
        form: Form,
        lent: &[u8],
        ws: &[u16],
        verdict: &Verdict,
    ) -> Result<(), String> {
        let mut written = 0;
        if let Ok(ledger) = verdict {
            let (length, room) = (file::length(ledger, form), lent.len());
            let is_short = room < length;
            let meant = if is_short {
                (16, 0)
            } else {
                (0, length as i64)
            };
            written = if is_short { 0 } else { length };
            let answer = self.our_answer;
            if answer != meant {
                return Err(format!(
                    "{length} bytes into {room}, answered {answer:?}, not {meant:?}"
                ));
            }
        }
        if self.out[written..] != lent[written..] {
            return Err("a byte was written that is none of the file".to_string());
        }
        if written > 0 {
            file::check(&self.out[..written], form, ws)?;
        }
        Ok(())
    }

    /// The same of reading a file into these words.
    fn check_read(&self, form: Form, file: &[u8], ws: &[u16]) -> Result<(), String> {
        let fault = Fault::of(file, form);
        let meant = match fault {
            _ if ws.len() != WORDS => (1, 0),
            Some(_) => (17, 0),
            None => (0, 0),
        };
        let answer = self.our_answer;
        if answer != meant {
            return Err(format!(
                "a file with the fault {fault:?}, answered {answer:?}, not {meant:?}"
            ));
        }
        if meant.0 == 0 {
            // The marks are among it, if the form tells them.
            file::check(file, form, &self.words)?;
            let outcome = Told::of_words(&self.words).outcome();
            for (b, is_marked) in outcome.marks.into_iter().enumerate() {
                let is_given = self.words[record(b) + MARK] == 1;
                if form == Form::First && is_given != is_marked {
                    return Err(format!("the file's polls lead to another mark of {b}"));
                }
            }
            for (s, counter) in outcome.counters.into_iter().enumerate() {
                if self.words[entry(s) + COUNTER] != counter {
                    return Err(format!("the file's polls lead slot {s} to {counter}"));
                }
            }
        }
        Ok(())
    }

    /// The same of moving a file into a buffer that had the bytes `lent`.
    fn check_moved(&self, form: Form, file: &[u8], lent: &[u8]) -> Result<(), String> {
        let room = lent.len();
        let (meant, left) = match moved(form, file) {
            Err(refusal) => ((refusal.number(), 0), lent.to_vec()),
            Ok(moved) if room < moved.len() => ((16, 0), lent.to_vec()),
            Ok(moved) => {
                let value = moved.len() as i64;
                ((0, value), [&moved, &lent[moved.len()..]].concat())
            }
        };
        let answer = self.our_answer;
        if answer != meant {
            return Err(format!(
                "moved into {room} bytes, answered {answer:?}, not {meant:?}"
            ));
        }
        if self.out != left {
            return Err("another file was moved than has to be".to_string());
        }
        Ok(())
    }
}

/// What differs between what both left, from which place on.
fn same<T: PartialEq>(what: &str, ours: &[T], theirs: &[T]) -> Result<(), String> {
    let mut pairs = ours.iter().zip(theirs);
    match pairs.position(|(ours, theirs)| ours != theirs) {
        Some(at) => Err(format!("other {what}, from {at} on")),
        None => Ok(()),
    }
}

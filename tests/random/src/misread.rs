//! The reading of a day file with errors planted, for `planted`. Each takes
//! most files for what they are.

use crate::planted::Plant;
use second::form::Form;
use second::ledger::{Ledger, GENESIS};
use second::refusal::Refusal;
use second::setting::Setting;
use std::collections::BTreeSet;

/// The ledger of a file.
pub fn read(plant: Option<Plant>, form: Form, file: &[u8]) -> Result<Ledger, Refusal> {
    let mut bytes = file;
    if plant == Some(Plant::FileLengthInSixteenBits) {
        bytes = &file[..file.len() % 65_536];
    }
    let mut reader = Reader {
        plant,
        bytes,
        at: 0,
    };
    let mut ledger = reader.ledger()?;
    let is_over = reader.at == bytes.len();
    let has_marks = form == Form::Second && !(is_over && reader.has(Plant::FourthSectionOptional));
    if has_marks {
        reader.marks(&mut ledger)?;
    }
    let is_taken =
        reader.has(Plant::TrailingBytesTaken) || has_marks && reader.has(Plant::TrailingMarksTaken);
    if reader.at < bytes.len() && !is_taken {
        return Err(Refusal::File);
    }
    Ok(ledger)
}

/// The ledger of the first three sections, and where they end.
pub fn read_front(file: &[u8]) -> Result<(Ledger, usize), Refusal> {
    let mut reader = Reader {
        plant: None,
        bytes: file,
        at: 0,
    };
    let ledger = reader.ledger()?;
    Ok((ledger, reader.at))
}

struct Reader<'a> {
    plant: Option<Plant>,
    bytes: &'a [u8],
    at: usize,
}

impl Reader<'_> {
    fn has(&self, plant: Plant) -> bool {
        self.plant == Some(plant)
    }

    fn ledger(&mut self) -> Result<Ledger, Refusal> {
        let setting = self.setting()?;
        let mut ledger = Ledger::open(setting).map_err(|_| Refusal::File)?;
        match self.plant {
            Some(Plant::FileTakenByFirstEdition) => ledger.setting.edition = 0,
            Some(Plant::FileTakenByLaterEdition) => ledger.setting.edition = Setting::LATER,
            _ => (),
        }
        let booked = self.number()?;
        if booked == 511 && self.has(Plant::FullFileRefused) {
            return Err(Refusal::File);
        }
        for _ in 0..booked {
            self.booking(&mut ledger)?;
        }
        self.polls(&mut ledger)?;
        ledger.setting = setting;
        Ok(ledger)
    }

    fn setting(&mut self) -> Result<Setting, Refusal> {
        let count = self.number()?;
        let is_count = match count {
            4 => true,
            5 => !self.has(Plant::FiveNumbersRefused),
            _ => self.has(Plant::SettingCountUnread),
        };
        if !is_count {
            return Err(Refusal::File);
        }
        let [k, a, beta1, beta2] = [(); 4].map(|()| self.number());
        let edition = match count {
            5 => self.edition()?,
            _ => 0,
        };
        Ok(Setting {
            k: k?,
            a: a?,
            beta1: beta1?,
            beta2: beta2?,
            edition,
        })
    }

    /// An edition that is told.
    fn edition(&mut self) -> Result<u16, Refusal> {
        let told = self.number()?;
        let read = match self.plant {
            Some(Plant::EditionReadByItsLowByte) => told % 256,
            Some(Plant::EditionAboveOneRead) => told.min(Setting::LATER),
            _ => told,
        };
        match read {
            0 if self.has(Plant::EditionZeroRead) => Ok(0),
            Setting::LATER if self.has(Plant::EditionReadAndLost) => Ok(0),
            Setting::LATER => Ok(Setting::LATER),
            _ => Err(Refusal::File),
        }
    }

    fn booking(&mut self, ledger: &mut Ledger) -> Result<(), Refusal> {
        let mut name = self.name()?;
        let slot = self.number()?;
        let mut parents = Vec::new();
        for _ in 0..self.number()? {
            parents.push(self.number()?);
        }
        if self.has(Plant::ParentTwiceTakenOnce) {
            let mut seen = Vec::new();
            parents.retain(|parent| {
                let is_new = !seen.contains(parent);
                seen.push(*parent);
                is_new
            });
        }
        if self.has(Plant::LaterParentSkipped) {
            parents.retain(|&parent| usize::from(parent) < ledger.bookings.len());
        }
        if self.has(Plant::FifthParentSkipped) {
            parents.truncate(4);
        }
        if self.has(Plant::SlotInEightBits) && slot > 255 {
            return self.book(ledger, name, slot % 256, &parents);
        }
        if ledger.numbers.contains_key(&name) && self.has(Plant::NameTwiceSkipped) {
            return Ok(());
        }
        if self.has(Plant::NameInLowHalf) {
            name %= 1 << 32;
        }
        self.book(ledger, name, slot, &parents)
    }

    fn book(
        &self,
        ledger: &mut Ledger,
        name: u64,
        slot: u16,
        parents: &[u16],
    ) -> Result<(), Refusal> {
        let mut names = Vec::new();
        for &parent in parents {
            if self.has(Plant::ParentNumberIsName) {
                names.push(parent.into());
                continue;
            }
            let booking = ledger.bookings.get(usize::from(parent));
            names.push(booking.ok_or(Refusal::File)?.name);
        }
        (ledger.book(name, slot, &names)).map_err(|_| Refusal::File)
    }

    fn polls(&mut self, ledger: &mut Ledger) -> Result<(), Refusal> {
        let mut polls = Vec::new();
        for _ in 0..self.number()? {
            let booking = usize::from(self.number()?);
            let outcome = self.number()?;
            if outcome > 1 && !self.has(Plant::OutcomeAboveOneIsFailure) {
                return Err(Refusal::File);
            }
            let is_success = (outcome == 1) != self.has(Plant::OutcomeTurnedRound);
            polls.push((booking, is_success));
        }
        // As if each poll had come before the next booking.
        if self.has(Plant::PollsBeforeBookings) {
            polls.sort();
        }
        let mut polled = Vec::new();
        for (booking, is_success) in polls {
            let is_skipped = self.has(Plant::PollOfGenesisSkipped) && booking == GENESIS
                || self.has(Plant::PollTwiceSkipped) && polled.contains(&booking)
                || self.has(Plant::UnbookedPollSkipped) && booking >= ledger.bookings.len();
            if is_skipped {
                continue;
            }
            polled.push(booking);
            let name = ledger.bookings.get(booking).ok_or(Refusal::File)?.name;
            let votes = vec![u8::from(is_success); ledger.setting.k.into()];
            (ledger.poll(name, &votes)).map_err(|_| Refusal::File)?;
        }
        if self.has(Plant::MarksNotMade) {
            for booking in &mut ledger.bookings[1..] {
                booking.is_marked = false;
            }
        }
        if self.has(Plant::ConfidencesNotMade) {
            for booking in &mut ledger.bookings {
                booking.confidence = 0;
            }
        }
        Ok(())
    }

    fn marks(&mut self, ledger: &mut Ledger) -> Result<(), Refusal> {
        let mut count = usize::from(self.number()?);
        if self.has(Plant::MarkCountUnread) {
            count = (self.bytes.len() - self.at) / 2;
        }
        let mut marks = Vec::new();
        for _ in 0..count {
            let number = usize::from(self.number()?);
            marks.push(match self.plant {
                Some(Plant::MarkInLowByte) => number % 256,
                _ => number,
            });
        }
        if !self.are_good(ledger, &marks) {
            return Err(Refusal::File);
        }
        for (b, booking) in ledger.bookings.iter_mut().enumerate() {
            let (was, is) = (booking.is_marked, marks.contains(&b) || b == GENESIS);
            booking.is_marked = match self.plant {
                Some(Plant::ReplayedMarksKept) => was,
                Some(Plant::MarksOnlyAdded) => was || is,
                Some(Plant::MarksOnlyDropped) => was && is,
                _ => is,
            };
        }
        Ok(())
    }

    fn are_good(&self, ledger: &Ledger, marks: &[usize]) -> bool {
        let n = ledger.bookings.len();
        let is_first = match marks.first() {
            None => self.has(Plant::NoMarksTaken),
            Some(&first) => first == GENESIS || self.has(Plant::GenesisUnmarkedTaken),
        };
        let is_rising = marks.windows(2).all(|pair| {
            pair[0] < pair[1]
                || pair[0] == pair[1] && self.has(Plant::EqualMarksTaken)
                || pair[0] > pair[1] && self.has(Plant::FallingMarksTaken)
        });
        let is_booked = marks.iter().all(|&b| match self.plant {
            Some(Plant::MarkOfNTaken) => b <= n,
            Some(Plant::MarkAboveNTaken) => b != n,
            Some(Plant::NewestMarkRefused) => b < n - 1 || b == GENESIS,
            _ => b < n,
        });
        let booked = marks.iter().filter_map(|&b| ledger.bookings.get(b));
        let is_earned = booked.clone().skip(1).all(|booking| booking.confidence > 0);
        // Each number once, if it may be there twice.
        let mut once: Vec<usize> = marks.iter().copied().filter(|&b| b < n).collect();
        once.sort();
        once.dedup();
        let slots: BTreeSet<u16> = booked.map(|booking| booking.slot).collect();
        let is_alone = slots.len() == once.len() || self.has(Plant::RivalMarksTaken);
        let is_earned = is_earned || !self.has(Plant::UnearnedMarksRefused);
        is_first && is_rising && is_booked && is_alone && is_earned
    }

    fn number(&mut self) -> Result<u16, Refusal> {
        Ok(u16::from_be_bytes([self.byte()?, self.byte()?]))
    }

    fn name(&mut self) -> Result<u64, Refusal> {
        let mut name = 0;
        for _ in 0..8 {
            name = name << 8 | u64::from(self.byte()?);
        }
        Ok(name)
    }

    fn byte(&mut self) -> Result<u8, Refusal> {
        let byte = self.bytes.get(self.at).copied();
        self.at += 1;
        match byte {
            None if self.has(Plant::MissingBytesAreZero) => Ok(0),
            None => Err(Refusal::File),
            Some(byte) => Ok(byte),
        }
    }
}

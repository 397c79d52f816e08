//! The day file with errors planted, for `planted`. Each leaves most of the
//! file as it is.

use crate::misread;
use crate::old_rule;
use crate::planted::Plant;
use second::day::EDITION_BYTES;
use second::form::Form;
use second::ledger::{Booking, Ledger, State};
use second::refusal::Refusal;
use second::setting::Setting;

/// Writes the file of a ledger to the front of the buffer; gives its length.
pub fn write(
    plant: Option<Plant>,
    form: Form,
    ledger: &Ledger,
    out: &mut [u8],
) -> Result<usize, Refusal> {
    let has = |other: Plant| plant == Some(other);
    let file = file(plant, form, ledger);
    let (mut length, mut room) = (file.len(), out.len());
    if has(Plant::RoomInSixteenBits) {
        room %= 65_536;
    }
    if has(Plant::JustEnoughRoomRefused) && room == length {
        return Err(Refusal::Room);
    }
    if has(Plant::LastByteCutOff) && room + 1 == length {
        length = room;
    }
    if has(Plant::EditionUnmeasured) && ledger.setting.is_later() && room < length {
        length = room.max(length - EDITION_BYTES);
    }
    if has(Plant::MarksUnmeasured) && form == Form::Second && room < length {
        length = room.max(length - form.marks(ledger.marked().len()));
    }
    if room < length {
        if has(Plant::ShortBufferBegun) {
            out.copy_from_slice(&file[..room]);
        }
        return Err(Refusal::Room);
    }
    out[..length].copy_from_slice(&file[..length]);
    let rest = &mut out[length..];
    if has(Plant::RestOfBufferCleared) {
        rest.fill(0);
    }
    if has(Plant::ByteWrittenPastFile) && !rest.is_empty() {
        rest[0] = 0;
    }
    Ok(if has(Plant::LengthOneShort) {
        length - 1
    } else {
        length
    })
}

/// The file of a ledger.
pub fn file(plant: Option<Plant>, form: Form, ledger: &Ledger) -> Vec<u8> {
    let mut writer = Writer {
        plant,
        bytes: Vec::new(),
    };
    writer.ledger(ledger);
    if form == Form::Second {
        writer.marks(ledger);
    }
    writer.bytes
}

struct Writer {
    plant: Option<Plant>,
    bytes: Vec<u8>,
}

impl Writer {
    fn has(&self, plant: Plant) -> bool {
        self.plant == Some(plant)
    }

    fn ledger(&mut self, ledger: &Ledger) {
        let Setting {
            k,
            a,
            beta1,
            beta2,
            edition,
        } = ledger.setting;
        let mut setting = vec![k, a, beta1, beta2];
        let is_told = match edition {
            0 => self.has(Plant::EditionAlwaysWritten),
            _ => !self.has(Plant::EditionNotWritten),
        };
        if is_told && self.has(Plant::EditionWrittenFirst) {
            setting.insert(0, edition);
        } else if is_told {
            setting.push(edition);
        }
        self.number(match self.plant {
            Some(Plant::EditionUncounted) => 4,
            _ => setting.len(),
        });
        for n in setting {
            self.number(n.into());
        }
        let first = usize::from(!self.has(Plant::GenesisWritten));
        let bookings = &ledger.bookings[first..];
        self.number(bookings.len());
        for booking in bookings {
            self.booking(ledger, booking);
        }
        self.polls(ledger);
    }

    fn booking(&mut self, ledger: &Ledger, booking: &Booking) {
        self.name(booking.name);
        self.number(booking.slot.into());
        self.number(booking.parents.len());
        let mut parents = booking.parents.clone();
        if self.has(Plant::ParentsInRisingOrder) {
            parents.sort();
        }
        for parent in parents {
            let name = ledger.bookings[parent].name as u16;
            if self.has(Plant::ParentByName) {
                self.number(name.into());
            } else {
                self.number(parent);
            }
        }
    }

    fn polls(&mut self, ledger: &Ledger) {
        let mut polled: Vec<(usize, &Booking)> = (ledger.bookings.iter().enumerate().skip(1))
            .filter(|(_, b)| b.state != State::Waiting || self.has(Plant::WaitingWrittenAsFailed))
            .collect();
        if !self.has(Plant::PollsInBookingOrder) {
            polled.sort_by_key(|(_, booking)| booking.ordinal);
        }
        self.number(polled.len());
        for (b, booking) in polled {
            self.number(b);
            let is_success = booking.state == State::Chit || self.has(Plant::EveryPollSucceeds);
            if self.has(Plant::OutcomeIsState) {
                self.number(booking.state as usize);
            } else {
                self.number(is_success.into());
            }
        }
    }

    fn marks(&mut self, ledger: &Ledger) {
        let mut marks = ledger.marked();
        match self.plant {
            Some(Plant::GenesisMarkNotWritten) => drop(marks.remove(0)),
            Some(Plant::MarksFallWritten) => marks.reverse(),
            Some(Plant::MarksBySlot) => marks.sort_by_key(|&b| ledger.bookings[b].slot),
            Some(Plant::MarksOfReadingWritten) => {
                let first = file(None, Form::First, ledger);
                let read = misread::read(None, Form::First, &first);
                marks = read.expect("it was written").marked();
            }
            Some(Plant::MarksByOldRuleWritten) => {
                let accepted = old_rule::accepted(ledger);
                marks = (0..accepted.len()).filter(|&b| accepted[b]).collect();
            }
            _ => (),
        }
        if !self.has(Plant::MarksUncounted) {
            self.number(marks.len());
        }
        for b in marks {
            self.number(b);
        }
    }

    fn number(&mut self, n: usize) {
        let [high, low] = (n as u16).to_be_bytes();
        self.bytes.extend(match self.plant {
            Some(Plant::LowByteFirst) => [low, high],
            Some(Plant::HighByteLost) => [0, low],
            _ => [high, low],
        });
    }

    fn name(&mut self, name: u64) {
        self.bytes.extend(match self.plant {
            Some(Plant::NameLowByteFirst) => name.to_le_bytes(),
            Some(Plant::NameHalvesSwapped) => name.rotate_left(32).to_be_bytes(),
            _ => name.to_be_bytes(),
        });
    }
}

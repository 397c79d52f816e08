//! A copy of the second program's rules with errors planted, to show that
//! the comparison finds them. Without a plant it must find nothing.

use crate::call::{Beside, Call, Face, Indexing};
use crate::miscounted;
use crate::misindexed;
use crate::misjudged;
use crate::mismarked;
use crate::mismoved;
use crate::misread;
use crate::miswritten;
use crate::old_rule;
use second::codec::{encode, ledger_of};
use second::form::Form;
use second::index::EMPTY;
use second::layout::*;
use second::ledger::{read_vote, Ledger, Reading, State, Vote};
use second::refusal::Refusal;
use second::setting::Setting;
use second::words::Answer;
use std::collections::BTreeMap;

#[derive(Clone, Copy, Debug, PartialEq, Eq)]
pub enum Plant {
    // the rules of the vote
    NoTakesFromYes,
    NoReadAsYes,
    AncestorRaisedPerPath,
    TieMovesPreference,
    RaisedAfterComparing,
    CounterRisesAlsoForNewLast,
    AcceptedForBothRivals,
    AcceptedWithoutParents,
    EqualUnknownParentsAreTwice,
    LongerWorkspaceTaken,
    RefusedPollMovesP,
    WordsWithoutMarksTaken,
    // marks
    GenesisUnmarkedAtOpening,
    MarkDroppedByRival,
    LoneMarkDroppedByRival,
    MarksAfterBookingToo,
    TwoMarksInASlot,
    HigherMarkOverlooked,
    OvertakerTakesMark,
    ParentMarksOfPassUncounted,
    ParentsByOldRule,
    MarksOnlyInAncestry,
    MarksBeforePoll,
    MarksMadeAnew,
    FailedPollMarksNobody,
    AcceptedByOldRule,
    // editions
    NewLastUncountedInLater,
    CounterGoesOnInLater,
    CounterKeptInLater,
    AboveBeta1InLater,
    AboveBeta2InLater,
    AtLeastBeta1InFirst,
    AtLeastBeta2InFirst,
    FailureClearsInFirst,
    FailureClearsNothing,
    FailureLeavesSlot0,
    FailureLeavesOwnSlot,
    FailureClearsOwnSlotOnly,
    FailureClearsUpToParents,
    FailureClearsWhereLast,
    FailureClearsWherePreferred,
    FailureClearsLoneBookings,
    FailureClearsAllSlots,
    FailureLowersByOne,
    FailureClearsToOne,
    FailureMovesLast,
    FailureUnmarks,
    FailureLowersConfidence,
    MarksBeforeClearing,
    EditionAboveOneOpened,
    EditionAboveOneIsFirst,
    EditionInLowBits,
    EditionByItsLowestBit,
    EditionLostAtOpening,
    OpeningKeepsEdition,
    PollForgetsEdition,
    // what is damaged, and what is said of it
    CounterBoundUntested,
    EditionUntested,
    EditionTwoUntested,
    EditionAmongRecords,
    LaterEditionRefused,
    LastHeaderWordUntested,
    LastHeaderWordIsEdition,
    MissingOrdinalUntested,
    MissingOrdinalOfFullUntested,
    MissingOrdinalAtLastRecord,
    PollsJudgedAmongRecords,
    UnusedRecordsChargedToN,
    NameChargedToLowest,
    NameChargedToHighest,
    OrdinalChargedToLowest,
    OrdinalAboveChargedToOthers,
    ConfidenceBoundAmongSlots,
    CounterBoundAmongRecords,
    MarkOutsideUntested,
    GenesisMarkUntested,
    UnusedMarkUntested,
    MarkTwiceUntested,
    MarkChargedToLowest,
    MarkChargedToHighest,
    MarkTwiceAmongSlots,
    ChitsOfBrokenRecordsUncounted,
    HighestRowNamed,
    RecordsBeforeHeader,
    SlotsBeforeRecords,
    RecordsAndSlotsSwapped,
    DamageWithoutRow,
    UnknownNameBeforeDamage,
    RefusedCallMendsCounters,
    // the day file
    LowByteFirst,
    EditionNotWritten,
    EditionAlwaysWritten,
    EditionUncounted,
    EditionWrittenFirst,
    EditionUnmeasured,
    HighByteLost,
    NameLowByteFirst,
    NameHalvesSwapped,
    GenesisWritten,
    ParentByName,
    ParentsInRisingOrder,
    PollsInBookingOrder,
    EveryPollSucceeds,
    OutcomeIsState,
    WaitingWrittenAsFailed,
    LengthOneShort,
    JustEnoughRoomRefused,
    LastByteCutOff,
    RoomInSixteenBits,
    ShortBufferBegun,
    ByteWrittenPastFile,
    RestOfBufferCleared,
    // its marks, in the second form
    MarksUncounted,
    GenesisMarkNotWritten,
    MarksFallWritten,
    MarksBySlot,
    MarksUnmeasured,
    MarksOfReadingWritten,
    MarksByOldRuleWritten,
    // the call that writes it
    ShortBufferBeforeDamage,
    DamageClearsBuffer,
    LengthKeptInHeader,
    // a file that is read, and the call that reads it
    TrailingBytesTaken,
    MissingBytesAreZero,
    FileLengthInSixteenBits,
    SettingCountUnread,
    FiveNumbersRefused,
    EditionZeroRead,
    EditionAboveOneRead,
    EditionReadByItsLowByte,
    EditionReadAndLost,
    FileTakenByFirstEdition,
    FileTakenByLaterEdition,
    ReadingKeepsEdition,
    FullFileRefused,
    NameInLowHalf,
    NameTwiceSkipped,
    SlotInEightBits,
    ParentNumberIsName,
    ParentTwiceTakenOnce,
    LaterParentSkipped,
    FifthParentSkipped,
    PollsBeforeBookings,
    PollTwiceSkipped,
    PollOfGenesisSkipped,
    UnbookedPollSkipped,
    OutcomeTurnedRound,
    OutcomeAboveOneIsFailure,
    ConfidencesNotMade,
    MarksNotMade,
    MarksKeptOverReading,
    OpenedBeforeFileIsJudged,
    OldRecordsKept,
    DamagedWordsNotReadInto,
    BadFileBeforeLength,
    ReadingHasFileLength,
    // the marks of a file that is read
    NoMarksTaken,
    GenesisUnmarkedTaken,
    EqualMarksTaken,
    FallingMarksTaken,
    MarkOfNTaken,
    MarkAboveNTaken,
    NewestMarkRefused,
    RivalMarksTaken,
    UnearnedMarksRefused,
    TrailingMarksTaken,
    MarkCountUnread,
    MarkInLowByte,
    FourthSectionOptional,
    ReplayedMarksKept,
    MarksOnlyAdded,
    MarksOnlyDropped,
    // a file that is moved to the other form
    OtherMarksBeforeBadFile,
    RoomBeforeOtherMarks,
    RoomBeforeBadFile,
    GenesisAloneMoved,
    MarksByOldRuleMoved,
    PreferredMoved,
    OtherMarksDropped,
    LostMarksAloneCompared,
    NewMarksAloneCompared,
    MarksComparedByCount,
    OtherMarksMovedAnyway,
    SectionKeptMovingBack,
    EitherFormMoved,
    MoveHasInputLength,
    MoveHasNoValue,
    JustEnoughForMoveRefused,
    ShortMoveBegun,
    RestClearedByMove,
    MoveChangesFile,
    // the index of names
    HashedLowestByteFirst,
    HighHalfUnhashed,
    MultipliedBeforeXor,
    ProbedDownwards,
    NoWayRound,
    LastCellUntried,
    StopsAtUnusedNumber,
    EmptyCellPassedOver,
    NamesUncompared,
    UnusedRecordFound,
    FoundWithoutIndex,
    FoundMovesHome,
    FindingTellsCell,
    EnteringStopsAtName,
    EntersN,
    UnusedNumberOverwritten,
    FullIndexOverwritten,
    EnteringTellsCell,
    BuildKeepsOld,
    BuildInFallingOrder,
    GenesisNotBuilt,
    BuildCounts,
    // the calls on it
    LongerIndexTaken,
    IndexLengthInSixteenBits,
    IndexLengthBeforeWords,
    IndexLengthAfterHeader,
    IndexLengthAfterDamage,
    DamageEmptiesIndex,
    IndexFullBeforeDamage,
    IndexKeptInHeader,
}

impl Plant {
    const VOTE: [Plant; 12] = [
        Plant::NoTakesFromYes,
        Plant::NoReadAsYes,
        Plant::AncestorRaisedPerPath,
        Plant::TieMovesPreference,
        Plant::RaisedAfterComparing,
        Plant::CounterRisesAlsoForNewLast,
        Plant::AcceptedForBothRivals,
        Plant::AcceptedWithoutParents,
        Plant::EqualUnknownParentsAreTwice,
        Plant::LongerWorkspaceTaken,
        Plant::RefusedPollMovesP,
        Plant::WordsWithoutMarksTaken,
    ];
    pub const MARKS: [Plant; 14] = [
        Plant::GenesisUnmarkedAtOpening,
        Plant::MarkDroppedByRival,
        Plant::LoneMarkDroppedByRival,
        Plant::MarksAfterBookingToo,
        Plant::TwoMarksInASlot,
        Plant::HigherMarkOverlooked,
        Plant::OvertakerTakesMark,
        Plant::ParentMarksOfPassUncounted,
        Plant::ParentsByOldRule,
        Plant::MarksOnlyInAncestry,
        Plant::MarksBeforePoll,
        Plant::MarksMadeAnew,
        Plant::FailedPollMarksNobody,
        Plant::AcceptedByOldRule,
    ];
    pub const EDITION: [Plant; 30] = [
        Plant::NewLastUncountedInLater,
        Plant::CounterGoesOnInLater,
        Plant::CounterKeptInLater,
        Plant::AboveBeta1InLater,
        Plant::AboveBeta2InLater,
        Plant::AtLeastBeta1InFirst,
        Plant::AtLeastBeta2InFirst,
        Plant::FailureClearsInFirst,
        Plant::FailureClearsNothing,
        Plant::FailureLeavesSlot0,
        Plant::FailureLeavesOwnSlot,
        Plant::FailureClearsOwnSlotOnly,
        Plant::FailureClearsUpToParents,
        Plant::FailureClearsWhereLast,
        Plant::FailureClearsWherePreferred,
        Plant::FailureClearsLoneBookings,
        Plant::FailureClearsAllSlots,
        Plant::FailureLowersByOne,
        Plant::FailureClearsToOne,
        Plant::FailureMovesLast,
        Plant::FailureUnmarks,
        Plant::FailureLowersConfidence,
        Plant::MarksBeforeClearing,
        Plant::EditionAboveOneOpened,
        Plant::EditionAboveOneIsFirst,
        Plant::EditionInLowBits,
        Plant::EditionByItsLowestBit,
        Plant::EditionLostAtOpening,
        Plant::OpeningKeepsEdition,
        Plant::PollForgetsEdition,
    ];
    const DAMAGE: [Plant; 33] = [
        Plant::CounterBoundUntested,
        Plant::EditionUntested,
        Plant::EditionTwoUntested,
        Plant::EditionAmongRecords,
        Plant::LaterEditionRefused,
        Plant::LastHeaderWordUntested,
        Plant::LastHeaderWordIsEdition,
        Plant::MissingOrdinalUntested,
        Plant::MissingOrdinalOfFullUntested,
        Plant::MissingOrdinalAtLastRecord,
        Plant::PollsJudgedAmongRecords,
        Plant::UnusedRecordsChargedToN,
        Plant::NameChargedToLowest,
        Plant::NameChargedToHighest,
        Plant::OrdinalChargedToLowest,
        Plant::OrdinalAboveChargedToOthers,
        Plant::ConfidenceBoundAmongSlots,
        Plant::CounterBoundAmongRecords,
        Plant::MarkOutsideUntested,
        Plant::GenesisMarkUntested,
        Plant::UnusedMarkUntested,
        Plant::MarkTwiceUntested,
        Plant::MarkChargedToLowest,
        Plant::MarkChargedToHighest,
        Plant::MarkTwiceAmongSlots,
        Plant::ChitsOfBrokenRecordsUncounted,
        Plant::HighestRowNamed,
        Plant::RecordsBeforeHeader,
        Plant::SlotsBeforeRecords,
        Plant::RecordsAndSlotsSwapped,
        Plant::DamageWithoutRow,
        Plant::UnknownNameBeforeDamage,
        Plant::RefusedCallMendsCounters,
    ];
    pub const FILE: [Plant; 30] = [
        Plant::LowByteFirst,
        Plant::EditionNotWritten,
        Plant::EditionAlwaysWritten,
        Plant::EditionUncounted,
        Plant::EditionWrittenFirst,
        Plant::EditionUnmeasured,
        Plant::HighByteLost,
        Plant::NameLowByteFirst,
        Plant::NameHalvesSwapped,
        Plant::GenesisWritten,
        Plant::ParentByName,
        Plant::ParentsInRisingOrder,
        Plant::PollsInBookingOrder,
        Plant::EveryPollSucceeds,
        Plant::OutcomeIsState,
        Plant::WaitingWrittenAsFailed,
        Plant::LengthOneShort,
        Plant::JustEnoughRoomRefused,
        Plant::LastByteCutOff,
        Plant::RoomInSixteenBits,
        Plant::ShortBufferBegun,
        Plant::ByteWrittenPastFile,
        Plant::RestOfBufferCleared,
        Plant::MarksUncounted,
        Plant::GenesisMarkNotWritten,
        Plant::MarksFallWritten,
        Plant::MarksBySlot,
        Plant::MarksUnmeasured,
        Plant::MarksOfReadingWritten,
        Plant::MarksByOldRuleWritten,
    ];
    pub const WRITING: [Plant; 3] = [
        Plant::ShortBufferBeforeDamage,
        Plant::DamageClearsBuffer,
        Plant::LengthKeptInHeader,
    ];

    const READING: [Plant; 50] = [
        Plant::TrailingBytesTaken,
        Plant::MissingBytesAreZero,
        Plant::FileLengthInSixteenBits,
        Plant::SettingCountUnread,
        Plant::FiveNumbersRefused,
        Plant::EditionZeroRead,
        Plant::EditionAboveOneRead,
        Plant::EditionReadByItsLowByte,
        Plant::EditionReadAndLost,
        Plant::FileTakenByFirstEdition,
        Plant::FileTakenByLaterEdition,
        Plant::ReadingKeepsEdition,
        Plant::FullFileRefused,
        Plant::NameInLowHalf,
        Plant::NameTwiceSkipped,
        Plant::SlotInEightBits,
        Plant::ParentNumberIsName,
        Plant::ParentTwiceTakenOnce,
        Plant::LaterParentSkipped,
        Plant::FifthParentSkipped,
        Plant::PollsBeforeBookings,
        Plant::PollTwiceSkipped,
        Plant::PollOfGenesisSkipped,
        Plant::UnbookedPollSkipped,
        Plant::OutcomeTurnedRound,
        Plant::OutcomeAboveOneIsFailure,
        Plant::ConfidencesNotMade,
        Plant::MarksNotMade,
        Plant::MarksKeptOverReading,
        Plant::OpenedBeforeFileIsJudged,
        Plant::OldRecordsKept,
        Plant::DamagedWordsNotReadInto,
        Plant::BadFileBeforeLength,
        Plant::ReadingHasFileLength,
        Plant::NoMarksTaken,
        Plant::GenesisUnmarkedTaken,
        Plant::EqualMarksTaken,
        Plant::FallingMarksTaken,
        Plant::MarkOfNTaken,
        Plant::MarkAboveNTaken,
        Plant::NewestMarkRefused,
        Plant::RivalMarksTaken,
        Plant::UnearnedMarksRefused,
        Plant::TrailingMarksTaken,
        Plant::MarkCountUnread,
        Plant::MarkInLowByte,
        Plant::FourthSectionOptional,
        Plant::ReplayedMarksKept,
        Plant::MarksOnlyAdded,
        Plant::MarksOnlyDropped,
    ];

    const MOVING: [Plant; 19] = [
        Plant::OtherMarksBeforeBadFile,
        Plant::RoomBeforeOtherMarks,
        Plant::RoomBeforeBadFile,
        Plant::GenesisAloneMoved,
        Plant::MarksByOldRuleMoved,
        Plant::PreferredMoved,
        Plant::OtherMarksDropped,
        Plant::LostMarksAloneCompared,
        Plant::NewMarksAloneCompared,
        Plant::MarksComparedByCount,
        Plant::OtherMarksMovedAnyway,
        Plant::SectionKeptMovingBack,
        Plant::EitherFormMoved,
        Plant::MoveHasInputLength,
        Plant::MoveHasNoValue,
        Plant::JustEnoughForMoveRefused,
        Plant::ShortMoveBegun,
        Plant::RestClearedByMove,
        Plant::MoveChangesFile,
    ];

    pub const INDEX: [Plant; 30] = [
        Plant::HashedLowestByteFirst,
        Plant::HighHalfUnhashed,
        Plant::MultipliedBeforeXor,
        Plant::ProbedDownwards,
        Plant::NoWayRound,
        Plant::LastCellUntried,
        Plant::StopsAtUnusedNumber,
        Plant::EmptyCellPassedOver,
        Plant::NamesUncompared,
        Plant::UnusedRecordFound,
        Plant::FoundWithoutIndex,
        Plant::FoundMovesHome,
        Plant::FindingTellsCell,
        Plant::EnteringStopsAtName,
        Plant::EntersN,
        Plant::UnusedNumberOverwritten,
        Plant::FullIndexOverwritten,
        Plant::EnteringTellsCell,
        Plant::BuildKeepsOld,
        Plant::BuildInFallingOrder,
        Plant::GenesisNotBuilt,
        Plant::BuildCounts,
        Plant::LongerIndexTaken,
        Plant::IndexLengthInSixteenBits,
        Plant::IndexLengthBeforeWords,
        Plant::IndexLengthAfterHeader,
        Plant::IndexLengthAfterDamage,
        Plant::DamageEmptiesIndex,
        Plant::IndexFullBeforeDamage,
        Plant::IndexKeptInHeader,
    ];

    /// Those of marks and editions that a console can show: in a history a failed
    /// poll finds nobody to mark, and a booking neither. Nobody is accepted by the
    /// counter of slot 0. And who is last where the counter is 0 tells nothing in
    /// the later edition: the next chit makes it 1, whoever has it. Some more are
    /// left to the calls, as one input of a hundred or less shows them.
    pub fn shown() -> impl Iterator<Item = Plant> {
        let hidden = [
            Plant::MarksAfterBookingToo,
            Plant::FailedPollMarksNobody,
            Plant::MarksBeforeClearing,
            Plant::FailureLeavesSlot0,
            Plant::FailureMovesLast,
            Plant::CounterKeptInLater,
            Plant::FailureLeavesOwnSlot,
            Plant::FailureClearsWhereLast,
            Plant::FailureClearsWherePreferred,
        ];
        (Plant::MARKS.into_iter().chain(Plant::EDITION))
            .filter(move |plant| !hidden.contains(plant))
    }

    /// Those that the runs on files show.
    pub fn of_files() -> impl Iterator<Item = Plant> {
        Plant::READING.into_iter().chain(Plant::MOVING)
    }

    pub fn all() -> impl Iterator<Item = Plant> {
        (Plant::VOTE.into_iter())
            .chain(Plant::MARKS)
            .chain(Plant::EDITION)
            .chain(Plant::DAMAGE)
            .chain(Plant::FILE)
            .chain(Plant::WRITING)
            .chain(Plant::of_files())
            .chain(Plant::INDEX)
    }
}

/// The length of a workspace before records had marks.
pub const WORDS_WITHOUT_MARKS: usize = 7_176;

/// The copy, with one error or none.
pub struct Planted(pub Option<Plant>);

impl Face for Planted {
    fn call(&self, ws: &mut [u16], beside: Beside, call: &Call) -> Answer {
        match self.answer(ws, beside, call) {
            Ok(value) => (0, value),
            Err(refusal) => (refusal.number(), refusal.value()),
        }
    }
}

impl Planted {
    fn has(&self, plant: Plant) -> bool {
        self.0 == Some(plant)
    }

    fn answer(&self, ws: &mut [u16], beside: Beside, call: &Call) -> Result<i64, Refusal> {
        if ws.len() == WORDS_WITHOUT_MARKS && self.has(Plant::WordsWithoutMarksTaken) {
            let mut longer = ws.to_vec();
            longer.resize(WORDS, 0);
            let result = self.answer(&mut longer, beside, call);
            ws.copy_from_slice(&longer[..WORDS_WITHOUT_MARKS]);
            return result;
        }
        let Beside { file, out, cells } = beside;
        if let Call::MoveFile(form, ..) = call {
            return mismoved::moved(self.0, *form, file, out);
        }
        let is_long = ws.len() > WORDS && self.has(Plant::LongerWorkspaceTaken);
        if ws.len() != WORDS && !is_long {
            if let (true, Call::ReadFile(form, _)) = (self.has(Plant::BadFileBeforeLength), call) {
                misread::read(self.0, *form, file)?;
            }
            if self.has(Plant::IndexLengthBeforeWords) && matches!(call, Call::Index(..)) {
                misindexed::judge_length(self.0, cells)?;
            }
            return Err(Refusal::Length);
        }
        let ws = &mut ws[..WORDS];
        if let Call::Open(setting) = call {
            let setting = miscounted::opened(self.0, *setting, ws[EDITION]);
            let mut ledger = Ledger::open(setting)?;
            mismarked::open(self.0, &mut ledger);
            encode(&ledger, ws);
            return Ok(0);
        }
        if let Call::ReadFile(form, _) = call {
            return self.read(ws, *form, file);
        }
        if let Call::Index(asked, _) = call {
            return self.index(ws, cells, *asked, call);
        }
        let mut ledger = self.load(ws, out, call)?;
        match call {
            Call::Open(_) | Call::ReadFile(..) | Call::MoveFile(..) | Call::Index(..) => {
                unreachable!("they are done")
            }
            Call::Book {
                name,
                slot,
                parents,
            } => {
                let result = ledger.book(*name, *slot, parents);
                let is_swapped = self.has(Plant::EqualUnknownParentsAreTwice)
                    && result == Err(Refusal::ParentUnknown)
                    && (1..parents.len()).any(|i| parents[..i].contains(&parents[i]));
                if is_swapped {
                    return Err(Refusal::ParentTwice);
                }
                result?;
                mismarked::book(self.0, &mut ledger);
                encode(&ledger, ws);
                Ok(0)
            }
            Call::Poll { name, votes } => {
                let result = self.poll(&mut ledger, *name, votes);
                if self.has(Plant::PollForgetsEdition) {
                    ledger.setting.edition = 0;
                }
                if result.is_ok() || self.has(Plant::RefusedPollMovesP) {
                    encode(&ledger, ws);
                }
                result.map(|()| 0)
            }
            Call::Read(Reading::Accepted, name) => {
                let b = ledger.number(*name)?;
                Ok(i64::from(if self.has(Plant::AcceptedByOldRule) {
                    old_rule::accepted(&ledger)[b]
                } else {
                    ledger.bookings[b].is_marked
                }))
            }
            Call::Read(reading, name) => ledger.read(*reading, *name),
            Call::WriteFile(form, _) => {
                let length = miswritten::write(self.0, *form, &ledger, out)?;
                if self.has(Plant::LengthKeptInHeader) {
                    ws[HEADER_WORDS - 1] = length as u16;
                }
                Ok(length as i64)
            }
        }
    }

    /// A day file, with the errors planted in what it does to the words.
    fn read(&self, ws: &mut [u16], form: Form, file: &[u8]) -> Result<i64, Refusal> {
        if self.has(Plant::DamagedWordsNotReadInto) {
            if let Some(refusal) = misjudged::refusal(None, ws) {
                return Err(refusal);
            }
        }
        if self.has(Plant::OpenedBeforeFileIsJudged) && file.len() >= form.shortest() {
            let numbers: Vec<u16> = (file[2..10].chunks(2))
                .map(|pair| u16::from_be_bytes([pair[0], pair[1]]))
                .collect();
            let [k, a, beta1, beta2] = numbers[..] else {
                unreachable!("eight bytes are four numbers");
            };
            let setting = Setting {
                k,
                a,
                beta1,
                beta2,
                edition: 0,
            };
            if let Ok(opened) = Ledger::open(setting) {
                encode(&opened, ws);
            }
        }
        let ledger = misread::read(self.0, form, file)?;
        let before = ws.to_vec();
        encode(&ledger, ws);
        if self.has(Plant::ReadingKeepsEdition) && before[EDITION] <= Setting::LATER {
            ws[EDITION] = before[EDITION];
        }
        if self.has(Plant::OldRecordsKept) {
            let unused = record(ledger.bookings.len())..ENTRIES_START;
            ws[unused.clone()].copy_from_slice(&before[unused]);
        }
        if self.has(Plant::MarksKeptOverReading) && misjudged::refusal(None, &before).is_none() {
            keep_marks(&before, ws);
        }
        Ok(if self.has(Plant::ReadingHasFileLength) {
            file.len() as i64
        } else {
            0
        })
    }

    /// A call on an index, with the errors planted in what comes before it.
    fn index(
        &self,
        ws: &mut [u16],
        cells: &mut [u16],
        asked: Indexing,
        call: &Call,
    ) -> Result<i64, Refusal> {
        let has_length = misindexed::judge_length(self.0, cells);
        let loaded = self.load(ws, &mut [], call);
        let is_hidden = match loaded {
            Ok(_) => false,
            Err(Refusal::BrokenHeader) => self.has(Plant::IndexLengthAfterHeader),
            Err(_) => self.has(Plant::IndexLengthAfterDamage),
        };
        if !is_hidden {
            has_length?;
        }
        if loaded.is_err() && self.has(Plant::DamageEmptiesIndex) {
            cells.fill(EMPTY);
        }
        let is_full = asked == Indexing::Enter && !cells.contains(&EMPTY);
        if is_full && self.has(Plant::IndexFullBeforeDamage) {
            return Err(Refusal::IndexFull);
        }
        let value = misindexed::call(self.0, &loaded?, cells, asked)?;
        if self.has(Plant::IndexKeptInHeader) {
            ws[HEADER_WORDS - 1] = 1;
        }
        Ok(value)
    }

    /// The test of soundness, with the errors planted in it and around it.
    fn load(&self, ws: &mut [u16], out: &mut [u8], call: &Call) -> Result<Ledger, Refusal> {
        let Some(refusal) = misjudged::refusal(self.0, ws) else {
            return Ok(ledger_of(ws));
        };
        if let Call::WriteFile(form, _) = call {
            if self.has(Plant::ShortBufferBeforeDamage) && out.len() < form.shortest() {
                return Err(Refusal::Room);
            }
            if self.has(Plant::DamageClearsBuffer) {
                out.fill(0);
            }
        }
        if self.has(Plant::RefusedCallMendsCounters) {
            for entry in ws[ENTRIES_START..].chunks_mut(ENTRY_WORDS) {
                entry[COUNTER] = entry[COUNTER].min(BOOKINGS as u16 - 1);
            }
        }
        if self.has(Plant::UnknownNameBeforeDamage) && refusal != Refusal::BrokenHeader {
            let (Call::Poll { name, .. } | Call::Read(_, name)) = call else {
                return Err(refusal);
            };
            let mut names = (0..usize::from(ws[N])).map(|b| name_of(&ws[record(b)..][..4]));
            if !names.any(|booked| booked == *name) {
                return Err(Refusal::NameUnknown);
            }
        }
        Err(refusal)
    }

    fn poll(&self, ledger: &mut Ledger, name: u64, votes: &[u8]) -> Result<(), Refusal> {
        let b = ledger.number(name)?;
        if ledger.bookings[b].state != State::Waiting {
            return Err(Refusal::NotWaiting);
        }
        if self.has(Plant::RefusedPollMovesP) {
            ledger.polls += 1;
        }
        if votes.len() != usize::from(ledger.setting.k) {
            return Err(Refusal::VoteCount);
        }
        if votes.iter().any(|&byte| read_vote(byte).is_none()) {
            return Err(Refusal::VoteByte);
        }
        if !self.has(Plant::RefusedPollMovesP) {
            ledger.polls += 1;
        }
        ledger.bookings[b].ordinal = ledger.polls;
        let is_success = self.yes(votes) >= i64::from(ledger.setting.a);
        ledger.bookings[b].state = if is_success {
            State::Chit
        } else {
            State::Polled
        };
        let marks_before =
            self.has(Plant::MarksBeforePoll) || self.has(Plant::MarksBeforeClearing) && !is_success;
        if marks_before {
            mismarked::poll(self.0, ledger, b, is_success);
        }
        if is_success {
            self.succeed(ledger, b);
        } else {
            miscounted::fail(self.0, ledger, b);
        }
        if !marks_before {
            mismarked::poll(self.0, ledger, b, is_success);
        }
        Ok(())
    }

    fn succeed(&self, ledger: &mut Ledger, b: usize) {
        let members = self.members(ledger, b);
        if self.has(Plant::RaisedAfterComparing) {
            self.follow(ledger, &members);
            raise(ledger, &members);
        } else {
            raise(ledger, &members);
            self.follow(ledger, &members);
        }
    }

    fn yes(&self, votes: &[u8]) -> i64 {
        votes
            .iter()
            .map(|&byte| match read_vote(byte) {
                Some(Vote::Yes) => 1,
                Some(Vote::No) if self.has(Plant::NoTakesFromYes) => -1,
                Some(Vote::No) if self.has(Plant::NoReadAsYes) => 1,
                _ => 0,
            })
            .sum()
    }

    /// The members of the ancestry, each with how much it is raised.
    fn members(&self, ledger: &Ledger, b: usize) -> BTreeMap<usize, u16> {
        let mut paths = BTreeMap::from([(b, 1u16)]);
        for m in (0..=b).rev() {
            let Some(&reached) = paths.get(&m) else {
                continue;
            };
            for &parent in &ledger.bookings[m].parents {
                let to_parent = paths.entry(parent).or_default();
                *to_parent = to_parent.saturating_add(reached);
            }
        }
        if !self.has(Plant::AncestorRaisedPerPath) {
            paths.values_mut().for_each(|raise| *raise = 1);
        }
        paths
    }

    fn follow(&self, ledger: &mut Ledger, members: &BTreeMap<usize, u16>) {
        for &m in members.keys() {
            let confidence = ledger.bookings[m].confidence;
            let slot = (ledger.slots)
                .get_mut(&ledger.bookings[m].slot)
                .expect("a booking's slot has bookings");
            let preferred = ledger.bookings[slot.preferred].confidence;
            let is_tie = confidence == preferred && self.has(Plant::TieMovesPreference);
            if confidence > preferred || is_tie {
                slot.preferred = m;
            }
            if slot.last == m {
                slot.counter += 1;
            } else {
                slot.last = m;
                slot.counter = miscounted::restart(self.0, &ledger.setting, slot.counter);
            }
        }
    }
}

/// Who had a mark before the reading, and has the name still, keeps it.
fn keep_marks(before: &[u16], ws: &mut [u16]) {
    for b in 0..usize::from(before[N].min(ws[N])) {
        let name = record(b) + NAME..record(b) + SLOT;
        if ws[name.clone()] == before[name] {
            ws[record(b) + MARK] = before[record(b) + MARK];
        }
    }
}

fn raise(ledger: &mut Ledger, members: &BTreeMap<usize, u16>) {
    for (&m, &raise) in members {
        let confidence = &mut ledger.bookings[m].confidence;
        *confidence = confidence.saturating_add(raise);
    }
}

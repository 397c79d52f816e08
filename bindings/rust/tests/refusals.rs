//! Each refusal on both sides of its border, in its order, with no word changed. Damage, 2, 14 and 15, has `damage.rs`, 16 has
//! `day_file.rs`, 17 has `read_file.rs`, 18 and 27 have `index.rs`, and 19 has `forms.rs`, with 16 and 17 for the second form.
use filzhammer::*;

mod refused;
use refused::*;

const SETTING: Setting = Setting {
    k: 3,
    a: 2,
    beta1: 1,
    beta2: 2,
    edition: 0,
};

/// A ledger with the names 1 and 2, of which 2 was polled.
fn ledger() -> [u16; WORDS] {
    let mut ws = [0; WORDS];
    open(&mut ws, SETTING).unwrap();
    book(&mut ws, 1, 7, &[0]).unwrap();
    book(&mut ws, 2, 7, &[0]).unwrap();
    poll(&mut ws, 2, &[YES; 3]).unwrap();
    ws
}

/// Each refusal once, the rows by their greatest.
const EACH: [Refusal; 20] = [
    Refusal::WrongLength,
    Refusal::DamagedHeader,
    Refusal::BadSetting,
    Refusal::NameTaken,
    Refusal::BadSlot,
    Refusal::BadParents,
    Refusal::UnknownParent,
    Refusal::ParentTwice,
    Refusal::Full,
    Refusal::UnknownName,
    Refusal::NotWaiting,
    Refusal::WrongVotes,
    Refusal::BadVote,
    Refusal::DamagedRecord(512),
    Refusal::DamagedSlot(255),
    Refusal::ShortBuffer,
    Refusal::BadFile,
    Refusal::WrongIndex,
    Refusal::OtherMarks,
    Refusal::IndexFull,
];

#[test]
fn the_numbers_are_1_to_19_and_27() {
    assert_eq!(
        EACH.map(Refusal::number).to_vec(),
        (1..=19).chain([27]).collect::<Vec<u32>>()
    );
    for refusal in EACH {
        assert!(!refusal.to_string().is_empty());
    }
}

#[test]
fn two_refusals_name_a_row() {
    for refusal in EACH {
        let names_one = [14, 15].contains(&refusal.number());
        assert_eq!(refusal.row().is_some(), names_one);
    }
    assert_eq!(Refusal::DamagedRecord(0).row(), Some(0));
    assert_eq!(Refusal::DamagedRecord(512).row(), Some(512));
    assert_eq!(Refusal::DamagedSlot(7).row(), Some(7));
    assert_eq!(
        Refusal::DamagedRecord(3).to_string(),
        "record 3 breaks a rule, and none below it"
    );
    assert_eq!(
        Refusal::DamagedRecord(512).to_string(),
        "an ordinal is missing in a full ledger (record 512)"
    );
    assert_eq!(
        Refusal::DamagedSlot(7).to_string(),
        "the entry of slot 7 breaks a rule, and none below it"
    );
}

#[test]
fn number_and_value_lead_back() {
    for refusal in EACH {
        let row = refusal.row().unwrap_or(0);
        assert_eq!(
            Refusal::from_answer(refusal.number(), row.into()),
            Some(refusal)
        );
    }
    for (number, most) in [(14, 512), (15, 255)] {
        for row in 0..=most {
            let refusal = Refusal::from_answer(number, row).unwrap();
            assert_eq!(
                (refusal.number(), refusal.row().map(i64::from)),
                (number, Some(row))
            );
        }
        for value in [-1, most + 1, 65536, 65536 + 3, i64::MIN, i64::MAX] {
            assert_eq!(Refusal::from_answer(number, value), None);
        }
    }
    for number in (1..=13).chain([16, 17, 18, 19, 27]) {
        for value in [-1, 1, 65536] {
            assert_eq!(Refusal::from_answer(number, value), None);
        }
    }
    for number in [0, 20, 26, 28, u32::MAX] {
        assert_eq!(Refusal::from_answer(number, 0), None);
    }
}

#[test]
fn r1_wrong_length() {
    assert_eq!(WORDS, 7688);
    let mut long = [ledger().as_slice(), &[0]].concat();
    let mut short = ledger()[..WORDS - 1].to_vec();
    let mut without_marks = ledger()[..7176].to_vec(); // as many words as there would be with 12 in a record
    let mut one = vec![4];
    for ws in [
        &mut long,
        &mut short,
        &mut without_marks,
        &mut one,
        &mut vec![],
    ] {
        refused(Refusal::WrongLength, ws, |ws| {
            open(ws, Setting { k: 0, ..SETTING })
        });
        all_refused(Refusal::WrongLength, ws);
    }
}

#[test]
fn r3_bad_setting() {
    let bad = [
        (0, 0, 1, 2),
        (65, 40, 1, 2),
        (2, 1, 1, 2),
        (2, 3, 1, 2),
        (3, 2, 0, 2),
        (3, 2, 3, 2),
        (3, 2, 1, 511),
    ];
    let good = [
        (1, 1, 1, 1),
        (64, 33, 1, 2),
        (2, 2, 1, 2),
        (3, 2, 2, 2),
        (3, 2, 510, 510),
    ];
    let opens_refused = |setting| {
        refused(Refusal::BadSetting, &mut ledger(), |ws| open(ws, setting));
        refused(Refusal::BadSetting, &mut [9; WORDS], |ws| open(ws, setting));
    };
    let setting = |(k, a, beta1, beta2), edition| Setting {
        k,
        a,
        beta1,
        beta2,
        edition,
    };
    for edition in [0, 1] {
        for numbers in bad {
            opens_refused(setting(numbers, edition));
        }
        for numbers in good {
            open(&mut [9; WORDS], setting(numbers, edition)).unwrap();
        }
    }
    for edition in [2, 3, 256, 257, 65535] {
        opens_refused(setting(good[0], edition));
        opens_refused(setting(bad[0], edition));
    }
}

#[test]
fn r4_name_taken() {
    book_refused(Refusal::NameTaken, &mut ledger(), 1, 9, &[0]);
    book_refused(Refusal::NameTaken, &mut ledger(), 0, 0, &[]);
}

#[test]
fn r5_bad_slot() {
    for slot in [0, 256, 65535] {
        book_refused(Refusal::BadSlot, &mut ledger(), 3, slot, &[]);
    }
    book(&mut ledger(), 3, 1, &[0]).unwrap();
    book(&mut ledger(), 3, 255, &[0]).unwrap();
}

#[test]
fn r6_bad_parents() {
    book_refused(Refusal::BadParents, &mut ledger(), 3, 9, &[]);
    book_refused(Refusal::BadParents, &mut ledger(), 3, 9, &[8; 5]);
    let mut ws = ledger();
    book(&mut ws, 3, 9, &[0, 1, 2]).unwrap();
    book(&mut ws, 4, 9, &[3, 2, 1, 0]).unwrap();
    assert_eq!(size(&ws, 4), Ok(5));
}

#[test]
fn r7_unknown_parent() {
    book_refused(Refusal::UnknownParent, &mut ledger(), 3, 9, &[8]);
    book_refused(Refusal::UnknownParent, &mut ledger(), 3, 9, &[3]);
    book_refused(Refusal::UnknownParent, &mut ledger(), 3, 9, &[8, 8]);
    book_refused(Refusal::UnknownParent, &mut ledger(), 3, 9, &[1, 1, 2, 8]);
}

#[test]
fn r8_parent_twice() {
    book_refused(Refusal::ParentTwice, &mut ledger(), 3, 9, &[1, 1]);
    book_refused(Refusal::ParentTwice, &mut ledger(), 3, 9, &[1, 0, 2, 1]);
}

#[test]
fn r9_full() {
    let mut ws = ledger();
    for name in 3..=511 {
        book(&mut ws, name, 9, &[name - 1]).unwrap();
    }
    assert_eq!(size(&ws, 511), Ok(511)); // all but name 1, which is in nobody's ancestry
    book_refused(Refusal::Full, &mut ws, 512, 9, &[511]);
    book_refused(Refusal::ParentTwice, &mut ws, 512, 9, &[511, 511]);
}

#[test]
fn r10_unknown_name() {
    poll_refused(Refusal::UnknownName, &mut ledger(), 3, &[]);
    readings_refused(Refusal::UnknownName, &ledger(), 3);
    readings_refused(Refusal::UnknownName, &ledger(), u64::MAX);
}

#[test]
fn r11_not_waiting() {
    poll_refused(Refusal::NotWaiting, &mut ledger(), 0, &[]);
    poll_refused(Refusal::NotWaiting, &mut ledger(), 2, &[YES; 3]);
    let mut ws = ledger();
    poll(&mut ws, 1, &[NO; 3]).unwrap();
    poll_refused(Refusal::NotWaiting, &mut ws, 1, &[YES; 3]);
}

#[test]
fn r12_wrong_votes() {
    poll_refused(Refusal::WrongVotes, &mut ledger(), 1, &[]);
    poll_refused(Refusal::WrongVotes, &mut ledger(), 1, &[2; 2]);
    poll_refused(Refusal::WrongVotes, &mut ledger(), 1, &[YES; 4]);
}

#[test]
fn r13_bad_vote() {
    for vote in 2..=254 {
        poll_refused(Refusal::BadVote, &mut ledger(), 1, &[YES, YES, vote]);
    }
    poll(&mut ledger(), 1, &[YES, NO, SILENT]).unwrap();
}

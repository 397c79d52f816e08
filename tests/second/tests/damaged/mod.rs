//! Damaged words: what is broken, and what every call then answers.
#![allow(dead_code)]

use crate::ledgers::*;
use second::codec::decode;
use second::form::Form;
use second::sound::{judge, Broken, Damage, Place};
use second::words::*;

/// A broken sentence at its place.
pub type Breach = (Place, Broken);

/// The words break these sentences at these places, and nothing else. Every
/// call but open and the reading of a file is refused with the number and the value, also one that has
/// other refusals to come, and changes nothing.
pub fn refused(number: u32, value: i64, breaches: &[Breach], ws: &[u16]) {
    let damage = Damage(breaches.iter().copied().collect());
    assert_eq!(judge(ws), damage);
    assert_eq!(decode(ws), Err(damage));

    let answer = (number, value);
    let mut after = ws.to_vec();
    for (name, slot, parents) in [(9, 1, &[0][..]), (0, 0, &[]), (1, 256, &[77, 77])] {
        assert_eq!(book(&mut after, name, slot, parents), answer);
    }
    for (name, votes) in [(3, &[1, 1, 1][..]), (77, &[]), (0, &[2])] {
        assert_eq!(poll(&mut after, name, votes), answer);
    }
    for reading in [query, accepted, lead, confidence, size] {
        assert_eq!(reading(&after, 0), answer);
        assert_eq!(reading(&after, 77), answer);
    }
    // Room for any file, for none, and none at all.
    for form in Form::ALL {
        for room in [form.longest(), form.shortest() - 1, 0] {
            let mut out = vec![0xa5; room];
            assert_eq!(write_file(&after, form, &mut out), answer);
            assert_eq!(out, vec![0xa5; room]);
        }
    }
    assert_eq!(after, ws);

    // Opening looks at none of it, and reading a file neither.
    let file = [0, 4, 0, 3, 0, 2, 0, 1, 0, 2, 0, 0, 0, 0];
    assert_eq!(open(&mut after, 3, 1, 1, 2, 0), (3, 0));
    assert_eq!(read_first(&mut after, &file[1..]), (17, 0));
    assert_eq!(after, ws);
    let mut read = after.clone();
    assert_eq!(open(&mut after, 3, 2, 1, 2, 0), (0, 0));
    assert_eq!(read_first(&mut read, &file), (0, 0));
    assert_eq!(after, opened(3, 2, 1, 2));
    assert_eq!(read, after);
}

/// The words break one sentence, at the place that the answer names.
pub fn refused_by(number: u32, value: i64, broken: Broken, ws: &[u16]) {
    let place = match (number, value) {
        (2, 0) => Place::Header,
        (14, row) => Place::Record(row as usize),
        (15, row) => Place::Slot(row as usize),
        _ => panic!("no damage is answered so"),
    };
    refused(number, value, &[(place, broken)], ws);
}

/// Run after its polls, changed.
pub fn changed(change: impl FnOnce(&mut [u16])) -> Vec<u16> {
    let mut ws = run_polled(4);
    change(&mut ws);
    ws
}

/// The change of Run after its polls breaks one sentence.
pub fn breaks(number: u32, value: i64, broken: Broken, change: impl FnOnce(&mut [u16])) {
    refused_by(number, value, broken, &changed(change));
}

/// The change of Run after its polls breaks several.
pub fn breaks_all(number: u32, value: i64, breaches: &[Breach], change: impl FnOnce(&mut [u16])) {
    refused(number, value, breaches, &changed(change));
}

/// The change of Run after its polls leaves the words sound.
pub fn keeps(change: impl FnOnce(&mut [u16])) {
    assert_eq!(judge(&changed(change)), Damage::default());
}

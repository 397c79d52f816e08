//! A call is refused as it should be, with no word, no byte and no cell changed. What several test files ask.
use filzhammer::*;

/// The call is refused so, and leaves the words alone.
#[track_caller]
pub fn refused(
    refusal: Refusal,
    ws: &mut [u16],
    call: impl FnOnce(&mut [u16]) -> Result<(), Refusal>,
) {
    let before = ws.to_vec();
    assert_eq!(call(ws), Err(refusal));
    assert_eq!(ws, before, "a refused call changed a word");
}

#[track_caller]
pub fn book_refused(refusal: Refusal, ws: &mut [u16], name: u64, slot: u16, parents: &[u64]) {
    refused(refusal, ws, |ws| book(ws, name, slot, parents));
}

#[track_caller]
pub fn poll_refused(refusal: Refusal, ws: &mut [u16], name: u64, votes: &[u8]) {
    refused(refusal, ws, |ws| poll(ws, name, votes));
}

#[track_caller]
pub fn readings_refused(refusal: Refusal, ws: &[u16], name: u64) {
    for reading in [query, accepted, lead, confidence, size] {
        assert_eq!(reading(ws, name), Err(refusal));
    }
}

/// What stands in a buffer before a call: no byte is like its neighbours.
pub fn filled(bytes: usize) -> Vec<u8> {
    (0..bytes).map(|at| (at as u8).wrapping_mul(37)).collect()
}

/// A call that writes a file into so many bytes is refused so, and leaves the bytes alone, and those around them.
#[track_caller]
pub fn room_refused(
    refusal: Refusal,
    bytes: usize,
    call: impl FnOnce(&mut [u8]) -> Result<usize, Refusal>,
) {
    let before = filled(8 + bytes + 8);
    let mut after = before.clone();
    assert_eq!(call(&mut after[8..8 + bytes]), Err(refusal));
    assert_eq!(after, before, "a refused call changed a byte");
}

/// Writing the day file in this form into so many bytes is refused so, and leaves words and bytes alone.
#[track_caller]
pub fn form_refused(refusal: Refusal, ws: &mut [u16], form: Form, bytes: usize) {
    let before = ws.to_vec();
    room_refused(refusal, bytes, |out| write(ws, form, out));
    assert_eq!(ws, before, "a refused call changed a word");
}

/// The same of the first form.
#[track_caller]
pub fn write_refused(refusal: Refusal, ws: &mut [u16], bytes: usize) {
    form_refused(refusal, ws, Form::First, bytes);
}

/// Reading this file, of the first form, is refused so.
#[track_caller]
pub fn read_refused(refusal: Refusal, ws: &mut [u16], file: &[u8]) {
    refused(refusal, ws, |ws| read_first(ws, file));
}

/// Reading this file in its second form is refused so.
#[track_caller]
pub fn marks_refused(refusal: Refusal, ws: &mut [u16], file: &[u8]) {
    refused(refusal, ws, |ws| read(ws, Form::Second, file));
}

/// The three calls with an index are refused so, and leave words and cells alone, whatever these hold.
#[track_caller]
pub fn index_refused(refusal: Refusal, ws: &mut [u16], cells: usize) {
    for cell in [0, 65535] {
        let before = vec![cell; cells];
        let mut index = before.clone();
        refused(refusal, ws, |ws| index_build(ws, &mut index));
        refused(refusal, ws, |ws| index_enter(ws, &mut index));
        refused(refusal, ws, |ws| index_find(ws, &index, 9).map(drop));
        assert_eq!(index, before, "a refused call changed a cell");
    }
}

/// Every call but open and the reading of a file is refused so, whatever else is wrong with it.
#[track_caller]
pub fn all_refused(refusal: Refusal, ws: &mut [u16]) {
    book_refused(refusal, ws, 0, 0, &[]);
    poll_refused(refusal, ws, 9, &[2]);
    readings_refused(refusal, ws, 9);
    for bytes in [0, FILE_LEAST - 1, SECOND_FILE_LEAST - 1, SECOND_FILE_MOST] {
        write_refused(refusal, ws, bytes);
        form_refused(refusal, ws, Form::Second, bytes);
    }
    index_refused(refusal, ws, CELLS);
    for cells in [0, CELLS - 1, CELLS + 1] {
        let first = match refusal {
            Refusal::WrongLength => refusal,
            _ => Refusal::WrongIndex,
        };
        index_refused(first, ws, cells);
    }

    // Of damage reading says nothing: the file alone decides.
    let second = [0, 4, 0, 3, 0, 2, 0, 1, 0, 2, 0, 0, 0, 0, 0, 1, 0, 0];
    let first = &second[..FILE_LEAST];
    if refusal == Refusal::WrongLength {
        read_refused(refusal, ws, first);
        read_refused(refusal, ws, &[]);
        marks_refused(refusal, ws, &second);
        marks_refused(refusal, ws, &[]);
    } else {
        read_refused(Refusal::BadFile, ws, &first[1..]);
        marks_refused(Refusal::BadFile, ws, &second[1..]);
        for (form, file) in [(Form::First, first), (Form::Second, &second[..])] {
            let mut copy = ws.to_vec();
            assert_eq!(read(&mut copy, form, file), Ok(()));
            assert_eq!(size(&copy, 0), Ok(1));
        }
    }
}

//! The C functions of `include/filzhammer.h` behind safe ones. All that is unsafe stands here.
//!
//! Each pointer and length below comes of one slice, so it leads to that many elements, is aligned and never null; `&mut`
//! keeps what is written apart from all that is read. That is all the header asks of a caller.
use crate::{Form, Refusal};

type Reading = unsafe extern "C" fn(*const u16, usize, u64, *mut i64) -> u32;
type Writing = unsafe extern "C" fn(*const u16, usize, *mut u8, usize, *mut i64) -> u32;
type Restoring = unsafe extern "C" fn(*mut u16, usize, *const u8, usize, *mut i64) -> u32;
type Moving = unsafe extern "C" fn(*const u8, usize, *mut u8, usize, *mut i64) -> u32;
type Indexing = unsafe extern "C" fn(*const u16, usize, *mut u16, usize, *mut i64) -> u32;

extern "C" {
    fn filz_open(
        ws: *mut u16,
        words: usize,
        k: u16,
        a: u16,
        beta1: u16,
        beta2: u16,
        edition: u16,
        value: *mut i64,
    ) -> u32;
    fn filz_book(
        ws: *mut u16,
        words: usize,
        name: u64,
        slot: u16,
        parents: *const u64,
        count: usize,
        value: *mut i64,
    ) -> u32;
    fn filz_poll(
        ws: *mut u16,
        words: usize,
        name: u64,
        votes: *const u8,
        count: usize,
        value: *mut i64,
    ) -> u32;
    fn filz_query(ws: *const u16, words: usize, name: u64, value: *mut i64) -> u32;
    fn filz_accepted(ws: *const u16, words: usize, name: u64, value: *mut i64) -> u32;
    fn filz_lead(ws: *const u16, words: usize, name: u64, value: *mut i64) -> u32;
    fn filz_confidence(ws: *const u16, words: usize, name: u64, value: *mut i64) -> u32;
    fn filz_size(ws: *const u16, words: usize, name: u64, value: *mut i64) -> u32;
    fn filz_write_first(
        ws: *const u16,
        words: usize,
        out: *mut u8,
        bytes: usize,
        value: *mut i64,
    ) -> u32;
    fn filz_read_first(
        ws: *mut u16,
        words: usize,
        file: *const u8,
        bytes: usize,
        value: *mut i64,
    ) -> u32;
    fn filz_write_second(
        ws: *const u16,
        words: usize,
        out: *mut u8,
        bytes: usize,
        value: *mut i64,
    ) -> u32;
    fn filz_read_second(
        ws: *mut u16,
        words: usize,
        file: *const u8,
        bytes: usize,
        value: *mut i64,
    ) -> u32;
    fn filz_move_first(
        file: *const u8,
        bytes: usize,
        out: *mut u8,
        room: usize,
        value: *mut i64,
    ) -> u32;
    fn filz_move_second(
        file: *const u8,
        bytes: usize,
        out: *mut u8,
        room: usize,
        value: *mut i64,
    ) -> u32;
    fn filz_index_build(
        ws: *const u16,
        words: usize,
        index: *mut u16,
        cells: usize,
        value: *mut i64,
    ) -> u32;
    fn filz_index_enter(
        ws: *const u16,
        words: usize,
        index: *mut u16,
        cells: usize,
        value: *mut i64,
    ) -> u32;
    fn filz_index_find(
        ws: *const u16,
        words: usize,
        index: *const u16,
        cells: usize,
        name: u64,
        value: *mut i64,
    ) -> u32;
}

/// A call that writes its value through the pointer: the value if it is taken, else the refusal.
fn ask(call: impl FnOnce(*mut i64) -> u32) -> Result<i64, Refusal> {
    let mut value = 0;
    match call(&mut value) {
        0 => Ok(value),
        // The library is proved to give 0, or the number of a refusal with its row, or with 0 where it names none.
        number => Err(Refusal::from_answer(number, value).expect("number and value of a refusal")),
    }
}

fn read(reading: Reading, ws: &[u16], name: u64) -> Result<i64, Refusal> {
    // SAFETY: see the top of this file.
    ask(|value| unsafe { reading(ws.as_ptr(), ws.len(), name, value) })
}

fn write_cells(indexing: Indexing, ws: &[u16], index: &mut [u16]) -> Result<i64, Refusal> {
    // SAFETY: see the top of this file.
    ask(|value| unsafe {
        indexing(
            ws.as_ptr(),
            ws.len(),
            index.as_mut_ptr(),
            index.len(),
            value,
        )
    })
}

pub fn open(
    ws: &mut [u16],
    k: u16,
    a: u16,
    beta1: u16,
    beta2: u16,
    edition: u16,
) -> Result<i64, Refusal> {
    // SAFETY: see the top of this file.
    ask(|value| unsafe {
        filz_open(
            ws.as_mut_ptr(),
            ws.len(),
            k,
            a,
            beta1,
            beta2,
            edition,
            value,
        )
    })
}

pub fn book(ws: &mut [u16], name: u64, slot: u16, parents: &[u64]) -> Result<i64, Refusal> {
    // SAFETY: see the top of this file.
    ask(|value| unsafe {
        filz_book(
            ws.as_mut_ptr(),
            ws.len(),
            name,
            slot,
            parents.as_ptr(),
            parents.len(),
            value,
        )
    })
}

pub fn poll(ws: &mut [u16], name: u64, votes: &[u8]) -> Result<i64, Refusal> {
    // SAFETY: see the top of this file.
    ask(|value| unsafe {
        filz_poll(
            ws.as_mut_ptr(),
            ws.len(),
            name,
            votes.as_ptr(),
            votes.len(),
            value,
        )
    })
}

pub fn query(ws: &[u16], name: u64) -> Result<i64, Refusal> {
    read(filz_query, ws, name)
}

pub fn accepted(ws: &[u16], name: u64) -> Result<i64, Refusal> {
    read(filz_accepted, ws, name)
}

pub fn lead(ws: &[u16], name: u64) -> Result<i64, Refusal> {
    read(filz_lead, ws, name)
}

pub fn confidence(ws: &[u16], name: u64) -> Result<i64, Refusal> {
    read(filz_confidence, ws, name)
}

pub fn size(ws: &[u16], name: u64) -> Result<i64, Refusal> {
    read(filz_size, ws, name)
}

pub fn write(ws: &[u16], form: Form, out: &mut [u8]) -> Result<i64, Refusal> {
    let writing: Writing = match form {
        Form::First => filz_write_first,
        Form::Second => filz_write_second,
    };
    // SAFETY: see the top of this file.
    ask(|value| unsafe { writing(ws.as_ptr(), ws.len(), out.as_mut_ptr(), out.len(), value) })
}

pub fn restore(ws: &mut [u16], form: Form, file: &[u8]) -> Result<i64, Refusal> {
    let restoring: Restoring = match form {
        Form::First => filz_read_first,
        Form::Second => filz_read_second,
    };
    // SAFETY: see the top of this file.
    ask(|value| unsafe { restoring(ws.as_mut_ptr(), ws.len(), file.as_ptr(), file.len(), value) })
}

pub fn move_from(form: Form, file: &[u8], out: &mut [u8]) -> Result<i64, Refusal> {
    let moving: Moving = match form {
        Form::First => filz_move_first,
        Form::Second => filz_move_second,
    };
    // SAFETY: see the top of this file.
    ask(|value| unsafe {
        moving(
            file.as_ptr(),
            file.len(),
            out.as_mut_ptr(),
            out.len(),
            value,
        )
    })
}

pub fn index_build(ws: &[u16], index: &mut [u16]) -> Result<i64, Refusal> {
    write_cells(filz_index_build, ws, index)
}

pub fn index_enter(ws: &[u16], index: &mut [u16]) -> Result<i64, Refusal> {
    write_cells(filz_index_enter, ws, index)
}

pub fn index_find(ws: &[u16], index: &[u16], name: u64) -> Result<i64, Refusal> {
    // SAFETY: see the top of this file.
    ask(|value| unsafe {
        filz_index_find(
            ws.as_ptr(),
            ws.len(),
            index.as_ptr(),
            index.len(),
            name,
            value,
        )
    })
}

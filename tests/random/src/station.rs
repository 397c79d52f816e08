//! The product through its C face: as it is linked in, or another build of it.

use crate::call::{Beside, Call, Face, Indexing};
use second::form::Form;
use second::ledger::Reading;
use second::setting::Setting;
use second::words::Answer;

use std::ffi::{c_char, c_int, c_void, CString};
use std::mem::transmute_copy;
use std::path::Path;

type Open = unsafe extern "C" fn(*mut u16, usize, u16, u16, u16, u16, u16, *mut i64) -> u32;
type OpenFour = unsafe extern "C" fn(*mut u16, usize, u16, u16, u16, u16, *mut i64) -> u32;
type Book = unsafe extern "C" fn(*mut u16, usize, u64, u16, *const u64, usize, *mut i64) -> u32;
type Poll = unsafe extern "C" fn(*mut u16, usize, u64, *const u8, usize, *mut i64) -> u32;
type Read = unsafe extern "C" fn(*const u16, usize, u64, *mut i64) -> u32;
type Write = unsafe extern "C" fn(*const u16, usize, *mut u8, usize, *mut i64) -> u32;
type Restore = unsafe extern "C" fn(*mut u16, usize, *const u8, usize, *mut i64) -> u32;
type Move = unsafe extern "C" fn(*const u8, usize, *mut u8, usize, *mut i64) -> u32;
type Index = unsafe extern "C" fn(*const u16, usize, *mut u16, usize, *mut i64) -> u32;
type Find = unsafe extern "C" fn(*const u16, usize, *const u16, usize, u64, *mut i64) -> u32;

extern "C" {
    fn filz_open(
        ws: *mut u16,
        words: usize,
        k: u16,
        a: u16,
        beta1: u16,
        beta2: u16,
        edition: u16,
        value: *mut i64,
    ) -> u32;
    fn filz_book(
        ws: *mut u16,
        words: usize,
        name: u64,
        slot: u16,
        parents: *const u64,
        count: usize,
        value: *mut i64,
    ) -> u32;
    fn filz_poll(
        ws: *mut u16,
        words: usize,
        name: u64,
        votes: *const u8,
        count: usize,
        value: *mut i64,
    ) -> u32;
    fn filz_query(ws: *const u16, words: usize, name: u64, value: *mut i64) -> u32;
    fn filz_accepted(ws: *const u16, words: usize, name: u64, value: *mut i64) -> u32;
    fn filz_lead(ws: *const u16, words: usize, name: u64, value: *mut i64) -> u32;
    fn filz_confidence(ws: *const u16, words: usize, name: u64, value: *mut i64) -> u32;
    fn filz_size(ws: *const u16, words: usize, name: u64, value: *mut i64) -> u32;
    fn filz_write_first(
        ws: *const u16,
        words: usize,
        out: *mut u8,
        bytes: usize,
        value: *mut i64,
    ) -> u32;
    fn filz_read_first(
        ws: *mut u16,
        words: usize,
        file: *const u8,
        bytes: usize,
        value: *mut i64,
    ) -> u32;
    fn filz_write_second(
        ws: *const u16,
        words: usize,
        out: *mut u8,
        bytes: usize,
        value: *mut i64,
    ) -> u32;
    fn filz_read_second(
        ws: *mut u16,
        words: usize,
        file: *const u8,
        bytes: usize,
        value: *mut i64,
    ) -> u32;
    fn filz_move_first(
        file: *const u8,
        bytes: usize,
        out: *mut u8,
        room: usize,
        value: *mut i64,
    ) -> u32;
    fn filz_move_second(
        file: *const u8,
        bytes: usize,
        out: *mut u8,
        room: usize,
        value: *mut i64,
    ) -> u32;
    fn filz_index_build(
        ws: *const u16,
        words: usize,
        index: *mut u16,
        cells: usize,
        value: *mut i64,
    ) -> u32;
    fn filz_index_enter(
        ws: *const u16,
        words: usize,
        index: *mut u16,
        cells: usize,
        value: *mut i64,
    ) -> u32;
    fn filz_index_find(
        ws: *const u16,
        words: usize,
        index: *const u16,
        cells: usize,
        name: u64,
        value: *mut i64,
    ) -> u32;

    fn dlopen(path: *const c_char, flags: c_int) -> *mut c_void;
    fn dlsym(library: *mut c_void, name: *const c_char) -> *mut c_void;
}

/// All names are looked up as the library is loaded.
const RTLD_NOW: c_int = 2;

/// What stands in the value before a call, so that one that is not written
/// shows.
const UNWRITTEN: i64 = 0x5a5a_5a5a;

/// How a build is opened.
enum Opening {
    WithEdition(Open),
    /// From before there were editions.
    WithFour(OpenFour),
}

/// One build of the product, by its functions.
pub struct Station {
    open: Opening,
    book: Book,
    poll: Poll,
    query: Read,
    accepted: Read,
    lead: Read,
    confidence: Read,
    size: Read,
    write_first: Write,
    /// Builds from before there were these calls have none.
    read_first: Option<Restore>,
    write_second: Option<Write>,
    read_second: Option<Restore>,
    move_first: Option<Move>,
    move_second: Option<Move>,
    index_build: Option<Index>,
    index_enter: Option<Index>,
    index_find: Option<Find>,
}

/// The build that is linked in.
pub const LINKED: Station = Station {
    open: Opening::WithEdition(filz_open),
    book: filz_book,
    poll: filz_poll,
    query: filz_query,
    accepted: filz_accepted,
    lead: filz_lead,
    confidence: filz_confidence,
    size: filz_size,
    write_first: filz_write_first,
    read_first: Some(filz_read_first),
    write_second: Some(filz_write_second),
    read_second: Some(filz_read_second),
    move_first: Some(filz_move_first),
    move_second: Some(filz_move_second),
    index_build: Some(filz_index_build),
    index_enter: Some(filz_index_enter),
    index_find: Some(filz_index_find),
};

impl Station {
    /// Another build, from a shared object. Nothing in it tells how many numbers
    /// its opening takes: whoever has it built knows.
    pub fn load(path: &Path, has_editions: bool) -> Result<Station, String> {
        let library = library(path)?;
        // SAFETY: each function has the type under which the header of that
        // build declares it.
        unsafe {
            Ok(Station {
                open: match has_editions {
                    true => Opening::WithEdition(function(library, "filz_open")?),
                    false => Opening::WithFour(function(library, "filz_open")?),
                },
                book: function(library, "filz_book")?,
                poll: function(library, "filz_poll")?,
                query: function(library, "filz_query")?,
                accepted: function(library, "filz_accepted")?,
                lead: function(library, "filz_lead")?,
                confidence: function(library, "filz_confidence")?,
                size: function(library, "filz_size")?,
                write_first: function(library, "filz_write_first")?,
                read_first: function(library, "filz_read_first").ok(),
                write_second: function(library, "filz_write_second").ok(),
                read_second: function(library, "filz_read_second").ok(),
                move_first: function(library, "filz_move_first").ok(),
                move_second: function(library, "filz_move_second").ok(),
                index_build: function(library, "filz_index_build").ok(),
                index_enter: function(library, "filz_index_enter").ok(),
                index_find: function(library, "filz_index_find").ok(),
            })
        }
    }
}

/// The product's lookups without the test of soundness, which its C face does
/// not have: a shared object has them for a measurement. Their words are those of
/// a ledger.
pub struct Known {
    find: Find,
    confidence: Read,
}

impl Known {
    pub fn load(path: &Path) -> Result<Known, String> {
        let library = library(path)?;
        // SAFETY: they are declared as `filz_index_find` and `filz_confidence`.
        unsafe {
            Ok(Known {
                find: function(library, "filz_known_find")?,
                confidence: function(library, "filz_known_confidence")?,
            })
        }
    }
}

impl Face for Known {
    fn call(&self, ws: &mut [u16], beside: Beside, call: &Call) -> Answer {
        let (words, cells) = (ws.len(), beside.cells);
        let mut value = UNWRITTEN;
        // SAFETY: as for `Station`.
        let number = unsafe {
            match call {
                Call::Index(Indexing::Find(name), _) => {
                    let (index, cells) = (cells.as_ptr(), cells.len());
                    (self.find)(ws.as_ptr(), words, index, cells, *name, &mut value)
                }
                Call::Read(Reading::Confidence, name) => {
                    (self.confidence)(ws.as_ptr(), words, *name, &mut value)
                }
                _ => unreachable!("it has two kinds of calls"),
            }
        };
        (number, value)
    }
}

/// A shared object, loaded for good.
fn library(path: &Path) -> Result<*mut c_void, String> {
    let at = path.to_str().and_then(|text| CString::new(text).ok());
    let at = at.ok_or("its path is no text")?;
    // SAFETY: the path ends with a NUL, and the library is never closed.
    let library = unsafe { dlopen(at.as_ptr(), RTLD_NOW) };
    if library.is_null() {
        return Err(format!("{} can't be loaded", path.display()));
    }
    Ok(library)
}

/// A function of a loaded library.
///
/// # Safety
/// `F` is the type of the function of that name.
unsafe fn function<F>(library: *mut c_void, name: &str) -> Result<F, String> {
    let symbol = CString::new(name).expect("names have no NUL");
    let found = dlsym(library, symbol.as_ptr());
    if found.is_null() {
        return Err(format!("it has no {name}"));
    }
    Ok(transmute_copy(&found))
}

impl Face for Station {
    fn call(&self, ws: &mut [u16], beside: Beside, call: &Call) -> Answer {
        let Beside { file, out, cells } = beside;
        let words = ws.len();
        let known = "it has this kind of call";
        let mut value = UNWRITTEN;
        // SAFETY: every pointer is that of a slice with the length given
        // beside it, or of the value, and none is kept after the call.
        let number = unsafe {
            match call {
                Call::Open(s) => {
                    let ws = ws.as_mut_ptr();
                    let Setting {
                        k,
                        a,
                        beta1,
                        beta2,
                        edition,
                    } = *s;
                    match self.open {
                        Opening::WithEdition(open) => {
                            open(ws, words, k, a, beta1, beta2, edition, &mut value)
                        }
                        Opening::WithFour(open) => {
                            assert_eq!(edition, 0, "this build has no editions");
                            open(ws, words, k, a, beta1, beta2, &mut value)
                        }
                    }
                }
                Call::Book {
                    name,
                    slot,
                    parents,
                } => (self.book)(
                    ws.as_mut_ptr(),
                    words,
                    *name,
                    *slot,
                    parents.as_ptr(),
                    parents.len(),
                    &mut value,
                ),
                Call::Poll { name, votes } => (self.poll)(
                    ws.as_mut_ptr(),
                    words,
                    *name,
                    votes.as_ptr(),
                    votes.len(),
                    &mut value,
                ),
                Call::Read(reading, name) => {
                    let read = match reading {
                        Reading::Query => self.query,
                        Reading::Accepted => self.accepted,
                        Reading::Lead => self.lead,
                        Reading::Confidence => self.confidence,
                        Reading::Size => self.size,
                    };
                    read(ws.as_ptr(), words, *name, &mut value)
                }
                Call::WriteFile(form, _) => {
                    let write = match form {
                        Form::First => Some(self.write_first),
                        Form::Second => self.write_second,
                    };
                    let (bytes, room) = (out.as_mut_ptr(), out.len());
                    write.expect(known)(ws.as_ptr(), words, bytes, room, &mut value)
                }
                Call::ReadFile(form, _) => {
                    let read = match form {
                        Form::First => self.read_first,
                        Form::Second => self.read_second,
                    };
                    let (bytes, length) = (file.as_ptr(), file.len());
                    read.expect(known)(ws.as_mut_ptr(), words, bytes, length, &mut value)
                }
                Call::MoveFile(form, ..) => {
                    let change = match form {
                        Form::First => self.move_first,
                        Form::Second => self.move_second,
                    };
                    let (bytes, length) = (file.as_ptr(), file.len());
                    let (to, room) = (out.as_mut_ptr(), out.len());
                    change.expect(known)(bytes, length, to, room, &mut value)
                }
                Call::Index(Indexing::Find(name), _) => {
                    let find = self.index_find.expect(known);
                    find(
                        ws.as_ptr(),
                        words,
                        cells.as_ptr(),
                        cells.len(),
                        *name,
                        &mut value,
                    )
                }
                Call::Index(asked, _) => {
                    let change = match asked {
                        Indexing::Build => self.index_build,
                        _ => self.index_enter,
                    };
                    let change = change.expect(known);
                    change(
                        ws.as_ptr(),
                        words,
                        cells.as_mut_ptr(),
                        cells.len(),
                        &mut value,
                    )
                }
            }
        };
        (number, value)
    }

    fn has(&self, kind: &str) -> bool {
        match kind {
            "read_first" => self.read_first.is_some(),
            "write_second" => self.write_second.is_some(),
            "read_second" => self.read_second.is_some(),
            "move_first" => self.move_first.is_some(),
            "move_second" => self.move_second.is_some(),
            "index_build" => self.index_build.is_some(),
            "index_enter" => self.index_enter.is_some(),
            "index_find" => self.index_find.is_some(),
            _ => true,
        }
    }

    fn has_editions(&self) -> bool {
        matches!(self.open, Opening::WithEdition(_))
    }
}

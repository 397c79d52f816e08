//! A call, and who answers it.

use crate::prng::Prng;
use crate::report::cells_text;
use second::form::Form;
use second::index::CELLS;
use second::ledger::Reading;
use second::setting::Setting;
use second::words::{self, Answer};
use std::fmt::{self, Debug, Formatter};

#[derive(Clone, Debug, PartialEq, Eq)]
pub enum Call {
    Open(Setting),
    Book {
        name: u64,
        slot: u16,
        parents: Vec<u64>,
    },
    Poll {
        name: u64,
        votes: Vec<u8>,
    },
    Read(Reading, u64),
    /// The day file of a form, into the buffer.
    WriteFile(Form, Buffer),
    /// The ledger, from these bytes.
    ReadFile(Form, Vec<u8>),
    /// These bytes, which are of the form, as a file of the other, into the
    /// buffer. The words have nothing to do with it.
    MoveFile(Form, Vec<u8>, Buffer),
    /// Something with an index that holds these cells.
    Index(Indexing, Cells),
}

/// What is done with an index.
#[derive(Clone, Copy, Debug, PartialEq, Eq)]
pub enum Indexing {
    Build,
    Enter,
    Find(u64),
}

/// The cells of an index, or of something that is to pass for one.
#[derive(Clone, PartialEq, Eq)]
pub struct Cells(pub Vec<u16>);

impl Debug for Cells {
    fn fmt(&self, f: &mut Formatter) -> fmt::Result {
        f.write_str(&cells_text(&self.0))
    }
}

/// A buffer to lend: how many bytes it has, and where they are drawn from.
#[derive(Clone, Copy, Debug, PartialEq, Eq)]
pub struct Buffer {
    pub room: usize,
    pub seed: u64,
}

impl Buffer {
    /// What stands in it before a call.
    pub fn bytes(self) -> Vec<u8> {
        let mut prng = Prng::new(self.seed);
        let mut bytes = Vec::with_capacity(self.room + 8);
        while bytes.len() < self.room {
            bytes.extend(prng.draw().to_le_bytes());
        }
        bytes.truncate(self.room);
        bytes
    }
}

impl Call {
    pub const KINDS: [&'static str; 17] = [
        "open",
        "book",
        "poll",
        "query",
        "accepted",
        "lead",
        "confidence",
        "size",
        "write_first",
        "read_first",
        "write_second",
        "read_second",
        "move_first",
        "move_second",
        "index_build",
        "index_enter",
        "index_find",
    ];

    pub fn kind(&self) -> &'static str {
        match self {
            Call::Open(_) => "open",
            Call::Book { .. } => "book",
            Call::Poll { .. } => "poll",
            Call::Read(reading, _) => reading.word(),
            Call::WriteFile(Form::First, _) => "write_first",
            Call::WriteFile(Form::Second, _) => "write_second",
            Call::ReadFile(Form::First, _) => "read_first",
            Call::ReadFile(Form::Second, _) => "read_second",
            Call::MoveFile(Form::First, ..) => "move_first",
            Call::MoveFile(Form::Second, ..) => "move_second",
            Call::Index(Indexing::Build, _) => "index_build",
            Call::Index(Indexing::Enter, _) => "index_enter",
            Call::Index(Indexing::Find(_), _) => "index_find",
        }
    }

    /// Kinds that the console has a line for.
    pub fn lines() -> impl Iterator<Item = &'static str> {
        Call::KINDS.into_iter().filter(|kind| !kind.contains('_'))
    }

    /// Kinds that lend an index.
    pub fn of_index() -> impl Iterator<Item = &'static str> {
        Call::KINDS
            .into_iter()
            .filter(|kind| kind.starts_with("index_"))
    }

    /// Whether a taken call of this kind changes words.
    pub fn is_change(&self) -> bool {
        match self {
            Call::Open(_) | Call::Book { .. } | Call::Poll { .. } | Call::ReadFile(..) => true,
            Call::Read(..) | Call::WriteFile(..) | Call::MoveFile(..) | Call::Index(..) => false,
        }
    }

    /// Whether the call looks at nothing of the words but their number, if at
    /// that.
    pub fn is_blind(&self) -> bool {
        match self {
            Call::Open(_) | Call::ReadFile(..) | Call::MoveFile(..) => true,
            Call::Index(_, cells) => cells.0.len() != CELLS,
            _ => false,
        }
    }

    /// The file that the call lends beside the words: mostly none.
    pub fn lent_file(&self) -> Vec<u8> {
        match self {
            Call::ReadFile(_, file) | Call::MoveFile(_, file, _) => file.clone(),
            _ => Vec::new(),
        }
    }

    /// What stands in the buffer that the call lends to be written, likewise.
    pub fn lent_out(&self) -> Vec<u8> {
        match self {
            Call::WriteFile(_, buffer) | Call::MoveFile(_, _, buffer) => buffer.bytes(),
            _ => Vec::new(),
        }
    }

    /// The cells that the call lends, likewise.
    pub fn lent_cells(&self) -> Vec<u16> {
        match self {
            Call::Index(_, cells) => cells.0.clone(),
            _ => Vec::new(),
        }
    }
}

/// What is lent beside the words: by most calls nothing. A file may be
/// written too, so that it shows.
#[derive(Default)]
pub struct Beside<'a> {
    pub file: &'a mut [u8],
    pub out: &'a mut [u8],
    pub cells: &'a mut [u16],
}

/// Someone who answers calls on lent words, and on what the call lends beside
/// them.
pub trait Face {
    fn call(&self, ws: &mut [u16], beside: Beside, call: &Call) -> Answer;

    /// Does it know this kind of call? An older build need not.
    fn has(&self, _kind: &str) -> bool {
        true
    }

    /// Does it know of editions?
    fn has_editions(&self) -> bool {
        true
    }
}

/// The second program.
pub struct Second;

impl Face for Second {
    fn call(&self, ws: &mut [u16], beside: Beside, call: &Call) -> Answer {
        let Beside { file, out, cells } = beside;
        match call {
            Call::Open(s) => words::open(ws, s.k, s.a, s.beta1, s.beta2, s.edition),
            Call::Book {
                name,
                slot,
                parents,
            } => words::book(ws, *name, *slot, parents),
            Call::Poll { name, votes } => words::poll(ws, *name, votes),
            Call::Read(reading, name) => words::read(ws, *reading, *name),
            Call::WriteFile(form, _) => words::write_file(ws, *form, out),
            Call::ReadFile(form, _) => words::read_file(ws, *form, file),
            Call::MoveFile(form, ..) => words::move_file(*form, file, out),
            Call::Index(Indexing::Build, _) => words::index_build(ws, cells),
            Call::Index(Indexing::Enter, _) => words::index_enter(ws, cells),
            Call::Index(Indexing::Find(name), _) => words::index_find(ws, cells, *name),
        }
    }
}

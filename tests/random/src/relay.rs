//! The product's C face, called by a program beside this one: for a machine
//! that cannot link the library.

use crate::call::{Beside, Call, Face, Indexing};
use second::words::Answer;
use std::cell::RefCell;
use std::io::{self, Read, Write};
use std::process::{Child, ChildStdin, ChildStdout, Command, Stdio};

/// Told of a call that wrote beside what it was lent. No call gives it.
pub const WROTE_OUTSIDE: u32 = u32::MAX;

/// How many numbers a request has room for.
const NUMBERS: usize = 8;

/// A running `relay.c`.
pub struct Relay {
    child: Child,
    pipes: RefCell<(ChildStdin, ChildStdout)>,
}

impl Relay {
    pub fn start(program: &str) -> io::Result<Relay> {
        let mut child = Command::new(program)
            .stdin(Stdio::piped())
            .stdout(Stdio::piped())
            .spawn()?;
        let stdin = child.stdin.take().expect("it was asked for");
        let stdout = child.stdout.take().expect("it was asked for");
        let pipes = RefCell::new((stdin, stdout));
        Ok(Relay { child, pipes })
    }

    /// Ends it, as the end of its input asks; a request that it did not
    /// understand shows in how it ends.
    pub fn end(mut self) -> Result<(), String> {
        drop(self.pipes);
        match self.child.wait() {
            Ok(status) if status.success() => Ok(()),
            Ok(status) => Err(format!("the relay ended with {status}")),
            Err(error) => Err(format!("the relay did not end: {error}")),
        }
    }

    fn ask(&self, ws: &mut [u16], beside: Beside, call: &Call) -> io::Result<Answer> {
        let (stdin, stdout) = &mut *self.pipes.borrow_mut();
        stdin.write_all(&request(ws, &beside, call))?;
        let mut told = [[0; 8]; 3];
        for number in &mut told {
            stdout.read_exact(number)?;
        }
        read_words(stdout, ws)?;
        stdout.read_exact(beside.file)?;
        stdout.read_exact(beside.out)?;
        read_words(stdout, beside.cells)?;
        let [number, is_intact, value] = told.map(u64::from_le_bytes);
        if is_intact == 0 {
            return Ok((WROTE_OUTSIDE, 0));
        }
        Ok((number as u32, value as i64))
    }
}

impl Face for Relay {
    fn call(&self, ws: &mut [u16], beside: Beside, call: &Call) -> Answer {
        self.ask(ws, beside, call)
            .unwrap_or_else(|error| panic!("the relay no longer answers: {error}, on {call:?}"))
    }
}

fn read_words(from: &mut impl Read, words: &mut [u16]) -> io::Result<()> {
    let mut bytes = vec![0; 2 * words.len()];
    from.read_exact(&mut bytes)?;
    for (word, bytes) in words.iter_mut().zip(bytes.chunks_exact(2)) {
        *word = u16::from_le_bytes([bytes[0], bytes[1]]);
    }
    Ok(())
}

/// A call as `struct asked` of `relay.c`, with the words, its list, and the
/// file, the buffer and the cells that it lends.
fn request(ws: &[u16], beside: &Beside, call: &Call) -> Vec<u8> {
    let kind = Call::KINDS.iter().position(|kind| *kind == call.kind());
    let mut numbers = [0; NUMBERS];
    let (name, count, list) = match call {
        Call::Open(s) => {
            let setting = [s.k, s.a, s.beta1, s.beta2, s.edition];
            numbers[..setting.len()].copy_from_slice(&setting);
            (0, 0, Vec::new())
        }
        Call::Book {
            name,
            slot,
            parents,
        } => {
            let list = parents.iter().flat_map(|p| p.to_le_bytes()).collect();
            numbers[0] = *slot;
            (*name, parents.len(), list)
        }
        Call::Poll { name, votes } => (*name, votes.len(), votes.clone()),
        Call::Read(_, name) | Call::Index(Indexing::Find(name), _) => (*name, 0, Vec::new()),
        _ => (0, 0, Vec::new()),
    };
    let kind = kind.expect("every kind is listed") as u64;
    let [words, count] = [ws.len(), count].map(|n| n as u64);
    let beside_them = [beside.file.len(), beside.out.len(), beside.cells.len()];
    let [length, room, cells] = beside_them.map(|n| n as u64);
    let head = [kind, words, name, count, length, room, cells];
    let mut bytes: Vec<u8> = head.iter().flat_map(|n| n.to_le_bytes()).collect();
    bytes.extend(numbers.iter().flat_map(|n| n.to_le_bytes()));
    bytes.extend(ws.iter().flat_map(|word| word.to_le_bytes()));
    bytes.extend(list);
    bytes.extend(&*beside.file);
    bytes.extend(&*beside.out);
    bytes.extend(beside.cells.iter().flat_map(|cell| cell.to_le_bytes()));
    bytes
}

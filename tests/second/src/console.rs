//! The text program: lines in, answers out.
//!
//! It keeps its ledger as maps and trusts them; before a taken opening there
//! is none, and every call but an opening is refused as it would be on words
//! that are all zero: their n is no number of bookings.

use crate::command::{parse, Command};
use crate::ledger::Ledger;
use crate::refusal::Refusal;
use std::fmt::Write;

/// The longest input taken, in bytes.
pub const LONGEST: usize = 65536;
pub const TOO_LONG: &str = "input too long\n";
pub const BAD_LINE: &str = "bad line\n";
pub const LIST_HEADER: &str = "number slot state confidence preferred accepted\n";

/// All that the program prints for an input.
pub fn run(input: &[u8]) -> Vec<u8> {
    if input.len() > LONGEST {
        return TOO_LONG.as_bytes().to_vec();
    }
    let mut console = Console::default();
    let mut out = String::new();
    for line in lines(input) {
        console.line(line, &mut out);
    }
    out.into_bytes()
}

/// The lines of an input: nothing after the last line feed is no line.
pub fn lines(input: &[u8]) -> impl Iterator<Item = &[u8]> {
    input
        .split_inclusive(|&byte| byte == b'\n')
        .map(|line| line.strip_suffix(b"\n").unwrap_or(line))
}

#[derive(Default)]
pub struct Console {
    ledger: Option<Ledger>,
}

impl Console {
    /// What the lines have led to, once one has opened it.
    pub fn ledger(&self) -> Option<&Ledger> {
        self.ledger.as_ref()
    }

    /// Runs one line and prints its answer.
    pub fn line(&mut self, line: &[u8], out: &mut String) {
        match parse(line) {
            None => out.push_str(BAD_LINE),
            Some(command) => {
                if let Err(refusal) = self.call(command, out) {
                    writeln!(out, "refused {}", refusal.number()).expect("a string takes text");
                }
            }
        }
    }

    fn call(&mut self, command: Command, out: &mut String) -> Result<(), Refusal> {
        if let Command::Open(setting) = command {
            self.ledger = Some(Ledger::open(setting)?);
            return Ok(());
        }
        let ledger = self.ledger.as_mut().ok_or(Refusal::BrokenHeader)?;
        match command {
            Command::Open(_) => unreachable!("openings are done"),
            Command::Book {
                name,
                slot,
                parents,
            } => ledger.book(name, slot, &parents)?,
            Command::Poll { name, votes } => ledger.poll(name, &votes)?,
            Command::Read(reading, name) => {
                let value = ledger.read(reading, name)?;
                writeln!(out, "{value}").expect("a string takes text");
            }
            Command::List => list(ledger, out),
        }
        Ok(())
    }
}

/// One line for each booking in rising number, under a header.
fn list(ledger: &Ledger, out: &mut String) {
    out.push_str(LIST_HEADER);
    for (b, booking) in ledger.bookings.iter().enumerate() {
        writeln!(
            out,
            "{b} {} {} {} {} {}",
            booking.slot,
            booking.state as u16,
            booking.confidence,
            u8::from(ledger.is_preferred(b)),
            u8::from(booking.is_marked),
        )
        .expect("a string takes text");
    }
}

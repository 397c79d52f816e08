//! A line of text to a command. The whole line is judged before any call:
//! what is no command is a bad line, whatever the ledger would have said.

use crate::ledger::Reading;
use crate::setting::Setting;

#[derive(Clone, Debug, PartialEq, Eq)]
pub enum Command {
    Open(Setting),
    Book {
        name: u64,
        slot: u16,
        parents: Vec<u64>,
    },
    Poll {
        name: u64,
        votes: Vec<u8>,
    },
    Read(Reading, u64),
    List,
}

/// The most parents and votes that a line may carry.
pub const LINE_PARENTS: usize = 16;
pub const LINE_VOTES: usize = 64;
const DIGITS: usize = 20;

/// The command that a line without its line feed says, if it says one.
pub fn parse(line: &[u8]) -> Option<Command> {
    // A doubled, leading or trailing space leaves an empty piece, and an
    // empty piece is neither a word nor a number.
    let pieces: Vec<&[u8]> = line.split(|&byte| byte == b' ').collect();
    let (word, numbers) = (pieces[0], &pieces[1..]);
    match (word, numbers) {
        // Who says nothing of the edition means the later one.
        (b"open", [k, a, beta1, beta2, edition @ ..]) if edition.len() <= 1 => {
            Some(Command::Open(Setting {
                k: small(k)?,
                a: small(a)?,
                beta1: small(beta1)?,
                beta2: small(beta2)?,
                edition: match edition {
                    [told] => small(told)?,
                    _ => Setting::LATER,
                },
            }))
        }
        (b"book", [name, slot, parents @ ..]) if parents.len() <= LINE_PARENTS => {
            Some(Command::Book {
                name: number(name)?,
                slot: small(slot)?,
                parents: parents.iter().map(|p| number(p)).collect::<Option<_>>()?,
            })
        }
        (b"poll", [name, votes @ ..]) if votes.len() <= LINE_VOTES => Some(Command::Poll {
            name: number(name)?,
            votes: votes.iter().map(|v| vote(v)).collect::<Option<_>>()?,
        }),
        (b"list", []) => Some(Command::List),
        (word, [name]) => {
            let reading = Reading::ALL
                .into_iter()
                .find(|reading| reading.word().as_bytes() == word)?;
            Some(Command::Read(reading, number(name)?))
        }
        _ => None,
    }
}

/// One to twenty digits, up to 2^64 - 1.
fn number(piece: &[u8]) -> Option<u64> {
    if piece.is_empty() || piece.len() > DIGITS || !piece.iter().all(u8::is_ascii_digit) {
        return None;
    }
    let value = piece
        .iter()
        .fold(0u128, |value, digit| value * 10 + u128::from(digit - b'0'));
    u64::try_from(value).ok()
}

/// A number up to 65535.
fn small(piece: &[u8]) -> Option<u16> {
    u16::try_from(number(piece)?).ok()
}

/// A vote from -128 to 127, as its byte. The sign is none of the digits.
fn vote(piece: &[u8]) -> Option<u8> {
    let value = match piece.strip_prefix(b"-") {
        Some(digits) => -i128::from(number(digits)?),
        None => i128::from(number(piece)?),
    };
    i8::try_from(value).ok().map(|signed| signed as u8)
}

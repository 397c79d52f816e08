//! Lines that are no command, each by one flaw.

use crate::prng::Prng;

#[derive(Clone, Copy, Debug, PartialEq, Eq)]
pub enum Flaw {
    Empty,
    DoubledSpace,
    LeadingSpace,
    TrailingSpace,
    Tab,
    CarriageReturn,
    Nul,
    HighByte,
    PlusSign,
    LoneMinus,
    DoubledMinus,
    MinusElsewhere,
    TwentyOneDigits,
    NameAbove,
    SmallAbove,
    VoteAbove,
    VoteBelow,
    ManyParents,
    ManyVotes,
    NumberMissing,
    NumberSurplus,
    Capital,
    UnknownWord,
    LetterInNumber,
    GluedWord,
    LongLine,
}

impl Flaw {
    pub const ALL: [Flaw; 26] = [
        Flaw::Empty,
        Flaw::DoubledSpace,
        Flaw::LeadingSpace,
        Flaw::TrailingSpace,
        Flaw::Tab,
        Flaw::CarriageReturn,
        Flaw::Nul,
        Flaw::HighByte,
        Flaw::PlusSign,
        Flaw::LoneMinus,
        Flaw::DoubledMinus,
        Flaw::MinusElsewhere,
        Flaw::TwentyOneDigits,
        Flaw::NameAbove,
        Flaw::SmallAbove,
        Flaw::VoteAbove,
        Flaw::VoteBelow,
        Flaw::ManyParents,
        Flaw::ManyVotes,
        Flaw::NumberMissing,
        Flaw::NumberSurplus,
        Flaw::Capital,
        Flaw::UnknownWord,
        Flaw::LetterInNumber,
        Flaw::GluedWord,
        Flaw::LongLine,
    ];

    /// A line with this flaw, otherwise good, about a booking of this name.
    pub fn line(self, prng: &mut Prng, name: u64) -> Vec<u8> {
        let mut line = Line::any(prng, name);
        match self {
            Flaw::Empty => return Vec::new(),
            Flaw::DoubledSpace => {
                let at = line.number(prng);
                line.pieces.insert(at, String::new());
            }
            Flaw::LeadingSpace => line.pieces.insert(0, String::new()),
            Flaw::TrailingSpace => line.pieces.push(String::new()),
            Flaw::Tab => return odd_byte(prng, line, b'\t'),
            Flaw::CarriageReturn => return odd_byte(prng, line, b'\r'),
            Flaw::Nul => return odd_byte(prng, line, 0),
            Flaw::HighByte => {
                let byte = prng.between(128, 255) as u8;
                return odd_byte(prng, line, byte);
            }
            Flaw::PlusSign => {
                let at = line.number(prng);
                line.pieces[at].insert(0, '+');
            }
            Flaw::LoneMinus => line = Line::poll(name, prng.pick(&["-", "0-", "1-1", "- 1"])),
            Flaw::DoubledMinus => line = Line::poll(name, prng.pick(&["--1", "--", "--0", "-+1"])),
            Flaw::MinusElsewhere => {
                let lines = [
                    "size -1",
                    "lead -0",
                    "book 9 -7 0",
                    "book -9 7 0",
                    "book 9 7 -0",
                ];
                let more = [
                    "open 3 -2 1 2",
                    "open 3 2 1 2 -1",
                    "open 3 2 1 2 -0",
                    "poll -9 1",
                    "-list",
                    "-size 1",
                ];
                line = Line::of(prng.pick(&[&lines[..], &more[..]].concat()));
            }
            Flaw::TwentyOneDigits => {
                let at = line.number(prng);
                let sign = if line.pieces[at].starts_with('-') {
                    "-"
                } else {
                    ""
                };
                let digits = line.pieces[at].trim_start_matches('-');
                let width = prng.pick(&[21, 21, 22, 40]);
                line.pieces[at] = format!("{sign}{digits:0>width$}");
            }
            Flaw::NameAbove => {
                let name = prng.pick(&[
                    "18446744073709551616",
                    "18446744073709551617",
                    "18446744073709617151",
                    "20000000000000000000",
                    "36893488147419103232",
                    "99999999999999999999",
                ]);
                let lines = ["size ", "query ", "poll ", "book 9 7 0 "];
                line = Line::of(&format!("{}{name}", prng.pick(&lines)));
            }
            Flaw::SmallAbove => {
                let small = prng.pick(&[
                    "65536",
                    "65543",
                    "99999",
                    "4294967303",
                    "18446744073709551615",
                    "18446744073709551623",
                ]);
                line = Line::of(&match prng.below(6) {
                    0 => format!("open {small} 2 1 2"),
                    1 => format!("open 3 {small} 1 2"),
                    2 => format!("open 3 2 {small} 2"),
                    3 => format!("open 3 2 1 {small}"),
                    4 => format!("open 3 2 1 2 {small}"),
                    _ => format!("book 9 {small} 0"),
                });
            }
            Flaw::VoteAbove => {
                let votes = ["128", "255", "256", "257", "65537", "18446744073709551615"];
                line = Line::poll(name, prng.pick(&votes));
            }
            Flaw::VoteBelow => {
                let votes = ["-129", "-255", "-256", "-65535", "-18446744073709551615"];
                line = Line::poll(name, prng.pick(&votes));
            }
            Flaw::ManyParents => {
                let count = prng.pick(&[17, 17, 18, 60, 273]);
                line = Line::of(&format!("book 9 7{}", " 0".repeat(count)));
            }
            Flaw::ManyVotes => {
                let count = prng.pick(&[65, 65, 66, 100, 321]);
                line = Line::of(&format!("poll {name}{}", " 1".repeat(count)));
            }
            Flaw::NumberMissing => {
                let lines = ["open", "open 3", "open 3 2", "open 3 2 1", "book", "book 9"];
                let more = ["poll", "query", "accepted", "lead", "confidence", "size"];
                line = Line::of(prng.pick(&[lines, more].concat()));
            }
            Flaw::NumberSurplus => {
                let lines = [
                    "open 3 2 1 2 1 0",
                    "open 3 2 1 2 0 1",
                    "open 3 2 1 2 1 1 1",
                    "list 0",
                    "size 0 0",
                    "query 0 1",
                    "lead 0 0",
                ];
                line = Line::of(prng.pick(&lines));
            }
            Flaw::Capital => {
                let word = &mut line.pieces[0];
                let at = prng.below(word.len());
                let capital = word[at..=at].to_uppercase();
                word.replace_range(at..=at, &capital);
            }
            Flaw::UnknownWord => {
                let words = [
                    "boook",
                    "close",
                    "lists",
                    "ope",
                    "pol",
                    "0",
                    "help",
                    "siz",
                    "#",
                    "write_first",
                    "move_second",
                ];
                line.pieces[0] = prng.pick(&words).to_string();
            }
            Flaw::LetterInNumber => {
                let at = line.number(prng);
                line.pieces[at] = prng
                    .pick(&["1a", "0x1", "1.0", "1e2", "a", "1_0", "1,0", "/", ":", "1;"])
                    .to_string();
            }
            Flaw::GluedWord => {
                let glued = line.pieces.remove(1);
                line.pieces[0].push_str(&glued);
            }
            Flaw::LongLine => {
                let filler = prng.pick(&["0", "x", " 0", "-", "9"]);
                let end = filler.repeat(prng.between(400, 3000));
                line.pieces.last_mut().expect("a word").push_str(&end);
            }
        }
        line.bytes()
    }
}

/// A good line in pieces, to be spoilt.
struct Line {
    pieces: Vec<String>,
}

impl Line {
    fn of(text: &str) -> Line {
        let pieces = text.split(' ').map(String::from).collect();
        Line { pieces }
    }

    /// A line with at least one number.
    fn any(prng: &mut Prng, name: u64) -> Line {
        let reading = prng.pick(&["query", "accepted", "lead", "confidence", "size"]);
        Line::of(&match prng.below(4) {
            0 => prng.pick(&["open 3 2 1 2", "open 3 2 1 2 1"]).to_string(),
            1 => format!("book {} 7 {name}", name.wrapping_add(1)),
            2 => format!("poll {name} 1 0 -1"),
            _ => format!("{reading} {name}"),
        })
    }

    /// A poll with this vote among its votes.
    fn poll(name: u64, vote: &str) -> Line {
        Line::of(&format!("poll {name} 1 {vote} 1"))
    }

    /// The place of one of the numbers.
    fn number(&self, prng: &mut Prng) -> usize {
        prng.between(1, self.pieces.len() - 1)
    }

    fn bytes(self) -> Vec<u8> {
        self.pieces.join(" ").into_bytes()
    }
}

/// The byte in place of a space, at an end, or anywhere.
fn odd_byte(prng: &mut Prng, line: Line, byte: u8) -> Vec<u8> {
    let mut bytes = line.bytes();
    match prng.below(4) {
        0 => {
            let space = bytes.iter().position(|&byte| byte == b' ');
            bytes[space.expect("a number follows")] = byte;
        }
        1 => bytes.push(byte),
        2 => bytes.insert(0, byte),
        _ => bytes.insert(prng.below(bytes.len()), byte),
    }
    bytes
}

#[cfg(test)]
mod tests {
    use super::*;
    use second::command::parse;

    #[test]
    fn every_flaw_makes_a_bad_line() {
        let mut prng = Prng::new(3);
        for flaw in Flaw::ALL {
            for name in [0, 1, 77, u64::MAX] {
                for _ in 0..300 {
                    let line = flaw.line(&mut prng, name);
                    let shown = String::from_utf8_lossy(&line);
                    assert_eq!(parse(&line), None, "{flaw:?}: {shown:?}");
                    assert!(!line.contains(&b'\n'));
                }
            }
        }
    }
}

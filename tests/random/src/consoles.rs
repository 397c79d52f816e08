//! Console against console: what our program prints for an input, byte by
//! byte against the second program, and the laws on every list printed.

use crate::call::{Beside, Call, Face};
use crate::compare::Difference;
use crate::flaw::Flaw;
use crate::old_rule;
use crate::planted::{Plant, Planted};
use crate::prng::Prng;
use crate::tally::Tally;
use crate::text::{input, kind_of, Kind};
use second::command::{parse, Command};
use second::console::{lines, run, Console, BAD_LINE, LIST_HEADER, LONGEST, TOO_LONG};
use second::laws::{History, Picture};
use second::layout::{record, STATE, WORDS};
use second::ledger::Reading;
use second::refusal::Refusal;
use std::io::{ErrorKind, Read, Write};
use std::ops::RangeInclusive;
use std::path::PathBuf;
use std::process::{Command as Process, Stdio};
use std::sync::mpsc;
use std::thread;
use std::time::Duration;

/// Longer than any input should take.
const PATIENCE: Duration = Duration::from_secs(60);

/// From this many inputs on, everything must have been seen.
pub const ENOUGH: usize = 150;

/// Someone who prints something for an input.
pub trait Program {
    fn output(&self, input: &[u8]) -> Result<Vec<u8>, String>;
}

/// A program to be started anew for each input.
pub struct Executable(pub PathBuf);

impl Program for Executable {
    fn output(&self, input: &[u8]) -> Result<Vec<u8>, String> {
        let told = |what: &str, error: std::io::Error| format!("{what}: {error}");
        let mut child = Process::new(&self.0)
            .stdin(Stdio::piped())
            .stdout(Stdio::piped())
            .spawn()
            .map_err(|error| told("the program does not start", error))?;
        let mut stdin = child.stdin.take().expect("it was asked for");
        let mut stdout = child.stdout.take().expect("it was asked for");
        let input = input.to_vec();
        let writer = thread::spawn(move || match stdin.write_all(&input) {
            // A program need not read more than it takes.
            Err(error) if error.kind() != ErrorKind::BrokenPipe => Err(error),
            _ => Ok(()),
        });
        let (send, receive) = mpsc::channel();
        thread::spawn(move || {
            let mut output = Vec::new();
            let result = stdout.read_to_end(&mut output).map(|_| output);
            // Nobody listens any more once patience has ended.
            let _ = send.send(result);
        });
        let Ok(output) = receive.recv_timeout(PATIENCE) else {
            child.kill().map_err(|error| told("it hangs", error))?;
            return Err("the program does not end".to_string());
        };
        let status = child.wait().map_err(|error| told("no status", error))?;
        (writer.join().expect("the writer does not panic"))
            .map_err(|error| told("the input was not written", error))?;
        // The rules name no exit code, but a program must end by itself.
        if status.code().is_none() {
            return Err(format!("the program was ended: {status}"));
        }
        output.map_err(|error| told("the output was not read", error))
    }
}

/// Compares on `count` inputs, kind after kind.
pub fn compare(ours: &dyn Program, count: usize, seed: u64) -> (Tally, Option<Difference>) {
    let mut tally = Tally::default();
    for run in 0..count {
        let mut prng = Prng::of_run(seed, run);
        let kind = kind_of(run);
        let input = input(&mut prng, run);
        tally.add(kind_seen(kind));
        for flaw in input.flaws {
            tally.add(flaw_seen(flaw));
        }
        let result = compare_one(ours, &input.bytes).and_then(|()| walk(&input.bytes, &mut tally));
        if let Err(what) = result {
            let text = format!("seed {seed}, input {run}, kind {kind:?}\n{what}");
            return (tally, Some(Difference { run, text }));
        }
    }
    (tally, None)
}

/// The input of a run again.
pub fn input_of(seed: u64, run: usize) -> Vec<u8> {
    input(&mut Prng::of_run(seed, run), run).bytes
}

fn compare_one(ours: &dyn Program, input: &[u8]) -> Result<(), String> {
    let ours = ours.output(input)?;
    let theirs = run(input);
    if ours == theirs {
        return Ok(());
    }
    let same = (ours.iter().zip(&theirs)).take_while(|(a, b)| a == b);
    let at = same.count();
    let show = |output: &[u8]| {
        let from = at.saturating_sub(100);
        let to = output.len().min(at + 100);
        String::from_utf8_lossy(&output[from..to]).into_owned()
    };
    Err(format!(
        "outputs differ from byte {at} on ({} bytes and {})\nours, around it: {:?}\ntheirs: {:?}",
        ours.len(),
        theirs.len(),
        show(&ours),
        show(&theirs)
    ))
}

/// Goes through the input line by line: counts what was printed and checks
/// the laws on each list. Our output is the same, so they hold there too.
fn walk(input: &[u8], tally: &mut Tally) -> Result<(), String> {
    if input.len() > LONGEST {
        tally.add(TOO_LONG.trim_end());
        return Ok(());
    }
    if input.len() == LONGEST {
        tally.add(LONGEST_TAKEN);
    }
    if input.last().is_some_and(|&byte| byte != b'\n') {
        tally.add(NO_LINE_FEED);
    }
    let mut console = Console::default();
    let mut history = History::default();
    for line in lines(input) {
        let mut printed = String::new();
        console.line(line, &mut printed);
        let command = parse(line);
        match (&printed[..], command) {
            (BAD_LINE, _) | (_, None) => tally.add(BAD_LINE.trim_end()),
            (text, command) if text.starts_with("refused") => {
                tally.add(text.trim_end());
                if let Some(Command::Open(setting)) = command {
                    if setting.has_good_numbers() {
                        tally.add(NO_EDITION);
                    }
                }
            }
            (_, Some(Command::Open(setting))) => {
                history.opened(&setting);
                tally.add("open taken");
                let has_five = line.iter().filter(|&&byte| byte == b' ').count() == 5;
                tally.add(match (setting.is_later(), has_five) {
                    (true, true) => LATER_TOLD,
                    (true, false) => LATER_LEFT_OUT,
                    (false, _) => FIRST,
                });
            }
            (
                _,
                Some(Command::Book {
                    name,
                    slot,
                    parents,
                }),
            ) => {
                history.booked(name, slot, &parents);
                tally.add("book taken");
            }
            (_, Some(Command::Poll { name, votes })) => {
                history.polled(name, &votes);
                tally.add("poll taken");
            }
            (_, Some(Command::Read(reading, _))) => tally.add(format!("{} taken", reading.word())),
            (text, Some(Command::List)) => {
                let picture = Picture::of_list(text).ok_or("a list that is none")?;
                let result = history.check(&picture);
                result.map_err(|breach| format!("law {:?}: {}", breach.law, breach.said))?;
                tally.add("list taken");
                let accepted = picture.rows.iter().skip(1).filter(|row| row.is_accepted);
                let ledger = console.ledger().expect("it was listed");
                if accepted.count() > 0 {
                    tally.add(ACCEPTED);
                    if ledger.setting.is_later() {
                        tally.add(ACCEPTED_LATER);
                    }
                }
                for (row, by_old_rule) in picture.rows.iter().zip(old_rule::accepted(ledger)) {
                    match (row.is_accepted, by_old_rule) {
                        (true, false) => tally.add(KEPT),
                        (false, true) => tally.add(WITHHELD),
                        _ => (),
                    }
                }
                if picture.rows.len() == second::layout::BOOKINGS {
                    tally.add(FULL);
                }
            }
        }
    }
    Ok(())
}

const LONGEST_TAKEN: &str = "input of the longest length";
const NO_LINE_FEED: &str = "input without a final line feed";
const ACCEPTED: &str = "list with accepted bookings";
const ACCEPTED_LATER: &str = "list with accepted bookings in the later edition";
const LATER_LEFT_OUT: &str = "open taken with four numbers";
const LATER_TOLD: &str = "open taken with the later edition told";
const FIRST: &str = "open taken in the first edition";
const NO_EDITION: &str = "open refused for its edition";
const KEPT: &str = "row accepted for its mark alone";
const WITHHELD: &str = "row not accepted for another's mark alone";
const FULL: &str = "list of a full ledger";

fn kind_seen(kind: Kind) -> String {
    format!("input: {kind:?}")
}

fn flaw_seen(flaw: Flaw) -> String {
    format!("flaw: {flaw:?}")
}

/// What inputs should have shown and did not. Refusals 1, 14 and 15 cannot be
/// had from text: its words have the right length, and are all zero or sound.
/// Nor can 16: no line lends a buffer.
pub fn missing(tally: &Tally) -> Vec<String> {
    let kinds = Kind::ALL.into_iter().map(kind_seen);
    let flaws = Flaw::ALL.into_iter().map(flaw_seen);
    let refusals = (2..=Refusal::VoteByte.number()).map(|number| format!("refused {number}"));
    let calls = Call::lines().map(|kind| format!("{kind} taken"));
    let others = [
        "list taken",
        BAD_LINE.trim_end(),
        TOO_LONG.trim_end(),
        LONGEST_TAKEN,
        NO_LINE_FEED,
        ACCEPTED,
        ACCEPTED_LATER,
        LATER_LEFT_OUT,
        LATER_TOLD,
        FIRST,
        NO_EDITION,
        KEPT,
        WITHHELD,
        FULL,
    ];
    let all = kinds.chain(flaws).chain(refusals).chain(calls);
    tally.unseen(all.chain(others.map(String::from)))
}

/// A console with an error, to show that the comparison finds it: it reads
/// other bytes than it was given.
pub struct Misread {
    pub name: &'static str,
    pub read: fn(&[u8]) -> Vec<u8>,
}

impl Program for Misread {
    fn output(&self, input: &[u8]) -> Result<Vec<u8>, String> {
        Ok(run(&(self.read)(input)))
    }
}

/// A console with an error in how it gives, keeps or reads marks, or in what
/// it makes of editions.
pub struct Mismarked(pub Plant);

impl Program for Mismarked {
    fn output(&self, input: &[u8]) -> Result<Vec<u8>, String> {
        if input.len() > LONGEST {
            return Ok(TOO_LONG.into());
        }
        let face = Planted(Some(self.0));
        let (mut ws, mut out) = (vec![0; WORDS], String::new());
        for line in lines(input) {
            print(&face, &mut ws, line, &mut out);
        }
        Ok(out.into_bytes())
    }
}

/// What a console prints for a line, by calls on words.
fn print(face: &Planted, ws: &mut [u16], line: &[u8], out: &mut String) {
    let Some(command) = parse(line) else {
        return out.push_str(BAD_LINE);
    };
    let is_list = command == Command::List;
    let call = match command {
        Command::Open(setting) => Call::Open(setting),
        Command::Book {
            name,
            slot,
            parents,
        } => Call::Book {
            name,
            slot,
            parents,
        },
        Command::Poll { name, votes } => Call::Poll { name, votes },
        Command::Read(reading, name) => Call::Read(reading, name),
        // It is refused or taken for every name that is booked.
        Command::List => Call::Read(Reading::Accepted, 0),
    };
    match face.call(ws, Beside::default(), &call) {
        (0, _) if is_list => list(face, ws, out),
        (0, _) if call.is_change() => (),
        (0, value) => out.push_str(&format!("{value}\n")),
        (number, _) => out.push_str(&format!("refused {number}\n")),
    }
}

fn list(face: &Planted, ws: &mut [u16], out: &mut String) {
    let accepted = |name| {
        face.call(
            &mut ws.to_vec(),
            Beside::default(),
            &Call::Read(Reading::Accepted, name),
        )
    };
    let picture = Picture::of_words(ws, |name| accepted(name) == (0, 1));
    out.push_str(LIST_HEADER);
    for (b, row) in picture.rows.iter().enumerate() {
        let state = ws[record(b) + STATE];
        let [preferred, accepted] = [row.is_preferred, row.is_accepted].map(u8::from);
        let (slot, confidence) = (row.slot, row.confidence);
        out.push_str(&format!(
            "{b} {slot} {state} {confidence} {preferred} {accepted}\n"
        ));
    }
}

/// The planted consoles.
pub const MISREAD: [Misread; 11] = [
    Misread {
        name: "CarriageReturnsAreDropped",
        read: |input| input.iter().copied().filter(|&b| b != b'\r').collect(),
    },
    Misread {
        name: "TabsAreSpaces",
        read: |input| {
            let swap = |&byte: &u8| if byte == b'\t' { b' ' } else { byte };
            input.iter().map(swap).collect()
        },
    },
    Misread {
        name: "LongInputIsCut",
        read: |input| input[..input.len().min(LONGEST)].to_vec(),
    },
    Misread {
        name: "LastLineNeedsALineFeed",
        read: |input| {
            let end = input.iter().rposition(|&byte| byte == b'\n');
            input[..end.map_or(0, |at| at + 1)].to_vec()
        },
    },
    Misread {
        name: "PlusSignsAreTaken",
        read: |input| input.iter().copied().filter(|&b| b != b'+').collect(),
    },
    Misread {
        name: "EditionIsOverlooked",
        read: |input| openings(input, 6..=6, |pieces| pieces.truncate(5)),
    },
    Misread {
        name: "SixthNumberIsOverlooked",
        read: |input| openings(input, 7..=7, |pieces| pieces.truncate(6)),
    },
    Misread {
        name: "EditionHasToBeTold",
        read: |input| openings(input, 5..=5, |pieces| pieces.truncate(1)),
    },
    Misread {
        name: "FourNumbersMeanTheFirst",
        read: |input| openings(input, 5..=5, |pieces| pieces.push(b"0")),
    },
    Misread {
        name: "FourNumbersKeepTheEdition",
        read: |input| {
            let mut kept: &[u8] = b"1";
            openings(input, 5..=6, |pieces| {
                pieces.resize(6, kept);
                match parse(&pieces.join(&b' ')) {
                    Some(Command::Open(setting)) if setting.is_good() => kept = pieces[5],
                    _ => (),
                }
            })
        },
    },
    Misread {
        name: "FifthOfZeroIsOverlooked",
        read: |input| {
            openings(input, 6..=6, |pieces| {
                let is_zero = pieces[5].iter().all(|&digit| digit == b'0');
                pieces.truncate(if is_zero { 5 } else { 6 });
            })
        },
    },
];

/// The input with the openings of so many pieces changed.
fn openings<'a>(
    input: &'a [u8],
    counts: RangeInclusive<usize>,
    mut change: impl FnMut(&mut Vec<&'a [u8]>),
) -> Vec<u8> {
    let mut read = Vec::with_capacity(2 * input.len());
    for line in input.split_inclusive(|&byte| byte == b'\n') {
        let text = line.strip_suffix(b"\n").unwrap_or(line);
        let mut pieces: Vec<&[u8]> = text.split(|&byte| byte == b' ').collect();
        if pieces[0] == b"open" && counts.contains(&pieces.len()) {
            change(&mut pieces);
        }
        read.extend(pieces.join(&b' '));
        read.extend(&line[text.len()..]);
    }
    read
}

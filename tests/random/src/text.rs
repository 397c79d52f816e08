//! Inputs of all kinds for the consoles.

use crate::call::Call;
use crate::choose::choose_line;
use crate::flaw::Flaw;
use crate::grow::{grow, setting, Shape, Style};
use crate::names::Names;
use crate::prng::Prng;
use second::console::LONGEST;
use second::layout::BOOKINGS;
use second::ledger::Ledger;
use second::setting::Setting;

#[derive(Clone, Copy, Debug, PartialEq, Eq)]
pub enum Kind {
    /// Any ledger with any calls.
    Ledger,
    /// Two slots for all bookings.
    Rivals,
    Chain,
    Diamonds,
    /// One slot, so that an ancestry has many bookings of it.
    OneSlot,
    /// Small bounds that counters pass, by both arms.
    Acceptance,
    /// Rivals that come when somebody is accepted, and overtake.
    LateRivals,
    /// Polls that fail between chits, in the later edition.
    Failures,
    /// All 512 bookings and more.
    Full,
    /// Several ledgers one after another, with refused openings.
    Reopenings,
    /// Calls before any opening.
    Unopened,
    /// Every other line is bad.
    Hostile,
    /// The highest names, slots and settings.
    Extremes,
    /// A good input with bytes changed.
    Changed,
    /// Bytes without sense.
    Noise,
    /// Around the longest input.
    Sizes,
    /// Next to nothing.
    Tiny,
}

impl Kind {
    pub const ALL: [Kind; 17] = [
        Kind::Ledger,
        Kind::Rivals,
        Kind::Chain,
        Kind::Diamonds,
        Kind::OneSlot,
        Kind::Acceptance,
        Kind::LateRivals,
        Kind::Failures,
        Kind::Full,
        Kind::Reopenings,
        Kind::Unopened,
        Kind::Hostile,
        Kind::Extremes,
        Kind::Changed,
        Kind::Noise,
        Kind::Sizes,
        Kind::Tiny,
    ];
}

/// The kinds take turns.
pub fn kind_of(run: usize) -> Kind {
    Kind::ALL[run % Kind::ALL.len()]
}

/// An input, and the flaws put into it.
pub struct Input {
    pub bytes: Vec<u8>,
    pub flaws: Vec<Flaw>,
}

/// The input of a run: kind after kind in turn.
pub fn input(prng: &mut Prng, run: usize) -> Input {
    let kind = kind_of(run);
    let turn = run / Kind::ALL.len();
    let mut writer = Writer::default();
    match kind {
        Kind::Noise => return plain(noise(prng)),
        Kind::Tiny => return plain(tiny(prng)),
        Kind::Reopenings => {
            for _ in 0..prng.between(2, 6) {
                let style = Style::any(prng);
                writer.ledger(prng, style, 12, 10);
            }
        }
        Kind::Unopened => {
            // What would be good calls on a ledger, without the opening.
            let style = Style::any(prng);
            let grown = grow(prng, style, 8);
            for call in &grown.calls[1..] {
                writer.call(prng, call);
            }
            writer.list();
            writer.ledger(prng, grown.style, 8, 10);
        }
        Kind::Full => {
            let style = style_of(prng, kind);
            writer.ledger(prng, style, BOOKINGS, 30);
        }
        _ => {
            writer.spelling = prng.pick(&[0, 0, 10]);
            writer.flaw_percent = prng.pick(&[0, 3, 10]);
            if kind == Kind::Hostile {
                writer.flaw_percent = 60;
            }
            let style = style_of(prng, kind);
            let n = prng.between(4, 50);
            let more = prng.between(10, 80);
            writer.ledger(prng, style, n, more);
        }
    }
    if prng.chance(80) {
        writer.list();
    }
    let mut bytes = writer.bytes;
    match kind {
        Kind::Changed => change(prng, &mut bytes),
        Kind::Sizes => resize(prng, turn, &mut bytes),
        _ if prng.chance(20) => {
            // The last line may end with the input.
            bytes.pop();
        }
        _ => (),
    }
    let flaws = writer.flaws;
    Input { bytes, flaws }
}

fn plain(bytes: Vec<u8>) -> Input {
    let flaws = Vec::new();
    Input { bytes, flaws }
}

fn style_of(prng: &mut Prng, kind: Kind) -> Style {
    let any = Style::any(prng);
    match kind {
        Kind::Rivals => Style { slots: 2, ..any },
        Kind::Chain => Style {
            shape: Shape::Chain,
            ..any
        },
        Kind::Diamonds => Style {
            shape: Shape::Diamonds,
            ..any
        },
        Kind::OneSlot => Style {
            shape: prng.pick(&[Shape::Chain, Shape::Diamonds]),
            slots: 1,
            late_rivals: 0,
            ..any
        },
        Kind::Acceptance => Style::accepting(prng),
        Kind::LateRivals => Style::contested(prng),
        Kind::Failures => Style::failing(prng),
        // Short lines, so that all fit.
        Kind::Full => Style {
            setting: Style::accepting(prng).setting,
            names: Names::Counting,
            ..any
        },
        Kind::Extremes => Style {
            setting: {
                let numbers = [[10, 8, 11, 150], [64, 64, 510, 510], [64, 33, 1, 510]];
                let [k, a, beta1, beta2] = prng.pick(&numbers);
                setting(prng, k, a, beta1, beta2)
            },
            names: prng.pick(&[Names::Highest, Names::Any, Names::Near]),
            slots: 255,
            ..any
        },
        _ => any,
    }
}

#[derive(Default)]
struct Writer {
    bytes: Vec<u8>,
    flaws: Vec<Flaw>,
    /// How many lines of a hundred are bad ones.
    flaw_percent: usize,
    /// How many numbers of a hundred have zeros before them.
    spelling: usize,
    /// The ledger that the lines have led to.
    ledger: Option<Ledger>,
}

impl Writer {
    /// A ledger of `n` bookings, then more calls on it, bad lines and lists
    /// among them.
    fn ledger(&mut self, prng: &mut Prng, style: Style, n: usize, more: usize) {
        let grown = grow(prng, style, n);
        for call in &grown.calls {
            self.maybe_flaw(prng);
            self.call(prng, call);
        }
        self.ledger = Some(grown.ledger);
        for _ in 0..more {
            self.maybe_flaw(prng);
            if prng.chance(4) {
                self.list();
                continue;
            }
            let ledger = self.ledger.as_mut().expect("it was just grown");
            let call = choose_line(prng, ledger, &grown.style);
            follow(ledger, &call);
            self.call(prng, &call);
        }
    }

    /// A line, if the input can still take it and one more list.
    fn line(&mut self, line: &[u8]) {
        if self.bytes.len() + line.len() + "\nlist\n".len() <= LONGEST {
            self.bytes.extend_from_slice(line);
            self.bytes.push(b'\n');
        }
    }

    fn list(&mut self) {
        self.bytes.extend_from_slice(b"list\n");
    }

    fn maybe_flaw(&mut self, prng: &mut Prng) {
        if prng.chance(self.flaw_percent) {
            let flaw = prng.pick(&Flaw::ALL);
            let name = match &self.ledger {
                Some(ledger) => prng.pick(&ledger.bookings).name,
                None => 1,
            };
            self.line(&flaw.line(prng, name));
            self.flaws.push(flaw);
        }
    }

    fn call(&mut self, prng: &mut Prng, call: &Call) {
        let mut line = call.kind().to_string();
        let mut number = |prng: &mut Prng, number: u64| {
            let width = match prng.chance(self.spelling) {
                true => prng.between(2, 20),
                false => 0,
            };
            line.push_str(&format!(" {number:0>width$}"));
        };
        match call {
            Call::Open(s) => {
                for word in [s.k, s.a, s.beta1, s.beta2] {
                    number(prng, u64::from(word));
                }
                // The later edition may be left out.
                if s.edition != Setting::LATER || prng.chance(40) {
                    number(prng, u64::from(s.edition));
                }
            }
            Call::Book {
                name,
                slot,
                parents,
            } => {
                number(prng, *name);
                number(prng, u64::from(*slot));
                for parent in parents {
                    number(prng, *parent);
                }
            }
            Call::Poll { name, votes } => {
                number(prng, *name);
                for &byte in votes {
                    line.push_str(&vote(prng, byte, self.spelling));
                }
            }
            Call::Read(_, name) => number(prng, *name),
            _ => unreachable!("the console has no line for it"),
        }
        self.line(line.as_bytes());
    }
}

/// A vote byte as the signed number that is sent as it.
fn vote(prng: &mut Prng, byte: u8, spelling: usize) -> String {
    let signed = byte as i8;
    let sign = if signed < 0 || (byte == 0 && prng.chance(spelling)) {
        "-"
    } else {
        ""
    };
    let zeros = if prng.chance(spelling) { "00" } else { "" };
    format!(" {sign}{zeros}{}", signed.unsigned_abs())
}

/// What the call does to the ledger, if it is taken.
fn follow(ledger: &mut Ledger, call: &Call) {
    // A refused call leaves the ledger as it is, so the answer is of no use.
    let _ = match call {
        Call::Open(setting) => Ledger::open(*setting).map(|opened| *ledger = opened),
        Call::Book {
            name,
            slot,
            parents,
        } => ledger.book(*name, *slot, parents),
        Call::Poll { name, votes } => ledger.poll(*name, votes),
        _ => Ok(()),
    };
}

/// Bytes changed, left out, doubled or put in, in a few places.
fn change(prng: &mut Prng, bytes: &mut Vec<u8>) {
    for _ in 0..prng.between(1, 40) {
        let at = prng.below(bytes.len());
        let byte = match prng.below(3) {
            0 => prng.draw() as u8,
            1 => prng.pick(b" \n-019+\r\t"),
            _ => bytes[prng.below(bytes.len())],
        };
        match prng.below(3) {
            0 => bytes[at] = byte,
            1 => bytes.insert(at, byte),
            _ if bytes.len() > 1 => {
                bytes.remove(at);
            }
            _ => (),
        }
    }
}

/// Bytes of all values, or those that lines are made of.
fn noise(prng: &mut Prng) -> Vec<u8> {
    let length = prng.between(1, 2000);
    let is_readable = prng.chance(50);
    (0..length)
        .map(|_| {
            if is_readable {
                prng.pick(b"openbkpls 0123456789-  \n\n")
            } else {
                prng.draw() as u8
            }
        })
        .collect()
}

fn tiny(prng: &mut Prng) -> Vec<u8> {
    prng.pick(&[
        "",
        "\n",
        "\n\n\n",
        " ",
        "\n ",
        "\r\n",
        "\0",
        "x",
        "list",
        "list\n",
        "list\n\n",
        "open 1 1 1 1",
        "open 1 1 1 1\n",
        "open 1 1 1 1\nlist",
        "open 1 1 1 1\nquery 0\n-",
        "open 1 1 1 1 1\nlist",
        "open 1 1 1 1 0",
        "open 1 1 1 1 2\nlist",
        "open 1 1 1 1 1 1\nlist",
        "open 10 8 11 150\nlist\nlist",
    ])
    .into()
}

/// A length around the longest, with or without a line feed at the end.
fn resize(prng: &mut Prng, turn: usize, bytes: &mut Vec<u8>) {
    let (length, has_line_feed) = SIZES[turn % SIZES.len()];
    let filler = prng.pick(&["size 0\n", "\n", "query 1\n", "x", "lead 2\nlist 0\n"]);
    while bytes.len() < length {
        bytes.extend_from_slice(filler.as_bytes());
    }
    bytes.truncate(length);
    bytes[length - 1] = if has_line_feed { b'\n' } else { b'0' };
}

/// They take turns, too.
const SIZES: [(usize, bool); 8] = [
    (LONGEST, true),
    (LONGEST + 1, true),
    (LONGEST, false),
    (LONGEST + 1, false),
    (LONGEST - 1, true),
    (LONGEST - 1, false),
    (2 * LONGEST, true),
    (200_000, false),
];

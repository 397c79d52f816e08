//! The five inputs that the consoles are measured on, and an empty one for
//! what it costs to start a program.

use second::console::LONGEST;
use second::ledger::Reading;
use std::fmt::Write;

pub fn all() -> Vec<(&'static str, String)> {
    vec![
        ("nothing", String::new()),
        ("book and poll 511", polled()),
        ("readings on a full ledger", readings()),
        ("queries on a full ledger", queries()),
        ("300 lists", lists()),
        ("bad lines", bad_lines()),
    ]
}

/// 511 bookings, each on the two before it, slots in turn.
fn booked() -> String {
    let mut text = "open 1 1 11 150 0\n".to_string();
    for b in 1..512 {
        write!(text, "book {b} {} {}", 1 + (b - 1) % 255, b - 1).expect("a string takes text");
        if b > 1 {
            write!(text, " {}", b - 2).expect("a string takes text");
        }
        text.push('\n');
    }
    text
}

fn polled() -> String {
    let mut text = booked();
    for b in 1..512 {
        writeln!(text, "poll {b} 1").expect("a string takes text");
    }
    text
}

/// Fills the input up with lines, the first for 0, the next for 1 and on.
fn fill(mut text: String, line: impl Fn(usize) -> String) -> String {
    for i in 0.. {
        let line = line(i);
        if text.len() + line.len() > LONGEST {
            break;
        }
        text.push_str(&line);
    }
    text
}

fn readings() -> String {
    fill(polled(), |i| {
        let word = Reading::ALL[i % Reading::ALL.len()].word();
        format!("{word} {}\n", (i * 7) % 512)
    })
}

fn queries() -> String {
    fill(booked(), |i| format!("query {}\n", 511 - i % 512))
}

fn lists() -> String {
    polled() + &"list\n".repeat(300)
}

fn bad_lines() -> String {
    let lines = [
        "\n",
        "book 1  7 0\n",
        "poll 1 1 1 128\n",
        "size 18446744073709551616\n",
        "open 3 2 1 65536\n",
        "Query 1\n",
    ];
    fill(String::new(), |i| lines[i % lines.len()].to_string())
}

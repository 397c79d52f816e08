//! A failing run, written out whole.

use second::index::EMPTY;
use second::layout::*;
use std::fmt::Write;
use std::path::PathBuf;
use std::{env, fs, io};

/// Writes the bytes under the name into a folder for failures, and answers
/// the path.
pub fn write(name: &str, bytes: &[u8]) -> io::Result<PathBuf> {
    let folder = env::temp_dir().join("filzhammer-random");
    fs::create_dir_all(&folder)?;
    let path = folder.join(name);
    fs::write(&path, bytes)?;
    Ok(path)
}

/// Bytes as text, in lines of thirty-two that name the first one's place.
pub fn bytes_text(bytes: &[u8]) -> String {
    let mut text = format!("{} bytes\n", bytes.len());
    for (line, bytes) in bytes.chunks(32).enumerate() {
        write!(text, "{:>10}:", 32 * line).expect("a string takes text");
        for byte in bytes {
            write!(text, " {byte:02x}").expect("a string takes text");
        }
        text.push('\n');
    }
    text
}

/// The cells of an index as text: those that are not empty, each after its
/// place.
pub fn cells_text(cells: &[u16]) -> String {
    let mut text = format!("{} cells", cells.len());
    for (at, number) in cells.iter().enumerate() {
        if *number != EMPTY {
            write!(text, " {at}:{number}").expect("a string takes text");
        }
    }
    text
}

/// Words as text, a line for the header, for each record and for each entry.
/// All-zero records and empty entries are left out; a line names its place.
pub fn words_text(ws: &[u16]) -> String {
    let mut text = format!("{} words\n", ws.len());
    let mut line = |place: String, words: &[u16]| {
        writeln!(text, "{place:>10}: {words:?}").expect("a string takes text");
    };
    if ws.len() != WORDS {
        line("all".to_string(), ws);
        return text;
    }
    line("header".to_string(), &ws[..HEADER_WORDS]);
    for b in 0..BOOKINGS {
        let words = &ws[record(b)..record(b + 1)];
        if words.iter().any(|&word| word != 0) {
            line(format!("record {b}"), words);
        }
    }
    for s in 0..SLOTS {
        let words = &ws[entry(s)..entry(s + 1)];
        if words != EMPTY_ENTRY {
            line(format!("slot {s}"), words);
        }
    }
    text
}

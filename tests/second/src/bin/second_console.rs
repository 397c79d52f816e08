//! The second program's console: standard input to standard output.

use second::console::{run, LONGEST};
use std::io::{self, Read, Write};

fn main() -> io::Result<()> {
    // One byte more than is taken shows that the input is longer.
    let mut input = Vec::new();
    io::stdin()
        .lock()
        .take(LONGEST as u64 + 1)
        .read_to_end(&mut input)?;
    io::stdout().lock().write_all(&run(&input))
}

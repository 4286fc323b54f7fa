//! Reads what `frames` reads and writes, after each answer line, the whole book as one line.

use std::io::{self, Read, Write};

fn main() -> io::Result<()> {
    let mut input = Vec::new();
    io::stdin().lock().read_to_end(&mut input)?;
    io::stdout().lock().write_all(&second::frames::trace(&input))
}

//! The line program over standard input and output, one answer at a time.

use second::frames::{words_line, Desk};
use std::io::{self, BufRead, Write};

/// The next line without its byte 10, or None at the end of input.
fn next_line(input: &mut impl BufRead) -> io::Result<Option<Vec<u8>>> {
    let mut line = Vec::new();
    if input.read_until(10, &mut line)? == 0 {
        return Ok(None);
    }
    if line.last() == Some(&10) {
        line.pop();
    }
    Ok(Some(line))
}

fn main() -> io::Result<()> {
    let mut input = io::stdin().lock();
    let mut output = io::stdout().lock();
    match Desk::open(next_line(&mut input)?.as_deref()) {
        Err(refusal) => output.write_all(&words_line(&refusal.words())),
        Ok(mut desk) => {
            while let Some(line) = next_line(&mut input)? {
                output.write_all(&words_line(&desk.answer(&line).words()))?;
            }
            Ok(())
        }
    }
}

//! What the line programs cannot do without: reads, splits lines, and writes one fixed answer for
//! each line after the first. No digit is looked at.

use std::io::{self, Read, Write};

const CHUNK: usize = 1 << 16;
const FRAME: usize = 56;
const LINE_END: u8 = 10;
const ANSWER: &[u8; 25] = b"000000000000000000000000\n";

fn main() -> io::Result<()> {
    let mut input = io::stdin().lock();
    let mut output = io::stdout().lock();
    let mut chunk = vec![0; CHUNK];
    let mut out = Vec::with_capacity(CHUNK);
    let mut first = true;
    loop {
        let count = input.read(&mut chunk)?;
        if count == 0 {
            return Ok(());
        }
        let mut rest = &chunk[..count];
        while let Some(end) = line_end(rest) {
            rest = &rest[end + 1..];
            if !first {
                out.extend_from_slice(ANSWER);
            }
            first = false;
        }
        output.write_all(&out)?;
        out.clear();
    }
}

/// Where the line ends. Most lines are frames, and their bytes are compared at once.
#[inline(always)]
fn line_end(bytes: &[u8]) -> Option<usize> {
    match bytes.split_first_chunk::<FRAME>() {
        Some((frame, [LINE_END, ..])) if !frame.iter().fold(false, |hit, byte| hit | (*byte == LINE_END)) => {
            Some(FRAME)
        }
        _ => bytes.iter().position(|byte| *byte == LINE_END),
    }
}

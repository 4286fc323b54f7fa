//! The line program over standard input and output: large reads, and the answers of what was read
//! are written before it waits for more.

use plain::lines::Program;
use std::io::{self, Read, Write};

const CHUNK: usize = 1 << 16;

fn main() -> io::Result<()> {
    let mut input = io::stdin().lock();
    let mut output = io::stdout().lock();
    let mut chunk = vec![0; CHUNK];
    let mut out = Vec::with_capacity(CHUNK);
    let mut program = Program::default();
    loop {
        let count = input.read(&mut chunk)?;
        if count == 0 {
            program.finish(&mut out);
            return output.write_all(&out);
        }
        program.feed(&chunk[..count], &mut out);
        output.write_all(&out)?;
        out.clear();
        if program.is_over() {
            return Ok(());
        }
    }
}

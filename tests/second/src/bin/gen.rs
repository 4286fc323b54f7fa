//! `gen SEED LINES [damaged]` writes a seeded input of the line program.

use second::gen::{clean_stream, damaged_stream, Rng};
use std::io::{self, Write};

fn main() -> io::Result<()> {
    let words: Vec<String> = std::env::args().skip(1).collect();
    let number = |at: usize, usual: u64| words.get(at).and_then(|word| word.parse().ok()).unwrap_or(usual);
    let mut rng = Rng::new(number(0, 1));
    let lines = number(1, 1000) as usize;
    let stream = match words.get(2).map(String::as_str) {
        Some("damaged") => damaged_stream(&mut rng, lines),
        _ => clean_stream(&mut rng, lines),
    };
    io::stdout().lock().write_all(&stream)
}

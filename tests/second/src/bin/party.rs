//! `party MEETING [VISITOR FIRST LAST]..` reads what `frames` reads and writes the answer line to the party, as
//! the lines leave the book; nothing where the settings are refused.

use second::frames::{left_by, words_line};
use second::party::{admit, Guest};
use std::io::{self, Read, Write};

fn main() -> io::Result<()> {
    let words: Vec<u32> = std::env::args().skip(1).map(|word| word.parse().expect("a number")).collect();
    let (meeting, guests) = words.split_first().expect("a meeting");
    let guests: Vec<Guest> = guests.chunks(3).map(|three| Guest::from_words([three[0], three[1], three[2]])).collect();
    let mut input = Vec::new();
    io::stdin().lock().read_to_end(&mut input)?;
    let Some(mut state) = left_by(&input) else { return Ok(()) };
    let answer = admit(&mut state, *meeting, &guests);
    io::stdout().lock().write_all(&words_line(&answer.words()))
}

//! `page DATE` reads what `frames` reads and writes the porter's page of the date as the lines leave it; nothing
//! where the settings are refused or there is no such date.

use second::frames::left_by;
use second::machine::Date;
use std::io::{self, Read, Write};

fn main() -> io::Result<()> {
    let date = std::env::args().nth(1).and_then(|word| word.parse().ok()).unwrap_or(0);
    let mut input = Vec::new();
    io::stdin().lock().read_to_end(&mut input)?;
    let Some(state) = left_by(&input) else { return Ok(()) };
    if date >= state.settings.dates {
        return Ok(());
    }
    let page = second::page::lines(&state, Date(date));
    let bytes: Vec<u8> = page.iter().flat_map(|line| line.bytes()).collect();
    io::stdout().lock().write_all(&bytes)
}

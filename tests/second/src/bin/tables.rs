//! `tables SEED` writes random tables and single cases for the specification check.

use second::gen::{cases, tables};

fn main() {
    let seed = std::env::args().nth(1).and_then(|word| word.parse().ok()).unwrap_or(1);
    print!("{}{}", tables::text(&tables::tables(seed)), cases::text(&cases::cases(seed)));
}

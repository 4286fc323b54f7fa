//! Two tables: the proved engine beside the plain Rust engine, the limits of both, and SQLite in
//! memory; and the steps of each kind alone. The sides take turns in one run, and the median of their
//! ratios in a turn counts, so that a machine whose speed changes spoils little. `bench/run` builds what is needed
//! and runs this.

mod checks;
mod clock;
mod lines;
mod sites;
#[cfg(feature = "sqlite")]
mod sqlite;
mod steps;
mod table;

use second::gen::{full_book, Rng};

/// The kinds that are named behind the word `kinds`; None without that word, for both tables.
fn kinds_named() -> Option<Vec<u32>> {
    let mut words = std::env::args().skip(1);
    let first = words.next()?;
    assert_eq!(first, "kinds", "usage: bench/run [kinds [KIND..]]");
    Some(words.map(|word| word.parse().expect("a kind is a number")).collect())
}

fn main() {
    let named = kinds_named();
    let seed = sites::SEED;
    println!("processor time, medians of several turns; seed {seed}\n");
    let mut rng = Rng::new(u64::from(seed));
    let largest = full_book(&mut rng, &sites::largest(), 50);
    let medium = full_book(&mut rng, &sites::medium(90), 50);
    if named.is_none() {
        calls_and_program(&medium, &largest);
        println!();
    }
    let kinds = named.filter(|kinds| !kinds.is_empty()).unwrap_or((1..=20).collect());
    table::head_of_kinds(&["medium site", "largest site"]);
    let medium = steps::Site { book: &medium, requests: 20_000, removals: 5000, turns: 41 };
    let largest = steps::Site { book: &largest, requests: 100_000, removals: 5000, turns: 9 };
    steps::by_kinds(&[medium, largest], &kinds);
}

fn calls_and_program(medium: &[u32], largest: &[u32]) {
    table::head();
    checks::fresh(&sites::largest());
    checks::half_full(largest);
    steps::measure("medium site, half full", medium, 20_000);
    steps::measure("largest site, half full", largest, 50_000);
    steps::orders("medium site, half full", medium, 20_000);
    steps::ask_and_commit("medium site, half full", medium);
    steps::charge("medium site, half full", medium);
    steps::by_dates();
    steps::party();
    lines::measure();
    #[cfg(feature = "sqlite")]
    sqlite::measure(medium);
    #[cfg(not(feature = "sqlite"))]
    println!("\nno SQLite on this machine (Debian's libsqlite3-dev): its row is left out");
}

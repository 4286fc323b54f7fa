//! Checking the largest book, fresh and half full.

use crate::clock::{seconds, turns};
use crate::table::row;
use second::machine::Settings;
use std::hint::black_box;

const TURNS: usize = 25;

pub fn fresh(settings: &Settings) {
    let mut book = vec![7; caviar::book_len(&settings.words())];
    assert_eq!(caviar::lay(&settings.words(), &mut book).number, 0);
    measure("check, largest, fresh", &book);
}

pub fn half_full(book: &[u32]) {
    measure("check, largest, half full", book);
}

fn measure(what: &str, book: &[u32]) {
    let [proved, plain, limit] = turns(
        TURNS,
        [
            &mut || seconds(|| assert_eq!(caviar::check(black_box(book)).number, 0)),
            &mut || seconds(|| assert_eq!(plain::check(black_box(book)).number, 0)),
            &mut || seconds(|| sum_of(black_box(book))),
        ],
    );
    let rate = |time: f64| format!("{:.2} G words/s", book.len() as f64 / time / 1e9);
    let sum = format!(
        "limit {}, a plain sum: proved {:.2}, plain {:.2} of its time",
        rate(limit),
        proved / limit,
        plain / limit
    );
    row(what, [proved, plain], rate, &sum);
}

fn sum_of(book: &[u32]) -> u32 {
    book.iter().fold(0, |sum, word| sum.wrapping_add(*word))
}

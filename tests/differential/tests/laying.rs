//! `book_len` and `lay` against the second program: good and bad settings, right and wrong lengths,
//! any content of the book before.

use differential::{seed, times, Counts};
use second::book;
use second::gen::{site, sites, Rng, Size};

/// Settings that are good about as often as bad.
fn settings(rng: &mut Rng) -> Vec<u32> {
    match rng.below(4) {
        0 | 1 => site(rng, Size::Any).words(),
        2 => sites::bad_settings(rng),
        _ => (0..rng.below(30)).map(|_| rng.junk(9)).collect(),
    }
}

/// A length near the needed one, most often that one; any for settings that need none.
fn length(rng: &mut Rng, needed: usize) -> usize {
    match rng.below(6) {
        0 => needed + 1,
        1 => needed.saturating_sub(1),
        2 => rng.below(100) as usize,
        _ => needed,
    }
}

#[test]
fn laying() {
    let mut rng = Rng::new(seed(10));
    let mut numbers = Counts::new();
    for _ in 0..times(4000) {
        let words = settings(&mut rng);
        let needed = book::book_len(&words) as usize;
        assert_eq!(caviar::book_len(&words), needed, "{words:?}");
        let mut ours: Vec<u32> = (0..length(&mut rng, needed)).map(|_| rng.word()).collect();
        let (before, mut theirs) = (ours.clone(), ours.clone());
        let answer = caviar::lay(&words, &mut ours);
        assert_eq!(answer.words(), book::lay(&words, &mut theirs).words(), "{words:?}");
        assert!(ours == theirs, "{words:?}");
        match answer.number {
            0 => assert_eq!(caviar::check(&ours).words(), [0, 0, 0]),
            _ => assert!(ours == before, "refused, and the book changed: {words:?}"),
        }
        numbers.add(answer.number);
    }
    println!("seed {}: layings by number {numbers}", seed(10));
    numbers.assert_each([0, 24, 25], 400);
}

/// A refusal of laying when both questions say no is 24; no settings at all are 24.
#[test]
fn edges() {
    assert_eq!(caviar::lay(&[], &mut []).words(), [24, 0, 0]);
    assert_eq!(caviar::book_len(&[]), 0);
    assert_eq!(caviar::check(&[]).words(), [1, 0, 0]);
    let rehearsal = [2, 2, 2, 3, 2, 2, 1, 2, 1, 0, 4];
    assert_eq!(caviar::book_len(&rehearsal), 771);
    assert_eq!(caviar::lay(&rehearsal, &mut [0; 770]).words(), [25, 0, 0]);
    assert_eq!(caviar::lay(&[0; 11], &mut [0; 770]).words(), [24, 0, 0]);
}

//! `check` against the second program: lawful books, each rule broken alone, junk, the edges of the
//! pools, the smallest site and the largest book.

use differential::{seed, times, Counts};
use second::book::regions::{address, regions};
use second::book::{self, Rule};
use second::gen::{damaged, deep_state, full_book, junk_book, sites, Rng, Size};
use second::machine::{Settings, State};

/// The engine's answer, which must be the second program's.
fn checked(words: &[u32]) -> u32 {
    let answer = caviar::check(words);
    assert_eq!(answer.words(), book::check(words).words());
    answer.number
}

/// A book that breaks this rule alone, as the second program says by name.
fn broken_alone(rng: &mut Rng, state: &State, rule: Rule) -> Option<Vec<u32>> {
    let words = damaged(rng, state, rule)?;
    let broken: Vec<Rule> = book::broken(state.settings.clone(), &words).into_iter().collect();
    assert_eq!(broken, [rule]);
    Some(words)
}

fn lawful_and_broken(rng: &mut Rng, state: &State, rules: &mut Counts<Rule>) {
    assert_eq!(checked(&book::words(state)), 0);
    for rule in Rule::breakable() {
        let Some(words) = broken_alone(rng, state, rule) else { continue };
        assert_eq!(checked(&words), 2, "{rule:?} {:?}", state.settings);
        rules.add(rule);
    }
}

#[test]
fn each_rule_broken_alone() {
    let mut rng = Rng::new(seed(0));
    let mut rules = Counts::new();
    let lawful = times(120);
    for _ in 0..lawful {
        let settings = sites::site_within(&mut rng, Size::Any, 30_000);
        let state = deep_state(&mut rng, settings, 40);
        lawful_and_broken(&mut rng, &state, &mut rules);
    }
    println!("seed {}: {lawful} lawful books, {} with one rule broken: {rules}", seed(0), rules.total());
    rules.assert_each(Rule::breakable(), 50);
}

/// Wrong limits, lengths and words of every sort, and flipped words of lawful books.
#[test]
fn junk_books() {
    let mut rng = Rng::new(seed(1));
    let mut numbers = Counts::new();
    for _ in 0..times(4000) {
        numbers.add(checked(&junk_book(&mut rng)));
    }
    println!("seed {}: junk books by number {numbers}", seed(1));
    numbers.assert_each([0], 50);
    numbers.assert_each([1, 2], 700);
}

/// A pool whose words are all full has no unused bits.
fn is_unused_bits(rule: Rule) -> bool {
    matches!(rule, Rule::LeaveUnusedBits | Rule::StandingUnusedBits)
}

/// V and M where a pool word begins, ends or is full.
#[test]
fn pool_edges() {
    let mut rng = Rng::new(seed(2));
    let mut rules = Counts::new();
    for visitors in [31, 32, 33, 64, 512] {
        for meetings in [31, 32, 33, 64, 128] {
            let settings = Settings::from_words(&[2, 2, 2, visitors, meetings, 3, 2, 4, 3, 1, 5, 7]).expect("settings");
            let state = deep_state(&mut rng, settings, 40);
            lawful_and_broken(&mut rng, &state, &mut rules);
        }
    }
    println!("seed {}: pool edges, books with one rule broken: {rules}", seed(2));
    rules.assert_each([Rule::LeaveUnusedBits, Rule::StandingUnusedBits], 10);
    rules.assert_each(Rule::breakable().filter(|rule| !is_unused_bits(*rule)), 25);
}

/// Every limit 1: every book whose words between the settings and an empty ring are 0, 1 or 2.
#[test]
fn smallest_site() {
    let mut numbers = Counts::new();
    for which in 0..3_u32.pow(10) {
        let mut words = vec![1, 1, 1, 1, 1, 1, 1, 1, 1, 0, 1];
        words.extend((0..10).map(|word| which / 3_u32.pow(word) % 3));
        words.resize(words.len() + caviar::RING_WORDS + 1, 0);
        numbers.add(checked(&words));
    }
    println!("all books of words 0 to 2 of the smallest site, by number {numbers}");
    assert_eq!((numbers.of(0), numbers.of(2)), (149, 58_900));
}

/// The largest book, fresh and half full, and with one word changed in each region. The single changes
/// are compared with the plain engine, which is itself tested against the second program.
#[test]
fn largest_book() {
    let mut rng = Rng::new(seed(4));
    let settings = sites::largest(rng.between(1, 95));
    let length = caviar::book_len(&settings.words());
    assert_eq!(length, caviar::MOST_WORDS);
    let mut fresh = vec![7; length];
    assert_eq!(caviar::lay(&settings.words(), &mut fresh).words(), [0, 0, 0]);
    assert_eq!(checked(&fresh), 0);
    let mut half = full_book(&mut rng, &settings, 50);
    assert_eq!(checked(&half), 0);
    assert_eq!(caviar::check(&half[..length - 1]).words(), [1, 0, 0]);
    let mut answered = Counts::new();
    for turn in 0..times(84) {
        let book = if turn % 2 == 0 { &mut fresh } else { &mut half };
        let region = regions(&settings)[turn / 2 % 7];
        let word = rng.below(region.width) as usize;
        let at = address(&settings, region.name, rng.below(region.slots), rng.below(region.items)) + word;
        let before = book[at];
        book[at] = rng.pick(&[0, 1, 2, 128, 129, 512, 513, before ^ 1, before ^ 256, rng_word(turn)]);
        let answer = caviar::check(book);
        assert_eq!(answer.words(), plain::check(book).words(), "word {at}: {before} changed to {}", book[at]);
        answered.add((region.name, answer.number));
        book[at] = before;
    }
    println!("seed {}: the largest book with one word changed, by region and number: {answered}", seed(4));
    answered.assert_each(regions(&settings).map(|region| (region.name, 2)), 2);
}

/// A word with high bits, another each turn.
fn rng_word(turn: usize) -> u32 {
    (turn as u32 + 1).wrapping_mul(0x9e37_79b9)
}

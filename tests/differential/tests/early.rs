//! Early times: every number of them that a site can have, against the second program. Rides at every time with leave on
//! one date, ends of leave and removals on every date, and books whose early times are changed under their rides.

use caviar::Request;
use differential::{seed, times, Counts};
use second::book;
use second::gen::requests::state_after;
use second::gen::sites::too_early;
use second::gen::{full_book, list, sites, Mix, Rng, Size};
use second::machine::{self, Date, Settings, State, Time};

/// Dates and times of a date: one of either, few, and the most.
const SHAPES: [(u32, u32); 9] = [(1, 1), (1, 5), (2, 1), (2, 3), (4, 4), (5, 7), (3, 96), (400, 1), (400, 2)];

/// Settings with one visitor and one transport for each date up to three.
fn settings(dates: u32, times_per_date: u32, early: u32) -> Settings {
    let few = dates.min(3);
    let words = [dates, 1, times_per_date, few, 1, 1, 1, 2, few, early, 4];
    Settings::from_words(&words).expect("settings")
}

/// The engine's answer to one request beside the machine's; the book shows the machine's state.
fn asked(book: &mut [u32], state: &mut State, words: [u32; 7]) -> u32 {
    let answer = caviar::request(book, Request::from_words(words));
    let expected = machine::step(state, &machine::Request::from_words(words));
    assert_eq!(answer.words(), expected.words(), "{words:?} {:?}", state.settings);
    answer.number
}

/// The dates at whose edges rides are tried: the first two, one between, and the last two.
fn some_dates(rng: &mut Rng, dates: u32) -> Vec<u32> {
    let mut some = vec![0, 1, rng.below(dates), dates.saturating_sub(2), dates - 1];
    some.retain(|date| *date < dates);
    some.sort_unstable();
    some.dedup();
    some
}

/// For one number of early times: the visitor has leave on one date alone. A ride is tried at each time of that date, at
/// the times beside it, and over all of them; then leave is ended and the visitor removed on this date and those beside.
fn rides_of_a_date(state: &mut State, date: u32, answered: &mut Counts<(u32, u32)>) {
    let s = state.settings.clone();
    let mut book = book::words(state);
    let own: Vec<u32> = s.times_of(Date(date)).map(|Time(time)| time).collect();
    let (first, last) = (own[0], own[own.len() - 1]);
    let (before, behind) = (first.saturating_sub(1), (last + 1).min(s.times() - 1));
    let mut requests = vec![[1, 0, 0, date, date, 0, 0]];
    requests.extend([before, behind].map(|time| [6, 0, 0, time, time, 0, 0]));
    requests.extend([[6, 0, 0, before, last, 0, 0], [6, 0, 0, first, behind, 0, 0]]);
    requests.extend((before..=behind).map(|time| [6, 0, 0, time, time, 0, 0]));
    let dates = date.saturating_sub(1)..=(date + 1).min(s.dates - 1);
    for kind in [2, 3, 2] {
        requests.extend(dates.clone().map(|other| [kind, 0, 0, other, other, 0, 0]));
    }
    for request in requests {
        answered.add((request[0], asked(&mut book, state, request)));
    }
    assert!(book == book::words(state), "{s:?}");
}

#[test]
fn every_number_of_early_times() {
    let mut rng = Rng::new(seed(80));
    let mut answered = Counts::new();
    for (dates, times_per_date) in SHAPES {
        for early in 0..times_per_date {
            let settings = settings(dates, times_per_date, early);
            let mut book = vec![rng.word(); caviar::book_len(&settings.words())];
            assert_eq!(book.len() as u64, book::length(&settings));
            assert_eq!(caviar::lay(&settings.words(), &mut book).words(), [0, 0, 0]);
            assert!(book == book::words(&State::empty(settings.clone())));
            for date in some_dates(&mut rng, dates) {
                rides_of_a_date(&mut State::empty(settings.clone()), date, &mut answered);
            }
        }
    }
    println!("seed {}: rides of a date, by kind and number {answered}", seed(80));
    answered.assert_each([(6, 0), (6, 9), (6, 11), (2, 0), (2, 18), (3, 0)], 300);
}

/// A full book of each number of early times, checked with this and with other numbers: rides then belong to other dates.
#[test]
fn other_early_times() {
    let mut rng = Rng::new(seed(81));
    let mut answered = Counts::new();
    for _ in 0..times(150) {
        let settings = sites::site_within(&mut rng, Size::Any, 20_000);
        let percent = rng.pick(&[3, 20, 60]);
        let lawful = full_book(&mut rng, &settings, percent);
        let most = settings.times_per_date;
        let mut others: Vec<u32> = (0..most.min(8)).map(|_| rng.below(most)).collect();
        others.extend([0, most - 1, settings.early, most, too_early(&mut rng, most)]);
        for early in others {
            let mut changed = lawful.clone();
            changed[9] = early;
            let answer = caviar::check(&changed);
            assert_eq!(answer.words(), book::check(&changed).words(), "{settings:?}, {early} early times");
            answered.add(answer.number);
        }
    }
    println!("seed {}: full books with other early times, by number {answered}", seed(81));
    answered.assert_each(0..=2, 50);
}

/// E must be below Q wherever settings are read; words without it are too few.
#[test]
fn ranges_of_early_times() {
    for most in 1..=96 {
        for (early, good) in [(0, true), (most - 1, true), (most, false), (most + 1, false), (u32::MAX, false)] {
            let words = [2, 1, most, 1, 1, 1, 1, 1, 1, early, 4];
            let length = book::book_len(&words);
            assert_eq!((caviar::book_len(&words) as u64, length > 0), (length, good), "{words:?}");
            let mut book = vec![7; length.max(11) as usize];
            assert_eq!(caviar::lay(&words, &mut book).words(), [if good { 0 } else { 24 }, 0, 0], "{words:?}");
            let needed = book::book_len(&[2, 1, most, 1, 1, 1, 1, 1, 1, 0, 4]) as usize;
            let mut fresh = [&words[..], &vec![0; needed - words.len()]].concat();
            assert_eq!(caviar::check(&fresh).words(), [u32::from(!good), 0, 0], "{words:?}");
            fresh.remove(9);
            assert_eq!(caviar::check(&fresh).words(), book::check(&fresh).words(), "{words:?} without early times");
        }
        assert_eq!(
            caviar::book_len(&[2, 1, most, 1, 1, 1, 1, 1, 1, 4]),
            0,
            "settings of the length without early times"
        );
    }
    for early in [0, 1, u32::MAX] {
        assert_eq!(caviar::book_len(&[2, 1, 0, 1, 1, 1, 1, 1, 1, early, 4]), 0, "no time a date");
    }
}

/// Lists on sites with 96 times a date, most of them early or few, beside the machine.
#[test]
fn lists_with_many_times() {
    let mut rng = Rng::new(seed(82));
    let mut answered = Counts::new();
    for turn in 0..times(60) {
        let early = [95, 94, 48, 1, 0, rng.below(96)][turn % 6];
        let words = [rng.between(1, 4), 1, 96, 6, 2, 1, 1, 2, 3, early, 4];
        let mut state = State::empty(Settings::from_words(&words).expect("settings"));
        let start: Vec<machine::Request> =
            (0..6).map(|visitor| machine::Request::from_words([1, 0, visitor, 0, visitor % words[0], 0, 0])).collect();
        machine::run(&mut state, &start);
        let mut book = book::words(&state);
        for request in list(&mut rng, &mut state.clone(), 120, Mix::USUAL) {
            let number = asked(&mut book, &mut state, request.words());
            if matches!(request.kind, 2 | 3 | 6) {
                answered.add((request.kind, number));
            }
        }
        assert!(book == book::words(&state));
    }
    println!("seed {}: lists with 96 times a date, by kind and number {answered}", seed(82));
    answered.assert_each([(2, 0), (2, 18), (3, 0), (6, 0), (6, 9)], 20);
}

/// A guest who checked out on Monday (date 0) and takes a taxi at the first time of Tuesday, which is time 4.
#[test]
fn a_taxi_before_breakfast() {
    let leave_on_monday = [[1, 0, 0, 0, 0, 0, 0]];
    let taxi = Request::from_words([6, 0, 0, 4, 4, 0, 0]);
    for (early, answer) in [(0, [9, 4, 0]), (1, [0, 0, 0])] {
        let state = state_after(&[2, 1, 4, 1, 1, 1, 1, 1, 1, early, 4], &leave_on_monday);
        let mut book = book::words(&state);
        assert_eq!(caviar::request(&mut book, taxi).words(), answer);
        assert_eq!(caviar::check(&book).words(), [0, 0, 0]);
    }
}

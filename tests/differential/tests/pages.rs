//! The porter's page against the second program: answer, every byte of the lent page, and the book.

use differential::{seed, times, Counts};
use second::book;
use second::gen::pages::{junk_page, lent, Lent, Sort};
use second::gen::requests::opening;
use second::gen::{full_book, list, sites, Mix, Rng, Size};
use second::machine::{run, Date, Settings, State};
use second::page::{lines, page, LINE_BYTES};

/// The engine's answer to a call, which must be the second program's, as must the page; a refusal leaves
/// the page, and no call changes the book.
fn paged(call: &Lent) -> u32 {
    let (mut ours, mut theirs) = (call.page.clone(), call.page.clone());
    let words = call.book.clone();
    let answer = caviar::page(&words, call.date, &mut ours);
    assert_eq!(answer.words(), page(&call.book, call.date, &mut theirs).words(), "date {}", call.date);
    assert!(ours == theirs, "date {}: {:?}", call.date, String::from_utf8_lossy(&ours));
    assert!(words == call.book);
    assert!(answer.number == 0 || ours == call.page);
    answer.number
}

/// The lines that the state has on the date.
fn page_bytes(state: &State, date: u32) -> Vec<u8> {
    lines(state, Date(date)).iter().flat_map(|line| line.bytes()).collect()
}

/// Books from lists, busy and full ones, damaged ones, dates past the last, pages of every length.
#[test]
fn pages_of_all_sorts() {
    let mut rng = Rng::new(seed(50));
    let mut sorts = Counts::new();
    let calls = times(12_000);
    for _ in 0..calls {
        let call = lent(&mut rng);
        let number = paged(&call);
        Sort::of(&call, number).into_iter().for_each(|sort| sorts.add(sort));
    }
    println!("seed {}: {calls} pages, by sort: {sorts}", seed(50));
    sorts.assert_each(Sort::all(), 30);
    sorts.assert_each([1, 2, 7, 26].map(Sort::Refused), 500);
    sorts.assert_each((0..3).map(Sort::Lines), 500);
}

/// The pages of every date along a list of requests, each as the book is then.
#[test]
fn pages_along_a_list() {
    let mut rng = Rng::new(seed(51));
    let mut seen = Counts::new();
    for _ in 0..times(60) {
        let settings = sites::site_within(&mut rng, Size::Small, 2000);
        let mut state = State::empty(settings.clone());
        run(&mut state, &opening(&mut rng, &settings));
        for _ in 0..20 {
            list(&mut rng, &mut state, 6, Mix::FILLING);
            let words = book::words(&state);
            for date in 0..settings.dates {
                let count = lines(&state, Date(date)).len();
                let call = Lent { book: words.clone(), date, page: junk_page(&mut rng, count) };
                seen.add((paged(&call), count.min(4)));
            }
        }
    }
    println!("seed {}: pages along lists, by number and lines (4 for more): {seen}", seed(51));
    seen.assert_each((0..5).map(|count| (0, count)).chain((1..5).map(|count| (26, count))), 50);
}

/// Every length from nothing to some bytes more than the lines need.
#[test]
fn every_length() {
    let mut rng = Rng::new(seed(52));
    let mut numbers = Counts::new();
    let settings = Settings::from_words(&[3, 3, 1, 9, 4, 4, 1, 1, 1, 0, 5]).expect("settings");
    for _ in 0..times(20) {
        let words = full_book(&mut rng, &settings, 60);
        let date = rng.below(3);
        let needed = page_bytes(&book::shown(&words).expect("a lawful book"), date).len();
        for length in 0..needed + 2 * LINE_BYTES {
            let call = Lent { book: words.clone(), date, page: vec![(length % 256) as u8; length] };
            let number = paged(&call);
            assert_eq!(number == 26, length < needed);
            numbers.add(number);
        }
    }
    println!("seed {}: pages of every length, by number {numbers}", seed(52));
    numbers.assert_each([0, 26], 1000);
}

/// The largest book with every room in use, first, last and other dates: the widest lines and the longest page.
#[test]
fn largest_book() {
    let mut rng = Rng::new(seed(53));
    let settings = sites::largest(rng.between(1, 95));
    let full = full_book(&mut rng, &settings, 100);
    let state = book::shown(&full).expect("a lawful book");
    let mut seen = Counts::new();
    for date in [0, 399, rng.below(400), rng.below(400)] {
        let expected = page_bytes(&state, date);
        let mut ours = vec![7; expected.len() + 5];
        let answer = caviar::page(&full, date, &mut ours);
        assert_eq!(answer.words(), [0, 0, (expected.len() / LINE_BYTES) as u32]);
        assert!(ours[..expected.len()] == expected && ours[expected.len()..] == [7; 5]);
        let short = &mut ours[..expected.len() - 1];
        short.fill(7);
        assert_eq!(caviar::page(&full, date, short).words(), [26, 0, 0]);
        assert!(short.iter().all(|byte| *byte == 7));
        seen.add(expected.len());
    }
    assert_eq!(caviar::page(&full, 400, &mut [7; 31]).words(), [7, 0, 0]);
    println!("seed {}: pages of the largest book, by bytes {seen}", seed(53));
    seen.assert_each([caviar::MOST_PAGE], 4);
}

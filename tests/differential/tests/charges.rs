//! What meetings cost against the second program: number, place and 64 bits of cents; sums over all meetings and over parts
//! of the dates.

use caviar::{Charged, Tariff};
use differential::{seed, times, Counts};
use second::book;
use second::book::regions::{address, Name};
use second::charge::{self, charge};
use second::gen::charges::{dates, lent, some_state, tariff, Lent, Sort};
use second::gen::requests::state_after;
use second::gen::{full_book, sites, Rng};

fn ours(of: &charge::Tariff) -> Tariff {
    Tariff { room: of.room, seat: of.seat, percent: of.percent }
}

fn words(charged: Charged) -> [u64; 3] {
    [u64::from(charged.number), u64::from(charged.place), charged.value]
}

/// The engine's answer to a charge, which must be the second program's.
fn charged(call: &Lent) -> (u32, u64) {
    let Lent { book, meeting, first, last, tariff } = call;
    let told = caviar::charge(book, *meeting, *first, *last, ours(tariff));
    let expected = charge(book, *meeting, *first, *last, tariff).words();
    assert_eq!(words(told), expected, "{meeting} {first} {last} {tariff:?}");
    (told.number, told.value)
}

/// Books from lists, full and damaged ones, with meetings, dates and tariffs of all sorts.
#[test]
fn charges_of_all_sorts() {
    let mut rng = Rng::new(seed(100));
    let mut sorts = Counts::new();
    let charges = times(16_000);
    for _ in 0..charges {
        let call = lent(&mut rng);
        let (number, value) = charged(&call);
        Sort::of(&call, number, value).into_iter().for_each(|sort| sorts.add(sort));
    }
    println!("seed {}: {charges} charges, by sort: {sorts}", seed(100));
    sorts.assert_each(Sort::all(), 5);
    sorts.assert_each([1, 2, 6, 7, 31].map(Sort::Refused), 300);
    sorts.assert_each([Sort::Nine, Sort::Ten, Sort::More], 100);
}

/// Every percentage at every number of room-sessions about ten, with a rate that leaves halves: the site of rule 20.7.
#[test]
fn every_percentage() {
    let mut numbers = Counts::new();
    for sessions in 1..=12 {
        let (whole, rest) = (sessions / 2, sessions % 2);
        let mut requests = vec![[8, 0, 0, 0, 5, 0, 0], [14, 0, 0, 0, 2, 4, 9]];
        requests.extend((whole > 0).then_some([12, 0, 0, 0, whole - 1, 0, 1]));
        requests.extend((whole > 0).then_some([12, 1, 0, 0, whole - 1, 0, 2]));
        requests.extend((rest > 0).then_some([12, 1, 0, whole, whole, 0, 3]));
        let book = book::words(&state_after(&[3, 2, 2, 3, 2, 2, 1, 2, 1, 0, 4], &requests));
        for percent in 0..=101 {
            for room in [0, 1, 5, 15, 1001, 1_000_000] {
                let tariff = charge::Tariff { room, seat: 3, percent };
                let call = Lent { book: book.clone(), meeting: 0, first: 0, last: 2, tariff };
                let (number, value) = charged(&call);
                numbers.add((number, sessions >= 10));
                assert!(number != 0 || value >= 36, "the seats are never reduced");
            }
        }
    }
    println!("percentages by number and ten room-sessions {numbers}");
    numbers.assert_each([(0, true), (0, false), (31, true), (31, false)], 18);
}

/// With no reduction the charges of all meetings are all rooms and seats at their rates, and a charge is the sum over two
/// parts of its dates.
#[test]
fn sums_without_a_reduction() {
    let mut rng = Rng::new(seed(101));
    let mut seen = Counts::new();
    for _ in 0..times(1500) {
        let state = some_state(&mut rng);
        let (words, (first, last)) = (book::words(&state), dates(&mut rng, &state));
        let drawn = tariff(&mut rng);
        let of = Tariff { room: drawn.room.min(1_000_000), seat: drawn.seat.min(1_000_000), percent: 0 };
        let cost = |meeting, first, last| caviar::charge(&words, meeting, first, last, of).result().expect("a charge");
        let on = |date: u32| first <= date && date <= last;
        let rooms = state.conf.keys().filter(|entry| on(state.settings.date_of_session(entry.0).0)).count() as u64;
        let seats: u64 =
            state.lunch.iter().filter(|(entry, _)| on(entry.0 .0)).map(|(_, held)| u64::from(held.0)).sum();
        let all: u64 = (0..state.settings.meetings).map(|meeting| cost(meeting, first, last)).sum();
        assert_eq!(all, rooms * u64::from(of.room) + seats * u64::from(of.seat));
        let meeting = rng.below(state.settings.meetings);
        for k in first..last {
            assert_eq!(cost(meeting, first, last), cost(meeting, first, k) + cost(meeting, k + 1, last));
        }
        seen.add((rooms > 9, seats > 0));
    }
    println!("seed {}: sums by ten rooms and seats {seen}", seed(101));
    seen.assert_each([(true, true), (false, true), (false, false)], 20);
}

/// Charges on the largest book, every room of which one meeting holds, against the plain engine, which is itself tested
/// against the second program; over all dates they need 64 bits.
#[test]
fn largest_book() {
    let mut rng = Rng::new(seed(102));
    let settings = sites::largest(rng.between(0, 95));
    let mut book = full_book(&mut rng, &settings, 50);
    for session in 0..6400 {
        book[address(&settings, Name::Standing, session, 0)] |= 1;
        (0..64).for_each(|room| book[address(&settings, Name::Conf, session, room)] = 1);
    }
    assert_eq!(caviar::check(&book).words(), [0, 0, 0]);
    let most = Tariff { room: 1_000_000, seat: 0, percent: 0 };
    assert_eq!(caviar::charge(&book, 0, 0, 399, most).result(), Ok(409_600_000_000));
    let mut seen = Counts::new();
    for turn in 0..times(60) as u32 {
        let first = if turn % 2 == 0 { 0 } else { rng.below(400) };
        let last = if turn % 2 == 0 { 399 } else { rng.between(first, 399) };
        let meeting = if turn % 2 == 0 { 0 } else { rng.below(128) };
        let of = Tariff { room: 1_000_000 - rng.below(7), seat: 999_999, percent: rng.below(101) };
        let told = caviar::charge(&book, meeting, first, last, of);
        let expected = plain::charge(&book, meeting, first, last, [of.room, of.seat, of.percent]);
        assert_eq!((told.number, told.value), expected, "{meeting} {first} {last} {of:?}");
        seen.add(told.value > u64::from(u32::MAX));
    }
    println!("seed {}: charges on the largest book, by 64 bits {seen}", seed(102));
    seen.assert_each([true], 20);
}

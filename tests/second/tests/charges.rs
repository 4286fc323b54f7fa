//! What a meeting costs: a worked example, the ends of each question, and what the generator reaches.

use second::book::{self, words};
use second::charge::{charge, room_charge, Charged, Tariff};
use second::gen::charges::{lent, Sort};
use second::gen::requests::state_after;
use second::gen::Rng;
use std::collections::BTreeMap;

const SEED: u64 = 0xc057;
const CALLS: usize = 8000;

/// The site of rule 20.7.
fn example() -> Vec<u32> {
    let requests = [
        [8, 0, 0, 0, 5, 0, 0],
        [8, 1, 0, 4, 5, 0, 0],
        [12, 0, 0, 0, 5, 0, 0],
        [12, 1, 0, 0, 3, 0, 0],
        [12, 1, 1, 4, 5, 0, 0],
        [14, 0, 0, 0, 0, 3, 0],
        [14, 0, 0, 2, 2, 2, 0],
        [14, 0, 1, 2, 2, 2, 0],
    ];
    words(&state_after(&[3, 2, 2, 3, 2, 2, 1, 2, 1, 0, 4], &requests))
}

fn tariff(room: u32, seat: u32, percent: u32) -> Tariff {
    Tariff { room, seat, percent }
}

/// The table of docs/RULES.md (rule 20.7): meeting, dates, tariff; number and value.
#[test]
fn the_example_of_the_rules() {
    let book = example();
    for (meeting, first, last, of, told) in [
        (0, 0, 2, tariff(1001, 1250, 25), [0, 13_758]),
        (0, 0, 1, tariff(1001, 1250, 25), [0, 11_758]),
        (0, 2, 2, tariff(1001, 1250, 25), [0, 4502]),
        (1, 0, 2, tariff(1001, 1250, 25), [0, 4502]),
        (0, 0, 2, tariff(1001, 1250, 0), [0, 16_260]),
        (0, 0, 2, tariff(1001, 1250, 100), [0, 6250]),
        (1, 0, 1, tariff(1001, 1250, 0), [0, 0]),
        (2, 2, 1, tariff(1001, 1250, 101), [6, 0]),
        (0, 2, 1, tariff(1001, 1250, 101), [7, 0]),
        (0, 0, 3, tariff(1001, 1250, 25), [7, 0]),
        (1, 0, 1, tariff(1_000_001, 1250, 25), [31, 0]),
        (1, 0, 1, tariff(1001, 1_000_001, 25), [31, 0]),
        (1, 0, 1, tariff(1001, 1250, 101), [31, 0]),
        (1, 0, 1, tariff(1_000_000, 1_000_000, 100), [0, 0]),
    ] {
        let [number, place, value] = charge(&book, meeting, first, last, &of).words();
        assert_eq!(([number, value], place), (told, 0), "{meeting} {first} {last} {of:?}");
    }
    assert_eq!(charge(&book[1..], 9, 9, 1, &tariff(u32::MAX, 0, 0)), Charged::Refused(1));
    let mut unlawful = book.clone();
    unlawful[11] = 8;
    assert_eq!(charge(&unlawful, 9, 9, 1, &tariff(u32::MAX, 0, 0)), Charged::Refused(2));
    assert_eq!(book::check(&book).words(), [0, 0, 0]);
}

/// Ten room-sessions are reduced and nine are not; halves of a cent go up, whatever the rest.
#[test]
fn the_reduction() {
    assert_eq!([9, 10, 11].map(|sessions| room_charge(sessions, &tariff(100, 0, 50))), [900, 500, 550]);
    assert_eq!(room_charge(10, &tariff(1, 0, 0)), 10);
    assert_eq!(room_charge(10, &tariff(1, 0, 95)), 1, "half a cent goes up");
    assert_eq!(room_charge(10, &tariff(1, 0, 96)), 0, "0.4 goes down");
    assert_eq!(room_charge(11, &tariff(1, 0, 95)), 1, "0.55 goes up");
    assert_eq!(room_charge(30, &tariff(1, 0, 95)), 2, "1.5 goes up");
    assert_eq!(room_charge(29, &tariff(1, 0, 95)), 1, "1.45 goes down");
    assert_eq!(room_charge(10, &tariff(1_000_000, 0, 100)), 0);
    for sessions in 10..200 {
        for percent in 0..=100 {
            let rate = (sessions * 37 + u64::from(percent)) as u32 % 1009;
            let reduced = room_charge(sessions, &tariff(rate, 0, percent)) as i64;
            let exact = (sessions * u64::from(rate) * u64::from(100 - percent)) as i64;
            assert!((-50..50).contains(&(exact - 100 * reduced)), "nearest, halves up: {sessions} {rate} {percent}");
        }
    }
}

/// The largest charge that a site can have is far from the greatest of 64 bits.
#[test]
fn the_largest_charge() {
    let most = tariff(1_000_000, 1_000_000, 0);
    assert_eq!(room_charge(6400 * 64, &most), 409_600_000_000);
    assert!(409_600_000_000_u64.checked_mul(100).is_some());
}

#[test]
fn the_generator_reaches_every_sort() {
    let mut rng = Rng::new(SEED);
    let mut sorts = BTreeMap::new();
    for _ in 0..CALLS {
        let call = lent(&mut rng);
        let [number, place, value] = charge(&call.book, call.meeting, call.first, call.last, &call.tariff).words();
        assert_eq!(place, 0);
        for sort in Sort::of(&call, number as u32, value) {
            *sorts.entry(sort).or_insert(0) += 1;
        }
    }
    println!("seed {SEED}: {CALLS} charges {sorts:?}");
    for sort in Sort::all() {
        let met = sorts.get(&sort).copied().unwrap_or(0);
        assert!(met >= 5, "{sort:?} was met {met} times");
    }
}

//! Early times: the guest who leaves before breakfast, the dates of times, one rule broken alone, and what the
//! generator reaches.

use second::book::{self, book_len, broken, check, lay, words, Rule};
use second::frames::{frames, words_line};
use second::gen::early::Sort;
use second::gen::requests::{opening, state_after};
use second::gen::sites::{bad_settings, too_early};
use second::gen::{list, site, Mix, Rng, Size};
use second::machine::questions::first_no;
use second::machine::{run, step, Answer, Date, Request, Settings, State, Time};
use std::collections::{BTreeMap, BTreeSet};

const SEED: u64 = 0xea71;

/// Three dates of four times, two visitors and two transports, with so many early times.
fn taxis(early: u32) -> [u32; 11] {
    [3, 1, 4, 2, 1, 1, 1, 1, 2, early, 4]
}

fn asked(state: &mut State, request: [u32; 7]) -> [u32; 3] {
    step(state, &Request::from_words(request)).words()
}

/// Visitor 0 has leave on date 0 (Monday) alone and wants a taxi at time 4, the first of date 1 (Tuesday).
fn monday(early: u32) -> State {
    state_after(&taxis(early), &[[1, 0, 0, 0, 0, 0, 0]])
}

#[test]
fn a_taxi_before_breakfast() {
    let taxi = [6, 0, 0, 4, 4, 0, 0];
    assert_eq!(asked(&mut monday(0), taxi), [9, 4, 0], "time 4 is Tuesday's");
    let mut state = monday(1);
    assert_eq!(asked(&mut state, taxi), [0, 0, 0], "Tuesday's first time belongs to Monday");
    assert_eq!(asked(&mut state, [6, 1, 0, 5, 5, 0, 0]), [9, 5, 0], "its second does not");
    assert_eq!(asked(&mut state, [2, 0, 0, 0, 0, 0, 0]), [18, 0, 0], "the ride is a booking of Monday");
    assert_eq!(asked(&mut state, [2, 0, 0, 1, 1, 0, 0]), [0, 0, 0], "and none of Tuesday");
    assert_eq!(asked(&mut state, [3, 0, 0, 1, 2, 0, 0]), [0, 0, 0], "a removal on the other dates leaves it");
    assert_eq!(check(&words(&state)), Answer::Done(0));
    assert_eq!(asked(&mut state, [3, 0, 0, 0, 0, 0, 0]), [0, 0, 1], "and one of Monday erases it");
}

/// The example of docs/RULES.md (rule 13.5).
#[test]
fn the_example_of_the_rules() {
    let mut state = State::empty(Settings::from_words(&taxis(1)).expect("good settings"));
    for (request, answer) in [
        ([1, 0, 0, 0, 0, 0, 0], [0, 0, 0]),
        ([6, 0, 0, 3, 5, 0, 0], [9, 5, 0]),
        ([6, 0, 0, 4, 4, 0, 0], [0, 0, 0]),
        ([1, 0, 1, 1, 2, 0, 0], [0, 0, 0]),
        ([6, 1, 1, 4, 5, 0, 0], [9, 4, 0]),
        ([6, 1, 1, 8, 11, 0, 0], [0, 0, 0]),
        ([2, 0, 0, 0, 0, 0, 0], [18, 0, 0]),
        ([2, 0, 0, 1, 1, 0, 0], [0, 0, 0]),
        ([3, 0, 1, 2, 2, 0, 0], [0, 0, 3]),
        ([2, 0, 1, 1, 1, 0, 0], [18, 1, 0]),
        ([3, 0, 0, 0, 0, 0, 0], [0, 0, 1]),
    ] {
        assert_eq!(asked(&mut state, request), answer, "{request:?}");
    }
}

/// With leave on Tuesday alone it is the other way round.
#[test]
fn leave_on_the_date_of_the_number_is_not_enough() {
    let tuesday = |early| state_after(&taxis(early), &[[1, 0, 0, 1, 1, 0, 0]]);
    assert_eq!(asked(&mut tuesday(0), [6, 0, 0, 4, 7, 0, 0]), [0, 0, 0]);
    assert_eq!(asked(&mut tuesday(3), [6, 0, 0, 4, 7, 0, 0]), [9, 4, 0]);
    assert_eq!(asked(&mut tuesday(3), [6, 0, 0, 7, 10, 0, 0]), [0, 0, 0], "Tuesday's last and three of Wednesday's");
    assert_eq!(asked(&mut tuesday(3), [6, 0, 0, 7, 11, 0, 0]), [9, 11, 0]);
}

/// The dates of all times by hand: the first date is longer by the early times, the last shorter.
#[test]
fn the_dates_of_times() {
    let dates = |words: &[u32]| {
        let s = Settings::from_words(words).expect("good settings");
        (0..s.times()).map(|time| s.date_of_time(Time(time)).0).collect::<Vec<u32>>()
    };
    assert_eq!(dates(&taxis(0)), [0, 0, 0, 0, 1, 1, 1, 1, 2, 2, 2, 2]);
    assert_eq!(dates(&taxis(1)), [0, 0, 0, 0, 0, 1, 1, 1, 1, 2, 2, 2]);
    assert_eq!(dates(&taxis(3)), [0, 0, 0, 0, 0, 0, 0, 1, 1, 1, 1, 2]);
    assert_eq!(dates(&[1, 1, 3, 1, 1, 1, 1, 1, 1, 2, 1]), [0, 0, 0], "one date has all its times");
    assert_eq!(dates(&[3, 1, 1, 1, 1, 1, 1, 1, 1, 0, 1]), [0, 1, 2], "one time a date");
}

/// What the rule says, in other words: of the times that are numbered under a date the first so many belong to the
/// date before, if there is one. Without early times that is time / times of a date.
fn date_in_words(s: &Settings, time: u32) -> u32 {
    let (under, at) = (time / s.times_per_date, time % s.times_per_date);
    if at < s.early && under > 0 {
        under - 1
    } else {
        under
    }
}

/// For all numbers of early times: the date of each time, the times of each date, and how many they are.
#[test]
fn every_number_of_early_times() {
    for (dates, times) in [(1, 1), (1, 2), (1, 96), (2, 1), (2, 3), (5, 4), (3, 96), (400, 1), (400, 2)] {
        for early in 0..times {
            let words = [dates, 1, times, 1, 1, 1, 1, 1, 1, early, 1];
            let s = Settings::from_words(&words).expect("good settings");
            assert_eq!(s.words(), words);
            let mut next = 0;
            for date in 0..dates {
                let of_date: Vec<u32> = s.times_of(Date(date)).map(|time| time.0).collect();
                let expected: Vec<u32> = (0..s.times()).filter(|time| date_in_words(&s, *time) == date).collect();
                assert_eq!(of_date, expected, "{words:?}, date {date}");
                assert!(of_date.iter().all(|time| s.date_of_time(Time(*time)) == Date(date)));
                assert_eq!(of_date.first(), Some(&next), "no date is without times");
                next += of_date.len() as u32;
            }
            assert_eq!(next, s.times());
            assert_eq!(s.times_of(Date(0)).count() as u32, if dates == 1 { times } else { times + early });
            assert!(dates == 1 || s.times_of(Date(dates - 1)).count() as u32 == times - early);
        }
    }
}

/// E has to be below Q, in laying, in checking and in the program.
#[test]
fn too_many_early_times() {
    for early in [4, 5, 96, 97, 1 << 31, u32::MAX] {
        let words = taxis(early);
        assert_eq!(book_len(&words), 0);
        assert_eq!(lay(&words, &mut [7; 900]).words(), [24, 0, 0]);
        assert_eq!(frames(&words_line(&words)), b"000000180000000000000000\n");
        let mut book = words_of(3);
        book[9] = early;
        assert_eq!(check(&book).words(), [1, 0, 0]);
    }
    assert_eq!(frames(&words_line(&taxis(3))), b"");
    assert_eq!(book_len(&[3, 1, 1, 2, 1, 1, 1, 1, 2, 1, 4]), 0, "one time a date: none is early");
    assert_eq!(book_len(&[3, 1, 0, 2, 1, 1, 1, 1, 2, 0, 4]), 0, "no time a date");
    assert_eq!(book_len(&[3, 1, 0, 2, 1, 1, 1, 1, 2, u32::MAX, 4]), 0);
}

fn words_of(early: u32) -> Vec<u32> {
    words(&State::empty(Settings::from_words(&taxis(early)).expect("good settings")))
}

/// Settings without the tenth word are too short by one, and a book of nine words is none.
#[test]
fn settings_of_the_old_length() {
    let old = [3, 1, 4, 2, 1, 1, 1, 1, 2, 4];
    assert_eq!(book_len(&old), 0);
    assert_eq!(frames(&words_line(&old)), b"000000180000000000000000\n");
    assert_eq!(check(&old[..9]).words(), [1, 0, 0]);
    let mut book = words_of(0);
    book.remove(9);
    assert_eq!(check(&book).words(), [1, 0, 0]);
}

/// The law of rides alone: the same book with another number of early times, and nothing else, breaks it.
#[test]
fn the_law_reads_early_times() {
    let mut state = monday(1);
    assert_eq!(asked(&mut state, [6, 0, 0, 3, 4, 0, 0]), [0, 0, 0]);
    let lawful = words(&state);
    for (early, answer) in [(0, 2), (1, 0), (2, 0), (3, 0)] {
        let mut book = lawful.clone();
        book[9] = early;
        assert_eq!(check(&book).words(), [answer, 0, 0], "{early} early times");
        let settings = Settings::from_words(&taxis(early)).expect("good settings");
        let rules = if answer == 0 { BTreeSet::new() } else { BTreeSet::from([Rule::RideGuestHasLeave]) };
        assert_eq!(broken(settings, &book), rules);
    }
}

/// Question 9 of kind 6, question 18 and the change of kind 3 over random lists, answered a second time by the date
/// in words: with 0 early times that is the date as it was before there were any.
#[test]
fn lists_with_and_without_early_times() {
    let mut rng = Rng::new(SEED);
    let mut met: BTreeMap<(u32, bool, u32), u32> = BTreeMap::new();
    for turn in 0..500 {
        let mut settings = site(&mut rng, Size::Any);
        if turn % 2 == 0 {
            settings.early = 0;
        }
        let mut state = State::empty(settings);
        let start = opening(&mut rng, &state.settings);
        run(&mut state, &start);
        for request in list(&mut rng, &mut state.clone(), 60, Mix::USUAL) {
            let before = state.clone();
            let answer = step(&mut state, &request);
            if [2, 3, 6].contains(&request.kind) && first_no(&before, &request).is_none_or(|(number, _)| number > 8) {
                by_words(&before, &request, answer, &state);
                *met.entry((request.kind, before.settings.early > 0, answer.number())).or_default() += 1;
            }
        }
    }
    println!("seed {SEED}: by kind, early times and answer {met:?}");
    for early in [false, true] {
        for sort in [(2, early, 0), (2, early, 18), (3, early, 0), (6, early, 0), (6, early, 9)] {
            assert!(met.get(&sort).is_some_and(|count| *count >= 50), "{sort:?}");
        }
    }
}

/// Compares an answer and a change with what the date in words gives.
fn by_words(before: &State, r: &Request, answer: Answer, after: &State) {
    let s = &before.settings;
    let date = |time: &Time| date_in_words(s, time.0);
    let theirs = |meant: &dyn Fn(u32) -> bool| {
        let hotel = before.hotel.iter().filter(|(on, _, b)| meant(on.0) && *b == r.b).count();
        let ride = before.ride.iter().filter(|(time, _, b)| meant(date(time)) && *b == r.b).count();
        let attend = before.attend.iter().filter(|(at, _, b)| meant(s.date_of_session(*at).0) && *b == r.b).count();
        hotel + ride + attend
    };
    match r.kind {
        6 => {
            let no = r.times().find(|time| !before.leave.contains(&(Date(date(time)), r.b)));
            let nine = no.map(|time| Answer::Refused { number: 9, place: time.0 });
            assert_eq!(nine.unwrap_or(answer), answer, "{r:?}");
            assert!(nine.is_some() || answer.number() != 9, "{r:?}");
        }
        2 => {
            let no = (r.first..=r.last).find(|on| theirs(&|date| date == *on) > 0);
            let expected = no.map_or(Answer::Done(0), |place| Answer::Refused { number: 18, place });
            assert_eq!(answer, expected, "{r:?}");
        }
        _ => {
            let erased = theirs(&|date| r.first <= date && date <= r.last);
            assert_eq!(answer, Answer::Done(erased as u32), "{r:?}");
            let left = before.ride.iter().filter(|(time, _, b)| *b == r.b && !r.dates().any(|on| on.0 == date(time)));
            assert!(left.eq(after.ride.iter().filter(|(_, _, b)| *b == r.b)), "{r:?}");
        }
    }
}

/// A site with early times answers a request of rides as one without answers it at times so many earlier.
#[test]
fn early_times_move_the_rides() {
    let mut rng = Rng::new(SEED + 1);
    let mut rides = BTreeMap::new();
    for _ in 0..200 {
        let settings = site(&mut rng, Size::Small);
        let early = settings.early;
        let mut plain = State::empty(Settings { early: 0, ..settings.clone() });
        let mut moved = State::empty(settings);
        let start = opening(&mut rng, &plain.settings);
        run(&mut plain, &start);
        run(&mut moved, &start);
        for request in list(&mut rng, &mut plain.clone(), 60, Mix::USUAL) {
            let of_times = request.kind == 6 || request.kind == 7;
            let inside = request.first <= request.last && request.last < plain.settings.times().saturating_sub(early);
            if of_times && !inside {
                continue;
            }
            let shift = if of_times { early } else { 0 };
            let later = Request { first: request.first + shift, last: request.last + shift, ..request };
            let answer = match step(&mut plain, &request) {
                Answer::Refused { number, place } if number > 8 => Answer::Refused { number, place: place + shift },
                other => other,
            };
            assert_eq!(step(&mut moved, &later), answer, "{request:?}, {early} early times");
            *rides.entry((of_times, early > 0, answer.number() == 0)).or_insert(0) += 1;
        }
        let back = moved.ride.iter().map(|(time, a, b)| (Time(time.0 - early), *a, *b));
        assert!(back.eq(plain.ride.iter().copied()));
        assert_eq!((&moved.leave, &moved.hotel, &moved.attend), (&plain.leave, &plain.hotel, &plain.attend));
    }
    println!("seed {}: by rides, early times and done {rides:?}", SEED + 1);
    for sort in [(true, true, true), (true, true, false), (false, true, true)] {
        assert!(rides.get(&sort).is_some_and(|count| *count >= 100), "{sort:?}");
    }
}

/// Lists reach every sort of case; a damaged book breaks the law of rides where leave is only beside the date.
#[test]
fn the_generator_reaches_every_sort() {
    let mut rng = Rng::new(SEED + 2);
    let mut sorts: BTreeMap<Sort, u32> = BTreeMap::new();
    let mut beside = 0;
    for _ in 0..400 {
        let mut state = State::empty(site(&mut rng, Size::Any));
        let start = opening(&mut rng, &state.settings);
        run(&mut state, &start);
        for request in list(&mut rng, &mut state.clone(), 60, Mix::USUAL) {
            Sort::of(&state, &request).into_iter().for_each(|sort| *sorts.entry(sort).or_default() += 1);
            step(&mut state, &request);
        }
        if let Some(book) = second::gen::damaged(&mut rng, &state, Rule::RideGuestHasLeave) {
            let damaged = book::read(state.settings.clone(), &book).state;
            let without = |(time, _, visitor): &&(Time, u32, u32)| {
                let on = |date: u32| damaged.leave.contains(&(Date(date), *visitor));
                let date = damaged.settings.date_of_time(*time).0;
                !on(date) && on(time.0 / damaged.settings.times_per_date)
            };
            beside += u32::from(damaged.ride.iter().any(|ride| without(&ride)));
        }
    }
    println!("seed {}: sorts {sorts:?}, books with leave under the number alone {beside}", SEED + 2);
    for sort in Sort::ALL {
        assert!(sorts.get(&sort).is_some_and(|count| *count >= 10), "{sort:?}");
    }
    assert!(beside >= 20);
}

/// Bad settings: each fault of the early times occurs, and all of them are refused.
#[test]
fn bad_settings_are_bad() {
    let mut rng = Rng::new(SEED + 3);
    let mut faults = BTreeMap::new();
    for _ in 0..4000 {
        let words = bad_settings(&mut rng);
        assert_eq!(book_len(&words), 0, "{words:?}");
        let whole = words.len() > 10 && words.len() == 10 + words[6] as usize;
        let old = words.len() > 9 && words.len() == 9 + words[6] as usize;
        let early = words.get(9).zip(words.get(2)).map(|(early, times)| early.cmp(times));
        *faults.entry((whole, old, early)).or_insert(0) += 1;
        let times = rng.between(1, 96);
        assert!(too_early(&mut rng, times) >= times);
    }
    println!("seed {}: by length, old length and early times beside times {faults:?}", SEED + 3);
    use std::cmp::Ordering::{Equal, Greater};
    let counted = |key| faults.get(&key).copied().unwrap_or(0);
    assert!(counted((true, false, Some(Equal))) >= 50 && counted((true, false, Some(Greater))) >= 50);
    assert!(faults.iter().filter(|((_, old, _), _)| *old).map(|(_, count)| *count).sum::<i32>() >= 100);
}

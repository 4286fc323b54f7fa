//! The plain engine against the second program: lists, raw and damaged books, byte streams.

use plain::{Request, Site};
use second::book;
use second::calls::{on_book, Call};
use second::gen::asking;
use second::gen::charges;
use second::gen::early;
use second::gen::orders;
use second::gen::parties::{lent, Sort};
use second::gen::{
    clean_stream, damaged, damaged_stream, deep_state, full_book, junk_book, list, list_from_fresh, site, sites, Mix,
    Rng, Size,
};
use second::machine::{self, Settings, State};
use std::collections::BTreeMap;
use std::fmt::Debug;

/// A number from the environment: SEED for another run, SCALE for a run so many times as long.
fn number(name: &str, usual: u64) -> u64 {
    std::env::var(name).ok().and_then(|word| word.parse().ok()).unwrap_or(usual)
}

fn seed(test: u64) -> u64 {
    number("SEED", 0xb00c) + test
}

fn times(usual: u64) -> u64 {
    usual * number("SCALE", 1)
}

fn count<Key: Ord>(counts: &mut BTreeMap<Key, u32>, key: Key) {
    *counts.entry(key).or_default() += 1;
}

/// Each of the keys was counted at least so often.
fn want<Key: Ord + Debug>(counts: &BTreeMap<Key, u32>, keys: impl IntoIterator<Item = Key>, least: u32) {
    for key in keys {
        let met = counts.get(&key).copied().unwrap_or(0);
        assert!(met >= least, "{key:?} was met {met} times, wanted {least}");
    }
}

/// Counts the kinds done and the numbers refused of a list.
fn count_list(done: &mut BTreeMap<u32, u32>, refused: &mut BTreeMap<u32, u32>, list: &[u32], answers: &[u32]) {
    for (request, answer) in list.chunks_exact(7).zip(answers.chunks_exact(3)) {
        match answer[0] {
            0 => count(done, request[0]),
            number => count(refused, number),
        }
    }
}

fn asked(requests: &[machine::Request]) -> Vec<u32> {
    requests.iter().flat_map(|request| request.words()).collect()
}

/// Whole lists from fresh, through `serve`: answers and every word.
#[test]
fn lists_from_fresh() {
    let mut rng = Rng::new(seed(0));
    let (mut done, mut refused, mut sorts) = (BTreeMap::new(), BTreeMap::new(), BTreeMap::new());
    let lists = times(2500);
    for _ in 0..lists {
        let settings = sites::site_within(&mut rng, Size::Any, 60_000);
        let requests = list_from_fresh(&mut rng, settings.clone(), 80, Mix::USUAL);
        let words = settings.words();
        let length = book::length(&settings) as usize;
        let (mut ours, mut theirs) = (vec![7; length], vec![8; length]);
        let (mut our_answers, mut their_answers) = (vec![9; 241], vec![9; 241]);
        let ours_done = plain::serve(&words, &mut ours, &asked(&requests), &mut our_answers);
        let theirs_done = book::serve(&words, &mut theirs, &asked(&requests), &mut their_answers);
        assert_eq!(ours_done.words(), theirs_done.words());
        assert_eq!(our_answers, their_answers, "{settings:?}");
        assert!(ours == theirs, "{settings:?}");
        count_list(&mut done, &mut refused, &asked(&requests), &our_answers);
        let mut state = State::empty(settings);
        for request in &requests {
            early::Sort::of(&state, request).into_iter().for_each(|sort| count(&mut sorts, sort));
            machine::step(&mut state, request);
        }
    }
    println!("seed {}: {lists} lists of 80, done by kind {done:?}, refused by number {refused:?}", seed(0));
    println!("seed {}: early times {sorts:?}", seed(0));
    want(&sorts, early::Sort::ALL, 30);
    want(&done, 1..=20, 300);
    want(&refused, 3..=22, 100);
}

/// Every number of early times that a site can have, and more: full books with the trial load on them, checked with this
/// number and with each other one, by which rides may lose their leave.
#[test]
fn every_number_of_early_times() {
    let mut rng = Rng::new(seed(7));
    let mut numbers = BTreeMap::new();
    for (dates, times_per_date) in [(1, 1), (1, 5), (2, 1), (2, 3), (4, 4), (3, 96)] {
        for early in 0..times_per_date {
            let words = [dates, 2, times_per_date, 9, 3, 2, 1, 4, 3, early, 7];
            let settings = Settings::from_words(&words).expect("settings");
            let mut ours = full_book(&mut rng, &settings, 40);
            let others = (0..times_per_date.min(6)).map(|more| early + more).chain([times_per_date, u32::MAX]);
            for other in others.chain([0]) {
                let mut book = ours.clone();
                book[9] = other;
                let answer = plain::check(&book);
                assert_eq!(answer.words(), book::check(&book).words(), "{words:?}, {other} early times");
                count(&mut numbers, answer.number);
            }
            let mut theirs = ours.clone();
            let site = Site::of_book(&ours).expect("a full book has its length");
            let requests = plain::traffic::traffic(&site, rng.word(), 300);
            let list: Vec<u32> = requests.iter().flat_map(Request::words).collect();
            let (mut our_answers, mut their_answers) = (vec![0; 900], vec![0; 900]);
            plain::requests(&mut ours, &list, &mut our_answers);
            book::requests(&mut theirs, &list, &mut their_answers);
            assert!(our_answers == their_answers && ours == theirs, "{words:?}");
        }
    }
    println!("seed {}: books with other early times, by number {numbers:?}", seed(7));
    want(&numbers, 0..=2, 50);
}

/// One request on a lawful, damaged or junk book.
#[test]
fn requests_on_raw_books() {
    let mut rng = Rng::new(seed(1));
    let mut numbers = BTreeMap::new();
    for turn in 0..times(6000) {
        let settings = site(&mut rng, Size::Small);
        let mut state = deep_state(&mut rng, settings, 15);
        let mut ours = if turn % 2 == 0 { book::words(&state) } else { junk_book(&mut rng) };
        let mut theirs = ours.clone();
        let request = list(&mut rng, &mut state, 1, Mix::USUAL)[0];
        let answer = plain::request(&mut ours, &Request::new(request.words()));
        assert_eq!(answer.words(), book::request(&mut theirs, &request).words(), "{request:?}");
        assert_eq!(ours, theirs);
        count(&mut numbers, answer.number);
    }
    println!("seed {}: requests on raw books by number {numbers:?}", seed(1));
    want(&numbers, 0..=2, 500);
    want(&numbers, 3..=21, 5);
}

/// Parties of all sorts, on lawful, damaged and junk books.
#[test]
fn parties() {
    let mut rng = Rng::new(seed(5));
    let mut sorts = BTreeMap::new();
    for _ in 0..times(6000) {
        let call = lent(&mut rng);
        let (mut ours, mut theirs) = (call.book.clone(), call.book.clone());
        let guests: Vec<plain::party::Guest> = call.guests.iter().map(|guest| guest.words()).collect();
        let answer = plain::party(&mut ours, call.meeting, &guests).words();
        assert_eq!(answer, second::party::party(&mut theirs, call.meeting, &call.guests).words(), "{:?}", call.guests);
        assert!(ours == theirs, "{:?}", call.guests);
        Sort::of(&call, answer).into_iter().for_each(|sort| count(&mut sorts, sort));
    }
    println!("seed {}: parties {sorts:?}", seed(5));
    want(&sorts, Sort::all(), 10);
}

/// Orders of all sorts on lawful, damaged and junk books, one by one and in lists.
#[test]
fn orders_of_all_sorts() {
    let mut rng = Rng::new(seed(6));
    let mut sorts = BTreeMap::new();
    for _ in 0..times(6000) {
        let orders::Lent { book: before, sent } = orders::lent(&mut rng);
        let (mut ours, mut theirs) = (before.clone(), before.clone());
        let answer = plain::order(&mut ours, sent.order, &Request::new(sent.request.words())).words();
        assert_eq!(answer, book::order(&mut theirs, sent.order, &sent.request).words(), "{sent:?}");
        assert!(ours == theirs, "{sent:?}");
        if let Ok(state) = book::calls::open(&before) {
            orders::Sort::of(&state, &sent).into_iter().for_each(|sort| count(&mut sorts, sort));
        }
    }
    for _ in 0..times(300) {
        let settings = sites::site_within(&mut rng, Size::Any, 30_000);
        let plan = orders::Plan::any(&mut rng);
        let sent = orders::list_from_fresh(&mut rng, settings.clone(), 150, plan);
        let list = orders::list_words(&sent);
        let (mut ours, mut theirs) =
            (vec![7; book::length(&settings) as usize], vec![8; book::length(&settings) as usize]);
        let (mut our_answers, mut their_answers) = (vec![9; 451], vec![9; 451]);
        plain::serve_orders(&settings.words(), &mut ours, &list, &mut our_answers);
        book::serve_orders(&settings.words(), &mut theirs, &list, &mut their_answers);
        assert!(ours == theirs && our_answers == their_answers, "{settings:?}");
    }
    println!("seed {}: orders {sorts:?}", seed(6));
    want(&sorts, orders::Sort::all().into_iter().filter(|sort| !matches!(sort, orders::Sort::Refused(8..=22))), 5);
}

/// The plain engine's words to a call of any sort.
fn plain_on_book(words: &mut [u32], call: &Call) -> Vec<u32> {
    let plain_request = |request: &machine::Request| Request::new(request.words());
    match call {
        Call::Request(request) => plain::request(words, &plain_request(request)).words().to_vec(),
        Call::Order { order, request } => plain::order(words, *order, &plain_request(request)).words().to_vec(),
        Call::Party { meeting, guests } => {
            let guests: Vec<plain::party::Guest> = guests.iter().map(|guest| guest.words()).collect();
            plain::party(words, *meeting, &guests).words().to_vec()
        }
        Call::Ask(request) => {
            let (answer, count) = plain::ask(words, &plain_request(request));
            [&answer.words()[..], &[count]].concat()
        }
        Call::Commit { count, request } => plain::commit(words, *count, &plain_request(request)).words().to_vec(),
    }
}

/// Asks, commits and other calls at change counts of every size, on lawful, damaged and junk books.
#[test]
fn asks_and_commits() {
    let mut rng = Rng::new(seed(8));
    let mut sorts = BTreeMap::new();
    for _ in 0..times(8000) {
        let asking::Lent { book: before, call } = asking::lent(&mut rng);
        let (mut ours, mut theirs) = (before.clone(), before.clone());
        assert_eq!(plain_on_book(&mut ours, &call), on_book(&mut theirs, &call).words(), "{call:?}");
        assert!(ours == theirs, "{call:?}");
        if let Ok(state) = book::calls::open(&before) {
            asking::Sort::of(&state, &call).into_iter().for_each(|sort| count(&mut sorts, sort));
        }
    }
    println!("seed {}: asks and commits {sorts:?}", seed(8));
    want(&sorts, asking::Sort::all(), 2);
}

/// Charges of all sorts on lawful, damaged and junk books.
#[test]
fn charges_of_all_sorts() {
    let mut rng = Rng::new(seed(9));
    let mut sorts = BTreeMap::new();
    for _ in 0..times(8000) {
        let lent = charges::lent(&mut rng);
        let charges::Lent { book, meeting, first, last, tariff } = &lent;
        let of = [tariff.room, tariff.seat, tariff.percent];
        let (number, cents) = plain::charge(book, *meeting, *first, *last, of);
        let expected = second::charge::charge(book, *meeting, *first, *last, tariff);
        assert_eq!([u64::from(number), 0, cents], expected.words(), "{meeting} {first} {last} {tariff:?}");
        charges::Sort::of(&lent, number, cents).into_iter().for_each(|sort| count(&mut sorts, sort));
    }
    println!("seed {}: charges {sorts:?}", seed(9));
    want(&sorts, charges::Sort::all(), 3);
}

/// Checking: each rule broken alone, lawful books, and lists on them.
#[test]
fn checks_of_damaged_books() {
    let mut rng = Rng::new(seed(2));
    let (mut rules, mut junk_numbers) = (BTreeMap::new(), BTreeMap::new());
    for _ in 0..times(400) {
        let settings = sites::site_within(&mut rng, Size::Any, 30_000);
        let state = deep_state(&mut rng, settings, 40);
        assert_eq!(plain::check(&book::words(&state)).number, 0);
        for rule in book::Rule::breakable() {
            let Some(damaged) = damaged(&mut rng, &state, rule) else { continue };
            assert_eq!(plain::check(&damaged).words(), [2, 0, 0], "{rule:?} {:?}", state.settings);
            count(&mut rules, rule);
        }
        let junk = junk_book(&mut rng);
        let answer = plain::check(&junk);
        assert_eq!(answer.words(), book::check(&junk).words());
        count(&mut junk_numbers, answer.number);
    }
    println!("seed {}: rules broken {rules:?}, junk by number {junk_numbers:?}", seed(2));
    want(&rules, book::Rule::breakable(), 100);
    want(&junk_numbers, [0], 5);
    want(&junk_numbers, [1, 2], 50);
}

/// Byte streams, cut into random chunks.
#[test]
fn streams_in_chunks() {
    let mut rng = Rng::new(seed(3));
    let (mut numbers, streams) = (BTreeMap::new(), times(3000));
    for turn in 0..streams {
        let stream = if turn % 2 == 0 { clean_stream(&mut rng, 30) } else { damaged_stream(&mut rng, 30) };
        let expected = second::frames::frames(&stream);
        assert_eq!(plain::lines::frames(&stream), expected);
        let (mut program, mut out, mut rest) = (plain::lines::Program::default(), Vec::new(), &stream[..]);
        while !rest.is_empty() {
            let size = rng.pick(&[1, 7, 56, 57, 300]).min(rest.len());
            program.feed(&rest[..size], &mut out);
            rest = &rest[size..];
        }
        program.finish(&mut out);
        assert_eq!(out, expected);
        for line in expected.chunks(25) {
            let number = std::str::from_utf8(&line[..8]).expect("digits");
            count(&mut numbers, u32::from_str_radix(number, 16).expect("a number"));
        }
    }
    println!("seed {}: {streams} streams, answer lines by number {numbers:?}", seed(3));
    want(&numbers, (3..=25).chain([0, 28]), 20);
}

/// Books about half full, straight in words, with the trial load on them.
#[test]
fn traffic_on_full_books() {
    let mut rng = Rng::new(seed(4));
    let (mut done, mut refused) = (BTreeMap::new(), BTreeMap::new());
    for _ in 0..times(60) {
        let settings = sites::site_within(&mut rng, Size::Any, 60_000);
        let mut ours = full_book(&mut rng, &settings, 50);
        let mut theirs = ours.clone();
        let site = Site::of_book(&ours).expect("a full book has its length");
        let requests = plain::traffic::traffic(&site, rng.word(), 300);
        let list: Vec<u32> = requests.iter().flat_map(|r| [r.kind, r.a, r.b, r.first, r.last, r.n, r.info]).collect();
        let (mut our_answers, mut their_answers) = (vec![0; 900], vec![0; 900]);
        let answer = plain::requests(&mut ours, &list, &mut our_answers);
        assert_eq!(answer.words(), book::requests(&mut theirs, &list, &mut their_answers).words());
        assert_eq!(our_answers, their_answers);
        assert!(ours == theirs);
        count_list(&mut done, &mut refused, &list, &our_answers);
    }
    println!("seed {}: traffic, done by kind {done:?}, refused by number {refused:?}", seed(4));
    assert!((1..=7).all(|number| !refused.contains_key(&number)), "the trial load passes 3 to 7");
    want(&done, 1..=20, 5);
    want(&refused, 8..=22, 20);
}

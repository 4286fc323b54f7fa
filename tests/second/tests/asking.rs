//! Asks, commits and the change count: a worked example, the ends of questions 29 and 30, and what the generator reaches.

use second::book::{self, check, words, Rule, TAIL_WORDS};
use second::calls::{on_book, perform, Call, Reply};
use second::gen::asking::{calls, lent, Sort, GREATEST};
use second::gen::orders::Plan;
use second::gen::requests::{opening, state_after};
use second::gen::{damaged, deep_state, site, Rng, Size};
use second::machine::kinds::changes_something;
use second::machine::{run, Answer, Request, State};
use second::party::Guest;
use std::collections::BTreeMap;

const SEED: u64 = 0xa5c0;
const CALLS: usize = 8000;

const SITE: [u32; 11] = [2, 2, 2, 3, 2, 2, 1, 2, 1, 0, 4];
const LEAVE: [u32; 7] = [1, 0, 1, 0, 1, 0, 0];
const HOTEL: [u32; 7] = [4, 0, 1, 0, 1, 0, 0];
const QUERY: [u32; 7] = [18, 0, 0, 0, 0, 0, 0];

/// Where the change count of the worked example stands.
const COUNT: usize = 770;

fn fresh() -> Vec<u32> {
    words(&state_after(&SITE, &[]))
}

fn asked(book: &[u32], request: [u32; 7]) -> [u32; 4] {
    book::ask(book, &Request::from_words(request)).words()
}

fn committed(book: &mut [u32], count: u32, request: [u32; 7]) -> [u32; 3] {
    book::commit(book, count, &Request::from_words(request)).words()
}

fn sent(book: &mut [u32], request: [u32; 7]) -> [u32; 3] {
    book::request(book, &Request::from_words(request)).words()
}

/// The table of docs/RULES.md (rule 19.7): two offices over one book.
#[test]
fn the_example_of_the_rules() {
    let mut book = fresh();
    let other = [4, 0, 2, 1, 1, 0, 0];
    let second = [4, 1, 2, 1, 1, 0, 0];
    assert_eq!(asked(&book, HOTEL), [9, 0, 0, 0], "no leave yet; the book is fresh");
    assert_eq!(sent(&mut book, LEAVE), [0, 0, 0]);
    assert_eq!(sent(&mut book, [1, 0, 2, 1, 1, 0, 0]), [0, 0, 0]);
    assert_eq!(asked(&book, HOTEL), [0, 0, 0, 2]);
    assert_eq!(asked(&book, other), [0, 0, 0, 2]);
    assert_eq!(committed(&mut book, 2, other), [0, 0, 0], "the other office was quicker");
    assert_eq!(committed(&mut book, 2, HOTEL), [29, 0, 0]);
    assert_eq!(asked(&book, HOTEL), [12, 1, 0, 3]);
    assert_eq!(asked(&book, [4, 1, 1, 0, 1, 0, 0]), [0, 0, 0, 3]);
    assert_eq!(asked(&book, QUERY), [0, 0, 1, 3]);
    assert_eq!(committed(&mut book, 3, QUERY), [0, 0, 1], "a query does not raise the count");
    assert_eq!(sent(&mut book, second), [13, 1, 0], "nor a refusal");
    assert_eq!(committed(&mut book, 3, [4, 1, 1, 0, 1, 0, 0]), [0, 0, 0]);
    assert_eq!(sent(&mut book, LEAVE), [0, 0, 0], "leave that is there already");
    assert_eq!((book[COUNT], book.len()), (5, 771), "it is counted all the same");
}

/// What raises the count, and by how many.
#[test]
fn what_is_counted() {
    let mut book = fresh();
    let mut count = |call: Call| {
        let before = book[COUNT];
        on_book(&mut book, &call);
        book[COUNT] - before
    };
    let request = |words| Request::from_words(words);
    assert_eq!(count(Call::Request(request(LEAVE))), 1);
    assert_eq!(count(Call::Request(request(LEAVE))), 1, "no set changes");
    assert_eq!(count(Call::Request(request(QUERY))), 0);
    assert_eq!(count(Call::Request(request([5, 0, 1, 0, 0, 0, 0]))), 0, "refused");
    assert_eq!(count(Call::Order { order: 7, request: request(HOTEL) }), 1);
    assert_eq!(count(Call::Order { order: 7, request: request(HOTEL) }), 0, "kept");
    assert_eq!(count(Call::Order { order: 7, request: request(LEAVE) }), 0, "28");
    assert_eq!(count(Call::Order { order: 8, request: request(HOTEL) }), 0, "refused, and kept");
    assert_eq!(count(Call::Ask(request(LEAVE))), 0);
    assert_eq!(count(Call::Request(request([8, 0, 0, 0, 3, 0, 0]))), 1);
    let guests = vec![Guest { visitor: 1, first: 0, last: 1 }, Guest { visitor: 1, first: 2, last: 3 }];
    assert_eq!(count(Call::Party { meeting: 0, guests: guests.clone() }), 1, "two guests");
    assert_eq!(count(Call::Party { meeting: 0, guests }), 0, "refused");
    assert_eq!(count(Call::Commit { count: 5, request: request(LEAVE) }), 1);
    assert_eq!(count(Call::Commit { count: 5, request: request(LEAVE) }), 0, "29");
    assert_eq!(count(Call::Request(request([3, 0, 1, 0, 1, 0, 0]))), 1, "a removal");
}

/// At the greatest count 30 refuses what would be counted, behind every other question; the rest goes on.
#[test]
fn the_greatest_count() {
    let mut book = fresh();
    sent(&mut book, LEAVE);
    sent(&mut book, [8, 0, 0, 0, 3, 0, 0]);
    book[COUNT] = GREATEST;
    let before = book.clone();
    assert_eq!(check(&book), Answer::Done(0), "every count is lawful");
    assert_eq!(sent(&mut book, LEAVE), [30, 0, 0]);
    assert_eq!(sent(&mut book, HOTEL), [30, 0, 0]);
    assert_eq!(sent(&mut book, [5, 0, 1, 1, 1, 0, 0]), [15, 1, 0], "15 comes before 30");
    assert_eq!(sent(&mut book, QUERY), [0, 0, 1]);
    assert_eq!(asked(&book, HOTEL), [30, 0, 0, GREATEST]);
    assert_eq!(committed(&mut book, GREATEST, HOTEL), [30, 0, 0]);
    assert_eq!(committed(&mut book, 0, HOTEL), [29, 0, 0], "0 does not come behind the greatest");
    let guest = |first, last| Call::Party { meeting: 0, guests: vec![Guest { visitor: 1, first, last }] };
    assert_eq!(on_book(&mut book, &guest(0, 3)).words(), [30, 0, 0]);
    assert_eq!(on_book(&mut book, &guest(0, 4)).words(), [7, 0, 0], "a guest is refused before 30");
    assert_eq!(book, before);
    assert_eq!(book::order(&mut book, 9, &Request::from_words(HOTEL)).words(), [30, 0, 0]);
    assert_eq!((book[65], book[73], book[769]), (9, 30, 1), "the refusal is kept");
    book[COUNT] = GREATEST - 1;
    assert_eq!(book::order(&mut book, 9, &Request::from_words(HOTEL)).words(), [30, 0, 0], "its first answer");
    assert_eq!((sent(&mut book, HOTEL), book[COUNT]), ([0, 0, 0], GREATEST), "the last change");
}

/// 29 comes behind 1 and 2 and before all else; asking beside 1 and 2 tells the count 0.
#[test]
fn the_order_of_the_questions() {
    let mut book = fresh();
    book[COUNT] = 12;
    assert_eq!(committed(&mut book, 11, [99; 7]), [29, 0, 0], "before 3");
    assert_eq!(committed(&mut book, 12, [99; 7]), [3, 0, 0]);
    assert_eq!(asked(&book, [99; 7]), [3, 0, 0, 12]);
    book[61] = 4;
    assert_eq!((committed(&mut book, 11, LEAVE), asked(&book, LEAVE)), ([2, 0, 0], [2, 0, 0, 0]));
    assert_eq!((committed(&mut book[1..], 11, LEAVE), asked(&book[1..], LEAVE)), ([1, 0, 0], [1, 0, 0, 0]));
}

/// Asking and committing never look into the ring, and write none of it.
#[test]
fn no_order_is_asked_for() {
    let mut book = fresh();
    assert_eq!(book::order(&mut book, 5, &Request::from_words(HOTEL)).words(), [9, 0, 0]);
    let ring = book[65..COUNT].to_vec();
    sent(&mut book, LEAVE);
    assert_eq!(asked(&book, HOTEL), [0, 0, 0, 1], "not what order 5 was told");
    assert_eq!(committed(&mut book, 1, HOTEL), [0, 0, 0]);
    assert_eq!(book[65..COUNT], ring);
}

/// The count is the last word and any word; everything else of the tail is the ring's.
#[test]
fn every_count_is_lawful() {
    let mut rng = Rng::new(SEED + 2);
    for count in [0, 1, 63, 64, 1 << 31, GREATEST - 1, GREATEST] {
        let settings = site(&mut rng, Size::Small);
        let state = State { changes: count, ..deep_state(&mut rng, settings, 20) };
        let book = words(&state);
        assert_eq!((check(&book), book.last()), (Answer::Done(0), Some(&count)));
        assert_eq!(book::shown(&book), Some(state.clone()));
        assert_eq!(book.len() - book::ring_base(&state.settings) as usize, TAIL_WORDS);
        let broken = damaged(&mut rng, &state, Rule::NextPlaceWithin).expect("every ring can break it");
        assert_eq!((check(&broken).words(), broken.last()), ([2, 0, 0], Some(&count)));
    }
}

/// Calls of all five sorts in one list: the words after each are those of the machine's state.
#[test]
fn a_list_of_calls_on_words() {
    let mut rng = Rng::new(SEED + 1);
    let (mut sorts, mut counted) = (BTreeMap::new(), 0);
    for _ in 0..300 {
        let mut state = State::empty(site(&mut rng, Size::Small));
        let start = opening(&mut rng, &state.settings);
        run(&mut state, &start);
        let (mut book, mut replayed) = (words(&state), state.clone());
        let plan = Plan::any(&mut rng);
        for call in calls(&mut rng, &mut state, 60, plan) {
            Sort::of(&replayed, &call).into_iter().for_each(|sort| *sorts.entry(sort).or_insert(0) += 1);
            let before = book.clone();
            let reply = on_book(&mut book, &call);
            assert_eq!(reply, perform(&mut replayed, &call), "{call:?}");
            assert!(book == words(&replayed) && check(&book) == Answer::Done(0), "{call:?}");
            assert!(book == before || !matches!(reply, Reply::Asked(_)));
            let raised = book[book.len() - 1] - before[book.len() - 1];
            let sets = book::ring_base(&replayed.settings) as usize;
            assert!(raised <= 1 && (raised == 1 || book[..sets] == before[..sets]), "{call:?}");
            counted += raised;
        }
        assert_eq!(replayed, state);
    }
    println!("seed {}: {counted} changes, calls {sorts:?}", SEED + 1);
    for sort in Sort::of_lists() {
        let met = sorts.get(&sort).copied().unwrap_or(0);
        assert!(met >= 1, "{sort:?} was met {met} times");
    }
}

#[test]
fn the_generator_reaches_every_sort() {
    let mut rng = Rng::new(SEED);
    let (mut sorts, mut numbers) = (BTreeMap::new(), BTreeMap::new());
    for _ in 0..CALLS {
        let call = lent(&mut rng);
        let mut after = call.book.clone();
        let reply = on_book(&mut after, &call.call);
        let number = reply.answer().number();
        *numbers.entry(number).or_insert(0) += 1;
        let Ok(state) = book::calls::open(&call.book) else {
            assert_eq!(after, call.book);
            assert!(matches!(reply, Reply::Told(_)) || reply.words()[3] == 0);
            continue;
        };
        if let (Call::Ask(_), Reply::Asked(asked)) = (&call.call, reply) {
            assert_eq!((&after, asked.count), (&call.book, state.changes));
        }
        Sort::of(&state, &call.call).into_iter().for_each(|sort| *sorts.entry(sort).or_insert(0) += 1);
    }
    println!("seed {SEED}: {CALLS} calls {sorts:?}, by number {numbers:?}");
    for sort in Sort::all() {
        let met = sorts.get(&sort).copied().unwrap_or(0);
        assert!(met >= 3, "{sort:?} was met {met} times");
    }
    assert!([1, 2, 29, 30].iter().all(|number| numbers[number] >= 200), "{numbers:?}");
    assert!((1..=20).all(|kind| changes_something(kind) == (kind <= 16)));
}

//! Orders: a worked example, the ends of each question, and what the generator reaches.

use second::book::{self, check, ring_base, words, Rule, ENTRY_WORDS, TAIL_WORDS};
use second::calls::{on_book, perform, Call};
use second::frames::{frames, words_line};
use second::gen::orders::{calls, lent, list, list_from_fresh, list_words, ringed_state, Plan, Sent, Sort};
use second::gen::requests::{opening, state_after};
use second::gen::{damaged, deep_state, site, Rng, Size};
use second::machine::ring::PLACES;
use second::machine::{run, Answer, Request, Settings, State};
use second::party::party;
use std::collections::{BTreeMap, BTreeSet};

const SEED: u64 = 0x0bde;
const CALLS: usize = 6000;

const SITE: [u32; 11] = [2, 2, 2, 3, 2, 2, 1, 2, 1, 0, 4];
const LEAVE: [u32; 7] = [1, 0, 1, 0, 1, 0, 0];
const HOTEL: [u32; 7] = [4, 0, 1, 0, 1, 0, 0];
const QUERY: [u32; 7] = [18, 0, 0, 0, 0, 0, 0];

/// Where the ring of the worked example begins.
const RING: usize = 65;

fn fresh() -> Vec<u32> {
    words(&State::empty(Settings::from_words(&SITE).expect("good settings")))
}

fn sent(book: &mut [u32], order: u32, request: [u32; 7]) -> [u32; 3] {
    book::order(book, order, &Request::from_words(request)).words()
}

/// The words of one place of the ring.
fn place(book: &[u32], at: usize) -> &[u32] {
    &book[RING + at * ENTRY_WORDS..][..ENTRY_WORDS]
}

#[test]
fn the_words_of_the_ring() {
    let mut book = fresh();
    assert_eq!((book.len(), book.len() - RING), (771, TAIL_WORDS));
    assert_eq!(sent(&mut book, 17, HOTEL), [9, 0, 0], "no leave yet");
    assert_eq!(place(&book, 0), [17, 4, 0, 1, 0, 1, 0, 0, 9, 0, 0], "a refused order writes its entry");
    assert_eq!(book[RING + 704], 1, "and the next place");
    assert!(book[11..RING].iter().all(|word| *word == 0), "and no other word");
    assert_eq!(sent(&mut book, 18, LEAVE), [0, 0, 0]);
    assert_eq!(sent(&mut book, 19, HOTEL), [0, 0, 0]);
    assert_eq!(sent(&mut book, 20, QUERY), [0, 0, 1], "a query is kept as well");
    assert_eq!(place(&book, 3), [20, 18, 0, 0, 0, 0, 0, 0, 0, 0, 1]);
    assert_eq!(book[RING + 704], 4);
}

/// A kept order gets its first answer, whatever the sets say, and nothing changes.
#[test]
fn an_order_sent_again() {
    let mut book = fresh();
    assert_eq!(sent(&mut book, 17, HOTEL), [9, 0, 0]);
    assert_eq!(sent(&mut book, 18, LEAVE), [0, 0, 0]);
    let kept = book.clone();
    assert_eq!(sent(&mut book, 17, HOTEL), [9, 0, 0], "though the visitor has leave");
    assert_eq!(sent(&mut book, 18, LEAVE), [0, 0, 0]);
    for at in 0..7 {
        let mut other = HOTEL;
        other[at] += 1;
        assert_eq!(sent(&mut book, 17, other), [28, 0, 0], "word {at}");
    }
    assert_eq!(sent(&mut book, 17, [99; 7]), [28, 0, 0], "28 comes before 3");
    assert_eq!(book, kept);
    assert_eq!(sent(&mut book, 0, HOTEL), [0, 0, 0], "0 is no order");
    assert_eq!((&book[RING..770], sent(&mut book.clone(), 0, HOTEL)), (&kept[RING..770], [11, 0, 0]));
}

#[test]
fn the_sixty_fifth_order_takes_the_first_place() {
    let mut book = fresh();
    for order in 1..=64 {
        assert_eq!(sent(&mut book, order, QUERY), [0, 0, 0]);
    }
    assert_eq!((place(&book, 0)[0], place(&book, 63)[0], book[RING + 704]), (1, 64, 0));
    assert_eq!(sent(&mut book, 1, LEAVE), [28, 0, 0], "order 1 is still kept");
    assert_eq!(sent(&mut book, u32::MAX, LEAVE), [0, 0, 0]);
    assert_eq!((place(&book, 0)[0], place(&book, 1)[0], book[RING + 704]), (u32::MAX, 2, 1));
    assert_eq!(sent(&mut book, 1, QUERY), [0, 0, 1], "order 1 is kept no more, and answered anew");
    assert_eq!((place(&book, 1)[0], place(&book, 1)[10]), (1, 1));
    assert_eq!(sent(&mut book, 2, LEAVE), [0, 0, 0], "and it has taken the place of order 2");
}

/// The example of docs/RULES.md (rule 18.8).
#[test]
fn the_example_of_the_rules() {
    let mut book = fresh();
    let removal = [3, 0, 1, 0, 1, 0, 0];
    let other_room = [4, 1, 1, 0, 1, 0, 0];
    for (order, request, answer) in [
        (16, HOTEL, [9, 0, 0]),
        (17, LEAVE, [0, 0, 0]),
        (16, HOTEL, [9, 0, 0]),
        (18, HOTEL, [0, 0, 0]),
        (18, HOTEL, [0, 0, 0]),
        (0, HOTEL, [11, 0, 0]),
        (18, other_room, [28, 0, 0]),
        (19, QUERY, [0, 0, 1]),
        (20, removal, [0, 0, 2]),
        (19, QUERY, [0, 0, 1]),
    ] {
        assert_eq!(sent(&mut book, order, request), answer, "{order}");
    }
    assert_eq!(place(&book, 0), [16, 4, 0, 1, 0, 1, 0, 0, 9, 0, 0]);
    assert_eq!((book[109], book[769]), (20, 5));
}

/// What the laws ask, and no more: gaps, any kept answer, a next place anywhere.
#[test]
fn the_law_of_the_ring() {
    let with = |at: usize, word: u32| {
        let mut book = fresh();
        book[RING..RING + ENTRY_WORDS].copy_from_slice(&[5, 1, 1, 1, 1, 1, 1, 1, 99, 7, 0]);
        book[RING + at] = word;
        check(&book).words()
    };
    assert_eq!(with(1, 4_000_000_000), [0, 0, 0], "any request is kept");
    assert_eq!(with(8, u32::MAX), [0, 0, 0], "any number");
    assert_eq!(with(704, 63), [0, 0, 0], "any next place below 64");
    assert_eq!(with(704, 64), [2, 0, 0]);
    assert_eq!(with(11 * 40, 6), [0, 0, 0], "a gap");
    assert_eq!(with(11 * 40, 5), [2, 0, 0], "the number of another order");
    assert_eq!(with(0, 0), [2, 0, 0], "an entry without a number has other words than zeros");
    assert_eq!(with(11 * 40 + 3, 1), [2, 0, 0]);
    assert_eq!(with(8, 0), [2, 0, 0], "done, and a place");
    assert_eq!(with(10, 1), [2, 0, 0], "refused, and a value");
}

/// A kept answer that no engine gave is given back as it stands.
#[test]
fn any_kept_answer_is_given_back() {
    let mut book = fresh();
    book[RING + 22..RING + 33].copy_from_slice(&[5, 1, 2, 3, 4, 5, 6, 7, 4_000_000_000, 12, 0]);
    book[RING + 33..RING + 44].copy_from_slice(&[6, 1, 2, 3, 4, 5, 6, 7, 0, 0, 77]);
    let before = book.clone();
    assert_eq!(sent(&mut book, 5, [1, 2, 3, 4, 5, 6, 7]), [4_000_000_000, 12, 0]);
    assert_eq!(sent(&mut book, 6, [1, 2, 3, 4, 5, 6, 7]), [0, 0, 77]);
    assert_eq!(book, before);
    assert_eq!(sent(&mut book, 7, QUERY), [0, 0, 0]);
    assert_eq!((place(&book, 0)[0], book[RING + 704]), (7, 1), "the next place says where it goes");
}

/// Lines of 56 and of 64 digits.
#[test]
fn lines_of_both_lengths() {
    let line = |order: Option<u32>, request: [u32; 7]| {
        let mut words = request.to_vec();
        words.extend(order);
        words_line(&words)
    };
    let input = [
        words_line(&SITE),
        line(Some(17), HOTEL),
        line(Some(18), LEAVE),
        line(Some(17), HOTEL),
        line(None, HOTEL),
        line(Some(0), HOTEL),
        line(Some(18), HOTEL),
        line(None, LEAVE)[..48].to_vec(),
        b"\n".to_vec(),
        [&line(Some(19), LEAVE)[..64], b"00000000\n"].concat(),
        line(Some(19), LEAVE)[..60].to_vec(),
    ];
    let numbers: Vec<u8> = frames(&input.concat()).chunks(25).map(|line| line[7]).collect();
    assert_eq!(numbers, b"9090b\x63777", "28 is 1c, 23 is 17");
}

/// Each clause of the law broken alone: every call on such a book is refused by 2 and changes nothing.
#[test]
fn a_broken_ring_refuses_every_call() {
    let mut rng = Rng::new(SEED + 4);
    let mut broken: BTreeMap<Rule, u32> = BTreeMap::new();
    for _ in 0..60 {
        let settings = site(&mut rng, Size::Small);
        let state = deep_state(&mut rng, settings, 10);
        for rule in Rule::OF_RING {
            let before = damaged(&mut rng, &state, rule).expect("every ring can break it");
            assert_eq!(book::broken(state.settings.clone(), &before), BTreeSet::from([rule]));
            let mut after = before.clone();
            let mut answers = [7; 6];
            let refusals = [
                check(&after),
                book::request(&mut after, &Request::from_words(QUERY)),
                book::order(&mut after, 1, &Request::from_words(QUERY)),
                book::requests(&mut after, &QUERY, &mut answers),
                book::orders(&mut after, &[1; 8], &mut answers),
                party(&mut after, 0, &[]),
                second::page::page(&after, 0, &mut []),
            ];
            assert!(refusals.iter().all(|answer| answer.words() == [2, 0, 0]), "{rule:?} {refusals:?}");
            assert!(after == before && answers == [7; 6]);
            *broken.entry(rule).or_default() += 1;
        }
    }
    println!("seed {}: clauses broken {broken:?}", SEED + 4);
    assert!(Rule::OF_RING.iter().all(|rule| broken[rule] == 60));
}

/// Requests, orders and parties in one list: the words after each call are those of the machine's state.
#[test]
fn a_list_of_calls_on_words() {
    let mut rng = Rng::new(SEED + 1);
    let mut seen: BTreeMap<&str, u32> = BTreeMap::new();
    for _ in 0..100 {
        let mut state = State::empty(site(&mut rng, Size::Small));
        let start = opening(&mut rng, &state.settings);
        run(&mut state, &start);
        let (mut book, mut replayed) = (words(&state), state.clone());
        let plan = Plan::any(&mut rng);
        for call in calls(&mut rng, &mut state, 40, plan) {
            let name = match &call {
                Call::Request(_) => "request",
                Call::Order { .. } => "order",
                _ => "party",
            };
            assert_eq!(on_book(&mut book, &call), perform(&mut replayed, &call), "{call:?}");
            assert!(book == words(&replayed) && check(&book) == Answer::Done(0), "{call:?}");
            *seen.entry(name).or_default() += 1;
        }
        assert_eq!(replayed, state);
    }
    println!("seed {}: calls {seen:?}", SEED + 1);
    assert!(seen.len() == 3 && seen.values().all(|count| *count >= 300), "{seen:?}");
}

/// `orders` answers as `order` does one by one, and `serve_orders` as `orders` on a book that is laid.
#[test]
fn lists_of_orders_answer_as_the_orders_one_by_one() {
    let mut rng = Rng::new(SEED + 2);
    for _ in 0..200 {
        let state = ringed_state(&mut rng, Size::Small, 20_000);
        let (mut whole, mut single) = (words(&state), words(&state));
        let plan = Plan::any(&mut rng);
        let sent = list(&mut rng, &mut state.clone(), 12, plan);
        let mut asked = list_words(&sent);
        asked.extend(vec![9; rng.below(8) as usize]);
        let mut answers = vec![99; rng.between(20, 40) as usize];
        let number = sent.len().min(answers.len() / 3);
        assert_eq!(book::orders(&mut whole, &asked, &mut answers), Answer::Done(number as u32));
        for (at, Sent { order, request }) in sent[..number].iter().enumerate() {
            assert_eq!(answers[3 * at..3 * at + 3], book::order(&mut single, *order, request).words());
        }
        assert_eq!(whole, single);
        assert!(answers[3 * number..].iter().all(|word| *word == 99));
        let mut laid = words(&State::empty(state.settings.clone()));
        let mut served = vec![5; laid.len()];
        let (mut one, mut other) = ([1; 36], [1; 36]);
        book::orders(&mut laid, &asked, &mut one);
        assert_eq!(book::serve_orders(&state.settings.words(), &mut served, &asked, &mut other), Answer::Done(12));
        assert!(laid == served && one == other);
    }
    println!("seed {}: 200 lists, each as its orders one by one", SEED + 2);
}

#[test]
fn the_generator_reaches_every_sort() {
    let mut rng = Rng::new(SEED);
    let (mut sorts, mut numbers) = (BTreeMap::new(), BTreeMap::new());
    for _ in 0..CALLS {
        let call = lent(&mut rng);
        let mut after = call.book.clone();
        let answer = book::order(&mut after, call.sent.order, &call.sent.request);
        *numbers.entry(answer.number().min(29)).or_insert(0) += 1;
        let Ok(state) = book::calls::open(&call.book) else {
            assert_eq!(after, call.book);
            continue;
        };
        assert_eq!(check(&after), Answer::Done(0));
        let base = ring_base(&state.settings) as usize;
        if answer.number() != 0 {
            assert_eq!(after[..base], call.book[..base], "a refusal writes the ring alone");
        }
        Sort::of(&state, &call.sent).into_iter().for_each(|sort| *sorts.entry(sort).or_insert(0) += 1);
    }
    println!("seed {SEED}: {CALLS} orders {sorts:?}, by number {numbers:?}");
    let wanted = Sort::all().into_iter().filter(|sort| !matches!(sort, Sort::Refused(8..=22)));
    for sort in wanted {
        let met = sorts.get(&sort).copied().unwrap_or(0);
        assert!(met >= 5, "{sort:?} was met {met} times");
    }
    assert!([1, 2, 28].iter().all(|number| numbers[number] >= 200), "{numbers:?}");
}

#[test]
fn lists_from_fresh_reach_every_sort() {
    let mut rng = Rng::new(SEED + 3);
    let (mut sorts, mut forgotten) = (BTreeMap::new(), 0);
    for _ in 0..250 {
        let settings = site(&mut rng, Size::Small);
        let plan = Plan::any(&mut rng);
        let sent = list_from_fresh(&mut rng, settings.clone(), 160, plan);
        let mut state = State::empty(settings);
        let mut before = BTreeSet::new();
        for order in &sent {
            Sort::of(&state, order).into_iter().for_each(|sort| *sorts.entry(sort).or_insert(0) += 1);
            let anew = state.ring.kept(order.order).is_none();
            forgotten += u32::from(order.order != 0 && !before.insert(order.order) && anew);
            order.perform(&mut state);
            assert!(state.ring.next < PLACES);
        }
        assert_eq!(check(&words(&state)), Answer::Done(0));
    }
    println!("seed {}: orders of lists {sorts:?}; sent again when forgotten {forgotten}", SEED + 3);
    for sort in Sort::of_lists() {
        let met = sorts.get(&sort).copied().unwrap_or(0);
        assert!(met >= 10, "{sort:?} was met {met} times");
    }
    assert!(forgotten >= 50);
}

/// A state is what its requests and orders left: the ring has the last 64 of the orders that were answered anew.
#[test]
fn the_ring_has_the_last_orders() {
    let opening = [[1, 0, 1, 0, 1, 0, 0], [8, 0, 0, 0, 3, 0, 0]];
    let mut state = state_after(&SITE, &opening);
    for order in 1..=100 {
        Sent { order, request: Request::from_words(QUERY) }.perform(&mut state);
    }
    let kept: BTreeSet<u32> = state.ring.places.iter().flatten().map(|kept| kept.order).collect();
    assert_eq!((kept, state.ring.next), ((37..=100).collect(), 100 % PLACES));
}

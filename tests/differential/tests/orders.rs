//! Orders against the second program: answer by answer and word by word, sent once, again and again with other words;
//! lists of eight words; rings that no list made; each clause of the ring's law broken alone; a client that loses answers.

use caviar::{Guest, Order, Request};
use differential::calls::{on_book, request as ours};
use differential::{seed, times, Counts};
use second::book::{self, Rule};
use second::calls::{perform, Call};
use second::gen::orders::{
    calls, lent, list, list_from_fresh, list_words, ringed_state, some_ring, Lent, Plan, Sent, Sort,
};
use second::gen::requests::opening;
use second::gen::{damaged, deep_state, full_book, junk_book, site, sites, Rng, Size};
use second::machine::{Settings, State};
use std::collections::BTreeSet;

fn order(book: &mut [u32], sent: &Sent) -> caviar::Answer {
    caviar::order(book, sent.order, ours(&sent.request))
}

/// The engine's answer to an order, which must be the second program's, as must every word of the book.
fn answered(call: &Lent) -> [u32; 3] {
    let (mut words, mut theirs) = (call.book.clone(), call.book.clone());
    let answer = order(&mut words, &call.sent).words();
    assert_eq!(answer, book::order(&mut theirs, call.sent.order, &call.sent.request).words(), "{:?}", call.sent);
    assert!(words == theirs, "{:?}", call.sent);
    answer
}

/// Lawful books with rings of all sorts, and damaged ones: the answer and every word are the second program's.
#[test]
fn orders_of_all_sorts() {
    let mut rng = Rng::new(seed(70));
    let (mut sorts, mut numbers) = (Counts::new(), Counts::new());
    let count = times(12_000);
    for _ in 0..count {
        let call = lent(&mut rng);
        let answer = answered(&call);
        numbers.add(answer[0].min(29));
        if let Ok(state) = book::calls::open(&call.book) {
            Sort::of(&state, &call.sent).into_iter().for_each(|sort| sorts.add(sort));
        }
    }
    println!("seed {}: {count} orders, by number {numbers}, by sort {sorts}", seed(70));
    sorts.assert_each(Sort::all().into_iter().filter(|sort| !matches!(sort, Sort::Refused(8..=22))), 10);
    numbers.assert_each([0, 1, 2, 28], 300);
    numbers.assert_each([29], 100);
}

/// Every order of the list through `order`, beside the machine.
fn one_by_one(book: &mut [u32], state: &mut State, sent: &[Sent], sorts: &mut Counts<Sort>) -> Vec<u32> {
    let mut answers = Vec::new();
    for one in sent {
        Sort::of(state, one).into_iter().for_each(|sort| sorts.add(sort));
        let before = book.to_vec();
        let answer = order(book, one).words();
        let kept = state.ring.kept(one.order).is_some();
        assert_eq!(answer, one.perform(state).words(), "{one:?} {:?}", state.settings);
        assert!(*book == book::words(state), "{one:?} {:?}", state.settings);
        assert!(!kept || *book == before, "a kept order changes nothing");
        answers.extend(answer);
    }
    answers
}

/// The list through `orders`, with words to spare at both ends.
fn at_once(rng: &mut Rng, book: &mut [u32], sent: &[Sent], answers: &[u32]) {
    let mut list = list_words(sent);
    list.extend((0..rng.below(8)).map(|_| rng.word()));
    let junk = rng.word();
    let mut got = vec![junk; answers.len() + rng.below(9) as usize];
    assert_eq!(caviar::orders_words(book, &list, &mut got).words(), [0, 0, sent.len() as u32]);
    assert_eq!(got[..answers.len()], *answers);
    assert!(got[answers.len()..].iter().all(|word| *word == junk));
}

/// The list through `serve_orders`, with typed orders and answers.
fn served(settings: &Settings, book: &mut [u32], sent: &[Sent], answers: &[u32]) {
    let list: Vec<Order> = sent.iter().map(|one| Order { request: ours(&one.request), order: one.order }).collect();
    let mut got = vec![caviar::Answer::default(); list.len()];
    let done = caviar::serve_orders(&settings.words(), book, &list, &mut got);
    assert_eq!(done.words(), [0, 0, list.len() as u32]);
    assert!(got.iter().flat_map(|answer| answer.words()).eq(answers.iter().copied()));
}

/// How many orders of a list have the number of one before that is no longer kept.
fn forgotten(settings: &Settings, sent: &[Sent]) -> usize {
    let (mut state, mut before, mut count) = (State::empty(settings.clone()), BTreeSet::new(), 0);
    for one in sent {
        let anew = one.order != 0 && state.ring.kept(one.order).is_none();
        count += usize::from(anew && !before.insert(one.order));
        one.perform(&mut state);
    }
    count
}

/// Lists from fresh with none to two in five sent again, some of more than 64 orders: through `order` one by one, through
/// `orders` at once, and through `serve_orders`.
#[test]
fn lists_from_fresh() {
    let mut rng = Rng::new(seed(71));
    let (mut sorts, mut late) = (Counts::new(), 0);
    let lists = times(1000);
    for _ in 0..lists {
        let settings = sites::site_within(&mut rng, Size::Any, 10_000);
        let (plan, length) = (Plan::any(&mut rng), rng.pick(&[20, 60, 100, 160]));
        let sent = list_from_fresh(&mut rng, settings.clone(), length, plan);
        let mut first = vec![rng.word(); book::length(&settings) as usize];
        assert_eq!(caviar::lay(&settings.words(), &mut first).words(), [0, 0, 0]);
        let mut second = first.clone();
        let mut third = vec![rng.word(); first.len()];
        let answers = one_by_one(&mut first, &mut State::empty(settings.clone()), &sent, &mut sorts);
        at_once(&mut rng, &mut second, &sent, &answers);
        served(&settings, &mut third, &sent, &answers);
        assert!(first == second && first == third, "{settings:?}");
        late += forgotten(&settings, &sent);
    }
    println!("seed {}: {lists} lists of orders, by sort {sorts}; sent again when forgotten {late}", seed(71));
    sorts.assert_each(Sort::of_lists(), 30);
    assert!(late >= 100);
}

/// Lists on books with a ring that some list or none made; the room for answers is sometimes less than the list, and
/// some lists have words left over.
#[test]
fn lists_on_ringed_books() {
    let mut rng = Rng::new(seed(72));
    let (mut rooms, mut numbers, mut none) = (Counts::new(), Counts::new(), 0);
    for _ in 0..times(1000) {
        let state = ringed_state(&mut rng, Size::Any, 20_000);
        let plan = Plan::any(&mut rng);
        let sent = list(&mut rng, &mut state.clone(), 40, plan);
        let mut words = list_words(&sent);
        words.truncate(words.len() - rng.below(9) as usize);
        let (mut book, mut theirs) = (book::words(&state), book::words(&state));
        let lent: Vec<u32> = (0..rng.between(100, 130)).map(|_| rng.word()).collect();
        let (mut answers, mut expected) = (lent.clone(), lent.clone());
        let done = caviar::orders_words(&mut book, &words, &mut answers);
        assert_eq!(done.words(), book::orders(&mut theirs, &words, &mut expected).words());
        assert_eq!(answers, expected);
        assert!(book == theirs);
        none += sent.iter().filter(|one| one.order == 0).count();
        answers.chunks_exact(3).take(done.value as usize).for_each(|answer| numbers.add(answer[0].min(29)));
        rooms.add((done.value < 40, words.len() % 8 != 0));
    }
    println!("seed {}: lists on ringed books, by number {numbers}; {none} without an order", seed(72));
    println!("seed {}: by too few and by words left over {rooms}", seed(72));
    numbers.assert_each((3..=22).chain([0, 28, 29]), 30);
    rooms.assert_each([(true, true), (true, false), (false, false)], 30);
    assert!(none >= 300);
}

/// Each clause of the ring's law broken alone: every call on the book is refused by 2 and changes nothing.
#[test]
fn each_clause_broken_alone() {
    let mut rng = Rng::new(seed(73));
    let mut broken = Counts::new();
    for _ in 0..times(300) {
        let settings = sites::site_within(&mut rng, Size::Any, 10_000);
        let mut state = deep_state(&mut rng, settings, 15);
        state.ring = some_ring(&mut rng, &state);
        assert_eq!(caviar::check(&book::words(&state)).words(), [0, 0, 0]);
        for rule in Rule::OF_RING {
            let before = damaged(&mut rng, &state, rule).expect("every ring can break it");
            assert_eq!(book::broken(state.settings.clone(), &before), BTreeSet::from([rule]));
            let mut after = before.clone();
            let (mut answers, mut page) = ([7; 6], [9; 40]);
            let query = Request { kind: 18, ..Request::default() };
            let kept = state.ring.places.iter().flatten().next().map_or(1, |kept| kept.order);
            let refusals = [
                caviar::check(&after),
                caviar::request(&mut after, query),
                caviar::order(&mut after, kept, query),
                caviar::requests_words(&mut after, &[18, 0, 0, 0, 0, 0, 0], &mut answers),
                caviar::orders_words(&mut after, &[18, 0, 0, 0, 0, 0, 0, kept], &mut answers),
                caviar::party(&mut after, 0, &[Guest::default()]),
                caviar::page(&after, 0, &mut page),
                caviar::ask(&after, query).answer,
                caviar::commit(&mut after, state.changes, query),
            ];
            assert_eq!(caviar::charge(&after, 0, 0, 0, caviar::Tariff::default()).number, 2, "{rule:?}");
            assert!(refusals.iter().all(|answer| answer.words() == [2, 0, 0]), "{rule:?} {refusals:?}");
            assert!(after == before && answers == [7; 6] && page == [9; 40], "{rule:?}");
            broken.add(rule);
        }
    }
    println!("seed {}: clauses of the ring's law broken alone {broken}", seed(73));
    broken.assert_each(Rule::OF_RING, times(300));
}

/// Every word of the ring changed by itself, in an empty ring, in a full one and in one with gaps.
#[test]
fn every_word_of_the_ring() {
    let mut rng = Rng::new(seed(74));
    let settings = Settings::from_words(&[1, 1, 1, 1, 1, 1, 1, 1, 1, 0, 1]).expect("settings");
    let mut numbers = Counts::new();
    for turn in 0..times(12) {
        let mut state = State::empty(settings.clone());
        if turn % 3 != 0 {
            state.ring = some_ring(&mut rng, &state);
        }
        let words = book::words(&state);
        let ring = words.len() - 1 - caviar::RING_WORDS;
        for at in ring..words.len() - 1 {
            let mut changed = words.clone();
            let entry = rng.below(64) as usize * 11;
            let other = words[ring + entry];
            changed[at] = rng.pick(&[0, 1, 63, 64, u32::MAX, other, words[at] ^ 1, words[at].wrapping_add(1 << 31)]);
            let answer = caviar::check(&changed);
            assert_eq!(answer.words(), book::check(&changed).words(), "word {at}: {} to {}", words[at], changed[at]);
            numbers.add(answer.number);
        }
    }
    println!("seed {}: words of the ring changed, by number {numbers}", seed(74));
    numbers.assert_each([0, 2], 1000);
}

/// Requests, orders and parties in one list from a freshly laid book, beside the machine, and a page at the end.
#[test]
fn lists_of_calls_from_fresh() {
    let mut rng = Rng::new(seed(75));
    let mut seen = Counts::new();
    for _ in 0..times(800) {
        let settings = sites::site_within(&mut rng, Size::Any, 10_000);
        let mut state = State::empty(settings.clone());
        let mut all: Vec<Call> = opening(&mut rng, &settings).into_iter().map(Call::Request).collect();
        all.iter().for_each(|call| assert_eq!(perform(&mut state, call).words(), [0, 0, 0]));
        let (plan, length) = (Plan::any(&mut rng), rng.pick(&[40, 40, 150]));
        all.extend(calls(&mut rng, &mut state, length, plan));
        let mut words = vec![rng.word(); book::length(&settings) as usize];
        assert_eq!(caviar::lay(&settings.words(), &mut words).words(), [0, 0, 0]);
        let mut machine = State::empty(settings);
        for call in &all {
            let told = on_book(&mut words, call);
            assert_eq!(told, perform(&mut machine, call).words(), "{call:?}");
            assert!(words == book::words(&machine), "{call:?}");
            seen.add((call.name(), told[0] == 0));
        }
        assert_eq!(caviar::check(&words).words(), [0, 0, 0]);
        page_of(&mut rng, &words, &machine);
    }
    println!("seed {}: lists of calls, by sort and done {seen}", seed(75));
    seen.assert_each(["request", "order", "party"].into_iter().flat_map(|name| [(name, true), (name, false)]), 1000);
}

/// The page of some date is the second program's, ring or not.
fn page_of(rng: &mut Rng, words: &[u32], state: &State) {
    let date = rng.below(state.settings.dates);
    let (mut page, mut theirs) = (vec![42; 700], vec![42; 700]);
    let answer = caviar::page(words, date, &mut page);
    assert_eq!(answer.words(), second::page::page(words, date, &mut theirs).words());
    assert_eq!(page, theirs);
}

/// Lists of orders on damaged and lawful books, and layings with them that are refused.
#[test]
fn refused_lists() {
    let mut rng = Rng::new(seed(76));
    let (mut listed, mut laid) = (Counts::new(), Counts::new());
    for turn in 0..times(4000) {
        let settings = site(&mut rng, Size::Small);
        let state = deep_state(&mut rng, settings.clone(), 10);
        let before = if turn % 3 == 0 { book::words(&state) } else { junk_book(&mut rng) };
        let plan = Plan::any(&mut rng);
        let list = list_words(&list(&mut rng, &mut state.clone(), 3, plan));
        let lent: [u32; 10] = std::array::from_fn(|_| rng.word());
        let (mut book, mut theirs, mut answers, mut expected) = (before.clone(), before.clone(), lent, lent);
        let done = caviar::orders_words(&mut book, &list, &mut answers);
        assert_eq!(done.words(), book::orders(&mut theirs, &list, &mut expected).words());
        assert!(book == theirs && answers == expected);
        assert!(done.number == 0 || (book == before && answers == lent));
        listed.add(done.number);

        let words = if turn % 4 == 0 { sites::bad_settings(&mut rng) } else { settings.words() };
        let length = book::length(&settings) as usize + rng.pick(&[0, 0, 1]);
        let mut book: Vec<u32> = (0..length).map(|_| rng.word()).collect();
        let (mut theirs, mut answers, mut expected) = (book.clone(), lent, lent);
        let done = caviar::serve_orders_words(&words, &mut book, &list, &mut answers);
        assert_eq!(done.words(), book::serve_orders(&words, &mut theirs, &list, &mut expected).words());
        assert!(book == theirs && answers == expected);
        laid.add(done.number);
    }
    println!("seed {}: lists of orders by number {listed}; with a laying {laid}", seed(76));
    listed.assert_each([0, 1, 2], 300);
    laid.assert_each([0, 24, 25], 300);
}

/// A client that gets no answer for a random tenth of its orders sends them again, at once or some orders later while they
/// are kept. It ends with the book and the answers of a client that lost none.
#[test]
fn lost_answers() {
    let mut rng = Rng::new(seed(77));
    let mut sent_again = Counts::new();
    for _ in 0..times(1500) {
        let settings = sites::site_within(&mut rng, Size::Any, 5_000);
        let plan = Plan { first: 1, repeats: 0 };
        let sent: Vec<Sent> = list_from_fresh(&mut rng, settings.clone(), 120, plan)
            .into_iter()
            .enumerate()
            .map(|(at, one)| Sent { order: at as u32 + 1, ..one })
            .collect();
        let fresh = book::words(&State::empty(settings));
        let (mut calm, mut troubled) = (fresh.clone(), fresh);
        let expected: Vec<[u32; 3]> = sent.iter().map(|one| order(&mut calm, one).words()).collect();
        let mut got = vec![None; sent.len()];
        for (at, one) in sent.iter().enumerate() {
            let answer = order(&mut troubled, one).words();
            got[at] = Some(answer).filter(|_| !rng.percent(10));
            let missing: Vec<usize> = (at.saturating_sub(50)..=at).filter(|at| got[*at].is_none()).collect();
            for late in missing {
                if late + 50 <= at || at + 1 == sent.len() || rng.percent(20) {
                    got[late] = Some(order(&mut troubled, &sent[late]).words());
                    sent_again.add((at - late).min(3));
                }
            }
        }
        assert!(got.iter().flatten().eq(&expected), "the answers");
        assert!(troubled == calm, "the books");
    }
    println!("seed {}: orders sent again, by how many later (3 for more) {sent_again}", seed(77));
    sent_again.assert_each(0..=3, 500);
}

/// Orders on the largest book, about half full, against the plain engine, which is itself tested against the second
/// program.
#[test]
fn largest_book() {
    let mut rng = Rng::new(seed(78));
    let settings = sites::largest(rng.between(1, 95));
    let mut book = full_book(&mut rng, &settings, 50);
    let mut theirs = book.clone();
    let site = plain::Site::of_book(&book).expect("a full book has its length");
    let requests = plain::traffic::traffic(&site, rng.word(), times(20_000));
    let mut list = Vec::new();
    for (at, request) in requests.iter().enumerate() {
        list.extend(request.words());
        list.push(at as u32 + 1);
        if rng.percent(20) {
            let back = at - rng.below(80).min(at as u32) as usize;
            list.extend(requests[if rng.percent(10) { at } else { back }].words());
            list.push(back as u32 + 1);
        }
    }
    let room = list.len() / 8 * 3;
    let (mut answers, mut expected) = (vec![0; room], vec![0; room]);
    let done = caviar::orders_words(&mut book, &list, &mut answers);
    assert_eq!(done.words(), plain::orders(&mut theirs, &list, &mut expected).words());
    assert!(answers == expected && book == theirs);
    assert_eq!(caviar::check(&book).words(), [0, 0, 0]);
    let mut numbers = Counts::new();
    answers.chunks_exact(3).for_each(|answer| numbers.add(answer[0]));
    println!("seed {}: {} orders on the largest book, by number {numbers}", seed(78), room / 3);
    numbers.assert_each([0, 9, 12, 28], 20);
}

/// A removal and a hotel booking sent again are told what they were told first, though by then there is nothing to remove
/// and no leave to book with; and the ring has the words of rule 18.4.
#[test]
fn done_once() {
    let settings = [2, 2, 2, 3, 2, 2, 1, 2, 1, 0, 4];
    let mut book = vec![0; caviar::book_len(&settings)];
    assert_eq!(book.len(), 771);
    assert_eq!(caviar::lay(&settings, &mut book).words(), [0, 0, 0]);
    let removal = Request { kind: 3, b: 1, first: 0, last: 1, ..Request::default() };
    let leave = Request { kind: 1, ..removal };
    let hotel = Request { kind: 4, a: 1, ..removal };
    for (number, request, expected) in [
        (7, leave, [0, 0, 0]),
        (8, hotel, [0, 0, 0]),
        (9, removal, [0, 0, 2]),
        (9, removal, [0, 0, 2]),
        (8, hotel, [0, 0, 0]),
        (8, leave, [28, 0, 0]),
        (0, hotel, [9, 0, 0]),
    ] {
        assert_eq!(caviar::order(&mut book, number, request).words(), expected);
    }
    assert_eq!(book[65..76], [7, 1, 0, 1, 0, 1, 0, 0, 0, 0, 0]);
    assert_eq!((book[87], book[97], book[769], book[770]), (9, 2, 3, 3));
}

//! Asks and commits against the second program: answer, count and every word of the book; change counts at and near the
//! greatest; lists of calls of every sort; what was seen is what a commit gets; offices in threads over one book.

use caviar::{Asked, Request};
use differential::calls::{on_book, request as ours};
use differential::{seed, times, Counts};
use second::book;
use second::calls::{self, perform, Call};
use second::gen::asking::{calls as mixed, fitting, lent, Lent, Sort, GREATEST};
use second::gen::orders::Plan;
use second::gen::parties::{open_state, standing_meeting, welcome};
use second::gen::requests::{aim, opening, state_after};
use second::gen::{deep_state, full_book, site, sites, Rng, Size};
use second::machine::kinds::changes_something;
use second::machine::{self, State};
use std::collections::BTreeMap;
use std::sync::{Barrier, RwLock};

/// What the engine tells to a call, which must be what the second program tells, as must every word of the book.
fn told(call: &Lent) -> Vec<u32> {
    let (mut words, mut theirs) = (call.book.clone(), call.book.clone());
    let told = on_book(&mut words, &call.call);
    assert_eq!(told, calls::on_book(&mut theirs, &call.call).words(), "{:?}", call.call);
    assert!(words == theirs, "{:?}", call.call);
    assert!(words == call.book || !matches!(call.call, Call::Ask(_)));
    told
}

/// Lawful, damaged and junk books of every change count.
#[test]
fn calls_of_all_sorts() {
    let mut rng = Rng::new(seed(80));
    let (mut sorts, mut numbers) = (Counts::new(), Counts::new());
    let lents = times(16_000);
    for _ in 0..lents {
        let call = lent(&mut rng);
        let told = told(&call);
        match book::calls::open(&call.book) {
            Ok(state) => Sort::of(&state, &call.call).into_iter().for_each(|sort| sorts.add(sort)),
            Err(_) => assert!(told[1..].iter().all(|word| *word == 0)),
        }
        numbers.add((call.call.name(), told[0].min(31)));
    }
    println!("seed {}: {lents} calls, by sort and number: {numbers}; {sorts}", seed(80));
    sorts.assert_each(Sort::all(), 5);
    numbers.assert_each([("ask", 1), ("ask", 2), ("commit", 1), ("commit", 2), ("commit", 29), ("ask", 30)], 200);
}

/// An accepted request of each kind on a book whose last word is changed: at the greatest count it is refused by 30, asked,
/// sent, committed and ordered; one before it, it is done, and the count is the greatest.
#[test]
fn thirty_for_every_kind() {
    let mut rng = Rng::new(seed(81));
    let (mut full, mut last) = (Counts::new(), Counts::new());
    for _ in 0..times(400) {
        let settings = site(&mut rng, Size::Small);
        let mut state = deep_state(&mut rng, settings, 40);
        for _ in 0..12 {
            let request = aim(&mut rng, &state, 0);
            if machine::step(&mut state.clone(), &request).number() != 0 {
                continue;
            }
            let change = changes_something(request.kind);
            state.changes = GREATEST;
            let words = book::words(&state);
            let order = (1..).find(|order| state.ring.kept(*order).is_none()).expect("a number that no order has");
            for call in [
                Call::Request(request),
                Call::Ask(request),
                Call::Commit { count: GREATEST, request },
                Call::Order { order, request },
            ] {
                let given = told(&Lent { book: words.clone(), call });
                assert!(given[0] == if change { 30 } else { 0 } && given[1] == 0, "{request:?}");
            }
            state.changes = GREATEST - 1;
            let call = Call::Commit { count: GREATEST - 1, request };
            let mut words = book::words(&state);
            assert_eq!(told(&Lent { book: words.clone(), call: call.clone() })[0], 0);
            on_book(&mut words, &call);
            assert_eq!(words[words.len() - 1], if change { GREATEST } else { GREATEST - 1 });
            full.add(request.kind);
            last.add((request.kind, words[words.len() - 1] == GREATEST));
            state.changes = 0;
        }
    }
    println!("seed {}: accepted requests at the greatest count, by kind {full}", seed(81));
    full.assert_each(1..=20, 20);
    last.assert_each((1..=20).map(|kind| (kind, changes_something(kind))), 20);
}

/// A party at the greatest count: 30 behind its guests, whose refusals come before; one before it, done.
#[test]
fn parties_at_the_greatest_count() {
    let mut rng = Rng::new(seed(82));
    let mut numbers = Counts::new();
    for _ in 0..times(600) {
        let state = open_state(&mut rng, Size::Small);
        let meeting = standing_meeting(&mut rng, &state);
        let size = rng.pick(&[1, 2, 5, 64]);
        let mut guests = welcome(&mut rng, &state, meeting, size);
        if rng.percent(30) {
            guests.extend(guests.last().copied());
        }
        for changes in [GREATEST, GREATEST - 1] {
            let words = book::words(&State { changes, ..state.clone() });
            let call = Call::Party { meeting, guests: guests.clone() };
            numbers.add((changes == GREATEST, told(&Lent { book: words, call })[0]));
        }
    }
    println!("seed {}: parties by greatest count and number {numbers}", seed(82));
    numbers.assert_each([(true, 30), (false, 0), (true, 11), (false, 11)], 50);
    assert_eq!((numbers.of((true, 0)), numbers.of((false, 30))), (0, 0));
}

/// Requests, orders, parties, asks and commits in one list, from a freshly laid book or from one whose count is near the
/// greatest, beside the machine; and at each commit that 29 does not refuse, every point of the list that has its count
/// is asked for the same request, and tells the same.
#[test]
fn lists_of_calls() {
    let mut rng = Rng::new(seed(83));
    let (mut seen, mut sorts, mut points_asked) = (Counts::new(), Counts::new(), Counts::new());
    for turn in 0..times(700) {
        let settings = sites::site_within(&mut rng, Size::Any, 6000);
        let mut words = vec![rng.word(); book::length(&settings) as usize];
        assert_eq!(caviar::lay(&settings.words(), &mut words).words(), [0, 0, 0]);
        let mut state = State::empty(settings.clone());
        for request in opening(&mut rng, &settings) {
            assert_eq!(
                on_book(&mut words, &Call::Request(request)),
                perform(&mut state, &Call::Request(request)).words()
            );
        }
        if turn % 5 == 4 {
            state.changes = GREATEST - rng.below(12);
            *words.last_mut().expect("a count") = state.changes;
        }
        let plan = Plan::any(&mut rng);
        let mut points: BTreeMap<u32, Vec<Vec<u32>>> = BTreeMap::new();
        for call in mixed(&mut rng, &mut state.clone(), 50, plan) {
            Sort::of(&state, &call).into_iter().for_each(|sort| sorts.add(sort));
            points.entry(state.changes).or_default().push(words.clone());
            let told = on_book(&mut words, &call);
            assert_eq!(told, perform(&mut state, &call).words(), "{call:?}");
            assert!(words == book::words(&state), "{call:?}");
            seen.add((call.name(), told[0] == 0));
            let Call::Commit { count, request } = &call else { continue };
            if told[0] != 29 {
                let there = &points[count];
                let shown = there.iter().map(|point| caviar::ask(point, ours(request)));
                assert!(shown.clone().all(|asked| asked.answer.words().to_vec() == told && asked.count == *count));
                points_asked.add(there.len().min(4));
            }
        }
        assert_eq!(caviar::check(&words).words(), [0, 0, 0]);
    }
    println!(
        "seed {}: lists of calls, by sort and done {seen}; points asked at a commit (4 for more) {points_asked}",
        seed(83)
    );
    let names = ["request", "order", "party", "ask", "commit"];
    seen.assert_each(names.into_iter().flat_map(|name| [(name, true), (name, false)]), 500);
    sorts.assert_each(Sort::of_lists(), 2);
    sorts.assert_each([Sort::LastRise, Sort::FullOrder, Sort::FullQuery, Sort::FullOther, Sort::CommitRefused(30)], 10);
    points_asked.assert_each(1..=4, 100);
}

/// Asks never look into the ring: with every order of the ring taken out, or others in it, they tell the same.
#[test]
fn the_ring_is_not_asked() {
    let mut rng = Rng::new(seed(84));
    let mut seen = Counts::new();
    for _ in 0..times(1500) {
        let settings = site(&mut rng, Size::Small);
        let state = deep_state(&mut rng, settings, 30);
        let other = State { ring: second::gen::orders::some_ring(&mut rng, &state), ..state.clone() };
        let request = fitting(&mut rng, &state);
        let (one, two) = (book::words(&state), book::words(&other));
        let told = caviar::ask(&one, ours(&request));
        assert_eq!(told, caviar::ask(&two, ours(&request)));
        let (mut committed, mut both) = (one.clone(), two.clone());
        assert_eq!(caviar::commit(&mut committed, told.count, ours(&request)), told.answer);
        assert_eq!(caviar::commit(&mut both, told.count, ours(&request)), told.answer);
        let ring = book::ring_base(&state.settings) as usize..one.len() - 1;
        assert!(committed[ring.clone()] == one[ring.clone()] && both[ring.clone()] == two[ring.clone()]);
        seen.add((state.ring != other.ring, told.answer.number == 0));
    }
    println!("seed {}: asks by another ring and done {seen}", seed(84));
    seen.assert_each([(true, true), (true, false)], 100);
}

/// What an office has done: the count that it committed at, its request, and the answer.
type Deed = (u32, [u32; 7], [u32; 3]);

const OFFICES: usize = 4;

/// A request of an office: a room, a transport, a meeting or a lunch, booked or given back.
fn wanted(rng: &mut Rng) -> [u32; 7] {
    let slot = rng.below(4);
    match rng.pick(&[4, 4, 5, 6, 7, 10, 11, 12, 12, 14, 15]) {
        kind @ (4 | 5) => [kind, rng.below(3), rng.below(6), slot / 2, slot / 2, 0, 0],
        kind @ (6 | 7) => [kind, rng.below(2), rng.below(6), slot, slot, 0, 0],
        kind @ (10 | 11) => [kind, rng.below(3), rng.below(6), slot, slot, 0, 0],
        kind @ 14 => [kind, 0, rng.below(3), slot / 2, slot / 2, 1 + rng.below(4), 7],
        kind @ 15 => [kind, 0, rng.below(3), slot / 2, slot / 2, 0, 0],
        kind => [kind, rng.below(2), rng.below(3), slot, slot, 0, rng.word()],
    }
}

/// One office: it asks, shows what it saw, and commits that while others do the same. In some rounds all wait for each
/// other between asking and committing, so that they have seen the same count.
fn office(book: &RwLock<Vec<u32>>, meet: &Barrier, rounds: usize, seed: u64) -> (Vec<Deed>, [usize; 3]) {
    let mut rng = Rng::new(seed);
    let (mut deeds, mut told) = (Vec::new(), [0; 3]);
    for round in 0..rounds {
        let request = wanted(&mut rng);
        let Asked { answer: seen, count } = caviar::ask(&book.read().expect("a book"), Request::from_words(request));
        if round % 2 == 0 {
            meet.wait();
        }
        if seen.number != 0 {
            told[2] += 1;
            continue;
        }
        std::thread::yield_now();
        let answer = caviar::commit(&mut book.write().expect("a book"), count, Request::from_words(request));
        if answer.number == 29 {
            told[1] += 1;
        } else {
            assert_eq!(answer, seen, "what was seen is what is done");
            told[0] += 1;
            deeds.push((count, request, answer.words()));
        }
    }
    (deeds, told)
}

/// Offices that only ask and commit never book anything twice: in the order of their counts all that they did follows
/// one from the other, on the second program's machine too, and is what the book holds.
#[test]
fn offices_never_book_twice() {
    let mut opening: Vec<[u32; 7]> = (0..6).map(|visitor| [1, 0, visitor, 0, 1, 0, 0]).collect();
    opening.extend((0..3).map(|meeting| [8, meeting, 0, 0, 3, 0, 0]));
    let mut state = state_after(&[2, 2, 2, 6, 3, 2, 1, 3, 2, 0, 9], &opening);
    let (book, meet) = (RwLock::new(book::words(&state)), Barrier::new(OFFICES));
    let start = state.changes;
    let works: Vec<(Vec<Deed>, [usize; 3])> = std::thread::scope(|scope| {
        let (book, meet) = (&book, &meet);
        let run = |at: usize| scope.spawn(move || office(book, meet, times(3000), seed(90 + at as u64)));
        let running: Vec<_> = (0..OFFICES).map(run).collect();
        running.into_iter().map(|office| office.join().expect("an office")).collect()
    });
    let mut deeds: Vec<Deed> = works.iter().flat_map(|(deeds, _)| deeds.clone()).collect();
    deeds.sort_by_key(|deed| deed.0);
    let mut taken = BTreeMap::new();
    for (at, (count, request, answer)) in deeds.iter().enumerate() {
        assert_eq!(*count, start + at as u32, "each count is committed at once");
        assert_eq!(machine::step(&mut state, &machine::Request::from_words(*request)).words(), *answer);
        let [kind, a, b, slot, ..] = *request;
        match kind {
            4 | 6 | 12 => assert_eq!(taken.insert((kind, a, slot), b), None, "{request:?} was booked twice"),
            5 | 7 => assert_eq!(taken.remove(&(kind - 1, a, slot)), Some(b), "{request:?}"),
            _ => {}
        }
    }
    assert!(*book.read().expect("a book") == book::words(&state));
    let told = works.iter().fold([0; 3], |sum, (_, told)| [0, 1, 2].map(|at| sum[at] + told[at]));
    println!("seed {}: {OFFICES} offices, done, refused by 29 and not wanted {told:?}", seed(90));
    assert!(told[0] >= 200 && told[1] >= 200, "{told:?}");
}

/// Asks and commits on the largest book, about half full, against the plain engine, which is itself tested against the
/// second program.
#[test]
fn largest_book() {
    let mut rng = Rng::new(seed(85));
    let settings = sites::largest(rng.between(1, 95));
    let mut words = full_book(&mut rng, &settings, 50);
    let site = plain::Site::of_book(&words).expect("a full book has its length");
    let mut theirs = words.clone();
    let mut numbers = Counts::new();
    for request in plain::traffic::traffic(&site, rng.word(), times(120)) {
        let told = caviar::ask(&words, Request::from_words(request.words()));
        let (answer, count) = plain::ask(&theirs, &request);
        assert_eq!((told.answer.words(), told.count), (answer.words(), count), "{request:?}");
        let at = if rng.percent(20) { count.wrapping_sub(1) } else { count };
        let answer = caviar::commit(&mut words, at, Request::from_words(request.words()));
        assert_eq!(answer.words(), plain::commit(&mut theirs, at, &request).words(), "{request:?}");
        assert!(answer == told.answer || answer.number == 29);
        numbers.add(answer.number);
    }
    assert!(words == theirs);
    println!("seed {}: commits on the largest book, by number {numbers}", seed(85));
    numbers.assert_each([0, 29], 5);
}

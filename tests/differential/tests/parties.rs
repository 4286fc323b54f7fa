//! Parties against the second program: answer, every word of the book, and lists that mix them with requests.

use caviar::{Guest, Request};
use differential::calls::{guests as ours, on_book};
use differential::{seed, times, Counts};
use second::book;
use second::calls::{perform, Call};
use second::gen::parties::{calls, lent, Lent, Sort};
use second::gen::requests::{opening, state_after};
use second::gen::{full_book, sites, Rng, Size};
use second::machine::State;
use second::party::party;

/// The engine's answer to a party, which must be the second program's, as must the book; a refusal leaves
/// every word, and no call changes the guests.
fn admitted(call: &Lent) -> [u32; 3] {
    let (mut words, mut theirs) = (call.book.clone(), call.book.clone());
    let guests = ours(&call.guests);
    let answer = caviar::party(&mut words, call.meeting, &guests).words();
    assert_eq!(answer, party(&mut theirs, call.meeting, &call.guests).words(), "{} {:?}", call.meeting, call.guests);
    assert!(words == theirs, "{} {:?}", call.meeting, call.guests);
    assert!(answer[0] == 0 || words == call.book);
    assert_eq!(guests, ours(&call.guests));
    answer
}

/// Books from lists, roomy, full and damaged ones; parties of every size, refused at every place.
#[test]
fn parties_of_all_sorts() {
    let mut rng = Rng::new(seed(60));
    let mut sorts = Counts::new();
    let parties = times(12_000);
    for _ in 0..parties {
        let call = lent(&mut rng);
        let answer = admitted(&call);
        Sort::of(&call, answer).into_iter().for_each(|sort| sorts.add(sort));
    }
    println!("seed {}: {parties} parties, by sort: {sorts}", seed(60));
    sorts.assert_each(Sort::all(), 30);
    sorts.assert_each([1, 2, 27, 5, 6, 7, 9, 11, 13].map(Sort::Refused), 300);
    sorts.assert_each([1, 2].map(Sort::Done), 500);
}

/// Requests and parties in one list from a freshly laid book, beside the machine: answer by answer, and the
/// whole book after each.
#[test]
fn lists_of_calls_from_fresh() {
    let mut rng = Rng::new(seed(61));
    let (mut seen, mut numbers) = (Counts::new(), Counts::new());
    for _ in 0..times(2000) {
        let settings = sites::site_within(&mut rng, Size::Any, 20_000);
        let mut state = State::empty(settings.clone());
        let mut list: Vec<Call> = opening(&mut rng, &settings).into_iter().map(Call::Request).collect();
        list.iter().for_each(|call| assert_eq!(perform(&mut state, call).words(), [0, 0, 0]));
        list.extend(calls(&mut rng, &mut state, 40));
        let mut words = vec![rng.word(); book::length(&settings) as usize];
        assert_eq!(caviar::lay(&settings.words(), &mut words).words(), [0, 0, 0]);
        let mut machine = State::empty(settings);
        for call in &list {
            let told = on_book(&mut words, call);
            assert_eq!(told, perform(&mut machine, call).words(), "{call:?}");
            assert!(words == book::words(&machine), "{call:?}");
            match call {
                Call::Party { .. } => numbers.add(told[0]),
                _ => seen.add(("request", told[0] == 0)),
            }
        }
        assert_eq!(caviar::check(&words).words(), [0, 0, 0]);
    }
    println!("seed {}: lists of calls, requests {seen}, parties by number {numbers}", seed(61));
    seen.assert_each([("request", true), ("request", false)], 1000);
    numbers.assert_each([0, 27, 5, 6, 7, 9, 10, 11, 13], 50);
}

/// A party that is done leaves what its requests of kind 10 leave, but for the count, and the engine answers each of
/// them with done; a party that is refused has the first of their refusals.
#[test]
fn a_party_is_its_requests() {
    let mut rng = Rng::new(seed(62));
    let mut seen = Counts::new();
    for _ in 0..times(3000) {
        let call = lent(&mut rng);
        if !(1..=64).contains(&call.guests.len()) || book::check(&call.book).number() != 0 {
            continue;
        }
        let list: Vec<Request> =
            call.guests.iter().map(|guest| Request::from_words(guest.joining(call.meeting).words())).collect();
        let (mut singly, mut together) = (call.book.clone(), call.book.clone());
        let mut answers = vec![caviar::Answer::default(); list.len()];
        assert_eq!(caviar::requests(&mut singly, &list, &mut answers).words(), [0, 0, list.len() as u32]);
        let answer = caviar::party(&mut together, call.meeting, &ours(&call.guests));
        let refused = answers.iter().find(|answer| answer.number != 0);
        assert_eq!(answer.words(), refused.map_or([0, 0, 0], |refusal| refusal.words()));
        let count = together.len() - 1;
        assert_eq!(together[count], call.book[count] + u32::from(refused.is_none()));
        singly[count] = together[count];
        assert!(together == if refused.is_none() { singly } else { call.book });
        seen.add(refused.is_none());
    }
    println!("seed {}: parties beside their requests, by done {seen}", seed(62));
    seen.assert_each([true, false], 500);
}

/// Lists of every length from none to some more than 64, and very long ones.
#[test]
fn every_number_of_guests() {
    let mut rng = Rng::new(seed(63));
    let leave = (0..40).map(|visitor| [1, 0, visitor, 0, 3, 0, 0]);
    let opening: Vec<[u32; 7]> = leave.chain([[8, 2, 0, 0, 23, 0, 0]]).collect();
    let state = state_after(&[4, 6, 1, 40, 3, 2, 1, 1, 1, 0, 5], &opening);
    let mut numbers = Counts::new();
    for guests in (0..80).chain([128, 192, 193, 1000, 65_536, 1_000_000]) {
        let start = rng.below(40 * 24);
        let guest = |at: u32| {
            let (visitor, session) = ((start + at) % 40, (start + at) / 40 % 24);
            second::party::Guest { visitor, first: session, last: session }
        };
        let call = Lent { book: book::words(&state), meeting: 2, guests: (0..guests).map(guest).collect() };
        let answer = admitted(&call);
        assert_eq!(answer[0] == 27, guests == 0 || guests > 64, "{guests} guests");
        numbers.add(answer[0]);
    }
    println!("seed {}: parties of every size, by number {numbers}", seed(63));
    assert_eq!((numbers.of(0), numbers.of(27)), (64, 22));
}

/// A guest for the meeting in a session or two, anywhere in the site or in its last sessions.
fn some_guest(rng: &mut Rng) -> plain::party::Guest {
    let first = if rng.percent(30) { rng.between(6390, 6399) } else { rng.below(6400) };
    [rng.below(512), first, (first + rng.below(2)).min(6399)]
}

/// Up to so many guests who can all be added, found by the plain engine's own steps, which are undone again, the count
/// too.
fn welcome(rng: &mut Rng, site: &plain::Site, book: &mut [u32], meeting: u32, size: usize) -> Vec<plain::party::Guest> {
    let step = |book: &mut [u32], kind, [visitor, first, last]: plain::party::Guest| {
        plain::step(site, book, &plain::Request::new([kind, meeting, visitor, first, last, 0, 0])).number
    };
    let (mut guests, count) = (Vec::new(), book[site.length - 1]);
    for _ in 0..100 + 40 * size {
        let guest = some_guest(rng);
        if guests.len() < size && step(book, 10, guest) == 0 {
            guests.push(guest);
        }
    }
    guests.iter().for_each(|guest| assert_eq!(step(book, 11, *guest), 0));
    book[site.length - 1] = count;
    guests
}

/// Parties on the largest book, about half full, against the plain engine, which is itself tested against the
/// second program.
#[test]
fn largest_book() {
    let mut rng = Rng::new(seed(64));
    let settings = sites::largest(rng.between(1, 95));
    let mut book = full_book(&mut rng, &settings, 50);
    let mut theirs = book.clone();
    let site = plain::Site::of_book(&book).expect("a full book has its length");
    let mut numbers = Counts::new();
    for turn in 0..times(60) {
        let meeting = rng.below(128);
        let size = rng.pick(&[1, 5, 64, 64]);
        let mut guests = welcome(&mut rng, &site, &mut theirs, meeting, size);
        if turn % 3 == 0 {
            let at = rng.below(guests.len() as u32 + 1) as usize;
            guests.insert(at, some_guest(&mut rng));
            guests.truncate(64);
        }
        let lent: Vec<Guest> = guests.iter().map(|words| Guest::from_words(*words)).collect();
        let answer = caviar::party(&mut book, meeting, &lent);
        assert_eq!(answer.words(), plain::party(&mut theirs, meeting, &guests).words(), "{meeting} {guests:?}");
        assert!(book == theirs, "{meeting} {guests:?}");
        numbers.add((answer.number == 0, guests.len()));
    }
    println!("seed {}: parties on the largest book, by done and guests {numbers}", seed(64));
    numbers.assert_each([(true, 1), (true, 5), (true, 64), (false, 64)], 2);
}

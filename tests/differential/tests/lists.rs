//! Requests and lists against the second program, answer by answer and word by word.

use caviar::Request;
use differential::reached::{pairs, Reached};
use differential::{seed, times, Counts};
use second::book::{
    self,
    regions::{address, Name},
};
use second::gen::conflicts::edges;
use second::gen::early;
use second::gen::endings::Ending;
use second::gen::{deep_state, full_book, junk_book, list, list_from_fresh, site, sites, Mix, Rng, Size};
use second::machine::{self, Answer, Settings, State};

fn ours(request: &machine::Request) -> Request {
    Request::from_words(request.words())
}

fn words_of(requests: &[machine::Request]) -> Vec<u32> {
    requests.iter().flat_map(|request| request.words()).collect()
}

/// Each request of the list through `request`, which checks the book each time, beside the machine.
fn one_by_one(book: &mut [u32], state: &mut State, requests: &[machine::Request], reached: &mut Reached) -> Vec<u32> {
    let mut answers = Vec::new();
    for request in requests {
        let before = book.to_vec();
        let answer = caviar::request(book, ours(request));
        Ending::of(state, request).into_iter().for_each(|sort| reached.endings.add(sort));
        early::Sort::of(state, request).into_iter().for_each(|sort| reached.early.add(sort));
        let expected = machine::step(state, request);
        assert_eq!(answer.words(), expected.words(), "{request:?} {:?}", state.settings);
        match expected {
            Answer::Done(_) => assert!(*book == book::words(state), "{request:?} {:?}", state.settings),
            Answer::Refused { .. } => assert!(*book == before, "refused, and the book changed: {request:?}"),
        }
        reached.add(request.kind, answer.number);
        answers.extend(answer.words());
    }
    answers
}

/// Lists from fresh: through `request` one by one, through `requests` at once, and through `serve`.
#[test]
fn lists_from_fresh() {
    let mut rng = Rng::new(seed(20));
    let mut reached = Reached::default();
    let lists = times(2000);
    for _ in 0..lists {
        let settings = sites::site_within(&mut rng, Size::Any, 20_000);
        let requests = list_from_fresh(&mut rng, settings.clone(), 70, Mix::USUAL);
        let length = book::length(&settings) as usize;
        let mut first = vec![rng.word(); length];
        assert_eq!(caviar::lay(&settings.words(), &mut first).words(), [0, 0, 0]);
        let mut second = first.clone();
        let mut state = State::empty(settings.clone());
        let answers = one_by_one(&mut first, &mut state, &requests, &mut reached);
        at_once(&mut rng, &mut second, &requests, &answers);
        assert!(first == second, "{settings:?}");
        let mut third = vec![rng.word(); length];
        served(&settings, &mut third, &requests, &answers);
        assert!(first == third, "{settings:?}");
    }
    reached.print(&format!("{lists} lists from fresh"), seed(20));
    reached.done.assert_each(1..=20, 300);
    reached.numbers.assert_each(3..=22, 100);
    reached.refused.assert_each(pairs(4..=22), 10);
    println!("seed {}: sorts of kind 9 {}", seed(20), reached.endings);
    reached.endings.assert_each(Ending::ALL, 15);
    println!("seed {}: early times {}", seed(20), reached.early);
    reached.early.assert_each(early::Sort::ALL, 30);
}

/// The list through `requests`, with words to spare at both ends.
fn at_once(rng: &mut Rng, book: &mut [u32], requests: &[machine::Request], answers: &[u32]) {
    let mut list = words_of(requests);
    list.extend((0..rng.below(7)).map(|_| 1));
    let spare = rng.below(9) as usize;
    let mut got = vec![0xabcd_ef01; answers.len() + spare];
    let done = caviar::requests_words(book, &list, &mut got);
    assert_eq!(done.words(), [0, 0, requests.len() as u32]);
    assert_eq!(got[..answers.len()], *answers);
    assert!(got[answers.len()..].iter().all(|word| *word == 0xabcd_ef01));
}

/// The list through `serve`, with typed requests and answers.
fn served(settings: &Settings, book: &mut [u32], requests: &[machine::Request], answers: &[u32]) {
    let list: Vec<Request> = requests.iter().map(ours).collect();
    let mut got = vec![caviar::Answer::default(); list.len()];
    let done = caviar::serve(&settings.words(), book, &list, &mut got);
    assert_eq!(done.words(), [0, 0, list.len() as u32]);
    let got: Vec<u32> = got.iter().flat_map(|answer| answer.words()).collect();
    assert_eq!(got, answers);
}

/// Lists on deep books of all sites; the room for answers is sometimes less than the list.
#[test]
fn lists_on_deep_books() {
    let mut rng = Rng::new(seed(21));
    let (mut reached, mut rooms) = (Reached::default(), Counts::new());
    for _ in 0..times(400) {
        let settings = sites::site_within(&mut rng, Size::Any, 20_000);
        let mut state = deep_state(&mut rng, settings, 60);
        let mut book = book::words(&state);
        let mut theirs = book.clone();
        let requests = list(&mut rng, &mut state, 40, Mix::USUAL);
        let list = words_of(&requests);
        let room = rng.between(100, 130) as usize;
        let (mut answers, mut expected) = (vec![5; room], vec![5; room]);
        let done = caviar::requests_words(&mut book, &list, &mut answers);
        assert_eq!(done.words(), book::requests(&mut theirs, &list, &mut expected).words());
        assert_eq!(answers, expected);
        assert!(book == theirs);
        reached.add_list(&list, &answers);
        rooms.add(if room / 3 < requests.len() { "less" } else { "enough" });
    }
    reached.print("lists on deep books", seed(21));
    reached.done.assert_each(1..=20, 50);
    reached.numbers.assert_each(3..=22, 20);
    reached.refused.assert_each(pairs(8..=22), 15);
    rooms.assert_each(["less", "enough"], 50);
}

/// Every fault of form, alone and with each other, on a deep book of each size.
#[test]
fn faults_of_form() {
    let mut rng = Rng::new(seed(22));
    let mut reached = Reached::default();
    for turn in 0..times(16) {
        let size = [Size::One, Size::Small, Size::Table, Size::Small][turn % 4];
        let settings = site(&mut rng, size);
        let mut state = deep_state(&mut rng, settings, 30);
        let requests = edges(&mut rng, &state);
        let mut book = book::words(&state);
        one_by_one(&mut book, &mut state, &requests, &mut reached);
    }
    reached.print("faults of form", seed(22));
    reached.numbers.assert_each([3], 20);
    reached.refused.assert_each(pairs(4..=8), 32);
}

/// Calls on damaged and lawful books: one request, a list, a laying with a list. A refusal leaves
/// book and answers as they were.
#[test]
fn raw_books() {
    let mut rng = Rng::new(seed(23));
    let (mut reached, mut lists) = (Reached::default(), Counts::new());
    for turn in 0..times(16_000) {
        let settings = site(&mut rng, Size::Small);
        let mut state = deep_state(&mut rng, settings, 15);
        let before = if turn % 2 == 0 { book::words(&state) } else { junk_book(&mut rng) };
        let requests = list(&mut rng, &mut state, 3, Mix::USUAL);
        let request = requests[0];
        let (mut one, mut theirs) = (before.clone(), before.clone());
        let answer = caviar::request(&mut one, ours(&request));
        assert_eq!(answer.words(), book::request(&mut theirs, &request).words(), "{request:?}");
        assert_eq!(one, theirs);
        match answer.number {
            0 => {}
            _ => assert_eq!(one, before),
        }
        reached.add(request.kind, answer.number);
        lists.add(list_on_raw(&before, &words_of(&requests)));
    }
    reached.print("calls on raw books", seed(23));
    println!("seed {}: lists on raw books by number {lists}", seed(23));
    reached.done.assert_each(1..=20, 5);
    reached.numbers.assert_each(3..=22, 4);
    reached.numbers.assert_each([1, 2], 1000);
    lists.assert_each([0, 1, 2], 1000);
}

/// The number that a list on these words is answered with.
fn list_on_raw(before: &[u32], list: &[u32]) -> u32 {
    let (mut book, mut theirs) = (before.to_vec(), before.to_vec());
    let (mut answers, mut expected) = ([3; 10], [3; 10]);
    let done = caviar::requests_words(&mut book, list, &mut answers);
    assert_eq!(done.words(), book::requests(&mut theirs, list, &mut expected).words());
    assert_eq!((book, answers), (theirs, expected));
    if done.number != 0 {
        assert_eq!(answers, [3; 10]);
    }
    done.number
}

/// `serve` on good and bad settings and lengths.
#[test]
fn serve_refusals() {
    let mut rng = Rng::new(seed(24));
    let mut numbers = Counts::new();
    for _ in 0..times(1000) {
        let good = site(&mut rng, Size::Small);
        let requests = list_from_fresh(&mut rng, good.clone(), 6, Mix::USUAL);
        let words = match rng.below(3) {
            0 => sites::bad_settings(&mut rng),
            _ => good.words(),
        };
        let length = book::length(&good) as usize + rng.pick(&[0, 0, 1]);
        let mut book: Vec<u32> = (0..length).map(|_| rng.word()).collect();
        let mut theirs = book.clone();
        let list = words_of(&requests);
        let (mut answers, mut expected) = ([3; 18], [3; 18]);
        let done = caviar::serve_words(&words, &mut book, &list, &mut answers);
        assert_eq!(done.words(), book::serve(&words, &mut theirs, &list, &mut expected).words());
        assert_eq!((book, answers), (theirs, expected));
        numbers.add(done.number);
    }
    println!("seed {}: serve by number {numbers}", seed(24));
    numbers.assert_each([0, 24, 25], 100);
}

/// Books about half full with the trial load on them, and the largest book against the plain
/// engine, which is itself tested against the second program.
#[test]
fn full_books() {
    let mut rng = Rng::new(seed(25));
    let mut reached = Reached::default();
    for _ in 0..times(40) {
        let settings = sites::site_within(&mut rng, Size::Any, 60_000);
        let mut book = full_book(&mut rng, &settings, 50);
        let mut theirs = book.clone();
        let list = load(&book, rng.word(), 300);
        let (mut answers, mut expected) = (vec![0; 900], vec![0; 900]);
        let done = caviar::requests_words(&mut book, &list, &mut answers);
        assert_eq!(done.words(), book::requests(&mut theirs, &list, &mut expected).words());
        assert_eq!(answers, expected);
        assert!(book == theirs);
        reached.add_list(&list, &answers);
    }
    reached.print("trial load on full books", seed(25));
    reached.done.assert_each(1..=20, 5);
    reached.numbers.assert_each(8..=22, 20);
}

#[test]
fn largest_book() {
    let mut rng = Rng::new(seed(26));
    let settings = sites::largest(rng.between(1, 95));
    let mut book = full_book(&mut rng, &settings, 50);
    let mut theirs = book.clone();
    let mut reached = Reached::default();
    let mut list = load(&book, rng.word(), times(20_000));
    list.extend(words_of(&erasures(&mut rng, &book, &settings, times(100))));
    let room = list.len() / 7 * 3;
    let (mut answers, mut expected) = (vec![0; room], vec![0; room]);
    let done = caviar::requests_words(&mut book, &list, &mut answers);
    assert_eq!(done.words(), plain::requests(&mut theirs, &list, &mut expected).words());
    assert!(answers == expected);
    assert!(book == theirs);
    assert_eq!(caviar::check(&book).words(), [0, 0, 0]);
    reached.add_list(&list, &answers);
    reached.print("trial load and erasures on the largest book", seed(26));
    reached.done.assert_each(1..=20, 20);
    reached.numbers.assert_each((9..=21).filter(|number| *number != 14), 20);
}

/// The trial load of the plain engine, as words.
fn load(book: &[u32], seed: u32, count: usize) -> Vec<u32> {
    let site = plain::Site::of_book(book).expect("a full book has its length");
    let requests = plain::traffic::traffic(&site, seed, count);
    requests.iter().flat_map(|r| [r.kind, r.a, r.b, r.first, r.last, r.n, r.info]).collect()
}

/// So many erasures of each kind that takes a pair, of entries that stand in the book.
fn erasures(rng: &mut Rng, book: &[u32], s: &Settings, each: usize) -> Vec<machine::Request> {
    let regions = [
        (5, Name::Hotel, s.dates, s.hotel_rooms),
        (7, Name::Ride, s.times(), s.transports),
        (11, Name::Attend, s.sessions(), s.visitors),
        (15, Name::Lunch, s.dates, s.meetings),
    ];
    let mut all = Vec::new();
    for (kind, region, slots, items) in regions {
        let before = all.len();
        while all.len() < before + each {
            let (slot, item) = (rng.below(slots), rng.below(items));
            let cell = book[address(s, region, slot, item)];
            if cell != 0 {
                let (a, b) = if matches!(kind, 5 | 7) { (item, cell - 1) } else { (cell - 1, item) };
                all.push(machine::Request { kind, a, b, first: slot, last: slot, n: 0, info: 0 });
            }
        }
    }
    all
}

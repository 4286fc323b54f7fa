//! The exported functions stay inside what they are lent: every slice lies between pages that nobody
//! may touch, against the one before its first word and against the one behind its last, and what is
//! only read may not be written.

use caviar::{Guest, Request, Tariff};
use differential::calls::request as ours;
use differential::guarded::{End, Guarded};
use differential::{seed, times, Counts};
use second::book;
use second::calls::{on_book, Call};
use second::gen::asking;
use second::gen::charges;
use second::gen::orders;
use second::gen::pages::{lent, Lent};
use second::gen::parties;
use second::gen::{deep_state, junk_book, list, sites, Mix, Rng, Size};
use second::machine;
use std::os::unix::process::ExitStatusExt;
use std::process::{Command, Stdio};

/// Settings, a book and a list, each good more often than not.
struct Words {
    settings: Vec<u32>,
    book: Vec<u32>,
    requests: Vec<machine::Request>,
    /// The requests, and sometimes a part of one more.
    list: Vec<u32>,
    /// How many words of answers are lent: sometimes less than the list asks for.
    answers: usize,
}

fn words_of(rng: &mut Rng, turn: usize) -> Words {
    let site = sites::site_within(rng, Size::Any, 20_000);
    let mut state = deep_state(rng, site.clone(), 30);
    let book = if turn.is_multiple_of(3) { junk_book(rng) } else { book::words(&state) };
    let requests = list(rng, &mut state, 25, Mix::USUAL);
    let mut list: Vec<u32> = requests.iter().flat_map(|request| request.words()).collect();
    list.truncate(list.len() - turn % 8);
    let settings = if turn.is_multiple_of(5) { sites::bad_settings(rng) } else { site.words() };
    Words { settings, book, requests, list, answers: 75 - turn % 4 }
}

/// How often each function was answered with each number, at each end.
type Answered = Counts<(&'static str, End, u32)>;

fn read_only_calls(words: &Words, end: End, answered: &mut Answered) {
    let settings = Guarded::new(&words.settings, end).read_only();
    let length = caviar::book_len(settings.words());
    assert_eq!(length as u64, book::book_len(&words.settings));
    answered.add(("book_len", end, u32::from(length == 0)));
    let lent = Guarded::new(&words.book, end).read_only();
    let checked = caviar::check(lent.words());
    assert_eq!(checked.words(), book::check(&words.book).words());
    answered.add(("check", end, checked.number));
}

/// The page of a date, on a book that may not be written; the page is longer, shorter, or as long as its lines.
fn page_call(rng: &mut Rng, end: End, answered: &mut Answered) {
    let Lent { book, date, page } = lent(rng);
    let words = Guarded::new(&book, end).read_only();
    let (mut bytes, mut theirs) = (Guarded::new(&page, end), page.clone());
    let answer = caviar::page(words.words(), date, bytes.words_mut());
    assert_eq!(answer.words(), second::page::page(&book, date, &mut theirs).words());
    assert!(bytes.words() == theirs);
    answered.add(("page", end, answer.number));
}

/// A charge, on a book that may not be written.
fn charge_call(rng: &mut Rng, end: End, answered: &mut Answered) {
    let charges::Lent { book, meeting, first, last, tariff } = charges::lent(rng);
    let words = Guarded::new(&book, end).read_only();
    let of = Tariff { room: tariff.room, seat: tariff.seat, percent: tariff.percent };
    let told = caviar::charge(words.words(), meeting, first, last, of);
    let expected = second::charge::charge(&book, meeting, first, last, &tariff).words();
    assert_eq!([u64::from(told.number), u64::from(told.place), told.value], expected);
    answered.add(("charge", end, told.number));
}

/// A party: its guests may not be written.
fn party_call(rng: &mut Rng, end: End, answered: &mut Answered) {
    let parties::Lent { book, meeting, guests } = parties::lent(rng);
    let list: Vec<Guest> = guests.iter().map(|guest| Guest::from_words(guest.words())).collect();
    let lent = Guarded::new(&list, end).read_only();
    let (mut words, mut theirs) = (Guarded::new(&book, end), book.clone());
    let answer = caviar::party(words.words_mut(), meeting, lent.words());
    assert_eq!(answer.words(), second::party::party(&mut theirs, meeting, &guests).words());
    assert!(words.words() == theirs);
    answered.add(("party", end, answer.number));
}

/// An order, and lists of them with a remainder of words, on a book and with a laying.
fn order_calls(rng: &mut Rng, words: &Words, end: End, answered: &mut Answered) {
    let orders::Lent { book, sent } = orders::lent(rng);
    let (mut lent, mut theirs) = (Guarded::new(&book, end), book.clone());
    let answer = caviar::order(lent.words_mut(), sent.order, Request::from_words(sent.request.words()));
    assert_eq!(answer.words(), book::order(&mut theirs, sent.order, &sent.request).words());
    assert!(lent.words() == theirs);
    answered.add(("order", end, if answer.number == 28 { 28 } else { answer.number.min(3) }));

    let mut list: Vec<u32> = words.requests.iter().flat_map(|request| request.words()).collect();
    list.truncate(list.len() - rng.below(9) as usize);
    list[7] = sent.order;
    let list = Guarded::new(&list, end).read_only();
    let mut answers = Guarded::new(&vec![9; words.answers], end);
    let mut expected = vec![9; words.answers];
    let done = caviar::orders_words(lent.words_mut(), list.words(), answers.words_mut());
    assert_eq!(done.words(), book::orders(&mut theirs, list.words(), &mut expected).words());
    assert!(lent.words() == theirs && answers.words() == expected);
    answered.add(("orders", end, done.number));

    let settings = Guarded::new(&words.settings, end).read_only();
    let (mut lent, mut theirs) = (Guarded::new(&words.book, end), words.book.clone());
    let done = caviar::serve_orders_words(settings.words(), lent.words_mut(), list.words(), answers.words_mut());
    assert_eq!(done.words(), book::serve_orders(&words.settings, &mut theirs, list.words(), &mut expected).words());
    assert!(lent.words() == theirs && answers.words() == expected);
    answered.add(("serve_orders", end, done.number));
}

/// Asking, on a book that may not be written, and committing.
fn ask_and_commit(rng: &mut Rng, end: End, answered: &mut Answered) {
    let asking::Lent { book, call } = asking::lent(rng);
    let mut theirs = book.clone();
    let expected = on_book(&mut theirs, &call).words();
    match &call {
        Call::Ask(request) => {
            let lent = Guarded::new(&book, end).read_only();
            let told = caviar::ask(lent.words(), ours(request));
            assert_eq!([&told.answer.words()[..], &[told.count]].concat(), expected);
            answered.add(("ask", end, if told.answer.number == 30 { 30 } else { told.answer.number.min(3) }));
        }
        Call::Commit { count, request } => {
            let mut lent = Guarded::new(&book, end);
            let answer = caviar::commit(lent.words_mut(), *count, ours(request));
            assert_eq!(answer.words().to_vec(), expected);
            assert!(lent.words() == theirs);
            answered.add(("commit", end, if answer.number >= 29 { answer.number } else { answer.number.min(3) }));
        }
        _ => {}
    }
}

/// One request after the other: a later one finds the book that the earlier ones left.
fn single_calls(words: &Words, end: End, answered: &mut Answered) {
    let (mut lent, mut theirs) = (Guarded::new(&words.book, end), words.book.clone());
    for request in &words.requests[..3] {
        let answer = caviar::request(lent.words_mut(), Request::from_words(request.words()));
        assert_eq!(answer.words(), book::request(&mut theirs, request).words());
        assert!(lent.words() == theirs);
        answered.add(("request", end, answer.number.min(3)));
    }
    let settings = Guarded::new(&words.settings, end).read_only();
    let answer = caviar::lay(settings.words(), lent.words_mut());
    assert_eq!(answer.words(), book::lay(&words.settings, &mut theirs).words());
    assert!(lent.words() == theirs);
    answered.add(("lay", end, answer.number));
}

fn list_calls(words: &Words, end: End, answered: &mut Answered) {
    let settings = Guarded::new(&words.settings, end).read_only();
    let list = Guarded::new(&words.list, end).read_only();
    let mut answers = Guarded::new(&vec![9; words.answers], end);
    let mut lent = Guarded::new(&words.book, end);
    let (mut theirs, mut expected) = (words.book.clone(), vec![9; words.answers]);

    let done = caviar::requests_words(lent.words_mut(), list.words(), answers.words_mut());
    assert_eq!(done.words(), book::requests(&mut theirs, &words.list, &mut expected).words());
    assert!(lent.words() == theirs && answers.words() == expected);
    answered.add(("requests", end, done.number));

    let done = caviar::serve_words(settings.words(), lent.words_mut(), list.words(), answers.words_mut());
    assert_eq!(done.words(), book::serve(&words.settings, &mut theirs, &words.list, &mut expected).words());
    assert!(lent.words() == theirs && answers.words() == expected);
    answered.add(("serve", end, done.number));
}

#[test]
fn inside_what_is_lent() {
    let mut rng = Rng::new(seed(40));
    let mut answered = Answered::new();
    let turns = times(600);
    for turn in 0..turns {
        let words = words_of(&mut rng, turn);
        for end in [End::First, End::Last] {
            read_only_calls(&words, end, &mut answered);
            single_calls(&words, end, &mut answered);
            list_calls(&words, end, &mut answered);
            (0..2).for_each(|_| order_calls(&mut rng, &words, end, &mut answered));
            (0..3).for_each(|_| page_call(&mut rng, end, &mut answered));
            (0..3).for_each(|_| party_call(&mut rng, end, &mut answered));
            (0..3).for_each(|_| charge_call(&mut rng, end, &mut answered));
            (0..8).for_each(|_| ask_and_commit(&mut rng, end, &mut answered));
        }
    }
    println!("seed {}: {turns} turns between guard pages, by function, end and number: {answered}", seed(40));
    let met = [
        ("book_len", vec![0, 1]),
        ("check", vec![0, 1, 2]),
        ("request", vec![0, 1, 2, 3]),
        ("lay", vec![0, 24, 25]),
        ("requests", vec![0, 1, 2]),
        ("serve", vec![0, 24, 25]),
        ("order", vec![0, 1, 2, 3, 28]),
        ("orders", vec![0, 1, 2]),
        ("serve_orders", vec![0, 24, 25]),
        ("page", vec![0, 1, 2, 7, 26]),
        ("party", vec![0, 1, 2, 27, 5, 6, 7, 9, 10, 11, 13]),
        ("ask", vec![0, 1, 2, 3, 30]),
        ("charge", vec![0, 1, 2, 6, 7, 31]),
        ("commit", vec![0, 1, 2, 29, 3, 30]),
    ];
    for (function, numbers) in met {
        for end in [End::First, End::Last] {
            answered.assert_each(numbers.iter().map(|number| (function, end, *number)), 30);
        }
    }
}

/// Words too short for settings or for a book: from none to some more than the eleven that the smallest settings have. Of
/// nothing behind them may a word be read.
#[test]
fn inside_words_that_are_too_short() {
    let site = [2, 2, 2, 3, 2, 2, 2, 2, 1, 1, 4, 5];
    let taxi = machine::Request::from_words([6, 0, 0, 0, 0, 0, 0]);
    for length in 0..=site.len() {
        for end in [End::First, End::Last] {
            let short = Guarded::new(&site[..length], end).read_only();
            let words = short.words();
            assert_eq!(caviar::book_len(words) as u64, book::book_len(&site[..length]), "{length} words");
            assert_eq!(caviar::check(words).words(), [1, 0, 0], "{length} words");
            let mut lent = Guarded::new(&site[..length], end);
            assert_eq!(caviar::request(lent.words_mut(), Request::from_words(taxi.words())).words(), [1, 0, 0]);
            assert_eq!(caviar::ask(words, ours(&taxi)), caviar::Asked { answer: caviar::check(words), count: 0 });
            assert_eq!(caviar::commit(lent.words_mut(), 0, ours(&taxi)).words(), [1, 0, 0]);
            assert_eq!(caviar::charge(words, 9, 1, 0, Tariff::default()).number, 1);
            let laid = caviar::lay(words, lent.words_mut());
            assert_eq!(laid.words(), [if length == site.len() { 25 } else { 24 }, 0, 0], "{length} words");
            assert!(lent.words() == &site[..length]);
        }
    }
}

/// What a process of its own does that must end it: a read beside the words, or a write to words that
/// are only read. Run by the test below.
#[test]
#[ignore = "ends its process"]
fn touches() {
    let words = |end| Guarded::new(&[1_u32, 2, 3], end);
    match std::env::var("TOUCH").expect("what to touch").as_str() {
        // SAFETY: none; the process is meant to end here.
        "before" => unsafe { std::ptr::read_volatile(words(End::First).words().as_ptr().sub(1)) },
        "behind" => unsafe { std::ptr::read_volatile(words(End::Last).words().as_ptr().add(3)) },
        "only read" => {
            let mut lent = words(End::First).read_only();
            lent.words_mut()[0] = 7;
            lent.words()[0]
        }
        _ => words(End::Last).words()[2],
    };
}

/// The guards hold: else the test above would pass whatever a function does.
#[test]
fn guards_end_a_process_that_touches_them() {
    for (touched, signal) in [("before", Some(11)), ("behind", Some(11)), ("only read", Some(11)), ("inside", None)] {
        let mut command = Command::new(std::env::current_exe().expect("this test"));
        command.args(["--ignored", "--exact", "touches"]).env("TOUCH", touched).stdout(Stdio::null());
        assert_eq!(command.status().expect("a process").signal(), signal, "{touched}");
    }
}

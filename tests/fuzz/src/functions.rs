//! The exported functions against the second program, on one input.

use crate::material::Bytes;
use crate::reached;
use second::book;
use second::charge::{self, Tariff};
use second::gen::early;
use second::gen::orders::{list_words, Sent};
use second::machine::{Request, Settings, State};
use second::party::Guest;

/// More than a ring has places.
const MOST_REQUESTS: usize = 100;
const ANSWER: usize = 0;
const RULE: usize = 1000;
const WAY: usize = 3000;
const PAGE: usize = 3100;
const MOST_PAGE: usize = 400;
const PARTY: usize = 3950;
const MOST_GUESTS: u8 = 70;
const ORDER: usize = 2500;
const AGAIN: usize = 2600;
const EARLY: usize = 2700;
const ASK: usize = 2750;
const COMMIT: usize = 2800;
const CHARGE: usize = 2850;

pub fn run(input: &[u8]) {
    let mut bytes = Bytes(input);
    let way = bytes.byte() % 4;
    reached(WAY + usize::from(way));
    match way {
        0 => raw(bytes),
        1 => damaged(bytes),
        _ => list(bytes),
    }
}

fn ours(request: &Request) -> caviar::Request {
    caviar::Request::from_words(request.words())
}

/// Requests, some with orders; one of them may be sent again.
fn requests(bytes: &mut Bytes) -> Vec<Sent> {
    let mut sent: Vec<Sent> = Vec::new();
    while !bytes.is_empty() && sent.len() < MOST_REQUESTS {
        let order = bytes.order();
        let again = sent.iter().rfind(|before| before.order == order && order != 0).copied();
        let again = again.filter(|_| bytes.byte() % 2 == 0);
        sent.push(again.unwrap_or_else(|| Sent { order, request: bytes.request() }));
    }
    sent
}

/// Raw words as settings and as a book.
fn raw(bytes: Bytes) {
    let words = bytes.raw();
    assert_eq!(caviar::book_len(&words) as u64, book::book_len(&words));
    check(&words);
    page(&words, words.last().copied().unwrap_or(0), words.len() % MOST_PAGE);
    let guests: Vec<Guest> =
        words.chunks_exact(3).map(|three| Guest::from_words([three[0], three[1], three[2]])).collect();
    party(&words, 0, &guests);
    let mut list = words.clone();
    list.truncate(7);
    if let Ok(seven) = list.try_into() {
        let request = Request::from_words(seven);
        call(&words, &Sent { order: words[0], request });
        ask_and_commit(&words, words[1], &request);
    }
}

/// A book after some requests, with words changed.
fn damaged(mut bytes: Bytes) {
    let settings = bytes.settings();
    let changes = 1 + bytes.byte() % 3;
    let changes: Vec<(u32, u32)> = (0..changes).map(|_| (bytes.word(), bytes.word())).collect();
    let last = Sent { order: bytes.order(), request: bytes.request() };
    let (date, length) = (bytes.word(), bytes.word() as usize % MOST_PAGE);
    let (meeting, guests) = guests(&mut bytes);
    let (seen, bill) = (bytes.count(), bytes.tariff());
    let mut words = run_list(&settings, &requests(&mut bytes));
    if let Some(count) = words.last_mut().filter(|_| seen.in_book) {
        *count = seen.count;
    }
    for (at, value) in changes {
        let at = place(&words, at);
        words[at] = value;
    }
    check(&words);
    call(&words, &last);
    ask_and_commit(&words, seen.count, &last.request);
    charge(&words, [meeting, date, date], bill);
    page(&words, date, length);
    party(&words, meeting, &guests);
}

/// A word to change: of the ring or the change count for an odd number, else of what stands before them, the settings
/// included.
fn place(words: &[u32], number: u32) -> usize {
    let before = words.len() - book::TAIL_WORDS;
    let half = number as usize / 2;
    if number % 2 == 1 {
        before + half % book::TAIL_WORDS
    } else {
        half % before
    }
}

fn check(words: &[u32]) {
    let answer = caviar::check(words);
    assert_eq!(answer.words(), book::check(words).words());
    reached(RULE + answer.number as usize);
    if let Some(settings) = book::calls::question_1(words) {
        for rule in book::broken(settings, words) {
            reached(RULE + 10 + rule as usize);
        }
    }
}

/// One request on any words, without and with its order: answer and book, and a refusal of the one keeps the book.
fn call(before: &[u32], sent: &Sent) {
    let (mut words, mut theirs) = (before.to_vec(), before.to_vec());
    let answer = caviar::request(&mut words, ours(&sent.request));
    assert_eq!(answer.words(), book::request(&mut theirs, &sent.request).words());
    assert_eq!(words, theirs);
    assert!(answer.number == 0 || words == before);
    let (mut words, mut theirs) = (before.to_vec(), before.to_vec());
    let answer = caviar::order(&mut words, sent.order, ours(&sent.request));
    assert_eq!(answer.words(), book::order(&mut theirs, sent.order, &sent.request).words());
    assert_eq!(words, theirs);
    reached(ORDER + answer.number.min(30) as usize);
}

/// What a request would be answered on any words, and a commit of it, at the book's count and at another.
fn ask_and_commit(before: &[u32], count: u32, request: &Request) {
    let told = caviar::ask(before, ours(request));
    assert_eq!([&told.answer.words()[..], &[told.count]].concat(), book::ask(before, request).words());
    reached(ASK + told.answer.number.min(30) as usize);
    for count in [count, told.count] {
        let (mut words, mut theirs) = (before.to_vec(), before.to_vec());
        let answer = caviar::commit(&mut words, count, ours(request));
        assert_eq!(answer.words(), book::commit(&mut theirs, count, request).words());
        assert_eq!(words, theirs);
        assert!(answer.number == 0 || words == before);
        assert!(answer == told.answer || answer.number == 29);
        reached(COMMIT + answer.number.min(30) as usize);
    }
}

/// What a meeting costs on any words.
fn charge(words: &[u32], [meeting, first, last]: [u32; 3], tariff: Tariff) {
    let of = caviar::Tariff { room: tariff.room, seat: tariff.seat, percent: tariff.percent };
    let told = caviar::charge(words, meeting, first, last, of);
    let expected = charge::charge(words, meeting, first, last, &tariff).words();
    assert_eq!([u64::from(told.number), u64::from(told.place), told.value], expected);
    reached(CHARGE + told.number as usize);
    if let Ok(state) =
        book::calls::open(words).map_err(drop).and_then(|state| (told.number == 0).then_some(state).ok_or(()))
    {
        let [first, last] = [first, last].map(second::machine::Date);
        reached(CHARGE + 40 + charge::room_sessions(&state, meeting, first, last).min(12) as usize);
    }
}

/// The porter's page of a date on any words, over so many bytes of junk.
fn page(words: &[u32], date: u32, length: usize) {
    let junk: Vec<u8> = (0..length).map(|at| (at * 37 + 11) as u8).collect();
    let (mut ours, mut theirs) = (junk.clone(), junk.clone());
    let answer = caviar::page(words, date, &mut ours);
    assert_eq!(answer.words(), second::page::page(words, date, &mut theirs).words());
    assert_eq!(ours, theirs);
    assert!(answer.number == 0 || ours == junk);
    reached(PAGE + 32 * answer.number as usize + answer.value.min(31) as usize);
}

/// A meeting and guests; mostly a few of them.
fn guests(bytes: &mut Bytes) -> (u32, Vec<Guest>) {
    let meeting = bytes.word();
    let many = match bytes.byte() {
        byte if byte >= 240 => byte % MOST_GUESTS,
        byte => byte % 6,
    };
    (meeting, (0..many).map(|_| bytes.guest()).collect())
}

/// A party on any words: answer and book, and a refusal keeps the book.
fn party(before: &[u32], meeting: u32, guests: &[Guest]) {
    let (mut words, mut theirs) = (before.to_vec(), before.to_vec());
    let list: Vec<caviar::Guest> = guests.iter().map(|guest| caviar::Guest::from_words(guest.words())).collect();
    let answer = caviar::party(&mut words, meeting, &list);
    assert_eq!(answer.words(), second::party::party(&mut theirs, meeting, guests).words());
    assert_eq!(words, theirs);
    assert!(answer.number == 0 || words == before);
    reached(PARTY + 4 * answer.number as usize + guests.len().min(3));
}

fn list(mut bytes: Bytes) {
    let settings = bytes.settings();
    let (date, length) = (bytes.word(), bytes.word() as usize % MOST_PAGE);
    let (meeting, guests) = guests(&mut bytes);
    let bill = bytes.tariff();
    let requests = requests(&mut bytes);
    let words = run_list(&settings, &requests);
    assert_eq!(caviar::check(&words).words(), [0, 0, 0]);
    page(&words, date, length);
    page(&words, date % settings.dates, length);
    party(&words, meeting, &guests);
    party(&words, meeting % settings.meetings, &guests);
    charge(&words, [meeting, date, date], bill);
    charge(&words, [meeting % settings.meetings, 0, settings.dates - 1], bill);
    let count = words[words.len() - 1];
    requests.iter().take(4).for_each(|one| ask_and_commit(&words, count.wrapping_sub(1), &one.request));
}

/// The book after the list from fresh; served and step by step, beside the machine.
fn run_list(settings: &Settings, sent: &[Sent]) -> Vec<u32> {
    let words = settings.words();
    let mut state = State::empty(settings.clone());
    let mut book = vec![0x5555_5555; caviar::book_len(&words)];
    assert_eq!(caviar::lay(&words, &mut book).words(), [0, 0, 0]);
    let mut served = vec![0xaaaa_aaaa; book.len()];
    let mut answers = vec![0; 3 * sent.len()];
    let done = caviar::serve_orders_words(&words, &mut served, &list_words(sent), &mut answers);
    assert_eq!(done.words(), [0, 0, sent.len() as u32]);
    for (one, answer) in sent.iter().zip(answers.chunks_exact(3)) {
        let again = state.ring.kept(one.order).is_some();
        early::Sort::of(&state, &one.request).into_iter().for_each(|sort| reached(EARLY + sort as usize));
        let expected = one.perform(&mut state).words();
        assert_eq!(answer, expected, "{one:?}");
        assert_eq!(caviar::order(&mut book, one.order, ours(&one.request)).words(), expected, "{one:?}");
        reached(ANSWER + 32 * one.request.kind.min(21) as usize + answer[0] as usize);
        reached(AGAIN + 32 * usize::from(again) + answer[0] as usize);
    }
    assert_eq!(without_orders(settings, sent), book::words(&machine_without_orders(settings, sent)));
    assert_eq!(book, served);
    assert_eq!(book, book::words(&state));
    book
}

/// The book after the requests alone, through `serve`.
fn without_orders(settings: &Settings, sent: &[Sent]) -> Vec<u32> {
    let list: Vec<caviar::Request> = sent.iter().map(|one| ours(&one.request)).collect();
    let mut book = vec![0x3333_3333; caviar::book_len(&settings.words())];
    let mut answers = vec![caviar::Answer::default(); list.len()];
    let done = caviar::serve(&settings.words(), &mut book, &list, &mut answers);
    assert_eq!(done.words(), [0, 0, list.len() as u32]);
    book
}

fn machine_without_orders(settings: &Settings, sent: &[Sent]) -> State {
    let mut state = State::empty(settings.clone());
    for one in sent {
        second::machine::step(&mut state, &one.request);
    }
    state
}

//! Single cases for the specification check, beside the tables of steps: checked books (each rule
//! broken alone, lawful, junk), calls on raw books, layings, pages of dates, charges, parties, orders, asks and
//! commits, lists of requests and of orders, and whole inputs of the line program.

use super::asking;
use super::books::{damaged, junk_book};
use super::charges;
use super::orders::{self, list_words, Plan, Sent};
use super::pages::busy_state;
use super::parties::{open_state, party};
use super::requests::{deep_state, one, Mix};
use super::sites::{bad_settings, large_settings, site, Size};
use super::streams::{damage, damage_line, stream_of, DAMAGES};
use super::tables::{join, party_text};
use super::Rng;
use crate::book::{self, length, words, Rule, TAIL_WORDS};
use crate::calls::Call;
use crate::charge::{charge, Charged};
use crate::frames::{frames, words_line};
use crate::machine::{run, Answer, Asked, Date, Request, Ring, Settings, State};
use crate::page::{self, LINE_BYTES};
use crate::party::{self, Guest, MOST_GUESTS};
use std::collections::{BTreeMap, BTreeSet};

/// How many of each sort there are: books for each rule that a book can break, then the others.
const BOOKS_A_RULE: usize = 2;
const JUNK: usize = 20;
const CALLS: usize = 30;
const LAYINGS: usize = 12;
const PAGES: usize = 18;
const PARTIES: usize = 18;
const ORDERS: usize = 20;
const COUNTED: usize = 40;
const CHARGES: usize = 20;
const LISTS: usize = 12;
const STREAMS: usize = 8;

/// A prover computes these, so books and inputs stay short.
const MOST_WORDS: usize = 150 + TAIL_WORDS;
const MOST_BYTES: usize = 650;
const MOST_LINES: usize = 4;
const FEW_GUESTS: usize = 12;

pub enum Case {
    Check { book: Vec<u32>, answer: Answer },
    Call { before: Vec<u32>, request: Request, answer: Answer, after: Vec<u32> },
    Lay { settings: Vec<u32>, before: Vec<u32>, answer: Answer, after: Vec<u32> },
    Page { book: Vec<u32>, date: u32, before: Vec<u8>, answer: Answer, after: Vec<u8> },
    Party { before: Vec<u32>, meeting: u32, guests: Vec<Guest>, answer: Answer, after: Vec<u32> },
    Order { before: Vec<u32>, sent: Sent, answer: Answer, after: Vec<u32> },
    Ask { book: Vec<u32>, request: Request, asked: Asked },
    Commit { before: Vec<u32>, count: u32, request: Request, answer: Answer, after: Vec<u32> },
    Charge { lent: charges::Lent, charged: Charged },
    List(Listed),
    Input { input: Vec<u8>, output: Vec<u8> },
}

/// A list of calls in words, on a book or with a laying where there are settings; and what it leaves.
pub struct Listed {
    pub words_each: usize,
    pub settings: Option<Vec<u32>>,
    pub before: Vec<u32>,
    pub list: Vec<u32>,
    pub lent: Vec<u32>,
    pub answer: Answer,
    pub after: Vec<u32>,
    pub answers: Vec<u32>,
}

pub fn cases(seed: u64) -> Vec<Case> {
    let mut rng = Rng::new(seed ^ 0xca5e);
    let mut all = broken_rules(&mut rng);
    all.extend((0..JUNK).map(|_| checked(short_junk(&mut rng))));
    all.extend((0..CALLS).map(|turn| called(&mut rng, turn % 3 == 0)));
    all.extend((0..LAYINGS).map(|turn| laid(&mut rng, turn % 3)));
    all.extend((0..PAGES).map(|turn| paged(&mut rng, turn % 6)));
    all.extend((0..PARTIES).map(|turn| some_party(&mut rng, turn % 3 == 0)));
    all.extend([MOST_GUESTS, MOST_GUESTS + 1].map(large_party));
    all.extend((0..ORDERS).map(|_| ordered(&mut rng)));
    all.extend((0..COUNTED).map(|_| counted(&mut rng)));
    all.extend(some_charges(&mut rng));
    all.extend((0..LISTS).map(|turn| Case::List(listed(&mut rng, turn))));
    all.extend(inputs(&mut rng).into_iter().map(|input| Case::Input { output: frames(&input), input }));
    all
}

/// A state whose book is short. Most rings are empty: a prover takes its time over a full one.
fn small_state(rng: &mut Rng) -> State {
    loop {
        let settings = site(rng, Size::Table);
        if length(&settings) <= MOST_WORDS as u64 {
            let state = deep_state(rng, settings, 20);
            return if rng.percent(60) { State { ring: Ring::empty(), ..state } } else { state };
        }
    }
}

fn short_junk(rng: &mut Rng) -> Vec<u32> {
    loop {
        let book = junk_book(rng);
        if book.len() <= MOST_WORDS {
            return book;
        }
    }
}

fn checked(book: Vec<u32>) -> Case {
    let answer = book::check(&book);
    Case::Check { book, answer }
}

/// Lawful books, and books of the same states with one rule broken, until every rule has its number.
fn broken_rules(rng: &mut Rng) -> Vec<Case> {
    let mut all = Vec::new();
    let mut wanted: BTreeMap<Rule, usize> = Rule::breakable().map(|rule| (rule, BOOKS_A_RULE)).collect();
    while !wanted.is_empty() {
        let state = small_state(rng);
        all.push(checked(words(&state)));
        for (rule, left) in &mut wanted {
            if let Some(book) = damaged(rng, &state, *rule) {
                all.push(checked(book));
                *left -= 1;
            }
        }
        wanted.retain(|_, left| *left > 0);
    }
    all
}

fn called(rng: &mut Rng, raw: bool) -> Case {
    let state = small_state(rng);
    let before = if raw { short_junk(rng) } else { words(&state) };
    let request = one(rng, &state, Mix::USUAL);
    answered(before, request)
}

fn answered(before: Vec<u32>, request: Request) -> Case {
    let mut after = before.clone();
    let answer = book::request(&mut after, &request);
    Case::Call { before, request, answer, after }
}

/// In turn a good laying, bad settings, and a lent book of a wrong length.
fn laid(rng: &mut Rng, turn: usize) -> Case {
    let state = small_state(rng);
    let settings = if turn == 1 { bad_settings(rng) } else { state.settings.words() };
    let lent = length(&state.settings) as usize + if turn == 2 { 1 } else { 0 };
    let before = vec![rng.below(9); lent];
    let mut after = before.clone();
    let answer = book::lay(&settings, &mut after);
    Case::Lay { settings, before, answer, after }
}

/// A small state with a busy date of few lines, and how many they are.
fn small_busy_state(rng: &mut Rng) -> (State, u32, usize) {
    loop {
        let (state, date) = busy_state(rng, Size::Table);
        let lines = page::lines(&state, Date(date)).len();
        if length(&state.settings) <= MOST_WORDS as u64 && (1..=MOST_LINES).contains(&lines) {
            return (state, date, lines);
        }
    }
}

/// In turn a page of the length that it needs, one byte less, some more, a date past the last, junk
/// words, and a date without a line.
fn paged(rng: &mut Rng, turn: usize) -> Case {
    let (state, busy, lines) = small_busy_state(rng);
    let date = if turn == 3 { state.settings.dates } else { busy };
    let book = match turn {
        4 => short_junk(rng),
        5 => words(&State::empty(state.settings)),
        _ => words(&state),
    };
    let lent = match turn {
        1 => lines * LINE_BYTES - 1,
        2 => lines * LINE_BYTES + rng.between(1, 9) as usize,
        3 | 4 => rng.below(LINE_BYTES as u32) as usize,
        5 => rng.below(3) as usize,
        _ => lines * LINE_BYTES,
    };
    let before: Vec<u8> = (0..lent).map(|_| (rng.draw() & 255) as u8).collect();
    let mut after = before.clone();
    let answer = page::page(&book, date, &mut after);
    Case::Page { book, date, before, answer, after }
}

fn admitted(before: Vec<u32>, meeting: u32, guests: Vec<Guest>) -> Case {
    let mut after = before.clone();
    let answer = party::party(&mut after, meeting, &guests);
    Case::Party { before, meeting, guests, answer, after }
}

/// A party of few guests, on a book with room for it or on junk words.
fn some_party(rng: &mut Rng, raw: bool) -> Case {
    loop {
        let state = open_state(rng, Size::Table);
        let (meeting, guests) = party(rng, &state);
        if length(&state.settings) <= MOST_WORDS as u64 && guests.len() <= FEW_GUESTS {
            let before = if raw { short_junk(rng) } else { words(&state) };
            return admitted(before, meeting, guests);
        }
    }
}

/// So many guests, every one of whom could be added: up to sixteen visitors in each of four sessions, then one more.
fn large_party(guests: usize) -> Case {
    let settings = Settings::from_words(&[2, 2, 1, 17, 1, 1, 1, 1, 1, 0, 4]).expect("limits in range");
    let mut state = State::empty(settings);
    let leave = (0..17).map(|visitor| Request::from_words([1, 0, visitor, 0, 1, 0, 0]));
    let opening: Vec<Request> = leave.chain([Request::from_words([8, 0, 0, 0, 3, 0, 0])]).collect();
    run(&mut state, &opening);
    let guest = |at: u32| Guest { visitor: if at < 64 { at % 16 } else { 16 }, first: at / 16 % 4, last: at / 16 % 4 };
    admitted(words(&state), 0, (0..guests as u32).map(guest).collect())
}

/// An order of any sort, on a lawful or a damaged book.
fn ordered(rng: &mut Rng) -> Case {
    loop {
        let orders::Lent { book: before, sent } = orders::lent(rng);
        if before.len() <= MOST_WORDS {
            return sent_on(before, sent);
        }
    }
}

fn sent_on(before: Vec<u32>, sent: Sent) -> Case {
    let mut after = before.clone();
    let answer = book::order(&mut after, sent.order, &sent.request);
    Case::Order { before, sent, answer, after }
}

fn committed(before: Vec<u32>, count: u32, request: Request) -> Case {
    let mut after = before.clone();
    let answer = book::commit(&mut after, count, &request);
    Case::Commit { before, count, request, answer, after }
}

/// A call on a book of any change count, mostly an ask or a commit.
fn counted(rng: &mut Rng) -> Case {
    loop {
        let asking::Lent { book, call } = asking::lent(rng);
        if book.len() > MOST_WORDS {
            continue;
        }
        match call {
            Call::Ask(request) => return Case::Ask { asked: book::ask(&book, &request), book, request },
            Call::Commit { count, request } => return committed(book, count, request),
            Call::Request(request) => return answered(book, request),
            Call::Order { order, request } => return sent_on(book, Sent { order, request }),
            Call::Party { meeting, guests } if guests.len() <= FEW_GUESTS => return admitted(book, meeting, guests),
            Call::Party { .. } => {}
        }
    }
}

/// Charges, on lawful and on damaged books, until each sort is among them.
fn some_charges(rng: &mut Rng) -> Vec<Case> {
    let mut wanted: BTreeSet<charges::Sort> = charges::Sort::all().into_iter().collect();
    let mut all = Vec::new();
    while !wanted.is_empty() {
        let lent = charges::lent(rng);
        if lent.book.len() > MOST_WORDS {
            continue;
        }
        let charged = charge(&lent.book, lent.meeting, lent.first, lent.last, &lent.tariff);
        let [number, _, value] = charged.words();
        let sorts = charges::Sort::of(&lent, number as u32, value);
        if all.len() < CHARGES || !sorts.is_disjoint(&wanted) {
            wanted.retain(|sort| !sorts.contains(sort));
            all.push(Case::Charge { lent, charged });
        }
    }
    all
}

/// Lists of seven and of eight words, with a remainder and too little room in turn; on a book, on one that is damaged,
/// and with a laying, good or refused.
fn listed(rng: &mut Rng, turn: usize) -> Listed {
    let state = small_state(rng);
    let sent = orders::list(rng, &mut state.clone(), 4, Plan { first: 1, repeats: 50 });
    let (words_each, mut list) = match turn % 2 {
        0 => (8, list_words(&sent)),
        _ => (7, sent.iter().flat_map(|sent| sent.request.words()).collect()),
    };
    list.extend((0..rng.below(words_each as u32)).map(|_| rng.word()));
    let lent: Vec<u32> = (0..rng.between(8, 14)).map(|_| rng.word()).collect();
    let laying = turn % 4 >= 2;
    let settings = match turn % 6 {
        3 => Some(bad_settings(rng)),
        _ => Some(state.settings.words()),
    };
    let settings = settings.filter(|_| laying);
    let rule = rng.pick(&Rule::OF_RING);
    let before = match (laying, turn % 3) {
        (false, 1) => damaged(rng, &state, rule).expect("a ring can break each clause"),
        _ => words(&state),
    };
    let (mut after, mut answers) = (before.clone(), lent.clone());
    let answer = match (&settings, words_each) {
        (None, 8) => book::orders(&mut after, &list, &mut answers),
        (None, _) => book::requests(&mut after, &list, &mut answers),
        (Some(settings), 8) => book::serve_orders(settings, &mut after, &list, &mut answers),
        (Some(settings), _) => book::serve(settings, &mut after, &list, &mut answers),
    };
    Listed { words_each, settings, before, list, lent, answer, after, answers }
}

/// No input, an empty line, settings of both refusals, each sort of damage to a line, and streams.
fn inputs(rng: &mut Rng) -> Vec<Vec<u8>> {
    let mut all = vec![Vec::new(), vec![10]];
    all.push(words_line(&large_settings(rng).words()));
    all.push(words_line(&bad_settings(rng)));
    all.extend((0..DAMAGES).map(|sort| one_damage(rng, sort)));
    all.extend((0..STREAMS).map(|_| short_stream(rng)));
    all
}

/// A settings line, a line with this damage, and a good line. The kind is one that hexadecimal
/// writes with a letter, so that upper case is seen.
fn one_damage(rng: &mut Rng, sort: u32) -> Vec<u8> {
    loop {
        let state = small_state(rng);
        let kind = rng.between(10, 15);
        let mut line = words_line(&Request { kind, ..one(rng, &state, Mix::USUAL) }.words());
        let good = line.clone();
        damage_line(rng, &mut line, sort);
        let input = [words_line(&state.settings.words()), line, good].concat();
        if input.len() <= MOST_BYTES {
            return input;
        }
    }
}

fn short_stream(rng: &mut Rng) -> Vec<u8> {
    loop {
        let settings = small_state(rng).settings;
        let clean = stream_of(rng, settings, 6);
        let stream = if rng.percent(70) { damage(rng, &clean) } else { clean };
        if stream.len() <= MOST_BYTES {
            return stream;
        }
    }
}

fn charge_text(lent: &charges::Lent, charged: &Charged) -> String {
    let charges::Lent { book, meeting, first, last, tariff } = lent;
    let asked = format!("{meeting} {first} {last} : {} {} {}", tariff.room, tariff.seat, tariff.percent);
    format!("charge {} : {asked} -> {}\n", join(book), join(&charged.words()))
}

fn list_text(case: &Listed) -> String {
    let settings = case.settings.as_ref().map_or(String::new(), |words| format!("{} : ", join(words)));
    let asked = format!("{} : {settings}{} : {}", case.words_each, join(&case.before), join(&case.list));
    let given = format!("{} : {} : {}", join(&case.answer.words()), join(&case.after), join(&case.answers));
    let sort = if case.settings.is_some() { "serve" } else { "list" };
    format!("{sort} {asked} : {} -> {given}\n", join(&case.lent))
}

/// The cases as plain text, one line each; `->` comes before what is answered, `:` between lists.
pub fn text(cases: &[Case]) -> String {
    cases.iter().map(case_text).collect()
}

fn case_text(case: &Case) -> String {
    match case {
        Case::Check { book, answer } => format!("check {} -> {}\n", join(book), join(&answer.words())),
        Case::Call { before, request, answer, after } => {
            let asked = join(&request.words());
            format!("call {} : {asked} -> {} : {}\n", join(before), join(&answer.words()), join(after))
        }
        Case::Lay { settings, before, answer, after } => {
            let asked = join(settings);
            format!("lay {asked} : {} -> {} : {}\n", join(before), join(&answer.words()), join(after))
        }
        Case::Page { book, date, before, answer, after } => {
            let asked = format!("{} : {date} : {}", join(book), join(before));
            format!("page {asked} -> {} : {}\n", join(&answer.words()), join(after))
        }
        Case::Party { before, meeting, guests, answer, after } => {
            let asked = format!("{} : {}", join(before), party_text(*meeting, guests));
            format!("party {asked} -> {} : {}\n", join(&answer.words()), join(after))
        }
        Case::Order { before, sent, answer, after } => {
            let asked = format!("{} : {}", join(before), join(&sent.words()));
            format!("order {asked} -> {} : {}\n", join(&answer.words()), join(after))
        }
        Case::Ask { book, request, asked } => {
            format!("ask {} : {} -> {}\n", join(book), join(&request.words()), join(&asked.words()))
        }
        Case::Commit { before, count, request, answer, after } => {
            let asked = format!("{} : {count} : {}", join(before), join(&request.words()));
            format!("commit {asked} -> {} : {}\n", join(&answer.words()), join(after))
        }
        Case::Charge { lent, charged } => charge_text(lent, charged),
        Case::List(case) => list_text(case),
        Case::Input { input, output } => format!("input {} -> {}\n", join(input), join(output)),
    }
}

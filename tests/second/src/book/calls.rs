//! Calls on a raw book, which may hold any words: questions 1 and 2, checking, laying (24, 25),
//! one request, a list of requests, laying with a list, and the same with orders; asking and committing.

use super::laws::broken;
use super::{length, read, words};
use crate::machine::ring::NO_ORDER;
use crate::machine::{self, Answer, Asked, Request, Settings, State};

/// How many words a request takes in a list, and how many with the number of its order.
pub const REQUEST_WORDS: usize = 7;
pub const ORDER_WORDS: usize = 8;

fn refused(number: u32) -> Answer {
    Answer::Refused { number, place: 0 }
}

/// Rule 5.1: the settings at the head of a well-laid book, or None for no.
pub fn question_1(book: &[u32]) -> Option<Settings> {
    let settings = Settings::of_book(book)?;
    if length(&settings) == book.len() as u64 {
        Some(settings)
    } else {
        None
    }
}

/// Questions 1 and 2: the state that the book shows, or the refusal.
pub fn open(book: &[u32]) -> Result<State, Answer> {
    let settings = question_1(book).ok_or(refused(1))?;
    if broken(settings.clone(), book).is_empty() {
        Ok(read(settings, book).state)
    } else {
        Err(refused(2))
    }
}

/// Checking (rule 10.1).
pub fn check(book: &[u32]) -> Answer {
    match open(book) {
        Ok(_) => Answer::Done(0),
        Err(refusal) => refusal,
    }
}

/// Laying (section 9).
pub fn lay(settings_words: &[u32], book: &mut [u32]) -> Answer {
    let Some(settings) = Settings::from_words(settings_words) else { return refused(24) };
    if length(&settings) != book.len() as u64 {
        return refused(25);
    }
    book.fill(0);
    book[..settings_words.len()].copy_from_slice(settings_words);
    Answer::Done(0)
}

/// One request on a raw book (rule 10.3): questions 1 and 2, then a step from the state shown.
pub fn request(book: &mut [u32], request: &Request) -> Answer {
    order(book, NO_ORDER, request)
}

/// One request with the number of an order on a raw book (rule 10.6).
pub fn order(book: &mut [u32], order: u32, request: &Request) -> Answer {
    match open(book) {
        Err(refusal) => refusal,
        Ok(mut state) => {
            let answer = machine::order(&mut state, order, request);
            book.copy_from_slice(&words(&state));
            answer
        }
    }
}

/// Asking on a raw book (rule 10.9): beside 1 and 2 the count is 0.
pub fn ask(book: &[u32], request: &Request) -> Asked {
    match open(book) {
        Err(answer) => Asked { answer, count: 0 },
        Ok(state) => machine::ask(&state, request),
    }
}

/// Committing on a raw book (rule 10.10).
pub fn commit(book: &mut [u32], count: u32, request: &Request) -> Answer {
    match open(book) {
        Err(refusal) => refusal,
        Ok(mut state) => {
            let answer = machine::commit(&mut state, count, request);
            book.copy_from_slice(&words(&state));
            answer
        }
    }
}

/// A list of requests in words on a raw book (rule 10.4).
pub fn requests(book: &mut [u32], list: &[u32], answers: &mut [u32]) -> Answer {
    answer_all(REQUEST_WORDS, book, list, answers)
}

/// A list of requests with orders in words on a raw book (rule 10.7).
pub fn orders(book: &mut [u32], list: &[u32], answers: &mut [u32]) -> Answer {
    answer_all(ORDER_WORDS, book, list, answers)
}

fn answer_all(words_each: usize, book: &mut [u32], list: &[u32], answers: &mut [u32]) -> Answer {
    match open(book) {
        Err(refusal) => refusal,
        Ok(mut state) => {
            let done = answer_list(words_each, &mut state, list, answers);
            book.copy_from_slice(&words(&state));
            Answer::Done(done)
        }
    }
}

/// Lays the book and answers the list from fresh (rule 10.5). A refused laying answers nothing.
pub fn serve(settings: &[u32], book: &mut [u32], list: &[u32], answers: &mut [u32]) -> Answer {
    match lay(settings, book) {
        Answer::Done(_) => requests(book, list, answers),
        refusal => refusal,
    }
}

/// The same with a list of orders (rule 10.8).
pub fn serve_orders(settings: &[u32], book: &mut [u32], list: &[u32], answers: &mut [u32]) -> Answer {
    match lay(settings, book) {
        Answer::Done(_) => orders(book, list, answers),
        refusal => refusal,
    }
}

/// Seven words a request, or eight with the number of its order behind them (rule 18.1).
fn answer_list(words_each: usize, state: &mut State, list: &[u32], answers: &mut [u32]) -> u32 {
    let mut count = 0;
    for (asked, answer) in list.chunks_exact(words_each).zip(answers.chunks_exact_mut(3)) {
        let (request, order) = Request::with_order(asked);
        answer.copy_from_slice(&machine::order(state, order, &request).words());
        count += 1;
    }
    count
}

/// The words that the settings need; 0 for settings that 24 refuses (rule 9.3).
pub fn book_len(settings_words: &[u32]) -> u64 {
    Settings::from_words(settings_words).map_or(0, |settings| length(&settings))
}

//! Laying, one request on a raw book, and lists, without and with orders; asking and committing.

use crate::check::check;
use crate::orders::{self, Numbers};
use crate::site::{Answer, Request, Site};
use crate::step::{count, step, would_be};

/// Writes the settings, then zeros; 24 and 25 keep the book.
pub fn lay(settings: &[u32], book: &mut [u32]) -> Answer {
    let Some(site) = Site::new(settings) else { return Answer::refused(24, 0) };
    if site.length != book.len() {
        return Answer::refused(25, 0);
    }
    book[..settings.len()].copy_from_slice(settings);
    book[settings.len()..].fill(0);
    Answer::done(0)
}

/// One request on any words.
pub fn request(book: &mut [u32], request: &Request) -> Answer {
    let checked = check(book);
    match Site::of_book(book) {
        Some(site) if checked.number == 0 => step(&site, book, request),
        _ => checked,
    }
}

/// One request with the number of an order on any words.
pub fn order(book: &mut [u32], order: u32, request: &Request) -> Answer {
    let checked = check(book);
    match Site::of_book(book) {
        Some(site) if checked.number == 0 => {
            let mut numbers = Numbers::of(&site, book);
            orders::order(&site, book, &mut numbers, order, request)
        }
        _ => checked,
    }
}

/// What a request on any words would be answered, and the change count.
pub fn ask(book: &[u32], request: &Request) -> (Answer, u32) {
    let checked = check(book);
    match Site::of_book(book) {
        Some(site) if checked.number == 0 => (would_be(&site, book, request), count(&site, book)),
        _ => (checked, 0),
    }
}

/// One request at a change count on any words.
pub fn commit(book: &mut [u32], seen: u32, request: &Request) -> Answer {
    let checked = check(book);
    match Site::of_book(book) {
        Some(site) if checked.number == 0 && count(&site, book) == seen => step(&site, book, request),
        Some(_) if checked.number == 0 => Answer::refused(29, 0),
        _ => checked,
    }
}

/// A list on any words: the book is checked once. Done with the number answered.
pub fn requests(book: &mut [u32], list: &[u32], answers: &mut [u32]) -> Answer {
    let checked = check(book);
    match Site::of_book(book) {
        Some(site) if checked.number == 0 => Answer::done(answer_list(&site, book, list, answers)),
        _ => checked,
    }
}

/// Lays the book and answers a list from fresh.
pub fn serve(settings: &[u32], book: &mut [u32], list: &[u32], answers: &mut [u32]) -> Answer {
    let laid = lay(settings, book);
    match Site::new(settings) {
        Some(site) if laid.number == 0 => Answer::done(answer_list(&site, book, list, answers)),
        _ => laid,
    }
}

/// A list with orders on any words, eight words each.
pub fn orders(book: &mut [u32], list: &[u32], answers: &mut [u32]) -> Answer {
    let checked = check(book);
    match Site::of_book(book) {
        Some(site) if checked.number == 0 => Answer::done(answer_orders(&site, book, list, answers)),
        _ => checked,
    }
}

/// Lays the book and answers a list with orders from fresh.
pub fn serve_orders(settings: &[u32], book: &mut [u32], list: &[u32], answers: &mut [u32]) -> Answer {
    let laid = lay(settings, book);
    match Site::new(settings) {
        Some(site) if laid.number == 0 => Answer::done(answer_orders(&site, book, list, answers)),
        _ => laid,
    }
}

fn answer_orders(site: &Site, book: &mut [u32], list: &[u32], answers: &mut [u32]) -> u32 {
    let mut numbers = Numbers::of(site, book);
    let mut count = 0;
    for (asked, answer) in list.as_chunks::<8>().0.iter().zip(answers.as_chunks_mut::<3>().0) {
        let [request @ .., order] = *asked;
        *answer = orders::order(site, book, &mut numbers, order, &Request::new(request)).words();
        count += 1;
    }
    count
}

fn answer_list(site: &Site, book: &mut [u32], list: &[u32], answers: &mut [u32]) -> u32 {
    let mut count = 0;
    for (asked, answer) in list.as_chunks::<7>().0.iter().zip(answers.as_chunks_mut::<3>().0) {
        *answer = step(site, book, &Request::new(*asked)).words();
        count += 1;
    }
    count
}

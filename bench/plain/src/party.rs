//! A party: guests of one meeting, all of them or none.

use crate::apply::put_cells;
use crate::check::check;
use crate::judge::new_attend;
use crate::kinds::form;
use crate::site::{Answer, Request, Site};
use crate::step::raise;

/// A visitor, and the first and the last session.
pub type Guest = [u32; 3];

const MOST_GUESTS: usize = 64;

/// On any words: 1, 2 and 27, then the guests in their order, then 30.
pub fn party(book: &mut [u32], meeting: u32, guests: &[Guest]) -> Answer {
    let checked = check(book);
    match Site::of_book(book) {
        Some(site) if checked.number == 0 => all_or_none(&site, book, meeting, guests),
        _ => checked,
    }
}

/// Each guest is written as soon as they are judged, so that the next one is judged with them; at a
/// refusal those before are cleared again.
fn all_or_none(site: &Site, book: &mut [u32], meeting: u32, guests: &[Guest]) -> Answer {
    if guests.is_empty() || guests.len() > MOST_GUESTS {
        return Answer::refused(27, 0);
    }
    for (at, guest) in guests.iter().enumerate() {
        let r = joining(meeting, guest);
        if let Err(refused) = form::<10>(site, &r).and_then(|()| new_attend(site, book, &r)) {
            take_back(site, book, meeting, &guests[..at]);
            return refused;
        }
        put_cells(book, &site.attend, &r, r.b, meeting + 1);
    }
    if let Err(refused) = raise(site, book) {
        take_back(site, book, meeting, guests);
        return refused;
    }
    Answer::done(0)
}

fn take_back(site: &Site, book: &mut [u32], meeting: u32, guests: &[Guest]) {
    for guest in guests {
        let r = joining(meeting, guest);
        put_cells(book, &site.attend, &r, r.b, 0);
    }
}

#[inline(always)]
fn joining(meeting: u32, [visitor, first, last]: &Guest) -> Request {
    Request::new([10, meeting, *visitor, *first, *last, 0, 0])
}

//! Questions 9 to 22 of a book that passes 1 and 2, read only. The laws are used: a visitor without
//! leave has no booking on the date, a meeting that does not stand has no room and nobody attends it
//! in the session, and a free cell has no other entry behind it. Questions about the same words are
//! asked in one pass, as far as the order of refusals lets them.

use crate::kinds::{Refusal, ROOMS};
use crate::site::{Answer, Dated, Grid, Request, Site};

/// No slot has failed.
const NEVER: u32 = u32::MAX;

/// Words that are compared at once, without an exit between them.
const BLOCK: usize = 32;

/// Is the word in the row? No exit inside a block, so that it is compared in vectors.
#[inline(always)]
pub fn contains(row: &[u32], word: u32) -> bool {
    let (blocks, rest) = row.as_chunks::<BLOCK>();
    blocks.iter().any(|block| holds(block, word)) || holds(rest, word)
}

#[inline(always)]
pub fn holds(words: &[u32], word: u32) -> bool {
    words.iter().fold(0u32, |hit, cell| hit | if *cell == word { !0 } else { 0 }) != 0
}

#[inline(always)]
pub fn has_bit(pools: &Grid, book: &[u32], slot: u32, member: u32) -> bool {
    book[pools.at(slot, member as usize / 32)] >> (member % 32) & 1 != 0
}

#[inline(always)]
fn refused_at(number: u32, slot: u32) -> Refusal {
    if slot == NEVER {
        Ok(())
    } else {
        Err(Answer::refused(number, slot))
    }
}

/// The lowest slot that fails.
#[inline(always)]
fn each(r: &Request, number: u32, yes: impl Fn(u32) -> bool) -> Refusal {
    for slot in r.first..r.last + 1 {
        if !yes(slot) {
            return Err(Answer::refused(number, slot));
        }
    }
    Ok(())
}

/// 9, asked once a date.
#[inline(always)]
fn has_leave(site: &Site, book: &[u32], slots: &impl Dated, r: &Request) -> Refusal {
    for date in slots.date_of(r.first)..slots.date_of(r.last) + 1 {
        if !has_bit(&site.leave, book, date, r.b) {
            return Err(Answer::refused(9, r.first.max(slots.first_on(date))));
        }
    }
    Ok(())
}

/// 11 and the question after it, on the cells of an item: the wanted word is there already, or
/// another one is.
#[inline(always)]
fn cells_free(book: &[u32], grid: &Grid, r: &Request, at: usize, wanted: u32, number: u32) -> Refusal {
    let mut other = NEVER;
    let mut at = grid.at(r.first, at);
    for slot in r.first..r.last + 1 {
        let cell = book[at];
        if cell == wanted {
            return Err(Answer::refused(11, slot));
        }
        if cell != 0 {
            other = other.min(slot);
        }
        at += grid.row;
    }
    refused_at(number, other)
}

/// 15: the cells of an item hold the word.
#[inline(always)]
fn cells_are(book: &[u32], grid: &Grid, r: &Request, at: usize, word: u32) -> Refusal {
    let mut at = grid.at(r.first, at);
    for slot in r.first..r.last + 1 {
        if book[at] != word {
            return Err(Answer::refused(15, slot));
        }
        at += grid.row;
    }
    Ok(())
}

/// 9, 11, 12, 13 for hotel and ride.
#[inline(always)]
pub fn new_guest(site: &Site, book: &[u32], slots: &impl Dated, grid: &Grid, r: &Request) -> Refusal {
    has_leave(site, book, slots, r)?;
    cells_free(book, grid, r, r.a as usize, r.b + 1, 12)?;
    each(r, 13, |slot| !contains(grid.row(book, slot), r.b + 1))
}

/// 15 for hotel and ride.
#[inline(always)]
pub fn cells_hold(book: &[u32], grid: &Grid, r: &Request) -> Refusal {
    cells_are(book, grid, r, r.a as usize, r.b + 1)
}

/// 9, 10, 11, 13 for attend.
#[inline(always)]
pub fn new_attend(site: &Site, book: &[u32], r: &Request) -> Refusal {
    has_leave(site, book, &site.attend, r)?;
    each(r, 10, |session| has_bit(&site.standing, book, session, r.a))?;
    cells_free(book, &site.attend, r, r.b as usize, r.a + 1, 13)
}

/// 15 for attend.
#[inline(always)]
pub fn attends(site: &Site, book: &[u32], r: &Request) -> Refusal {
    cells_are(book, &site.attend, r, r.b as usize, r.a + 1)
}

/// 10, 11, 12 for conf.
#[inline(always)]
pub fn new_conf(site: &Site, book: &[u32], r: &Request) -> Refusal {
    each(r, 10, |session| has_bit(&site.standing, book, session, r.b))?;
    cells_free(book, &site.conf, r, 2 * r.a as usize, r.b + 1, 12)
}

/// 10, 11, 13, 14 for lunch.
#[inline(always)]
pub fn new_lunch(site: &Site, book: &[u32], r: &Request) -> Refusal {
    each(r, 10, |date| {
        let mut at = site.standing.at(date * site.standing.per_date as u32, r.b as usize / 32);
        let mut any = 0;
        for _ in 0..site.standing.per_date {
            any |= book[at];
            at += site.standing.row;
        }
        any >> (r.b % 32) & 1 != 0
    })?;
    cells_free(book, &site.lunch, r, 3 * r.b as usize, r.a + 1, 13)?;
    let left = site.capacities[r.a as usize] - r.n;
    each(r, 14, |date| reserved(site.lunch.row(book, date), r.a) <= left)
}

/// Seats of the dining room on a date.
#[inline(always)]
fn reserved(row: &[u32], room: u32) -> u32 {
    let of_room = |[cell, seats, _]: &[u32; 3]| if *cell == room + 1 { *seats } else { 0 };
    let (eights, rest) = row.as_chunks::<24>();
    let seats = |eight: &[u32; 24]| eight.as_chunks::<3>().0.iter().map(of_room).sum::<u32>();
    eights.iter().map(seats).sum::<u32>() + rest.as_chunks::<3>().0.iter().map(of_room).sum::<u32>()
}

/// The value of kind 19.
#[inline(always)]
pub fn seats_left(site: &Site, book: &[u32], r: &Request) -> u32 {
    site.capacities[r.a as usize] - reserved(site.lunch.row(book, r.first), r.a)
}

/// 15 for lunch.
#[inline(always)]
pub fn has_this_lunch(site: &Site, book: &[u32], r: &Request) -> Refusal {
    cells_are(book, &site.lunch, r, 3 * r.b as usize, r.a + 1)
}

/// A conference room of a meeting that may stand.
#[inline(always)]
fn has_conf(site: &Site, book: &[u32], session: u32, meeting: u32) -> bool {
    let pairs = site.conf.row(book, session).as_chunks::<2>().0;
    has_bit(&site.standing, book, session, meeting)
        && pairs.iter().fold(0u32, |hit, [cell, _]| hit | if *cell == meeting + 1 { !0 } else { 0 }) != 0
}

/// 16.
#[inline(always)]
pub fn has_rooms(site: &Site, book: &[u32], r: &Request) -> Refusal {
    each(r, 16, |session| has_conf(site, book, session, r.b))
}

/// 17, whose place is a date.
#[inline(always)]
pub fn has_lunches(site: &Site, book: &[u32], r: &Request) -> Refusal {
    for date in site.conf.date_of(r.first)..site.conf.date_of(r.last) + 1 {
        if book[site.lunch.at(date, 3 * r.b as usize)] == 0 {
            return Err(Answer::refused(17, date));
        }
    }
    Ok(())
}

/// 18. What is cheap to find is looked for first; without leave there is nothing.
#[inline(always)]
pub fn no_bookings(site: &Site, book: &[u32], r: &Request) -> Refusal {
    each(r, 18, |date| !has_bit(&site.leave, book, date, r.b) || is_free(site, book, date, r.b))
}

#[inline(always)]
fn is_free(site: &Site, book: &[u32], date: u32, visitor: u32) -> bool {
    let mut at = site.attend.at(date * site.attend.per_date as u32, visitor as usize);
    for _ in 0..site.attend.per_date {
        if book[at] != 0 {
            return false;
        }
        at += site.attend.row;
    }
    !contains(site.hotel.row(book, date), visitor + 1) && !contains(site.ride.date(book, date), visitor + 1)
}

/// 19, then 20.
#[inline(always)]
pub fn can_end(site: &Site, book: &[u32], r: &Request) -> Refusal {
    each(r, 19, |session| {
        book[site.lunch.at(site.conf.date_of(session), 3 * r.a as usize)] == 0 && !has_conf(site, book, session, r.a)
    })?;
    each(r, 20, |session| has_bit(&site.standing, book, session, r.a))
}

/// 21, and the meeting.
#[inline(always)]
pub fn which_meeting(site: &Site, book: &[u32], r: &Request) -> Result<u32, Answer> {
    match book[site.attend.at(r.first, r.b as usize)] {
        0 => Err(Answer::refused(21, r.first)),
        cell => Ok(cell - 1),
    }
}

/// The value of kind 18.
#[inline(always)]
pub fn members(site: &Site, book: &[u32], r: &Request) -> u32 {
    let (pairs, last) = site.leave.row(book, r.first).as_chunks::<2>();
    let both = pairs.iter().map(|[low, high]| (u64::from(*low) | u64::from(*high) << 32).count_ones());
    both.sum::<u32>() + last.iter().map(|word| word.count_ones()).sum::<u32>()
}

/// 22, and the lowest conference room free in every slot: a taken session goes on to the next room.
#[inline(always)]
pub fn free_room(site: &Site, book: &[u32], r: &Request) -> Result<u32, Answer> {
    let start = site.conf.at(r.first, 0);
    'rooms: for room in 0..site.limits[ROOMS] {
        let mut at = start + 2 * room as usize;
        for _ in r.first..r.last + 1 {
            if book[at] != 0 {
                continue 'rooms;
            }
            at += site.conf.row;
        }
        return Ok(room);
    }
    Err(Answer::refused(22, 0))
}

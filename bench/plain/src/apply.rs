//! The writes of an accepted request. They ask nothing; kind 3 counts what it erases, or what it would erase.

use crate::judge::{has_bit, holds};
use crate::site::{Dated, Grid, Request, Site};

/// Words that are searched before one of them is written: few blocks hold the guest.
const BLOCK: usize = 64;

#[inline(always)]
pub fn set_bits(book: &mut [u32], pools: &Grid, r: &Request, member: u32) {
    let mut at = pools.at(r.first, member as usize / 32);
    for _ in r.first..r.last + 1 {
        book[at] |= 1 << (member % 32);
        at += pools.row;
    }
}

#[inline(always)]
pub fn clear_bits(book: &mut [u32], pools: &Grid, r: &Request, member: u32) {
    let mut at = pools.at(r.first, member as usize / 32);
    for _ in r.first..r.last + 1 {
        book[at] &= !(1 << (member % 32));
        at += pools.row;
    }
}

#[inline(always)]
pub fn put_cells(book: &mut [u32], grid: &Grid, r: &Request, item: u32, word: u32) {
    put_groups(book, grid, r, item, [word]);
}

/// Cells of several words.
#[inline(always)]
pub fn put_groups<const WIDTH: usize>(book: &mut [u32], grid: &Grid, r: &Request, item: u32, words: [u32; WIDTH]) {
    let mut at = grid.at(r.first, item as usize * WIDTH);
    for _ in r.first..r.last + 1 {
        book[at..at + WIDTH].copy_from_slice(&words);
        at += grid.row;
    }
}

/// Dates without leave have no bookings of the visitor.
#[inline(always)]
pub fn remove_visitor(site: &Site, book: &mut [u32], r: &Request) -> u32 {
    let mut erased = 0;
    for date in r.first..r.last + 1 {
        if has_bit(&site.leave, book, date, r.b) {
            erased += erase_guest(site.hotel.row_mut(book, date), r.b + 1);
            erased += erase_guest(site.ride.date_mut(book, date), r.b + 1);
            erased += erase_attends(site, book, date, r.b);
        }
    }
    clear_bits(book, &site.leave, r, r.b);
    erased
}

/// What `remove_visitor` would erase.
pub fn bookings(site: &Site, book: &[u32], r: &Request) -> u32 {
    let cells = |words: &[u32]| words.iter().map(|cell| u32::from(*cell == r.b + 1)).sum::<u32>();
    let attended = |session: u32| u32::from(book[site.attend.at(session, r.b as usize)] != 0);
    let mut found = 0;
    for date in (r.first..r.last + 1).filter(|date| has_bit(&site.leave, book, *date, r.b)) {
        found += cells(site.hotel.row(book, date)) + cells(site.ride.date(book, date));
        found += (site.attend.first_on(date)..site.attend.first_on(date + 1)).map(attended).sum::<u32>();
    }
    found
}

#[inline(always)]
fn erase_guest(words: &mut [u32], guest: u32) -> u32 {
    let (blocks, rest) = words.as_chunks_mut::<BLOCK>();
    let mut erased = erase_in(rest, guest);
    for block in blocks {
        if holds(block, guest) {
            erased += erase_in(block, guest);
        }
    }
    erased
}

#[inline(always)]
fn erase_in(words: &mut [u32], guest: u32) -> u32 {
    let mut erased = 0;
    for cell in words {
        let hit = *cell == guest;
        erased += u32::from(hit);
        *cell = if hit { 0 } else { *cell };
    }
    erased
}

#[inline(always)]
fn erase_attends(site: &Site, book: &mut [u32], date: u32, visitor: u32) -> u32 {
    let mut at = site.attend.at(date * site.attend.per_date as u32, visitor as usize);
    let mut erased = 0;
    for _ in 0..site.attend.per_date {
        erased += u32::from(book[at] != 0);
        book[at] = 0;
        at += site.attend.row;
    }
    erased
}

#[inline(always)]
pub fn end_standing(site: &Site, book: &mut [u32], r: &Request) {
    clear_bits(book, &site.standing, r, r.a);
    for session in r.first..r.last + 1 {
        for cell in site.attend.row_mut(book, session) {
            *cell = if *cell == r.a + 1 { 0 } else { *cell };
        }
    }
}

#[inline(always)]
pub fn erase_confs(site: &Site, book: &mut [u32], r: &Request) {
    for session in r.first..r.last + 1 {
        for pair in site.conf.row_mut(book, session).as_chunks_mut::<2>().0 {
            if pair[0] == r.b + 1 {
                *pair = [0, 0];
            }
        }
    }
}

#[inline(always)]
pub fn cancel(site: &Site, book: &mut [u32], r: &Request) {
    erase_confs(site, book, r);
    for date in site.conf.date_of(r.first)..site.conf.date_of(r.last) + 1 {
        let at = site.lunch.at(date, 3 * r.b as usize);
        book[at..at + 3].fill(0);
    }
}

//! One request on a book that passes 1 and 2: its questions, and if all say yes its writes and the change count. Asking
//! is the questions alone, committing a request at a count.

use crate::apply::{
    bookings, cancel, clear_bits, end_standing, erase_confs, put_cells, put_groups, remove_visitor, set_bits,
};
use crate::judge::{
    attends, can_end, cells_hold, free_room, has_lunches, has_rooms, has_this_lunch, members, new_attend, new_conf,
    new_guest, new_lunch, no_bookings, seats_left, which_meeting,
};
use crate::kinds::{form, Refusal};
use crate::site::{Answer, Request, Site};

/// The site is the book's.
#[inline(always)]
pub fn step(site: &Site, book: &mut [u32], r: &Request) -> Answer {
    told(match r.kind {
        1 => change::<1>(site, book, r),
        2 => change::<2>(site, book, r),
        3 => change::<3>(site, book, r),
        4 => change::<4>(site, book, r),
        5 => change::<5>(site, book, r),
        6 => change::<6>(site, book, r),
        7 => change::<7>(site, book, r),
        8 => change::<8>(site, book, r),
        9 => change::<9>(site, book, r),
        10 => change::<10>(site, book, r),
        11 => change::<11>(site, book, r),
        12 => change::<12>(site, book, r),
        13 => change::<13>(site, book, r),
        14 => change::<14>(site, book, r),
        15 => change::<15>(site, book, r),
        16 => change::<16>(site, book, r),
        _ => query(site, book, r),
    })
}

/// What `step` would answer; no word is written.
pub fn would_be(site: &Site, book: &[u32], r: &Request) -> Answer {
    told(match r.kind {
        1 => judged::<1>(site, book, r),
        2 => judged::<2>(site, book, r),
        3 => judged::<3>(site, book, r).map(|_| bookings(site, book, r)),
        4 => judged::<4>(site, book, r),
        5 => judged::<5>(site, book, r),
        6 => judged::<6>(site, book, r),
        7 => judged::<7>(site, book, r),
        8 => judged::<8>(site, book, r),
        9 => judged::<9>(site, book, r),
        10 => judged::<10>(site, book, r),
        11 => judged::<11>(site, book, r),
        12 => judged::<12>(site, book, r),
        13 => judged::<13>(site, book, r),
        14 => judged::<14>(site, book, r),
        15 => judged::<15>(site, book, r),
        16 => judged::<16>(site, book, r),
        _ => query(site, book, r),
    })
}

/// The change count: the last word.
#[inline(always)]
pub fn count(site: &Site, book: &[u32]) -> u32 {
    book[site.length - 1]
}

/// Question 30.
#[inline(always)]
fn can_rise(count: u32) -> Refusal {
    if count == u32::MAX {
        return Err(Answer::refused(30, 0));
    }
    Ok(())
}

/// Question 30, and then the change count is one more.
#[inline(always)]
pub fn raise(site: &Site, book: &mut [u32]) -> Refusal {
    let count = &mut book[site.length - 1];
    can_rise(*count)?;
    *count += 1;
    Ok(())
}

/// The value, or the refusal.
type Value = Result<u32, Answer>;

#[inline(always)]
fn told(value: Value) -> Answer {
    value.map_or_else(|refused| refused, Answer::done)
}

#[inline(always)]
fn change<const KIND: usize>(site: &Site, book: &mut [u32], r: &Request) -> Value {
    form::<KIND>(site, r)?;
    questions::<KIND>(site, book, r)?;
    raise(site, book)?;
    Ok(write::<KIND>(site, book, r))
}

#[inline(always)]
fn judged<const KIND: usize>(site: &Site, book: &[u32], r: &Request) -> Value {
    form::<KIND>(site, r)?;
    questions::<KIND>(site, book, r)?;
    can_rise(count(site, book)).map(|()| 0)
}

/// Kinds 17 to 20, and kinds that are none.
#[inline(always)]
fn query(site: &Site, book: &[u32], r: &Request) -> Value {
    match r.kind {
        17 => form::<17>(site, r).and_then(|()| which_meeting(site, book, r)),
        18 => form::<18>(site, r).map(|()| members(site, book, r)),
        19 => form::<19>(site, r).map(|()| seats_left(site, book, r)),
        20 => form::<20>(site, r).and_then(|()| free_room(site, book, r)),
        _ => Err(Answer::refused(3, 0)),
    }
}

/// The questions of kinds 1 to 16 from 9 on.
#[inline(always)]
fn questions<const KIND: usize>(site: &Site, book: &[u32], r: &Request) -> Refusal {
    match KIND {
        2 => no_bookings(site, book, r),
        4 => new_guest(site, book, &site.hotel, &site.hotel, r),
        5 => cells_hold(book, &site.hotel, r),
        6 => new_guest(site, book, &site.ride, &site.ride.cells, r),
        7 => cells_hold(book, &site.ride.cells, r),
        9 => can_end(site, book, r),
        10 => new_attend(site, book, r),
        11 => attends(site, book, r),
        12 => new_conf(site, book, r),
        13 => has_rooms(site, book, r),
        14 => new_lunch(site, book, r),
        15 => has_this_lunch(site, book, r),
        16 => has_rooms(site, book, r).and_then(|()| has_lunches(site, book, r)),
        _ => Ok(()),
    }
}

/// The writes of kinds 1 to 16, and the value.
#[inline(always)]
fn write<const KIND: usize>(site: &Site, book: &mut [u32], r: &Request) -> u32 {
    match KIND {
        1 => set_bits(book, &site.leave, r, r.b),
        2 => clear_bits(book, &site.leave, r, r.b),
        3 => return remove_visitor(site, book, r),
        4 => put_cells(book, &site.hotel, r, r.a, r.b + 1),
        5 => put_cells(book, &site.hotel, r, r.a, 0),
        6 => put_cells(book, &site.ride.cells, r, r.a, r.b + 1),
        7 => put_cells(book, &site.ride.cells, r, r.a, 0),
        8 => set_bits(book, &site.standing, r, r.a),
        9 => end_standing(site, book, r),
        10 => put_cells(book, &site.attend, r, r.b, r.a + 1),
        11 => put_cells(book, &site.attend, r, r.b, 0),
        12 => put_groups(book, &site.conf, r, r.a, [r.b + 1, r.info]),
        13 => erase_confs(site, book, r),
        14 => put_groups(book, &site.lunch, r, r.b, [r.a + 1, r.n, r.info]),
        15 => put_groups(book, &site.lunch, r, r.b, [0, 0, 0]),
        _ => cancel(site, book, r),
    }
    0
}

//! Books for checking: lawful and full ones, books in which one rule alone is broken, and junk.

use super::requests::{deep_state, time_on};
use super::rng::Rng;
use super::sites::{bad_settings, site, Size};
use crate::book::regions::{address, Name};
use crate::book::{length, pool_words, ring_base, words, Rule, ENTRY_WORDS, RING_WORDS, TAIL_WORDS};
use crate::machine::ring::PLACES;
use crate::machine::site::{GREATEST, HEAD, LIMITS};
use crate::machine::{Date, Session, Settings, State, Time};

/// A book that breaks this rule and no other, made from a lawful state; None when the site cannot
/// break it (no unused bits, one hotel room, one meeting).
pub fn damaged(rng: &mut Rng, state: &State, rule: Rule) -> Option<Vec<u32>> {
    if Rule::CELL_RULES.contains(&rule) {
        break_cell(rng, state, rule)
    } else if Rule::OF_RING.contains(&rule) {
        Some(break_ring(rng, state, rule))
    } else {
        let mut state = state.clone();
        break_law(rng, &mut state, rule)?;
        Some(words(&state))
    }
}

/// Cell rules are broken in the words: one word is changed.
fn break_cell(rng: &mut Rng, state: &State, rule: Rule) -> Option<Vec<u32>> {
    let s = &state.settings;
    let mut book = words(state);
    match rule {
        Rule::LeaveUnusedBits => set_unused_bit(rng, &mut book, s, Name::Leave, s.dates, s.visitors)?,
        Rule::StandingUnusedBits => set_unused_bit(rng, &mut book, s, Name::Standing, s.sessions(), s.meetings)?,
        Rule::HotelCellLimit => {
            let at = address(s, Name::Hotel, rng.below(s.dates), rng.below(s.hotel_rooms));
            book[at] = past(rng, s.visitors);
        }
        Rule::RideCellLimit => {
            let at = address(s, Name::Ride, rng.below(s.times()), rng.below(s.transports));
            book[at] = past(rng, s.visitors);
        }
        Rule::AttendCellLimit => {
            let at = address(s, Name::Attend, rng.below(s.sessions()), rng.below(s.visitors));
            book[at] = past(rng, s.meetings);
        }
        Rule::ConfCellLimit => {
            let at = address(s, Name::Conf, rng.below(s.sessions()), rng.below(s.conference_rooms));
            book[at] = past(rng, s.meetings);
        }
        Rule::LunchCellLimit => {
            let at = address(s, Name::Lunch, rng.below(s.dates), rng.below(s.meetings));
            book[at] = past(rng, s.dining_rooms);
        }
        _ => break_beside(rng, state, &mut book, rule),
    }
    Some(book)
}

/// A word past the limit of a cell, from one past it to the greatest word.
fn past(rng: &mut Rng, limit: u32) -> u32 {
    match rng.below(4) {
        0 | 1 => limit + 1,
        2 => rng.pick(&[u32::MAX, 0x8000_0000, 0x0001_0000, 0x0000_ffff]).max(limit + 1),
        _ => rng.word().max(limit + 1),
    }
}

fn not_zero(rng: &mut Rng) -> u32 {
    rng.pick(&[1, 0x8000_0000, u32::MAX, 7])
}

fn set_unused_bit(rng: &mut Rng, book: &mut [u32], s: &Settings, pool: Name, slots: u32, members: u32) -> Option<()> {
    if members.is_multiple_of(32) {
        return None;
    }
    let at = address(s, pool, rng.below(slots), pool_words(members) - 1);
    book[at] |= 1 << rng.between(members % 32, 31);
    Some(())
}

/// The rules about the words beside a conf or lunch cell.
fn break_beside(rng: &mut Rng, state: &State, book: &mut [u32], rule: Rule) {
    let s = &state.settings;
    let conf = address(s, Name::Conf, rng.below(s.sessions()), rng.below(s.conference_rooms));
    let lunch = address(s, Name::Lunch, rng.below(s.dates), rng.below(s.meetings));
    match rule {
        Rule::EmptyConfInfo => (book[conf], book[conf + 1]) = (0, not_zero(rng)),
        Rule::EmptyLunchSeats => book[lunch..lunch + 3].copy_from_slice(&[0, not_zero(rng), 0]),
        Rule::EmptyLunchInfo => book[lunch..lunch + 3].copy_from_slice(&[0, 0, not_zero(rng)]),
        _ => {
            let room = rng.below(s.dining_rooms);
            let over = past(rng, s.capacity(room));
            let seats = if rule == Rule::LunchSeatsNone { 0 } else { over };
            book[lunch..lunch + 2].copy_from_slice(&[room + 1, seats]);
        }
    }
}

/// The law of the ring is broken in the words of one place, of two, or of the next place.
fn break_ring(rng: &mut Rng, state: &State, rule: Rule) -> Vec<u32> {
    let mut book = words(state);
    let base = ring_base(&state.settings) as usize;
    let place = rng.below(PLACES as u32) as usize;
    let other = (place + rng.between(1, PLACES as u32 - 1) as usize) % PLACES;
    let ring = &mut book[base..];
    let entry = place * ENTRY_WORDS;
    match rule {
        Rule::OrdersDiffer => {
            number_anew(rng, ring, place);
            let order = ring[entry];
            ring[other * ENTRY_WORDS] = order;
        }
        Rule::EmptyPlaceZeros => {
            ring[entry..entry + ENTRY_WORDS].fill(0);
            // Of the answer the number or the value alone: a place without a number would break another clause too.
            let at = rng.pick(&[1, 2, 3, 4, 5, 6, 7, 8, 10]);
            ring[entry + at] = not_zero(rng);
        }
        Rule::DoneAnswerPlace => {
            number_anew(rng, ring, place);
            (ring[entry + 8], ring[entry + 9]) = (0, not_zero(rng));
        }
        Rule::RefusedAnswerValue => {
            number_anew(rng, ring, place);
            (ring[entry + 8], ring[entry + 10]) = (not_zero(rng), not_zero(rng));
        }
        _ => ring[RING_WORDS - 1] = past(rng, PLACES as u32 - 1),
    }
    book
}

/// Gives an entry a number that no other has.
fn number_anew(rng: &mut Rng, ring: &mut [u32], place: usize) {
    let taken: Vec<u32> = (0..PLACES).map(|at| ring[at * ENTRY_WORDS]).collect();
    let numbers = [1, 2, 64, 705, 0x8000_0000, u32::MAX, rng.word(), rng.word()];
    let start = rng.below(8) as usize;
    let free = (0..8).map(|at| numbers[(start + at) % 8]).find(|number| *number != 0 && !taken.contains(number));
    ring[place * ENTRY_WORDS] = free.expect("a number that no order has");
}

/// Laws are broken in the sets: what is in the way is taken out first, then the entry that breaks
/// the law goes in, with everything that the other laws want of it.
fn break_law(rng: &mut Rng, state: &mut State, rule: Rule) -> Option<()> {
    let s = state.settings.clone();
    let date = Date(rng.below(s.dates));
    let visitor = rng.below(s.visitors);
    let meeting = rng.below(s.meetings);
    let session = Session(date.0 * s.sessions_per_date + rng.below(s.sessions_per_date));
    let time = time_on(rng, &s, date);
    match rule {
        Rule::VisitorHasOneHotelRoom => two_hotel_rooms(rng, state, date, visitor)?,
        Rule::VisitorHasOneTransport => two_transports(rng, state, time, visitor)?,
        Rule::AttendedMeetingStands => {
            take_out_meeting(state, date, meeting);
            take_out_visitor(state, date, visitor);
            state.leave.insert((date, visitor));
            state.attend.insert((session, meeting, visitor));
        }
        Rule::ConfMeetingStands => {
            take_out_meeting(state, date, meeting);
            let room = rng.below(s.conference_rooms);
            state.conf.retain(|(at, a, _), _| !(*at == session && *a == room));
            state.conf.insert((session, room, meeting), rng.word());
        }
        Rule::LunchMeetingStands => {
            take_out_meeting(state, date, meeting);
            let room = rng.below(s.dining_rooms);
            state.lunch.retain(|(on, a, _), _| !(*on == date && *a == room));
            state.lunch.insert((date, room, meeting), (s.capacity(room), rng.word()));
        }
        Rule::ReservedWithinCapacity => too_many_seats(rng, state, date, meeting)?,
        _ => guest_without_leave(rng, state, rule, session, time, visitor),
    }
    Some(())
}

/// Takes the visitor's leave and bookings of the date out of the sets.
fn take_out_visitor(state: &mut State, date: Date, visitor: u32) {
    let s = &state.settings;
    state.leave.remove(&(date, visitor));
    state.hotel.retain(|(on, _, b)| !(*on == date && *b == visitor));
    state.ride.retain(|(at, _, b)| !(s.date_of_time(*at) == date && *b == visitor));
    state.attend.retain(|(at, _, b)| !(s.date_of_session(*at) == date && *b == visitor));
}

/// Takes the meeting's standing, attend entries, rooms and lunches of the date out of the sets.
fn take_out_meeting(state: &mut State, date: Date, meeting: u32) {
    let s = &state.settings;
    state.standing.retain(|(at, a)| !(s.date_of_session(*at) == date && *a == meeting));
    state.attend.retain(|(at, a, _)| !(s.date_of_session(*at) == date && *a == meeting));
    state.conf.retain(|(at, _, b), _| !(s.date_of_session(*at) == date && *b == meeting));
    state.lunch.retain(|(on, _, b), _| !(*on == date && *b == meeting));
}

/// Two different numbers below the limit.
fn two_below(rng: &mut Rng, limit: u32) -> Option<(u32, u32)> {
    if limit < 2 {
        return None;
    }
    let one = rng.below(limit);
    Some((one, (one + rng.between(1, limit - 1)) % limit))
}

fn two_hotel_rooms(rng: &mut Rng, state: &mut State, date: Date, visitor: u32) -> Option<()> {
    let (one, other) = two_below(rng, state.settings.hotel_rooms)?;
    take_out_visitor(state, date, visitor);
    state.hotel.retain(|(on, room, _)| !(*on == date && (*room == one || *room == other)));
    state.leave.insert((date, visitor));
    state.hotel.extend([(date, one, visitor), (date, other, visitor)]);
    Some(())
}

fn two_transports(rng: &mut Rng, state: &mut State, time: Time, visitor: u32) -> Option<()> {
    let (one, other) = two_below(rng, state.settings.transports)?;
    let date = state.settings.date_of_time(time);
    take_out_visitor(state, date, visitor);
    state.ride.retain(|(at, a, _)| !(*at == time && (*a == one || *a == other)));
    state.leave.insert((date, visitor));
    state.ride.extend([(time, one, visitor), (time, other, visitor)]);
    Some(())
}

/// Two lunches in one room, each within capacity, together one seat or more over it.
fn too_many_seats(rng: &mut Rng, state: &mut State, date: Date, meeting: u32) -> Option<()> {
    let s = state.settings.clone();
    let (one, other) = two_below(rng, s.meetings)?;
    let room = rng.below(s.dining_rooms);
    let seats = rng.between(1, s.capacity(room));
    state.lunch.retain(|(on, a, b), _| !(*on == date && (*a == room || [one, other, meeting].contains(b))));
    for b in [one, other] {
        let session = Session(date.0 * s.sessions_per_date + rng.below(s.sessions_per_date));
        state.standing.insert((session, b));
    }
    let rest = s.capacity(room) + 1 - seats;
    state.lunch.insert((date, room, one), (seats, rng.word()));
    state.lunch.insert((date, room, other), (rest, rng.word()));
    Some(())
}

fn guest_without_leave(rng: &mut Rng, state: &mut State, rule: Rule, session: Session, time: Time, visitor: u32) {
    let s = state.settings.clone();
    let date = s.date_of_session(session);
    take_out_visitor(state, date, visitor);
    match rule {
        Rule::HotelGuestHasLeave => {
            let room = rng.below(s.hotel_rooms);
            state.hotel.retain(|(on, a, _)| !(*on == date && *a == room));
            state.hotel.insert((date, room, visitor));
        }
        Rule::RideGuestHasLeave => {
            let transport = rng.below(s.transports);
            leave_beside(rng, state, time, visitor);
            state.ride.retain(|(at, a, _)| !(*at == time && *a == transport));
            state.ride.insert((time, transport, visitor));
        }
        _ => {
            let meeting = rng.below(s.meetings);
            state.standing.insert((session, meeting));
            state.attend.insert((session, meeting, visitor));
        }
    }
}

/// Mostly gives the visitor leave on the dates beside that of the time, which must not count for a ride then.
fn leave_beside(rng: &mut Rng, state: &mut State, time: Time, visitor: u32) {
    let date = state.settings.date_of_time(time).0;
    let beside = (date.saturating_sub(1)..=date + 1).filter(|other| *other != date && *other < state.settings.dates);
    if rng.percent(75) {
        state.leave.extend(beside.map(|other| (Date(other), visitor)));
    }
}

/// A book that is mostly wrong: random words, junk limits, products that overflow, a wrong length,
/// other early times, flipped words of a lawful book.
pub fn junk_book(rng: &mut Rng) -> Vec<u32> {
    let settings = site(rng, Size::Small);
    let mut book = words(&deep_state(rng, settings, 30));
    match rng.below(13) {
        0 => return (0..rng.below(80)).map(|_| rng.junk(2)).collect(),
        1 => book.truncate(rng.below(book.len() as u32) as usize),
        2 => book.extend((0..rng.between(1, 9)).map(|_| rng.pick(&[0, 0, 1, u32::MAX]))),
        3 => {
            let which = rng.below(LIMITS as u32) as usize;
            book[which] = rng.junk(GREATEST[which]);
        }
        4 => book[..HEAD].fill(rng.pick(&[u32::MAX, 0x8000_0000, 0x0001_0000, 0])),
        5 => book[..LIMITS].copy_from_slice(&GREATEST),
        6 => {
            let bad = bad_settings(rng);
            let common = bad.len().min(book.len());
            book[..common].copy_from_slice(&bad[..common]);
        }
        7 => book[LIMITS] = if rng.percent(50) { rng.below(book[2]) } else { rng.junk(book[2]) },
        _ => flip_words(rng, &mut book),
    }
    book
}

/// Changes a few words after the limits, each to a near or a junk value; fewer of them in the tail than it is long.
pub fn flip_words(rng: &mut Rng, book: &mut [u32]) {
    let behind = (book.len() - TAIL_WORDS) as u32;
    for _ in 0..rng.between(1, 3) {
        let last = if rng.percent(75) { behind } else { book.len() as u32 };
        let at = rng.between(LIMITS as u32, last - 1) as usize;
        book[at] = match rng.below(4) {
            0 => book[at] ^ (1 << rng.below(32)),
            1 => book[at].wrapping_add(1),
            2 => rng.below(6),
            _ => rng.junk(5),
        };
    }
}

/// A lawful book about `percent` full, written straight into the words, for books too large for
/// request lists.
pub fn full_book(rng: &mut Rng, settings: &Settings, percent: u32) -> Vec<u32> {
    let s = settings;
    let mut book = s.words();
    book.resize(length(s) as usize, 0);
    for date in 0..s.dates {
        fill_bits(rng, &mut book, address(s, Name::Leave, date, 0), s.visitors, 75);
        fill_guests(rng, &mut book, s, (Name::Hotel, date, s.hotel_rooms), date, percent);
        for session in date * s.sessions_per_date..(date + 1) * s.sessions_per_date {
            fill_bits(rng, &mut book, address(s, Name::Standing, session, 0), s.meetings, 75);
            fill_session(rng, &mut book, s, date, session, percent);
        }
        fill_lunches(rng, &mut book, s, date, percent);
        for Time(time) in s.times_of(Date(date)) {
            fill_guests(rng, &mut book, s, (Name::Ride, time, s.transports), date, percent);
        }
    }
    book
}

fn fill_bits(rng: &mut Rng, book: &mut [u32], at: usize, members: u32, percent: u32) {
    for member in rng.some_below(members, percent) {
        book[at + (member / 32) as usize] |= 1 << (member % 32);
    }
}

fn has_bit(book: &[u32], at: usize, member: u32) -> bool {
    book[at + (member / 32) as usize] >> (member % 32) & 1 == 1
}

/// One row of hotel or ride cells: visitors with leave in a rotated order, so that none comes twice.
fn fill_guests(rng: &mut Rng, book: &mut [u32], s: &Settings, row: (Name, u32, u32), date: u32, percent: u32) {
    let leave = address(s, Name::Leave, date, 0);
    let (name, slot, items) = row;
    let start = rng.below(s.visitors);
    let turned = (0..s.visitors).map(|visitor| (visitor + start) % s.visitors);
    let mut guests: Vec<u32> = turned.filter(|visitor| has_bit(book, leave, *visitor)).collect();
    let at = address(s, name, slot, 0);
    for item in rng.some_below(items, percent) {
        if let Some(visitor) = guests.pop() {
            book[at + item as usize] = visitor + 1;
        }
    }
}

fn fill_session(rng: &mut Rng, book: &mut [u32], s: &Settings, date: u32, session: u32, percent: u32) {
    let leave = address(s, Name::Leave, date, 0);
    let standing = address(s, Name::Standing, session, 0);
    let meetings: Vec<u32> = (0..s.meetings).filter(|meeting| has_bit(book, standing, *meeting)).collect();
    if meetings.is_empty() {
        return;
    }
    let attend = address(s, Name::Attend, session, 0);
    for visitor in 0..s.visitors {
        if has_bit(book, leave, visitor) && rng.percent(percent * 4 / 3) {
            book[attend + visitor as usize] = rng.pick(&meetings) + 1;
        }
    }
    let conf = address(s, Name::Conf, session, 0);
    for room in rng.some_below(s.conference_rooms, percent) {
        let at = conf + 2 * room as usize;
        book[at..at + 2].copy_from_slice(&[rng.pick(&meetings) + 1, rng.word()]);
    }
}

fn fill_lunches(rng: &mut Rng, book: &mut [u32], s: &Settings, date: u32, percent: u32) {
    let mut left = s.capacities.clone();
    for meeting in rng.some_below(s.meetings, percent) {
        let mut sessions = date * s.sessions_per_date..(date + 1) * s.sessions_per_date;
        let stands = sessions.any(|session| has_bit(book, address(s, Name::Standing, session, 0), meeting));
        let room = rng.below(s.dining_rooms);
        let seats = rng.between(1, 4).min(left[room as usize]);
        if stands && seats > 0 {
            left[room as usize] -= seats;
            let at = address(s, Name::Lunch, date, meeting);
            book[at..at + 3].copy_from_slice(&[room + 1, seats, rng.word()]);
        }
    }
}

//! The words of the book (docs/RULES.md, section 8 and rules 18.4 and 19.1): those of a state, and how many a site needs.

pub mod calls;
pub mod laws;
pub mod reading;
pub mod regions;

use crate::machine::ring::PLACES;
use crate::machine::{Date, Kept, Session, Settings, State};
use std::collections::BTreeMap;

pub use calls::{ask, book_len, check, commit, lay, order, orders, request, requests, serve, serve_orders};
pub use laws::{broken, laws_broken, Rule};
pub use reading::{read, shown};

/// How many words the bits of a pool of members take (rule 8.1).
pub fn pool_words(members: u32) -> u32 {
    members.div_ceil(32)
}

/// How many words a kept order takes, and all of them with the next place (rule 18.4).
pub const ENTRY_WORDS: usize = 11;
pub const RING_WORDS: usize = PLACES * ENTRY_WORDS + 1;

/// How many words stand behind the rides: the ring, and the change count as the last (rule 19.1).
pub const TAIL_WORDS: usize = RING_WORDS + 1;

/// Where the ring begins: behind the settings and the seven regions.
pub fn ring_base(settings: &Settings) -> u64 {
    regions::regions(settings).iter().fold(settings.word_count() as u64, |sum, region| sum + region.length())
}

/// The length of a site's book (rule 8.5).
pub fn length(settings: &Settings) -> u64 {
    ring_base(settings) + TAIL_WORDS as u64
}

/// The words that show the state (rule 8.13).
pub fn words(state: &State) -> Vec<u32> {
    let s = &state.settings;
    let mut out = s.words();
    for date in dates(s) {
        out.extend(bits(s.visitors, |visitor| state.leave.contains(&(date, visitor))));
    }
    for date in dates(s) {
        out.extend((0..s.hotel_rooms).map(|room| hotel_cell(state, date, room)));
    }
    for session in sessions(s) {
        out.extend(bits(s.meetings, |meeting| state.standing.contains(&(session, meeting))));
    }
    for session in sessions(s) {
        out.extend(attend_cells(state, session));
    }
    for session in sessions(s) {
        out.extend((0..s.conference_rooms).flat_map(|room| conf_pair(state, session, room)));
    }
    for date in dates(s) {
        out.extend(lunch_triples(state, date));
    }
    for time in 0..s.times() {
        out.extend((0..s.transports).map(|transport| ride_cell(state, time, transport)));
    }
    for place in &state.ring.places {
        out.extend(entry_words(place));
    }
    out.push(state.ring.next as u32);
    out.push(state.changes);
    out
}

fn dates(s: &Settings) -> impl Iterator<Item = Date> {
    (0..s.dates).map(Date)
}

fn sessions(s: &Settings) -> impl Iterator<Item = Session> {
    (0..s.sessions()).map(Session)
}

/// A row of bits (rules 8.4 and 8.8).
fn bits(members: u32, holds: impl Fn(u32) -> bool) -> Vec<u32> {
    let mut row = vec![0u32; pool_words(members) as usize];
    for member in (0..members).filter(|member| holds(*member)) {
        row[(member / 32) as usize] += 1 << (member % 32);
    }
    row
}

/// Hotel and ride cells (rule 8.6): one more than the visitor.
fn hotel_cell(state: &State, date: Date, room: u32) -> u32 {
    let mut of_room = state.hotel.range((date, room, 0)..=(date, room, u32::MAX));
    of_room.next().map_or(0, |(_, _, visitor)| visitor + 1)
}

fn ride_cell(state: &State, time: u32, transport: u32) -> u32 {
    let time = crate::machine::Time(time);
    let mut of_transport = state.ride.range((time, transport, 0)..=(time, transport, u32::MAX));
    of_transport.next().map_or(0, |(_, _, visitor)| visitor + 1)
}

/// The attend cells of a session (rule 8.6): for each visitor one more than the meeting.
fn attend_cells(state: &State, session: Session) -> Vec<u32> {
    let entries = state.attend.range((session, 0, 0)..=(session, u32::MAX, u32::MAX));
    let meeting_of: BTreeMap<u32, u32> = entries.map(|(_, meeting, visitor)| (*visitor, *meeting)).collect();
    let cell = |visitor| meeting_of.get(&visitor).map_or(0, |meeting| meeting + 1);
    (0..state.settings.visitors).map(cell).collect()
}

/// A place of the ring (rule 18.4): order number, request, answer; zeros where no order is kept.
fn entry_words(place: &Option<Kept>) -> [u32; ENTRY_WORDS] {
    let mut words = [0; ENTRY_WORDS];
    if let Some(kept) = place {
        words[0] = kept.order;
        words[1..8].copy_from_slice(&kept.request.words());
        words[8..].copy_from_slice(&kept.answer.words());
    }
    words
}

/// A conf cell (rules 8.6 and 8.7): one more than the meeting, information.
fn conf_pair(state: &State, session: Session, room: u32) -> [u32; 2] {
    let mut of_room = state.conf.range((session, room, 0)..=(session, room, u32::MAX));
    of_room.next().map_or([0, 0], |((_, _, meeting), info)| [meeting + 1, *info])
}

/// The lunch cells of a date (rules 8.6 and 8.7): for each meeting one more than the dining room,
/// seats, information.
fn lunch_triples(state: &State, date: Date) -> Vec<u32> {
    let entries = state.lunch.range((date, 0, 0)..=(date, u32::MAX, u32::MAX));
    let lunch_of: BTreeMap<u32, [u32; 3]> =
        entries.map(|((_, room, meeting), (seats, info))| (*meeting, [room + 1, *seats, *info])).collect();
    let triple = |meeting| lunch_of.get(&meeting).copied().unwrap_or([0, 0, 0]);
    (0..state.settings.meetings).flat_map(triple).collect()
}

//! The state that a book shows, read word by word in the book's order, the cell rules, and the law of the ring.

use super::laws::Rule;
use super::{pool_words, words, ENTRY_WORDS};
use crate::machine::ring::PLACES;
use crate::machine::{Answer, Date, Kept, Request, Session, Settings, State, Time};
use std::collections::BTreeSet;

/// The sets that the well-formed cells of a book give, with the orders of the well-formed places of its ring and the
/// change count, and the rules that other cells and places break. These give no entry and no order.
pub struct Reading {
    pub state: State,
    pub broken: BTreeSet<Rule>,
}

/// The state that the book shows (rule 8.13). None when it shows none.
pub fn shown(book: &[u32]) -> Option<State> {
    let settings = super::calls::question_1(book)?;
    let reading = read(settings, book);
    if words(&reading.state) == book {
        Some(reading.state)
    } else {
        None
    }
}

/// Reads a book that passes question 1.
pub fn read(settings: Settings, book: &[u32]) -> Reading {
    let header = settings.word_count();
    let mut reader = Reader {
        rest: &book[header..],
        reading: Reading { state: State::empty(settings.clone()), broken: BTreeSet::new() },
    };
    reader.leave(&settings);
    reader.hotel(&settings);
    reader.standing(&settings);
    reader.attend(&settings);
    reader.conf(&settings);
    reader.lunch(&settings);
    reader.ride(&settings);
    reader.ring();
    reader.reading.state.changes = reader.next();
    reader.reading
}

/// Takes words from the front of what is left of the book.
struct Reader<'a> {
    rest: &'a [u32],
    reading: Reading,
}

impl Reader<'_> {
    fn next(&mut self) -> u32 {
        let word = self.rest[0];
        self.rest = &self.rest[1..];
        word
    }

    fn breaks(&mut self, rule: Rule) {
        self.reading.broken.insert(rule);
    }

    /// The members of one row of bits; a bit of no member breaks rule 8.8.
    fn members(&mut self, members: u32, unused: Rule) -> Vec<u32> {
        let mut found = Vec::new();
        for place in 0..pool_words(members) {
            let word = self.next();
            found.extend((0..32).filter(|bit| word >> bit & 1 == 1).map(|bit| place * 32 + bit));
        }
        if found.iter().any(|member| *member >= members) {
            self.breaks(unused);
        }
        found.retain(|member| *member < members);
        found
    }

    /// A cell: None for 0, else the number it holds less 1, which must be within its limit (rule 8.9).
    fn cell(&mut self, limit: u32, past_limit: Rule) -> Option<u32> {
        match self.next() {
            0 => None,
            word if word <= limit => Some(word - 1),
            _ => {
                self.breaks(past_limit);
                None
            }
        }
    }

    fn leave(&mut self, s: &Settings) {
        for date in (0..s.dates).map(Date) {
            let visitors = self.members(s.visitors, Rule::LeaveUnusedBits);
            self.reading.state.leave.extend(visitors.iter().map(|visitor| (date, *visitor)));
        }
    }

    fn hotel(&mut self, s: &Settings) {
        for date in (0..s.dates).map(Date) {
            for room in 0..s.hotel_rooms {
                let cell = self.cell(s.visitors, Rule::HotelCellLimit);
                self.reading.state.hotel.extend(cell.map(|visitor| (date, room, visitor)));
            }
        }
    }

    fn standing(&mut self, s: &Settings) {
        for session in (0..s.sessions()).map(Session) {
            let meetings = self.members(s.meetings, Rule::StandingUnusedBits);
            self.reading.state.standing.extend(meetings.iter().map(|meeting| (session, *meeting)));
        }
    }

    fn attend(&mut self, s: &Settings) {
        for session in (0..s.sessions()).map(Session) {
            for visitor in 0..s.visitors {
                let cell = self.cell(s.meetings, Rule::AttendCellLimit);
                self.reading.state.attend.extend(cell.map(|meeting| (session, meeting, visitor)));
            }
        }
    }

    /// Rule 8.10.
    fn conf(&mut self, s: &Settings) {
        for session in (0..s.sessions()).map(Session) {
            for room in 0..s.conference_rooms {
                let empty = self.rest[0] == 0;
                let cell = self.cell(s.meetings, Rule::ConfCellLimit);
                let info = self.next();
                if empty && info != 0 {
                    self.breaks(Rule::EmptyConfInfo);
                }
                self.reading.state.conf.extend(cell.map(|meeting| ((session, room, meeting), info)));
            }
        }
    }

    fn lunch(&mut self, s: &Settings) {
        for date in (0..s.dates).map(Date) {
            for meeting in 0..s.meetings {
                self.lunch_triple(s, date, meeting);
            }
        }
    }

    /// Rules 8.11 and 8.12.
    fn lunch_triple(&mut self, s: &Settings, date: Date, meeting: u32) {
        let empty = self.rest[0] == 0;
        let cell = self.cell(s.dining_rooms, Rule::LunchCellLimit);
        let (seats, info) = (self.next(), self.next());
        if empty && seats != 0 {
            self.breaks(Rule::EmptyLunchSeats);
        }
        if empty && info != 0 {
            self.breaks(Rule::EmptyLunchInfo);
        }
        let Some(room) = cell else { return };
        if seats == 0 {
            self.breaks(Rule::LunchSeatsNone);
        } else if seats > s.capacity(room) {
            self.breaks(Rule::LunchSeatsOverCapacity);
        } else {
            self.reading.state.lunch.insert((date, room, meeting), (seats, info));
        }
    }

    fn ride(&mut self, s: &Settings) {
        for time in (0..s.times()).map(Time) {
            for transport in 0..s.transports {
                let cell = self.cell(s.visitors, Rule::RideCellLimit);
                self.reading.state.ride.extend(cell.map(|visitor| (time, transport, visitor)));
            }
        }
    }

    /// The four clauses of rule 18.5.
    fn ring(&mut self) {
        for place in 0..PLACES {
            let words: [u32; ENTRY_WORDS] = std::array::from_fn(|_| self.next());
            self.reading.state.ring.places[place] = self.kept(words);
        }
        match self.next() as usize {
            next if next < PLACES => self.reading.state.ring.next = next,
            _ => self.breaks(Rule::NextPlaceWithin),
        }
    }

    fn kept(&mut self, words: [u32; ENTRY_WORDS]) -> Option<Kept> {
        let [order, kind, a, b, first, last, n, info, number, place, value] = words;
        if order == 0 && words != [0; ENTRY_WORDS] {
            self.breaks(Rule::EmptyPlaceZeros);
        }
        if number == 0 && place != 0 {
            self.breaks(Rule::DoneAnswerPlace);
        }
        if number != 0 && value != 0 {
            self.breaks(Rule::RefusedAnswerValue);
        }
        if order == 0 {
            return None;
        }
        if self.reading.state.ring.kept(order).is_some() {
            self.breaks(Rule::OrdersDiffer);
            return None;
        }
        let request = Request { kind, a, b, first, last, n, info };
        Answer::from_words([number, place, value]).map(|answer| Kept { order, request, answer })
    }
}

//! The diary machine: `State` holds settings, sets (docs/RULES.md, section 3), the ring of kept orders
//! (section 18) and the change count (section 19), `step` answers one request (section 6), `order` one that carries the
//! number of an order, `ask` says what a request would be answered, `commit` takes one at a count.

pub mod asking;
pub mod changes;
pub mod kinds;
pub mod questions;
pub mod ring;
pub mod site;

use std::collections::{BTreeMap, BTreeSet};

pub use asking::{ask, commit, Asked};
pub use ring::{order, Kept, Ring};
pub use site::{Date, Session, Settings, Time};

/// The settings, the seven sets with the tuples of rules 3.1 to 3.7, the kept orders, and the change count.
#[derive(Clone, Debug, PartialEq, Eq)]
pub struct State {
    pub settings: Settings,
    /// (date, visitor)
    pub leave: BTreeSet<(Date, u32)>,
    /// (session, meeting)
    pub standing: BTreeSet<(Session, u32)>,
    /// (date, room, visitor)
    pub hotel: BTreeSet<(Date, u32, u32)>,
    /// (time, transport, visitor)
    pub ride: BTreeSet<(Time, u32, u32)>,
    /// (session, meeting, visitor)
    pub attend: BTreeSet<(Session, u32, u32)>,
    /// (session, room, meeting): information
    pub conf: BTreeMap<(Session, u32, u32), u32>,
    /// (date, dining room, meeting): seats, information
    pub lunch: BTreeMap<(Date, u32, u32), (u32, u32)>,
    /// The last orders; no request without an order changes it.
    pub ring: Ring,
    /// How often the state was changed (rule 19.1); any word.
    pub changes: u32,
}

impl State {
    /// The fresh state (rule 3.8).
    pub fn empty(settings: Settings) -> State {
        State {
            settings,
            leave: BTreeSet::new(),
            standing: BTreeSet::new(),
            hotel: BTreeSet::new(),
            ride: BTreeSet::new(),
            attend: BTreeSet::new(),
            conf: BTreeMap::new(),
            lunch: BTreeMap::new(),
            ring: Ring::empty(),
            changes: 0,
        }
    }

    /// What is reserved of a dining room on a date (rule 3.9). 64 bits, so that a state that breaks
    /// the laws can be summed as well.
    pub fn reserved(&self, date: Date, room: u32) -> u64 {
        let of_room = self.lunch.range((date, room, 0)..=(date, room, u32::MAX));
        of_room.map(|(_, (seats, _))| u64::from(*seats)).sum()
    }

    /// Does the meeting stand in some session of the date?
    pub fn stands_on(&self, date: Date, meeting: u32) -> bool {
        self.settings.sessions_of(date).any(|session| self.standing.contains(&(session, meeting)))
    }
}

/// A request, its seven words in the order of section 4.
#[derive(Clone, Copy, Debug, PartialEq, Eq)]
pub struct Request {
    pub kind: u32,
    pub a: u32,
    pub b: u32,
    pub first: u32,
    pub last: u32,
    pub n: u32,
    pub info: u32,
}

impl Request {
    pub fn from_words(w: [u32; 7]) -> Request {
        let [kind, a, b, first, last, n, info] = w;
        Request { kind, a, b, first, last, n, info }
    }

    /// The request of seven words, or of eight, the last of which is the number of its order; 0 is the number of none.
    pub fn with_order(words: &[u32]) -> (Request, u32) {
        let request = Request::from_words(std::array::from_fn(|at| words[at]));
        (request, words.get(7).copied().unwrap_or(ring::NO_ORDER))
    }

    pub fn words(&self) -> [u32; 7] {
        [self.kind, self.a, self.b, self.first, self.last, self.n, self.info]
    }

    pub fn dates(&self) -> impl Iterator<Item = Date> {
        (self.first..=self.last).map(Date)
    }

    pub fn sessions(&self) -> impl Iterator<Item = Session> {
        (self.first..=self.last).map(Session)
    }

    pub fn times(&self) -> impl Iterator<Item = Time> {
        (self.first..=self.last).map(Time)
    }
}

/// An answer (rule 6.1).
#[derive(Clone, Copy, Debug, PartialEq, Eq)]
pub enum Answer {
    Done(u32),
    Refused { number: u32, place: u32 },
}

impl Answer {
    /// The answer that three words tell; None for words of no answer.
    pub fn from_words(words: [u32; 3]) -> Option<Answer> {
        match words {
            [0, 0, value] => Some(Answer::Done(value)),
            [number, place, 0] if number != 0 => Some(Answer::Refused { number, place }),
            _ => None,
        }
    }

    /// The three words of an answer (rule 6.2).
    pub fn words(&self) -> [u32; 3] {
        match *self {
            Answer::Done(value) => [0, 0, value],
            Answer::Refused { number, place } => [number, place, 0],
        }
    }

    /// The number of the question answered no, 0 when done.
    pub fn number(&self) -> u32 {
        self.words()[0]
    }
}

/// Answers one request: the first question answered no refuses it and leaves the state as it is
/// (rules 6.3 and 6.6); without one the change is made, and counted (rule 19.2).
pub fn step(state: &mut State, request: &Request) -> Answer {
    match questions::first_no(state, request) {
        Some((number, place)) => Answer::Refused { number, place },
        None => {
            let value = changes::change(state, request);
            state.changes += u32::from(kinds::changes_something(request.kind));
            Answer::Done(value)
        }
    }
}

/// Answers a whole list, one request after the other.
pub fn run(state: &mut State, requests: &[Request]) -> Vec<Answer> {
    requests.iter().map(|request| step(state, request)).collect()
}

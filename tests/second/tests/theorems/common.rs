//! Deep states, walks of requests over them, and counts of what was met.

use second::calls::{perform, Call, Reply};
use second::gen::requests::aim;
use second::gen::{deep_state, list, sites, Mix, Rng, Size};
use second::machine::kinds::{uses, Unit};
use second::machine::questions::first_no;
use second::machine::{step, Answer, Date, Request, Ring, Session, Settings, State, Time};
use std::collections::BTreeMap;
use std::fmt::Debug;

/// Books of these tests are small: the states are compared whole.
const MOST_WORDS: u64 = 4000;

pub const DONE: Answer = Answer::Done(0);

/// How often each sort of case was met.
pub struct Counts<Sort> {
    counts: BTreeMap<Sort, u32>,
}

impl<Sort: Ord + Debug> Counts<Sort> {
    pub fn new() -> Counts<Sort> {
        Counts { counts: BTreeMap::new() }
    }

    pub fn add(&mut self, sort: Sort) {
        *self.counts.entry(sort).or_default() += 1;
    }

    /// Prints the counts under the seed and wants each of these sorts at least so often.
    pub fn want(&self, seed: u64, what: &str, sorts: impl IntoIterator<Item = Sort>, least: u32) {
        println!("seed {seed:#x}: {what}: {} cases {:?}", self.counts.values().sum::<u32>(), self.counts);
        for sort in sorts {
            let met = self.counts.get(&sort).copied().unwrap_or(0);
            assert!(met >= least, "{what}: {sort:?} met {met} times, wanted {least}");
        }
    }
}

/// A state that a list of requests reached, of a site of any shape.
pub fn some_state(rng: &mut Rng) -> State {
    let settings = sites::site_within(rng, Size::Any, MOST_WORDS);
    state_of(rng, &settings)
}

/// The same for a given site. No order is kept: most theorems are about the sets, and those about orders send their own.
pub fn state_of(rng: &mut Rng, settings: &Settings) -> State {
    let length = rng.between(10, 90) as usize;
    State { ring: Ring::empty(), ..deep_state(rng, settings.clone(), length) }
}

/// Walks lists of requests from so many deep states, and shows each request with the state that it
/// is sent in.
pub fn walk(seed: u64, states: u32, length: usize, mut see: impl FnMut(&State, &Request)) {
    let mut rng = Rng::new(seed);
    for _ in 0..states {
        let mut state = some_state(&mut rng);
        for request in list(&mut rng, &mut state.clone(), length, Mix::USUAL) {
            see(&state, &request);
            step(&mut state, &request);
        }
    }
}

/// The same with accepted requests over runs of slots: additions make runs, erasures find them.
pub fn walk_ranges(seed: u64, states: u32, length: usize, mut see: impl FnMut(&State, &Request)) {
    let mut rng = Rng::new(seed);
    for _ in 0..states {
        let mut state = some_state(&mut rng);
        for _ in 0..length {
            let request = aim(&mut rng, &state, 0);
            let request = grown(&mut rng, &state, request);
            if first_no(&state, &request).is_none() {
                see(&state, &request);
                step(&mut state, &request);
            }
        }
    }
}

/// The request over a run from its first slot, as long as it is accepted and up to six slots.
fn grown(rng: &mut Rng, state: &State, request: Request) -> Request {
    let mut run = at_slot(&request, request.first);
    for _ in 0..rng.below(6) {
        let longer = Request { last: run.last.saturating_add(1), ..run };
        if first_no(state, &longer).is_some() {
            break;
        }
        run = longer;
    }
    run
}

/// The answer and the state after one request.
pub fn after(state: &State, request: &Request) -> (Answer, State) {
    let mut state = state.clone();
    let answer = step(&mut state, request);
    (answer, state)
}

/// The replies to a list of calls, and the state after it.
pub fn told(start: &State, calls: &[Call]) -> (Vec<Reply>, State) {
    let mut state = start.clone();
    let replies = calls.iter().map(|call| perform(&mut state, call)).collect();
    (replies, state)
}

/// The state with its change count raised by so many.
pub fn raised(state: &State, by: u32) -> State {
    State { changes: state.changes + by, ..state.clone() }
}

/// "of_kind": the request with another kind, seats and information 0.
pub fn of_kind(kind: u32, request: &Request) -> Request {
    Request { kind, n: 0, info: 0, ..*request }
}

/// "only_b": the same without a.
pub fn only_b(kind: u32, request: &Request) -> Request {
    Request { a: 0, ..of_kind(kind, request) }
}

/// The request over one slot.
pub fn at_slot(request: &Request, slot: u32) -> Request {
    Request { first: slot, last: slot, ..*request }
}

pub fn is_done(answer: Answer) -> bool {
    matches!(answer, Answer::Done(_))
}

/// "one" slot, or "more": the sorts of cases that a range can have.
pub fn slots_word(request: &Request) -> &'static str {
    if request.first == request.last {
        "one"
    } else {
        "more"
    }
}

/// The date of a slot in the unit of the request's kind; None for a kind that is not in the table.
/// For any slot, also one that the site does not have.
fn date_of_slot(state: &State, kind: u32, slot: u32) -> Option<u32> {
    let s = &state.settings;
    Some(match uses(kind)?.unit {
        Unit::Dates => slot,
        Unit::Sessions => s.date_of_session(Session(slot)).0,
        Unit::Times => s.date_of_time(Time(slot)).0,
    })
}

/// The dates of a request: from first's to last's, none where the kind is not 1..20.
pub fn dates_of(state: &State, request: &Request) -> Option<(Date, Date)> {
    let first = date_of_slot(state, request.kind, request.first)?;
    let last = date_of_slot(state, request.kind, request.last)?;
    Some((Date(first), Date(last)))
}

pub fn on_date(state: &State, request: &Request, date: Date) -> bool {
    dates_of(state, request).is_some_and(|(first, last)| first <= date && date <= last)
}

/// The dates of a request's slots, which go from the first's to the last's (rule 2.4); None where it has no slot: its kind
/// is not 1..20, or its first slot is after its last.
pub fn slot_dates(state: &State, request: &Request) -> Option<(Date, Date)> {
    dates_of(state, request).filter(|_| request.first <= request.last)
}

/// No slot of the one is on the date of a slot of the other (rule 21.1).
pub fn no_date_shared(state: &State, one: &Request, other: &Request) -> bool {
    match (slot_dates(state, one), slot_dates(state, other)) {
        (Some(one), Some(other)) => one.1 < other.0 || other.1 < one.0,
        _ => true,
    }
}

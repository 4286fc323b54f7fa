//! Seeded requests. Candidates are drawn, mostly around entries that the machine holds, and the
//! machine's own questions choose among them: most requests are accepted, others meet a refusal
//! that was aimed at, and some are junk. So lists reach deep states.

use super::conflicts::{conflict, CONFLICTS};
use super::early::{self, early};
use super::endings::{ending, Ending};
use super::orders::some_ring;
use super::Rng;
use crate::machine::kinds::{uses, Unit, Uses, LAST_KIND};
use crate::machine::questions::first_no;
use crate::machine::{run, step, Answer, Date, Request, Session, Settings, State, Time};

/// How many of a hundred requests are junk, aimed at what hangs on the date of a time, at two refusals at once, and
/// at one; the rest aim to be done.
#[derive(Clone, Copy, Debug)]
pub struct Mix {
    pub junk: u32,
    pub early: u32,
    pub conflicting: u32,
    pub aimed: u32,
}

impl Mix {
    pub const USUAL: Mix = Mix { junk: 6, early: 4, conflicting: 6, aimed: 24 };
    /// Nearly everything is accepted, for filling a book.
    pub const FILLING: Mix = Mix { junk: 0, early: 0, conflicting: 0, aimed: 2 };
}

/// How many candidates are drawn before the last one is taken as it is.
const TRIES: u32 = 24;

/// Kinds by weight: additions more often than erasures, so that sets grow.
const KINDS: [u32; 36] = [
    1, 1, 1, 2, 3, 4, 4, 4, 5, 6, 6, 6, 7, 8, 8, 8, 9, 10, 10, 10, 10, 11, 12, 12, 12, 13, 14, 14, 14, 15, 16, 17, 18,
    19, 20, 20,
];

/// A list of so many requests for the machine in this state; the state is moved along.
pub fn list(rng: &mut Rng, state: &mut State, length: usize, mix: Mix) -> Vec<Request> {
    let mut requests = Vec::with_capacity(length);
    while requests.len() < length {
        let request = one(rng, state, mix);
        step(state, &request);
        requests.push(request);
        if rng.percent(4) && requests.len() < length {
            step(state, &request);
            requests.push(request);
        }
    }
    requests
}

/// A list of so many requests from fresh, mostly with an opening of at most half of them.
pub fn list_from_fresh(rng: &mut Rng, settings: Settings, length: usize, mix: Mix) -> Vec<Request> {
    let mut state = State::empty(settings);
    let mut requests = if rng.percent(80) { opening(rng, &state.settings) } else { Vec::new() };
    requests.truncate(length / 2);
    run(&mut state, &requests);
    requests.extend(list(rng, &mut state, length - requests.len(), mix));
    requests
}

/// A state that a filling list reached, from fresh; half of the states have orders in their ring, and half a change
/// count that the list did not lead to, far from the greatest.
pub fn deep_state(rng: &mut Rng, settings: Settings, length: usize) -> State {
    let mut state = State::empty(settings);
    let opening = opening(rng, &state.settings);
    run(&mut state, &opening);
    list(rng, &mut state, length, Mix::FILLING);
    if rng.percent(50) {
        state.ring = some_ring(rng, &state);
    }
    if rng.percent(50) {
        state.changes = rng.below(1 << 31);
    }
    state
}

/// Leave for most visitors and standing for most meetings over long runs of slots: without them
/// nothing else can be booked.
pub fn opening(rng: &mut Rng, s: &Settings) -> Vec<Request> {
    let mut requests = Vec::new();
    for visitor in rng.some_below(s.visitors, opened(s.visitors)) {
        requests.push(Request { b: visitor, ..over_slots(rng, 1, s.dates) });
    }
    for meeting in rng.some_below(s.meetings, opened(s.meetings)) {
        requests.push(Request { a: meeting, ..over_slots(rng, 8, s.sessions()) });
    }
    requests
}

/// How many of a hundred members an opening brings in: most of a few, some of many.
fn opened(members: u32) -> u32 {
    if members <= 40 {
        80
    } else {
        3200 / members
    }
}

fn over_slots(rng: &mut Rng, kind: u32, slots: u32) -> Request {
    let first = rng.below(slots.div_ceil(3));
    let last = rng.between(first.max(slots / 2), slots - 1);
    Request { kind, a: 0, b: 0, first, last, n: 0, info: 0 }
}

/// The next request for this state.
pub fn one(rng: &mut Rng, state: &State, mix: Mix) -> Request {
    let turn = rng.below(100);
    let conflicting = mix.junk + mix.early + mix.conflicting;
    if turn < mix.junk {
        return junk(rng, state);
    }
    if turn < mix.junk + mix.early {
        let wanted = rng.pick(&early::Sort::ALL);
        return early(rng, state, wanted).unwrap_or_else(|| aim(rng, state, 0));
    }
    if turn < conflicting {
        let wanted = rng.pick(&CONFLICTS);
        return conflict(rng, state, wanted).unwrap_or_else(|| aim(rng, state, wanted.1));
    }
    let wanted = if turn < conflicting + mix.aimed { rng.between(8, 22) } else { 0 };
    if wanted == 20 {
        let sort = rng.pick(&Ending::ALL);
        return ending(rng, state, sort).unwrap_or_else(|| aim(rng, state, 20));
    }
    aim(rng, state, wanted)
}

/// Draws candidates until one meets the wanted question with no, or is done for 0.
pub fn aim(rng: &mut Rng, state: &State, wanted: u32) -> Request {
    let fixed = if wanted == 0 { Some(rng.pick(&KINDS)) } else { None };
    let mut request = candidate(rng, state, fixed.unwrap_or(1));
    for _ in 0..TRIES {
        let kind = match fixed {
            Some(kind) => kind,
            None => rng.pick(kinds_asked(wanted)),
        };
        request = candidate(rng, state, kind);
        if first_no(state, &request).map_or(0, |no| no.0) == wanted {
            break;
        }
    }
    request
}

/// The kinds in brackets after a question.
fn kinds_asked(number: u32) -> &'static [u32] {
    match number {
        8 | 14 => &[14],
        9 => &[4, 6, 10],
        10 => &[10, 12, 14],
        11 => &[4, 6, 10, 12, 14],
        12 => &[4, 6, 12],
        13 => &[4, 6, 10, 14],
        15 => &[5, 7, 11, 15],
        16 => &[13, 16],
        17 => &[16],
        18 => &[2],
        19 | 20 => &[9],
        21 => &[17],
        22 => &[20],
        _ => &KINDS,
    }
}

/// A request of the kind with every field in range, often around an entry that the state holds.
pub fn candidate(rng: &mut Rng, state: &State, kind: u32) -> Request {
    let used = uses(kind).expect("a kind of the table");
    let mut request = in_range(rng, state, kind, used);
    if rng.percent(70) {
        if let Some((slot, a, b)) = near(rng, state, kind) {
            let reach = request.last - request.first;
            request.first = slot;
            request.last = (slot + reach).min(used.unit.slots(&state.settings) - 1);
            request.a = if used.a.is_some() { a.unwrap_or(request.a) } else { 0 };
            request.b = if used.b.is_some() { b.unwrap_or(request.b) } else { 0 };
        }
    }
    request
}

/// Every used field anything below its limit, few slots mostly.
fn in_range(rng: &mut Rng, state: &State, kind: u32, used: Uses) -> Request {
    let s = &state.settings;
    let slots = used.unit.slots(s);
    let first = rng.below(slots);
    let reach = if used.one { 0 } else { reach(rng, slots) };
    let a = used.a.map_or(0, |thing| rng.below(thing.limit(s)));
    let b = used.b.map_or(0, |thing| rng.below(thing.limit(s)));
    let n = if used.n { seats(rng, s.capacity(a)) } else { 0 };
    let info = if used.info { rng.junk(1) } else { 0 };
    Request { kind, a, b, first, last: (first + reach).min(slots - 1), n, info }
}

fn reach(rng: &mut Rng, slots: u32) -> u32 {
    match rng.below(10) {
        0..=4 => 0,
        5..=8 => rng.below(4),
        _ => rng.below(slots),
    }
}

fn seats(rng: &mut Rng, capacity: u32) -> u32 {
    match rng.below(12) {
        0 => 0,
        1 => capacity + 1,
        2 => capacity,
        _ => rng.between(1, capacity.div_ceil(2)),
    }
}

/// A slot of the kind's unit, with a and b where they are known, at or after a random key: an
/// entry that an erasure can name, or that gives an addition what it needs.
fn near(rng: &mut Rng, state: &State, kind: u32) -> Option<(u32, Option<u32>, Option<u32>)> {
    match kind {
        2 | 3 if rng.percent(40) => ride_near(rng, state).map(|(time, _, visitor)| {
            let date = state.settings.date_of_time(time).0;
            (beside(rng, date, state.settings.dates), None, Some(visitor))
        }),
        2 | 4 | 18 => leave_near(rng, state).map(|(date, visitor)| (date.0, None, Some(visitor))),
        3 | 5 => hotel_near(rng, state).map(|(date, room, visitor)| (date.0, Some(room), Some(visitor))),
        6 => leave_near(rng, state).map(|(date, visitor)| {
            let time = time_on(rng, &state.settings, date).0;
            (beside(rng, time, state.settings.times()), None, Some(visitor))
        }),
        7 => ride_near(rng, state).map(|(time, transport, visitor)| (time.0, Some(transport), Some(visitor))),
        9 if rng.percent(50) => standing_near(rng, state).map(|(session, meeting)| (session.0, Some(meeting), None)),
        9 | 11 | 17 => {
            attend_near(rng, state).map(|(session, meeting, visitor)| (session.0, Some(meeting), Some(visitor)))
        }
        10 => standing_near(rng, state).map(|(session, meeting)| {
            let visitor = leave_on(rng, state, state.settings.date_of_session(session));
            (session.0, Some(meeting), visitor)
        }),
        12 => standing_near(rng, state).map(|(session, meeting)| (session.0, None, Some(meeting))),
        13 | 16 => conf_near(rng, state).map(|(session, _, meeting)| (session.0, None, Some(meeting))),
        14 => standing_near(rng, state)
            .map(|(session, meeting)| (state.settings.date_of_session(session).0, None, Some(meeting))),
        15 | 19 => lunch_near(rng, state).map(|(date, room, meeting)| (date.0, Some(room), Some(meeting))),
        _ => None,
    }
}

/// A time of the date: its first or last, or any.
pub fn time_on(rng: &mut Rng, s: &Settings, date: Date) -> Time {
    let times: Vec<Time> = s.times_of(date).collect();
    match rng.below(4) {
        0 => times[0],
        1 => times[times.len() - 1],
        _ => rng.pick(&times),
    }
}

/// The slot, or now and then one beside it.
fn beside(rng: &mut Rng, slot: u32, slots: u32) -> u32 {
    match rng.below(10) {
        0 => slot.saturating_sub(1),
        1 => (slot + 1).min(slots - 1),
        _ => slot,
    }
}

fn slot(rng: &mut Rng, state: &State, unit: Unit) -> u32 {
    rng.below(unit.slots(&state.settings))
}

fn leave_near(rng: &mut Rng, state: &State) -> Option<(Date, u32)> {
    let key = (Date(slot(rng, state, Unit::Dates)), rng.below(state.settings.visitors));
    state.leave.range(key..).next().copied()
}

pub(super) fn leave_on(rng: &mut Rng, state: &State, date: Date) -> Option<u32> {
    let from = (date, rng.below(state.settings.visitors));
    state.leave.range(from..=(date, u32::MAX)).next().map(|(_, visitor)| *visitor)
}

fn standing_near(rng: &mut Rng, state: &State) -> Option<(Session, u32)> {
    let key = (Session(slot(rng, state, Unit::Sessions)), rng.below(state.settings.meetings));
    state.standing.range(key..).next().copied()
}

fn hotel_near(rng: &mut Rng, state: &State) -> Option<(Date, u32, u32)> {
    let key = (Date(slot(rng, state, Unit::Dates)), rng.below(state.settings.hotel_rooms), 0);
    state.hotel.range(key..).next().copied()
}

fn ride_near(rng: &mut Rng, state: &State) -> Option<(Time, u32, u32)> {
    let key = (Time(slot(rng, state, Unit::Times)), rng.below(state.settings.transports), 0);
    state.ride.range(key..).next().copied()
}

fn attend_near(rng: &mut Rng, state: &State) -> Option<(Session, u32, u32)> {
    let key = (Session(slot(rng, state, Unit::Sessions)), rng.below(state.settings.meetings), 0);
    state.attend.range(key..).next().copied()
}

fn conf_near(rng: &mut Rng, state: &State) -> Option<(Session, u32, u32)> {
    let key = (Session(slot(rng, state, Unit::Sessions)), rng.below(state.settings.conference_rooms), 0);
    state.conf.range(key..).next().map(|(entry, _)| *entry)
}

fn lunch_near(rng: &mut Rng, state: &State) -> Option<(Date, u32, u32)> {
    let key = (Date(slot(rng, state, Unit::Dates)), rng.below(state.settings.dining_rooms), 0);
    state.lunch.range(key..).next().map(|(entry, _)| *entry)
}

/// An unknown kind, a junk field, a backward run of slots, a unit's own count as last, or nothing
/// but junk.
pub fn junk(rng: &mut Rng, state: &State) -> Request {
    let kind = rng.between(1, LAST_KIND);
    let used = uses(kind).expect("a kind of the table");
    let mut request = in_range(rng, state, kind, used);
    match rng.below(8) {
        0 => request.kind = rng.pick(&[0, 21, 22, 255, 256, 0x8000_0001, u32::MAX]),
        1 => request.a = rng.junk(used.a.map_or(1, |thing| thing.limit(&state.settings))),
        2 => request.b = rng.junk(used.b.map_or(1, |thing| thing.limit(&state.settings))),
        3 => request.last = rng.junk(used.unit.slots(&state.settings)),
        4 => (request.first, request.last) = (request.last.wrapping_add(1), request.first),
        5 => request.n = rng.junk(2),
        6 => request.info = rng.junk(2),
        _ => return Request::from_words(std::array::from_fn(|_| rng.junk(3))),
    }
    request
}

/// The state of these settings after these requests, all of which are done with 0.
pub fn state_after(settings: &[u32], requests: &[[u32; 7]]) -> State {
    let mut state = State::empty(Settings::from_words(settings).expect("good settings"));
    for request in requests {
        assert_eq!(step(&mut state, &Request::from_words(*request)), Answer::Done(0), "{request:?}");
    }
    state
}

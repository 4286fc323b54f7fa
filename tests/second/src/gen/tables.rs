//! Random tables for the specification check: small sites, the calls of a list from fresh, requests,
//! orders, parties, asks and commits, with their replies, and the whole book at the end.

use super::asking::{self, a_commit, fitting};
use super::conflicts::{conflict, conflicts_of, edges, Conflict, CONFLICTS};
use super::early::{self, early};
use super::endings::{ending, Ending};
use super::orders::{self, Plan, Sent};
use super::parties::{a_party, Sort, Where, OF_GUESTS};
use super::requests::{aim, one, opening, Mix};
use super::sites::{site, Size};
use super::Rng;
use crate::book::words;
use crate::calls::{perform, Call, Reply};
use crate::machine::{Answer, Request, Settings, State};
use crate::party::Guest;
use std::collections::BTreeSet;

/// How many sites and steps the tables have at least.
const SITES: usize = 8;
const STEPS: usize = 80;

pub struct Table {
    pub settings: Settings,
    pub steps: Vec<(Call, Reply)>,
    pub book: Vec<u32>,
}

/// What tables have seen so far.
#[derive(Default)]
struct Seen {
    kinds_done: BTreeSet<u32>,
    numbers: BTreeSet<u32>,
    conflicts: BTreeSet<Conflict>,
    endings: BTreeSet<Ending>,
    early: BTreeSet<early::Sort>,
    parties: BTreeSet<Sort>,
    orders: BTreeSet<orders::Sort>,
    asks: BTreeSet<asking::Sort>,
    /// What was asked in the table of now, and at which count.
    asked: Vec<(u32, Request)>,
}

impl Seen {
    fn everything(&self) -> bool {
        let numbers = (3..=22).all(|number| self.numbers.contains(&number));
        let sorts = self.conflicts.len() == CONFLICTS.len() && self.endings.len() == Ending::ALL.len();
        let early = self.early.len() == early::Sort::ALL.len();
        let parties = parties_wanted().iter().all(|sort| self.parties.contains(sort));
        let orders = orders_wanted().iter().all(|sort| self.orders.contains(sort));
        let asks = ASKS_WANTED.iter().all(|sort| self.asks.contains(sort));
        self.kinds_done.len() == 20 && numbers && sorts && early && parties && orders && asks
    }
}

/// The sorts of parties that occur in tables: all but those of 64 guests and more, for which the sites are
/// too small, and those of books that are none.
pub fn parties_wanted() -> Vec<Sort> {
    let mut wanted: Vec<Sort> = [27, 5].into_iter().chain(OF_GUESTS).map(Sort::Refused).collect();
    for place in [Where::First, Where::Middle, Where::Last] {
        wanted.extend(OF_GUESTS.map(|number| Sort::At(place, number)));
    }
    wanted.extend([Sort::Done(1), Sort::Done(2), Sort::OneRefused, Sort::NoGuest]);
    wanted.extend([Sort::TwiceDone, Sort::TwiceInOneSession, Sort::LowerBehind, Sort::LaterPlace]);
    wanted
}

/// The sorts of orders that occur in tables, whatever their kinds and numbers.
pub fn orders_wanted() -> Vec<orders::Sort> {
    let of_kinds = |sort: &orders::Sort| matches!(sort, orders::Sort::Done(_) | orders::Sort::Refused(_));
    orders::Sort::of_lists().into_iter().filter(|sort| !of_kinds(sort)).collect()
}

/// The sorts of asks and commits that occur in tables, whatever their kinds and numbers; none is at the greatest count.
pub const ASKS_WANTED: [asking::Sort; 4] =
    [asking::Sort::CommitRefused(29), asking::Sort::Old, asking::Sort::Ahead, asking::Sort::NoSetChanged];

/// Tables of the seed: among them every kind is done, every number 3 to 22 is reached, every
/// conflict of two questions, every sort of kind 9, of early times, of a small party and of an order occurs,
/// counts are seen and gone, every kind has every fault of its form, and small sites have a ride at every time.
pub fn tables(seed: u64) -> Vec<Table> {
    let mut rng = Rng::new(seed);
    let mut seen = Seen::default();
    let mut all = vec![edge_table(&mut rng, &mut seen), ring_table(&mut rng, &mut seen)];
    all.extend(EDGES.map(|edges| ride_table(&mut seen, edges)));
    while all.len() < SITES || !seen.everything() {
        let round = all.len() % SITES == 0;
        all.push(if round { ring_table(&mut rng, &mut seen) } else { table(&mut rng, &mut seen) });
    }
    all
}

fn opened(rng: &mut Rng) -> (State, Table) {
    let settings = site(rng, Size::Table);
    let state = State::empty(settings.clone());
    (state, Table { settings, steps: Vec::new(), book: Vec::new() })
}

fn table(rng: &mut Rng, seen: &mut Seen) -> Table {
    let (mut state, mut table) = opened(rng);
    let mut requests = opening(rng, &state.settings);
    requests.truncate(STEPS / 6);
    seen.asked.clear();
    for turn in 0..STEPS {
        let call = match requests.pop() {
            Some(request) => Call::Request(request),
            None if turn % 5 == 4 => small_party(rng, &state, seen),
            None if turn % 5 == 1 => some_order(rng, &state, turn),
            None if turn % 10 == 2 => Call::Ask(fitting(rng, &state)),
            None if turn % 10 == 7 => a_commit(rng, &state, &seen.asked),
            None => Call::Request(next(rng, &state, seen, turn)),
        };
        add_step(&mut table, &mut state, seen, call);
    }
    table.book = words(&state);
    table
}

/// A site with the edges of every kind.
fn edge_table(rng: &mut Rng, seen: &mut Seen) -> Table {
    let (mut state, mut table) = opened(rng);
    for request in edges(rng, &state) {
        add_step(&mut table, &mut state, seen, Call::Request(request));
    }
    table.book = words(&state);
    table
}

/// Dates, times of a date and early times of the sites that have a ride at every time: one date, one time a date, the
/// most early times, and one.
const EDGES: [[u32; 3]; 4] = [[1, 3, 2], [3, 1, 0], [3, 3, 2], [2, 3, 1]];

/// A site whose visitors have leave on one date each: every visitor at every time, then over all times, and ends and
/// removals of leave on every date.
fn ride_table(seen: &mut Seen, [dates, times, early]: [u32; 3]) -> Table {
    let limits = [dates, 1, times, dates, 1, 1, 1, 1, dates, early, 1];
    let settings = Settings::from_words(&limits).expect("limits in range");
    let mut state = State::empty(settings.clone());
    let mut table = Table { settings, steps: Vec::new(), book: Vec::new() };
    let mut requests: Vec<[u32; 7]> = (0..dates).map(|visitor| [1, 0, visitor, visitor, visitor, 0, 0]).collect();
    for visitor in 0..dates {
        requests.push([6, visitor, visitor, 0, dates * times - 1, 0, 0]);
        requests.extend((0..dates * times).map(|time| [6, visitor, visitor, time, time, 0, 0]));
    }
    for visitor in 0..dates {
        requests.extend((0..dates).map(|date| [2, 0, visitor, date, date, 0, 0]));
        requests.extend((0..dates).map(|date| [3, 0, visitor, date, date, 0, 0]));
    }
    for request in requests {
        add_step(&mut table, &mut state, seen, Call::Request(Request::from_words(request)));
    }
    table.book = words(&state);
    table
}

/// How many orders a table has that fills the ring and goes round it.
const ROUND: usize = 150;

/// A site whose calls are orders, more than the ring keeps, some of them sent again.
fn ring_table(rng: &mut Rng, seen: &mut Seen) -> Table {
    let (mut state, mut table) = opened(rng);
    let sent = orders::list(rng, &mut state.clone(), ROUND, Plan { first: u32::MAX - 9, repeats: 40 });
    for Sent { order, request } in sent {
        add_step(&mut table, &mut state, seen, Call::Order { order, request });
    }
    table.book = words(&state);
    table
}

/// An order of a number that is its turn's, or one that is sent again.
fn some_order(rng: &mut Rng, state: &State, turn: usize) -> Call {
    let Sent { order, request } = orders::next(rng, state, &[], Plan { first: turn as u32, repeats: 60 });
    Call::Order { order, request }
}

fn add_step(table: &mut Table, state: &mut State, seen: &mut Seen, call: Call) {
    let before = state.clone();
    let reply = perform(state, &call);
    let answer = reply.answer();
    seen.asks.extend(asking::Sort::of(&before, &call));
    match &call {
        Call::Request(request) => {
            seen.conflicts.extend(conflicts_of(&before, request));
            seen.endings.extend(Ending::of(&before, request));
            seen.early.extend(early::Sort::of(&before, request));
            match answer {
                Answer::Done(_) => seen.kinds_done.insert(request.kind),
                Answer::Refused { number, .. } => seen.numbers.insert(number),
            };
        }
        Call::Order { order, request } => {
            seen.orders.extend(orders::Sort::of(&before, &Sent { order: *order, request: *request }));
        }
        Call::Party { meeting, guests } => {
            seen.parties.extend(Sort::of_party(&before, *meeting, guests, answer.words()));
        }
        Call::Ask(request) => seen.asked.push((before.changes, *request)),
        Call::Commit { .. } => {}
    }
    table.steps.push((call, reply));
}

/// How many guests a party of the tables has at most, and how many parties are drawn for a sort that is missing.
const GUESTS: usize = 9;
const TRIES: usize = 30;

/// A party of few guests, mostly of a sort that is still missing.
fn small_party(rng: &mut Rng, state: &State, seen: &Seen) -> Call {
    let missing = |call: &Call| match call {
        Call::Party { meeting, guests } => {
            let answer = perform(&mut state.clone(), call).answer().words();
            let sorts = Sort::of_party(state, *meeting, guests, answer);
            parties_wanted().iter().any(|sort| sorts.contains(sort) && !seen.parties.contains(sort))
        }
        _ => false,
    };
    let drawn: Vec<Call> = (0..TRIES).map(|_| few_guests(rng, state)).collect();
    drawn.iter().find(|call| missing(call)).unwrap_or(&drawn[0]).clone()
}

fn few_guests(rng: &mut Rng, state: &State) -> Call {
    loop {
        let call = a_party(rng, state);
        match &call {
            Call::Party { guests, .. } if guests.len() <= GUESTS => return call,
            _ => {}
        }
    }
}

/// Requests aim in turn at what is still missing: conflicts, sorts of kind 9, early times, then numbers.
fn next(rng: &mut Rng, state: &State, seen: &Seen, turn: usize) -> Request {
    let missing: Vec<Conflict> = CONFLICTS.into_iter().filter(|wanted| !seen.conflicts.contains(wanted)).collect();
    let sort = Ending::ALL.into_iter().find(|sort| !seen.endings.contains(sort));
    let of_times = early::Sort::ALL.into_iter().find(|sort| !seen.early.contains(sort));
    let number = (8..=22).find(|number| !seen.numbers.contains(number));
    if turn.is_multiple_of(3) && !missing.is_empty() {
        let wanted = rng.pick(&missing);
        if let Some(request) = conflict(rng, state, wanted) {
            return request;
        }
    }
    if let Some(request) = sort.filter(|_| turn % 3 == 1).and_then(|sort| ending(rng, state, sort)) {
        return request;
    }
    if let Some(request) = of_times.filter(|_| turn % 3 == 2).and_then(|sort| early(rng, state, sort)) {
        return request;
    }
    match number {
        Some(number) if turn.is_multiple_of(3) => aim(rng, state, number),
        _ => one(rng, state, Mix::USUAL),
    }
}

/// Numbers in base ten with a blank between two.
pub fn join<Number: ToString>(numbers: &[Number]) -> String {
    numbers.iter().map(Number::to_string).collect::<Vec<_>>().join(" ")
}

/// A party as plain text: the meeting, and the words of the guests.
pub fn party_text(meeting: u32, guests: &[Guest]) -> String {
    format!("{meeting} : {}", join(&guests.iter().flat_map(Guest::words).collect::<Vec<u32>>()))
}

fn call_text(call: &Call) -> String {
    match call {
        Call::Request(request) => join(&request.words()),
        Call::Order { order, request } => join(&Sent { order: *order, request: *request }.words()),
        Call::Party { meeting, guests } => party_text(*meeting, guests),
        Call::Ask(request) => format!("ask : {}", join(&request.words())),
        Call::Commit { count, request } => format!("commit : {count} : {}", join(&request.words())),
    }
}

/// The tables as plain text, one line an item: site, step (a call and what it is told), book.
pub fn text(tables: &[Table]) -> String {
    let mut out = String::new();
    for table in tables {
        out += &format!("site {}\n", join(&table.settings.words()));
        for (call, reply) in &table.steps {
            out += &format!("step {} -> {}\n", call_text(call), join(&reply.words()));
        }
        out += &format!("book {}\n", join(&table.book));
    }
    out
}

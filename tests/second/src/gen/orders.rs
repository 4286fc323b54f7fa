//! Orders: requests that carry a number, sent once, again, and again with other words; rings that no list of orders
//! made; and the sorts of cases, by which a test sees that it met them all.

use super::books::{damaged, junk_book};
use super::parties::a_party;
use super::requests::{deep_state, junk, one, opening, Mix};
use super::sites::{site_within, Size};
use super::Rng;
use crate::book::{words, Rule};
use crate::calls::{perform, Call};
use crate::machine::ring::{NO_ORDER, PLACES};
use crate::machine::{order, step, Answer, Kept, Request, Ring, Settings, State};
use std::collections::BTreeSet;

/// A request as it is sent, with the number of its order, 0 for none.
#[derive(Clone, Copy, Debug, PartialEq, Eq)]
pub struct Sent {
    pub order: u32,
    pub request: Request,
}

impl Sent {
    /// The eight words of a list or a line, the order last.
    pub fn words(&self) -> [u32; 8] {
        let [kind, a, b, first, last, n, info] = self.request.words();
        [kind, a, b, first, last, n, info, self.order]
    }

    pub fn of(kept: &Kept) -> Sent {
        Sent { order: kept.order, request: kept.request }
    }

    pub fn perform(&self, state: &mut State) -> Answer {
        order(state, self.order, &self.request)
    }
}

/// The words of a list of orders.
pub fn list_words(list: &[Sent]) -> Vec<u32> {
    list.iter().flat_map(Sent::words).collect()
}

/// Which numbers the orders have that are sent anew, and how many of a hundred orders are sent again.
#[derive(Clone, Copy, Debug)]
pub struct Plan {
    pub first: u32,
    pub repeats: u32,
}

impl Plan {
    /// From no repeats to two in five; numbers count up from anywhere, now and then over the greatest.
    pub fn any(rng: &mut Rng) -> Plan {
        let first = match rng.below(3) {
            0 => 1,
            1 => rng.word(),
            _ => u32::MAX - rng.below(30),
        };
        Plan { first, repeats: rng.pick(&[0, 10, 25, 40]) }
    }
}

/// A list of so many orders for the machine in this state, which is moved along.
pub fn list(rng: &mut Rng, state: &mut State, length: usize, plan: Plan) -> Vec<Sent> {
    let mut sent: Vec<Sent> = Vec::with_capacity(length);
    while sent.len() < length {
        let order = next(rng, state, &sent, plan);
        order.perform(state);
        sent.push(order);
    }
    sent
}

/// The next order for this state, after those that were sent.
pub fn next(rng: &mut Rng, state: &State, sent: &[Sent], plan: Plan) -> Sent {
    let order = if rng.percent(plan.repeats) { again(rng, state, sent) } else { None };
    order.unwrap_or_else(|| anew(rng, state, plan.first.wrapping_add(sent.len() as u32)))
}

/// The same from fresh, mostly with an opening of at most half of them, which carries numbers too.
pub fn list_from_fresh(rng: &mut Rng, settings: Settings, length: usize, plan: Plan) -> Vec<Sent> {
    let mut state = State::empty(settings);
    let start = if rng.percent(80) { opening(rng, &state.settings) } else { Vec::new() };
    let numbered = |(at, request)| Sent { order: 0x4000_0000 + at as u32, request };
    let mut sent: Vec<Sent> = start.into_iter().take(length / 2).enumerate().map(numbered).collect();
    for order in &sent {
        order.perform(&mut state);
    }
    let left = length - sent.len();
    sent.extend(list(rng, &mut state, left, plan));
    sent
}

/// An order with this number; now and then with none, with the greatest, or with any.
fn anew(rng: &mut Rng, state: &State, number: u32) -> Sent {
    let order = match rng.below(30) {
        0 | 1 => NO_ORDER,
        2 => u32::MAX,
        3 => rng.junk(PLACES as u32),
        _ => number,
    };
    Sent { order, request: one(rng, state, Mix::USUAL) }
}

/// An order of the ring or of those sent before, as it was or with one word changed.
fn again(rng: &mut Rng, state: &State, sent: &[Sent]) -> Option<Sent> {
    let kept: Vec<&Kept> = state.ring.places.iter().flatten().collect();
    let mut order = match rng.below(4) {
        0 if !sent.is_empty() => rng.pick(sent),
        1 if !sent.is_empty() => *sent.last()?,
        _ if kept.is_empty() => return None,
        _ => Sent::of(rng.pick(&kept)),
    };
    if rng.percent(35) {
        let count = rng.pick(&[1, 1, 1, 3]);
        order.request = changed(rng, order.request, count);
    }
    Some(order)
}

/// The request with so many of its words, or fewer, changed: by one, by a bit, or to anything.
fn changed(rng: &mut Rng, request: Request, count: u32) -> Request {
    let mut words = request.words();
    for _ in 0..count {
        let at = rng.below(7) as usize;
        words[at] = match rng.below(3) {
            0 => words[at].wrapping_add(1),
            1 => words[at] ^ (1 << rng.below(32)),
            _ => rng.junk(3),
        };
    }
    Request::from_words(words)
}

/// A lawful ring that no list of orders need have made: gaps, answers of any number, place and value, a next place
/// anywhere. Some of its requests are such as the site takes.
pub fn some_ring(rng: &mut Rng, state: &State) -> Ring {
    let mut ring = Ring { places: vec![None; PLACES], next: rng.below(PLACES as u32) as usize };
    let percent = rng.pick(&[0, 3, 30, 90, 100, 100]);
    for place in rng.some_below(PLACES as u32, percent) {
        let order = match rng.below(4) {
            0 => rng.junk(PLACES as u32),
            1 => rng.between(1, 200),
            _ => rng.word(),
        };
        let request = match rng.below(4) {
            0 => Request::from_words(std::array::from_fn(|_| rng.junk(9))),
            1 => junk(rng, state),
            _ => one(rng, state, Mix::USUAL),
        };
        let answer = some_answer(rng);
        if order != NO_ORDER && ring.kept(order).is_none() {
            ring.places[place as usize] = Some(Kept { order, request, answer });
        }
    }
    ring
}

/// Any answer that three words can tell.
fn some_answer(rng: &mut Rng) -> Answer {
    match rng.below(5) {
        0 => Answer::Done(0),
        1 => Answer::Done(rng.junk(3)),
        2 => Answer::Refused { number: rng.between(3, 22), place: rng.below(6) },
        3 => Answer::Refused { number: rng.pick(&[1, 2, 23, 24, 27, 28, 29, 30, u32::MAX]), place: rng.junk(3) },
        _ => Answer::Refused { number: rng.junk(28).max(1), place: rng.junk(3) },
    }
}

/// A state that a list led to, with a ring that some list or none made.
pub fn ringed_state(rng: &mut Rng, size: Size, most_words: u64) -> State {
    let settings = site_within(rng, size, most_words);
    let mut state = deep_state(rng, settings, 30);
    match rng.below(3) {
        0 => {
            let length = rng.pick(&[5, 30, 64, 65, 150]);
            let plan = Plan::any(rng);
            list(rng, &mut state, length, plan);
        }
        1 => state.ring = some_ring(rng, &state),
        _ => {}
    }
    state
}

/// What is lent to a call: any words as a book, and an order.
#[derive(Clone, Debug)]
pub struct Lent {
    pub book: Vec<u32>,
    pub sent: Sent,
}

/// A call: some on words that are no lawful book.
pub fn lent(rng: &mut Rng) -> Lent {
    let state = ringed_state(rng, Size::Small, 20_000);
    let number = rng.junk(PLACES as u32);
    let sent = match rng.below(10) {
        0..=4 => again(rng, &state, &[]),
        5 => again(rng, &state, &[]).map(|sent| Sent { request: changed(rng, sent.request, 3), ..sent }),
        6 => Some(Sent { order: number, request: junk(rng, &state) }),
        _ => None,
    };
    let sent = sent.unwrap_or_else(|| anew(rng, &state, number));
    Lent { book: some_book(rng, &state), sent }
}

/// Mostly the state's book, else one that breaks a rule, or junk words.
pub fn some_book(rng: &mut Rng, state: &State) -> Vec<u32> {
    match rng.below(10) {
        0 => junk_book(rng),
        1 => {
            let rule = rng.pick(&Rule::breakable().collect::<Vec<Rule>>());
            damaged(rng, state, rule).unwrap_or_else(|| words(state))
        }
        2 => {
            let rule = rng.pick(&Rule::OF_RING);
            damaged(rng, state, rule).unwrap_or_else(|| words(state))
        }
        _ => words(state),
    }
}

/// So many calls for the machine in this state: requests, orders of the plan and parties; the state is moved along.
pub fn calls(rng: &mut Rng, state: &mut State, length: usize, plan: Plan) -> Vec<Call> {
    let mut calls = Vec::with_capacity(length);
    while calls.len() < length {
        let call = any_call(rng, state, plan, plan.first.wrapping_add(calls.len() as u32));
        perform(state, &call);
        calls.push(call);
    }
    calls
}

/// A request, an order of this number or one sent again, or a party.
pub fn any_call(rng: &mut Rng, state: &State, plan: Plan, number: u32) -> Call {
    match rng.below(10) {
        0 | 1 => a_party(rng, state),
        2..=4 => Call::Request(one(rng, state, Mix::USUAL)),
        _ => {
            let order = if rng.percent(plan.repeats) { again(rng, state, &[]) } else { None };
            let Sent { order, request } = order.unwrap_or_else(|| anew(rng, state, number));
            Call::Order { order, request }
        }
    }
}

/// What can be said of an order.
#[derive(Clone, Copy, Debug, PartialEq, Eq, PartialOrd, Ord)]
pub enum Sort {
    /// Kept: done, of this kind; refused by this number.
    Done(u32),
    Refused(u32),
    /// Without a number, and so not kept.
    NoOrder,
    /// Still kept, and answered as it was the first time: done, refused.
    AgainDone,
    AgainRefused,
    /// The same, though a request in its place would be answered otherwise.
    AgainOtherwise,
    /// The same, with a number by which no request is refused.
    AgainStrange,
    /// Refused by 28: this one of its seven words differs from those kept, or several do.
    Changed(usize),
    ChangedMore,
    /// The same, though the request itself would be refused by 3.
    ChangedUnknown,
    /// Kept at a place that was empty, and in the place of another order.
    Filled,
    Replaced,
    /// Kept at the last place, so that the next place is the first.
    Wrapped,
    /// The greatest number: kept, and again.
    Greatest,
    GreatestAgain,
}

impl Sort {
    pub fn all() -> Vec<Sort> {
        let mut all: Vec<Sort> = (1..=20).map(Sort::Done).chain((3..=22).map(Sort::Refused)).collect();
        all.extend([Sort::NoOrder, Sort::AgainDone, Sort::AgainRefused, Sort::AgainOtherwise, Sort::AgainStrange]);
        all.extend((0..7).map(Sort::Changed));
        all.extend([Sort::ChangedMore, Sort::ChangedUnknown, Sort::Filled, Sort::Replaced, Sort::Wrapped]);
        all.extend([Sort::Greatest, Sort::GreatestAgain]);
        all
    }

    /// The sorts that lists of orders from a fresh book reach: no engine gives a strange answer.
    pub fn of_lists() -> Vec<Sort> {
        Sort::all().into_iter().filter(|sort| *sort != Sort::AgainStrange).collect()
    }

    /// The sorts of an order in this state.
    pub fn of(state: &State, sent: &Sent) -> BTreeSet<Sort> {
        let met = match state.ring.kept(sent.order) {
            None => Sort::of_new(state, sent),
            Some(kept) if kept.request == sent.request => Sort::of_again(state, kept),
            Some(kept) => Sort::of_changed(kept, &sent.request),
        };
        met.into_iter().filter(|(_, is)| *is).map(|(sort, _)| sort).collect()
    }

    fn of_new(state: &State, sent: &Sent) -> Vec<(Sort, bool)> {
        let kept = sent.order != NO_ORDER;
        let answered = match step(&mut state.clone(), &sent.request) {
            Answer::Done(_) => Sort::Done(sent.request.kind),
            Answer::Refused { number, .. } => Sort::Refused(number),
        };
        let empty = state.ring.places[state.ring.next].is_none();
        vec![
            (answered, kept),
            (Sort::NoOrder, !kept),
            (Sort::Filled, kept && empty),
            (Sort::Replaced, kept && !empty),
            (Sort::Wrapped, kept && state.ring.next == PLACES - 1),
            (Sort::Greatest, sent.order == u32::MAX),
        ]
    }

    fn of_again(state: &State, kept: &Kept) -> Vec<(Sort, bool)> {
        let done = matches!(kept.answer, Answer::Done(_));
        let own = (3..=22).contains(&kept.answer.number()) || kept.answer.number() == 0;
        vec![
            (Sort::AgainDone, done),
            (Sort::AgainRefused, !done),
            (Sort::AgainOtherwise, step(&mut state.clone(), &kept.request) != kept.answer),
            (Sort::AgainStrange, !own),
            (Sort::GreatestAgain, kept.order == u32::MAX),
        ]
    }

    fn of_changed(kept: &Kept, request: &Request) -> Vec<(Sort, bool)> {
        let both = kept.request.words().into_iter().zip(request.words());
        let differ: Vec<usize> = both.enumerate().filter(|(_, (ours, theirs))| ours != theirs).map(|at| at.0).collect();
        let of_words = if differ.len() == 1 { Sort::Changed(differ[0]) } else { Sort::ChangedMore };
        vec![(of_words, true), (Sort::ChangedUnknown, !(1..=20).contains(&request.kind))]
    }
}

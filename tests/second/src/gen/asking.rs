//! Asks and commits: change counts of every size, counts that were seen and counts that were not, calls of every sort
//! mixed, and the sorts of cases, by which a test sees that it met them all.

use super::orders::{self, some_book, Plan};
use super::parties::a_party;
use super::requests::{one, Mix};
use super::sites::Size;
use super::Rng;
use crate::calls::{perform, Call};
use crate::machine::kinds::changes_something;
use crate::machine::ring::NO_ORDER;
use crate::machine::{Answer, Request, State};
use std::collections::BTreeSet;

/// The greatest change count, from which nothing is raised.
pub const GREATEST: u32 = u32::MAX;

/// A change count: none, few, the greatest or near it, or any.
pub fn some_count(rng: &mut Rng) -> u32 {
    match rng.below(10) {
        0 => 0,
        1 => rng.below(200),
        2..=4 => GREATEST,
        5 => GREATEST - 1,
        6 => GREATEST - rng.below(6),
        _ => rng.word(),
    }
}

/// The state at count 0. Requests are drawn for it, so that those are found too that nothing but the count refuses.
fn uncounted(state: &State) -> State {
    State { changes: 0, ..state.clone() }
}

/// A request for this state, whatever its count; one in twenty of no known kind.
pub fn fitting(rng: &mut Rng, state: &State) -> Request {
    let request = one(rng, &uncounted(state), Mix::USUAL);
    let unknown = rng.pick(&[0, 21, 30, u32::MAX]);
    if rng.below(20) == 0 {
        Request { kind: unknown, ..request }
    } else {
        request
    }
}

/// What is lent to a call: any words as a book; and the call.
#[derive(Clone, Debug)]
pub struct Lent {
    pub book: Vec<u32>,
    pub call: Call,
}

/// A call, mostly an ask or a commit: some on words that are no lawful book.
pub fn lent(rng: &mut Rng) -> Lent {
    let mut state = orders::ringed_state(rng, Size::Small, 20_000);
    state.changes = some_count(rng);
    let request = fitting(rng, &state);
    let call = match rng.below(12) {
        0..=4 => Call::Ask(request),
        5..=8 => Call::Commit { count: near(rng, state.changes), request },
        9 => Call::Request(request),
        10 => Call::Order { order: rng.word(), request },
        _ => a_party(rng, &uncounted(&state)),
    };
    Lent { book: some_book(rng, &state), call }
}

/// Mostly the count itself, else one that it was or will be, or any.
fn near(rng: &mut Rng, count: u32) -> u32 {
    match rng.below(10) {
        0 => count.wrapping_add(1),
        1 => count.wrapping_sub(1),
        2 => some_count(rng),
        _ => count,
    }
}

/// So many calls for the machine in this state: asks, commits, and what `orders::any_call` draws, as other offices send
/// it; the state is moved along.
pub fn calls(rng: &mut Rng, state: &mut State, length: usize, plan: Plan) -> Vec<Call> {
    let (mut calls, mut seen) = (Vec::with_capacity(length), Vec::new());
    while calls.len() < length {
        let call = match rng.below(10) {
            0..=2 => Call::Ask(fitting(rng, state)),
            3..=5 => a_commit(rng, state, &seen),
            _ => {
                let number = plan.first.wrapping_add(calls.len() as u32);
                orders::any_call(rng, &uncounted(state), plan, number)
            }
        };
        if let Call::Ask(request) = &call {
            seen.push((state.changes, *request));
        }
        perform(state, &call);
        calls.push(call);
    }
    calls
}

/// A commit of what was asked last or earlier, at the count seen then, or of what was not asked.
pub fn a_commit(rng: &mut Rng, state: &State, seen: &[(u32, Request)]) -> Call {
    let (count, request) = match seen.last() {
        Some(last) if rng.percent(60) => *last,
        Some(_) if rng.percent(50) => rng.pick(seen),
        _ => (state.changes, fitting(rng, state)),
    };
    Call::Commit { count: near(rng, count), request }
}

/// What can be said of a call in a state, as far as the count is concerned.
#[derive(Clone, Copy, Debug, PartialEq, Eq, PartialOrd, Ord)]
pub enum Sort {
    /// Asked: would be done, of this kind; would be refused by this number.
    AskDone(u32),
    AskRefused(u32),
    /// Committed: done, of this kind; refused by this number.
    CommitDone(u32),
    CommitRefused(u32),
    /// Refused by 29: the count is less than the state's, or more; and though the kind is unknown.
    Old,
    Ahead,
    OldUnknown,
    /// Refused by 30: a request of this kind, asked or committed too; an order, which is kept; a party.
    Full(u32),
    FullOrder,
    FullParty,
    /// At the greatest count: refused by another number; a kind that only asks, done.
    FullOther,
    FullQuery,
    /// Done at the last count from which it can rise.
    LastRise,
    /// Done, of a kind that is counted, though no set has changed.
    NoSetChanged,
}

impl Sort {
    /// The sorts that calls on books of any count reach.
    pub fn all() -> Vec<Sort> {
        let mut all: Vec<Sort> = (1..=20).flat_map(|kind| [Sort::AskDone(kind), Sort::CommitDone(kind)]).collect();
        all.extend((3..=22).flat_map(|number| [Sort::AskRefused(number), Sort::CommitRefused(number)]));
        all.extend([Sort::AskRefused(30), Sort::CommitRefused(29), Sort::CommitRefused(30)]);
        all.extend((1..=16).map(Sort::Full));
        all.extend([Sort::Old, Sort::Ahead, Sort::OldUnknown, Sort::FullOrder, Sort::FullParty]);
        all.extend([Sort::FullOther, Sort::FullQuery, Sort::LastRise, Sort::NoSetChanged]);
        all
    }

    /// The sorts that lists from a fresh book reach: the count is far from the greatest.
    pub fn of_lists() -> Vec<Sort> {
        let far = |sort: &Sort| {
            !matches!(
                sort,
                Sort::Full(_)
                    | Sort::FullOrder
                    | Sort::FullParty
                    | Sort::FullOther
                    | Sort::FullQuery
                    | Sort::LastRise
                    | Sort::AskRefused(30)
                    | Sort::CommitRefused(30)
            )
        };
        Sort::all().into_iter().filter(far).collect()
    }

    pub fn of(state: &State, call: &Call) -> BTreeSet<Sort> {
        let mut later = state.clone();
        let answer = perform(&mut later, call).answer();
        let counted = later.changes != state.changes;
        let full = state.changes == GREATEST;
        let mut sorts = Sort::of_answer(state, call, answer);
        let met = [
            (Sort::FullOther, full && (3..30).contains(&answer.number()) && answer.number() != 29),
            (Sort::LastRise, counted && later.changes == GREATEST),
            (Sort::NoSetChanged, counted && State { changes: state.changes, ..later } == *state),
        ];
        sorts.extend(met.into_iter().filter(|(_, is)| *is).map(|(sort, _)| sort));
        sorts
    }

    fn of_answer(state: &State, call: &Call, answer: Answer) -> BTreeSet<Sort> {
        let number = answer.number();
        let by_number = match (call, number) {
            (Call::Ask(request), 0) => vec![Sort::AskDone(request.kind)],
            (Call::Ask(_), _) => vec![Sort::AskRefused(number)],
            (Call::Commit { request, .. }, 0) => vec![Sort::CommitDone(request.kind)],
            (Call::Commit { count, request }, 29) => Sort::of_count(state, *count, request),
            (Call::Commit { .. }, _) => vec![Sort::CommitRefused(number)],
            _ => Vec::new(),
        };
        let of_30 = match call {
            Call::Request(request) | Call::Ask(request) | Call::Commit { request, .. } => {
                Some(Sort::Full(request.kind))
            }
            Call::Order { order, .. } => Some(Sort::FullOrder).filter(|_| *order != NO_ORDER),
            Call::Party { .. } => Some(Sort::FullParty),
        };
        let query = matches!(call, Call::Ask(request) | Call::Request(request) if !changes_something(request.kind));
        let of_query = Some(Sort::FullQuery).filter(|_| query && number == 0 && state.changes == GREATEST);
        by_number.into_iter().chain(of_30.filter(|_| number == 30)).chain(of_query).collect()
    }

    fn of_count(state: &State, count: u32, request: &Request) -> Vec<Sort> {
        let side = if count < state.changes { Sort::Old } else { Sort::Ahead };
        let unknown = Some(Sort::OldUnknown).filter(|_| !(1..=20).contains(&request.kind));
        [Some(Sort::CommitRefused(29)), Some(side), unknown].into_iter().flatten().collect()
    }
}

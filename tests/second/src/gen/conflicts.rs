//! Requests to which two questions say no: they decide the order of the questions. And requests at
//! the edges of their fields, with one fault or two.

use super::requests::candidate;
use super::Rng;
use crate::machine::kinds::{uses, Uses, LAST_KIND};
use crate::machine::questions::{Question, QUESTIONS};
use crate::machine::{Request, State};

/// A kind, and two of its questions that can both say no to one request, mostly in different slots.
pub type Conflict = (u32, u32, u32);

pub const CONFLICTS: [Conflict; 33] = [
    (4, 9, 11),
    (4, 9, 12),
    (4, 9, 13),
    (4, 11, 12),
    (4, 11, 13),
    (4, 12, 13),
    (6, 9, 11),
    (6, 9, 12),
    (6, 9, 13),
    (6, 11, 12),
    (6, 11, 13),
    (6, 12, 13),
    (9, 19, 20),
    (10, 9, 10),
    (10, 9, 11),
    (10, 9, 13),
    (10, 10, 11),
    (10, 10, 13),
    (10, 11, 13),
    (12, 10, 11),
    (12, 10, 12),
    (12, 11, 12),
    (14, 8, 10),
    (14, 8, 11),
    (14, 8, 13),
    (14, 8, 14),
    (14, 10, 11),
    (14, 10, 13),
    (14, 10, 14),
    (14, 11, 13),
    (14, 11, 14),
    (14, 13, 14),
    (16, 16, 17),
];

/// How many candidates are drawn for a conflict.
const TRIES: u32 = 60;

/// All questions that say no. From 8 on they are asked only when 3 to 7 say yes: before that a
/// number may name nothing.
pub fn all_no(state: &State, request: &Request) -> Vec<u32> {
    let (form, rest) = QUESTIONS.split_at(5);
    let no = |questions: &[(u32, Question)]| -> Vec<u32> {
        questions.iter().filter(|(_, ask)| ask(state, request).is_err()).map(|(number, _)| *number).collect()
    };
    let formal = no(form);
    if formal.is_empty() {
        no(rest)
    } else {
        formal
    }
}

/// The conflicts that a request decides: the first of the two is the first of all that say no.
pub fn conflicts_of(state: &State, request: &Request) -> Vec<Conflict> {
    let no = all_no(state, request);
    let both =
        |(kind, first, second): &Conflict| *kind == request.kind && no.first() == Some(first) && no.contains(second);
    CONFLICTS.into_iter().filter(both).collect()
}

/// A request with this conflict, if one is drawn.
pub fn conflict(rng: &mut Rng, state: &State, wanted: Conflict) -> Option<Request> {
    for _ in 0..TRIES {
        let mut request = candidate(rng, state, wanted.0);
        stretch(rng, state, &mut request);
        if conflicts_of(state, &request).contains(&wanted) {
            return Some(request);
        }
    }
    None
}

/// More slots on either side, so that different slots fail different questions.
pub fn stretch(rng: &mut Rng, state: &State, request: &mut Request) {
    let slots = uses(request.kind).map_or(1, |used| used.unit.slots(&state.settings));
    request.first -= rng.below(3).min(request.first);
    request.last = (request.last + rng.below(4)).min(slots - 1);
}

/// One thing wrong with the form of a request.
#[derive(Clone, Copy, PartialEq)]
enum Fault {
    UnusedA,
    UnusedB,
    UnusedN,
    UnusedInfo,
    AtLimitA,
    AtLimitB,
    PastLast,
    Backward,
    TwoSlots,
    NoSeats,
    TooManySeats,
}

/// For every kind a good request, then each fault alone and each two together.
pub fn edges(rng: &mut Rng, state: &State) -> Vec<Request> {
    let mut all = vec![Request::from_words([0; 7]), Request::from_words([21, 0, 0, 0, 0, 0, 0])];
    for kind in 1..=LAST_KIND {
        let used = uses(kind).expect("a kind of the table");
        let good = candidate(rng, state, kind);
        let faults = faults(used);
        all.push(good);
        for (at, one) in faults.iter().enumerate() {
            all.push(with_fault(state, good, used, *one));
            for other in &faults[at + 1..] {
                all.push(with_fault(state, with_fault(state, good, used, *one), used, *other));
            }
        }
    }
    all
}

/// The faults that a kind can have.
fn faults(used: Uses) -> Vec<Fault> {
    use Fault::*;
    let mut all = vec![PastLast, Backward];
    all.push(if used.a.is_some() { AtLimitA } else { UnusedA });
    all.push(if used.b.is_some() { AtLimitB } else { UnusedB });
    if used.n {
        all.extend([NoSeats, TooManySeats]);
    } else {
        all.push(UnusedN);
    }
    if !used.info {
        all.push(UnusedInfo);
    }
    if used.one {
        all.push(TwoSlots);
    }
    all
}

fn with_fault(state: &State, good: Request, used: Uses, fault: Fault) -> Request {
    let s = &state.settings;
    let slots = used.unit.slots(s);
    let mut request = good;
    match fault {
        Fault::UnusedA => request.a = 1,
        Fault::UnusedB => request.b = 1,
        Fault::UnusedN => request.n = 1,
        Fault::UnusedInfo => request.info = 1,
        Fault::AtLimitA => request.a = used.a.map_or(0, |thing| thing.limit(s)),
        Fault::AtLimitB => request.b = used.b.map_or(0, |thing| thing.limit(s)),
        Fault::PastLast => request.last = slots,
        Fault::Backward => request.first = request.last.saturating_add(1),
        Fault::TwoSlots => (request.first, request.last) = (0, 1),
        Fault::NoSeats => request.n = 0,
        Fault::TooManySeats => request.n = s.capacities.get(good.a as usize).map_or(1, |capacity| capacity + 1),
    }
    request
}

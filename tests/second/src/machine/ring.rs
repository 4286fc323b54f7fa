//! The ring of kept orders (docs/RULES.md, section 18), and a request that carries the number of an order.

use super::{step, Answer, Request, State};

/// How many orders are kept (rule 18.2).
pub const PLACES: usize = 64;

/// The number that stands for no order (rule 18.1).
pub const NO_ORDER: u32 = 0;

/// A kept order: its number, the request that came with it, and the answer that the request got.
#[derive(Clone, Copy, Debug, PartialEq, Eq)]
pub struct Kept {
    pub order: u32,
    pub request: Request,
    pub answer: Answer,
}

/// The kept orders by their places, and the place where the next one goes.
#[derive(Clone, Debug, PartialEq, Eq)]
pub struct Ring {
    pub places: Vec<Option<Kept>>,
    pub next: usize,
}

impl Ring {
    pub fn empty() -> Ring {
        Ring { places: vec![None; PLACES], next: 0 }
    }

    /// The entry of an order that is still kept; there is none of no order.
    pub fn kept(&self, order: u32) -> Option<&Kept> {
        self.places.iter().flatten().find(|kept| kept.order == order && order != NO_ORDER)
    }

    /// Puts an order at the next place, which goes on by one, and from the last to the first (rule 18.2).
    pub fn keep(&mut self, kept: Kept) {
        self.places[self.next] = Some(kept);
        self.next = (self.next + 1) % PLACES;
    }
}

/// A request with the number of an order (rules 5.28 and 18.2 to 18.6).
pub fn order(state: &mut State, order: u32, request: &Request) -> Answer {
    match state.ring.kept(order) {
        Some(kept) if kept.request == *request => kept.answer,
        Some(_) => Answer::Refused { number: 28, place: 0 },
        None => {
            let answer = step(state, request);
            if order != NO_ORDER {
                state.ring.keep(Kept { order, request: *request, answer });
            }
            answer
        }
    }
}

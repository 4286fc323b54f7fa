//! Calls of every sort, as a list has them: requests, orders, parties, asks and commits (docs/RULES.md, rule 6.8).

use crate::book;
use crate::machine::{ask, commit, order, step, Answer, Asked, Request, State};
use crate::party::{admit, party, Guest};

/// What the machine takes after the settings.
#[derive(Clone, Debug, PartialEq, Eq)]
pub enum Call {
    Request(Request),
    Order { order: u32, request: Request },
    Party { meeting: u32, guests: Vec<Guest> },
    Ask(Request),
    Commit { count: u32, request: Request },
}

impl Call {
    /// The sort of a call, in a word.
    pub fn name(&self) -> &'static str {
        match self {
            Call::Request(_) => "request",
            Call::Order { .. } => "order",
            Call::Party { .. } => "party",
            Call::Ask(_) => "ask",
            Call::Commit { .. } => "commit",
        }
    }
}

/// What a call is told: an answer, and where it asks the change count too.
#[derive(Clone, Copy, Debug, PartialEq, Eq)]
pub enum Reply {
    Told(Answer),
    Asked(Asked),
}

impl Reply {
    pub fn answer(&self) -> Answer {
        match self {
            Reply::Told(answer) => *answer,
            Reply::Asked(asked) => asked.answer,
        }
    }

    /// The three words of the answer, and the count behind them where the call asks.
    pub fn words(&self) -> Vec<u32> {
        match self {
            Reply::Told(answer) => answer.words().to_vec(),
            Reply::Asked(asked) => asked.words().to_vec(),
        }
    }
}

/// The machine's reply to a call of any sort.
pub fn perform(state: &mut State, call: &Call) -> Reply {
    match call {
        Call::Request(request) => Reply::Told(step(state, request)),
        Call::Order { order: number, request } => Reply::Told(order(state, *number, request)),
        Call::Party { meeting, guests } => Reply::Told(admit(state, *meeting, guests)),
        Call::Ask(request) => Reply::Asked(ask(state, request)),
        Call::Commit { count, request } => Reply::Told(commit(state, *count, request)),
    }
}

/// The same on any words as a book.
pub fn on_book(words: &mut [u32], call: &Call) -> Reply {
    match call {
        Call::Request(request) => Reply::Told(book::request(words, request)),
        Call::Order { order, request } => Reply::Told(book::order(words, *order, request)),
        Call::Party { meeting, guests } => Reply::Told(party(words, *meeting, guests)),
        Call::Ask(request) => Reply::Asked(book::ask(words, request)),
        Call::Commit { count, request } => Reply::Told(book::commit(words, *count, request)),
    }
}

//! Asking and committing (docs/RULES.md, section 19): what a request would be answered, and the request at a change
//! count that was seen.

use super::{step, Answer, Request, State};

/// What asking gives: the answer, and the change count of the state that was asked.
#[derive(Clone, Copy, Debug, PartialEq, Eq)]
pub struct Asked {
    pub answer: Answer,
    pub count: u32,
}

impl Asked {
    /// Number, place and value of the answer, then the count.
    pub fn words(&self) -> [u32; 4] {
        let [number, place, value] = self.answer.words();
        [number, place, value, self.count]
    }
}

/// The answer that the request would get, carrying no order (rule 19.4).
pub fn ask(state: &State, request: &Request) -> Asked {
    Asked { answer: step(&mut state.clone(), request), count: state.changes }
}

/// The request, if the count is still the state's (rule 19.5).
pub fn commit(state: &mut State, count: u32, request: &Request) -> Answer {
    if count == state.changes {
        step(state, request)
    } else {
        Answer::Refused { number: 29, place: 0 }
    }
}

//! The party (docs/RULES.md, section 17): many guests for one meeting, all of them or none.

use crate::book::calls::open;
use crate::book::words;
use crate::machine::changes::change;
use crate::machine::questions::first_before_30;
use crate::machine::{Answer, Request, State};

/// A party has at most so many guests (rule 5.27).
pub const MOST_GUESTS: usize = 64;

/// A guest: a visitor, and the first and the last session of their attendance.
#[derive(Clone, Copy, Debug, PartialEq, Eq)]
pub struct Guest {
    pub visitor: u32,
    pub first: u32,
    pub last: u32,
}

impl Guest {
    pub fn from_words([visitor, first, last]: [u32; 3]) -> Guest {
        Guest { visitor, first, last }
    }

    pub fn words(&self) -> [u32; 3] {
        [self.visitor, self.first, self.last]
    }

    /// The request that adds the guest alone (rule 17.2).
    pub fn joining(&self, meeting: u32) -> Request {
        let Guest { visitor, first, last } = *self;
        Request { kind: 10, a: meeting, b: visitor, first, last, n: 0, info: 0 }
    }
}

/// The machine's party: question 27, then the guests one after the other, each with those before them
/// added; the first refusal is the answer and leaves the state as it was (rules 17.3 and 17.4). Behind the
/// guests comes 30, and all of them are one change (rules 19.2 and 19.3).
pub fn admit(state: &mut State, meeting: u32, guests: &[Guest]) -> Answer {
    if guests.is_empty() || guests.len() > MOST_GUESTS {
        return Answer::Refused { number: 27, place: 0 };
    }
    let mut with_guests = state.clone();
    for guest in guests {
        let joining = guest.joining(meeting);
        if let Some((number, place)) = first_before_30(&with_guests, &joining) {
            return Answer::Refused { number, place };
        }
        change(&mut with_guests, &joining);
    }
    let Some(counted) = state.changes.checked_add(1) else { return Answer::Refused { number: 30, place: 0 } };
    *state = State { changes: counted, ..with_guests };
    Answer::Done(0)
}

/// The call on any words as a book (rule 17.1).
pub fn party(book: &mut [u32], meeting: u32, guests: &[Guest]) -> Answer {
    match open(book) {
        Err(refusal) => refusal,
        Ok(mut state) => {
            let answer = admit(&mut state, meeting, guests);
            book.copy_from_slice(&words(&state));
            answer
        }
    }
}

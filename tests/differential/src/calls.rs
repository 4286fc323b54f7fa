//! The exported functions as calls of the second program's list.

use caviar::{Guest, Request};
use second::calls::Call;
use second::machine;
use second::party;

pub fn request(request: &machine::Request) -> Request {
    Request::from_words(request.words())
}

pub fn guests(guests: &[party::Guest]) -> Vec<Guest> {
    guests.iter().map(|guest| Guest::from_words(guest.words())).collect()
}

/// What the engine tells to a call of any sort: the three words of its answer, and the count where it asks.
pub fn on_book(words: &mut [u32], call: &Call) -> Vec<u32> {
    match call {
        Call::Request(asked) => caviar::request(words, request(asked)).words().to_vec(),
        Call::Order { order, request: asked } => caviar::order(words, *order, request(asked)).words().to_vec(),
        Call::Party { meeting, guests: list } => caviar::party(words, *meeting, &guests(list)).words().to_vec(),
        Call::Ask(asked) => {
            let told = caviar::ask(words, request(asked));
            [&told.answer.words()[..], &[told.count]].concat()
        }
        Call::Commit { count, request: asked } => caviar::commit(words, *count, request(asked)).words().to_vec(),
    }
}

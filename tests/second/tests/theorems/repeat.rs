//! Theorem 1, proofs/Repeat: "Send an accepted request again and you are told what it already did."

use crate::common::{after, raised, walk, Counts};
use second::machine::kinds::changes_something;
use second::machine::{Answer, Request};

const SEED: u64 = 0x7e10;

/// The answer of a request that was answered so and is sent again at once.
fn answer_again(request: &Request, answer: Answer) -> Answer {
    let refused = |number| Answer::Refused { number, place: request.first };
    match (answer, request.kind) {
        (Answer::Refused { .. }, _) => answer,
        (_, 1 | 2 | 3 | 8) => Answer::Done(0),
        (_, 4 | 6 | 10 | 12 | 14) => refused(11),
        (_, 5 | 7 | 11 | 15) => refused(15),
        (_, 13 | 16) => refused(16),
        (_, 9) => refused(20),
        _ => answer,
    }
}

#[test]
fn a_request_sent_again_at_once() {
    let (mut done, mut refused) = (Counts::new(), Counts::new());
    walk(SEED, 150, 60, |state, request| {
        let (answer, once) = after(state, request);
        let (again, twice) = after(&once, request);
        assert_eq!(again, answer_again(request, answer), "{request:?}");
        let counted = again.number() == 0 && changes_something(request.kind);
        assert_eq!(
            twice,
            raised(&once, u32::from(counted)),
            "sending twice leaves what sending once leaves, but the count"
        );
        match answer {
            Answer::Done(_) => done.add(request.kind),
            Answer::Refused { number, .. } => refused.add(number),
        }
    });
    done.want(SEED, "repeat, accepted by kind", 1..=20, 20);
    refused.want(SEED, "repeat, refused by number", 3..=22, 20);
}

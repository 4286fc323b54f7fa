//! Theorem 4, proofs/Slots: "A range is its slots." It counts as one change, and they as one each.

use crate::common::{after, at_slot, is_done, slots_word, some_state, walk_ranges, Counts, DONE};
use second::gen::requests::aim;
use second::gen::Rng;
use second::machine::{run, Answer, Request, State};

const SEED: u64 = 0x7e40;

/// The one-slot requests in slot order: their values where all are done, and the state.
fn slot_by_slot(state: &State, request: &Request) -> (Option<Vec<u32>>, State) {
    let mut state = state.clone();
    let singles: Vec<Request> = (request.first..=request.last).map(|slot| at_slot(request, slot)).collect();
    let value = |answer: &Answer| match answer {
        Answer::Done(value) => Some(*value),
        Answer::Refused { .. } => None,
    };
    (run(&mut state, &singles).iter().map(value).collect(), state)
}

#[test]
fn an_accepted_range_is_its_one_slot_requests() {
    let mut counts = Counts::new();
    walk_ranges(SEED, 250, 60, |state, request| {
        let (Answer::Done(value), whole) = after(state, request) else { return };
        if request.kind > 15 {
            return;
        }
        let (values, singly) = slot_by_slot(state, request);
        let values = values.unwrap_or_else(|| panic!("a one-slot request was refused: {request:?}"));
        assert_eq!(values.iter().sum::<u32>(), value, "{request:?}");
        let counted = State { changes: state.changes + values.len() as u32, ..whole };
        assert_eq!(singly, counted, "{request:?}");
        counts.add((request.kind, slots_word(request)));
    });
    let sorts = (1..=15).flat_map(|kind| [(kind, "one"), (kind, "more")]);
    counts.want(SEED, "range by kind and slots", sorts, 20);
}

/// A request over a run that may reach past what would be accepted: it is accepted exactly when its
/// one-slot requests in slot order are all done.
#[test]
fn a_range_is_accepted_exactly_when_its_slots_are() {
    let mut rng = Rng::new(SEED + 2);
    let mut counts = Counts::new();
    for _ in 0..300 {
        let state = some_state(&mut rng);
        for _ in 0..60 {
            let aimed = aim(&mut rng, &state, 0);
            if !(1..=15).contains(&aimed.kind) {
                continue;
            }
            let request = Request { last: aimed.first + rng.below(4), ..aimed };
            let accepted = is_done(after(&state, &request).0);
            assert_eq!(accepted, slot_by_slot(&state, &request).0.is_some(), "{request:?}");
            counts.add((request.kind, if accepted { "accepted" } else { "refused" }));
        }
    }
    let sorts = (1..=15).flat_map(|kind| [(kind, "accepted"), (kind, "refused")]);
    counts.want(SEED + 2, "range accepted or refused by kind", sorts, 20);
}

/// Kind 16 is left out of the theorem because of this: the first of two sessions of one date takes
/// the lunch, and the second is refused by 17.
#[test]
fn kind_16_is_not_its_slots() {
    let mut counts = Counts::new();
    walk_ranges(SEED + 1, 200, 60, |state, request| {
        let s = &state.settings;
        if request.kind != 16 || after(state, request).0 != DONE {
            return;
        }
        let spread =
            request.last - request.first == request.last / s.sessions_per_date - request.first / s.sessions_per_date;
        assert_eq!(slot_by_slot(state, request).0.is_some(), spread, "{request:?}");
        counts.add(if spread { "each session on a date of its own" } else { "two sessions of one date" });
    });
    counts.want(SEED + 1, "kind 16", ["each session on a date of its own", "two sessions of one date"], 5);
}

//! What a caller may rely on of a party (rules 17.1 to 17.4), proofs/Party: it is its guests' requests of
//! kind 10, all or none.

use crate::common::{after, some_state, Counts, DONE};
use second::book::words;
use second::gen::parties::{open_state, party, Sort};
use second::gen::{Rng, Size};
use second::machine::{run, Answer, Request, State};
use second::party::{admit, Guest, MOST_GUESTS};

const SEED: u64 = 0x7ea0;

/// Shows parties of 1 to 64 guests, done and refused, with the states that they are for.
fn walk_parties(seed: u64, count: u32, mut see: impl FnMut(&mut Rng, &State, u32, &[Guest])) {
    let mut rng = Rng::new(seed);
    for turn in 0..count {
        let state = match turn % 4 {
            0 => some_state(&mut rng),
            1 => open_state(&mut rng, Size::PoolEdge),
            _ => open_state(&mut rng, Size::Small),
        };
        for _ in 0..4 {
            let (meeting, guests) = party(&mut rng, &state);
            if (1..=MOST_GUESTS).contains(&guests.len()) {
                see(&mut rng, &state, meeting, &guests);
            }
        }
    }
}

/// The answer and the state after a party.
fn after_party(state: &State, meeting: u32, guests: &[Guest]) -> (Answer, State) {
    let mut state = state.clone();
    let answer = admit(&mut state, meeting, guests);
    (answer, state)
}

fn requests_of(meeting: u32, guests: &[Guest]) -> Vec<Request> {
    guests.iter().map(|guest| guest.joining(meeting)).collect()
}

/// party-done and party-all: a party is done exactly when its requests one by one are, and leads where they do, but
/// that it counts as one change.
#[test]
fn a_done_party_is_its_requests() {
    let mut counts = Counts::new();
    walk_parties(SEED, 800, |_, state, meeting, guests| {
        let mut reached = state.clone();
        let all_done = run(&mut reached, &requests_of(meeting, guests)).iter().all(|answer| *answer == DONE);
        let (answer, later) = after_party(state, meeting, guests);
        assert_eq!(answer == DONE, all_done, "{meeting} {guests:?}");
        if all_done {
            assert_eq!((reached.changes, later.changes), (state.changes + guests.len() as u32, state.changes + 1));
            let counted = State { changes: later.changes, ..reached };
            assert_eq!(later, counted, "{meeting} {guests:?}");
            assert_eq!(words(&later), words(&counted));
        }
        counts.add((all_done, guests.len().min(2) + usize::from(guests.len() == MOST_GUESTS)));
    });
    let sorts = [true, false].into_iter().flat_map(|done| [1, 2, 3].map(|size| (done, size)));
    counts.want(SEED, "parties by done and guests (2 for several, 3 for 64)", sorts, 10);
}

/// party-refused and party-keeps: the answer is that of the first guest whom kind 10 refuses after those
/// before, and nothing has changed.
#[test]
fn a_refused_party_names_the_first_refusal() {
    let mut sorts = Counts::new();
    walk_parties(SEED + 1, 1500, |_, state, meeting, guests| {
        let (answer, later) = after_party(state, meeting, guests);
        let Answer::Refused { number, .. } = answer else { return };
        assert_eq!(later, *state, "{meeting} {guests:?}");
        let mut reached = state.clone();
        let answers = run(&mut reached, &requests_of(meeting, guests));
        assert_eq!(answers.into_iter().find(|answer| *answer != DONE), Some(answer), "{meeting} {guests:?}");
        assert!([5, 6, 7, 9, 10, 11, 13].contains(&number), "{answer:?}");
        Sort::of_party(state, meeting, guests, answer.words()).into_iter().for_each(|sort| sorts.add(sort));
    });
    let met = Sort::all().into_iter().filter(|sort| matches!(sort, Sort::At(..) | Sort::TwiceInOneSession));
    sorts.want(SEED + 1, "refused parties", met.chain([Sort::Refused(5), Sort::LowerBehind, Sort::LaterPlace]), 20);
}

/// party-of-one.
#[test]
fn a_party_of_one_is_kind_10() {
    let mut counts = Counts::new();
    walk_parties(SEED + 2, 300, |_, state, meeting, guests| {
        for guest in guests.iter().take(8) {
            let (answer, later) = after(state, &guest.joining(meeting));
            assert_eq!(after_party(state, meeting, &[*guest]), (answer, later), "{meeting} {guest:?}");
            counts.add(answer.number());
        }
    });
    counts.want(SEED + 2, "parties of one by number", [0, 5, 6, 7, 9, 10, 11, 13], 20);
}

/// party-order: in a party that is done, neighbours who are different visitors change places.
#[test]
fn different_visitors_change_places() {
    let mut counts = Counts::new();
    walk_parties(SEED + 3, 800, |rng, state, meeting, guests| {
        let (answer, later) = after_party(state, meeting, guests);
        if answer != DONE || guests.len() < 2 {
            return;
        }
        let mut mixed = guests.to_vec();
        for _ in 0..rng.between(1, 40) {
            let at = rng.below(guests.len() as u32 - 1) as usize;
            if mixed[at].visitor != mixed[at + 1].visitor {
                mixed.swap(at, at + 1);
            }
        }
        assert_eq!(after_party(state, meeting, &mixed), (DONE, later), "{meeting} {guests:?} {mixed:?}");
        counts.add(if mixed == guests { "the same order" } else { "another order" });
    });
    counts.want(SEED + 3, "done parties", ["another order"], 300);
}

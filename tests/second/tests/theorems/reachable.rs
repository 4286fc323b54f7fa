//! Theorem 8, proofs/Reachable: every lawful state is built from nothing by accepted requests of
//! kinds 1, 8, 4, 6, 10, 12 and 14, one entry each; the change count is then the number of entries.

use crate::common::{some_state, Counts, DONE};
use second::book::{check, laws_broken, shown, words};
use second::gen::{full_book, sites, Rng, Size};
use second::machine::{run, Request, State};

const SEED: u64 = 0x7e80;

fn adding(kind: u32, slot: u32, a: u32, b: u32) -> Request {
    Request { kind, a, b, first: slot, last: slot, n: 0, info: 0 }
}

/// One request for each entry, in the order leave, standing, hotel, ride, attend, conf, lunch.
fn entries_of(state: &State) -> Vec<Request> {
    let mut all: Vec<Request> = state.leave.iter().map(|(date, visitor)| adding(1, date.0, 0, *visitor)).collect();
    all.extend(state.standing.iter().map(|(session, meeting)| adding(8, session.0, *meeting, 0)));
    all.extend(state.hotel.iter().map(|(date, room, visitor)| adding(4, date.0, *room, *visitor)));
    all.extend(state.ride.iter().map(|(time, transport, visitor)| adding(6, time.0, *transport, *visitor)));
    all.extend(state.attend.iter().map(|(session, meeting, visitor)| adding(10, session.0, *meeting, *visitor)));
    all.extend(
        state
            .conf
            .iter()
            .map(|((session, room, meeting), info)| Request { info: *info, ..adding(12, session.0, *room, *meeting) }),
    );
    all.extend(state.lunch.iter().map(|((date, room, meeting), (seats, info))| Request {
        n: *seats,
        info: *info,
        ..adding(14, date.0, *room, *meeting)
    }));
    all
}

/// Builds the state from nothing and counts its entries by kind.
fn rebuild(state: &State, counts: &mut Counts<u32>) {
    let requests = entries_of(state);
    let mut built = State::empty(state.settings.clone());
    let answers = run(&mut built, &requests);
    for (request, answer) in requests.iter().zip(answers) {
        assert_eq!(answer, DONE, "{request:?}");
        counts.add(request.kind);
    }
    let counted = State { changes: requests.len() as u32, ..state.clone() };
    assert_eq!(built, counted);
    assert_eq!(words(&built), words(&counted));
}

#[test]
fn states_that_lists_reach_are_built_one_entry_at_a_time() {
    let mut rng = Rng::new(SEED);
    let mut counts = Counts::new();
    for _ in 0..500 {
        let state = some_state(&mut rng);
        assert!(laws_broken(&state).is_empty());
        rebuild(&state, &mut counts);
    }
    counts.want(SEED, "500 states of lists, entries by kind", [1, 8, 4, 6, 10, 12, 14], 500);
}

/// Books that no list wrote: filled word by word, then checked.
#[test]
fn books_that_pass_1_and_2_are_built_one_entry_at_a_time() {
    let mut rng = Rng::new(SEED + 1);
    let mut counts = Counts::new();
    for _ in 0..300 {
        let settings = sites::site_within(&mut rng, Size::Any, 2000);
        let percent = rng.between(10, 75);
        let book = full_book(&mut rng, &settings, percent);
        assert_eq!(check(&book), DONE);
        let state = shown(&book).expect("a book that passes 1 and 2 shows a state");
        rebuild(&state, &mut counts);
    }
    counts.want(SEED + 1, "300 filled books, entries by kind", [1, 8, 4, 6, 10, 12, 14], 500);
}

//! Theorem 3, proofs/Decompose: "Removing a visitor is erasing each of their bookings on those
//! dates, slot by slot, and then ending their leave." It counts as one change, and they as one each.

use crate::common::{after, only_b, slots_word, some_state, Counts, DONE};
use second::gen::requests::candidate;
use second::gen::Rng;
use second::machine::{run, Answer, Date, Request, State};

const SEED: u64 = 0x7e30;

fn erase_one(kind: u32, slot: u32, a: u32, visitor: u32) -> Request {
    Request { kind, a, b: visitor, first: slot, last: slot, n: 0, info: 0 }
}

/// The one-slot erasures of the visitor's hotel, ride and attend entries on the request's dates,
/// set by set.
fn erasures(state: &State, r: &Request) -> [Vec<Request>; 3] {
    let s = &state.settings;
    let there = |date: Date, visitor: u32| visitor == r.b && r.first <= date.0 && date.0 <= r.last;
    let hotel = state.hotel.iter().filter(|(date, _, visitor)| there(*date, *visitor));
    let ride = state.ride.iter().filter(|(time, _, visitor)| there(s.date_of_time(*time), *visitor));
    let attend = state.attend.iter().filter(|(session, _, visitor)| there(s.date_of_session(*session), *visitor));
    [
        hotel.map(|(date, room, visitor)| erase_one(5, date.0, *room, *visitor)).collect(),
        ride.map(|(time, transport, visitor)| erase_one(7, time.0, *transport, *visitor)).collect(),
        attend.map(|(session, meeting, visitor)| erase_one(11, session.0, *meeting, *visitor)).collect(),
    ]
}

#[test]
fn a_removal_is_its_one_slot_erasures_and_then_the_end_of_leave() {
    let mut rng = Rng::new(SEED);
    let mut counts = Counts::new();
    for _ in 0..400 {
        let state = some_state(&mut rng);
        for _ in 0..10 {
            let request = candidate(&mut rng, &state, 3);
            let sets = erasures(&state, &request);
            let held = sets.iter().filter(|set| !set.is_empty()).count();
            let mut steps = sets.concat();
            let (answer, removed) = after(&state, &request);
            assert_eq!(answer, Answer::Done(steps.len() as u32), "the value is the number of erasures: {request:?}");
            steps.push(only_b(2, &request));
            let mut stepped = state.clone();
            assert!(run(&mut stepped, &steps).iter().all(|answer| *answer == DONE), "{request:?}");
            let counted = State { changes: state.changes + steps.len() as u32, ..removed };
            assert_eq!(stepped, counted, "{request:?}");
            counts.add((held, slots_word(&request)));
        }
    }
    let sorts = (0..=3).flat_map(|held| [(held, "one"), (held, "more")]);
    counts.want(SEED, "removal by number of sets with an entry and dates", sorts, 50);
}

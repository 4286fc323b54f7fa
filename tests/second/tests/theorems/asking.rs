//! What a caller may rely on of asks and commits (rules 19.2 and 19.6), proofs/Commit: what was seen at a count is what
//! a commit at that count gets, wherever in the list the asking stood.

use crate::common::{some_state, Counts};
use second::book::words;
use second::calls::{perform, Call, Reply};
use second::gen::asking::{calls, fitting, GREATEST};
use second::gen::orders::Plan;
use second::gen::{site, Rng, Size};
use second::machine::questions::first_before_30;
use second::machine::{ask, commit, Answer, Request, State};
use std::collections::BTreeMap;

const SEED: u64 = 0x7ec0;

/// The sets and the ring: all of a state but its count.
fn sets(state: &State) -> State {
    State { changes: 0, ..state.clone() }
}

/// For a list of calls from a fresh book: each commit that 29 does not refuse has the answer that asking for its request
/// gives at every point of the list that has that count; and so have the asks that the list itself has.
#[test]
fn what_was_seen_is_what_a_commit_gets() {
    let mut rng = Rng::new(SEED);
    let mut counts = Counts::new();
    for _ in 0..150 {
        let mut state = State::empty(site(&mut rng, Size::Small));
        let plan = Plan::any(&mut rng);
        let list = calls(&mut rng, &mut state.clone(), 100, plan);
        let (mut points, mut seen, mut committed) = (Vec::new(), BTreeMap::new(), Vec::new());
        for call in &list {
            points.push(state.clone());
            match (call, perform(&mut state, call)) {
                (Call::Ask(request), Reply::Asked(asked)) => {
                    let first = seen.entry((asked.count, request.words())).or_insert(asked.answer);
                    assert_eq!(*first, asked.answer, "two asks at one count");
                }
                (Call::Commit { count, request }, Reply::Told(answer)) if answer.number() != 29 => {
                    committed.push((*count, *request, answer));
                }
                _ => {}
            }
        }
        for (count, request, answer) in committed {
            let there = points.iter().filter(|point| point.changes == count);
            assert!(there.clone().all(|point| ask(point, &request).answer == answer), "{request:?} at {count}");
            let asked = seen.get(&(count, request.words()));
            assert!(asked.is_none_or(|seen| *seen == answer), "{request:?} at {count}");
            counts.add((asked.is_some(), answer.number() == 0, there.count() > 2));
        }
    }
    let sorts = [(true, true, false), (true, true, true), (true, false, true)];
    counts.want(
        SEED,
        "commits by asked before, done, and points at their count beside the ask and the commit",
        sorts,
        20,
    );
}

/// Equal counts of one list mean equal sets: between two points of equal count nothing was changed.
#[test]
fn equal_counts_of_a_list_mean_equal_sets() {
    let mut rng = Rng::new(SEED + 1);
    let mut counts = Counts::new();
    for _ in 0..150 {
        let mut state = State::empty(site(&mut rng, Size::Small));
        let plan = Plan::any(&mut rng);
        let mut last = state.clone();
        for call in calls(&mut rng, &mut state.clone(), 100, plan) {
            perform(&mut state, &call);
            let same = State { ring: last.ring.clone(), ..state.clone() } == last;
            assert!(state.changes == last.changes && same || state.changes == last.changes + 1, "{call:?}");
            counts.add(match (state.changes == last.changes, sets(&state) == sets(&last)) {
                (true, _) => "not counted",
                (false, true) => "counted, no set changed",
                (false, false) => "counted",
            });
            last = state.clone();
        }
    }
    counts.want(SEED + 1, "calls", ["not counted", "counted, no set changed", "counted"], 100);
}

/// Asking changes nothing and a commit is its request: any number of asks between the calls of a list leave the book and
/// all other replies, and a commit at the state's count leaves what the request leaves.
#[test]
fn asks_leave_a_list_alone_and_commits_are_requests() {
    let mut rng = Rng::new(SEED + 2);
    let mut counts = Counts::new();
    for _ in 0..200 {
        let mut plain = State { changes: rng.pick(&[0, 7, GREATEST - 9, GREATEST]), ..some_state(&mut rng) };
        let mut looked_at = plain.clone();
        let plan = Plan::any(&mut rng);
        for call in calls(&mut rng, &mut plain.clone(), 40, plan) {
            let looked = Call::Ask(fitting(&mut rng, &plain));
            perform(&mut looked_at, &looked);
            assert_eq!(perform(&mut plain, &call), perform(&mut looked_at, &call), "{call:?}");
            let request = fitting(&mut rng, &plain);
            counts.add(commit_is_request(&plain, &request));
        }
        assert!(plain == looked_at && words(&plain) == words(&looked_at));
    }
    counts.want(SEED + 2, "commits beside their requests", ["done", "refused", "refused by 30"], 100);
}

fn commit_is_request(state: &State, request: &Request) -> &'static str {
    let (mut sent, mut committed) = (state.clone(), state.clone());
    let answer = perform(&mut sent, &Call::Request(*request)).answer();
    assert_eq!(commit(&mut committed, state.changes, request), answer, "{request:?}");
    assert_eq!((&committed, ask(state, request).answer), (&sent, answer), "{request:?}");
    match answer {
        Answer::Done(_) => "done",
        Answer::Refused { number: 30, .. } => {
            assert!(first_before_30(state, request).is_none() && sent == *state);
            "refused by 30"
        }
        Answer::Refused { .. } => "refused",
    }
}

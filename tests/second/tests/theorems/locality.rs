//! Theorem 5, proofs/Locality: answer and change depend on, and touch, only the request's dates.

use crate::common::{after, dates_of, is_done, on_date, some_state, state_of, Counts};
use second::gen::requests::one;
use second::gen::{list, Mix, Rng};
use second::machine::{run, Date, Request, State};

const SEED: u64 = 0x7e50;

/// The entries of the first state on the dates that are meant, and those of the second on others; the first one's count.
fn mixed(inside: &State, outside: &State, meant: impl Fn(Date) -> bool) -> State {
    let mut state = State { changes: inside.changes, ..State::empty(inside.settings.clone()) };
    for (from, wanted) in [(inside, true), (outside, false)] {
        let s = &from.settings;
        let take = |date: Date| meant(date) == wanted;
        state.leave.extend(from.leave.iter().filter(|(date, _)| take(*date)));
        state.standing.extend(from.standing.iter().filter(|(session, _)| take(s.date_of_session(*session))));
        state.hotel.extend(from.hotel.iter().filter(|(date, _, _)| take(*date)));
        state.ride.extend(from.ride.iter().filter(|(time, _, _)| take(s.date_of_time(*time))));
        state.attend.extend(from.attend.iter().filter(|(session, _, _)| take(s.date_of_session(*session))));
        state.conf.extend(from.conf.iter().filter(|((session, _, _), _)| take(s.date_of_session(*session))));
        state.lunch.extend(from.lunch.iter().filter(|((date, _, _), _)| take(*date)));
    }
    state
}

/// "The answer depends only on the entries of the request's dates", and "The request changes only
/// entries of its dates": with other entries on the other dates it answers the same, changes the
/// same, and leaves those as they are.
#[test]
fn entries_of_other_dates_do_not_matter() {
    let mut rng = Rng::new(SEED);
    let (mut done, mut refused) = (Counts::new(), Counts::new());
    for _ in 0..300 {
        let state = some_state(&mut rng);
        let other = state_of(&mut rng, &state.settings);
        for _ in 0..30 {
            let request = one(&mut rng, &state, Mix::USUAL);
            let meant = |date: Date| on_date(&state, &request, date);
            let (answer, changed) = after(&state, &request);
            let elsewhere = mixed(&state, &other, meant);
            assert_eq!(mixed(&changed, &state, meant), changed, "other dates stay: {request:?}");
            assert_eq!(after(&elsewhere, &request), (answer, mixed(&changed, &other, meant)), "{request:?}");
            if elsewhere == state {
                continue;
            }
            if is_done(answer) {
                done.add(request.kind);
            } else {
                refused.add(answer.number());
            }
        }
    }
    done.want(SEED, "other entries on other dates, done by kind", 1..=20, 20);
    refused.want(SEED, "other entries on other dates, refused by number", 3..=22, 20);
}

/// No date is one of both.
fn apart(state: &State, one: &Request, other: &Request) -> bool {
    let (Some(one), Some(other)) = (dates_of(state, one), dates_of(state, other)) else { return true };
    one.0 > one.1 || other.0 > other.1 || one.1 < other.0 || other.1 < one.0
}

/// Two neighbours that share no date are exchanged in the middle of a list.
#[test]
fn neighbours_that_share_no_date_can_be_exchanged() {
    let mut rng = Rng::new(SEED + 1);
    let mut counts = Counts::new();
    let (mut pairs, mut apart_pairs) = (0, 0);
    for _ in 0..250 {
        let start = some_state(&mut rng);
        for _ in 0..24 {
            let mut state = start.clone();
            let before = list(&mut rng, &mut state, 3, Mix::USUAL);
            let (left, right) = (one(&mut rng, &state, Mix::USUAL), one(&mut rng, &state, Mix::USUAL));
            pairs += 1;
            if !apart(&state, &left, &right) {
                continue;
            }
            apart_pairs += 1;
            let later = list(&mut rng, &mut state, 3, Mix::USUAL);
            let (mut in_order, mut exchanged) = (start.clone(), start.clone());
            let mut told = run(&mut in_order, &[&before[..], &[left, right], &later].concat());
            let told_exchanged = run(&mut exchanged, &[&before[..], &[right, left], &later].concat());
            told.swap(before.len(), before.len() + 1);
            assert_eq!(told, told_exchanged, "{left:?} and {right:?}");
            assert_eq!(in_order, exchanged, "{left:?} and {right:?}");
            for (request, answer) in [(right, told[before.len()]), (left, told[before.len() + 1])] {
                counts.add(if is_done(answer) { request.kind } else { 0 });
            }
        }
    }
    println!("seed {:#x}: {apart_pairs} of {pairs} pairs share no date", SEED + 1);
    assert!(apart_pairs >= 1000);
    counts.want(SEED + 1, "exchanged, done by kind and 0 for refused", 0..=20, 20);
}

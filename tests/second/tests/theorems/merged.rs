//! Whole lists of two offices (rule 21.3), proofs/Merged: two lists of requests, none of the one sharing a date with one of
//! the other, merged in any way.

use crate::common::{no_date_shared, slot_dates, some_state, told, Counts};
use second::book::words;
use second::calls::{Call, Reply};
use second::gen::asking::{calls, fitting, GREATEST};
use second::gen::orders::Plan;
use second::gen::requests::state_after;
use second::gen::Rng;
use second::machine::{step, Request, State};

const SEED: u64 = 0x7ee0;

fn sent(requests: &[Request]) -> Vec<Call> {
    requests.iter().map(|request| Call::Request(*request)).collect()
}

/// Both lists, each in its order: a true takes the next of the first, a false the next of the second. There are as many
/// of either as its list is long.
fn merge<T: Clone>(choices: &[bool], first: &[T], second: &[T]) -> Vec<T> {
    let (mut first, mut second) = (first.iter(), second.iter());
    let next = |choice: &bool| if *choice { first.next() } else { second.next() };
    choices.iter().map(next).map(|taken| taken.expect("as many choices as there are").clone()).collect()
}

/// Choices for lists of these lengths, any of which is as likely.
fn some_choices(rng: &mut Rng, mut first: usize, mut second: usize) -> Vec<bool> {
    let mut choices = Vec::with_capacity(first + second);
    while first + second > 0 {
        let choice = (rng.below((first + second) as u32) as usize) < first;
        if choice {
            first -= 1;
        } else {
            second -= 1;
        }
        choices.push(choice);
    }
    choices
}

/// Requests of an office that works on these dates: all dates of each are its own. Drawn along the state, which no other
/// office changes.
fn office(rng: &mut Rng, state: &State, ours: &[bool]) -> Vec<Request> {
    let mut state = state.clone();
    let mut requests = Vec::new();
    for _ in 0..rng.below(60) {
        let request = fitting(rng, &state);
        let is_ours = |date: u32| ours.get(date as usize).is_some_and(|ours| *ours);
        let reaches_out = slot_dates(&state, &request).is_some_and(|(first, last)| !(first.0..=last.0).all(is_ours));
        if !reaches_out && requests.len() < 9 {
            step(&mut state, &request);
            requests.push(request);
        }
    }
    requests
}

/// Rule 21.3: however the two lists are merged, between calls of every sort, each office is told what it is told alone,
/// and the book, with what the calls behind are told, is as if the one list had come before the other.
#[test]
fn offices_on_other_dates_do_not_matter() {
    let mut rng = Rng::new(SEED);
    let (mut done, mut turns) = (Counts::new(), Counts::new());
    for _ in 0..500 {
        let mut start = some_state(&mut rng);
        let plan = Plan::any(&mut rng);
        calls(&mut rng, &mut start, 6, plan);
        let ours: Vec<bool> = (0..start.settings.dates).map(|_| rng.percent(50)).collect();
        let theirs: Vec<bool> = ours.iter().map(|date| !date).collect();
        let (first, second) = (office(&mut rng, &start, &ours), office(&mut rng, &start, &theirs));
        let apart = |one: &Request| second.iter().all(|other| no_date_shared(&start, one, other));
        assert!(first.iter().all(apart), "{first:?} and {second:?}");
        let room = (first.len() + second.len()) as u32;
        if rng.percent(25) {
            start.changes = GREATEST - room;
        }
        let mut after = told(&start, &[sent(&first), sent(&second)].concat()).1;
        let behind = calls(&mut rng, &mut after, 6, plan);
        for _ in 0..4 {
            let choices = some_choices(&mut rng, first.len(), second.len());
            let replies = merged_as_alone(&start, &choices, (&first, &second), &behind);
            let switches = choices.windows(2).filter(|pair| pair[0] != pair[1]).count();
            turns.add((switches.min(6), start.changes == GREATEST - room));
            let answered = merge(&choices, &first, &second).into_iter().zip(replies);
            answered.for_each(|(request, reply)| done.add(if reply.answer().number() == 0 { request.kind } else { 0 }));
        }
    }
    done.want(SEED, "of merged lists, done by kind and 0 for refused", 0..=20, 40);
    let sorts = (2..=6).flat_map(|switches| [(switches, false), (switches, true)]);
    turns.want(SEED, "merged lists by switches (6 for more), and whether the count had just room", sorts, 20);
}

/// The replies to the merged lists, which are those of each alone.
fn merged_as_alone(start: &State, choices: &[bool], lists: (&[Request], &[Request]), behind: &[Call]) -> Vec<Reply> {
    let (first, second) = lists;
    let merged = [sent(&merge(choices, first, second)), behind.to_vec()].concat();
    let (replies, state) = told(start, &merged);
    let alone = [first, second].map(|list| told(start, &sent(list)).0);
    let both = [sent(first), sent(second), behind.to_vec()].concat();
    let (expected, one_by_one) = told(start, &both);
    let length = choices.len();
    assert_eq!(replies[..length], merge(choices, &alone[0], &alone[1]), "{first:?} and {second:?}");
    assert_eq!(replies[length..], expected[length..], "{first:?} and {second:?}");
    assert!(state == one_by_one && words(&state) == words(&one_by_one), "{first:?} and {second:?}");
    for (side, told_alone) in [true, false].into_iter().zip(alone) {
        let picked = choices.iter().zip(&replies).filter(|(choice, _)| **choice == side).map(|(_, reply)| *reply);
        assert_eq!(picked.collect::<Vec<Reply>>(), told_alone, "{first:?} and {second:?}");
    }
    replies[..length].to_vec()
}

const RECEPTION: [[u32; 7]; 4] =
    [[1, 0, 1, 0, 0, 0, 0], [4, 0, 1, 0, 0, 0, 0], [1, 0, 2, 0, 0, 0, 0], [4, 0, 2, 0, 0, 0, 0]];
const CATERING: [[u32; 7]; 3] = [[8, 0, 0, 2, 3, 0, 0], [14, 0, 0, 1, 1, 4, 7], [14, 0, 1, 1, 1, 1, 0]];

/// The table of docs/RULES.md (rule 21.3): catering begins, and they take turns.
#[test]
fn the_lists_of_the_rules() {
    let start = state_after(&[2, 2, 2, 3, 2, 2, 1, 2, 1, 0, 4], &[]);
    let (reception, catering) = (RECEPTION.map(Request::from_words), CATERING.map(Request::from_words));
    let told_to = |list: &[Request]| -> Vec<Vec<u32>> {
        let replies = told(&start, &sent(list)).0;
        replies.iter().map(Reply::words).collect()
    };
    let done = [0, 0, 0];
    assert_eq!(told_to(&reception), [done, done, done, [12, 0, 0]]);
    assert_eq!(told_to(&catering), [done, done, [10, 1, 0]]);
    let choices = [false, true, false, true, false, true, true];
    let merged = merge(&choices, &reception, &catering);
    assert_eq!(told_to(&merged), [done, done, done, done, [10, 1, 0], done, [12, 0, 0]]);
    merged_as_alone(&start, &choices, (&reception, &catering), &[]);
}

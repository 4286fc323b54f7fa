//! Theorem 6, proofs/Queries: what kinds 19, 20 and 17 answer decides what 14, 12 and 11 would
//! answer.

use crate::common::{after, some_state, Counts, DONE};
use second::gen::requests::candidate;
use second::gen::Rng;
use second::machine::questions::QUESTIONS;
use second::machine::{Answer, Request, State};

const SEED: u64 = 0x7e60;
const STATES: u32 = 300;

fn ask(kind: u32, a: u32, b: u32, first: u32, last: u32) -> Request {
    Request { kind, a, b, first, last, n: 0, info: 0 }
}

/// Does the lunch pass the questions before 14? They are asked in order: past a no the next one may
/// make no sense.
fn passes_before_14(state: &State, lunch: &Request) -> bool {
    QUESTIONS.iter().filter(|(number, _)| *number < 14).all(|(_, ask)| ask(state, lunch).is_ok())
}

/// "Kind 19 says how many seats you can still book": a lunch is refused by 14 at a date exactly when
/// it passes the questions before and that is its first date on which it wants more seats than kind
/// 19 answers.
#[test]
fn seats_left_decide_a_lunch() {
    let mut rng = Rng::new(SEED);
    let mut counts = Counts::new();
    for _ in 0..STATES {
        let state = some_state(&mut rng);
        for _ in 0..80 {
            let mut lunch = candidate(&mut rng, &state, 14);
            lunch.last = (lunch.first + rng.below(3)).min(state.settings.dates - 1);
            let answer = after(&state, &lunch).0;
            let left = |date| match after(&state, &ask(19, lunch.a, 0, date, date)).0 {
                Answer::Done(seats) => seats,
                refused => panic!("kind 19 of a room and date of the site: {refused:?}"),
            };
            let passes = passes_before_14(&state, &lunch);
            let short = (lunch.first..=lunch.last).find(|date| left(*date) < lunch.n).filter(|_| passes);
            let refused = short.map(|place| Answer::Refused { number: 14, place });
            assert_eq!(if answer.number() == 14 { Some(answer) } else { None }, refused, "{lunch:?}");
            assert_eq!(answer == DONE, passes && short.is_none(), "{lunch:?}");
            counts.add(match short {
                Some(date) if date == lunch.first => "more than left",
                Some(_) => "more than left on a later date",
                None if lunch.n == left(lunch.first) && answer == DONE => "exactly what is left",
                None => "done or an earlier question",
            });
        }
    }
    let sorts =
        ["more than left", "more than left on a later date", "exactly what is left", "done or an earlier question"];
    counts.want(SEED, "19 decides 14", sorts, 100);
}

/// "If kind 20 answers a room, booking that room over those sessions is done, or refused by 10
/// alone. If kind 20 is refused, no room would do."
#[test]
fn the_free_room_can_be_booked_and_without_one_none_can() {
    let mut rng = Rng::new(SEED + 1);
    let mut counts = Counts::new();
    for _ in 0..STATES {
        let state = some_state(&mut rng);
        for _ in 0..30 {
            let kind = rng.pick(&[12, 13, 20]);
            let wanted = candidate(&mut rng, &state, kind);
            let meeting = if kind == 20 { rng.below(state.settings.meetings) } else { wanted.b };
            let (first, last) = (wanted.first, wanted.last);
            let book = |room| Request { info: wanted.info, ..ask(12, room, meeting, first, last) };
            match after(&state, &ask(20, 0, 0, first, last)).0 {
                Answer::Done(room) => {
                    let answer = after(&state, &book(room)).0;
                    assert!(answer == DONE || answer.number() == 10, "{answer:?} to {:?}", book(room));
                    counts.add(if answer == DONE { "done" } else { "refused by 10" });
                }
                Answer::Refused { number, .. } => {
                    assert_eq!(number, 22);
                    let rooms = 0..=state.settings.conference_rooms;
                    assert!(rooms.into_iter().all(|room| after(&state, &book(room)).0.number() != 0));
                    counts.add("no room");
                }
            }
        }
    }
    counts.want(SEED + 1, "20 decides 12", ["done", "refused by 10", "no room"], 100);
}

/// "Kind 11 for a meeting is done exactly when it is the one that kind 17 answers."
#[test]
fn the_meeting_attended_is_the_one_that_can_be_erased() {
    let mut rng = Rng::new(SEED + 2);
    let mut counts = Counts::new();
    for _ in 0..STATES {
        let state = some_state(&mut rng);
        for _ in 0..10 {
            let which = candidate(&mut rng, &state, 17);
            let told = after(&state, &which).0;
            for meeting in 0..=state.settings.meetings {
                let erased = after(&state, &ask(11, meeting, which.b, which.first, which.first)).0;
                assert_eq!(told == Answer::Done(meeting), erased == DONE, "meeting {meeting}, {which:?}");
            }
            counts.add(if told.number() == 0 { "attends" } else { "attends none" });
        }
    }
    counts.want(SEED + 2, "17 decides 11", ["attends", "attends none"], 200);
}

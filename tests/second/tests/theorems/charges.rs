//! What payers may rely on (rule 20.6), proofs/Charge: without a reduction charges add up over the meetings and over parts of
//! the dates, and what others book, or is booked on other dates, leaves a charge.

use crate::common::{after, is_done, on_date, walk, Counts};
use second::calls::{perform, Call};
use second::charge::{cost, lunch_seats, room_sessions, Tariff};
use second::gen::charges::{dates, some_state, tariff};
use second::gen::parties::a_party;
use second::gen::Rng;
use second::machine::{Date, State};

const SEED: u64 = 0x7ed0;

fn without_reduction(rng: &mut Rng) -> Tariff {
    let of = tariff(rng);
    Tariff { room: of.room.min(1_000_000), seat: of.seat.min(1_000_000), percent: 0 }
}

/// charges-add-up: of all meetings, with p = 0.
#[test]
fn the_charges_of_all_meetings_add_up() {
    let mut rng = Rng::new(SEED);
    let mut counts = Counts::new();
    for _ in 0..1500 {
        let state = some_state(&mut rng);
        let ((first, last), of) = (dates(&mut rng, &state), without_reduction(&mut rng));
        let (first, last) = (Date(first), Date(last));
        let all: u64 = (0..state.settings.meetings).map(|meeting| cost(&state, meeting, first, last, &of)).sum();
        let on = |date: Date| first <= date && date <= last;
        let rooms = state.conf.keys().filter(|(session, _, _)| on(state.settings.date_of_session(*session))).count();
        let seats: u64 = (first.0..=last.0)
            .flat_map(|date| (0..state.settings.dining_rooms).map(move |room| (Date(date), room)))
            .map(|(date, room)| state.reserved(date, room))
            .sum();
        assert_eq!(all, rooms as u64 * u64::from(of.room) + seats * u64::from(of.seat));
        counts.add((rooms > 0, seats > 0));
    }
    counts.want(SEED, "sums by rooms and seats", [(true, true), (true, false), (false, false)], 20);
}

/// charge-parts: with p = 0 a charge is the sum over parts of its dates.
#[test]
fn a_charge_is_the_sum_of_its_parts() {
    let mut rng = Rng::new(SEED + 1);
    let mut counts = Counts::new();
    for _ in 0..2000 {
        let state = some_state(&mut rng);
        let ((first, last), of) = (dates(&mut rng, &state), without_reduction(&mut rng));
        let meeting = rng.below(state.settings.meetings);
        let whole = cost(&state, meeting, Date(first), Date(last), &of);
        for k in first..last {
            let before = cost(&state, meeting, Date(first), Date(k), &of);
            let behind = cost(&state, meeting, Date(k + 1), Date(last), &of);
            assert_eq!(whole, before + behind);
            counts.add((before > 0, behind > 0));
        }
    }
    let sorts = [true, false].into_iter().flat_map(|before| [(before, true), (before, false)]);
    counts.want(SEED + 1, "parts by before and behind", sorts, 20);
}

/// other-meeting and other-dates: a request that is not of kinds 12 to 16 for the meeting, or has none of the dates, leaves the
/// charge; and party-charge: every party does.
#[test]
fn others_leave_a_charge() {
    let (mut kept, mut changed) = (Counts::new(), Counts::new());
    let of = Tariff { room: 1001, seat: 17, percent: 25 };
    walk(SEED + 2, 250, 40, |state, request| {
        let (answer, later) = after(state, request);
        let last = state.settings.dates - 1;
        for meeting in (0..state.settings.meetings).take(6) {
            for (first, last) in [(0, last), (0, 0), (last, last)] {
                let price = |state: &State| cost(state, meeting, Date(first), Date(last), &of);
                let theirs = (12..=16).contains(&request.kind) && request.b == meeting;
                let there = (first..=last).any(|date| on_date(state, request, Date(date)));
                if !theirs || !there {
                    assert_eq!(price(state), price(&later), "{request:?} {meeting}");
                    if is_done(answer) && price(state) > 0 {
                        kept.add(request.kind);
                    }
                } else if price(state) != price(&later) {
                    changed.add(request.kind);
                }
            }
        }
    });
    kept.want(SEED + 2, "charges that a request left, by kind", 1..=20, 20);
    changed.want(SEED + 2, "charges that a request changed, by kind", 12..=16, 5);
}

#[test]
fn parties_leave_every_charge() {
    let mut rng = Rng::new(SEED + 3);
    let mut counts = Counts::new();
    let of = Tariff { room: 7, seat: 11, percent: 10 };
    for _ in 0..400 {
        let state = some_state(&mut rng);
        let mut later = state.clone();
        let party: Call = a_party(&mut rng, &state);
        let answer = perform(&mut later, &party).answer();
        let last = Date(state.settings.dates - 1);
        for meeting in 0..state.settings.meetings {
            assert_eq!(cost(&state, meeting, Date(0), last, &of), cost(&later, meeting, Date(0), last, &of));
            assert_eq!(room_sessions(&state, meeting, Date(0), last), room_sessions(&later, meeting, Date(0), last));
            assert_eq!(lunch_seats(&state, meeting, Date(0), last), lunch_seats(&later, meeting, Date(0), last));
        }
        counts.add(is_done(answer));
    }
    counts.want(SEED + 3, "parties by done", [true, false], 20);
}

//! Early times: requests whose answer hangs on the date that a time belongs to, and the sorts of such cases, by
//! which a test sees that it met them all.

use super::conflicts::stretch;
use super::requests::candidate;
use super::Rng;
use crate::machine::{step, Answer, Date, Request, State, Time};
use std::collections::BTreeSet;

/// What can be said of a request of kind 2, 3 or 6 on a site with early times. A time is early when it belongs to
/// the date before the one that it is numbered under.
#[derive(Clone, Copy, Debug, PartialEq, Eq, PartialOrd, Ord)]
pub enum Sort {
    /// Kind 6, done, at an early time under whose number the visitor has no leave.
    Rides,
    /// Kind 6, refused by 9 at an early time under whose number the visitor has leave.
    RidesNot,
    /// Kind 6, done: at one of the times that have no date before them; at the last time of the site; on a site of
    /// one date; over times of two dates.
    FirstTimes,
    LastTime,
    OneDate,
    TwoDates,
    /// Kind 6, refused by 9 at the first time of a date, behind times of the date before.
    AtTheEdge,
    /// Kind 2, refused by 18 for early rides alone; and done, though rides are numbered under its dates.
    Bars,
    BarsNot,
    /// Kind 3: erases an early ride of the date behind its last; leaves one that is numbered under its first date.
    Erases,
    Leaves,
}

/// The date that a time is numbered under.
fn numbered(state: &State, time: Time) -> Date {
    Date(time.0 / state.settings.times_per_date)
}

impl Sort {
    pub const ALL: [Sort; 11] = [
        Sort::Rides,
        Sort::RidesNot,
        Sort::FirstTimes,
        Sort::LastTime,
        Sort::OneDate,
        Sort::TwoDates,
        Sort::AtTheEdge,
        Sort::Bars,
        Sort::BarsNot,
        Sort::Erases,
        Sort::Leaves,
    ];

    /// The kind of the requests of this sort.
    fn kind(self) -> u32 {
        match self {
            Sort::Bars | Sort::BarsNot => 2,
            Sort::Erases | Sort::Leaves => 3,
            _ => 6,
        }
    }

    /// The sorts of a request in this state.
    pub fn of(state: &State, request: &Request) -> BTreeSet<Sort> {
        let answer = step(&mut state.clone(), request);
        let met = match request.kind {
            _ if state.settings.early == 0 => Vec::new(),
            2 => Sort::of_ending(state, request, answer),
            3 => Sort::of_removal(state, request, answer),
            6 => Sort::of_ride(state, request, answer),
            _ => Vec::new(),
        };
        met.into_iter().filter(|(_, is)| *is).map(|(sort, _)| sort).collect()
    }

    fn of_ride(state: &State, r: &Request, answer: Answer) -> Vec<(Sort, bool)> {
        let s = &state.settings;
        let leave = |date: Date| state.leave.contains(&(date, r.b));
        let early = |time: &Time| s.date_of_time(*time) != numbered(state, *time);
        match answer {
            Answer::Done(_) => vec![
                (Sort::Rides, r.times().any(|time| early(&time) && !leave(numbered(state, time)))),
                (Sort::FirstTimes, r.first < s.early),
                (Sort::LastTime, r.last == s.times() - 1),
                (Sort::OneDate, s.dates == 1),
                (Sort::TwoDates, s.date_of_time(Time(r.first)) != s.date_of_time(Time(r.last))),
            ],
            Answer::Refused { number: 9, place } => {
                let at = Time(place);
                let edge = place > r.first && s.date_of_time(Time(place - 1)) != s.date_of_time(at);
                vec![(Sort::RidesNot, early(&at) && leave(numbered(state, at))), (Sort::AtTheEdge, edge)]
            }
            Answer::Refused { .. } => Vec::new(),
        }
    }

    /// The visitor's rides, each as the date that it is numbered under and the one that it belongs to.
    fn rides(state: &State, visitor: u32) -> Vec<(Date, Date)> {
        let theirs = state.ride.iter().filter(|(_, _, b)| *b == visitor);
        theirs.map(|(time, _, _)| (numbered(state, *time), state.settings.date_of_time(*time))).collect()
    }

    fn of_ending(state: &State, r: &Request, answer: Answer) -> Vec<(Sort, bool)> {
        let rides = Sort::rides(state, r.b);
        match answer {
            Answer::Refused { number: 18, place } => {
                let of_place: Vec<&(Date, Date)> = rides.iter().filter(|(_, date)| date.0 == place).collect();
                let hotel = state.hotel.iter().any(|(date, _, b)| date.0 == place && *b == r.b);
                let on = |session| state.settings.date_of_session(session).0 == place;
                let attend = state.attend.iter().any(|(session, _, b)| on(*session) && *b == r.b);
                let all_early = of_place.iter().all(|(under, _)| under.0 != place);
                vec![(Sort::Bars, !hotel && !attend && all_early)]
            }
            Answer::Done(_) => {
                vec![(Sort::BarsNot, rides.iter().any(|(under, _)| r.dates().any(|date| date == *under)))]
            }
            Answer::Refused { .. } => Vec::new(),
        }
    }

    fn of_removal(state: &State, r: &Request, answer: Answer) -> Vec<(Sort, bool)> {
        let rides = Sort::rides(state, r.b);
        let meant = |date: &Date| r.first <= date.0 && date.0 <= r.last;
        let erases = rides.iter().any(|(under, date)| meant(date) && !meant(under));
        let leaves = rides.iter().any(|(under, date)| meant(under) && !meant(date));
        let done = answer.number() == 0;
        vec![(Sort::Erases, done && erases), (Sort::Leaves, done && leaves)]
    }
}

/// How many candidates are drawn for a sort.
const TRIES: u32 = 60;

/// A request of this sort, if one is drawn.
pub fn early(rng: &mut Rng, state: &State, wanted: Sort) -> Option<Request> {
    for _ in 0..TRIES {
        let mut request = candidate(rng, state, wanted.kind());
        if rng.percent(30) {
            stretch(rng, state, &mut request);
        }
        if Sort::of(state, &request).contains(&wanted) {
            return Some(request);
        }
    }
    None
}

//! Requests of kind 9, which end a meeting's standing, and their sorts, by which a test sees that it
//! met them all.

use super::conflicts::stretch;
use super::requests::candidate;
use super::Rng;
use crate::machine::questions::first_no;
use crate::machine::{Request, Session, State};

/// A sort of request of kind 9 that passes questions 3 to 7.
#[derive(Clone, Copy, Debug, PartialEq, Eq, PartialOrd, Ord)]
pub enum Ending {
    /// Done where nobody attends the meeting, where somebody does in every slot, and where in some.
    NobodyAttends,
    EverySlotAttended,
    SomeSlotsAttended,
    /// Refused by 20 in the first of several slots, in one between, in the last.
    First,
    Between,
    Last,
    /// Refused by 20 between two slots in which the meeting stands.
    Gap,
    /// Refused by 19 in a slot in which the meeting does not stand: its date has a lunch.
    LunchAlone,
}

impl Ending {
    pub const ALL: [Ending; 8] = [
        Ending::NobodyAttends,
        Ending::EverySlotAttended,
        Ending::SomeSlotsAttended,
        Ending::First,
        Ending::Between,
        Ending::Last,
        Ending::Gap,
        Ending::LunchAlone,
    ];

    /// The sorts of a request in this state; none of another kind.
    pub fn of(state: &State, r: &Request) -> Vec<Ending> {
        if r.kind != 9 {
            return Vec::new();
        }
        let stands = |session| state.standing.contains(&(Session(session), r.a));
        match first_no(state, r) {
            None => vec![Ending::done(state, r)],
            Some((19, place)) if !stands(place) => vec![Ending::LunchAlone],
            Some((20, place)) if r.first < r.last => {
                let gap = place < r.last && stands(r.first) && stands(r.last);
                let rest = if gap { vec![Ending::Gap] } else { Vec::new() };
                [vec![Ending::at(r, place)], rest].concat()
            }
            _ => Vec::new(),
        }
    }

    fn done(state: &State, r: &Request) -> Ending {
        let attended =
            |session: Session| state.attend.range((session, r.a, 0)..=(session, r.a, u32::MAX)).next().is_some();
        match (r.sessions().any(attended), r.sessions().all(attended)) {
            (false, _) => Ending::NobodyAttends,
            (true, true) => Ending::EverySlotAttended,
            (true, false) => Ending::SomeSlotsAttended,
        }
    }

    fn at(r: &Request, place: u32) -> Ending {
        match place {
            _ if place == r.first => Ending::First,
            _ if place == r.last => Ending::Last,
            _ => Ending::Between,
        }
    }
}

/// How many candidates are drawn for a sort.
const TRIES: u32 = 60;

/// A request of this sort, if one is drawn.
pub fn ending(rng: &mut Rng, state: &State, wanted: Ending) -> Option<Request> {
    for _ in 0..TRIES {
        let request = around(rng, state);
        if Ending::of(state, &request).contains(&wanted) {
            return Some(request);
        }
    }
    None
}

/// A candidate as it is, over more slots on either side, or up to the next session in which the
/// meeting stands again.
fn around(rng: &mut Rng, state: &State) -> Request {
    let mut request = candidate(rng, state, 9);
    match rng.below(3) {
        0 => stretch(rng, state, &mut request),
        1 => {
            let stands = |session: &u32| state.standing.contains(&(Session(*session), request.a));
            let again = (request.first..state.settings.sessions()).skip_while(stands).find(stands);
            request.last = again.unwrap_or(request.last);
        }
        _ => {}
    }
    request
}

//! Questions 3 to 22 and 30 (docs/RULES.md, section 5), each a function of the state and the request.
//! A question answers Ok for yes and Err with the place for no; where it does not apply it says yes.

use super::kinds::{changes_something, uses, LAST_KIND};
use super::site::{Date, Session, Time};
use super::{Request, State};

/// Yes, or no with the place.
pub type Verdict = Result<(), u32>;

pub type Question = fn(&State, &Request) -> Verdict;

/// The questions with their numbers, in the order of asking (rule 6.3).
pub const QUESTIONS: [(u32, Question); 20] = [
    (3, kind_is_known),
    (4, unused_fields_are_0),
    (5, a_is_below_its_limit),
    (6, b_is_below_its_limit),
    (7, slots_are_in_order),
    (8, seats_are_1_to_capacity),
    (9, visitor_has_leave),
    (10, meeting_stands),
    (11, pair_is_absent),
    (12, a_is_free),
    (13, b_has_no_other_a),
    (14, seats_fit),
    (15, pair_is_present),
    (16, meeting_has_a_conference_room),
    (17, meeting_has_a_lunch),
    (18, visitor_has_no_booking),
    (19, meeting_has_no_conf_and_no_lunch),
    (20, meeting_can_end),
    (21, visitor_attends_a_meeting),
    (22, there_is_such_a_room),
];

/// Question 30, which comes behind all of them (rule 19.3).
pub const LAST_QUESTION: (u32, Question) = (30, count_can_rise);

/// The number and place of the first question answered no.
pub fn first_no(state: &State, request: &Request) -> Option<(u32, u32)> {
    first_before_30(state, request).or_else(|| said_no(LAST_QUESTION, state, request))
}

/// The same without question 30, as a guest of a party is asked.
pub fn first_before_30(state: &State, request: &Request) -> Option<(u32, u32)> {
    QUESTIONS.into_iter().find_map(|question| said_no(question, state, request))
}

fn said_no((number, ask): (u32, Question), state: &State, request: &Request) -> Option<(u32, u32)> {
    ask(state, request).err().map(|place| (number, place))
}

/// A question over slots: no with the lowest slot that is answered no (rules 6.4 and 6.5).
fn each<Slot>(mut slots: impl Iterator<Item = Slot>, yes: impl Fn(&Slot) -> bool) -> Verdict
where
    Slot: Copy + Into<u32>,
{
    match slots.find(|slot| !yes(slot)) {
        Some(slot) => Err(slot.into()),
        None => Ok(()),
    }
}

/// A question that is asked once: no with place 0.
fn whole(yes: bool) -> Verdict {
    if yes {
        Ok(())
    } else {
        Err(0)
    }
}

impl From<Date> for u32 {
    fn from(date: Date) -> u32 {
        date.0
    }
}

impl From<Session> for u32 {
    fn from(session: Session) -> u32 {
        session.0
    }
}

impl From<Time> for u32 {
    fn from(time: Time) -> u32 {
        time.0
    }
}

/// The pairs (a, b) that the set of this kind holds in a slot of the kind's unit.
fn pairs(state: &State, kind: u32, slot: u32) -> Vec<(u32, u32)> {
    match kind {
        4 | 5 => of_slot(state.hotel.range((Date(slot), 0, 0)..=(Date(slot), u32::MAX, u32::MAX))),
        6 | 7 => of_slot(state.ride.range((Time(slot), 0, 0)..=(Time(slot), u32::MAX, u32::MAX))),
        10 | 11 => of_slot(state.attend.range((Session(slot), 0, 0)..=(Session(slot), u32::MAX, u32::MAX))),
        12 => {
            let entries = state.conf.range((Session(slot), 0, 0)..=(Session(slot), u32::MAX, u32::MAX));
            of_slot(entries.map(|(entry, _)| entry))
        }
        14 | 15 => {
            let entries = state.lunch.range((Date(slot), 0, 0)..=(Date(slot), u32::MAX, u32::MAX));
            of_slot(entries.map(|(entry, _)| entry))
        }
        _ => Vec::new(),
    }
}

fn of_slot<'a, Slot: 'a>(entries: impl Iterator<Item = &'a (Slot, u32, u32)>) -> Vec<(u32, u32)> {
    entries.map(|entry| (entry.1, entry.2)).collect()
}

/// The dates of a run of sessions, each of them whole (rule 2.4).
pub fn dates_of_sessions(state: &State, r: &Request) -> impl Iterator<Item = Date> {
    let first = state.settings.date_of_session(Session(r.first));
    let last = state.settings.date_of_session(Session(r.last));
    (first.0..=last.0).map(Date)
}

/// Has the visitor a booking on the date (rule 3.10)?
fn has_booking_on(state: &State, date: Date, visitor: u32) -> bool {
    let settings = &state.settings;
    let hotel = pairs(state, 4, date.0).iter().any(|pair| pair.1 == visitor);
    let ride = |time: Time| pairs(state, 6, time.0).iter().any(|pair| pair.1 == visitor);
    let attend = |session: Session| pairs(state, 10, session.0).iter().any(|pair| pair.1 == visitor);
    hotel || settings.times_of(date).any(ride) || settings.sessions_of(date).any(attend)
}

fn has_conf(state: &State, session: Session, meeting: u32) -> bool {
    pairs(state, 12, session.0).iter().any(|pair| pair.1 == meeting)
}

fn has_lunch(state: &State, date: Date, meeting: u32) -> bool {
    pairs(state, 14, date.0).iter().any(|pair| pair.1 == meeting)
}

/// Rule 5.3: the kind is one of the table.
fn kind_is_known(_: &State, r: &Request) -> Verdict {
    whole(1 <= r.kind && r.kind <= LAST_KIND)
}

/// Rule 5.4: fields that the kind has no use for are 0.
fn unused_fields_are_0(_: &State, r: &Request) -> Verdict {
    let Some(used) = uses(r.kind) else { return Ok(()) };
    let a = used.a.is_some() || r.a == 0;
    let b = used.b.is_some() || r.b == 0;
    let n = used.n || r.n == 0;
    let info = used.info || r.info == 0;
    whole(a && b && n && info)
}

/// Rule 5.5: a names something that the site has.
fn a_is_below_its_limit(state: &State, r: &Request) -> Verdict {
    match uses(r.kind).and_then(|used| used.a) {
        Some(thing) => whole(r.a < thing.limit(&state.settings)),
        None => Ok(()),
    }
}

/// Rule 5.6: b names something that the site has.
fn b_is_below_its_limit(state: &State, r: &Request) -> Verdict {
    match uses(r.kind).and_then(|used| used.b) {
        Some(thing) => whole(r.b < thing.limit(&state.settings)),
        None => Ok(()),
    }
}

/// Rule 5.7: the slots run forward and end inside the site; a query of one slot has one.
fn slots_are_in_order(state: &State, r: &Request) -> Verdict {
    let Some(used) = uses(r.kind) else { return Ok(()) };
    let one = !used.one || r.first == r.last;
    whole(r.first <= r.last && r.last < used.unit.slots(&state.settings) && one)
}

/// Rule 5.8: a lunch has a seat, and no more than its dining room.
fn seats_are_1_to_capacity(state: &State, r: &Request) -> Verdict {
    match r.kind {
        14 => whole(1 <= r.n && r.n <= state.settings.capacity(r.a)),
        _ => Ok(()),
    }
}

/// Rule 5.9: leave, asked of the date of every slot.
fn visitor_has_leave(state: &State, r: &Request) -> Verdict {
    let on = |date| state.leave.contains(&(date, r.b));
    match r.kind {
        4 => each(r.dates(), |date| on(*date)),
        6 => each(r.times(), |time| on(state.settings.date_of_time(*time))),
        10 => each(r.sessions(), |session| on(state.settings.date_of_session(*session))),
        _ => Ok(()),
    }
}

/// Rule 5.10: the meeting stands; for a lunch one session of the date is enough.
fn meeting_stands(state: &State, r: &Request) -> Verdict {
    match r.kind {
        10 => each(r.sessions(), |session| state.standing.contains(&(*session, r.a))),
        12 => each(r.sessions(), |session| state.standing.contains(&(*session, r.b))),
        14 => each(r.dates(), |date| state.stands_on(*date, r.b)),
        _ => Ok(()),
    }
}

/// Rule 5.11: the booking is not there yet.
fn pair_is_absent(state: &State, r: &Request) -> Verdict {
    match r.kind {
        4 | 6 | 10 | 12 | 14 => each(r.first..=r.last, |slot| !pairs(state, r.kind, *slot).contains(&(r.a, r.b))),
        _ => Ok(()),
    }
}

/// Rule 5.12: the room or transport is not in use.
fn a_is_free(state: &State, r: &Request) -> Verdict {
    match r.kind {
        4 | 6 | 12 => each(r.first..=r.last, |slot| !pairs(state, r.kind, *slot).iter().any(|(a, _)| *a == r.a)),
        _ => Ok(()),
    }
}

/// Rule 5.13: the visitor or meeting has no other booking of this sort.
fn b_has_no_other_a(state: &State, r: &Request) -> Verdict {
    match r.kind {
        4 | 6 | 10 | 14 => {
            each(r.first..=r.last, |slot| !pairs(state, r.kind, *slot).iter().any(|(a, b)| *b == r.b && *a != r.a))
        }
        _ => Ok(()),
    }
}

/// Rule 5.14: the seats fit beside those of other lunches.
fn seats_fit(state: &State, r: &Request) -> Verdict {
    match r.kind {
        14 => each(r.dates(), |date| {
            state.reserved(*date, r.a) + u64::from(r.n) <= u64::from(state.settings.capacity(r.a))
        }),
        _ => Ok(()),
    }
}

/// Rule 5.15: the booking is there.
fn pair_is_present(state: &State, r: &Request) -> Verdict {
    match r.kind {
        5 | 7 | 11 | 15 => each(r.first..=r.last, |slot| pairs(state, r.kind, *slot).contains(&(r.a, r.b))),
        _ => Ok(()),
    }
}

/// Rule 5.16: the meeting holds some conference room.
fn meeting_has_a_conference_room(state: &State, r: &Request) -> Verdict {
    match r.kind {
        13 | 16 => each(r.sessions(), |session| has_conf(state, *session, r.b)),
        _ => Ok(()),
    }
}

/// Rule 5.17: the meeting has a lunch; asked of dates, not of sessions.
fn meeting_has_a_lunch(state: &State, r: &Request) -> Verdict {
    match r.kind {
        16 => each(dates_of_sessions(state, r), |date| has_lunch(state, *date, r.b)),
        _ => Ok(()),
    }
}

/// Rule 5.18: the visitor has no bookings left.
fn visitor_has_no_booking(state: &State, r: &Request) -> Verdict {
    match r.kind {
        2 => each(r.dates(), |date| !has_booking_on(state, *date, r.b)),
        _ => Ok(()),
    }
}

/// Rule 5.19: the meeting holds nothing: neither a room in the session nor a lunch that day.
fn meeting_has_no_conf_and_no_lunch(state: &State, r: &Request) -> Verdict {
    match r.kind {
        9 => each(r.sessions(), |session| {
            let date = state.settings.date_of_session(*session);
            !has_conf(state, *session, r.a) && !has_lunch(state, date, r.a)
        }),
        _ => Ok(()),
    }
}

/// Rule 5.20: what is to end is there: the meeting stands, attended or not.
fn meeting_can_end(state: &State, r: &Request) -> Verdict {
    match r.kind {
        9 => each(r.sessions(), |session| state.standing.contains(&(*session, r.a))),
        _ => Ok(()),
    }
}

/// Rule 5.21: the visitor attends some meeting.
fn visitor_attends_a_meeting(state: &State, r: &Request) -> Verdict {
    match r.kind {
        17 => each(r.sessions(), |session| pairs(state, 10, session.0).iter().any(|(_, visitor)| *visitor == r.b)),
        _ => Ok(()),
    }
}

/// Rule 5.22: some conference room is free throughout.
fn there_is_such_a_room(state: &State, r: &Request) -> Verdict {
    match r.kind {
        20 => whole(lowest_free_room(state, r).is_some()),
        _ => Ok(()),
    }
}

/// Rule 5.30: a change can still be counted.
fn count_can_rise(state: &State, r: &Request) -> Verdict {
    whole(!changes_something(r.kind) || state.changes < u32::MAX)
}

/// The lowest conference room that no meeting holds in any of the slots (rule 4.20).
pub fn lowest_free_room(state: &State, r: &Request) -> Option<u32> {
    let taken =
        |room: u32, session: Session| state.conf.range((session, room, 0)..=(session, room, u32::MAX)).next().is_some();
    (0..state.settings.conference_rooms).find(|room| !r.sessions().any(|session| taken(*room, session)))
}

/// The meeting that the visitor attends in the session.
pub fn meeting_attended(state: &State, session: Session, visitor: u32) -> Option<u32> {
    pairs(state, 10, session.0).iter().find(|(_, b)| *b == visitor).map(|(meeting, _)| *meeting)
}

//! What each kind does when it is done (docs/RULES.md, section 4): its change, and its value.

use super::questions::{dates_of_sessions, lowest_free_room, meeting_attended};
use super::site::{Date, Session};
use super::{Request, State};
use std::collections::BTreeSet;

/// Makes the change in all the slots (rules 4.1 to 4.16) and gives the value (rule 4.26).
pub fn change(state: &mut State, r: &Request) -> u32 {
    match r.kind {
        1 => state.leave.extend(r.dates().map(|date| (date, r.b))),
        2 => end_leave(state, r),
        3 => return remove_visitor(state, r),
        4 => state.hotel.extend(r.dates().map(|date| (date, r.a, r.b))),
        5 => r.dates().for_each(|date| erase_one(&mut state.hotel, (date, r.a, r.b))),
        6 => state.ride.extend(r.times().map(|time| (time, r.a, r.b))),
        7 => r.times().for_each(|time| erase_one(&mut state.ride, (time, r.a, r.b))),
        8 => state.standing.extend(r.sessions().map(|session| (session, r.a))),
        9 => end_standing(state, r),
        10 => state.attend.extend(r.sessions().map(|session| (session, r.a, r.b))),
        11 => r.sessions().for_each(|session| erase_one(&mut state.attend, (session, r.a, r.b))),
        12 => state.conf.extend(r.sessions().map(|session| ((session, r.a, r.b), r.info))),
        13 => erase_confs(state, r),
        14 => state.lunch.extend(r.dates().map(|date| ((date, r.a, r.b), (r.n, r.info)))),
        15 => r.dates().for_each(|date| erase_lunch(state, (date, r.a, r.b))),
        16 => cancel_meeting(state, r),
        _ => return what_it_asks(state, r),
    }
    0
}

/// The value of kinds 17 to 20 (rules 4.17 to 4.20), which change nothing.
fn what_it_asks(state: &State, r: &Request) -> u32 {
    match r.kind {
        17 => meeting_attended(state, Session(r.first), r.b).unwrap_or(0),
        18 => state.leave.range((Date(r.first), 0)..=(Date(r.first), u32::MAX)).count() as u32,
        19 => state.settings.capacity(r.a) - state.reserved(Date(r.first), r.a) as u32,
        20 => lowest_free_room(state, r).unwrap_or(0),
        _ => 0,
    }
}

fn end_leave(state: &mut State, r: &Request) {
    for date in r.dates() {
        state.leave.remove(&(date, r.b));
    }
}

/// Rule 4.3: leave goes, and every booking on those dates; the value is how many.
fn remove_visitor(state: &mut State, r: &Request) -> u32 {
    end_leave(state, r);
    let settings = &state.settings;
    let of_those_dates = |date: Date| r.first <= date.0 && date.0 <= r.last;
    let hotel = erase(&mut state.hotel, |(date, _, visitor)| *visitor == r.b && of_those_dates(*date));
    let ride =
        erase(&mut state.ride, |(time, _, visitor)| *visitor == r.b && of_those_dates(settings.date_of_time(*time)));
    let attend = erase(&mut state.attend, |(session, _, visitor)| {
        *visitor == r.b && of_those_dates(settings.date_of_session(*session))
    });
    (hotel + ride + attend) as u32
}

fn erase_one<Entry: Ord>(set: &mut BTreeSet<Entry>, entry: Entry) {
    set.remove(&entry);
}

fn erase_lunch(state: &mut State, entry: (Date, u32, u32)) {
    state.lunch.remove(&entry);
}

/// Erases the entries that are meant and counts them.
fn erase<Entry: Ord>(set: &mut BTreeSet<Entry>, meant: impl Fn(&Entry) -> bool) -> usize {
    let before = set.len();
    set.retain(|entry| !meant(entry));
    before - set.len()
}

/// Rule 4.9: whoever attends the meeting in those sessions attends it no longer.
fn end_standing(state: &mut State, r: &Request) {
    for session in r.sessions() {
        state.standing.remove(&(session, r.a));
    }
    state.attend.retain(|(session, meeting, _)| !(*meeting == r.a && in_slots(r, session.0)));
}

/// Rule 4.13: the meeting gives up its conference rooms, whichever they are.
fn erase_confs(state: &mut State, r: &Request) {
    state.conf.retain(|(session, _, meeting), _| !(*meeting == r.b && in_slots(r, session.0)));
}

/// Rule 4.16: as kind 13, and the lunches on the dates of the run go too.
fn cancel_meeting(state: &mut State, r: &Request) {
    erase_confs(state, r);
    let dates: BTreeSet<Date> = dates_of_sessions(state, r).collect();
    state.lunch.retain(|(date, _, meeting), _| !(*meeting == r.b && dates.contains(date)));
}

fn in_slots(r: &Request, slot: u32) -> bool {
    r.first <= slot && slot <= r.last
}

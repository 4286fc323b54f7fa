//! The laws of the sets (docs/RULES.md, section 7), and the names of everything that question 2 asks.

use super::reading::read;
use crate::machine::{Date, Settings, State};
use std::collections::BTreeSet;

/// Each cell rule, each law of the sets and each clause of the ring's law by its own name, so that a test can say which one a book breaks.
#[derive(Clone, Copy, Debug, PartialEq, Eq, PartialOrd, Ord)]
pub enum Rule {
    // Rules 8.8 to 8.12, of single cells.
    LeaveUnusedBits,
    StandingUnusedBits,
    HotelCellLimit,
    RideCellLimit,
    AttendCellLimit,
    ConfCellLimit,
    LunchCellLimit,
    EmptyConfInfo,
    EmptyLunchSeats,
    EmptyLunchInfo,
    LunchSeatsNone,
    LunchSeatsOverCapacity,
    // The laws 7.1 to 7.14.
    HotelRoomHasOneVisitor,
    VisitorHasOneHotelRoom,
    TransportHasOneVisitor,
    VisitorHasOneTransport,
    VisitorAttendsOneMeeting,
    ConferenceRoomHasOneMeeting,
    MeetingHasOneDiningRoom,
    AttendedMeetingStands,
    ConfMeetingStands,
    LunchMeetingStands,
    HotelGuestHasLeave,
    RideGuestHasLeave,
    AttendGuestHasLeave,
    ReservedWithinCapacity,
    // The law of the ring (rule 18.5): its clauses, the third in two halves.
    OrdersDiffer,
    EmptyPlaceZeros,
    DoneAnswerPlace,
    RefusedAnswerValue,
    NextPlaceWithin,
}

impl Rule {
    pub const CELL_RULES: [Rule; 12] = [
        Rule::LeaveUnusedBits,
        Rule::StandingUnusedBits,
        Rule::HotelCellLimit,
        Rule::RideCellLimit,
        Rule::AttendCellLimit,
        Rule::ConfCellLimit,
        Rule::LunchCellLimit,
        Rule::EmptyConfInfo,
        Rule::EmptyLunchSeats,
        Rule::EmptyLunchInfo,
        Rule::LunchSeatsNone,
        Rule::LunchSeatsOverCapacity,
    ];

    pub const LAWS: [Rule; 14] = [
        Rule::HotelRoomHasOneVisitor,
        Rule::VisitorHasOneHotelRoom,
        Rule::TransportHasOneVisitor,
        Rule::VisitorHasOneTransport,
        Rule::VisitorAttendsOneMeeting,
        Rule::ConferenceRoomHasOneMeeting,
        Rule::MeetingHasOneDiningRoom,
        Rule::AttendedMeetingStands,
        Rule::ConfMeetingStands,
        Rule::LunchMeetingStands,
        Rule::HotelGuestHasLeave,
        Rule::RideGuestHasLeave,
        Rule::AttendGuestHasLeave,
        Rule::ReservedWithinCapacity,
    ];

    pub const OF_RING: [Rule; 5] = [
        Rule::OrdersDiffer,
        Rule::EmptyPlaceZeros,
        Rule::DoneAnswerPlace,
        Rule::RefusedAnswerValue,
        Rule::NextPlaceWithin,
    ];

    /// The laws that the layout keeps by itself (rule 8.14): a state of sets can break them, and a
    /// book cannot.
    pub fn kept_by_layout(self) -> bool {
        matches!(
            self,
            Rule::HotelRoomHasOneVisitor
                | Rule::TransportHasOneVisitor
                | Rule::VisitorAttendsOneMeeting
                | Rule::ConferenceRoomHasOneMeeting
                | Rule::MeetingHasOneDiningRoom
        )
    }

    /// Every rule that a book can break.
    pub fn breakable() -> impl Iterator<Item = Rule> {
        let all = Rule::CELL_RULES.into_iter().chain(Rule::LAWS).chain(Rule::OF_RING);
        all.filter(|rule| !rule.kept_by_layout())
    }
}

/// All rules that a book which passes question 1 breaks; none means that question 2 says yes.
/// The laws are asked of the entries of the well-formed cells.
pub fn broken(settings: Settings, book: &[u32]) -> BTreeSet<Rule> {
    let reading = read(settings, book);
    let mut all = reading.broken;
    all.extend(laws_broken(&reading.state));
    all
}

/// The laws that a state breaks.
pub fn laws_broken(state: &State) -> BTreeSet<Rule> {
    Rule::LAWS.into_iter().filter(|law| !holds(state, *law)).collect()
}

/// The laws 7.1 to 7.7: two things that meet at most once in a slot.
fn holds(state: &State, law: Rule) -> bool {
    match law {
        Rule::HotelRoomHasOneVisitor => once(state.hotel.iter().map(|(date, room, _)| (date, room))),
        Rule::VisitorHasOneHotelRoom => once(state.hotel.iter().map(|(date, _, visitor)| (date, visitor))),
        Rule::TransportHasOneVisitor => once(state.ride.iter().map(|(time, transport, _)| (time, transport))),
        Rule::VisitorHasOneTransport => once(state.ride.iter().map(|(time, _, visitor)| (time, visitor))),
        Rule::VisitorAttendsOneMeeting => once(state.attend.iter().map(|(session, _, visitor)| (session, visitor))),
        Rule::ConferenceRoomHasOneMeeting => once(state.conf.keys().map(|(session, room, _)| (session, room))),
        Rule::MeetingHasOneDiningRoom => once(state.lunch.keys().map(|(date, _, meeting)| (date, meeting))),
        _ => stands_leave_or_seats(state, law),
    }
}

/// The laws 7.8 to 7.14: meetings stand, visitors have leave, seats fit.
fn stands_leave_or_seats(state: &State, law: Rule) -> bool {
    let s = &state.settings;
    let stands = |session, meeting| state.standing.contains(&(session, meeting));
    let leave = |date: Date, visitor| state.leave.contains(&(date, visitor));
    match law {
        Rule::AttendedMeetingStands => state.attend.iter().all(|(session, meeting, _)| stands(*session, *meeting)),
        Rule::ConfMeetingStands => state.conf.keys().all(|(session, _, meeting)| stands(*session, *meeting)),
        Rule::LunchMeetingStands => state.lunch.keys().all(|(date, _, meeting)| state.stands_on(*date, *meeting)),
        Rule::HotelGuestHasLeave => state.hotel.iter().all(|(date, _, visitor)| leave(*date, *visitor)),
        Rule::RideGuestHasLeave => state.ride.iter().all(|(time, _, visitor)| leave(s.date_of_time(*time), *visitor)),
        Rule::AttendGuestHasLeave => {
            state.attend.iter().all(|(session, _, visitor)| leave(s.date_of_session(*session), *visitor))
        }
        _ => {
            let within =
                |(date, room, _): &(Date, u32, u32)| state.reserved(*date, *room) <= u64::from(s.capacity(*room));
            state.lunch.keys().all(within)
        }
    }
}

/// No two entries have the same key.
fn once<Key: Ord>(keys: impl Iterator<Item = Key>) -> bool {
    let mut seen = BTreeSet::new();
    keys.into_iter().all(|key| seen.insert(key))
}

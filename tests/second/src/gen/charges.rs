//! Calls for what a meeting costs: books with few and with many room-sessions, tariffs at their ends, sums of every size;
//! and the sorts of cases, by which a test sees that it met them all.

use super::books::full_book;
use super::orders::some_book;
use super::requests::deep_state;
use super::sites::{site_within, Size};
use super::Rng;
use crate::book::calls::open;
use crate::book::shown;
use crate::charge::{lunch_seats, room_sessions, Tariff, ENOUGH, MOST_PERCENT, MOST_RATE};
use crate::machine::{Date, Session, Settings, State};
use std::collections::BTreeSet;

/// What is lent to a call.
#[derive(Clone, Debug)]
pub struct Lent {
    pub book: Vec<u32>,
    pub meeting: u32,
    pub first: u32,
    pub last: u32,
    pub tariff: Tariff,
}

/// Books of more words than this are not made: reading them takes its time.
const MOST_WORDS: u64 = 20_000;

/// A call: some on words that are no lawful book, some for a meeting, dates or a tariff that are none.
pub fn lent(rng: &mut Rng) -> Lent {
    let state = some_state(rng);
    let s = &state.settings;
    let meeting = payer(rng, &state);
    let (mut first, mut last) = dates(rng, &state);
    match rng.below(12) {
        0 => last = rng.junk(s.dates).max(s.dates),
        1 => (first, last) = (last + 1, first),
        _ => {}
    }
    Lent { book: some_book(rng, &state), meeting, first, last, tariff: tariff(rng) }
}

/// Mostly a meeting that holds rooms or has lunches; now and then one that the site does not have.
fn payer(rng: &mut Rng, state: &State) -> u32 {
    let meetings = state.settings.meetings;
    let rooms: Vec<u32> = state.conf.keys().map(|(_, _, meeting)| *meeting).collect();
    let lunches: Vec<u32> = state.lunch.keys().map(|(_, _, meeting)| *meeting).collect();
    match rng.below(12) {
        0 => rng.junk(meetings).max(meetings),
        1..=6 if !rooms.is_empty() => rng.pick(&rooms),
        7 | 8 if !lunches.is_empty() => rng.pick(&lunches),
        _ => rng.below(meetings),
    }
}

/// A run of dates: one, all of them, or any.
pub fn dates(rng: &mut Rng, state: &State) -> (u32, u32) {
    let dates = state.settings.dates;
    match rng.below(4) {
        0 => (0, dates - 1),
        1 => {
            let date = rng.below(dates);
            (date, date)
        }
        _ => {
            let first = rng.below(dates);
            (first, rng.between(first, dates - 1))
        }
    }
}

/// A tariff: at its ends, one past them, or any.
pub fn tariff(rng: &mut Rng) -> Tariff {
    let percent = match rng.below(12) {
        0 => 0,
        1 => MOST_PERCENT,
        2 => rng.pick(&[MOST_PERCENT + 1, 200, u32::MAX]),
        3 => 50,
        _ => rng.between(0, MOST_PERCENT),
    };
    Tariff { room: rate(rng), seat: rate(rng), percent }
}

/// Even and odd rates, small and great, so that halves and all other rests come.
fn rate(rng: &mut Rng) -> u32 {
    match rng.below(20) {
        0 => 0,
        1 => 1,
        2..=5 => MOST_RATE,
        6 => rng.pick(&[MOST_RATE + 1, 1 << 31, u32::MAX]),
        7..=11 => rng.between(1, 99),
        12 | 13 => 5 * rng.between(1, 999),
        _ => rng.between(0, MOST_RATE),
    }
}

/// A state with as many room-sessions of a meeting as decide, one filled word by word, or one that a list led to.
pub fn some_state(rng: &mut Rng) -> State {
    let size = rng.pick(&[Size::Small, Size::Small, Size::Any]);
    let settings = site_within(rng, size, MOST_WORDS);
    match rng.below(8) {
        0 => large_sums(rng),
        1 => {
            let percent = rng.pick(&[20, 60, 90]);
            shown(&full_book(rng, &settings, percent)).expect("a lawful book")
        }
        2 | 3 => deep_state(rng, settings, 40),
        _ => {
            let mut state = deep_state(rng, settings, 15);
            for _ in 0..rng.between(1, 3) {
                hold_rooms(rng, &mut state);
                have_lunches(rng, &mut state);
            }
            state
        }
    }
}

/// A site whose sums pass 32 bits: a dining room of the greatest capacity, and a lunch that fills it on every date.
fn large_sums(rng: &mut Rng) -> State {
    let dates = rng.between(5, 12);
    let settings = Settings::from_words(&[dates, 2, 1, 2, 2, 3, 1, 1, 1, 0, 1000]).expect("limits in range");
    let mut state = State::empty(settings);
    let meeting = rng.below(2);
    for date in (0..dates).map(Date) {
        state.standing.insert((Session(2 * date.0 + rng.below(2)), meeting));
        state.lunch.insert((date, 0, meeting), (rng.between(900, 1000), rng.word()));
    }
    hold_rooms(rng, &mut state);
    state
}

/// Gives a meeting conference rooms that are free, about as many as decide over the reduction, in sessions side by side.
fn hold_rooms(rng: &mut Rng, state: &mut State) {
    let s = state.settings.clone();
    let meeting = rng.below(s.meetings);
    let wanted = rng.pick(&[1, 8, 9, 9, 10, 10, 10, 11, 12, 30]);
    let start = rng.below(s.sessions());
    let mut held = 0;
    for session in (start..s.sessions()).map(Session) {
        for room in 0..s.conference_rooms {
            let free = state.conf.range((session, room, 0)..=(session, room, u32::MAX)).next().is_none();
            if held < wanted && free && rng.percent(80) {
                state.standing.insert((session, meeting));
                state.conf.insert((session, room, meeting), rng.word());
                held += 1;
            }
        }
    }
}

/// Gives a meeting lunches of many seats where it has none and the dining room is empty.
fn have_lunches(rng: &mut Rng, state: &mut State) {
    let s = state.settings.clone();
    let (meeting, room) = (rng.below(s.meetings), rng.below(s.dining_rooms));
    for date in (0..s.dates).map(Date) {
        let eats = state.lunch.keys().any(|(on, a, b)| *on == date && (*a == room || *b == meeting));
        if !eats && rng.percent(70) {
            state.standing.insert((Session(date.0 * s.sessions_per_date), meeting));
            state.lunch.insert((date, room, meeting), (s.capacity(room), rng.word()));
        }
    }
}

/// What can be said of a charge.
#[derive(Clone, Copy, Debug, PartialEq, Eq, PartialOrd, Ord)]
pub enum Sort {
    Refused(u32),
    /// Nothing is charged; an amount of 32 bits; of more.
    Nothing,
    Cents,
    Long,
    /// Nine room-sessions, ten, more.
    Nine,
    Ten,
    More,
    /// Reduced: the rest is a half, below it, above it, none.
    Half,
    Below,
    Above,
    Exact,
    /// Reduced to nothing; reduced by nothing.
    All,
    None,
    /// The meeting holds two rooms in one of the sessions.
    TwoRooms,
    /// Rooms or lunches of the meeting on other dates, and of other meetings on these.
    OtherDates,
    OtherMeetings,
    /// Refused by 6 or 7 though the tariff is none, by 6 though the dates are none.
    SixFirst,
    SevenFirst,
    /// Refused by 31 where nothing would be reduced: for the rate of a room, of a seat, and for the percentage.
    Rate,
    Seat,
    Percent,
}

impl Sort {
    pub fn all() -> Vec<Sort> {
        let mut all: Vec<Sort> = [1, 2, 6, 7, 31].map(Sort::Refused).to_vec();
        all.extend([Sort::Nothing, Sort::Cents, Sort::Long, Sort::Nine, Sort::Ten, Sort::More]);
        all.extend([Sort::Half, Sort::Below, Sort::Above, Sort::Exact, Sort::All, Sort::None, Sort::TwoRooms]);
        all.extend([Sort::OtherDates, Sort::OtherMeetings, Sort::SixFirst, Sort::SevenFirst]);
        all.extend([Sort::Rate, Sort::Seat, Sort::Percent]);
        all
    }

    /// The sorts of a call, its number and value given.
    pub fn of(lent: &Lent, number: u32, value: u64) -> BTreeSet<Sort> {
        let Ok(state) = open(&lent.book) else { return BTreeSet::from([Sort::Refused(number)]) };
        let tariff = &lent.tariff;
        let backward = lent.first > lent.last || lent.last >= state.settings.dates;
        let met = match number {
            0 => return Sort::of_done(&state, lent, value),
            31 => vec![
                (Sort::Rate, tariff.room > MOST_RATE && tariff.seat <= MOST_RATE && tariff.percent <= MOST_PERCENT),
                (Sort::Seat, tariff.room <= MOST_RATE && tariff.seat > MOST_RATE && tariff.percent <= MOST_PERCENT),
                (Sort::Percent, tariff.room <= MOST_RATE && tariff.seat <= MOST_RATE && few(&state, lent)),
            ],
            _ => vec![
                (Sort::SixFirst, number == 6 && backward && !tariff.within()),
                (Sort::SevenFirst, number == 7 && !tariff.within()),
            ],
        };
        met.into_iter().chain([(Sort::Refused(number), true)]).filter(|(_, is)| *is).map(|(sort, _)| sort).collect()
    }

    fn of_done(state: &State, lent: &Lent, value: u64) -> BTreeSet<Sort> {
        let (first, last) = (Date(lent.first), Date(lent.last));
        let sessions = room_sessions(state, lent.meeting, first, last);
        let reduced = sessions >= ENOUGH;
        let rest = sessions * u64::from(lent.tariff.room) * u64::from(MOST_PERCENT - lent.tariff.percent) % 100;
        let all = Date(state.settings.dates - 1);
        let seats = |meeting, first, last| {
            lunch_seats(state, meeting, first, last) + room_sessions(state, meeting, first, last)
        };
        let of_others =
            (0..state.settings.meetings).any(|other| other != lent.meeting && seats(other, first, last) > 0);
        let met = [
            (Sort::Nothing, value == 0),
            (Sort::Cents, value > 0 && value <= u64::from(u32::MAX)),
            (Sort::Long, value > u64::from(u32::MAX)),
            (Sort::Nine, sessions == ENOUGH - 1),
            (Sort::Ten, sessions == ENOUGH),
            (Sort::More, sessions > ENOUGH),
            (Sort::Half, reduced && rest == 50),
            (Sort::Below, reduced && (1..50).contains(&rest)),
            (Sort::Above, reduced && rest > 50),
            (Sort::Exact, reduced && rest == 0 && lent.tariff.percent > 0),
            (Sort::All, reduced && lent.tariff.percent == MOST_PERCENT),
            (Sort::None, reduced && lent.tariff.percent == 0),
            (Sort::TwoRooms, two_rooms(state, lent.meeting, first, last)),
            (Sort::OtherDates, seats(lent.meeting, Date(0), all) > seats(lent.meeting, first, last)),
            (Sort::OtherMeetings, of_others),
        ];
        met.into_iter().filter(|(_, is)| *is).map(|(sort, _)| sort).collect()
    }
}

/// Has the meeting fewer room-sessions than are reduced?
fn few(state: &State, lent: &Lent) -> bool {
    room_sessions(state, lent.meeting, Date(lent.first), Date(lent.last)) < ENOUGH
}

fn two_rooms(state: &State, meeting: u32, first: Date, last: Date) -> bool {
    let of_dates = |session| (first..=last).contains(&state.settings.date_of_session(session));
    let sessions: Vec<Session> =
        state.conf.keys().filter(|(at, _, holder)| *holder == meeting && of_dates(*at)).map(|key| key.0).collect();
    sessions.windows(2).any(|pair| pair[0] == pair[1])
}

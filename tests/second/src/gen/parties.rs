//! Parties: a book, a meeting and a list of guests, with everything that a party can meet; lists that mix
//! them with requests; and the sorts of cases, by which a test sees that it met them all.

use super::books::{damaged, full_book, junk_book};
use super::requests::{deep_state, leave_on, one, Mix};
use super::sites::{site_within, Size};
use super::Rng;
use crate::book::calls::open;
use crate::book::{shown, words, Rule};
use crate::calls::{perform, Call};
use crate::machine::questions::first_no;
use crate::machine::{step, Date, Session, State};
use crate::party::{Guest, MOST_GUESTS};
use std::collections::BTreeSet;

/// What is lent to a call.
#[derive(Clone, Debug)]
pub struct Lent {
    pub book: Vec<u32>,
    pub meeting: u32,
    pub guests: Vec<Guest>,
}

/// Books of more words than this are not made: reading them takes its time.
const MOST_WORDS: u64 = 20_000;

/// How many candidates are drawn for a guest.
const TRIES: u32 = 40;

/// The numbers that can refuse a guest of a meeting that the site has.
pub const OF_GUESTS: [u32; 6] = [6, 7, 9, 10, 11, 13];

/// A call: some on words that are no lawful book, some of a size that is none.
pub fn lent(rng: &mut Rng) -> Lent {
    let state = any_state(rng);
    let (meeting, guests) = match rng.below(10) {
        0 => unfit(rng, &state),
        _ => party(rng, &state),
    };
    let book = if rng.percent(12) { raw_book(rng, &state) } else { words(&state) };
    Lent { book, meeting, guests }
}

/// A state that a list led to, one with room for many guests, or one filled word by word.
fn any_state(rng: &mut Rng) -> State {
    match rng.below(10) {
        0 | 1 => {
            let settings = site_within(rng, Size::Any, MOST_WORDS);
            deep_state(rng, settings, 60)
        }
        2 => {
            let settings = site_within(rng, Size::Any, MOST_WORDS);
            let percent = rng.pick(&[10, 30]);
            shown(&full_book(rng, &settings, percent)).expect("a lawful book")
        }
        3..=5 => open_state(rng, Size::PoolEdge),
        _ => open_state(rng, Size::Any),
    }
}

/// A state that a list led to, with leave for most visitors and a meeting that stands in most sessions.
pub fn open_state(rng: &mut Rng, size: Size) -> State {
    let settings = site_within(rng, size, MOST_WORDS);
    let mut state = deep_state(rng, settings, 25);
    let percent = rng.pick(&[70, 90, 97]);
    let meeting = rng.below(state.settings.meetings);
    for date in 0..state.settings.dates {
        let visitors = rng.some_below(state.settings.visitors, percent);
        state.leave.extend(visitors.into_iter().map(|visitor| (Date(date), visitor)));
    }
    let sessions = rng.some_below(state.settings.sessions(), percent);
    state.standing.extend(sessions.into_iter().map(|session| (Session(session), meeting)));
    state
}

/// Junk words, or the state's book with one rule broken.
fn raw_book(rng: &mut Rng, state: &State) -> Vec<u32> {
    if rng.percent(60) {
        return junk_book(rng);
    }
    let broken = Rule::breakable().nth(rng.below(Rule::breakable().count() as u32) as usize);
    broken.and_then(|rule| damaged(rng, state, rule)).unwrap_or_else(|| words(state))
}

/// A party for this state: done, refused at the first, a middle or the last guest, or for a meeting that
/// the site does not have.
pub fn party(rng: &mut Rng, state: &State) -> (u32, Vec<Guest>) {
    let meeting = standing_meeting(rng, state);
    let size = match rng.below(20) {
        0 | 1 => 1,
        2..=11 => rng.between(2, 7),
        12..=16 => rng.between(8, 40),
        17 => rng.between(41, 64),
        _ => 64,
    } as usize;
    let mut guests = welcome(rng, state, meeting, size);
    match rng.below(10) {
        0..=3 => {}
        4 => return (rng.junk(state.settings.meetings).max(state.settings.meetings), guests),
        _ => spoil(rng, state, meeting, &mut guests),
    }
    if guests.is_empty() {
        guests.push(candidate(rng, state, meeting, 9));
    }
    (meeting, guests)
}

/// A meeting that stands in some session, mostly the one that stands in most of them.
pub fn standing_meeting(rng: &mut Rng, state: &State) -> u32 {
    let drawn: Vec<u32> = (0..3).map(|_| near(rng, state)).collect();
    let sessions = |meeting: &u32| state.standing.iter().filter(|(_, stands)| stands == meeting).count();
    drawn.into_iter().max_by_key(sessions).unwrap_or(0)
}

/// The meeting of a standing entry at or behind a random one, else any meeting.
fn near(rng: &mut Rng, state: &State) -> u32 {
    let key = (Session(rng.below(state.settings.sessions())), rng.below(state.settings.meetings));
    state.standing.range(key..).next().map_or(key.1, |(_, meeting)| *meeting)
}

/// Up to so many guests who can all be added, one after the other.
pub fn welcome(rng: &mut Rng, state: &State, meeting: u32, size: usize) -> Vec<Guest> {
    let mut reached = state.clone();
    let mut guests = Vec::new();
    while guests.len() < size {
        let Some(guest) = draw(rng, &reached, meeting, 0) else { break };
        step(&mut reached, &guest.joining(meeting));
        guests.push(guest);
    }
    guests
}

/// Puts a guest who is refused at the front, in the middle or at the end, and now and then a worse one
/// somewhere behind.
fn spoil(rng: &mut Rng, state: &State, meeting: u32, guests: &mut Vec<Guest>) {
    guests.truncate(MOST_GUESTS - 1);
    let at = rng.pick(&[0, guests.len() / 2, guests.len(), guests.len()]);
    let mut reached = state.clone();
    for guest in &guests[..at] {
        step(&mut reached, &guest.joining(meeting));
    }
    let wanted = rng.pick(&OF_GUESTS);
    let again = guests[..at].last().copied().filter(|_| wanted == 11 && rng.percent(50));
    let Some(refused) = again.or_else(|| draw(rng, &reached, meeting, wanted)) else { return };
    guests.insert(at, refused);
    if at + 1 < guests.len() && rng.percent(30) {
        let behind = rng.between(at as u32 + 1, guests.len() as u32 - 1) as usize;
        let worse = rng.pick(&[6, 7]);
        guests[behind] = candidate(rng, state, meeting, worse);
    }
}

/// A guest who meets the wanted question with no in this state, or is added for 0.
fn draw(rng: &mut Rng, state: &State, meeting: u32, wanted: u32) -> Option<Guest> {
    let candidates = (0..TRIES).map(|_| candidate(rng, state, meeting, wanted));
    let answered = |guest: &Guest| first_no(state, &guest.joining(meeting)).map_or(0, |no| no.0);
    candidates.into_iter().find(|guest| answered(guest) == wanted)
}

/// A guest near what the wanted number needs.
fn candidate(rng: &mut Rng, state: &State, meeting: u32, wanted: u32) -> Guest {
    let s = &state.settings;
    let (session, visitor) = match wanted {
        0 => welcome_near(rng, state, meeting),
        11 => attending_near(rng, state, |attended| attended == meeting),
        13 => attending_near(rng, state, |attended| attended != meeting),
        _ => (rng.below(s.sessions()), rng.below(s.visitors)),
    };
    let reach = rng.pick(&[0, 0, 0, 1, 2, 4]);
    let mut guest = Guest { visitor, first: session, last: (session + reach).min(s.sessions() - 1) };
    match wanted {
        6 => guest.visitor = rng.junk(s.visitors),
        7 if rng.percent(50) => guest.last = rng.junk(s.sessions()),
        7 => (guest.first, guest.last) = (guest.last.wrapping_add(1), guest.first),
        9..=13 => guest.first -= rng.below(3).min(guest.first),
        _ => {}
    }
    guest
}

/// A session in which the meeting stands, and a visitor with leave on its date.
fn welcome_near(rng: &mut Rng, state: &State, meeting: u32) -> (u32, u32) {
    let s = &state.settings;
    let from = Session(rng.below(s.sessions()));
    let stands = |session: &u32| state.standing.contains(&(Session(*session), meeting));
    let session = (from.0..s.sessions()).take(50).find(stands).unwrap_or(from.0);
    let visitor = leave_on(rng, state, s.date_of_session(Session(session)));
    (session, visitor.unwrap_or_else(|| rng.below(s.visitors)))
}

/// The session and visitor of an attend entry of a meeting that is meant, at or behind a random session.
fn attending_near(rng: &mut Rng, state: &State, meant: impl Fn(u32) -> bool) -> (u32, u32) {
    let from = (Session(rng.below(state.settings.sessions())), 0, rng.below(state.settings.visitors));
    let entry = state.attend.range(from..).chain(&state.attend).take(200).find(|(_, meeting, _)| meant(*meeting));
    entry.map_or((from.0 .0, from.2), |(session, _, visitor)| (session.0, *visitor))
}

/// No guest, or more than 64, the first of whom would do.
fn unfit(rng: &mut Rng, state: &State) -> (u32, Vec<Guest>) {
    let meeting = standing_meeting(rng, state);
    let many = match rng.below(6) {
        0 | 1 => 0,
        2 | 3 => 65,
        4 => rng.between(66, 200),
        _ => rng.pick(&[128, 192, 193, 256, 1000, 4096]),
    } as usize;
    let mut guests = welcome(rng, state, meeting, many.min(65));
    guests.resize_with(many, || candidate(rng, state, meeting, 9));
    let meeting = if rng.percent(20) { u32::MAX } else { meeting };
    (meeting, guests)
}

/// So many calls for the machine in this state, every fourth or so a party; the state is moved along.
pub fn calls(rng: &mut Rng, state: &mut State, length: usize) -> Vec<Call> {
    let mut calls = Vec::with_capacity(length);
    while calls.len() < length {
        let call = if rng.percent(25) { a_party(rng, state) } else { Call::Request(one(rng, state, Mix::USUAL)) };
        perform(state, &call);
        calls.push(call);
    }
    calls
}

/// A party as a call; one in fifteen of a size that is none.
pub fn a_party(rng: &mut Rng, state: &State) -> Call {
    let (meeting, guests) = if rng.below(15) == 0 { unfit(rng, state) } else { party(rng, state) };
    Call::Party { meeting, guests }
}

/// Where in a list of several guests the refused one is.
#[derive(Clone, Copy, Debug, PartialEq, Eq, PartialOrd, Ord)]
pub enum Where {
    First,
    Middle,
    Last,
}

/// What can be said of a party.
#[derive(Clone, Copy, Debug, PartialEq, Eq, PartialOrd, Ord)]
pub enum Sort {
    Refused(u32),
    /// Done with one guest, with several (2), with 64.
    Done(usize),
    /// Refused by this number at this one of several guests.
    At(Where, u32),
    /// A party of one that is refused; one of 64 whose last is.
    OneRefused,
    LastOf64,
    /// 27 for no guest, for 65, for more.
    NoGuest,
    OneTooMany,
    More,
    /// A visitor twice: in a party that is done; in one session, so that the second is refused by 11 though
    /// the book has no such entry.
    TwiceDone,
    TwiceInOneSession,
    /// A guest behind the refused one would be refused by a lower number.
    LowerBehind,
    /// The place is not the guest's first session.
    LaterPlace,
}

impl Sort {
    /// Every sort that a run of parties has to meet.
    pub fn all() -> Vec<Sort> {
        let mut all: Vec<Sort> = [1, 2, 27, 5].into_iter().chain(OF_GUESTS).map(Sort::Refused).collect();
        all.extend([1, 2, 64].map(Sort::Done));
        for place in [Where::First, Where::Middle, Where::Last] {
            all.extend(OF_GUESTS.map(|number| Sort::At(place, number)));
        }
        all.extend([Sort::OneRefused, Sort::LastOf64, Sort::NoGuest, Sort::OneTooMany, Sort::More]);
        all.extend([Sort::TwiceDone, Sort::TwiceInOneSession, Sort::LowerBehind, Sort::LaterPlace]);
        all
    }

    /// The sorts that a call on a book is of, its answer's words given.
    pub fn of(lent: &Lent, answer: [u32; 3]) -> BTreeSet<Sort> {
        match open(&lent.book) {
            Ok(state) => Sort::of_party(&state, lent.meeting, &lent.guests, answer),
            Err(refusal) => BTreeSet::from([Sort::Refused(refusal.number())]),
        }
    }

    /// The same of a party in a state.
    pub fn of_party(state: &State, meeting: u32, guests: &[Guest], answer: [u32; 3]) -> BTreeSet<Sort> {
        let [number, place, _] = answer;
        match number {
            0 => Sort::of_done(guests),
            27 => BTreeSet::from([Sort::Refused(27), Sort::of_size(guests.len())]),
            _ => {
                let mut sorts = Sort::of_refused(state, meeting, guests, place);
                sorts.insert(Sort::Refused(number));
                sorts
            }
        }
    }

    fn of_size(guests: usize) -> Sort {
        match guests {
            0 => Sort::NoGuest,
            65 => Sort::OneTooMany,
            _ => Sort::More,
        }
    }

    fn of_done(guests: &[Guest]) -> BTreeSet<Sort> {
        let visitors: BTreeSet<u32> = guests.iter().map(|guest| guest.visitor).collect();
        let size = if guests.len() == MOST_GUESTS { MOST_GUESTS } else { guests.len().min(2) };
        let twice = (visitors.len() < guests.len()).then_some(Sort::TwiceDone);
        [Some(Sort::Done(size)), twice].into_iter().flatten().collect()
    }

    /// Of a party that a guest is refused in: which one, found by adding them one by one.
    fn of_refused(state: &State, meeting: u32, guests: &[Guest], place: u32) -> BTreeSet<Sort> {
        let mut reached = state.clone();
        let refused = guests.iter().position(|guest| step(&mut reached, &guest.joining(meeting)).number() != 0);
        let at = refused.expect("a guest who is refused");
        let number = |state: &State, guest: &Guest| first_no(state, &guest.joining(meeting)).map_or(0, |no| no.0);
        let by = number(&reached, &guests[at]);
        let met = [
            (Sort::At(Where::First, by), at == 0 && guests.len() > 1),
            (Sort::At(Where::Middle, by), 0 < at && at + 1 < guests.len()),
            (Sort::At(Where::Last, by), 0 < at && at + 1 == guests.len()),
            (Sort::OneRefused, guests.len() == 1),
            (Sort::LastOf64, at == MOST_GUESTS - 1),
            (Sort::TwiceInOneSession, by == 11 && number(state, &guests[at]) == 0),
            (Sort::LowerBehind, guests[at + 1..].iter().any(|guest| (1..by).contains(&number(&reached, guest)))),
            (Sort::LaterPlace, by >= 9 && place > guests[at].first),
        ];
        met.into_iter().filter(|(_, is)| *is).map(|(sort, _)| sort).collect()
    }
}

//! Calls for the porter's page: a book, a date and a lent page full of junk, with everything that a
//! page can hold; and the sorts of cases, by which a test sees that it met them all.

use super::books::{damaged, full_book, junk_book};
use super::requests::deep_state;
use super::sites::{site_within, Size};
use super::Rng;
use crate::book::calls::open;
use crate::book::{words, Rule};
use crate::machine::{Date, Session, Settings, State};
use crate::page::{lines, Line, LINE_BYTES};
use std::collections::BTreeSet;

/// What is lent to a call.
#[derive(Clone, Debug)]
pub struct Lent {
    pub book: Vec<u32>,
    pub date: u32,
    pub page: Vec<u8>,
}

/// Books of more words than this are seldom made: reading them takes its time.
const MOST_WORDS: u64 = 20_000;

/// A call: every fifth book is a damaged one, every tenth date is past the last.
pub fn lent(rng: &mut Rng) -> Lent {
    let (book, date) = match rng.below(10) {
        0 | 1 => raw_book(rng),
        2 => past_the_last(rng),
        3 | 4 => from_list(rng),
        5 => full(rng),
        _ => in_use(rng),
    };
    let page = junk_page(rng, line_count(&book, date));
    Lent { book, date, page }
}

/// How many lines the page of the date has; none where there is no page.
fn line_count(book: &[u32], date: u32) -> usize {
    match open(book) {
        Ok(state) if date < state.settings.dates => lines(&state, Date(date)).len(),
        _ => 0,
    }
}

/// A page of some length about what the lines need, junk in every byte.
pub fn junk_page(rng: &mut Rng, lines: usize) -> Vec<u8> {
    let needed = lines * LINE_BYTES;
    let length = match rng.below(10) {
        0 => 0,
        1 | 2 => needed.saturating_sub(1),
        3 => rng.below(needed as u32 + 1) as usize,
        4 => needed.saturating_sub(LINE_BYTES),
        5 | 6 => needed,
        7 => needed + 1,
        8 => needed + LINE_BYTES,
        _ => needed + rng.below(100) as usize,
    };
    (0..length).map(|_| (rng.draw() & 255) as u8).collect()
}

/// Words that are no book, or a book with one rule broken, and any date.
fn raw_book(rng: &mut Rng) -> (Vec<u32>, u32) {
    let date = if rng.percent(50) { rng.below(3) } else { rng.junk(3) };
    if rng.percent(60) {
        return (junk_book(rng), date);
    }
    let state = busy_state(rng, Size::Small).0;
    let broken = Rule::breakable().nth(rng.below(Rule::breakable().count() as u32) as usize);
    let book = broken.and_then(|rule| damaged(rng, &state, rule));
    (book.unwrap_or_else(|| words(&state)), date)
}

fn past_the_last(rng: &mut Rng) -> (Vec<u32>, u32) {
    let state = busy_state(rng, Size::Small).0;
    let dates = state.settings.dates;
    let date = rng.pick(&[dates, dates, dates + 1, state.settings.sessions(), 1 << 31, u32::MAX]);
    (words(&state), date.max(dates))
}

/// A book that a list of requests led to.
fn from_list(rng: &mut Rng) -> (Vec<u32>, u32) {
    let settings = site_within(rng, Size::Any, MOST_WORDS);
    let state = deep_state(rng, settings, 40);
    let date = rng.below(state.settings.dates);
    (words(&state), date)
}

fn full(rng: &mut Rng) -> (Vec<u32>, u32) {
    let settings = site_within(rng, Size::Any, MOST_WORDS);
    let percent = rng.pick(&[20, 50, 75]);
    (full_book(rng, &settings, percent), rng.below(settings.dates))
}

/// A book with a busy date; now and then of a large site.
fn in_use(rng: &mut Rng) -> (Vec<u32>, u32) {
    let (state, date) = if rng.percent(20) { large_site(rng) } else { busy_state(rng, Size::Any) };
    (words(&state), date)
}

/// A state that a list led to, one date of which was made busy.
pub fn busy_state(rng: &mut Rng, size: Size) -> (State, u32) {
    let settings = site_within(rng, size, MOST_WORDS);
    let mut state = deep_state(rng, settings, 15);
    let date = rng.below(state.settings.dates);
    make_busy(rng, &mut state, Date(date));
    (state, date)
}

/// A site of over a thousand sessions, or of over a hundred visitors, with a busy date.
fn large_site(rng: &mut Rng) -> (State, u32) {
    let many = rng.percent(60);
    let (dates, sessions) = if many { (rng.between(300, 400), rng.between(4, 5)) } else { (2, 3) };
    let visitors = if many { rng.between(1, 4) } else { rng.between(150, 512) };
    let [meetings, rooms, capacity] = [3, 3, 9].map(|most| rng.between(1, most));
    let words = [dates, sessions, 1, visitors, meetings, rooms, 1, 1, 1, 0, capacity];
    let mut state = State::empty(Settings::from_words(&words).expect("limits in range"));
    let date = if many && rng.percent(70) { rng.between(250, dates - 1) } else { rng.below(dates) };
    make_busy(rng, &mut state, Date(date));
    (state, date)
}

/// Gives meetings rooms and visitors on the date, with what the laws want beside them. Few meetings
/// take part, so that one of them holds two rooms, and some sessions have no visitors.
fn make_busy(rng: &mut Rng, state: &mut State, date: Date) {
    let s = state.settings.clone();
    let (rooms, visitors) = rng.pick(&[(0, 60), (10, 60), (60, 0), (60, 60), (100, 30), (100, 90)]);
    let meetings: Vec<u32> = (0..3).map(|_| rng.below(s.meetings)).collect();
    for session in s.sessions_of(date) {
        state.conf.retain(|(at, _, _), _| *at != session);
        for room in rng.some_below(s.conference_rooms, rooms) {
            let meeting = rng.pick(&meetings);
            state.standing.insert((session, meeting));
            state.conf.insert((session, room, meeting), information(rng));
        }
        let coming = rng.pick(&[visitors, 0, visitors]);
        for visitor in rng.some_below(s.visitors, coming) {
            attend(state, date, session, rng.pick(&meetings), visitor);
        }
    }
}

/// Lets the visitor attend the meeting and no other one.
fn attend(state: &mut State, date: Date, session: Session, meeting: u32, visitor: u32) {
    state.attend.retain(|(at, _, b)| !(*at == session && *b == visitor));
    state.leave.insert((date, visitor));
    state.standing.insert((session, meeting));
    state.attend.insert((session, meeting, visitor));
}

/// Information of every number of digits, and both ends.
fn information(rng: &mut Rng) -> u32 {
    match rng.below(4) {
        0 => rng.pick(&[0, u32::MAX]),
        1 => 10u32.pow(rng.below(10)) - rng.below(2),
        2 => rng.word() >> rng.below(32),
        _ => rng.word(),
    }
}

/// What can be said of a call for a page.
#[derive(Clone, Copy, Debug, PartialEq, Eq, PartialOrd, Ord)]
pub enum Sort {
    Refused(u32),
    /// Done with 0, 1 or 2 lines; 2 stands for more as well.
    Lines(usize),
    /// The page is shorter by one byte, or by more; as long as the lines; longer.
    OneByteShort,
    Shorter,
    Exact,
    Longer,
    /// Of the lines: several sessions; a meeting with two rooms in one session; nobody attends; a meeting
    /// whose attendance differs between two sessions.
    SeveralSessions,
    TwoRooms,
    Unattended,
    OtherAttendance,
    /// Of the numbers: information 0 and the greatest, one for each number of digits; sessions of four digits.
    InfoZero,
    InfoGreatest,
    InfoDigits(usize),
    SessionDigits(usize),
    AttendingDigits(usize),
}

impl Sort {
    /// Every sort that a run of calls has to meet.
    pub fn all() -> Vec<Sort> {
        let mut all: Vec<Sort> = [1, 2, 7, 26].map(Sort::Refused).to_vec();
        all.extend((0..3).map(Sort::Lines));
        all.extend([Sort::OneByteShort, Sort::Shorter, Sort::Exact, Sort::Longer]);
        all.extend([Sort::SeveralSessions, Sort::TwoRooms, Sort::Unattended, Sort::OtherAttendance]);
        all.extend([Sort::InfoZero, Sort::InfoGreatest]);
        all.extend((1..=10).map(Sort::InfoDigits));
        all.extend((1..=4).map(Sort::SessionDigits));
        all.extend((1..=3).map(Sort::AttendingDigits));
        all
    }

    /// The sorts that a call is of, its answer's number given.
    pub fn of(lent: &Lent, number: u32) -> BTreeSet<Sort> {
        let mut sorts = BTreeSet::new();
        if number != 0 {
            sorts.insert(Sort::Refused(number));
        }
        if ![0, 26].contains(&number) {
            return sorts;
        }
        let state = open(&lent.book).expect("a book that passed 1 and 2");
        let lines = lines(&state, Date(lent.date));
        sorts.insert(Sort::length(lent.page.len(), lines.len() * LINE_BYTES));
        if number == 0 {
            sorts.insert(Sort::Lines(lines.len().min(2)));
            sorts.extend(lines.iter().flat_map(|line| Sort::of_line(line, &lines)));
        }
        sorts
    }

    fn length(given: usize, needed: usize) -> Sort {
        match (given, needed) {
            _ if given == needed => Sort::Exact,
            _ if given > needed => Sort::Longer,
            _ if given + 1 == needed => Sort::OneByteShort,
            _ => Sort::Shorter,
        }
    }

    /// The sorts of a line among the others.
    fn of_line(line: &Line, lines: &[Line]) -> Vec<Sort> {
        let digits = |number: u32| number.to_string().len();
        let others = || lines.iter().filter(|other| *other != line);
        let same_meeting = |other: &Line| other.meeting == line.meeting;
        let met = [
            (Sort::SeveralSessions, others().any(|other| other.session != line.session)),
            (Sort::TwoRooms, others().any(|other| other.session == line.session && same_meeting(other))),
            (Sort::Unattended, line.attending == 0),
            (Sort::OtherAttendance, others().any(|other| same_meeting(other) && other.attending != line.attending)),
            (Sort::InfoZero, line.info == 0),
            (Sort::InfoGreatest, line.info == u32::MAX),
            (Sort::InfoDigits(digits(line.info)), true),
            (Sort::SessionDigits(digits(line.session.0)), true),
            (Sort::AttendingDigits(digits(line.attending)), true),
        ];
        met.into_iter().filter(|(_, is)| *is).map(|(sort, _)| sort).collect()
    }
}

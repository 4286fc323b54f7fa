//! The porter's page (docs/RULES.md, section 16): the conference rooms in use on one date, a line each.

use crate::book::calls::open;
use crate::machine::{Answer, Date, Session, State};

/// How many bytes a line has, its byte 10 included.
pub const LINE_BYTES: usize = 31;

/// What a line tells (rule 16.2).
#[derive(Clone, Copy, Debug, PartialEq, Eq)]
pub struct Line {
    pub session: Session,
    pub room: u32,
    pub meeting: u32,
    pub attending: u32,
    pub info: u32,
}

impl Line {
    /// The 30 characters and the byte 10 (rule 16.3).
    pub fn bytes(&self) -> Vec<u8> {
        let Line { session: Session(session), room, meeting, attending, info } = self;
        format!("{session:>5}{room:>4}{meeting:>4}{attending:>6}{info:>11}\n").into_bytes()
    }
}

/// The lines of a date in their order: session first, then room (rule 16.1).
pub fn lines(state: &State, date: Date) -> Vec<Line> {
    let mut lines = Vec::new();
    for session in state.settings.sessions_of(date) {
        for room in 0..state.settings.conference_rooms {
            let in_use = state.conf.range((session, room, 0)..=(session, room, u32::MAX));
            lines.extend(in_use.map(|((_, _, meeting), info)| Line {
                session,
                room,
                meeting: *meeting,
                attending: attending(state, session, *meeting),
                info: *info,
            }));
        }
    }
    lines
}

/// How many visitors attend the meeting in the session.
fn attending(state: &State, session: Session, meeting: u32) -> u32 {
    state.attend.range((session, meeting, 0)..=(session, meeting, u32::MAX)).count() as u32
}

/// The call (rules 16.4 to 16.6): questions 1, 2, 7 and 26; done, the page begins with the lines, and
/// the value is their number.
pub fn page(book: &[u32], date: u32, page: &mut [u8]) -> Answer {
    let state = match open(book) {
        Ok(state) => state,
        Err(refusal) => return refusal,
    };
    if date >= state.settings.dates {
        return Answer::Refused { number: 7, place: 0 };
    }
    let lines = lines(&state, Date(date));
    let text: Vec<u8> = lines.iter().flat_map(Line::bytes).collect();
    match page.get_mut(..text.len()) {
        None => Answer::Refused { number: 26, place: 0 },
        Some(beginning) => {
            beginning.copy_from_slice(&text);
            Answer::Done(lines.len() as u32)
        }
    }
}

//! Hotel rooms against dates, and conference rooms against sessions: bars.

use super::chart::{bar, free, number, run_of, strips, Chart, Strip};
use crate::view::{count, numbers, runs, slots, View};
use std::ops::Range;

const HOTEL_ROW: u32 = 17;
const CONFERENCE_ROW: u32 = 17;

/// Who attends, by session of a strip and by meeting.
type Attendance = Vec<Vec<Vec<u32>>>;

pub fn hotels(page: &mut String, view: &View, dates: &Range<u32>) {
    for strip in strips(dates, 1) {
        let mut chart = Chart::open(page, &strip, "hotel", HOTEL_ROW, "Date →<br/>Hotel room ↓");
        for room in 0..view.hotels {
            chart.row(&room.to_string(), &stays(view, &strip, room));
        }
        chart.close();
    }
}

/// The stays in a hotel room: a bar for each run of dates of one visitor. What goes on outside of the strip is told whole.
fn stays(view: &View, strip: &Strip, room: u32) -> String {
    let mut cells = String::new();
    let mut date = strip.dates.start;
    while date < strip.dates.end {
        let guest = view.guest(date, room);
        let run = run_of(date, &(0..view.dates), |date| view.guest(date, room) == guest);
        let (edges, dates) = (strip.edges(&run), slots("date", &run));
        match guest {
            Some(visitor) => {
                let nights = count(run.end - run.start, "night");
                let title = format!("Hotel room {room}, {dates}: visitor {visitor}, {nights}");
                bar(&mut cells, edges, HOTEL_ROW, visitor, strip, &title);
            }
            None => free(&mut cells, edges, HOTEL_ROW, &format!("Hotel room {room}, {dates}: free")),
        }
        date = run.end;
    }
    cells
}

pub fn conferences(page: &mut String, view: &View, dates: &Range<u32>) {
    for strip in strips(dates, view.sessions) {
        let sessions = view.sessions_of(strip.dates.start).start..view.sessions_of(strip.dates.end - 1).end;
        let attendance: Attendance = sessions.map(|session| view.attendance(session)).collect();
        let corner = "Date, session →<br/>Conference room ↓";
        let mut chart = Chart::open(page, &strip, "conference", CONFERENCE_ROW, corner);
        for room in 0..view.rooms {
            chart.row(&room.to_string(), &holdings(view, &strip, room, &attendance));
        }
        chart.row("without room", &without_room(view, &strip, &attendance));
        chart.close();
    }
}

/// The meetings in a conference room: on each date a bar for each run of sessions of one meeting.
fn holdings(view: &View, strip: &Strip, room: u32, attendance: &Attendance) -> String {
    let mut cells = String::new();
    for date in strip.dates.clone() {
        let sessions = view.sessions_of(date);
        let mut session = sessions.start;
        while session < sessions.end {
            let held = view.conf(session, room);
            let run = run_of(session, &sessions, |session| view.conf(session, room) == held);
            let edges = strip.part_edges(date, &(run.start - sessions.start..run.end - sessions.start));
            let title = format!("Conference room {room}, {}", on_date(view, date, &run));
            match held {
                Some((meeting, info)) => {
                    let visitors = visitors(view, strip, &run, meeting, attendance);
                    let title = format!("{title}: meeting {meeting}, information {info}\n{visitors}");
                    bar(&mut cells, edges, CONFERENCE_ROW, meeting, strip, &title);
                }
                None => free(&mut cells, edges, CONFERENCE_ROW, &format!("{title}: free")),
            }
            session = run.end;
        }
    }
    cells
}

/// Sessions of a date in words, with their numbers within it.
fn on_date(view: &View, date: u32, run: &Range<u32>) -> String {
    let first = view.sessions_of(date).start;
    let within = slots("session", &(run.start - first..run.end - first));
    format!("date {date}, {within} ({})", numbers(run))
}

/// Who attends a meeting in a run of sessions: said once for neighbours with the same visitors.
fn visitors(view: &View, strip: &Strip, run: &Range<u32>, meeting: u32, attendance: &Attendance) -> String {
    let list = |session| of(view, strip, session, meeting, attendance);
    let mut told = Vec::new();
    let mut session = run.start;
    while session < run.end {
        let same = run_of(session, &(session..run.end), |other| list(other) == list(session));
        let within = slots("session", &(same.start % view.sessions..(same.end - 1) % view.sessions + 1));
        let when = if same == *run { String::new() } else { format!("{within}: ") };
        told.push(when + &attend(list(session)));
        session = same.end;
    }
    told.join("\n")
}

fn of<'a>(view: &View, strip: &Strip, session: u32, meeting: u32, attendance: &'a Attendance) -> &'a [u32] {
    let place = session - view.sessions_of(strip.dates.start).start;
    let lists = attendance.get(place as usize);
    lists.and_then(|lists| lists.get(meeting as usize)).map_or(&[], Vec::as_slice)
}

fn attend(visitors: &[u32]) -> String {
    match visitors.len() {
        0 => "nobody attends".to_string(),
        number => format!("{}: {}", count(number as u64, "visitor"), runs(visitors.iter().copied())),
    }
}

/// How many meetings stand in each session without a conference room, which, and how many visitors attend them.
fn without_room(view: &View, strip: &Strip, attendance: &Attendance) -> String {
    let mut cells = String::new();
    for date in strip.dates.clone() {
        for (part, session) in (0..).zip(view.sessions_of(date)) {
            let holders: Vec<u32> = (0..view.rooms).filter_map(|room| Some(view.conf(session, room)?.0)).collect();
            let without: Vec<u32> = view.standing(session).filter(|meeting| !holders.contains(meeting)).collect();
            let visitors: usize =
                without.iter().map(|&meeting| of(view, strip, session, meeting, attendance).len()).sum();
            let meetings = count(without.len() as u64, "meeting");
            let mut title = format!("{}: {meetings} without a room", on_date(view, date, &(session..session + 1)));
            if !without.is_empty() {
                let visitors = count(visitors as u64, "visitor");
                title += &format!("\nmeetings: {}\nattended by {visitors}", runs(without.iter().copied()));
            }
            let edges = strip.part_edges(date, &(part..part + 1));
            number(&mut cells, edges, CONFERENCE_ROW, (without.len() as u64, "lack"), &title);
        }
    }
    cells
}

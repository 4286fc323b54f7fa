//! What is taken on each date: leave, rooms, seats and rides as cells that fill up.

use super::chart::{level, run_of, shade, share, strips, Chart, Strip};
use crate::view::{count, runs, View};
use std::ops::Range;

const TALL_ROW: u32 = 34;
const ROW: u32 = 17;

/// What is taken of a number, and what a cell says of it.
pub struct Level {
    pub taken: u64,
    pub of: u64,
    title: String,
}

/// A thing that is counted on each date.
pub struct Measure {
    pub name: &'static str,
    /// What is counted on one date, and over several.
    thing: &'static str,
    pub things: &'static str,
    pub on: fn(&View, u32) -> Level,
}

pub const MEASURES: [Measure; 5] = [
    Measure { name: "Leave", thing: "visitor", things: "visitor-date", on: leave },
    Measure { name: "Hotel rooms", thing: "room", things: "room-night", on: hotels },
    Measure { name: "Conference rooms", thing: "room-session", things: "room-session", on: conferences },
    Measure { name: "Lunch", thing: "seat", things: "seat", on: seats },
    Measure { name: "Rides", thing: "ride", things: "ride", on: rides },
];

pub fn overview(page: &mut String, view: &View, dates: &Range<u32>) {
    for strip in strips(dates, 1) {
        let mut chart = Chart::open(page, &strip, "overview", TALL_ROW, "Date →<br/>Taken ↓");
        for measure in &MEASURES {
            let of = strip.dates.clone().map(|date| (measure.on)(view, date).of).max().unwrap_or(0);
            let label = format!("{}<br/><small>of {}</small>", measure.name, count(of, measure.thing));
            chart.row(&label, &levels(&strip, |date| (measure.on)(view, date)));
        }
        chart.close();
    }
}

pub fn dining(page: &mut String, view: &View, dates: &Range<u32>) {
    for strip in strips(dates, 1) {
        let mut chart = Chart::open(page, &strip, "dining", TALL_ROW, "Date →<br/>Dining room ↓");
        for room in 0..view.dining {
            let label = format!("{room}<br/><small>{}</small>", count(view.capacity(room), "seat"));
            chart.row(&label, &levels(&strip, |date| lunches(view, date, room)));
        }
        chart.close();
    }
}

pub fn transports(page: &mut String, view: &View, dates: &Range<u32>) {
    for strip in strips(dates, 1) {
        let mut chart = Chart::open(page, &strip, "transport", ROW, "Date →<br/>Transport ↓");
        for transport in 0..view.transports {
            let mut cells = String::new();
            for date in strip.dates.clone() {
                let Level { taken, of, title } = transport_rides(view, date, transport);
                shade(&mut cells, strip.edges(&(date..date + 1)), ROW, (taken, of), &title);
            }
            chart.row(&transport.to_string(), &cells);
        }
        chart.close();
    }
}

fn levels(strip: &Strip, on: impl Fn(u32) -> Level) -> String {
    let mut cells = String::new();
    for date in strip.dates.clone() {
        let Level { taken, of, title } = on(date);
        level(&mut cells, strip.edges(&(date..date + 1)), TALL_ROW, (taken, of), &title);
    }
    cells
}

fn leave(view: &View, date: u32) -> Level {
    let visitors: Vec<u32> = view.leave(date).collect();
    let (taken, of) = (visitors.len() as u64, u64::from(view.visitors));
    let title = format!("Date {date}: leave for {}\n{}", share(taken, of, "visitor"), runs(visitors));
    Level { taken, of, title: title.trim_end().to_string() }
}

fn hotels(view: &View, date: u32) -> Level {
    let taken = (0..view.hotels).filter(|&room| view.guest(date, room).is_some()).count() as u64;
    let of = u64::from(view.hotels);
    Level { taken, of, title: format!("Date {date}: {} taken", share(taken, of, "hotel room")) }
}

fn conferences(view: &View, date: u32) -> Level {
    let held = |session| (0..view.rooms).filter(|&room| view.conf(session, room).is_some()).count() as u64;
    let taken = view.sessions_of(date).map(held).sum();
    let of = u64::from(view.rooms * view.sessions);
    Level { taken, of, title: format!("Date {date}: {} of conference rooms taken", share(taken, of, "session")) }
}

fn seats(view: &View, date: u32) -> Level {
    let taken = (0..view.dining).map(|room| view.reserved(date, room)).sum();
    let of = (0..view.dining).map(|room| u64::from(view.capacity(room))).sum();
    Level { taken, of, title: format!("Date {date}: {} taken for lunch", share(taken, of, "seat")) }
}

fn rides(view: &View, date: u32) -> Level {
    let times = view.times_of(date);
    let of = u64::from(view.transports) * times.len() as u64;
    let ridden = |time| (0..view.transports).filter(|&transport| view.rider(time, transport).is_some()).count() as u64;
    let taken = times.map(ridden).sum();
    Level { taken, of, title: format!("Date {date}: {} taken", share(taken, of, "ride")) }
}

/// The seats of a dining room that are taken on a date, and for which meetings.
fn lunches(view: &View, date: u32, room: u32) -> Level {
    let (taken, of) = (view.reserved(date, room), u64::from(view.capacity(room)));
    let mut title = format!("Dining room {room}, date {date}: {} taken", share(taken, of, "seat"));
    for (meeting, lunch) in view.lunches(date, room) {
        title += &format!("\nmeeting {meeting}: {}, information {}", count(lunch.seats, "seat"), lunch.info);
    }
    Level { taken, of, title }
}

/// The rides of a transport on a date: times within the date and of the site, and who rides; neighbours as one.
fn transport_rides(view: &View, date: u32, transport: u32) -> Level {
    let times = view.times_of(date);
    let (mut taken, of, mut list) = (0, times.len() as u64, String::new());
    let mut time = times.start;
    while time < times.end {
        let rider = view.rider(time, transport);
        let end = if time / view.times > date { times.end } else { times.end.min((date + 1) * view.times) };
        let run = run_of(time, &(time..end), |time| view.rider(time, transport) == rider);
        if let Some(visitor) = rider {
            taken += run.len() as u64;
            let early = if time / view.times > date { "early " } else { "" };
            let within = short(time % view.times, run.len());
            list += &format!("\n{early}{within} ({}): visitor {visitor}", short(time, run.len()));
        }
        time = run.end;
    }
    let head = if taken == 0 { "" } else { " at times" };
    Level { taken, of, title: format!("Transport {transport}, date {date}: {}{head}{list}", count(taken, "ride")) }
}

/// A run of times from its first, in few letters, for there are many of them: `3`, `3-5`.
fn short(first: u32, length: usize) -> String {
    match length {
        1 => first.to_string(),
        _ => format!("{first}-{}", first as usize + length - 1),
    }
}

//! The page of a date, for people: plain text in aligned columns.

use crate::view::{count, runs, slots, View};
use std::ops::Range;

/// How wide a page becomes, and a list in a table before it goes on in the next line.
const PAGE: usize = 120;
const LIST: usize = 48;
/// A table of numbers with more rows than this is set in blocks side by side, as many as the page has room for.
const ROWS: usize = 20;

/// A column's head. Numbers end below each other, lists begin below each other.
enum Column {
    Number(&'static str),
    List(&'static str),
}

use Column::{List, Number};

/// The page of a date of a checked book; a sentence when the words are no book, or when it does not have the date.
pub fn page(book: &[u32], date: u32) -> Result<String, String> {
    let view = View::of(book)?;
    view.known(date)?;
    let mut page = format!("Date {date} (the site has the dates 0 to {})\n", view.dates - 1);
    for part in [leave, hotels, rides, meetings, lunches] {
        page.push('\n');
        page.push_str(&part(&view, date));
    }
    Ok(page)
}

fn leave(view: &View, date: u32) -> String {
    let visitors: Vec<u32> = view.leave(date).collect();
    if visitors.is_empty() {
        return "Leave: nobody\n".to_string();
    }
    let lines = wrap(&runs(visitors.iter().copied()), PAGE - 20);
    format!("Leave: {} of {}\n  {}\n", visitors.len(), count(view.visitors, "visitor"), lines.join("\n  "))
}

fn hotels(view: &View, date: u32) -> String {
    let guests = (0..view.hotels).filter_map(|room| Some([room, view.guest(date, room)?]));
    let rows: Vec<Vec<String>> = guests.map(|row| row.map(|number| number.to_string()).to_vec()).collect();
    if rows.is_empty() {
        return format!("Hotel rooms: none of {} taken\n", view.hotels);
    }
    let table = abreast(&[Number("room"), Number("visitor")], &rows);
    format!("Hotel rooms: {} of {} taken\n{table}", rows.len(), view.hotels)
}

/// The rides of the date's own times, then those of the next date's early times, which go with this date.
fn rides(view: &View, date: u32) -> String {
    let Range { start, end } = view.times_of(date);
    let middle = end.min((date + 1) * view.times);
    let mut text = format!("Rides, {}: {}", times(view, start..middle), ride_table(view, start..middle));
    if middle < end {
        let early = format!("{}; they go with date {date}", times(view, middle..end));
        text += &format!("\nEarly rides, {early}: {}", ride_table(view, middle..end));
    }
    text
}

/// Times of one date in words, with their numbers within it.
fn times(view: &View, times: Range<u32>) -> String {
    let first = times.start / view.times * view.times;
    let within = slots("number", &(times.start - first..times.end - first));
    format!("{} ({within} of date {})", slots("time", &times), first / view.times)
}

fn ride_table(view: &View, times: Range<u32>) -> String {
    let mut rows = Vec::new();
    for time in times {
        for transport in 0..view.transports {
            if let Some(visitor) = view.rider(time, transport) {
                rows.push([time, time % view.times, transport, visitor].map(|number| number.to_string()).to_vec());
            }
        }
    }
    if rows.is_empty() {
        return "none\n".to_string();
    }
    let columns = [Number("time"), Number("number"), Number("transport"), Number("visitor")];
    format!("{}\n{}", rows.len(), abreast(&columns, &rows))
}

fn meetings(view: &View, date: u32) -> String {
    let mut text = "Meetings\n".to_string();
    for session in view.sessions_of(date) {
        let attendance = view.attendance(session);
        let row = |meeting| meeting_row(view, session, meeting, &attendance);
        let rows: Vec<Vec<String>> = view.standing(session).map(row).collect();
        let number = session % view.sessions;
        text += &format!("  Session {session} (number {number} of date {date}): ");
        if rows.is_empty() {
            text += "none\n";
            continue;
        }
        text += &format!("{}\n", count(rows.len() as u64, "meeting"));
        let columns = [Number("meeting"), List("rooms (information)"), Number("attend"), List("visitors")];
        for line in table(&columns, &rows) {
            text += &format!("  {line}\n");
        }
    }
    text
}

/// A meeting of a session: its number, conference rooms, how many attend it and who.
fn meeting_row(view: &View, session: u32, meeting: u32, attendance: &[Vec<u32>]) -> Vec<String> {
    let held = (0..view.rooms).filter_map(|room| match view.conf(session, room) {
        Some((holder, info)) if holder == meeting => Some(format!("{room} ({info})")),
        _ => None,
    });
    let rooms = or_word(held.collect::<Vec<_>>().join(", "), "none");
    let visitors = attendance.get(meeting as usize).map_or(&[][..], Vec::as_slice);
    let names = or_word(runs(visitors.iter().copied()), "nobody");
    vec![meeting.to_string(), rooms, visitors.len().to_string(), names]
}

/// Every dining room with the seats that are taken of it, and a line for each of its lunches.
fn lunches(view: &View, date: u32) -> String {
    let mut rows: Vec<Vec<String>> = Vec::new();
    for dining in 0..view.dining {
        let taken = format!("{} of {}", view.reserved(date, dining), view.capacity(dining));
        let (before, mut head) = (rows.len(), vec![dining.to_string(), taken]);
        for (meeting, lunch) in view.lunches(date, dining) {
            head.extend([meeting, lunch.seats, lunch.info].map(|number| number.to_string()));
            rows.push(std::mem::replace(&mut head, vec![String::new(), String::new()]));
        }
        if rows.len() == before {
            head.extend(["none", "-", "-"].map(str::to_string));
            rows.push(head);
        }
    }
    let columns = ["dining room", "seats taken", "meeting", "seats", "information"].map(Number);
    format!("Lunches\n{}\n", table(&columns, &rows).join("\n"))
}

fn or_word(list: String, word: &str) -> String {
    if list.is_empty() {
        word.to_string()
    } else {
        list
    }
}

/// The lines of a table, its head first.
fn table(columns: &[Column], rows: &[Vec<String>]) -> Vec<String> {
    let head: Vec<Vec<String>> = columns.iter().map(|(Number(head) | List(head))| vec![head.to_string()]).collect();
    let wrapped = rows.iter().map(|row| row.iter().map(|cell| wrap(cell, LIST)).collect());
    let rows: Vec<Vec<Vec<String>>> = std::iter::once(head).chain(wrapped).collect();
    let width =
        |column: usize| rows.iter().filter_map(|row| row.get(column)).flatten().map(String::len).max().unwrap_or(0);
    let widths: Vec<usize> = (0..columns.len()).map(width).collect();
    rows.iter().flat_map(|row| row_lines(columns, &widths, row)).collect()
}

/// The lines of a row, as many as its longest cell has.
fn row_lines(columns: &[Column], widths: &[usize], row: &[Vec<String>]) -> Vec<String> {
    let height = row.iter().map(Vec::len).max().unwrap_or(0);
    let line = |number: usize| {
        let mut line = String::new();
        for ((column, width), cell) in columns.iter().zip(widths).zip(row) {
            let text = cell.get(number).map_or("", String::as_str);
            match column {
                Number(_) => line += &format!("  {text:>width$}"),
                List(_) => line += &format!("  {text:<width$}"),
            }
        }
        line.trim_end().to_string()
    };
    (0..height).map(line).collect()
}

/// A table of numbers; a long one as blocks side by side, each to be read downward.
fn abreast(columns: &[Column], rows: &[Vec<String>]) -> String {
    let lines = table(columns, rows);
    let Some((head, body)) = lines.split_first() else { return String::new() };
    let blocks = body.len().div_ceil(ROWS).clamp(1, (PAGE / (head.len() + 4)).max(1));
    let height = body.len().div_ceil(blocks).max(1);
    let blocks: Vec<&[String]> = body.chunks(height).collect();
    let mut text = vec![head.as_str(); blocks.len()].join("   |") + "\n";
    for number in 0..height {
        let beside: Vec<&str> = blocks.iter().filter_map(|block| Some(block.get(number)?.as_str())).collect();
        text += &(beside.join("   |") + "\n");
    }
    text
}

/// A list in lines of at most so many columns, broken behind commas; one line at least.
fn wrap(list: &str, most: usize) -> Vec<String> {
    let mut lines = vec![String::new()];
    for part in list.split_inclusive(", ") {
        match lines.last_mut() {
            Some(line) if line.is_empty() || line.len() + part.trim_end().len() <= most => line.push_str(part),
            _ => lines.push(part.to_string()),
        }
    }
    lines.iter().map(|line| line.trim_end().to_string()).collect()
}

//! The book as a picture: one HTML page with inline SVG, for a screen without a network and for paper.

mod chart;
mod levels;
mod rooms;

use crate::view::{count, slots, View};
use chart::share;
use std::ops::Range;

/// More dates than this make a page that browsers are slow to show: two months of the largest site, half full, are 15 MB.
const MOST_DATES: u32 = 62;

const STYLE: &str = include_str!("look/style.css");

/// The page of the dates `from` to `to` of a checked book; a sentence when the words are no book, or the dates are wrong.
pub fn page(book: &[u32], from: u32, to: u32) -> Result<String, String> {
    let view = View::of(book)?;
    if from > to {
        return Err(format!("the dates are backward: the first, {from}, is after the last, {to}"));
    }
    view.known(to)?;
    if to - from >= MOST_DATES {
        let dates = count(to - from + 1, "date");
        return Err(format!("{dates} are too many for one page: ask for at most {MOST_DATES}"));
    }
    let dates = from..to + 1;
    let mut page = head(&view, &dates);
    section(&mut page, "overview", "Each date", "How much is taken of everything.");
    levels::overview(&mut page, &view, &dates);
    section(&mut page, "hotel", "Hotel rooms", "A bar is a stay, and its number is the visitor.");
    rooms::hotels(&mut page, &view, &dates);
    section(
        &mut page,
        "conference",
        "Conference rooms",
        "A bar is a meeting in some sessions of a date, and its number is the meeting. Below: how many meetings have no room.",
    );
    rooms::conferences(&mut page, &view, &dates);
    section(&mut page, "dining", "Dining rooms", "The number is how many seats are taken for lunch.");
    levels::dining(&mut page, &view, &dates);
    section(&mut page, "transport", "Transports", &riding(&view));
    levels::transports(&mut page, &view, &dates);
    page += "</body></html>\n";
    Ok(page)
}

fn section(page: &mut String, id: &str, heading: &str, says: &str) {
    *page += &format!("<h2 id=\"{id}\">{heading}</h2><p>{says} <a href=\"#top\">Top</a></p>\n");
}

/// What the numbers of the transports are, and where early rides stand.
fn riding(view: &View) -> String {
    let says = "The number is how many rides the transport has.";
    match view.early {
        0 => says.to_string(),
        1 => format!("{says} Time 0 of a date is early: its ride stands with the date before."),
        early => {
            format!("{says} Times 0 to {} of a date are early: their rides stand with the date before.", early - 1)
        }
    }
}

/// The head of the page: what site, which dates, what is taken in all of them, and what the drawings mean.
fn head(view: &View, dates: &Range<u32>) -> String {
    let which = slots("date", dates);
    let mut page = format!(
        "<!DOCTYPE html>\n<html lang=\"en\"><head><meta charset=\"utf-8\"/><title>The book: {which}</title>\n\
         <style>\n{STYLE}</style></head>\n<body id=\"top\"><h1>The book: {which}</h1>\n<p>{}</p>\n",
        site(view)
    );
    page += "<table class=\"totals\"><tbody>\n";
    for measure in &levels::MEASURES {
        let all: Vec<levels::Level> = dates.clone().map(|date| (measure.on)(view, date)).collect();
        let (taken, of) = all.iter().fold((0, 0), |(taken, of), level| (taken + level.taken, of + level.of));
        page += &format!("<tr><th>{}</th><td>{}</td></tr>\n", measure.name, share(taken, of, measure.things));
    }
    page += "</tbody></table>\n";
    page + LEGEND
}

/// The site in words.
fn site(view: &View) -> String {
    let early = if view.early == 0 { String::new() } else { format!(", {} of them early", view.early) };
    [
        format!("A site of {} (0 to {})", count(view.dates, "date"), view.dates - 1),
        format!("{} a date", count(view.sessions, "session")),
        format!("{} a date{early}", count(view.times, "ride time")),
        count(view.visitors, "visitor"),
        count(view.meetings, "meeting"),
        count(view.hotels, "hotel room"),
        count(view.rooms, "conference room"),
        count(view.dining, "dining room"),
        count(view.transports, "transport"),
    ]
    .join(", ")
        + ". Everything is numbered from 0."
}

const LEGEND: &str = "<p class=\"legend\">\
<svg width=\"60\" height=\"17\"><rect class=\"c2\" width=\"58\" height=\"15\"/><text x=\"29\" y=\"12\">17</text></svg> \
a booking with the number of the visitor or meeting; colours only tell neighbours apart, and a bar without a round end goes on \
<svg width=\"30\" height=\"17\"><rect class=\"pale\" width=\"30\" height=\"17\"/></svg> free \
<svg width=\"30\" height=\"17\"><rect class=\"pale\" width=\"30\" height=\"17\"/><rect class=\"some\" y=\"9\" width=\"30\" height=\"8\"/>\
</svg> <svg width=\"30\" height=\"17\"><rect class=\"s3\" width=\"30\" height=\"17\"/></svg> higher or darker: more is taken \
<svg width=\"30\" height=\"17\"><rect class=\"full\" width=\"30\" height=\"17\"/></svg> full</p>\n\
<p class=\"go\">Point at a cell to see its numbers. Go to: <a href=\"#overview\">each date</a>, <a href=\"#hotel\">hotel rooms</a>, \
<a href=\"#conference\">conference rooms</a>, <a href=\"#dining\">dining rooms</a>, <a href=\"#transport\">transports</a>.</p>\n";

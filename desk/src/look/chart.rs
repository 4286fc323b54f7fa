//! A chart: a table whose rows are one SVG each, so that heads stick and paper breaks between rows.

use crate::view::count;
use std::ops::Range;

/// How wide a chart becomes, in pixels, and the narrowest columns that hold their numbers.
const WIDTH: u32 = 1400;
const DATE_CELL: u32 = 44;
const SESSION_CELL: u32 = 16;
const WIDEST_CELL: u32 = 88;
/// Room between two dates that have several columns.
const GAP: u32 = 4;
/// How many shades there are below full.
const SHADES: u64 = 5;
/// The width that a number of three digits needs in the usual letters.
const WIDE_NUMBER: i64 = 20;
/// How far a bar that goes on outside of the chart is drawn past its edge.
const PAST: i64 = 8;

/// The columns of a chart: dates, each with so many columns.
pub struct Strip {
    pub dates: Range<u32>,
    parts: u32,
    cell: u32,
}

/// The dates as strips of equal size, none wider than a screen.
pub fn strips(dates: &Range<u32>, parts: u32) -> Vec<Strip> {
    let narrow = if parts == 1 { DATE_CELL } else { SESSION_CELL };
    let most = (WIDTH / (narrow * parts)).max(1);
    let all = dates.end - dates.start;
    let size = all.div_ceil(all.div_ceil(most));
    let cell = (WIDTH / (size * parts)).clamp(narrow, WIDEST_CELL);
    let starts = dates.clone().step_by(size as usize);
    starts.map(|start| Strip { dates: start..dates.end.min(start + size), parts, cell }).collect()
}

impl Strip {
    fn date_width(&self) -> u32 {
        self.parts * self.cell + if self.parts == 1 { 0 } else { GAP }
    }

    pub fn width(&self) -> u32 {
        (self.dates.end - self.dates.start) * self.date_width()
    }

    /// The left edge of a column of a date.
    fn left(&self, date: u32, part: u32) -> i64 {
        (i64::from(date) - i64::from(self.dates.start)) * i64::from(self.date_width()) + i64::from(part * self.cell)
    }

    /// The edges of a run of dates, as far as it is in the strip, and a little past an edge where it goes on.
    pub fn edges(&self, dates: &Range<u32>) -> (i64, i64) {
        let left = if dates.start < self.dates.start { -PAST } else { self.left(dates.start, 0) };
        let right = if dates.end > self.dates.end { i64::from(self.width()) + PAST } else { self.left(dates.end, 0) };
        (left, right)
    }

    /// The edges of a run of columns of one date.
    pub fn part_edges(&self, date: u32, parts: &Range<u32>) -> (i64, i64) {
        (self.left(date, parts.start), self.left(date, parts.end))
    }

    /// The heads of the dates, and of their columns where they have several.
    fn head(&self) -> (u32, String) {
        let mut marks = String::new();
        let base = if self.parts == 1 { 25 } else { 14 };
        for date in self.dates.clone() {
            let middle = self.left(date, 0) + i64::from(self.parts * self.cell / 2);
            marks += &format!("<text class=\"date\" x=\"{middle}\" y=\"{base}\">{date}</text>");
            for part in (0..self.parts).filter(|_| self.parts > 1) {
                let middle = self.left(date, part) + i64::from(self.cell / 2);
                marks += &format!("<text class=\"part\" x=\"{middle}\" y=\"26\">{part}</text>");
            }
        }
        (30, marks)
    }

    /// The grid of a date, repeated by the rows as a pattern: pale cells with lines between them.
    fn pattern(&self, id: &str, height: u32) -> String {
        let (width, cells) = (self.date_width(), self.parts * self.cell);
        let lines: String = (1..=self.parts).map(|part| format!("M{}.5 0V{height}", part * self.cell - 1)).collect();
        format!(
            "<defs><pattern id=\"{id}\" width=\"{width}\" height=\"{height}\" patternUnits=\"userSpaceOnUse\">\
             <rect class=\"pale\" width=\"{cells}\" height=\"{height}\"/>\
             <path class=\"line\" d=\"{lines}M0 {height}H{cells}\"/></pattern></defs>"
        )
    }
}

/// A chart that is being written.
pub struct Chart<'a> {
    page: &'a mut String,
    strip: &'a Strip,
    id: String,
    height: u32,
}

impl<'a> Chart<'a> {
    /// Begins a chart with rows of this height; the corner says what the rows and columns are.
    pub fn open(page: &'a mut String, strip: &'a Strip, id: &str, height: u32, corner: &str) -> Chart<'a> {
        let id = format!("{id}-{}", strip.dates.start);
        let (tall, marks) = strip.head();
        let (width, pattern) = (strip.width(), strip.pattern(&id, height));
        *page += &format!(
            "<table><thead><tr><th>{corner}</th><td><svg width=\"{width}\" height=\"{tall}\">{pattern}{marks}</svg></td>\
             </tr></thead><tbody>\n"
        );
        Chart { page, strip, id, height }
    }

    pub fn row(&mut self, label: &str, cells: &str) {
        let (width, height, id) = (self.strip.width(), self.height, &self.id);
        *self.page += &format!(
            "<tr><th>{label}</th><td><svg width=\"{width}\" height=\"{height}\">\
             <rect width=\"{width}\" height=\"{height}\" fill=\"url(#{id})\"/>{cells}</svg></td></tr>\n"
        );
    }

    pub fn close(self) {
        *self.page += "</tbody></table>\n";
    }
}

/// One of the colours that tell neighbours apart.
fn colour(number: u32) -> u32 {
    number % 12
}

/// A bar with a number on it, which also gives its colour.
pub fn bar(cells: &mut String, (left, right): (i64, i64), height: u32, number: u32, strip: &Strip, title: &str) {
    let (x, width) = (left + 1, right - left - 3);
    let middle = (left.max(0) + right.min(i64::from(strip.width()))) / 2;
    let (tall, base) = (height - 2, height / 2 + 4);
    let small = if number >= 100 && width < WIDE_NUMBER { " class=\"small\"" } else { "" };
    *cells += &format!(
        "<rect class=\"c{}\" x=\"{x}\" width=\"{width}\" height=\"{tall}\"><title>{title}</title></rect>\
         <text{small} x=\"{middle}\" y=\"{base}\">{number}</text>",
        colour(number)
    );
}

/// Cells without a booking, which show only what they are.
pub fn free(cells: &mut String, (left, right): (i64, i64), height: u32, title: &str) {
    let width = right - left;
    *cells +=
        &format!("<rect class=\"e\" x=\"{left}\" width=\"{width}\" height=\"{height}\"><title>{title}</title></rect>");
}

/// A cell that is filled from below by how much of a number is taken, with what is taken written on it.
pub fn level(cells: &mut String, (left, right): (i64, i64), height: u32, (taken, of): (u64, u64), title: &str) {
    free(cells, (left, right), height, title);
    if taken == 0 {
        return;
    }
    let room = u64::from(height - 2);
    let tall = (room * taken.min(of) / of.max(1)).max(1);
    let (y, width) = (room - tall, right - left - 2);
    let class = if taken >= of { "top" } else { "some" };
    let (middle, base) = ((left + right) / 2 - 1, height / 2 + 4);
    *cells += &format!(
        "<rect class=\"{class}\" x=\"{left}\" y=\"{y}\" width=\"{width}\" height=\"{tall}\"/>\
         <text class=\"on\" x=\"{middle}\" y=\"{base}\">{taken}</text>"
    );
}

/// A low cell that is darker the more of a number is taken, with what is taken written on it.
pub fn shade(cells: &mut String, edges: (i64, i64), height: u32, (taken, of): (u64, u64), title: &str) {
    let class = match (taken * SHADES).div_ceil(of.max(1)) {
        _ if taken >= of => "full".to_string(),
        shade => format!("s{shade}"),
    };
    number(cells, edges, height, (taken, &class), title);
}

/// A cell with a number in the colour of a class; one with 0 is free.
pub fn number(cells: &mut String, (left, right): (i64, i64), height: u32, (number, class): (u64, &str), title: &str) {
    if number == 0 {
        return free(cells, (left, right), height, title);
    }
    let (width, tall, middle, base) = (right - left - 1, height - 1, (left + right) / 2, height / 2 + 4);
    *cells += &format!(
        "<rect class=\"{class}\" x=\"{left}\" width=\"{width}\" height=\"{tall}\"><title>{title}</title></rect>\
         <text x=\"{middle}\" y=\"{base}\">{number}</text>"
    );
}

/// A run of slots around one slot in which the same is true, no further than the limits.
pub fn run_of(slot: u32, limits: &Range<u32>, same: impl Fn(u32) -> bool) -> Range<u32> {
    let start = (limits.start..slot).rev().take_while(|&slot| same(slot)).last().unwrap_or(slot);
    let last = (slot + 1..limits.end).take_while(|&slot| same(slot)).last().unwrap_or(slot);
    start..last + 1
}

/// How much is taken, in words: `3 of 4 seats (75 %)`.
pub fn share(taken: u64, of: u64, thing: &str) -> String {
    let percent = (taken * 100 + of / 2) / of.max(1);
    format!("{taken} of {} ({percent} %)", count(of, thing))
}

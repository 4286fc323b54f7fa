//! A read-only view of the words of a book: the settings, units, sets and cells of docs/RULES.md, sections 1, 2, 3 and 8.
//!
//! The words are taken as checked (`caviar::check`), but no word of them can lead out of the book.

use std::ops::Range;

/// Where a region of the book lies: rows of cells of some words each (rule 8.1).
struct Region {
    start: usize,
    rows: u32,
    cells: u32,
    words: u32,
}

impl Region {
    fn end(&self) -> usize {
        self.start + self.rows as usize * self.cells as usize * self.words as usize
    }

    /// The place of a word of a cell (rule 8.3), if the region has that cell.
    fn place(&self, row: u32, cell: u32, word: u32) -> Option<usize> {
        let inside = row < self.rows && cell < self.cells && word < self.words;
        let cells = row as usize * self.cells as usize + cell as usize;
        inside.then_some(self.start + cells * self.words as usize + word as usize)
    }
}

const LEAVE: usize = 0;
const HOTEL: usize = 1;
const STANDING: usize = 2;
const ATTEND: usize = 3;
const CONF: usize = 4;
const LUNCH: usize = 5;
const RIDE: usize = 6;

/// A meeting's lunch on a date.
#[derive(Clone, Copy, Debug, PartialEq, Eq)]
pub struct Lunch {
    pub dining: u32,
    pub seats: u32,
    pub info: u32,
}

/// A book with its limits; everything is numbered from 0.
pub struct View<'a> {
    words: &'a [u32],
    regions: [Region; 7],
    pub dates: u32,
    /// Sessions of one date.
    pub sessions: u32,
    /// Ride times of one date.
    pub times: u32,
    pub visitors: u32,
    pub meetings: u32,
    /// Conference rooms.
    pub rooms: u32,
    /// Dining rooms.
    pub dining: u32,
    /// Hotel rooms.
    pub hotels: u32,
    pub transports: u32,
    /// How many of the ride times of each date, from its first, go with the date before (rule 1.7).
    pub early: u32,
}

impl<'a> View<'a> {
    /// The view of a book, or a sentence when the settings or the length are not a book's.
    pub fn of(words: &'a [u32]) -> Result<View<'a>, String> {
        let settings =
            words.get(6).filter(|&&dining| dining <= 16).and_then(|&dining| words.get(..10 + dining as usize));
        let Some(settings) = settings.filter(|settings| caviar::book_len(settings) == words.len()) else {
            return Err("these words are not a book: their settings or their number are wrong".to_string());
        };
        let &[dates, sessions, times, visitors, meetings, rooms, dining, hotels, transports, early, ..] = settings
        else {
            return Err("these words are not a book: they are fewer than its settings".to_string());
        };
        let shapes = [
            (dates, visitors.div_ceil(32), 1),
            (dates, hotels, 1),
            (dates * sessions, meetings.div_ceil(32), 1),
            (dates * sessions, visitors, 1),
            (dates * sessions, rooms, 2),
            (dates, meetings, 3),
            (dates * times, transports, 1),
        ];
        let mut start = settings.len();
        let regions = shapes.map(|(rows, cells, words)| {
            let region = Region { start, rows, cells, words };
            start = region.end();
            region
        });
        let view = View {
            words,
            regions,
            dates,
            sessions,
            times,
            visitors,
            meetings,
            rooms,
            dining,
            hotels,
            transports,
            early,
        };
        Ok(view)
    }

    /// A sentence when the site does not have the date.
    pub fn known(&self, date: u32) -> Result<(), String> {
        match date < self.dates {
            true => Ok(()),
            false => Err(format!("date {date} is past the last: the site has the dates 0 to {}", self.dates - 1)),
        }
    }

    /// The sessions of a date (rule 2.2).
    pub fn sessions_of(&self, date: u32) -> Range<u32> {
        let date = date.min(self.dates - 1);
        date * self.sessions..(date + 1) * self.sessions
    }

    /// The times of a date: without its own early ones, but for date 0, and with those of the next date (rule 2.2).
    pub fn times_of(&self, date: u32) -> Range<u32> {
        let date = date.min(self.dates - 1);
        let start = if date == 0 { 0 } else { date * self.times + self.early };
        let end = (date + 1) * self.times + self.early;
        start..end.min(self.dates * self.times)
    }

    /// The seats of a dining room.
    pub fn capacity(&self, dining: u32) -> u32 {
        let known = dining < self.dining;
        known.then(|| self.words.get(10 + dining as usize).copied()).flatten().unwrap_or(0)
    }

    /// The visitors who have leave on a date.
    pub fn leave(&self, date: u32) -> impl Iterator<Item = u32> + '_ {
        self.bits(LEAVE, date, self.visitors)
    }

    /// Who has a hotel room on a date.
    pub fn guest(&self, date: u32, room: u32) -> Option<u32> {
        self.entry(HOTEL, date, room)
    }

    /// The meetings that stand in a session.
    pub fn standing(&self, session: u32) -> impl Iterator<Item = u32> + '_ {
        self.bits(STANDING, session, self.meetings)
    }

    /// The visitors who attend in a session, by meeting: a list for each meeting of the site.
    pub fn attendance(&self, session: u32) -> Vec<Vec<u32>> {
        let mut lists = vec![Vec::new(); self.meetings as usize];
        for visitor in 0..self.visitors {
            let meeting = self.entry(ATTEND, session, visitor);
            if let Some(list) = meeting.and_then(|meeting| lists.get_mut(meeting as usize)) {
                list.push(visitor);
            }
        }
        lists
    }

    /// The meeting that holds a conference room in a session, and the information kept with it.
    pub fn conf(&self, session: u32, room: u32) -> Option<(u32, u32)> {
        Some((self.entry(CONF, session, room)?, self.word(CONF, session, room, 1)))
    }

    /// The lunch of a meeting on a date.
    pub fn lunch(&self, date: u32, meeting: u32) -> Option<Lunch> {
        let dining = self.entry(LUNCH, date, meeting)?;
        let [seats, info] = [1, 2].map(|word| self.word(LUNCH, date, meeting, word));
        Some(Lunch { dining, seats, info })
    }

    /// The lunches in a dining room on a date, each with its meeting.
    pub fn lunches(&self, date: u32, dining: u32) -> impl Iterator<Item = (u32, Lunch)> + '_ {
        let each = (0..self.meetings).filter_map(move |meeting| Some((meeting, self.lunch(date, meeting)?)));
        each.filter(move |(_, lunch)| lunch.dining == dining)
    }

    /// The seats that are reserved of a dining room on a date (rule 3.9).
    pub fn reserved(&self, date: u32, dining: u32) -> u64 {
        self.lunches(date, dining).map(|(_, lunch)| u64::from(lunch.seats)).sum()
    }

    /// Who rides with a transport at a time.
    pub fn rider(&self, time: u32, transport: u32) -> Option<u32> {
        self.entry(RIDE, time, transport)
    }

    fn word(&self, region: usize, row: u32, cell: u32, word: u32) -> u32 {
        let place = self.regions[region].place(row, cell, word);
        place.and_then(|place| self.words.get(place).copied()).unwrap_or(0)
    }

    /// What a cell holds, which is written as one more; 0 is an empty cell (rule 8.6).
    fn entry(&self, region: usize, row: u32, cell: u32) -> Option<u32> {
        self.word(region, row, cell, 0).checked_sub(1)
    }

    /// The numbers below the limit whose bits are set in a row (rule 8.4).
    fn bits(&self, region: usize, row: u32, limit: u32) -> impl Iterator<Item = u32> + '_ {
        (0..limit).filter(move |number| self.word(region, row, number / 32, 0) >> (number % 32) & 1 == 1)
    }
}

/// Rising numbers as people write them, neighbours as runs: `3-17, 20`. Empty for none.
pub fn runs(numbers: impl IntoIterator<Item = u32>) -> String {
    let mut found: Vec<(u32, u32)> = Vec::new();
    for number in numbers {
        match found.last_mut() {
            Some((_, last)) if last.checked_add(1) == Some(number) => *last = number,
            _ => found.push((number, number)),
        }
    }
    let written = found.iter().map(|&(first, last)| match last - first {
        0 => format!("{first}"),
        1 => format!("{first}, {last}"),
        _ => format!("{first}-{last}"),
    });
    written.collect::<Vec<_>>().join(", ")
}

/// A number of things: `1 seat`, `2 seats`.
pub fn count(number: impl Into<u64>, thing: &str) -> String {
    let number = number.into();
    format!("{number} {thing}{}", if number == 1 { "" } else { "s" })
}

/// A run of slots in words: `date 3`, `dates 3 to 5`.
pub fn slots(unit: &str, run: &Range<u32>) -> String {
    let several = if run.len() == 1 { "" } else { "s" };
    format!("{unit}{several} {}", numbers(run))
}

/// A run of slots by its numbers alone: `3`, `3 to 5`.
pub fn numbers(run: &Range<u32>) -> String {
    match run.len() {
        1 => run.start.to_string(),
        _ => format!("{} to {}", run.start, run.end - 1),
    }
}

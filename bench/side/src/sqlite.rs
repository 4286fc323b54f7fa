//! Leave, hotel and ride requests on the medium site, beside SQLite in memory, as what a user might
//! pick instead. SQLite gets every help: prepared statements, an index for each question, one
//! transaction for the whole list, no journal. Its answers must be the engine's.

use crate::clock::{seconds, turns};
use crate::sites::load;
use db::{Db, Statement};
use second::book::read;
use second::machine::Settings;

mod db;

const TURNS: usize = 5;
const REQUESTS: usize = 20_000;

const SCHEMA: &str = "PRAGMA journal_mode=OFF; PRAGMA synchronous=OFF;
    CREATE TABLE leave(visitor INTEGER, date INTEGER, PRIMARY KEY(visitor, date)) WITHOUT ROWID;
    CREATE TABLE hotel(item INTEGER, slot INTEGER, visitor INTEGER, PRIMARY KEY(item, slot)) WITHOUT ROWID;
    CREATE TABLE ride(item INTEGER, slot INTEGER, visitor INTEGER, PRIMARY KEY(item, slot)) WITHOUT ROWID;
    CREATE TABLE attend(visitor INTEGER, slot INTEGER, PRIMARY KEY(visitor, slot)) WITHOUT ROWID;
    CREATE UNIQUE INDEX hotel_visitor ON hotel(visitor, slot);
    CREATE UNIQUE INDEX ride_visitor ON ride(visitor, slot);";

const DONE: [u32; 3] = [0, 0, 0];

/// The statements over one set of bookings. Parameters: item, visitor, first, last.
struct Bookings {
    pair: Statement,
    taken: Statement,
    elsewhere: Statement,
    count: Statement,
    any: Statement,
    add: Statement,
    erase: Statement,
}

impl Bookings {
    fn new(db: &Db, set: &str) -> Bookings {
        let of = |text: &str| db.prepare(&text.replace("SET", set));
        Bookings {
            pair: of("SELECT min(slot) FROM SET WHERE item=?1 AND visitor=?2 AND slot BETWEEN ?3 AND ?4"),
            taken: of("SELECT min(slot) FROM SET WHERE item=?1 AND slot BETWEEN ?3 AND ?4"),
            elsewhere: of("SELECT min(slot) FROM SET WHERE visitor=?2 AND item<>?1 AND slot BETWEEN ?3 AND ?4"),
            count: of("SELECT count(*) FROM SET WHERE item=?1 AND visitor=?2 AND slot BETWEEN ?3 AND ?4"),
            any: of("SELECT min(slot) FROM SET WHERE visitor=?2 AND slot BETWEEN ?3 AND ?4"),
            add: of("INSERT INTO SET(item, visitor, slot) VALUES(?1, ?2, ?3)"),
            erase: of("DELETE FROM SET WHERE item=?1 AND visitor=?2 AND slot BETWEEN ?3 AND ?4"),
        }
    }
}

struct Book {
    db: Db,
    settings: Settings,
    hotel: Bookings,
    ride: Bookings,
    leaves: Statement,
    add_leave: Statement,
    end_leave: Statement,
    attends: Statement,
}

/// Which slots are on which date.
#[derive(Clone, Copy)]
struct Unit {
    per_date: u32,
    early: u32,
}

const DATES: Unit = Unit { per_date: 1, early: 0 };

impl Unit {
    fn date_of(self, slot: u32) -> u32 {
        slot.saturating_sub(self.early) / self.per_date
    }

    fn first_on(self, date: u32) -> u32 {
        if date == 0 {
            0
        } else {
            date * self.per_date + self.early
        }
    }
}

impl Book {
    /// A database that holds the entries of the book.
    fn of(book: &[u32]) -> Book {
        let settings = Settings::of_book(book).expect("a full book");
        let state = read(settings.clone(), book).state;
        let db = Db::in_memory();
        db.run(SCHEMA);
        let hotel = Bookings::new(&db, "hotel");
        let ride = Bookings::new(&db, "ride");
        let leaves = db.prepare("SELECT count(*) FROM leave WHERE visitor=?2 AND date BETWEEN ?3 AND ?4");
        let add_leave = db.prepare("INSERT OR IGNORE INTO leave(visitor, date) VALUES(?2, ?3)");
        let end_leave = db.prepare("DELETE FROM leave WHERE visitor=?2 AND date BETWEEN ?3 AND ?4");
        let attends = db.prepare("SELECT min(slot) FROM attend WHERE visitor=?2 AND slot BETWEEN ?3 AND ?4");
        let add_attend = db.prepare("INSERT INTO attend(visitor, slot) VALUES(?2, ?3)");
        db.run("BEGIN");
        for (date, visitor) in &state.leave {
            add_leave.ask([0, *visitor, date.0, 0]);
        }
        for (date, room, visitor) in &state.hotel {
            hotel.add.ask([*room, *visitor, date.0, 0]);
        }
        for (time, transport, visitor) in &state.ride {
            ride.add.ask([*transport, *visitor, time.0, 0]);
        }
        for (session, _, visitor) in &state.attend {
            add_attend.ask([0, *visitor, session.0, 0]);
        }
        db.run("COMMIT");
        Book { db, settings, hotel, ride, leaves, add_leave, end_leave, attends }
    }

    fn times(&self) -> Unit {
        Unit { per_date: self.settings.times_per_date, early: self.settings.early }
    }

    fn step(&self, request: &[u32; 7]) -> [u32; 3] {
        let [kind, a, b, first, last, ..] = *request;
        match kind {
            1 => {
                for date in first..=last {
                    self.add_leave.ask([0, b, date, 0]);
                }
                DONE
            }
            2 => self.end(b, first, last),
            4 => self.add(&self.hotel, [a, b, first, last], DATES),
            5 => erase(&self.hotel, [a, b, first, last]),
            6 => self.add(&self.ride, [a, b, first, last], self.times()),
            _ => erase(&self.ride, [a, b, first, last]),
        }
    }

    /// Question 18, and the end of leave.
    fn end(&self, visitor: u32, first: u32, last: u32) -> [u32; 3] {
        let on_dates = |statement: &Statement, unit: Unit| {
            let slot = statement.ask([0, visitor, unit.first_on(first), unit.first_on(last + 1) - 1])?;
            Some(unit.date_of(slot))
        };
        let sessions = Unit { per_date: self.settings.sessions_per_date, early: 0 };
        let booked = [
            on_dates(&self.hotel.any, DATES),
            on_dates(&self.ride.any, self.times()),
            on_dates(&self.attends, sessions),
        ];
        if let Some(date) = booked.into_iter().flatten().min() {
            return [18, date, 0];
        }
        self.end_leave.ask([0, visitor, first, last]);
        DONE
    }

    /// Questions 9, 11, 12 and 13, and the entries.
    fn add(&self, set: &Bookings, values: [u32; 4], unit: Unit) -> [u32; 3] {
        let [item, visitor, first, last] = values;
        let (from, to) = (unit.date_of(first), unit.date_of(last));
        if self.leaves.ask([0, visitor, from, to]) != Some(to - from + 1) {
            let missing = (from..=to).find(|date| self.leaves.ask([0, visitor, *date, *date]) == Some(0));
            return [9, first.max(unit.first_on(missing.expect("a date without leave"))), 0];
        }
        for (number, question) in [(11, &set.pair), (12, &set.taken), (13, &set.elsewhere)] {
            if let Some(slot) = question.ask(values) {
                return [number, slot, 0];
            }
        }
        for slot in first..=last {
            set.add.ask([item, visitor, slot, 0]);
        }
        DONE
    }
}

/// Question 15, and the end of the entries.
fn erase(set: &Bookings, values: [u32; 4]) -> [u32; 3] {
    let [item, visitor, first, last] = values;
    if set.count.ask(values) != Some(last - first + 1) {
        let missing = (first..=last).find(|slot| set.pair.ask([item, visitor, *slot, *slot]).is_none());
        return [15, missing.expect("a slot without the pair"), 0];
    }
    set.erase.ask(values);
    DONE
}

pub fn measure(book: &[u32]) {
    let settings = Settings::of_book(book).expect("a full book");
    let mut requests = load(&settings, 6 * REQUESTS);
    requests.retain(|request| matches!(request[0], 1 | 2 | 4..=7));
    requests.truncate(REQUESTS);
    let list: Vec<u32> = requests.iter().flatten().copied().collect();
    let mut answers = vec![0; 3 * requests.len()];
    let mut expected = Vec::new();
    let [proved, lite] = turns(
        TURNS,
        [
            &mut || {
                let mut ours = book.to_vec();
                seconds(|| assert_eq!(caviar::requests_words(&mut ours, &list, &mut answers).number, 0))
            },
            &mut || {
                let theirs = Book::of(book);
                expected.clear();
                seconds(|| {
                    theirs.db.run("BEGIN");
                    requests.iter().for_each(|request| expected.extend(theirs.step(request)));
                    theirs.db.run("COMMIT");
                })
            },
        ],
    );
    assert_eq!(answers, expected, "SQLite answers otherwise");
    let count = requests.len() as f64;
    println!(
        "| {:.3} | leave, hotel and ride requests, medium site, half full | {:.0} ns | {:.0} ns | SQLite in memory in the place of the plain engine; {count} requests, one check against one transaction |",
        proved / lite,
        proved / count * 1e9,
        lite / count * 1e9
    );
}

//! Questions 1 and 2 in one pass over the book, date by date. No branch per cell: rows are first
//! folded by OR, which finds blank rows and words past every table at once, and then looked up in
//! small tables of barred members.

use crate::orders::{ring_is_bad, RING_WORDS};
use crate::site::{Answer, Site};

/// Tables are larger than any cell that may stand in a row, so that a masked cell is an index.
const VISITOR_TABLE: usize = 1024;
const MEETING_TABLE: usize = 256;
const BARRED: u8 = 255;

pub fn check(book: &[u32]) -> Answer {
    let Some(site) = Site::of_book(book) else { return Answer::refused(1, 0) };
    let mut tables = Tables::new();
    for date in 0..site.dates() {
        if date_is_bad(&site, book, date, &mut tables) {
            return Answer::refused(2, 0);
        }
    }
    if ring_is_bad(&book[site.ring..][..RING_WORDS]) {
        return Answer::refused(2, 0);
    }
    Answer::done(0)
}

struct Tables {
    /// By visitor plus 1: the stamp of the last row that had the visitor, BARRED without leave.
    seen: [u8; VISITOR_TABLE],
    /// By visitor: all ones without leave.
    without_leave: [u32; 512],
    /// By meeting plus 1: BARRED when it does not stand.
    stands: [u8; MEETING_TABLE],
}

impl Tables {
    fn new() -> Tables {
        Tables { seen: [BARRED; VISITOR_TABLE], without_leave: [!0; 512], stands: [BARRED; MEETING_TABLE] }
    }
}

/// Eight bits as eight bytes, 0 for a set bit and BARRED for a clear one.
const SPREAD: [u64; 256] = spread();

const fn spread() -> [u64; 256] {
    let mut table = [0; 256];
    let mut byte = 0;
    while byte < 256 {
        let mut bit = 0;
        while bit < 8 {
            if byte >> bit & 1 == 0 {
                table[byte] |= 0xff << (8 * bit);
            }
            bit += 1;
        }
        byte += 1;
    }
    table
}

/// Entry 0 is for an empty cell and bars nothing; the members follow.
fn spread_bits(pool: &[u32], table: &mut [u8]) {
    table[0] = 0;
    let bytes = pool.iter().flat_map(|word| word.to_le_bytes());
    for (byte, eight) in bytes.zip(table[1..].chunks_exact_mut(8)) {
        eight.copy_from_slice(&SPREAD[byte as usize].to_le_bytes());
    }
}

fn spread_columns(pool: &[u32], columns: &mut [u32; 512]) {
    for (word, lanes) in pool.iter().zip(columns.chunks_exact_mut(32)) {
        for (bit, lane) in lanes.iter_mut().enumerate() {
            *lane = if word & (1 << bit) == 0 { !0 } else { 0 };
        }
    }
}

#[inline(always)]
fn or(words: &[u32]) -> u32 {
    words.iter().fold(0, |any, word| any | word)
}

/// Bits of no member in the last word of a pool row.
#[inline(always)]
fn unused_bits(pool: &[u32], members: u32) -> u32 {
    if members.is_multiple_of(32) {
        0
    } else {
        pool[pool.len() - 1] >> (members % 32)
    }
}

fn date_is_bad(site: &Site, book: &[u32], date: u32, tables: &mut Tables) -> bool {
    let leave = site.leave.row(book, date);
    let mut bad = unused_bits(leave, site.limits[3]) != 0;
    let nobody = or(leave) == 0;
    if !nobody {
        spread_bits(leave, &mut tables.seen);
        spread_columns(leave, &mut tables.without_leave);
    }
    bad |= guests_are_bad(site, book, date, nobody, tables);
    let mut on_date = [0u32; 4];
    let per_date = site.standing.per_date as u32;
    for session in date * per_date..(date + 1) * per_date {
        let standing = site.standing.row(book, session);
        on_date.iter_mut().zip(standing).for_each(|(all, word)| *all |= word);
        bad |= unused_bits(standing, site.limits[4]) != 0;
        bad |= session_is_bad(site, book, session, nobody, standing, tables);
    }
    bad | lunches_are_bad(site, book, date, &on_date)
}

/// Hotel and ride rows: every guest has leave and comes once in a row.
fn guests_are_bad(site: &Site, book: &[u32], date: u32, nobody: bool, tables: &mut Tables) -> bool {
    let hotel = site.hotel.row(book, date);
    let rides = site.ride.date(book, date);
    if nobody {
        return or(hotel) | or(rides) != 0;
    }
    let mut bad = row_is_bad(hotel, 1, &mut tables.seen);
    for (row, stamp) in rides.chunks_exact(site.ride.cells.row).zip(2..) {
        bad |= row_is_bad(row, stamp, &mut tables.seen);
    }
    bad
}

/// A row has a higher stamp than those before it on the date, and BARRED is higher than all: a date has at most 191 times.
#[inline(always)]
fn row_is_bad(row: &[u32], stamp: u8, seen: &mut [u8; VISITOR_TABLE]) -> bool {
    let any = or(row);
    if any == 0 {
        return false;
    }
    let mut bad = any as usize >= VISITOR_TABLE;
    for word in row {
        let at = *word as usize % VISITOR_TABLE;
        bad |= seen[at] >= stamp;
        seen[at] = if *word == 0 { 0 } else { stamp };
    }
    bad
}

/// Attend cells: the visitor has leave, the meeting stands. Conf pairs: the meeting stands, and an
/// empty cell has no information.
fn session_is_bad(s: &Site, book: &[u32], session: u32, nobody: bool, pool: &[u32], tables: &mut Tables) -> bool {
    let attend = s.attend.row(book, session);
    let conf = s.conf.row(book, session);
    if or(pool) == 0 {
        return or(attend) | or(conf) != 0;
    }
    spread_bits(pool, &mut tables.stands);
    let bad = if nobody { or(attend) != 0 } else { attend_is_bad(attend, tables) };
    bad | conf_is_bad(conf, &tables.stands)
}

fn attend_is_bad(row: &[u32], tables: &Tables) -> bool {
    let (mut any, mut guests) = (0, 0);
    for (word, barred) in row.iter().zip(&tables.without_leave) {
        any |= word;
        guests |= word & barred;
    }
    if any == 0 {
        return false;
    }
    let mut barred = 0;
    for word in row {
        barred |= tables.stands[*word as usize % MEETING_TABLE];
    }
    barred != 0 || guests != 0 || any as usize >= MEETING_TABLE
}

fn conf_is_bad(row: &[u32], stands: &[u8; MEETING_TABLE]) -> bool {
    if or(row) == 0 {
        return false;
    }
    let (mut any, mut barred, mut beside) = (0, 0, false);
    for pair in row.chunks_exact(2) {
        any |= pair[0];
        barred |= stands[pair[0] as usize % MEETING_TABLE];
        beside |= (pair[0] == 0) & (pair[1] != 0);
    }
    barred != 0 || beside || any as usize >= MEETING_TABLE
}

/// Seats are summed in 64 bits, so that junk cannot wrap round into a small sum.
fn lunches_are_bad(site: &Site, book: &[u32], date: u32, on_date: &[u32; 4]) -> bool {
    let row = site.lunch.row(book, date);
    if or(row) == 0 {
        return false;
    }
    let mut capacities = [0u32; 32];
    capacities[1..17].copy_from_slice(&site.capacities);
    let mut reserved = [0u64; 32];
    let (mut any, mut bad) = (0, false);
    for (meeting, triple) in row.chunks_exact(3).enumerate() {
        let (cell, seats, info) = (triple[0], triple[1], triple[2]);
        let room = cell as usize % 32;
        let stands = on_date[meeting / 32] >> (meeting % 32) & 1 != 0;
        let full = (seats.wrapping_sub(1) < capacities[room]) & stands;
        bad |= if cell == 0 { seats | info != 0 } else { !full };
        any |= cell;
        reserved[room] += u64::from(seats);
    }
    let over = (1..32).any(|room| reserved[room] > u64::from(capacities[room]));
    bad || over || any >= 32
}

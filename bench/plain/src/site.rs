//! Limits, early times, capacities and the places of the seven regions and of the ring, computed once and passed along.
//! The last word of a book is its change count.

use crate::orders::RING_WORDS;

/// The greatest value of each limit, in the order D P Q V M C G H K.
const GREATEST: [u32; 9] = [400, 16, 96, 512, 128, 64, 16, 512, 128];
const GREATEST_CAPACITY: u32 = 1000;
/// Words before the capacities: the limits and the early times.
const HEAD: usize = 10;

/// Rows of cells, one row a slot.
#[derive(Clone, Copy, Debug)]
pub struct Grid {
    pub base: usize,
    /// Words in a row.
    pub row: usize,
    /// Slots of a date.
    pub per_date: usize,
    /// 2^32 / per_date, rounded up: a slot's date is had by a multiplication.
    reciprocal: u64,
}

impl Grid {
    /// Where a word of a slot's row lies.
    #[inline(always)]
    pub fn at(&self, slot: u32, word: usize) -> usize {
        self.base + slot as usize * self.row + word
    }

    #[inline(always)]
    pub fn row<'a>(&self, book: &'a [u32], slot: u32) -> &'a [u32] {
        &book[self.at(slot, 0)..][..self.row]
    }

    #[inline(always)]
    pub fn row_mut<'a>(&self, book: &'a mut [u32], slot: u32) -> &'a mut [u32] {
        &mut book[self.at(slot, 0)..][..self.row]
    }
}

/// Which slots are on which date.
pub trait Dated {
    fn date_of(&self, slot: u32) -> u32;
    fn first_on(&self, date: u32) -> u32;
}

impl Dated for Grid {
    /// Exact, since slots times slots of a date are below 2^32.
    #[inline(always)]
    fn date_of(&self, slot: u32) -> u32 {
        ((u64::from(slot) * self.reciprocal) >> 32) as u32
    }

    #[inline(always)]
    fn first_on(&self, date: u32) -> u32 {
        date * self.per_date as u32
    }
}

/// Ride cells. The early times, the first of a date, belong to the date before; those of date 0 have none before it.
#[derive(Clone, Copy, Debug)]
pub struct Rides {
    pub cells: Grid,
    early: u32,
    /// Where the cells end.
    end: usize,
}

impl Dated for Rides {
    #[inline(always)]
    fn date_of(&self, time: u32) -> u32 {
        self.cells.date_of(time.saturating_sub(self.early))
    }

    #[inline(always)]
    fn first_on(&self, date: u32) -> u32 {
        if date == 0 {
            0
        } else {
            self.cells.first_on(date) + self.early
        }
    }
}

impl Rides {
    /// All rows of a date, which lie side by side.
    #[inline(always)]
    pub fn date<'a>(&self, book: &'a [u32], date: u32) -> &'a [u32] {
        &book[self.cells.at(self.first_on(date), 0)..self.cells.at(self.first_on(date + 1), 0).min(self.end)]
    }

    #[inline(always)]
    pub fn date_mut<'a>(&self, book: &'a mut [u32], date: u32) -> &'a mut [u32] {
        &mut book[self.cells.at(self.first_on(date), 0)..self.cells.at(self.first_on(date + 1), 0).min(self.end)]
    }
}

#[derive(Clone, Debug)]
pub struct Site {
    /// D P Q V M C G H K.
    pub limits: [u32; 9],
    pub capacities: [u32; 16],
    /// How many dates, sessions and times there are.
    pub slots: [u32; 3],
    pub leave: Grid,
    pub hotel: Grid,
    pub standing: Grid,
    pub attend: Grid,
    pub conf: Grid,
    pub lunch: Grid,
    pub ride: Rides,
    /// Where the ring of kept orders begins.
    pub ring: usize,
    /// Words of the whole book.
    pub length: usize,
}

impl Site {
    /// The site of settings words, None where a range or the length is not kept.
    pub fn new(settings: &[u32]) -> Option<Site> {
        let (head, after) = settings.split_at_checked(HEAD)?;
        let [limits @ .., early] = *head.first_chunk::<HEAD>()?;
        let kept = limits.iter().zip(GREATEST).all(|(word, most)| word.wrapping_sub(1) < most);
        if !kept || early >= limits[2] || after.len() != limits[6] as usize {
            return None;
        }
        let mut capacities = [0; 16];
        for (capacity, word) in capacities.iter_mut().zip(after) {
            if word.wrapping_sub(1) >= GREATEST_CAPACITY {
                return None;
            }
            *capacity = *word;
        }
        Some(Site::lay_out(limits, early, capacities))
    }

    /// Question 1: the site of a whole book.
    pub fn of_book(book: &[u32]) -> Option<Site> {
        let dining_rooms = *book.get(6)? as usize;
        let site = Site::new(book.get(..HEAD.checked_add(dining_rooms)?)?)?;
        if site.length == book.len() {
            Some(site)
        } else {
            None
        }
    }

    fn lay_out(limits: [u32; 9], early: u32, capacities: [u32; 16]) -> Site {
        let [d, p, q, v, m, c, g, h, k] = limits.map(|word| word as usize);
        let mut end = HEAD + g;
        let mut grid = |row: usize, per_date: usize| {
            let base = end;
            end += d * per_date * row;
            Grid { base, row, per_date, reciprocal: (1u64 << 32).div_ceil(per_date as u64) }
        };
        let leave = grid(v.div_ceil(32), 1);
        let hotel = grid(h, 1);
        let standing = grid(m.div_ceil(32), p);
        let attend = grid(v, p);
        let conf = grid(2 * c, p);
        let lunch = grid(3 * m, 1);
        let rides = grid(k, q);
        let ride = Rides { cells: rides, early, end };
        let slots = [d, d * p, d * q].map(|count| count as u32);
        let length = end + RING_WORDS + 1;
        Site { limits, capacities, slots, leave, hotel, standing, attend, conf, lunch, ride, ring: end, length }
    }

    pub fn dates(&self) -> u32 {
        self.limits[0]
    }
}

/// The seven words of a request.
#[derive(Clone, Copy, Debug, PartialEq, Eq)]
pub struct Request {
    pub kind: u32,
    pub a: u32,
    pub b: u32,
    pub first: u32,
    pub last: u32,
    pub n: u32,
    pub info: u32,
}

impl Request {
    #[inline(always)]
    pub fn new(words: [u32; 7]) -> Request {
        let [kind, a, b, first, last, n, info] = words;
        Request { kind, a, b, first, last, n, info }
    }

    #[inline(always)]
    pub fn words(&self) -> [u32; 7] {
        [self.kind, self.a, self.b, self.first, self.last, self.n, self.info]
    }
}

/// Number and place, both 0 when done, and value.
#[derive(Clone, Copy, Debug, PartialEq, Eq)]
pub struct Answer {
    pub number: u32,
    pub place: u32,
    pub value: u32,
}

impl Answer {
    #[inline(always)]
    pub fn done(value: u32) -> Answer {
        Answer { number: 0, place: 0, value }
    }

    #[inline(always)]
    pub fn refused(number: u32, place: u32) -> Answer {
        Answer { number, place, value: 0 }
    }

    #[inline(always)]
    pub fn words(&self) -> [u32; 3] {
        [self.number, self.place, self.value]
    }
}

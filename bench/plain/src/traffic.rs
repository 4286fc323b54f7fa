//! A fixed trial load: requests that pass questions 3 to 7, of all
//! kinds, from a 32-bit seed.

use crate::site::{Request, Site};

struct Numbers(u32);

impl Numbers {
    fn next(&mut self) -> u32 {
        self.0 = self.0.wrapping_mul(1_664_525).wrapping_add(1_013_904_223);
        self.0
    }

    fn below(&mut self, limit: u32) -> u32 {
        (self.next() >> 16) % limit
    }
}

/// So many requests for the site.
pub fn traffic(site: &Site, seed: u32, count: usize) -> Vec<Request> {
    let mut numbers = Numbers(seed);
    (0..count).map(|_| next_request(site, &mut numbers)).collect()
}

fn next_request(site: &Site, numbers: &mut Numbers) -> Request {
    let kind = 1 + numbers.below(20);
    let [_, _, _, visitors, meetings, rooms, dining, hotels, transports] = site.limits;
    let (a_limit, b_limit, unit) = match kind {
        1..=3 => (1, visitors, 0),
        4 | 5 => (hotels, visitors, 0),
        6 | 7 => (transports, visitors, 2),
        8 | 9 => (meetings, 1, 1),
        10 | 11 => (meetings, visitors, 1),
        12 => (rooms, meetings, 1),
        13 | 16 => (1, meetings, 1),
        14 | 15 => (dining, meetings, 0),
        17 => (1, visitors, 1),
        18 => (1, 1, 0),
        19 => (dining, 1, 0),
        _ => (1, 1, 1),
    };
    let (a, b) = (numbers.below(a_limit), numbers.below(b_limit));
    let slots = site.slots[unit];
    let first = numbers.below(slots);
    let reach = numbers.below(3);
    let last = if matches!(kind, 17..=19) { first } else { (first + reach).min(slots - 1) };
    let (seats, whole) = (1 + numbers.below(4), numbers.next());
    let n = if kind == 14 { seats } else { 0 };
    let info = if matches!(kind, 12 | 14) { whole } else { 0 };
    Request { kind, a, b, first, last, n, info }
}

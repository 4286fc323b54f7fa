//! The ring of kept orders behind the rides: its law, and a request with the number of an order.

use crate::site::{Answer, Request, Site};
use crate::step::step;

const PLACES: usize = 64;
const ENTRY: usize = 11;
const NEXT: usize = PLACES * ENTRY;

/// How many words the ring takes, with the next place behind it.
pub const RING_WORDS: usize = NEXT + 1;

/// The numbers of the kept orders side by side, so that one is found by a few vectors. They are gathered once for a list.
pub struct Numbers([u32; PLACES]);

impl Numbers {
    pub fn of(site: &Site, book: &[u32]) -> Numbers {
        let mut numbers = [0; PLACES];
        for (number, entry) in numbers.iter_mut().zip(book[site.ring..].as_chunks::<ENTRY>().0) {
            *number = entry[0];
        }
        Numbers(numbers)
    }

    /// The place of a number other than 0.
    #[inline(always)]
    fn find(&self, order: u32) -> Option<usize> {
        if !self.0.iter().fold(false, |any, number| any | (*number == order)) {
            return None;
        }
        self.0.iter().position(|number| *number == order)
    }
}

/// The law of the ring: numbers differ, an entry without one is blank, answers are answers, the next place is a place.
pub fn ring_is_bad(ring: &[u32]) -> bool {
    if ring.iter().fold(0, |any, word| any | word) == 0 {
        return false;
    }
    let mut bad = ring[NEXT] as usize >= PLACES;
    let mut numbers = [0; PLACES];
    for (at, entry) in ring.as_chunks::<ENTRY>().0.iter().enumerate() {
        let rest = entry[1..].iter().fold(0, |any, word| any | word);
        bad |= (entry[0] == 0) & (rest != 0);
        bad |= if entry[8] == 0 { entry[9] } else { entry[10] } != 0;
        let twice = numbers.iter().fold(false, |any, number| any | (*number == entry[0]));
        bad |= twice & (entry[0] != 0);
        numbers[at] = entry[0];
    }
    bad
}

/// The answer that is kept for the same words, or 28.
#[cold]
fn kept(entry: &[u32], r: &Request) -> Answer {
    if entry[1..8] != r.words() {
        return Answer::refused(28, 0);
    }
    Answer { number: entry[8], place: entry[9], value: entry[10] }
}

/// One request with the number of an order, 0 for none, on a book that passes 1 and 2.
#[inline(always)]
pub fn order(site: &Site, book: &mut [u32], numbers: &mut Numbers, order: u32, r: &Request) -> Answer {
    if order != 0 {
        if let Some(at) = numbers.find(order) {
            return kept(&book[site.ring + at * ENTRY..][..ENTRY], r);
        }
    }
    let answer = step(site, book, r);
    if order != 0 {
        let ring = &mut book[site.ring..][..RING_WORDS];
        let next = ring[NEXT] as usize % PLACES;
        let [kind, a, b, first, last, n, info] = r.words();
        let [number, place, value] = answer.words();
        let words = [order, kind, a, b, first, last, n, info, number, place, value];
        ring[next * ENTRY..][..ENTRY].copy_from_slice(&words);
        ring[NEXT] = (next as u32 + 1) % PLACES as u32;
        numbers.0[next] = order;
    }
    answer
}

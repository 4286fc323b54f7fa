//! Bytes as test material: settings of a small site, requests that are mostly in range, raw words.

use second::charge::Tariff;
use second::machine::site::{GREATEST, HEAD};
use second::machine::{Request, Settings};
use second::party::Guest;

pub struct Bytes<'a>(pub &'a [u8]);

/// A change count, and whether the book is to have it.
pub struct Count {
    pub count: u32,
    pub in_book: bool,
}

impl Bytes<'_> {
    pub fn is_empty(&self) -> bool {
        self.0.is_empty()
    }

    /// The next byte, 0 when there is none.
    pub fn byte(&mut self) -> u8 {
        match self.0.split_first() {
            Some((first, rest)) => {
                self.0 = rest;
                *first
            }
            None => 0,
        }
    }

    /// A word: most bytes stand for themselves, a few for words that upset somebody, one for the
    /// next four bytes.
    pub fn word(&mut self) -> u32 {
        match self.byte() {
            250 => u32::MAX,
            251 => 1 << (self.byte() % 32),
            252 => u32::MAX - u32::from(self.byte()),
            253 => 256 + u32::from(self.byte()),
            254 => 1000 + u32::from(self.byte() % 4),
            255 => u32::from_le_bytes([self.byte(), self.byte(), self.byte(), self.byte()]),
            small => u32::from(small),
        }
    }

    /// A small site; visitors and meetings sometimes at the end of a pool word, and any number of early times.
    pub fn settings(&mut self) -> Settings {
        let mut words = Vec::new();
        for (which, greatest) in GREATEST.iter().enumerate() {
            let byte = u32::from(self.byte());
            let small = 1 + byte % 4;
            words.push(match which {
                3 | 4 if byte >= 240 => 31 + byte % 3,
                _ => small.min(*greatest),
            });
        }
        words.push(u32::from(self.byte()) % words[2]);
        for _ in 0..words[6] {
            words.push(1 + u32::from(self.byte()) % 12);
        }
        assert_eq!(words.len(), HEAD + words[6] as usize);
        Settings::from_words(&words).expect("small settings are in range")
    }

    pub fn request(&mut self) -> Request {
        let kind = match self.byte() {
            byte if byte >= 230 => u32::from(byte - 230),
            byte => 1 + u32::from(byte % 20),
        };
        let [a, b, first, reach, n, info] = [(); 6].map(|()| self.word());
        let last = first.wrapping_add(reach);
        Request { kind, a, b, first, last, n, info }
    }

    /// The number of an order: none, one of a few, or any.
    pub fn order(&mut self) -> u32 {
        match self.byte() {
            byte if byte < 80 => 0,
            byte if byte < 220 => u32::from(byte % 8) + 1,
            _ => self.word(),
        }
    }

    /// A change count: one of a few, or any, now and then the greatest; and whether the book is to have it.
    pub fn count(&mut self) -> Count {
        let byte = self.byte();
        Count { count: if byte < 60 { u32::MAX } else { self.word() }, in_book: byte % 2 == 1 }
    }

    /// A tariff, mostly in range.
    pub fn tariff(&mut self) -> Tariff {
        let [room, seat, percent] = [(); 3].map(|()| self.word());
        Tariff { room, seat, percent: if percent < 250 { percent % 101 } else { percent } }
    }

    pub fn guest(&mut self) -> Guest {
        let [visitor, first, reach] = [(); 3].map(|()| self.word());
        Guest { visitor, first, last: first.wrapping_add(reach) }
    }

    /// What is left, as raw words.
    pub fn raw(self) -> Vec<u32> {
        self.0.chunks_exact(4).map(|four| u32::from_le_bytes([four[0], four[1], four[2], four[3]])).collect()
    }
}

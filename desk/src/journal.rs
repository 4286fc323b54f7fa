//! The journal: a chain of records, one for each batch that kept a call (docs/DESK.md, 2.2).
use crate::call::Calls;
use crate::sum::{sum, Sum};
use crate::words::{bytes_of, u32_at, u64_at, words_of};
use crate::Outcome;
use std::time::Duration;

/// Where the list of kept calls stands: how many were kept before, and the sum of the last record before.
#[derive(Clone, Copy, Debug, Default, PartialEq, Eq)]
pub struct Place {
    pub seq: u64,
    pub chain: u32,
}

/// Where records are kept: files of a folder, or a table of a database.
pub trait Journal {
    /// Stores a record. When it returns, the record is where it survives; after an error nobody knows.
    fn append(&mut self, record: &Written) -> Outcome<()>;

    /// A snapshot of this place is about to be taken.
    fn begin_segment(&mut self, place: Place) -> Outcome<()>;

    /// How much of the time of all records went into waiting for the disk, where that is known.
    fn syncing(&self) -> Duration {
        Duration::ZERO
    }

    /// Nothing is to be stored now. Is the journal still this desk's alone? If not, what it answers is of an old book.
    fn affirm(&mut self) -> Outcome<()> {
        Ok(())
    }
}

pub const RECORD_HEAD: usize = 28;

/// Longer ones are not written: all clients together send no batch of this length.
const MOST_RECORD: usize = 1 << 28;

/// A record just made.
pub struct Written {
    pub bytes: Vec<u8>,
    pub before: Place,
    pub after: Place,
}

impl Written {
    pub fn new(before: Place, calls: &Calls) -> Written {
        let body = bytes_of(&calls.words);
        let mut bytes = Vec::with_capacity(RECORD_HEAD + body.len());
        bytes.extend(((RECORD_HEAD + body.len()) as u32).to_le_bytes());
        bytes.extend((calls.count() as u32).to_le_bytes());
        bytes.extend(before.seq.to_le_bytes());
        bytes.extend(sum(bytes_of(&calls.answers)).to_le_bytes());
        bytes.extend(before.chain.to_le_bytes());
        let chain = Sum::of(&bytes).and(body).value();
        bytes.extend(chain.to_le_bytes());
        bytes.extend(body);
        Written { bytes, before, after: Place { seq: before.seq + calls.count() as u64, chain } }
    }
}

/// A record as it was read: whole, with the right sum.
pub struct Record<'a>(&'a [u8]);

impl<'a> Record<'a> {
    /// The record at the beginning of the bytes, if a whole one is there.
    pub fn read(bytes: &'a [u8]) -> Option<Record<'a>> {
        let length = u32_at(bytes.get(..RECORD_HEAD)?, 0) as usize;
        if length <= RECORD_HEAD || length > MOST_RECORD || u32_at(bytes, 4) == 0 {
            return None;
        }
        let record = bytes.get(..length)?;
        let right = Sum::of(&record[..24]).and(&record[RECORD_HEAD..]).value() == u32_at(record, 24);
        right.then_some(Record(record))
    }

    /// In bytes.
    pub fn length(&self) -> usize {
        self.0.len()
    }

    /// How many calls it has.
    pub fn count(&self) -> u64 {
        u64::from(u32_at(self.0, 4))
    }

    pub fn before(&self) -> Place {
        Place { seq: u64_at(self.0, 8), chain: u32_at(self.0, 20) }
    }

    pub fn after(&self) -> Place {
        Place { seq: self.before().seq.saturating_add(self.count()), chain: u32_at(self.0, 24) }
    }

    /// The sum of the answers that were given.
    pub fn answers(&self) -> u32 {
        u32_at(self.0, 16)
    }

    /// The words of its calls.
    pub fn words(&self) -> Vec<u32> {
        words_of(&self.0[RECORD_HEAD..]).collect()
    }
}

#[cfg(test)]
mod tests {
    use super::*;

    fn example() -> Written {
        let mut calls = Calls::default();
        calls.keep(crate::call::REQUEST, &[1, 0, 1, 0, 1, 0, 0], [0; 3]);
        calls.keep(crate::call::PARTY, &[5, 1, 2, 3], [0; 3]);
        Written::new(Place { seq: 40, chain: 77 }, &calls)
    }

    #[test]
    fn what_is_written_is_read() {
        let written = example();
        assert_eq!(written.after.seq, 42);
        let bytes = [written.bytes.clone(), vec![0; 100]].concat();
        let record = Record::read(&bytes).expect("a record");
        assert_eq!((record.before(), record.after(), record.count()), (written.before, written.after, 2));
        assert_eq!(record.length(), written.bytes.len());
        assert_eq!(record.answers(), sum(&[0; 24]));
    }

    #[test]
    fn no_part_and_no_flipped_bit_is_a_record() {
        let bytes = example().bytes;
        for length in 0..bytes.len() {
            assert!(Record::read(&bytes[..length]).is_none());
            let torn = [&bytes[..length], &vec![0; bytes.len() - length][..]].concat();
            assert!(torn == bytes || Record::read(&torn).is_none());
        }
        for bit in 0..bytes.len() * 8 {
            let mut other = bytes.clone();
            other[bit / 8] ^= 1 << (bit % 8);
            other.resize(bytes.len() * 2, 0);
            assert!(Record::read(&other).is_none(), "bit {bit}");
        }
    }
}

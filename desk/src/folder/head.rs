//! The head of a snapshot or a segment (docs/DESK.md, 2.1).
use crate::journal::Place;
use crate::site::SiteNumber;
use crate::sum::sum;
use crate::words::{u32_at, u64_at};

/// One number for each meaning of words and calls.
pub const EDITION: u32 = 1;
pub const LENGTH: usize = 64;
pub const SNAPSHOT: &[u8; 8] = b"CAVSNAP1";
pub const SEGMENT: &[u8; 8] = b"CAVJRNL1";

#[derive(Clone, Copy, Debug, Default, PartialEq, Eq)]
pub struct Head {
    pub site: SiteNumber,
    pub place: Place,
    /// How many words the book has; 0 in a segment, as the two behind.
    pub words: u64,
    /// The sum of all that follows the head.
    pub sum: u32,
    /// How many orders follow the book.
    pub orders: u32,
}

impl Head {
    pub fn bytes(&self, magic: &[u8; 8]) -> [u8; LENGTH] {
        let mut bytes = [0; LENGTH];
        bytes[..8].copy_from_slice(magic);
        bytes[8..12].copy_from_slice(&EDITION.to_le_bytes());
        bytes[16..32].copy_from_slice(&self.site);
        bytes[32..40].copy_from_slice(&self.place.seq.to_le_bytes());
        bytes[40..48].copy_from_slice(&self.words.to_le_bytes());
        bytes[48..52].copy_from_slice(&self.place.chain.to_le_bytes());
        bytes[52..56].copy_from_slice(&self.sum.to_le_bytes());
        bytes[56..60].copy_from_slice(&self.orders.to_le_bytes());
        let own = sum(&bytes[..60]);
        bytes[60..].copy_from_slice(&own.to_le_bytes());
        bytes
    }

    /// The head at the beginning of the bytes, or what is wrong with it.
    pub fn read(magic: &[u8; 8], bytes: &[u8]) -> Result<Head, String> {
        let Some(bytes) =
            bytes.get(..LENGTH).filter(|head| head[..8] == magic[..] && sum(&head[..60]) == u32_at(head, 60))
        else {
            return Err("its head is damaged".into());
        };
        if u32_at(bytes, 8) != EDITION {
            return Err(format!("it is of edition {}, and this desk is of edition {EDITION}", u32_at(bytes, 8)));
        }
        Ok(Head {
            site: bytes[16..32].try_into().expect("16 bytes"),
            place: Place { seq: u64_at(bytes, 32), chain: u32_at(bytes, 48) },
            words: u64_at(bytes, 40),
            sum: u32_at(bytes, 52),
            orders: u32_at(bytes, 56),
        })
    }
}

#[cfg(test)]
mod tests {
    use super::*;

    #[test]
    fn a_head_is_read_as_written_and_with_no_bit_flipped() {
        let head =
            Head { site: *b"0123456789abcdef", place: Place { seq: 1 << 40, chain: 9 }, words: 771, sum: 5, orders: 3 };
        let bytes = head.bytes(SNAPSHOT);
        assert_eq!(Head::read(SNAPSHOT, &bytes), Ok(head));
        assert!(Head::read(SEGMENT, &bytes).is_err());
        assert!(Head::read(SNAPSHOT, &bytes[..63]).is_err());
        for bit in 0..LENGTH * 8 {
            let mut other = bytes;
            other[bit / 8] ^= 1 << (bit % 8);
            assert!(Head::read(SNAPSHOT, &other).is_err(), "bit {bit}");
        }
    }
}

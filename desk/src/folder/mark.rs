//! The mark: how far answers were given (docs/DESK.md, 2.3).
use super::Folder;
use crate::journal::Place;
use crate::sum::sum;
use crate::words::{u32_at, u64_at};
use std::fs::File;
use std::io::Result;
use std::os::unix::fs::FileExt;

const NAME: &str = "mark";

/// None where there is no mark, or none that can be read.
pub fn read(folder: &Folder) -> Option<Place> {
    let bytes = std::fs::read(folder.path(NAME)).ok()?;
    let right = bytes.len() == 16 && sum(&bytes[..12]) == u32_at(&bytes, 12);
    right.then(|| Place { seq: u64_at(&bytes, 0), chain: u32_at(&bytes, 8) })
}

pub struct Mark(File);

impl Mark {
    /// From here on there is a mark that can be read, whatever happens: a start without one has not answered anything.
    pub fn open(folder: &Folder, place: Place) -> Result<Mark> {
        let file = File::options().write(true).create(true).truncate(false).open(folder.path(NAME))?;
        let mark = Mark(file);
        mark.write(place)?;
        mark.0.set_len(16)?;
        mark.0.sync_all()?;
        folder.sync()?;
        Ok(mark)
    }

    /// One write within a sector, so never half of it. It is not synced: after a power cut it may be behind.
    pub fn write(&self, place: Place) -> Result<()> {
        let mut bytes = [0; 16];
        bytes[..8].copy_from_slice(&place.seq.to_le_bytes());
        bytes[8..12].copy_from_slice(&place.chain.to_le_bytes());
        let own = sum(&bytes[..12]);
        bytes[12..].copy_from_slice(&own.to_le_bytes());
        self.0.write_all_at(&bytes, 0)
    }
}

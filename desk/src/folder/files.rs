//! The journal in files: segments that are written behind their end and synced, and the mark.
use super::head::{self, Head};
use super::mark::Mark;
use super::start::{Found, Tail};
use super::{segment_name, Folder};
use crate::journal::{Journal, Place, Written};
use crate::site::SiteNumber;
use crate::{system, Outcome};
use std::fs::File;
use std::os::unix::fs::FileExt;
use std::time::{Duration, Instant};

/// Zeros are written so far ahead: most syncs then change neither length nor blocks of the file, and a full disk shows early.
const AHEAD: u64 = 1 << 20;

/// Under this name until its head is synced.
const UNFINISHED: &str = "log.tmp";

pub struct FileJournal {
    folder: Folder,
    site: SiteNumber,
    segment: File,
    mark: Mark,
    /// Where the next record goes, and how far zeros stand behind it.
    end: u64,
    reserved: u64,
    syncing: Duration,
}

impl FileJournal {
    /// Goes on behind what was found. What a torn record left is cut off, and what was found is synced before anybody is told of it.
    pub fn open(folder: &Folder, found: &Found) -> Outcome<FileJournal> {
        let (number, place) = (found.site.number, found.site.place);
        let mark = || system("writing the mark", Mark::open(folder, place));
        let (segment, end, mark) = match &found.tail {
            Some(tail) => (system("cutting the journal", reopen(folder, tail))?, tail.end, mark()?),
            None => {
                // So a journal never stands without a mark.
                let mark = mark()?;
                (system("beginning the journal", begin(folder, &number, place))?, head::LENGTH as u64, mark)
            }
        };
        let (folder, syncing) = (folder.clone(), Duration::ZERO);
        let mut journal = FileJournal { folder, site: number, segment, mark, end, reserved: end, syncing };
        system("reserving space for the journal", journal.reserve(1).and_then(|()| journal.segment.sync_all()))?;
        Ok(journal)
    }

    fn reserve(&mut self, length: u64) -> std::io::Result<()> {
        if self.end + length > self.reserved {
            let more = AHEAD.max(length);
            self.segment.write_all_at(&vec![0; more as usize], self.reserved)?;
            self.reserved += more;
        }
        Ok(())
    }
}

fn reopen(folder: &Folder, tail: &Tail) -> std::io::Result<File> {
    let segment = File::options().read(true).write(true).open(folder.path(&segment_name(tail.segment)))?;
    segment.set_len(tail.end)?;
    segment.sync_all()?;
    Ok(segment)
}

/// A segment has its name only when its head is on disk.
fn begin(folder: &Folder, site: &SiteNumber, place: Place) -> std::io::Result<File> {
    let segment = File::options().read(true).write(true).create(true).truncate(true).open(folder.path(UNFINISHED))?;
    segment.write_all_at(&Head { site: *site, place, ..Head::default() }.bytes(head::SEGMENT), 0)?;
    segment.sync_all()?;
    folder.rename(UNFINISHED, &segment_name(place.seq))?;
    folder.sync()?;
    Ok(segment)
}

impl Journal for FileJournal {
    fn append(&mut self, record: &Written) -> Outcome<()> {
        let length = record.bytes.len() as u64;
        let write = self.reserve(length).and_then(|()| self.segment.write_all_at(&record.bytes, self.end));
        system("writing the journal", write)?;
        let written = Instant::now();
        system("syncing the journal", self.segment.sync_data())?;
        self.syncing += written.elapsed();
        self.end += length;
        system("writing the mark", self.mark.write(record.after))?;
        Ok(())
    }

    fn syncing(&self) -> Duration {
        self.syncing
    }

    fn begin_segment(&mut self, place: Place) -> Outcome<()> {
        if self.end == head::LENGTH as u64 {
            return Ok(());
        }
        // The space reserved behind its end goes back.
        let close = self.segment.set_len(self.end).and_then(|()| self.segment.sync_all());
        system("closing a segment of the journal", close)?;
        self.segment = system("beginning a segment of the journal", begin(&self.folder, &self.site, place))?;
        self.end = head::LENGTH as u64;
        self.reserved = self.end;
        system("reserving space for the journal", self.reserve(1).and_then(|()| self.segment.sync_all()))
    }
}

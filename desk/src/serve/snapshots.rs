//! Snapshots while serving: the book is copied, and a thread writes the copy (docs/DESK.md, 3.4).
use super::say;
use crate::folder::{prune, Folder, Snapshot};
use crate::journal::Journal;
use crate::site::Site;
use crate::Outcome;
use std::thread::JoinHandle;
use std::time::{Duration, Instant};

pub struct Snapshots {
    folder: Folder,
    /// Writes one, and gives it back with what came of it.
    writer: Option<JoinHandle<(Snapshot, Outcome<Duration>)>>,
    /// The last one, whose memory the next one takes.
    spare: Snapshot,
    /// How many calls the last one has.
    last: u64,
}

impl Snapshots {
    pub fn new(folder: Folder, site: &Site, last: u64) -> Snapshots {
        Snapshots { folder, writer: None, spare: Snapshot::of(site), last }
    }

    /// Calls kept since the last one.
    pub fn since(&self, site: &Site) -> u64 {
        site.place.seq - self.last
    }

    /// Is one being written?
    pub fn busy(&self) -> bool {
        self.writer.is_some()
    }

    /// Begins a segment and a snapshot, unless one is being written or nothing was kept since.
    pub fn begin(&mut self, site: &Site, journal: &mut dyn Journal) -> Outcome<()> {
        if self.busy() || self.since(site) == 0 {
            return Ok(());
        }
        let start = Instant::now();
        journal.begin_segment(site.place)?;
        let (mut snapshot, folder) = (std::mem::take(&mut self.spare), self.folder.clone());
        snapshot.take(site);
        self.last = site.place.seq;
        say(&format!("snapshot {:016x}: answers waited {:.1} ms", self.last, start.elapsed().as_secs_f64() * 1e3));
        self.writer = Some(std::thread::spawn(move || {
            let start = Instant::now();
            let written = snapshot.write(&folder).map(|()| prune(&folder));
            (snapshot, written.map(|()| start.elapsed()))
        }));
        Ok(())
    }

    /// Looks whether the one being written is finished, or waits for it.
    pub fn finish(&mut self, wait: bool) {
        let Some(writer) = self.writer.take_if(|writer| wait || writer.is_finished()) else { return };
        let Ok((snapshot, written)) = writer.join() else {
            return say("no snapshot: its thread has failed");
        };
        self.spare = snapshot;
        match written {
            Ok(time) => say(&format!("snapshot {:016x}: on disk after {:.1} ms", self.last, time.as_secs_f64() * 1e3)),
            // The journal has everything: a snapshot only makes the next start shorter.
            Err(stop) => say(&format!("no snapshot: {}", stop.why)),
        }
    }
}

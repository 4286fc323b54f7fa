//! A site's folder: snapshots, segments of the journal, the mark of what was answered, the lock (docs/DESK.md, section 2).
mod audit;
mod files;
mod head;
mod loss;
mod mark;
mod snapshot;
mod start;

pub use audit::audit;
pub use files::FileJournal;
pub use snapshot::{make, prune, Snapshot};
pub use start::{load, Found, Want};

use crate::{stop, system, Outcome, LOCKED, USAGE};
use std::fs::File;
use std::io::{Read, Seek, Write};
use std::path::{Path, PathBuf};
use std::time::{Duration, Instant};

/// A desk that was just killed still has its lock for a moment.
const DYING: Duration = Duration::from_millis(500);

const ELSEWHERE: &str = "elsewhere";

#[derive(Clone)]
pub struct Folder(PathBuf);

impl Folder {
    pub fn new(path: &Path) -> Folder {
        Folder(path.to_path_buf())
    }

    pub fn path(&self, name: &str) -> PathBuf {
        self.0.join(name)
    }

    pub fn exists(&self) -> bool {
        self.0.is_dir()
    }

    /// Makes new names and renamings last.
    fn sync(&self) -> std::io::Result<()> {
        File::open(&self.0)?.sync_all()
    }

    /// Makes the folder's own name last.
    fn sync_name(&self) -> std::io::Result<()> {
        let above = self.0.canonicalize()?;
        File::open(above.parent().unwrap_or(&above))?.sync_all()
    }

    fn rename(&self, from: &str, to: &str) -> std::io::Result<()> {
        std::fs::rename(self.path(from), self.path(to))
    }

    /// The places of the files whose names begin so, rising.
    fn numbered(&self, beginning: &str) -> Outcome<Vec<u64>> {
        let mut found = Vec::new();
        for entry in system("reading the folder", std::fs::read_dir(&self.0))? {
            let name = system("reading the folder", entry)?.file_name();
            let digits = name.to_str().and_then(|name| name.strip_prefix(beginning));
            let digits = digits.filter(|digits| digits.len() == 16 && !digits.starts_with('+'));
            found.extend(digits.and_then(|digits| u64::from_str_radix(digits, 16).ok()));
        }
        found.sort_unstable();
        Ok(found)
    }

    pub fn snapshots(&self) -> Outcome<Vec<u64>> {
        self.numbered("snap-")
    }

    fn segments(&self) -> Outcome<Vec<u64>> {
        self.numbered("log-")
    }

    /// Is the journal of this site in a database, not in this folder?
    pub fn is_elsewhere(&self) -> bool {
        self.path(ELSEWHERE).exists()
    }

    /// A site that has its journal in files keeps it there.
    pub fn has_no_journal(&self) -> Outcome<()> {
        match self.segments()?.len() {
            0 => Ok(()),
            _ => stop(
                USAGE,
                "this site keeps its journal in files: `desk replay` and `desk import` make a site from its book that has none yet",
            ),
        }
    }

    /// Says so in the folder, before the first record goes there: a desk over files alone would serve an old book.
    pub fn set_elsewhere(&self) -> Outcome<()> {
        if self.is_elsewhere() {
            return Ok(());
        }
        let write = File::create(self.path(ELSEWHERE)).and_then(|mut file| {
            file.write_all(b"the journal of this site is in PostgreSQL\n")?;
            file.sync_all()?;
            self.sync()
        });
        system("saying that the journal is elsewhere", write)
    }

    /// One desk for a site: the lock lasts as long as the file is open.
    pub fn lock(&self) -> Outcome<File> {
        let open = File::options().read(true).write(true).create(true).truncate(false).open(self.path("lock"));
        let mut file = system("opening the lock", open)?;
        let last = Instant::now() + DYING;
        let mut ours = crate::system::try_lock(&file);
        while !ours && Instant::now() < last {
            std::thread::sleep(Duration::from_millis(20));
            ours = crate::system::try_lock(&file);
        }
        if !ours {
            let mut owner = String::new();
            let _ = file.read_to_string(&mut owner);
            return stop(LOCKED, format!("another desk has this site: process {}", owner.trim()));
        }
        // The number is for people; the lock is what counts.
        let _ = file.set_len(0).and_then(|()| file.rewind()).and_then(|()| writeln!(file, "{}", std::process::id()));
        Ok(file)
    }
}

fn snapshot_name(seq: u64) -> String {
    format!("snap-{seq:016x}")
}

fn segment_name(seq: u64) -> String {
    format!("log-{seq:016x}")
}

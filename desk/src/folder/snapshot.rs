//! Snapshots: the book at a place, and the orders that are remembered there.
use super::head::{self, Head};
use super::{snapshot_name, Folder};
use crate::journal::Place;
use crate::orders::{self, Orders};
use crate::site::{Site, SiteNumber};
use crate::sum::Sum;
use crate::words::{bytes_of, bytes_of_mut};
use crate::{stop, system, Outcome, USAGE};
use std::fs::{DirBuilder, File};
use std::io::{Read, Write};
use std::os::unix::fs::DirBuilderExt;

/// What a snapshot holds, copied out of a site that goes on.
#[derive(Default)]
pub struct Snapshot {
    number: SiteNumber,
    pub place: Place,
    book: Vec<u32>,
    orders: Vec<u32>,
}

/// Under this name until it is whole and synced.
const UNFINISHED: &str = "snap.tmp";

impl Snapshot {
    pub fn of(site: &Site) -> Snapshot {
        let mut snapshot = Snapshot::default();
        snapshot.take(site);
        snapshot
    }

    /// Copies a site into the memory that a snapshot has already: fresh memory for a large book takes longer than the copy.
    pub fn take(&mut self, site: &Site) {
        self.number = site.number;
        self.place = site.place;
        self.book.clone_from(&site.book);
        self.orders = site.orders.words();
    }

    fn head(&self) -> Head {
        let sum = Sum::of(bytes_of(&self.book)).and(bytes_of(&self.orders)).value();
        let orders = (self.orders.len() / orders::WORDS) as u32;
        Head { site: self.number, place: self.place, words: self.book.len() as u64, sum, orders }
    }

    /// Written, synced, named, and the name synced.
    pub fn write(&self, folder: &Folder) -> Outcome<()> {
        let result = self.write_unfinished(folder).and_then(|()| {
            folder.rename(UNFINISHED, &snapshot_name(self.place.seq))?;
            folder.sync()
        });
        if result.is_err() {
            let _ = std::fs::remove_file(folder.path(UNFINISHED));
        }
        system("writing a snapshot", result)
    }

    /// In pieces that are synced one by one, so that the journal's sync meanwhile does not wait for all of it.
    fn write_unfinished(&self, folder: &Folder) -> std::io::Result<()> {
        let mut file = File::create(folder.path(UNFINISHED))?;
        file.write_all(&self.head().bytes(head::SNAPSHOT))?;
        for piece in bytes_of(&self.book).chunks(1 << 22).chain([bytes_of(&self.orders)]) {
            file.write_all(piece)?;
            file.sync_data()?;
        }
        file.sync_all()
    }

    /// The site of a snapshot, or what is wrong with it.
    pub fn read(folder: &Folder, seq: u64) -> Result<Site, String> {
        let said = |error: std::io::Error| error.to_string();
        let mut file = File::open(folder.path(&snapshot_name(seq))).map_err(said)?;
        let mut bytes = [0; head::LENGTH];
        file.read_exact(&mut bytes).map_err(said)?;
        let head = Head::read(head::SNAPSHOT, &bytes)?;
        if head.place.seq != seq || head.words > caviar::MOST_WORDS as u64 || head.orders > orders::MOST as u32 {
            return Err("its head belongs to another place, or names more than there can be".into());
        }
        let mut book = vec![0; head.words as usize];
        let mut orders = vec![0; head.orders as usize * orders::WORDS];
        for words in [&mut book, &mut orders] {
            file.read_exact(bytes_of_mut(words)).map_err(said)?;
        }
        let rest = file.read(&mut bytes).map_err(said)?;
        if rest != 0 || Sum::of(bytes_of(&book)).and(bytes_of(&orders)).value() != head.sum {
            return Err("its sum is not that of its words".into());
        }
        match caviar::check(&book).number {
            0 => {}
            number => return Err(format!("its book is refused by question {number}")),
        }
        let orders = Orders::from_words(&orders, &book).ok_or("its orders are not those of its book's ring")?;
        Ok(Site { number: head.site, book, orders, place: head.place })
    }
}

/// Makes a site from a book: a folder that only its owner may enter, and in it snapshot 0.
pub fn make(folder: &Folder, book: Vec<u32>) -> Outcome<()> {
    let number = caviar::check(&book).number;
    if number != 0 {
        return stop(USAGE, format!("these words are no book: question {number} refuses them"));
    }
    if !folder.exists() {
        system("making the folder", DirBuilder::new().mode(0o700).create(&folder.0))?;
    }
    system("making the folder last", folder.sync_name())?;
    if !folder.snapshots()?.is_empty() || !folder.segments()?.is_empty() {
        return stop(USAGE, format!("there is a site in {} already", folder.0.display()));
    }
    let mut number = [0; 16];
    system("drawing a site number", File::open("/dev/urandom").and_then(|mut file| file.read_exact(&mut number)))?;
    let orders = Orders::of_ring(&book);
    Snapshot::of(&Site { number, book, orders, place: Place::default() }).write(folder)
}

/// The first snapshot and the newest two stay: with the whole journal the others are never needed.
pub fn prune(folder: &Folder) {
    if let Ok(found) = folder.snapshots() {
        for seq in found.iter().rev().skip(2).filter(|seq| **seq != 0) {
            let _ = std::fs::remove_file(folder.path(&snapshot_name(*seq)));
        }
    }
}

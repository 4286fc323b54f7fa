//! The newest snapshot against the first one and the whole journal.
use super::snapshot::Snapshot;
use super::start::{load, Want};
use super::{snapshot_name, Folder};
use crate::{stop, Outcome, DAMAGED, USAGE};

/// How many calls the newest snapshot has, if it is what the journal gives, word by word.
pub fn audit(folder: &Folder) -> Outcome<u64> {
    let Some(seq) = folder.snapshots()?.pop() else {
        return stop(USAGE, "there is no site in this folder");
    };
    let name = snapshot_name(seq);
    let kept = match Snapshot::read(folder, seq) {
        Ok(site) => site,
        Err(why) => return stop(DAMAGED, format!("{name}: {why}")),
    };
    let built = load(folder, Want { to: Some(seq), from_first: true, ..Want::default() })?.site;
    if let Some(word) = kept.book.iter().zip(&built.book).position(|(kept, built)| kept != built) {
        return stop(DAMAGED, format!("word {word} of the book in {name} is not what the journal gives"));
    }
    if kept.book.len() != built.book.len() || kept.place != built.place || kept.orders.words() != built.orders.words() {
        return stop(DAMAGED, format!("the length, the place or the orders of {name} are not what the journal gives"));
    }
    Ok(seq)
}

//! Serving: one thread, one loop. What whole lines have come are a batch; it is done on the book, stored, and then answered
//! (docs/DESK.md, 3.2).
mod client;
mod door;
mod figures;
mod rounds;
mod snapshots;

use crate::folder::{load, FileJournal, Folder, Found, Want};
use crate::journal::Journal;
use crate::{system, Outcome};
use std::net::SocketAddr;
use std::path::PathBuf;
use std::time::{Duration, Instant};

pub struct Options {
    pub folder: PathBuf,
    /// A loopback address to listen at, beside the socket of the folder.
    pub tcp: Option<SocketAddr>,
    /// The journal is in PostgreSQL: its connection string.
    pub pg: Option<String>,
    pub clients: usize,
    /// A snapshot after so many calls.
    pub every: u64,
    /// With a client that takes no answers.
    pub patience: Duration,
    pub accept_loss: Option<u64>,
    /// Says at the end where the time went.
    pub figures: bool,
}

/// A line for the operator. Nobody may be listening, and that is no reason to end.
pub fn say(words: &str) {
    use std::io::Write;
    let _ = writeln!(std::io::stdout(), "{words}");
}

/// Serves a site until it is told to end.
pub fn serve(options: &Options) -> Outcome<()> {
    let folder = Folder::new(&options.folder);
    if !folder.exists() {
        return crate::stop(crate::USAGE, format!("there is no folder {}", options.folder.display()));
    }
    let _lock = folder.lock()?;
    crate::system::catch_signals();
    let start = Instant::now();
    let (found, journal) = open(&folder, options)?;
    for note in &found.notes {
        say(&format!("note: {note}"));
    }
    say(&format!(
        "ready: {} calls kept, {} done again in {:.3} s, started in {:.3} s",
        found.site.place.seq,
        found.replayed,
        found.seconds,
        start.elapsed().as_secs_f64()
    ));
    let doors = door::open(options)?;
    say("listening");
    let snapped = found.site.place.seq - found.replayed;
    let mut desk = rounds::Desk::new(folder, found.site, journal, snapped, options);
    let result = desk.run(&doors);
    desk.leave(&result);
    door::close(options);
    result
}

fn open(folder: &Folder, options: &Options) -> Outcome<(Found, Box<dyn Journal>)> {
    if let Some(connection) = &options.pg {
        folder.has_no_journal()?;
        let found = load(folder, Want { without_journal: true, ..Want::default() })?;
        let opened = elsewhere(connection, found)?;
        folder.set_elsewhere()?;
        return Ok(opened);
    }
    if folder.is_elsewhere() {
        return crate::stop(crate::USAGE, "this site keeps its journal in PostgreSQL: `--pg CONNECTION` is wanted");
    }
    let found = load(folder, Want { accept_loss: options.accept_loss, ..Want::default() })?;
    found.put_loss_aside(folder)?;
    let journal = FileJournal::open(folder, &found)?;
    Ok((found, Box::new(journal)))
}

#[cfg(feature = "pg")]
fn elsewhere(connection: &str, mut found: Found) -> Outcome<(Found, Box<dyn Journal>)> {
    let journal = crate::postgres::lead(connection, &mut found)?;
    Ok((found, journal))
}

#[cfg(not(feature = "pg"))]
fn elsewhere(_: &str, _: Found) -> Outcome<(Found, Box<dyn Journal>)> {
    crate::stop(crate::USAGE, "this desk was built without PostgreSQL: build it with `--features pg`")
}

/// The socket that clients of this machine connect to.
fn socket_path(options: &Options) -> PathBuf {
    options.folder.join("sock")
}

/// A refusal while listening.
fn listening<T>(result: std::io::Result<T>) -> Outcome<T> {
    system("listening", result)
}

//! The desk: a site's book on disk, for many clients. docs/DESK.md says what it promises, and how its files and lines look.
//!
//! It decides nothing about bookings: every answer is the proved engine's (crate `caviar`).

pub mod call;
pub mod folder;
pub mod journal;
pub mod line;
pub mod look;
pub mod orders;
#[cfg(feature = "pg")]
pub mod postgres;
pub mod send;
pub mod serve;
pub mod show;
pub mod site;
pub mod sum;
pub mod system;
pub mod view;
pub mod words;

/// Why a desk ends before it is told to: an exit code and a sentence.
#[derive(Debug)]
pub struct Stop {
    pub code: i32,
    pub why: String,
}

pub type Outcome<T> = Result<T, Stop>;

/// The command line is not one of the desk's, or its input is of no use.
pub const USAGE: i32 = 2;
/// The files contradict each other: somebody must look.
pub const DAMAGED: i32 = 3;
/// Another desk has the site.
pub const LOCKED: i32 = 4;
/// The system refused a read, a write or a sync.
pub const SYSTEM: i32 = 5;
/// The book in memory is no longer a book.
pub const MEMORY: i32 = 6;

/// A refusal of the system, with what was tried.
pub fn system<T>(what: &str, result: std::io::Result<T>) -> Outcome<T> {
    result.map_err(|error| Stop { code: SYSTEM, why: format!("{what}: {error}") })
}

pub fn stop<T>(code: i32, why: impl Into<String>) -> Outcome<T> {
    Err(Stop { code, why: why.into() })
}

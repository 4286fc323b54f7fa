//! Seeded test material: settings, request lists, damaged books, damaged byte streams, calls for a
//! page, parties, orders, rides at early times, asks and commits, charges. The same seed gives the same material on every
//! machine.

pub mod asking;
pub mod books;
pub mod cases;
pub mod charges;
pub mod conflicts;
pub mod early;
pub mod endings;
pub mod orders;
pub mod pages;
pub mod parties;
pub mod requests;
pub mod rng;
pub mod sites;
pub mod streams;
pub mod tables;

pub use books::{damaged, full_book, junk_book};
pub use requests::{deep_state, list, list_from_fresh, Mix};
pub use rng::Rng;
pub use sites::{site, Size};
pub use streams::{clean_stream, damaged_stream};

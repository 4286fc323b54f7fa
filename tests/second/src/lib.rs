//! The second program: the booking book written a second time, with sets of tuples. It shares
//! nothing with the engine. It is slow and plain on purpose: each function can be held beside the
//! rule of docs/RULES.md that it names.
//!
//! - `machine`: the diary machine, its questions 3 to 22 and 30 and its changes, the ring of kept orders, asking and
//!   committing
//! - `book`: the words of a book, reading them back, questions 1 and 2, laying, calls
//! - `page`: the porter's page of a date
//! - `party`: many guests for one meeting, all or none
//! - `charge`: what a meeting costs
//! - `calls`: calls of every sort, as a list mixes them
//! - `frames`: the line program as a function from bytes to bytes
//! - `gen`: seeded settings, request lists, damaged books, damaged byte streams, pages to be written, parties, orders,
//!   rides at early times, asks and commits, charges

pub mod book;
pub mod calls;
pub mod charge;
pub mod frames;
pub mod gen;
pub mod machine;
pub mod page;
pub mod party;

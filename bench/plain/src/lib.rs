//! The booking book as a plain Rust program written for speed over the book's flat words. It is
//! what the proved engine is measured beside, and it is tested against the second program.
//!
//! - `site`: limits and where the regions lie, computed once for a list
//! - `check`: questions 1 and 2 in one pass
//! - `kinds`: the table of kinds, questions 3 to 8
//! - `judge` and `apply`: questions 9 to 22, and the writes; `step` puts them together, with the change count
//! - `calls`: laying, requests on raw books, lists, asking and committing
//! - `orders`: the ring of kept orders, and requests that carry the number of one
//! - `party`: guests of one meeting, all or none
//! - `charge`: what a meeting costs
//! - `lines`: the line program in chunks
//! - `traffic`: the trial load that all measurements use

pub mod apply;
pub mod calls;
pub mod charge;
pub mod check;
pub mod judge;
pub mod kinds;
pub mod lines;
pub mod orders;
pub mod party;
pub mod site;
pub mod step;
pub mod traffic;

pub use calls::{ask, commit, lay, order, orders, request, requests, serve, serve_orders};
pub use charge::charge;
pub use check::check;
pub use party::party;
pub use site::{Answer, Request, Site};
pub use step::step;

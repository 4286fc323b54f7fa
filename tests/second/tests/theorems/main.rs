//! What a caller may rely on, asked of the second program: each theorem about pairs and runs of
//! requests (crates/model/proofs) over seeded deep states and requests. Each test counts the cases
//! in which its premise held and wants enough of every sort, so that none passes emptily.

mod asking;
mod charges;
mod common;
mod exchange;
mod frames;
mod locality;
mod merged;
mod orders;
mod pages;
mod parties;
mod queries;
mod reachable;
mod removal;
mod repeat;
mod sharing;
mod slots;
mod undo;

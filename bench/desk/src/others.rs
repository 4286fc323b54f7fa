//! What a user might take instead of a desk. None where it was not built in, or has no server.
use crate::crowd::{Crowd, Run};
#[cfg(feature = "pg")]
use crate::postgres;
#[cfg(feature = "sqlite")]
use crate::sqlite;
use std::path::Path;

#[cfg(feature = "sqlite")]
pub fn sqlite(folder: &Path, crowd: Crowd) -> Option<Run> {
    Some(sqlite::run(folder, crowd))
}

#[cfg(not(feature = "sqlite"))]
pub fn sqlite(_: &Path, _: Crowd) -> Option<Run> {
    None
}

#[cfg(feature = "pg")]
pub fn postgres(connection: Option<&str>, crowd: Crowd) -> Option<Run> {
    connection.map(|connection| postgres::run(connection, crowd))
}

#[cfg(not(feature = "pg"))]
pub fn postgres(_: Option<&str>, _: Crowd) -> Option<Run> {
    None
}

//! SQLite: a booking is one small statement with its own commit. WAL and synchronous=FULL, so that it is on disk when it is answered.
use crate::crowd::{Crowd, Run};
use std::ffi::{c_char, c_int, c_void, CString};
use std::path::Path;
use std::ptr::{null, null_mut};
use std::sync::Mutex;

#[link(name = "sqlite3")]
extern "C" {
    fn sqlite3_open(name: *const c_char, database: *mut *mut c_void) -> c_int;
    fn sqlite3_close_v2(database: *mut c_void) -> c_int;
    fn sqlite3_exec(
        database: *mut c_void,
        text: *const c_char,
        call: *const c_void,
        data: *mut c_void,
        error: *mut *mut c_char,
    ) -> c_int;
    fn sqlite3_prepare_v2(
        database: *mut c_void,
        text: *const c_char,
        length: c_int,
        statement: *mut *mut c_void,
        rest: *mut *const c_char,
    ) -> c_int;
    fn sqlite3_finalize(statement: *mut c_void) -> c_int;
    fn sqlite3_bind_int64(statement: *mut c_void, index: c_int, value: i64) -> c_int;
    fn sqlite3_step(statement: *mut c_void) -> c_int;
    fn sqlite3_reset(statement: *mut c_void) -> c_int;
    fn sqlite3_changes(database: *mut c_void) -> c_int;
}

const OK: c_int = 0;
const DONE: c_int = 101;

const SETTINGS: &str = "PRAGMA journal_mode=WAL; PRAGMA synchronous=FULL;";
/// The medium site: 200 visitors have leave on all 90 dates.
const SCHEMA: &str = "
    CREATE TABLE leave(visitor INTEGER, date INTEGER, PRIMARY KEY(visitor, date)) WITHOUT ROWID;
    CREATE TABLE hotel(room INTEGER, date INTEGER, visitor INTEGER, PRIMARY KEY(room, date)) WITHOUT ROWID;
    CREATE UNIQUE INDEX hotel_visitor ON hotel(visitor, date);
    WITH RECURSIVE n(i) AS (SELECT 0 UNION ALL SELECT i + 1 FROM n WHERE i < 17999)
        INSERT INTO leave SELECT i / 90, i % 90 FROM n;";
const ADD: &str = "INSERT INTO hotel(room, date, visitor)
    SELECT ?1, ?2, ?3 WHERE EXISTS(SELECT 1 FROM leave WHERE visitor = ?3 AND date = ?2)";
const ERASE: &str = "DELETE FROM hotel WHERE room = ?1 AND date = ?2 AND visitor = ?3";

struct Connection {
    database: *mut c_void,
    add: *mut c_void,
    erase: *mut c_void,
}

// SAFETY: a connection is used by one thread at a time.
unsafe impl Send for Connection {}

impl Connection {
    fn open(path: &Path) -> Connection {
        let name = CString::new(path.to_str().expect("a name in UTF-8")).expect("a name without zero bytes");
        let mut connection = Connection { database: null_mut(), add: null_mut(), erase: null_mut() };
        // SAFETY: the name ends with a zero byte, and the handle is written to a field of ours.
        assert_eq!(unsafe { sqlite3_open(name.as_ptr(), &mut connection.database) }, OK, "{}", path.display());
        connection.execute(SETTINGS);
        connection.execute(SCHEMA);
        connection.add = connection.prepare(ADD);
        connection.erase = connection.prepare(ERASE);
        connection
    }

    fn execute(&self, text: &str) {
        let words = CString::new(text).expect("no zero byte");
        // SAFETY: the database is open, and the text ends with a zero byte.
        let status = unsafe { sqlite3_exec(self.database, words.as_ptr(), null(), null_mut(), null_mut()) };
        assert_eq!(status, OK, "{text}");
    }

    fn prepare(&self, text: &str) -> *mut c_void {
        let (words, mut statement) = (CString::new(text).expect("no zero byte"), null_mut());
        // SAFETY: as above, and the statement is written to a local.
        let status = unsafe { sqlite3_prepare_v2(self.database, words.as_ptr(), -1, &mut statement, null_mut()) };
        assert_eq!(status, OK, "{text}");
        statement
    }

    /// One booking and its commit.
    fn book(&self, client: u32, number: u32) {
        let statement = if number.is_multiple_of(2) { self.add } else { self.erase };
        let values = [client, number / 2 % 90, client];
        // SAFETY: the statement was prepared and lives as long as this.
        unsafe {
            for (index, value) in (1..).zip(values) {
                assert_eq!(sqlite3_bind_int64(statement, index, i64::from(value)), OK);
            }
            assert_eq!(sqlite3_step(statement), DONE, "SQLite has not done a booking");
            assert_eq!(sqlite3_reset(statement), OK);
            assert_eq!(sqlite3_changes(self.database), 1, "SQLite has not accepted a booking");
        }
    }
}

impl Drop for Connection {
    fn drop(&mut self) {
        // SAFETY: nobody uses these any more; a null statement is none.
        unsafe {
            sqlite3_finalize(self.add);
            sqlite3_finalize(self.erase);
            sqlite3_close_v2(self.database);
        }
    }
}

/// A new database for each run. The clients use one connection in turns: with one for each of them SQLite was no faster at 8 clients, and
/// slower at 64, where some waited for seconds.
pub fn run(folder: &Path, crowd: Crowd) -> Run {
    for end in ["", "-wal", "-shm"] {
        let _ = std::fs::remove_file(folder.join(format!("sqlite{end}")));
    }
    let shared = &Mutex::new(Connection::open(&folder.join("sqlite")));
    crowd.run(|client| move |number| shared.lock().expect("no client has failed").book(client, number))
}

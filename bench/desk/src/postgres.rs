//! PostgreSQL: a booking is one small statement with its own commit, over a connection for each client.
use crate::crowd::{Crowd, Run};
use std::ffi::{c_char, c_int, c_void, CStr, CString};
use std::ptr::null;

#[link(name = "pq")]
extern "C" {
    fn PQconnectdb(information: *const c_char) -> *mut c_void;
    fn PQfinish(session: *mut c_void);
    fn PQstatus(session: *const c_void) -> c_int;
    fn PQerrorMessage(session: *const c_void) -> *const c_char;
    fn PQexec(session: *mut c_void, text: *const c_char) -> *mut c_void;
    fn PQprepare(
        session: *mut c_void,
        name: *const c_char,
        text: *const c_char,
        count: c_int,
        types: *const u32,
    ) -> *mut c_void;
    fn PQexecPrepared(
        session: *mut c_void,
        name: *const c_char,
        count: c_int,
        values: *const *const c_char,
        lengths: *const c_int,
        formats: *const c_int,
        format: c_int,
    ) -> *mut c_void;
    fn PQresultStatus(result: *const c_void) -> c_int;
    fn PQcmdTuples(result: *mut c_void) -> *const c_char;
    fn PQclear(result: *mut c_void);
}

const CONNECTED: c_int = 0;
const COMMAND_OK: c_int = 1;

/// The medium site: 200 visitors have leave on all 90 dates.
const SCHEMA: [&CStr; 6] = [
    c"SET client_min_messages = warning",
    c"DROP TABLE IF EXISTS leave, hotel",
    c"CREATE TABLE leave(visitor int, date int, PRIMARY KEY(visitor, date))",
    c"CREATE TABLE hotel(room int, date int, visitor int, PRIMARY KEY(room, date), UNIQUE(visitor, date))",
    c"INSERT INTO leave SELECT i / 90, i % 90 FROM generate_series(0, 17999) i",
    c"ANALYZE",
];
const ADD: &CStr = c"INSERT INTO hotel(room, date, visitor) SELECT $1::int, $2::int, $3::int
    WHERE EXISTS(SELECT 1 FROM leave WHERE visitor = $3::int AND date = $2::int)";
const ERASE: &CStr = c"DELETE FROM hotel WHERE room = $1::int AND date = $2::int AND visitor = $3::int";

struct Session(*mut c_void);

// SAFETY: a session is used by one thread at a time.
unsafe impl Send for Session {}

impl Session {
    fn open(information: &str) -> Session {
        let information = CString::new(information).expect("no zero byte");
        // SAFETY: the text ends with a zero byte.
        let session = Session(unsafe { PQconnectdb(information.as_ptr()) });
        // SAFETY: the session is ours; where it is null its status is a bad one.
        assert_eq!(unsafe { PQstatus(session.0) }, CONNECTED, "{}", session.error());
        session
    }

    fn error(&self) -> String {
        // SAFETY: libpq's message ends with a zero byte, whatever the state of the session.
        unsafe { CStr::from_ptr(PQerrorMessage(self.0)) }.to_string_lossy().into_owned()
    }

    /// How many rows a statement has touched.
    fn rows(&self, result: *mut c_void) -> u32 {
        // SAFETY: the result is one of this session's and is not used behind this; its text ends with a zero byte.
        unsafe {
            assert_eq!(PQresultStatus(result), COMMAND_OK, "{}", self.error());
            let rows = CStr::from_ptr(PQcmdTuples(result)).to_string_lossy().parse().unwrap_or(0);
            PQclear(result);
            rows
        }
    }

    fn execute(&self, text: &CStr) {
        // SAFETY: the session is open.
        self.rows(unsafe { PQexec(self.0, text.as_ptr()) });
    }

    fn prepare(&self, name: &CStr, text: &CStr) {
        // SAFETY: the session is open; the server finds the types.
        self.rows(unsafe { PQprepare(self.0, name.as_ptr(), text.as_ptr(), 3, null()) });
    }

    /// One booking and its commit.
    fn book(&self, client: u32, number: u32) {
        let name = if number.is_multiple_of(2) { c"add" } else { c"erase" };
        let words = [client, number / 2 % 90, client].map(u32::to_be_bytes);
        let values = [0, 1, 2].map(|at: usize| words[at].as_ptr().cast());
        // SAFETY: three binary values of four bytes each, which live until the call returns.
        let result =
            unsafe { PQexecPrepared(self.0, name.as_ptr(), 3, values.as_ptr(), [4; 3].as_ptr(), [1; 3].as_ptr(), 1) };
        assert_eq!(self.rows(result), 1, "PostgreSQL has not accepted a booking");
    }
}

impl Drop for Session {
    fn drop(&mut self) {
        // SAFETY: nobody uses the session any more.
        unsafe { PQfinish(self.0) }
    }
}

/// New tables for each run.
pub fn run(information: &str, crowd: Crowd) -> Run {
    let first = Session::open(information);
    SCHEMA.iter().for_each(|text| first.execute(text));
    crowd.run(|client| {
        let session = Session::open(information);
        session.prepare(c"add", ADD);
        session.prepare(c"erase", ERASE);
        move |number| session.book(client, number)
    })
}

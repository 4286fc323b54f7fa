//! A session with a PostgreSQL server, by libpq. It is never opened again: what belongs to a session, its locks for one, is lost with it.
use crate::system::{self, PollFd, READABLE};
use crate::{stop, Outcome, Stop, SYSTEM, USAGE};
use std::cell::RefCell;
use std::ffi::{c_char, c_int, c_uint, c_void, CStr, CString};
use std::ptr::null;
use std::time::{Duration, Instant};

/// libpq's `PGconn` and `PGresult`.
type Connection = *mut c_void;
type Answer = *mut c_void;

#[link(name = "pq")]
extern "C" {
    fn PQconnectdb(info: *const c_char) -> Connection;
    fn PQfinish(connection: Connection);
    fn PQstatus(connection: Connection) -> c_int;
    fn PQerrorMessage(connection: Connection) -> *const c_char;
    fn PQsetNoticeProcessor(connection: Connection, call: NoticeCall, data: *mut c_void) -> Option<NoticeCall>;
    fn PQprepare(
        connection: Connection,
        name: *const c_char,
        text: *const c_char,
        count: c_int,
        types: *const c_uint,
    ) -> Answer;
    fn PQsendQueryParams(
        connection: Connection,
        text: *const c_char,
        count: c_int,
        types: *const c_uint,
        values: *const *const c_char,
        lengths: *const c_int,
        formats: *const c_int,
        answer_format: c_int,
    ) -> c_int;
    fn PQsendQueryPrepared(
        connection: Connection,
        name: *const c_char,
        count: c_int,
        values: *const *const c_char,
        lengths: *const c_int,
        formats: *const c_int,
        answer_format: c_int,
    ) -> c_int;
    fn PQsetSingleRowMode(connection: Connection) -> c_int;
    fn PQsocket(connection: Connection) -> c_int;
    fn PQconsumeInput(connection: Connection) -> c_int;
    fn PQisBusy(connection: Connection) -> c_int;
    fn PQgetResult(connection: Connection) -> Answer;
    fn PQclear(answer: Answer);
    fn PQresultStatus(answer: Answer) -> c_int;
    fn PQresultErrorMessage(answer: Answer) -> *const c_char;
    fn PQresultErrorField(answer: Answer, field: c_int) -> *const c_char;
    fn PQntuples(answer: Answer) -> c_int;
    fn PQnfields(answer: Answer) -> c_int;
    fn PQgetvalue(answer: Answer, row: c_int, column: c_int) -> *const u8;
    fn PQgetlength(answer: Answer, row: c_int, column: c_int) -> c_int;
    fn PQcmdTuples(answer: Answer) -> *const c_char;
}

type NoticeCall = extern "C" fn(*mut c_void, *const c_char);

/// Values of libpq's enumerations.
const CONNECTION_OK: c_int = 0;
const COMMAND_OK: c_int = 1;
const TUPLES_OK: c_int = 2;
const SINGLE_TUPLE: c_int = 9;
/// The field of a fault that holds its five letters, SQLSTATE.
const STATE: c_int = b'C' as c_int;
/// Values are sent and taken as bytes: numbers with the highest byte first.
const BINARY: c_int = 1;

/// A desk that is told to end gives a statement under way so long. A commit may wait for a standby that never comes.
const LAST: Duration = Duration::from_secs(2);

/// What is run: a statement's text, or the name of a prepared one.
#[derive(Clone, Copy)]
pub enum Statement<'a> {
    Text(&'a CStr),
    Prepared(&'a CStr),
}

pub struct Session {
    connection: Connection,
    /// What the server remarked since the last look. libpq keeps the address, so that it must stay where it is.
    notices: Box<RefCell<String>>,
}

// SAFETY: a connection belongs to no thread, and a session cannot be shared (it is not Sync): one thread at a time uses it.
unsafe impl Send for Session {}

extern "C" fn on_notice(notices: *mut c_void, text: *const c_char) {
    // SAFETY: the address is that of the session's box, which lives as long as the connection; libpq's text ends with a zero byte.
    let (notices, text) = unsafe { (&*notices.cast::<RefCell<String>>(), text_at(text)) };
    // Nobody else has it while libpq runs; and a panic may not go through libpq.
    if let Ok(mut notices) = notices.try_borrow_mut() {
        notices.push_str(&text);
    }
}

/// A copy of a text of libpq's; empty for none.
///
/// # Safety
/// The address is null, or that of bytes that end with a zero byte.
unsafe fn text_at(text: *const c_char) -> String {
    if text.is_null() {
        return String::new();
    }
    // SAFETY: as the caller promises.
    unsafe { CStr::from_ptr(text) }.to_string_lossy().into_owned()
}

/// An answer of the server, given back to libpq in the end.
struct Held(Answer);

impl Drop for Held {
    fn drop(&mut self) {
        // SAFETY: the answer is ours, and not used afterwards. Null is allowed.
        unsafe { PQclear(self.0) }
    }
}

impl Held {
    /// The fault that the answer is, if it is one.
    fn check(&self) -> Outcome<()> {
        // SAFETY: the answer is alive; null counts as a fault.
        let (status, words, state) = unsafe {
            let state = text_at(PQresultErrorField(self.0, STATE));
            (PQresultStatus(self.0), text_at(PQresultErrorMessage(self.0)), state)
        };
        match status {
            COMMAND_OK | TUPLES_OK | SINGLE_TUPLE => Ok(()),
            _ => Err(fault(&words, &state)),
        }
    }

    /// The values of its row, if it has one: a session takes rows one by one.
    fn row(&self) -> Option<Vec<&[u8]>> {
        // SAFETY: row and columns are some that the answer has; the bytes live as long as the answer.
        unsafe {
            let columns = 0..PQnfields(self.0);
            let value = |column| {
                let length = usize::try_from(PQgetlength(self.0, 0, column)).unwrap_or(0);
                std::slice::from_raw_parts(PQgetvalue(self.0, 0, column), length)
            };
            (PQntuples(self.0) > 0).then(|| columns.map(value).collect())
        }
    }

    /// How many rows the statement touched.
    fn touched(&self) -> u64 {
        // SAFETY: the text lives as long as the answer.
        unsafe { text_at(PQcmdTuples(self.0)) }.parse().unwrap_or(0)
    }
}

/// A stop for what the server says, with what a person can do about it.
fn fault(words: &str, state: &str) -> Stop {
    let advice = match state {
        "23505" => " (another desk has written at this place; start this one again, and it follows)",
        "25006" => " (this server takes no changes: name the primary)",
        "42501" => " (give the role SELECT and INSERT on desk_journal)",
        "57P01" | "57P02" | "57P03" => " (the server is going down, or somebody ended the session)",
        _ => "",
    };
    Stop { code: SYSTEM, why: format!("PostgreSQL: {}{advice}", one_line(words)) }
}

/// The text in one line, for a message.
fn one_line(text: &str) -> String {
    text.split_whitespace().collect::<Vec<_>>().join(" ")
}

impl Session {
    /// Opens a session. The connection is a text that libpq knows, such as `host=/run/postgresql dbname=desk`.
    pub fn open(connection: &str) -> Outcome<Session> {
        let Ok(info) = CString::new(connection) else { return stop(USAGE, "a connection has no zero byte") };
        let notices = Box::new(RefCell::new(String::new()));
        // SAFETY: the text ends with a zero byte.
        let session = Session { connection: unsafe { PQconnectdb(info.as_ptr()) }, notices };
        let data = (&raw const *session.notices).cast_mut().cast();
        // SAFETY: a null connection is allowed in all three; the data lives as long as the connection.
        unsafe {
            if PQstatus(session.connection) != CONNECTION_OK {
                return Err(session.refusal());
            }
            PQsetNoticeProcessor(session.connection, on_notice, data);
        }
        Ok(session)
    }

    /// Why libpq itself refused something.
    fn refusal(&self) -> Stop {
        // SAFETY: the text belongs to the connection, and is copied.
        fault(&unsafe { text_at(PQerrorMessage(self.connection)) }, "")
    }

    /// Has a statement parsed and named, for many runs.
    pub fn prepare(&self, name: &CStr, text: &CStr) -> Outcome<()> {
        // SAFETY: the texts end with zero bytes; no types are stated.
        Held(unsafe { PQprepare(self.connection, name.as_ptr(), text.as_ptr(), 0, null()) }).check()
    }

    fn send(&self, statement: Statement, values: &[&[u8]]) -> Outcome<()> {
        let count = values.len() as c_int;
        let places: Vec<*const c_char> = values.iter().map(|value| value.as_ptr().cast()).collect();
        let mut lengths = Vec::new();
        for value in values {
            let Ok(length) = c_int::try_from(value.len()) else {
                return stop(SYSTEM, "a value is too long for PostgreSQL");
            };
            lengths.push(length);
        }
        let formats = vec![BINARY; values.len()];
        let (places, lengths, formats) = (places.as_ptr(), lengths.as_ptr(), formats.as_ptr());
        // SAFETY: the three arrays have a place for each value, and the values outlive the call.
        let sent = unsafe {
            match statement {
                Statement::Text(text) => {
                    PQsendQueryParams(self.connection, text.as_ptr(), count, null(), places, lengths, formats, BINARY)
                }
                Statement::Prepared(name) => {
                    PQsendQueryPrepared(self.connection, name.as_ptr(), count, places, lengths, formats, BINARY)
                }
            }
        };
        // SAFETY: a statement is under way, whose rows may be asked for one by one.
        if sent == 0 || unsafe { PQsetSingleRowMode(self.connection) } == 0 {
            return Err(self.refusal());
        }
        Ok(())
    }

    /// Runs a statement and hands over each row as it comes, so that a long answer takes no memory. Gives how many rows it touched.
    ///
    /// The server says "done" before it commits, and a fault of the commit comes as one more answer: so all answers are looked at.
    pub fn run(
        &self,
        statement: Statement,
        values: &[&[u8]],
        mut on_row: impl FnMut(&[&[u8]]) -> Outcome<()>,
    ) -> Outcome<u64> {
        self.send(statement, values)?;
        let mut touched = 0;
        loop {
            self.wait()?;
            // SAFETY: the connection is open; null says that the statement is over.
            let answer = Held(unsafe { PQgetResult(self.connection) });
            if answer.0.is_null() {
                break;
            }
            answer.check()?;
            match answer.row() {
                Some(row) => on_row(&row)?,
                None => touched = answer.touched(),
            }
        }
        // SAFETY: the connection is ours.
        match unsafe { PQstatus(self.connection) } {
            CONNECTION_OK => Ok(touched),
            _ => Err(self.refusal()),
        }
    }

    /// Waits until an answer has come, or the connection has failed, which the next look at it tells.
    fn wait(&self) -> Outcome<()> {
        let mut told_to_end = None;
        // SAFETY: the connection is ours.
        let fd = unsafe { PQsocket(self.connection) };
        // SAFETY: the same.
        while unsafe { PQconsumeInput(self.connection) == 1 && PQisBusy(self.connection) == 1 } {
            system::wait(&mut [PollFd { fd, events: READABLE, revents: 0 }], 100);
            if system::ending() && told_to_end.get_or_insert_with(Instant::now).elapsed() > LAST {
                return stop(SYSTEM, "told to end while PostgreSQL stores: what was not answered may be stored or not");
            }
        }
        Ok(())
    }

    /// The first value of the first row, if there is a row.
    pub fn value(&self, text: &CStr, values: &[&[u8]]) -> Outcome<Option<Vec<u8>>> {
        let mut found = None;
        self.run(Statement::Text(text), values, |row| {
            if let (None, [first, ..]) = (&found, row) {
                found = Some(first.to_vec());
            }
            Ok(())
        })?;
        Ok(found)
    }

    /// What the server has remarked since the last look, in one line; empty for nothing.
    pub fn take_notices(&self) -> String {
        one_line(&self.notices.take())
    }
}

impl Drop for Session {
    fn drop(&mut self) {
        // SAFETY: the connection is ours and not used afterwards. Null is allowed.
        unsafe { PQfinish(self.connection) }
    }
}

#[cfg(test)]
mod tests {
    use super::*;

    fn refused(connection: &str) -> Stop {
        Session::open(connection).err().expect("a refusal")
    }

    #[test]
    fn a_connection_that_is_none_is_refused_in_words() {
        let stop = refused("nonsense=1");
        assert_eq!(stop.code, SYSTEM);
        assert_eq!(stop.why, "PostgreSQL: invalid connection option \"nonsense\"");
        assert_eq!(refused("dbname=a\0b").code, USAGE);
    }

    #[test]
    fn a_server_that_is_not_there_is_told_in_one_line() {
        let stop = refused("host=/nonexistent port=1 dbname=desk");
        assert_eq!(stop.code, SYSTEM);
        assert!(stop.why.starts_with("PostgreSQL: connection to server on socket"), "{}", stop.why);
        assert!(!stop.why.contains('\n'));
    }

    #[test]
    fn a_fault_says_what_to_do() {
        assert!(fault("ERROR: duplicate key\nDETAIL: it is", "23505")
            .why
            .contains("key DETAIL: it is (another desk has written"));
        assert_eq!(fault("FATAL: no", "XX000").why, "PostgreSQL: FATAL: no");
    }
}

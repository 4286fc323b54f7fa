//! The few functions of SQLite's C interface that the measurement needs.

use std::ffi::{c_char, c_int, c_void, CString};
use std::ptr::{null, null_mut};

#[link(name = "sqlite3")]
extern "C" {
    fn sqlite3_open(name: *const c_char, db: *mut *mut c_void) -> c_int;
    fn sqlite3_exec(
        db: *mut c_void,
        text: *const c_char,
        call: *const c_void,
        data: *mut c_void,
        error: *mut *mut c_char,
    ) -> c_int;
    fn sqlite3_prepare_v2(
        db: *mut c_void,
        text: *const c_char,
        length: c_int,
        out: *mut *mut c_void,
        rest: *mut *const c_char,
    ) -> c_int;
    fn sqlite3_bind_int64(statement: *mut c_void, index: c_int, value: i64) -> c_int;
    fn sqlite3_bind_parameter_count(statement: *mut c_void) -> c_int;
    fn sqlite3_step(statement: *mut c_void) -> c_int;
    fn sqlite3_column_type(statement: *mut c_void, column: c_int) -> c_int;
    fn sqlite3_column_int64(statement: *mut c_void, column: c_int) -> i64;
    fn sqlite3_reset(statement: *mut c_void) -> c_int;
}

const OK: c_int = 0;
const ROW: c_int = 100;
const DONE: c_int = 101;
const NULL: c_int = 5;

/// A database in memory. It is used until the program ends.
pub struct Db(*mut c_void);

pub struct Statement {
    made: *mut c_void,
    parameters: usize,
}

fn text(words: &str) -> CString {
    CString::new(words).expect("no zero byte")
}

impl Db {
    pub fn in_memory() -> Db {
        let mut db = null_mut();
        // SAFETY: the name ends with a zero byte, and the handle is a local.
        assert_eq!(unsafe { sqlite3_open(text(":memory:").as_ptr(), &mut db) }, OK);
        Db(db)
    }

    pub fn run(&self, words: &str) {
        // SAFETY: the handle is open, and the text ends with a zero byte.
        let status = unsafe { sqlite3_exec(self.0, text(words).as_ptr(), null(), null_mut(), null_mut()) };
        assert_eq!(status, OK, "{words}");
    }

    pub fn prepare(&self, words: &str) -> Statement {
        let mut made = null_mut();
        // SAFETY: the handle is open, and the text ends with a zero byte.
        let status = unsafe { sqlite3_prepare_v2(self.0, text(words).as_ptr(), -1, &mut made, null_mut()) };
        assert_eq!(status, OK, "{words}");
        // SAFETY: the statement was made above.
        let parameters = unsafe { sqlite3_bind_parameter_count(made) } as usize;
        Statement { made, parameters }
    }
}

impl Statement {
    /// Runs the statement with these parameters: the number in its one row, or None.
    pub fn ask(&self, values: [u32; 4]) -> Option<u32> {
        // SAFETY: the statement is alive as long as the program, and reset after each use.
        unsafe {
            for (index, value) in values.iter().take(self.parameters).enumerate() {
                assert_eq!(sqlite3_bind_int64(self.made, index as c_int + 1, i64::from(*value)), OK);
            }
            let status = sqlite3_step(self.made);
            let found = match status {
                ROW if sqlite3_column_type(self.made, 0) != NULL => Some(sqlite3_column_int64(self.made, 0) as u32),
                ROW | DONE => None,
                _ => panic!("status {status}"),
            };
            assert_eq!(sqlite3_reset(self.made), OK);
            found
        }
    }
}

//! The journal as a table of PostgreSQL, for a site that must outlive its machine (docs/DESK.md, section 8): a row for each record,
//! a commit for each row. One desk leads, by an advisory lock of the session that writes the rows; others follow the rows.
mod session;

use crate::folder::Found;
use crate::journal::{Journal, Place, Record, Written};
use crate::serve::say;
use crate::site::{Replay, SiteNumber};
use crate::{stop, Outcome, DAMAGED, SYSTEM, USAGE};
use session::{Session, Statement};
use std::ffi::CStr;
use std::time::Duration;

/// How often a follower looks for rows, and whether the lock is free.
const LOOK: Duration = Duration::from_millis(50);

const MAKE: &CStr = c"CREATE TABLE IF NOT EXISTS desk_journal(
    site bytea, first bigint, record bytea NOT NULL, PRIMARY KEY (site, first))";

/// Whether the table keeps what it is told, and refuses a second row at a place. No row: there is no table.
const IS_RIGHT: &CStr = c"SELECT relkind = 'r' AND relpersistence = 'p' AND EXISTS (
    SELECT FROM pg_constraint WHERE conrelid = pg_class.oid
    AND pg_get_constraintdef(pg_constraint.oid) = 'PRIMARY KEY (site, first)')
    FROM pg_class WHERE oid = to_regclass('desk_journal')";

/// What role or server have set otherwise must not hold here: a commit waits for the disks, the standby's too, as long as that takes;
/// every remark is told (a cancelled wait for the standby is a mere warning); rows are seen all or not at all.
const SETTINGS: &CStr = c"SELECT set_config(name, value, false) FROM pg_settings JOIN (VALUES
    ('synchronous_commit', 'on'), ('client_min_messages', 'notice'), ('row_security', 'off'),
    ('default_transaction_read_only', 'off'), ('default_transaction_isolation', 'read committed'),
    ('statement_timeout', '0'), ('lock_timeout', '0'), ('transaction_timeout', '0'),
    ('idle_session_timeout', '0'), ('idle_in_transaction_session_timeout', '0')
    ) AS wanted(name, value) USING (name)";

const SYNCS: &CStr = c"SELECT current_setting('fsync')::boolean";

/// A standby grants advisory locks too, which its primary does not know: nobody leads there before it is promoted.
const TRY_LOCK: &CStr = c"SELECT CASE WHEN pg_is_in_recovery() THEN false ELSE pg_try_advisory_lock($1::bigint) END";

const ROW_BEFORE: &CStr = c"SELECT record FROM desk_journal
    WHERE site = $1::bytea AND first < $2::bigint ORDER BY first DESC LIMIT 1";
const ROWS: &CStr = c"SELECT record FROM desk_journal WHERE site = $1::bytea AND first >= $2::bigint ORDER BY first";
const INSERT: &CStr = c"INSERT INTO desk_journal(site, first, record) VALUES ($1::bytea, $2::bigint, $3::bytea)";

/// The session answers, so the lock is still its own.
const AFFIRM: &CStr = c"SELECT 1";

/// A commit without rows, that waits for the standby as every other does.
const BARRIER: &CStr = c"SELECT pg_logical_emit_message(true, 'desk', 'leads')";

/// A boolean, as bytes.
const TRUE: &[u8] = &[1];

/// The rows of a site, and the session that reads and writes them.
struct Table {
    session: Session,
    site: SiteNumber,
}

/// Follows the rows until the lock is this desk's, then reads the last of them and leads. What was found is a snapshot's book.
pub fn lead(connection: &str, found: &mut Found) -> Outcome<Box<dyn Journal>> {
    let table = Table::open(connection, found.site.number)?;
    let (mut joined, mut told) = (false, false);
    loop {
        let leads = table.try_lock()?;
        if !joined && table.is_there(leads)? {
            table.join(found.site.place)?;
            joined = true;
        }
        if joined {
            table.follow(found)?;
        }
        if leads {
            table.settle()?;
            return Ok(Box::new(table));
        }
        if !told {
            say("follows: another desk leads, or the server is a standby");
            told = true;
        }
        if crate::system::ending() {
            return stop(0, "ended while it followed");
        }
        std::thread::sleep(LOOK);
    }
}

/// A place in the list of calls, as a bigint.
fn bigint(seq: u64) -> Outcome<[u8; 8]> {
    match i64::try_from(seq) {
        Ok(seq) => Ok(seq.to_be_bytes()),
        Err(_) => stop(DAMAGED, format!("{seq} is no number of calls")),
    }
}

/// The lock of a site: its number's first half.
fn lock_key(site: &SiteNumber) -> [u8; 8] {
    let mut key = [0; 8];
    key.copy_from_slice(&site[..8]);
    key
}

/// The record that a row is: the whole of it, and nothing else.
fn record_of<'a>(row: &[&'a [u8]], after: u64) -> Outcome<Record<'a>> {
    let record = row.first().and_then(|bytes| Record::read(bytes).filter(|record| record.length() == bytes.len()));
    match record {
        Some(record) => Ok(record),
        None => stop(DAMAGED, format!("a row of desk_journal at or behind call {after} is damaged")),
    }
}

impl Table {
    fn open(connection: &str, site: SiteNumber) -> Outcome<Table> {
        let session = Session::open(connection)?;
        session.run(Statement::Text(SETTINGS), &[], |_| Ok(()))?;
        if session.value(SYNCS, &[])?.as_deref() != Some(TRUE) {
            return stop(USAGE, "the PostgreSQL server has fsync=off and may lose what it has confirmed: turn it on");
        }
        Ok(Table { session, site })
    }

    fn try_lock(&self) -> Outcome<bool> {
        Ok(self.session.value(TRY_LOCK, &[&lock_key(&self.site)])?.as_deref() == Some(TRUE))
    }

    /// Is there a table? If not, the leader makes it.
    fn is_there(&self, leads: bool) -> Outcome<bool> {
        let mut right = self.session.value(IS_RIGHT, &[])?;
        if right.is_none() && leads {
            self.session.run(Statement::Text(MAKE), &[], |_| Ok(()))?;
            right = self.session.value(IS_RIGHT, &[])?;
        }
        match right {
            None => Ok(false),
            Some(right) if right == TRUE => Ok(true),
            Some(_) => {
                stop(USAGE, "the table desk_journal must be an ordinary, logged one with PRIMARY KEY (site, first)")
            }
        }
    }

    /// The snapshot must lie on the journal. One that lies ahead or beside knows of changes that this server has lost.
    fn join(&self, place: Place) -> Outcome<()> {
        let mut end = Place::default();
        self.session.run(Statement::Text(ROW_BEFORE), &[&self.site, &bigint(place.seq)?], |row| {
            end = record_of(row, 0)?.after();
            Ok(())
        })?;
        if end != place {
            let why = "of this folder is not on the journal of this server, which has lost changes or is another";
            return stop(DAMAGED, format!("the snapshot of {} calls {why} (there: {} calls)", place.seq, end.seq));
        }
        self.session.prepare(c"rows", ROWS)?;
        self.session.prepare(c"insert", INSERT)?;
        self.session.prepare(c"affirm", AFFIRM)
    }

    /// Does the calls of the rows that are there and not yet in the book.
    fn follow(&self, found: &mut Found) -> Outcome<()> {
        let from = bigint(found.site.place.seq)?;
        let mut replay = Replay::new(&mut found.site);
        self.session.run(Statement::Prepared(c"rows"), &[&self.site, &from], |row| {
            let place = replay.place();
            let record = record_of(row, place.seq)?;
            if record.before() != place {
                let found = record.before().seq;
                return stop(
                    DAMAGED,
                    format!("the row of call {found} in desk_journal does not follow call {}", place.seq),
                );
            }
            replay.add(&record, u64::MAX)
        })?;
        replay.flush()?;
        found.replayed += replay.done;
        found.seconds += replay.seconds;
        Ok(())
    }

    /// A row that was read may be on this server alone: its session or the server died while it waited for the standby. Nothing may be
    /// answered of it before it is on the standby too.
    fn settle(&self) -> Outcome<()> {
        self.session.take_notices();
        self.session.run(Statement::Text(BARRIER), &[], |_| Ok(()))?;
        self.without_notice()
    }

    /// A commit whose wait for the standby was cancelled succeeds, with a warning.
    fn without_notice(&self) -> Outcome<()> {
        let notices = self.session.take_notices();
        if notices.is_empty() {
            return Ok(());
        }
        stop(SYSTEM, format!("PostgreSQL stored with a remark, so perhaps in one place only: {notices}"))
    }
}

impl Journal for Table {
    fn append(&mut self, record: &Written) -> Outcome<()> {
        let first = bigint(record.before.seq)?;
        let values: [&[u8]; 3] = [&self.site, &first, &record.bytes];
        let count = self.session.run(Statement::Prepared(c"insert"), &values, |_| Ok(()))?;
        self.without_notice()?;
        if count != 1 {
            return stop(
                SYSTEM,
                format!("PostgreSQL stored {count} rows instead of one: does desk_journal have a trigger or a rule?"),
            );
        }
        Ok(())
    }

    /// The table has no segments.
    fn begin_segment(&mut self, _: Place) -> Outcome<()> {
        Ok(())
    }

    fn affirm(&mut self) -> Outcome<()> {
        self.session.run(Statement::Prepared(c"affirm"), &[], |_| Ok(()))?;
        Ok(())
    }
}

#[cfg(test)]
mod tests {
    use super::*;
    use crate::call::{Calls, REQUEST};

    #[test]
    fn a_row_is_one_whole_record() {
        let mut calls = Calls::default();
        calls.keep(REQUEST, &[1, 0, 1, 0, 1, 0, 0], [0; 3]);
        let written = Written::new(Place { seq: 40, chain: 77 }, &calls);
        let record = record_of(&[&written.bytes], 40).unwrap_or_else(|stop| panic!("{}", stop.why));
        assert_eq!((record.before(), record.after()), (written.before, written.after));
        let longer = [&written.bytes[..], &[0]].concat();
        let shorter = &written.bytes[..written.bytes.len() - 4];
        for row in [&[&longer[..]][..], &[shorter], &[&[]], &[]] {
            let stop = record_of(row, 40).err().expect("no record");
            assert_eq!(
                (stop.code, stop.why.as_str()),
                (DAMAGED, "a row of desk_journal at or behind call 40 is damaged")
            );
        }
    }

    #[test]
    fn a_place_is_a_bigint_with_the_highest_byte_first() {
        assert_eq!(bigint(0x102).ok(), Some([0, 0, 0, 0, 0, 0, 1, 2]));
        assert_eq!(bigint(u64::MAX).err().map(|stop| stop.code), Some(DAMAGED));
        assert_eq!(lock_key(&std::array::from_fn(|at| at as u8)), [0, 1, 2, 3, 4, 5, 6, 7]);
    }
}

//! Reading a site: the newest good snapshot, and the journal behind it (docs/DESK.md, 3.1). Nothing is written here.
use super::head::{self, Head};
use super::snapshot::Snapshot;
use super::{mark, segment_name, snapshot_name, Folder};
use crate::journal::{Place, Record, RECORD_HEAD};
use crate::site::{Replay, Site, SiteNumber};
use crate::{stop, system, Outcome, Stop, DAMAGED, USAGE};

/// How much of a site is wanted.
#[derive(Clone, Copy, Default)]
pub struct Want {
    /// The book after so many calls, not after all.
    pub to: Option<u64>,
    /// The snapshot alone: the journal is elsewhere.
    pub without_journal: bool,
    /// From snapshot 0 on, whatever newer ones there are.
    pub from_first: bool,
    /// A person has said that the site goes on with so many calls.
    pub accept_loss: Option<u64>,
}

/// The segment that the journal goes on in, and the byte where its records end.
#[derive(Clone, Copy, Debug, PartialEq, Eq)]
pub struct Tail {
    pub segment: u64,
    pub end: u64,
}

pub struct Found {
    pub site: Site,
    /// None where there is no segment yet.
    pub tail: Option<Tail>,
    pub notes: Vec<String>,
    pub replayed: u64,
    pub seconds: f64,
    /// Something behind the tail is damaged, and its loss was accepted.
    pub loss: bool,
}

/// Reads a site, which may be served meanwhile: the mark first, so that it is never ahead of what is read.
pub fn load(folder: &Folder, want: Want) -> Outcome<Found> {
    let mark = mark::read(folder);
    let mut notes = Vec::new();
    let mut site = newest(folder, want, &mut notes)?;
    let mut walk = Walk {
        folder,
        want,
        number: site.number,
        from: site.place,
        here: site.place,
        replay: Replay::new(&mut site),
        tail: None,
        torn: false,
        notes,
    };
    let mut loss = false;
    if folder.is_elsewhere() && !want.without_journal {
        if want.to.is_some() {
            return stop(USAGE, "the journal of this site is in PostgreSQL, and this command reads files");
        }
        walk.notes.push("the journal of this site is in PostgreSQL: this is its newest snapshot here".into());
    } else if !want.without_journal {
        let walked = walk.segments().and_then(|()| walk.compare(mark));
        if let Err(damage) = walked {
            loss = walk.accepts(damage)?;
        }
    }
    walk.replay.flush()?;
    let (tail, notes) = (walk.tail, walk.notes);
    let (replayed, seconds) = (walk.replay.done, walk.replay.seconds);
    Ok(Found { site, tail, notes, replayed, seconds, loss })
}

/// The newest snapshot that is good, of those that are wanted.
fn newest(folder: &Folder, want: Want, notes: &mut Vec<String>) -> Outcome<Site> {
    let all = folder.snapshots()?;
    if all.is_empty() {
        return match folder.segments()?.len() {
            0 => stop(USAGE, "there is no site in this folder; `desk init` makes one"),
            _ => stop(DAMAGED, "there is a journal in this folder, and no snapshot"),
        };
    }
    let wanted = |seq: &u64| *seq <= want.to.unwrap_or(u64::MAX) && (*seq == 0 || !want.from_first);
    for seq in all.into_iter().rev().filter(wanted) {
        match Snapshot::read(folder, seq) {
            Ok(site) => return Ok(site),
            Err(why) => notes.push(format!("{} is passed over: {why}", snapshot_name(seq))),
        }
    }
    stop(DAMAGED, format!("no snapshot is good: {}", notes.join("; ")))
}

/// What a walk along the segments found wrong, or a stop for another reason.
enum Fault {
    Damage(String),
    Stop(Stop),
}

impl From<Stop> for Fault {
    fn from(stop: Stop) -> Fault {
        Fault::Stop(stop)
    }
}

fn damage<T>(why: String) -> Result<T, Fault> {
    Err(Fault::Damage(why))
}

struct Walk<'a> {
    folder: &'a Folder,
    want: Want,
    number: SiteNumber,
    /// The snapshot's place.
    from: Place,
    /// Behind the last good record.
    here: Place,
    replay: Replay<'a>,
    tail: Option<Tail>,
    /// Bytes behind the end that are no record.
    torn: bool,
    notes: Vec<String>,
}

impl Walk<'_> {
    fn limit(&self) -> u64 {
        self.want.to.unwrap_or(u64::MAX)
    }

    /// All segments from the one in which the snapshot's place is.
    fn segments(&mut self) -> Result<(), Fault> {
        let all = self.folder.segments()?;
        let first = match all.iter().rposition(|seq| *seq <= self.from.seq) {
            Some(first) => first,
            None if all.is_empty() => return Ok(()),
            None => return damage(format!("the journal from call {} on is missing", self.from.seq)),
        };
        for (index, seq) in all.iter().enumerate().skip(first) {
            if self.here.seq >= self.limit() {
                break;
            }
            self.segment(*seq, index + 1 == all.len())?;
        }
        Ok(())
    }

    fn segment(&mut self, seq: u64, last: bool) -> Result<(), Fault> {
        let name = segment_name(seq);
        let bytes = system("reading the journal", std::fs::read(self.folder.path(&name)))?;
        let head = match Head::read(head::SEGMENT, &bytes) {
            Ok(head) => head,
            Err(why) => return damage(format!("{name}: {why}")),
        };
        if head.site != self.number || head.place.seq != seq {
            return damage(format!("{name} belongs to another site or another place"));
        }
        if seq >= self.from.seq && head.place != self.here {
            return damage(format!("{name} does not follow: calls before it are missing"));
        }
        let at = self.records(&bytes, head.place)?;
        self.tail = Some(Tail { segment: seq, end: at as u64 });
        let rest = &bytes[at..];
        self.torn = rest.iter().any(|byte| *byte != 0);
        if self.torn {
            self.end(&name, at, rest, last)?;
        }
        Ok(())
    }

    /// The records of a segment, as far as they are good and follow each other; those behind the snapshot are done again. Gives the
    /// byte where they end.
    fn records(&mut self, bytes: &[u8], start: Place) -> Result<usize, Fault> {
        let (mut at, mut here) = (head::LENGTH, start);
        while let Some(record) = Record::read(&bytes[at..]).filter(|record| record.before() == here) {
            if here.seq >= self.limit() {
                break;
            }
            if here.seq >= self.from.seq {
                if here != self.here {
                    return damage(format!("record {:016x} does not follow the snapshot", here.seq));
                }
                self.replay.add(&record, self.limit() - here.seq)?;
                self.here = record.after();
            }
            here = record.after();
            at += record.length();
        }
        Ok(at)
    }

    /// Bytes that are no record: torn, if nothing stands behind them and nobody was answered.
    fn end(&mut self, name: &str, at: usize, rest: &[u8], last: bool) -> Result<(), Fault> {
        if self.here.seq >= self.limit() {
            return Ok(());
        }
        if !last {
            return damage(format!("{name} is damaged at byte {at}, and a later segment stands behind it"));
        }
        for offset in (4..rest.len().saturating_sub(RECORD_HEAD)).step_by(4) {
            let later = Record::read(&rest[offset..]).filter(|record| record.before().seq > self.here.seq);
            if let Some(later) = later {
                return damage(format!(
                    "{name} is damaged at byte {at}, and record {:016x} behind it is whole",
                    later.before().seq
                ));
            }
        }
        self.notes.push(format!("{name} has a torn end at byte {at}: nobody was answered what stood there"));
        Ok(())
    }

    /// Is everything here that was answered?
    fn compare(&mut self, mark: Option<Place>) -> Result<(), Fault> {
        if let Some(to) = self.want.to {
            return if self.here.seq < to {
                Err(Fault::Stop(Stop { code: USAGE, why: format!("the journal ends behind call {}", self.here.seq) }))
            } else {
                Ok(())
            };
        }
        match mark {
            Some(mark) if mark.seq > self.here.seq || (mark.seq == self.here.seq && mark.chain != self.here.chain) => {
                damage(format!("{} calls were answered, and {} are here", mark.seq, self.here.seq))
            }
            Some(_) => Ok(()),
            None if self.torn => damage("the journal has a torn end, and no mark says what was answered".into()),
            None if self.tail.is_some() => {
                self.notes.push("there is no readable mark; the journal ends where a record ends".into());
                Ok(())
            }
            None => Ok(()),
        }
    }

    /// Damage ends a start, unless a person has accepted just this loss.
    fn accepts(&mut self, fault: Fault) -> Outcome<bool> {
        let why = match fault {
            Fault::Stop(stop) => return Err(stop),
            Fault::Damage(why) => why,
        };
        let seq = self.here.seq;
        if self.want.accept_loss == Some(seq) {
            self.notes.push(format!("{why}; as was said, the site goes on with the first {seq} calls"));
            return Ok(true);
        }
        stop(
            DAMAGED,
            format!(
                "{why}. Nothing was written. The first {seq} calls are whole: restore the folder from a backup, or let \
                 `desk serve --accept-loss {seq}` go on with these and put the rest aside"
            ),
        )
    }
}

//! The table of kinds, and questions 3 to 8, which need a request's words and the site alone.

use crate::site::{Answer, Request, Site};

/// No, with number and place.
pub type Refusal = Result<(), Answer>;

/// A line of the table: which limit a and b have (NONE for an unused field), the unit as an index of
/// `Site::slots`, whether n and info are used, and whether it asks about one slot.
struct Kind {
    a: usize,
    b: usize,
    unit: usize,
    n: bool,
    info: bool,
    one: bool,
}

const NONE: usize = 9;
const VISITORS: usize = 3;
const MEETINGS: usize = 4;
pub const ROOMS: usize = 5;
const DINING: usize = 6;
const HOTELS: usize = 7;
const TRANSPORTS: usize = 8;
const DATES: usize = 0;
const SESSIONS: usize = 1;
const TIMES: usize = 2;

const fn kind(a: usize, b: usize, unit: usize) -> Kind {
    Kind { a, b, unit, n: false, info: false, one: false }
}

const fn query(a: usize, b: usize, unit: usize) -> Kind {
    Kind { one: true, ..kind(a, b, unit) }
}

/// By kind; entry 0 is no kind and is never asked.
const KINDS: [Kind; 21] = [
    kind(NONE, NONE, DATES),
    kind(NONE, VISITORS, DATES),
    kind(NONE, VISITORS, DATES),
    kind(NONE, VISITORS, DATES),
    kind(HOTELS, VISITORS, DATES),
    kind(HOTELS, VISITORS, DATES),
    kind(TRANSPORTS, VISITORS, TIMES),
    kind(TRANSPORTS, VISITORS, TIMES),
    kind(MEETINGS, NONE, SESSIONS),
    kind(MEETINGS, NONE, SESSIONS),
    kind(MEETINGS, VISITORS, SESSIONS),
    kind(MEETINGS, VISITORS, SESSIONS),
    Kind { info: true, ..kind(ROOMS, MEETINGS, SESSIONS) },
    kind(NONE, MEETINGS, SESSIONS),
    Kind { n: true, info: true, ..kind(DINING, MEETINGS, DATES) },
    kind(DINING, MEETINGS, DATES),
    kind(NONE, MEETINGS, SESSIONS),
    query(NONE, VISITORS, SESSIONS),
    query(NONE, NONE, DATES),
    query(DINING, NONE, DATES),
    kind(NONE, NONE, SESSIONS),
];

/// Questions 4 to 8, whose place is 0. The kind is a constant, so that only what it uses is asked.
#[inline(always)]
pub fn form<const KIND: usize>(site: &Site, r: &Request) -> Refusal {
    let kind = const { &KINDS[KIND] };
    let unused = |used: bool, word: u32| if used { 0 } else { word };
    if unused(kind.a != NONE, r.a) | unused(kind.b != NONE, r.b) | unused(kind.n, r.n) | unused(kind.info, r.info) != 0
    {
        return Err(Answer::refused(4, 0));
    }
    if kind.a != NONE && r.a >= site.limits[kind.a] {
        return Err(Answer::refused(5, 0));
    }
    if kind.b != NONE && r.b >= site.limits[kind.b] {
        return Err(Answer::refused(6, 0));
    }
    if r.first > r.last || r.last >= site.slots[kind.unit] || (kind.one && r.first != r.last) {
        return Err(Answer::refused(7, 0));
    }
    if kind.n && r.n.wrapping_sub(1) >= site.capacities[r.a as usize] {
        return Err(Answer::refused(8, 0));
    }
    Ok(())
}

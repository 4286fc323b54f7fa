//! Where the conditions of the exchange are needed (rule 21.4), proofs/Sharing: pairs that share a date and differ, and
//! the pairs that the rules name.

use crate::common::{dates_of, no_date_shared, some_state, told, Counts};
use crate::exchange::{first_slot, share_by_number};
use second::calls::Call;
use second::gen::asking::{fitting, GREATEST};
use second::gen::requests::{candidate, state_after, time_on};
use second::gen::{list, Mix, Rng};
use second::machine::kinds::{uses, Thing, Unit};
use second::machine::{step, Request, State};

const SEED: u64 = 0x7ef0;

/// The number by which a request names such a thing, if it does.
fn named(request: &Request, thing: Thing) -> Option<u32> {
    let used = uses(request.kind)?;
    let by_a = used.a.filter(|of| *of == thing).map(|_| request.a);
    by_a.or(used.b.filter(|of| *of == thing).map(|_| request.b))
}

/// A request for one slot on the first date of the other, about the same things where their kinds have some in common.
fn linked(rng: &mut Rng, state: &State, other: &Request) -> Request {
    let kind = rng.between(1, 16);
    let mut request = candidate(rng, state, kind);
    let used = uses(kind).expect("a kind of the table");
    request.a = used.a.and_then(|thing| named(other, thing)).unwrap_or(request.a);
    request.b = used.b.and_then(|thing| named(other, thing)).unwrap_or(request.b);
    if let Some((date, _)) = dates_of(state, other).filter(|(date, _)| date.0 < state.settings.dates) {
        request.first = match used.unit {
            Unit::Times => time_on(rng, &state.settings, date).0,
            _ => first_slot(state, kind, date),
        };
        request.last = request.first;
    }
    request
}

/// How the two orders of a pair differ; None where they do not.
fn difference(state: &State, one: &Request, other: &Request) -> Option<&'static str> {
    let sent = |pair: [&Request; 2]| told(state, &pair.map(|request| Call::Request(*request)));
    let (replies, after) = sent([one, other]);
    let (exchanged, after_exchanged) = sent([other, one]);
    match (replies[0] == exchanged[1], replies[1] == exchanged[0]) {
        (true, true) if after == after_exchanged => None,
        (true, true) => Some("the book alone"),
        (false, false) => Some("both answers"),
        _ => Some("one answer"),
    }
}

/// Rule 21.4: the condition is needed. Among pairs that share a date there are those that differ, of many kinds, also
/// where no slot has the same number, and where the date is shared by early times alone; no pair that shares none does.
#[test]
fn pairs_that_share_a_date_and_differ() {
    let mut rng = Rng::new(SEED);
    let (mut ways, mut kinds, mut slots) = (Counts::new(), Counts::new(), Counts::new());
    for turn in 0..1200 {
        let mut state = some_state(&mut rng);
        if turn % 2 == 0 {
            state = State::empty(state.settings);
            list(&mut rng, &mut state, 12, Mix::USUAL);
        }
        for _ in 0..40 {
            let one = fitting(&mut rng, &state);
            let mut later = state.clone();
            step(&mut later, &one);
            let other = if rng.percent(75) { linked(&mut rng, &later, &one) } else { fitting(&mut rng, &later) };
            let Some(way) = difference(&state, &one, &other) else { continue };
            assert!(!no_date_shared(&state, &one, &other), "{one:?} and {other:?}");
            ways.add(way);
            kinds.add((one.kind.min(other.kind), one.kind.max(other.kind)));
            let no_number = one.first > other.last || other.first > one.last;
            slots.add(match (share_by_number(&state, &one, &other), no_number) {
                (false, _) => "a date by early times alone",
                (true, true) => "a date, no slot of the same number",
                (true, false) => "a date",
            });
        }
    }
    ways.want(SEED, "pairs that differ", ["one answer", "both answers", "the book alone"], 20);
    let needed = [(1, 4), (1, 6), (1, 10), (8, 10), (8, 12), (8, 14)];
    let others = [(2, 4), (3, 6), (4, 4), (6, 6), (9, 14), (10, 10), (12, 12), (12, 13), (14, 14), (14, 15)];
    kinds.want(SEED, "pairs that differ by kinds", needed.into_iter().chain(others), 10);
    let sorts = ["a date by early times alone", "a date, no slot of the same number", "a date"];
    slots.want(SEED, "pairs that differ, by what they share", sorts, 10);
}

/// The settings of rules 13.1 and 13.5.
const SITE: [u32; 11] = [2, 2, 2, 3, 2, 2, 1, 2, 1, 0, 4];
const EARLY_SITE: [u32; 11] = [3, 1, 4, 2, 1, 1, 1, 1, 2, 1, 4];

/// A line of rule 21.4's table: the site, fresh, and its count; two requests, and whether they share a date; number and
/// place for each when the first comes first, and when the second does.
struct Line {
    site: [u32; 11],
    count: u32,
    pair: [[u32; 7]; 2],
    share: bool,
    told: [[u32; 2]; 2],
    exchanged: [[u32; 2]; 2],
}

const fn line(pair: [[u32; 7]; 2], share: bool, told: [[u32; 2]; 2], exchanged: [[u32; 2]; 2]) -> Line {
    Line { site: SITE, count: 0, pair, share, told, exchanged }
}

const DONE: [u32; 2] = [0, 0];
const STANDING: [u32; 7] = [8, 0, 0, 1, 1, 0, 0];
const RIDE: [u32; 7] = [6, 0, 0, 4, 4, 0, 0];
const LEAVE_0: [u32; 7] = [1, 0, 0, 0, 0, 0, 0];
const LEAVE_1: [u32; 7] = [1, 0, 0, 1, 1, 0, 0];

const TABLE: [Line; 6] = [
    line([[1, 0, 1, 0, 1, 0, 0], [4, 0, 1, 0, 1, 0, 0]], true, [DONE, DONE], [DONE, [9, 0]]),
    line([STANDING, [14, 0, 0, 0, 0, 4, 7]], true, [DONE, DONE], [DONE, [10, 0]]),
    line([STANDING, [14, 0, 0, 1, 1, 4, 7]], false, [DONE, [10, 1]], [DONE, [10, 1]]),
    Line { site: EARLY_SITE, ..line([LEAVE_0, RIDE], true, [DONE, DONE], [DONE, [9, 4]]) },
    Line { site: EARLY_SITE, ..line([LEAVE_1, RIDE], false, [DONE, [9, 4]], [DONE, [9, 4]]) },
    Line { count: GREATEST - 1, ..line([LEAVE_0, LEAVE_1], false, [DONE, [30, 0]], [[30, 0], DONE]) },
];

/// The table of docs/RULES.md (rule 21.4). The answers of a line are those to its first and its second request.
#[test]
fn the_pairs_of_the_rules() {
    for line in &TABLE {
        let start = State { changes: line.count, ..state_after(&line.site, &[]) };
        let [one, other] = line.pair.map(Request::from_words);
        assert_eq!(no_date_shared(&start, &one, &other), !line.share, "{:?}", line.pair);
        let sent = |pair: [Request; 2]| {
            let replies = told(&start, &pair.map(Call::Request)).0;
            [0, 1].map(|at: usize| replies[at].answer().words())
        };
        let with_value = |answers: [[u32; 2]; 2]| answers.map(|[number, place]| [number, place, 0]);
        assert_eq!(sent([one, other]), with_value(line.told), "{:?}", line.pair);
        let [second, first] = sent([other, one]);
        assert_eq!([first, second], with_value(line.exchanged), "{:?}", line.pair);
    }
    let [ride, next] = [RIDE, [6, 0, 0, 5, 5, 0, 0]].map(Request::from_words);
    assert!(no_date_shared(&state_after(&EARLY_SITE, &[]), &ride, &next), "though 4 / 4 and 5 / 4 are the same");
}

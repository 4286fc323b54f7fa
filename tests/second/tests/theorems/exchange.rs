//! Two offices, two dates (rules 21.1 and 21.2), proofs/Exchange: two neighbouring requests that share no date change
//! places anywhere in a list of calls.

use crate::common::{dates_of, is_done, no_date_shared, some_state, told, Counts};
use second::book::{self, words};
use second::calls::{on_book, Call, Reply};
use second::gen::asking::{calls, fitting, GREATEST};
use second::gen::orders::{list_words, some_book, Plan, Sent};
use second::gen::requests::{candidate, opening};
use second::gen::{site, Rng, Size};
use second::machine::kinds::{changes_something, uses, Unit};
use second::machine::questions::first_before_30;
use second::machine::ring::NO_ORDER;
use second::machine::{step, Date, Request, State};

const SEED: u64 = 0x7ed0;

/// How many candidates are drawn for a request or a pair that is wanted.
const TRIES: u32 = 12;

/// A list of calls with two neighbouring requests in it.
struct List {
    before: Vec<Call>,
    left: Request,
    right: Request,
    behind: Vec<Call>,
}

impl List {
    /// The list with these two in the middle.
    fn with(&self, pair: [Request; 2]) -> Vec<Call> {
        [&self.before[..], &pair.map(Call::Request), &self.behind].concat()
    }

    fn in_order(&self) -> Vec<Call> {
        self.with([self.left, self.right])
    }

    fn exchanged(&self) -> Vec<Call> {
        self.with([self.right, self.left])
    }
}

/// The list of these calls, these two, and others behind them, of every sort.
fn list_of(rng: &mut Rng, start: &State, before: Vec<Call>, pair: (Request, Request)) -> List {
    let mut state = told(start, &before).1;
    for request in [&pair.0, &pair.1] {
        step(&mut state, request);
    }
    let length = rng.below(6) as usize;
    let plan = Plan::any(rng);
    let behind = calls(rng, &mut state, length, plan);
    List { before, left: pair.0, right: pair.1, behind }
}

/// The first slot of the date, in the unit of the kind.
pub fn first_slot(state: &State, kind: u32, date: Date) -> u32 {
    let s = &state.settings;
    match uses(kind).expect("a kind of the table").unit {
        Unit::Dates => date.0,
        Unit::Sessions => s.sessions_of(date).next().expect("a date has sessions").0,
        Unit::Times => s.times_of(date).next().expect("a date has times").0,
    }
}

/// A request of some kind that ends with the last slot before the date, or else begins with the date's first; one that
/// would be done, if such a one is drawn.
fn touching(rng: &mut Rng, state: &State, date: Date, ends: bool) -> Request {
    let kind = if rng.percent(25) { rng.pick(&[6, 7]) } else { rng.between(1, 20) };
    let edge = first_slot(state, kind, date);
    let slots = uses(kind).expect("a kind of the table").unit.slots(&state.settings);
    let mut request = candidate(rng, state, kind);
    for _ in 0..TRIES {
        request = candidate(rng, state, kind);
        let reach = (request.last - request.first).min(2);
        (request.first, request.last) = match ends {
            true => ((edge - 1).saturating_sub(reach), edge - 1),
            false => (edge, (edge + reach).min(slots - 1)),
        };
        if first_before_30(state, &request).is_none() {
            break;
        }
    }
    request
}

/// Two requests on both sides of where a date begins.
fn at_an_edge(rng: &mut Rng, state: &State) -> (Request, Request) {
    let date = Date(rng.between(1, state.settings.dates - 1));
    (touching(rng, state, date, true), touching(rng, state, date, false))
}

/// Two requests for this state that share no date, if such are drawn; of any kinds, known or not.
fn apart(rng: &mut Rng, state: &State) -> Option<(Request, Request)> {
    for _ in 0..TRIES {
        let pair = match state.settings.dates > 1 && rng.percent(60) {
            true => at_an_edge(rng, state),
            false => (fitting(rng, state), fitting(rng, state)),
        };
        if no_date_shared(state, &pair.0, &pair.1) {
            return Some(if rng.percent(50) { pair } else { (pair.1, pair.0) });
        }
    }
    None
}

/// Rule 21.2: when the two change places, every reply goes with its call, the two have the answers that each would have
/// right behind the calls before them, and the book is the same in every word. The two answers.
fn change_places(start: &State, list: &List) -> [Reply; 2] {
    let pair = (&list.left, &list.right);
    let at = list.before.len();
    let first = |request: Request| told(start, &[&list.before[..], &[Call::Request(request)]].concat()).0[at];
    let answers = [first(list.left), first(list.right)];
    let (mut replies, state) = told(start, &list.in_order());
    let (replies_exchanged, exchanged) = told(start, &list.exchanged());
    assert_eq!(replies[at..at + 2], answers, "{pair:?}");
    replies.swap(at, at + 1);
    assert_eq!(replies, replies_exchanged, "{pair:?}");
    assert!(state == exchanged && words(&state) == words(&exchanged), "{pair:?}");
    answers
}

fn unit_name(kind: u32) -> Option<&'static str> {
    Some(match uses(kind)?.unit {
        Unit::Dates => "dates",
        Unit::Sessions => "sessions",
        Unit::Times => "times",
    })
}

/// The units of two requests of which the second begins with a date and the first ends with the date before.
fn edge_of(state: &State, one: &Request, other: &Request) -> Option<(&'static str, &'static str)> {
    let units = (unit_name(one.kind)?, unit_name(other.kind)?);
    let (end, begin) = (dates_of(state, one)?.1, dates_of(state, other)?.0);
    let next = Request { last: one.last.checked_add(1)?, ..*one };
    let previous = Request { first: other.first.checked_sub(1)?, ..*other };
    let at_end = dates_of(state, &next)?.1 == begin && end.0 + 1 == begin.0;
    (at_end && dates_of(state, &previous)?.0 == end).then_some(units)
}

/// Would the two share a date if a time were on the date that it is numbered under?
pub fn share_by_number(state: &State, one: &Request, other: &Request) -> bool {
    let mut numbered = state.clone();
    numbered.settings.early = 0;
    !no_date_shared(&numbered, one, other)
}

/// Rule 21.1 word by word, beside the way that the other tests find it.
#[test]
fn dates_of_slots() {
    let mut rng = Rng::new(SEED);
    let mut counts = Counts::new();
    for _ in 0..400 {
        let state = State::empty(site(&mut rng, Size::Small));
        for _ in 0..10 {
            let pair = [0; 2].map(|_| {
                let kind = rng.between(1, 20);
                candidate(&mut rng, &state, kind)
            });
            let [one, other] = pair.map(|request| {
                let at = |slot| Request { first: slot, last: slot, ..request };
                let dates = (request.first..=request.last).map(|slot| dates_of(&state, &at(slot)).expect("a kind").0);
                dates.collect::<Vec<Date>>()
            });
            let shared = one.iter().any(|date| other.contains(date));
            assert_eq!(no_date_shared(&state, &pair[0], &pair[1]), !shared, "{pair:?}");
            counts.add((shared, share_by_number(&state, &pair[0], &pair[1])));
        }
    }
    let sorts = [(true, true), (true, false), (false, true), (false, false)];
    counts.want(SEED, "pairs by date shared, and shared by the number of times", sorts, 20);
}

/// What the lists were that the neighbours of the next test stand in.
struct Met {
    done: Counts<u32>,
    refused: Counts<u32>,
    edges: Counts<(&'static str, &'static str)>,
    by_number: Counts<bool>,
    around: Counts<(&'static str, bool)>,
}

impl Met {
    fn add(&mut self, state: &State, list: &List, answers: [Reply; 2]) {
        let (left, right) = (&list.left, &list.right);
        for (request, reply) in [left, right].into_iter().zip(answers) {
            match reply.answer().number() {
                0 => self.done.add(request.kind),
                number => self.refused.add(number),
            }
        }
        let edge = edge_of(state, left, right).or_else(|| edge_of(state, right, left));
        edge.into_iter().for_each(|units| self.edges.add(units));
        self.by_number.add(share_by_number(state, left, right));
        list.before.iter().for_each(|call| self.around.add((call.name(), false)));
        list.behind.iter().for_each(|call| self.around.add((call.name(), true)));
    }

    fn want(&self, seed: u64) {
        self.done.want(seed, "changed places, done by kind", 1..=20, 40);
        self.refused.want(seed, "changed places, refused by number", 3..=22, 10);
        let units = ["dates", "sessions", "times"];
        let all = units.into_iter().flat_map(|one| units.map(|other| (one, other)));
        self.edges.want(seed, "at the edge of a date, by the units of the earlier and the later", all, 40);
        self.by_number.want(seed, "sharing a date by the numbers of times, though by 2.2 none", [true], 100);
        let calls = ["request", "order", "party", "ask", "commit"];
        let sorts = calls.into_iter().flat_map(|call| [(call, false), (call, true)]);
        self.around.want(seed, "calls of these lists, and whether behind the two", sorts, 100);
    }
}

/// Rule 21.2, from fresh books and from others, at counts that can rise by two.
#[test]
fn neighbours_change_places_in_lists_of_calls() {
    let mut rng = Rng::new(SEED + 1);
    let (done, refused, edges) = (Counts::new(), Counts::new(), Counts::new());
    let mut met = Met { done, refused, edges, by_number: Counts::new(), around: Counts::new() };
    for turn in 0..400 {
        let (start, opened) = if turn % 2 == 0 {
            let fresh = State::empty(site(&mut rng, Size::Small));
            let opened = opening(&mut rng, &fresh.settings);
            (fresh, opened.into_iter().map(Call::Request).collect())
        } else {
            (some_state(&mut rng), Vec::new())
        };
        let mut state = told(&start, &opened).1;
        let plan = Plan::any(&mut rng);
        let length = rng.below(20) as usize;
        let before = [opened, calls(&mut rng, &mut state, length, plan)].concat();
        for _ in 0..20 {
            let Some(pair) = apart(&mut rng, &state) else { continue };
            let list = list_of(&mut rng, &start, before.clone(), pair);
            met.add(&state, &list, change_places(&start, &list));
        }
    }
    met.want(SEED + 1);
}

/// The only exception: the count before the two is one below the greatest, and each would be done as a change. Then the
/// one that comes first is done, and 30 refuses the other. Every other pair near the end of the count changes places.
#[test]
fn all_but_two_changes_at_the_last_count() {
    let mut rng = Rng::new(SEED + 2);
    let mut counts = Counts::new();
    for _ in 0..240 {
        let deep = some_state(&mut rng);
        for _ in 0..16 {
            let start = State { changes: GREATEST - rng.below(5), ..deep.clone() };
            let length = rng.below(3) as usize;
            let plan = Plan::any(&mut rng);
            let mut state = start.clone();
            let before = calls(&mut rng, &mut state, length, plan);
            let Some(pair) = apart(&mut rng, &state) else { continue };
            let raises = |r: &Request| changes_something(r.kind) && first_before_30(&state, r).is_none();
            let both = raises(&pair.0) && raises(&pair.1);
            let list = list_of(&mut rng, &start, before, pair);
            if both && state.changes == GREATEST - 1 {
                one_is_done(&start, &list);
            } else {
                change_places(&start, &list);
            }
            counts.add((GREATEST - state.changes, both));
        }
    }
    let sorts = (0..4).flat_map(|left| [(left, false), (left, true)]);
    counts.want(SEED + 2, "by how often the count can rise, and whether both would be done as changes", sorts, 20);
}

fn one_is_done(start: &State, list: &List) {
    for calls in [list.in_order(), list.exchanged()] {
        let replies = told(start, &calls).0;
        let at = list.before.len();
        assert!(is_done(replies[at].answer()), "{calls:?}");
        assert_eq!(replies[at + 1].words(), [30, 0, 0], "{calls:?}");
    }
}

/// The same on words, those of no lawful book included: calls one after the other, and lists as words.
#[test]
fn neighbours_change_places_on_words() {
    let mut rng = Rng::new(SEED + 3);
    let mut counts = Counts::new();
    for _ in 0..500 {
        let state = some_state(&mut rng);
        let Some(pair) = apart(&mut rng, &state) else { continue };
        let book = some_book(&mut rng, &state);
        let plan = Plan::any(&mut rng);
        let before = calls(&mut rng, &mut state.clone(), 2, plan);
        let list = list_of(&mut rng, &state, before, pair);
        let on_words = |calls: &[Call]| {
            let mut book = book.clone();
            let replies: Vec<Reply> = calls.iter().map(|call| on_book(&mut book, call)).collect();
            (replies, book)
        };
        let (mut replies, one) = on_words(&list.in_order());
        let (replies_exchanged, other) = on_words(&list.exchanged());
        let at = list.before.len();
        replies.swap(at, at + 1);
        assert!(replies == replies_exchanged && one == other, "{pair:?}");
        as_a_list(&mut rng, &state, &book, pair);
        counts.add(replies[at].answer().number().min(3));
    }
    counts.want(SEED + 3, "words by the answer to the second (3 for more)", 0..=3, 10);
}

/// Requests and orders as words, on the book and from laying it: three words of answers change places with three, and all
/// others stay.
fn as_a_list(rng: &mut Rng, state: &State, book: &[u32], pair: (Request, Request)) {
    let [before, behind] = [0; 2].map(|_| Sent { order: rng.below(3), request: fitting(rng, state) });
    let settings = state.settings.words();
    let listed = |form: &str, middle: [Request; 2]| {
        let [one, other] = middle.map(|request| Sent { order: NO_ORDER, request });
        let orders = [before, one, other, behind];
        let requests: Vec<u32> = orders.iter().flat_map(|sent| sent.request.words()).collect();
        let orders = list_words(&orders);
        let (mut book, mut answers) = (book.to_vec(), vec![77; 14]);
        let answer = match form {
            "requests" => book::requests(&mut book, &requests, &mut answers),
            "orders" => book::orders(&mut book, &orders, &mut answers),
            "serve" => book::serve(&settings, &mut book, &requests, &mut answers),
            _ => book::serve_orders(&settings, &mut book, &orders, &mut answers),
        };
        (answer, answers, book)
    };
    for form in ["requests", "orders", "serve", "serve_orders"] {
        let (answer, mut answers, one) = listed(form, [pair.0, pair.1]);
        let (answer_exchanged, answers_exchanged, other) = listed(form, [pair.1, pair.0]);
        answers[3..9].rotate_left(3);
        assert_eq!((answer, answers), (answer_exchanged, answers_exchanged), "{form} {pair:?}");
        assert!(one == other, "{form} {pair:?}");
    }
}

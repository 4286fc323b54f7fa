//! The generator reaches what it is for: every kind done, every number 3 to 22 over lists, 1 and
//! 2 over calls on raw books, 24 and 25 over layings, 23 over lines.

use second::book::{self, check, lay, length, words, Rule};
use second::calls::{perform, Call};
use second::frames::{frames, lines};
use second::gen::asking;
use second::gen::cases::{self, Case};
use second::gen::charges;
use second::gen::conflicts::{conflicts_of, edges, Conflict, CONFLICTS};
use second::gen::early;
use second::gen::endings::Ending;
use second::gen::orders::{self, Sent};
use second::gen::pages::{Lent, Sort};
use second::gen::parties;
use second::gen::requests::opening;
use second::gen::sites::bad_settings;
use second::gen::{clean_stream, damaged_stream, deep_state, junk_book, list, site, tables, Mix, Rng, Size};
use second::machine::kinds::uses;
use second::machine::{run, step, Answer, Request, State};
use std::collections::BTreeMap;
use std::fmt::Debug;

const SEED: u64 = 0x5eed;

fn count<Key: Ord>(counts: &mut BTreeMap<Key, u32>, key: Key) {
    *counts.entry(key).or_default() += 1;
}

/// Counts a request by its kind if it is done, and by its number if it is refused.
fn count_answer(done: &mut BTreeMap<u32, u32>, refused: &mut BTreeMap<u32, u32>, kind: u32, answer: &Answer) {
    match answer {
        Answer::Done(_) => count(done, kind),
        Answer::Refused { number, .. } => count(refused, *number),
    }
}

/// Each of the keys was counted at least so often.
fn want<Key: Ord + Debug>(counts: &BTreeMap<Key, u32>, keys: impl IntoIterator<Item = Key>, least: u32) {
    for key in keys {
        let met = counts.get(&key).copied().unwrap_or(0);
        assert!(met >= least, "{key:?} was met {met} times, wanted {least}");
    }
}

/// Lists over sites of all sizes; after each request the laws hold and a refusal changed nothing.
#[test]
fn lists_reach_every_kind_and_every_number() {
    let mut rng = Rng::new(SEED);
    let (mut done, mut refused, mut conflicts) = (BTreeMap::new(), BTreeMap::new(), BTreeMap::new());
    let mut endings = BTreeMap::new();
    for _ in 0..400 {
        let mut state = State::empty(site(&mut rng, Size::Any));
        let start = opening(&mut rng, &state.settings);
        run(&mut state, &start);
        let mut replayed = state.clone();
        let requests = list(&mut rng, &mut state, 60, Mix::USUAL);
        for request in &requests {
            conflicts_of(&replayed, request).into_iter().for_each(|decided| count(&mut conflicts, decided));
            Ending::of(&replayed, request).into_iter().for_each(|sort| count(&mut endings, sort));
            count_answer(&mut done, &mut refused, request.kind, &step(&mut replayed, request));
        }
        assert_eq!(replayed, state);
        assert!(book::laws_broken(&state).is_empty());
    }
    println!("seed {SEED}: done by kind {done:?}, refused by number {refused:?}, conflicts decided {conflicts:?}");
    println!("seed {SEED}: sorts of kind 9 {endings:?}");
    want(&done, 1..=20, 30);
    want(&refused, 3..=22, 30);
    want(&conflicts, CONFLICTS, 2);
    want(&endings, Ending::ALL, 5);
}

/// Every fault of form, alone and with each other: questions 3 to 8 all say no to some.
#[test]
fn edges_meet_3_to_8() {
    let mut rng = Rng::new(SEED + 6);
    let (mut numbers, mut by_kind) = (BTreeMap::new(), BTreeMap::new());
    let settings = site(&mut rng, Size::Small);
    let mut state = deep_state(&mut rng, settings, 30);
    for request in edges(&mut rng, &state) {
        let number = step(&mut state, &request).number();
        count(&mut numbers, number);
        count(&mut by_kind, (request.kind, number));
    }
    println!("seed {}: edges by number {numbers:?}", SEED + 6);
    want(&by_kind, [(0, 3), (21, 3), (14, 8)], 1);
    for (kind, used) in (1..=20).map(|kind| (kind, uses(kind).expect("a kind of the table"))) {
        let unused = used.a.is_none() || used.b.is_none() || !used.n || !used.info;
        let asked = [(4, unused), (5, used.a.is_some()), (6, used.b.is_some()), (7, true)];
        want(&by_kind, asked.into_iter().filter(|(_, asked)| *asked).map(|(number, _)| (kind, number)), 3);
    }
}

/// A call on a raw book is the machine's step from the state shown, and a refused one keeps it.
#[test]
fn calls_on_raw_books() {
    let mut rng = Rng::new(SEED + 1);
    let mut numbers = BTreeMap::new();
    for _ in 0..3000 {
        let lawful = rng.percent(40);
        let settings = site(&mut rng, Size::Small);
        let mut state = deep_state(&mut rng, settings, 20);
        let mut book = if lawful { words(&state) } else { junk_book(&mut rng) };
        let before = book.clone();
        let request = list(&mut rng, &mut state, 1, Mix::USUAL)[0];
        let answer = book::request(&mut book, &request);
        if answer.number() != 0 {
            assert_eq!(book, before);
        } else if lawful {
            assert_eq!(book, words(&state));
        }
        count(&mut numbers, answer.number());
    }
    println!("seed {}: calls on raw books {numbers:?}", SEED + 1);
    want(&numbers, 0..=2, 100);
    want(&numbers, 3..=21, 2);
}

/// `requests` answers as `request` does one by one, as many as both slices hold.
#[test]
fn a_list_of_calls_answers_as_the_calls_one_by_one() {
    let mut rng = Rng::new(SEED + 2);
    let mut rooms = BTreeMap::new();
    for _ in 0..240 {
        let settings = site(&mut rng, Size::Small);
        let mut state = deep_state(&mut rng, settings, 20);
        let (mut whole, mut single) = (words(&state), words(&state));
        let requests = list(&mut rng, &mut state, 12, Mix::USUAL);
        let mut asked: Vec<u32> = requests.iter().flat_map(Request::words).collect();
        asked.extend(vec![9; rng.below(7) as usize]);
        let mut answers = vec![99; rng.between(20, 40) as usize];
        let number = (asked.len() / 7).min(answers.len() / 3);
        count(&mut rooms, (number < requests.len(), !asked.len().is_multiple_of(7)));
        assert_eq!(book::requests(&mut whole, &asked, &mut answers), Answer::Done(number as u32));
        for (at, request) in requests[..number].iter().enumerate() {
            let answer = book::request(&mut single, request);
            assert_eq!(answers[3 * at..3 * at + 3], answer.words());
        }
        assert_eq!(whole, single);
        assert!(answers[3 * number..].iter().all(|word| *word == 99));
    }
    println!("seed {}: lists by too little room and by words left over {rooms:?}", SEED + 2);
    want(&rooms, [(false, false), (false, true), (true, false), (true, true)], 3);
}

#[test]
fn layings_reach_24_and_25() {
    let mut rng = Rng::new(SEED + 3);
    let mut numbers = BTreeMap::new();
    for turn in 0..600 {
        let good = site(&mut rng, Size::Small);
        let settings = if turn % 3 == 0 { bad_settings(&mut rng) } else { good.words() };
        let wrong = if turn % 3 == 1 { rng.between(1, 3) as usize } else { 0 };
        let mut lent = vec![rng.word(); length(&good) as usize + wrong];
        let before = lent.clone();
        let answer = lay(&settings, &mut lent);
        match answer {
            Answer::Done(value) => assert_eq!((value, lent), (0, words(&State::empty(good)))),
            Answer::Refused { .. } => assert_eq!(lent, before),
        }
        count(&mut numbers, answer.number());
    }
    println!("seed {}: layings {numbers:?}", SEED + 3);
    want(&numbers, [0, 24, 25], 100);
}

#[test]
fn streams_reach_23_to_25() {
    let mut rng = Rng::new(SEED + 4);
    let mut numbers = BTreeMap::new();
    for turn in 0..800 {
        let stream = if turn % 2 == 0 { clean_stream(&mut rng, 20) } else { damaged_stream(&mut rng, 20) };
        let out = frames(&stream);
        for line in lines(&out) {
            let words = second::frames::line_words(line).expect("an answer line is whole words");
            assert_eq!(words.len(), 3);
            count(&mut numbers, words[0]);
        }
        if turn % 2 == 0 {
            assert_eq!(lines(&out).len() + 1, lines(&stream).len());
        }
    }
    println!("seed {}: lines by number {numbers:?}", SEED + 4);
    want(&numbers, [0, 23, 24, 25], 10);
    want(&numbers, (3..=22).filter(|number| *number != 14), 5);
}

/// The single cases for the specification check: 0 to 2, 24 and 25 occur, each question of a page, parties of
/// 64 and 65, orders and lists of both lengths, and every input is short.
#[test]
fn cases_hold_every_sort() {
    let (mut numbers, mut rules, mut pages) = (BTreeMap::new(), BTreeMap::new(), BTreeMap::new());
    let (mut admitted, mut ordered, mut listed) = (BTreeMap::new(), BTreeMap::new(), BTreeMap::new());
    let all = cases::cases(SEED + 5);
    for case in &all {
        match case {
            Case::Check { answer, .. } | Case::Call { answer, .. } | Case::Lay { answer, .. } => {
                count(&mut numbers, answer.number())
            }
            Case::Page { book, date, answer, after, .. } => {
                let lent = Lent { book: book.clone(), date: *date, page: after.clone() };
                Sort::of(&lent, answer.number()).into_iter().for_each(|sort| count(&mut pages, sort))
            }
            Case::Party { before, meeting, guests, answer, .. } => {
                let lent = parties::Lent { book: before.clone(), meeting: *meeting, guests: guests.clone() };
                parties::Sort::of(&lent, answer.words()).into_iter().for_each(|sort| count(&mut admitted, sort))
            }
            Case::Order { answer, .. } => count(&mut ordered, answer.number().min(31)),
            Case::Ask { .. } | Case::Commit { .. } | Case::Charge { .. } => {}
            Case::List(case) => count(&mut listed, (case.words_each, case.settings.is_some(), case.answer.number())),
            Case::Input { input, output } => assert_eq!(frames(input), *output),
        }
        let Case::Check { book, .. } = case else { continue };
        let settings = book::calls::question_1(book);
        let broken = settings.map(|settings| book::broken(settings, book)).unwrap_or_default();
        broken.into_iter().for_each(|rule| count(&mut rules, rule));
    }
    println!("seed {}: {} cases, by number {numbers:?}, broken {rules:?}, pages {pages:?}", SEED + 5, all.len());
    want(&numbers, [0, 1, 2, 24, 25], 4);
    want(&pages, [Sort::Refused(7), Sort::Refused(26), Sort::Lines(0), Sort::Lines(2)], 2);
    want(&pages, [Sort::OneByteShort, Sort::Exact, Sort::Longer, Sort::Unattended, Sort::SeveralSessions], 2);
    println!("seed {}: parties {admitted:?}", SEED + 5);
    want(&admitted, [parties::Sort::Done(2), parties::Sort::Done(64), parties::Sort::OneTooMany], 1);
    println!("seed {}: orders by number {ordered:?}, lists {listed:?}", SEED + 5);
    want(&ordered, [0, 2, 28], 1);
    want(&listed, [(7, false, 0), (8, false, 0), (7, true, 0), (8, true, 0)], 1);
    want(&listed, [(7, false, 2), (8, false, 2), (7, true, 24)], 1);
    want(&rules, Rule::breakable(), 2);
}

/// Asks and commits of the cases: done, on a book that is none, at another count, and at the greatest.
#[test]
fn cases_have_asks_and_commits() {
    let mut counted = BTreeMap::new();
    for case in cases::cases(SEED + 5) {
        match case {
            Case::Ask { asked, .. } => count(&mut counted, ("ask", asked.answer.number())),
            Case::Commit { answer, .. } => count(&mut counted, ("commit", answer.number())),
            _ => {}
        }
    }
    println!("seed {}: asks and commits by number {counted:?}", SEED + 5);
    want(&counted, [0, 2, 30].map(|number| ("ask", number)), 1);
    want(&counted, [0, 2, 29, 30].map(|number| ("commit", number)), 1);
}

/// Charges of the cases: each number, amounts of 32 bits and of more, nine room-sessions and ten, each way to round.
#[test]
fn cases_have_charges() {
    let mut sorts = BTreeMap::new();
    for case in cases::cases(SEED + 5) {
        if let Case::Charge { lent, charged } = case {
            let [number, _, value] = charged.words();
            charges::Sort::of(&lent, number as u32, value).into_iter().for_each(|sort| count(&mut sorts, sort));
        }
    }
    println!("seed {}: charges {sorts:?}", SEED + 5);
    want(&sorts, charges::Sort::all(), 1);
}

/// What the steps of the tables reach, each sort counted.
#[derive(Default)]
struct Steps {
    done: BTreeMap<u32, u32>,
    refused: BTreeMap<u32, u32>,
    conflicts: BTreeMap<Conflict, u32>,
    endings: BTreeMap<Ending, u32>,
    times: BTreeMap<early::Sort, u32>,
    admitted: BTreeMap<parties::Sort, u32>,
    ordered: BTreeMap<orders::Sort, u32>,
    asks: BTreeMap<asking::Sort, u32>,
    /// Asks and commits by what they are, and whether their answer is done.
    told: BTreeMap<(&'static str, bool), u32>,
}

impl Steps {
    fn count(&mut self, before: &State, call: &Call, answer: &Answer) {
        asking::Sort::of(before, call).into_iter().for_each(|sort| count(&mut self.asks, sort));
        match call {
            Call::Request(request) => {
                conflicts_of(before, request).into_iter().for_each(|decided| count(&mut self.conflicts, decided));
                Ending::of(before, request).into_iter().for_each(|sort| count(&mut self.endings, sort));
                early::Sort::of(before, request).into_iter().for_each(|sort| count(&mut self.times, sort));
                count_answer(&mut self.done, &mut self.refused, request.kind, answer);
            }
            Call::Order { order, request } => {
                let sorts = orders::Sort::of(before, &Sent { order: *order, request: *request });
                sorts.into_iter().for_each(|sort| count(&mut self.ordered, sort));
            }
            Call::Party { meeting, guests } => {
                let sorts = parties::Sort::of_party(before, *meeting, guests, answer.words());
                sorts.into_iter().for_each(|sort| count(&mut self.admitted, sort));
            }
            Call::Ask(_) => count(&mut self.told, ("ask", answer.number() == 0)),
            Call::Commit { .. } => count(&mut self.told, ("commit", answer.number() == 0)),
        }
    }

    fn want_all(&self) {
        want(&self.done, 1..=20, 1);
        want(&self.refused, 3..=22, 1);
        want(&self.conflicts, CONFLICTS, 1);
        want(&self.endings, Ending::ALL, 1);
        want(&self.times, early::Sort::ALL, 1);
        want(&self.admitted, tables::parties_wanted(), 1);
        want(&self.ordered, tables::orders_wanted(), 1);
        want(&self.asks, tables::ASKS_WANTED, 1);
        want(&self.told, [("ask", true), ("ask", false), ("commit", true), ("commit", false)], 10);
    }
}

#[test]
fn tables_have_enough_steps_of_every_sort() {
    for seed in [1, 2, 3, 20_261_115] {
        let (mut steps, mut sites) = (Steps::default(), BTreeMap::new());
        let all = tables::tables(seed);
        for table in &all {
            let settings = &table.settings;
            let mut state = State::empty(settings.clone());
            count(&mut sites, (settings.dates == 1, settings.times_per_date == 1, settings.early > 0));
            for (call, reply) in &table.steps {
                let before = state.clone();
                assert_eq!(perform(&mut state, call), *reply);
                steps.count(&before, call, &reply.answer());
            }
            assert_eq!(table.book, words(&state));
            assert_eq!(check(&table.book), Answer::Done(0));
        }
        let (done, refused) = (&steps.done, &steps.refused);
        println!("seed {seed}: {} sites, done by kind {done:?}, refused by number {refused:?}", all.len());
        steps.want_all();
        want(&sites, [(true, false, true), (false, true, false), (false, false, true), (false, false, false)], 1);
    }
}

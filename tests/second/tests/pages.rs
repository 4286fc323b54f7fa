//! The porter's page: a worked example, the ends of each question, and what the generator reaches.

use second::book::{check, words};
use second::gen::pages::{lent, Lent, Sort};
use second::gen::requests::state_after;
use second::gen::Rng;
use second::machine::{Answer, Date, Session, State};
use second::page::{lines, page, Line};
use std::collections::BTreeMap;

const SEED: u64 = 0x9a6e;
const CALLS: usize = 4000;

/// Three dates of two sessions, three visitors, two meetings and three conference rooms. On date 1 are
/// sessions 2 and 3: meeting 1 has rooms 0 and 2 in session 2 and room 1 in session 3, meeting 0 has room 2
/// in session 3. Visitors 0 and 2 attend meeting 1 in session 2, visitor 0 alone in session 3, and nobody
/// attends meeting 0. Sessions 1 and 4 have rooms as well, and are on other dates.
fn example() -> State {
    let requests = [
        [1, 0, 0, 0, 2, 0, 0],
        [1, 0, 2, 1, 1, 0, 0],
        [8, 0, 0, 3, 3, 0, 0],
        [8, 1, 0, 1, 4, 0, 0],
        [10, 1, 0, 1, 4, 0, 0],
        [10, 1, 2, 2, 2, 0, 0],
        [12, 0, 1, 1, 2, 0, 0],
        [12, 2, 1, 2, 2, 0, 4_294_967_295],
        [12, 1, 1, 3, 4, 0, 70],
        [12, 2, 0, 3, 3, 0, 5],
    ];
    state_after(&[3, 2, 1, 3, 2, 3, 1, 1, 1, 0, 4], &requests)
}

/// The page of date 1, by hand.
const PAGE: &[u8; 124] = b"    2   0   1     2          0\n\
                           \x20   2   2   1     2 4294967295\n\
                           \x20   3   1   1     1         70\n\
                           \x20   3   2   0     0          5\n";

/// The answer to a page of so many bytes 42, and the page after it.
fn asked(book: &[u32], date: u32, length: usize) -> ([u32; 3], Vec<u8>) {
    let mut lent = vec![42; length];
    (page(book, date, &mut lent).words(), lent)
}

#[test]
fn the_page_of_the_example() {
    let book = words(&example());
    assert_eq!(asked(&book, 1, 124), ([0, 0, 4], PAGE.to_vec()));
    let (answer, longer) = asked(&book, 1, 200);
    assert_eq!((answer, &longer[..124], &longer[124..]), ([0, 0, 4], &PAGE[..], &[42; 76][..]));
    assert_eq!(asked(&book, 0, 31).1, b"    1   0   1     1          0\n", "session 1 is on date 0");
    assert_eq!(asked(&book, 2, 31).1, b"    4   1   1     1         70\n", "session 4 is on date 2");
}

#[test]
fn a_refusal_keeps_the_page() {
    let book = words(&example());
    for length in [0, 1, 31, 93, 123] {
        assert_eq!(asked(&book, 1, length), ([26, 0, 0], vec![42; length]), "the page needs 124 bytes");
    }
    for date in [3, 4, 6, u32::MAX] {
        assert_eq!(asked(&book, date, 200), ([7, 0, 0], vec![42; 200]), "the dates are 0 to 2");
    }
    assert_eq!(asked(&book, 3, 0), ([7, 0, 0], vec![]), "7 comes before 26");
    assert_eq!(asked(&book[1..], 1, 200), ([1, 0, 0], vec![42; 200]));
    let mut unlawful = book.clone();
    unlawful[11] = 0;
    assert_eq!(asked(&unlawful, 9, 0), ([2, 0, 0], vec![]), "the visitors of date 0 have no leave; 2 comes before 7");
}

#[test]
fn a_date_without_rooms_wants_no_byte() {
    let mut state = example();
    state.conf.clear();
    let book = words(&state);
    assert_eq!(check(&book), Answer::Done(0));
    for length in [0, 1, 31] {
        assert_eq!(asked(&book, 1, length), ([0, 0, 0], vec![42; length]));
    }
}

/// Every number in its columns, the widest of each.
#[test]
fn the_columns_of_a_line() {
    let line = |session, room, meeting, attending, info| {
        let line = Line { session: Session(session), room, meeting, attending, info };
        String::from_utf8(line.bytes()).expect("characters")
    };
    assert_eq!(line(0, 0, 0, 0, 0), "    0   0   0     0          0\n");
    assert_eq!(line(6399, 63, 127, 512, 4_294_967_295), " 6399  63 127   512 4294967295\n");
    assert_eq!(line(10, 10, 100, 10, 1_000_000_000), "   10  10 100    10 1000000000\n");
}

/// What a page says by itself, told from the state: its lines are in order and each has its entry.
fn reads_back(lent: &Lent, state: &State, count: u32) {
    let all = lines(state, Date(lent.date));
    assert_eq!(all.len(), count as usize);
    assert!(all.windows(2).all(|two| (two[0].session, two[0].room) < (two[1].session, two[1].room)));
    for (line, bytes) in all.iter().zip(lent.page.chunks_exact(31)) {
        let text = std::str::from_utf8(bytes).expect("characters");
        let numbers: Vec<u32> = text.split_whitespace().map(|number| number.parse().expect("a number")).collect();
        assert_eq!(numbers, [line.session.0, line.room, line.meeting, line.attending, line.info]);
        assert_eq!(state.conf.get(&(line.session, line.room, line.meeting)), Some(&line.info));
        assert_eq!(state.settings.date_of_session(line.session), Date(lent.date));
    }
    let on_date = state.conf.keys().filter(|(session, _, _)| state.settings.date_of_session(*session).0 == lent.date);
    assert_eq!(on_date.count(), all.len());
}

#[test]
fn the_generator_reaches_every_sort() {
    let mut rng = Rng::new(SEED);
    let mut sorts = BTreeMap::new();
    for _ in 0..CALLS {
        let mut call = lent(&mut rng);
        let before = call.page.clone();
        let answer = page(&call.book, call.date, &mut call.page);
        match answer {
            Answer::Done(count) => {
                let state = second::book::shown(&call.book).expect("a lawful book");
                reads_back(&call, &state, count);
                assert_eq!(call.page[31 * count as usize..], before[31 * count as usize..]);
            }
            Answer::Refused { .. } => assert_eq!(call.page, before),
        }
        Sort::of(&call, answer.number()).into_iter().for_each(|sort| *sorts.entry(sort).or_insert(0) += 1);
    }
    println!("seed {SEED}: {CALLS} calls for a page {sorts:?}");
    for sort in Sort::all() {
        let met = sorts.get(&sort).copied().unwrap_or(0);
        assert!(met >= 10, "{sort:?} was met {met} times");
    }
}

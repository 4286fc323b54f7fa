//! The party: a worked example, the ends of each question, and what the generator reaches.

use second::book::{self, check, words};
use second::calls::{on_book, perform, Call};
use second::gen::parties::{calls, lent, Sort, OF_GUESTS};
use second::gen::requests::{opening, state_after};
use second::gen::{site, Rng, Size};
use second::machine::{run, Answer, State};
use second::party::{party, Guest};
use std::collections::BTreeMap;

const SEED: u64 = 0x9a27;
const CALLS: usize = 5000;

/// Two dates of two sessions, four visitors and two meetings. Meeting 0 stands in sessions 1 to 3 and meeting 1
/// in session 3. Visitors 0 and 1 have leave on both dates, visitor 2 on date 1 alone, visitor 3 on none.
/// Visitor 0 attends meeting 1 in session 3.
fn example() -> Vec<u32> {
    let requests = [
        [1, 0, 0, 0, 1, 0, 0],
        [1, 0, 1, 0, 1, 0, 0],
        [1, 0, 2, 1, 1, 0, 0],
        [8, 0, 0, 1, 3, 0, 0],
        [8, 1, 0, 3, 3, 0, 0],
        [10, 1, 0, 3, 3, 0, 0],
    ];
    words(&state_after(&[2, 2, 1, 4, 2, 1, 1, 1, 1, 0, 4], &requests))
}

/// The words of the answer to a party, and the book after it.
fn asked(book: &[u32], meeting: u32, guests: &[[u32; 3]]) -> ([u32; 3], Vec<u32>) {
    let mut book = book.to_vec();
    let guests: Vec<Guest> = guests.iter().map(|words| Guest::from_words(*words)).collect();
    (party(&mut book, meeting, &guests).words(), book)
}

/// The words of the answer to a party that leaves the book as it was.
fn refused(book: &[u32], meeting: u32, guests: &[[u32; 3]]) -> [u32; 3] {
    let (answer, after) = asked(book, meeting, guests);
    assert_eq!(after, book);
    answer
}

/// Attend begins at word 11 + 2 × 1 + 2 × 1 + 4 × 1 = 19: four sessions of four visitors.
#[test]
fn a_party_that_is_done() {
    let book = example();
    assert_eq!(book[19..35], [0, 0, 0, 0, 0, 0, 0, 0, 0, 0, 0, 0, 2, 0, 0, 0], "visitor 0 is at meeting 1");
    let (answer, after) = asked(&book, 0, &[[1, 1, 2], [2, 2, 3], [1, 3, 3], [0, 1, 2]]);
    assert_eq!(answer, [0, 0, 0]);
    assert_eq!(after[19..35], [0, 0, 0, 0, 1, 1, 0, 0, 1, 1, 1, 0, 2, 1, 1, 0], "visitor 1 is two of the guests");
    let count = book.len() - 1;
    assert_eq!((&after[..19], &after[35..count]), (&book[..19], &book[35..count]), "no other word has changed");
    assert_eq!((book[count], after[count]), (6, 7), "but the change count, by one");
}

#[test]
fn every_number_with_its_place() {
    let book = example();
    let good = [1, 1, 2];
    assert_eq!(refused(&book, 2, &[good]), [5, 0, 0], "the meetings are 0 and 1");
    assert_eq!(refused(&book, 0, &[good, [4, 1, 1]]), [6, 0, 0], "the visitors are 0 to 3");
    assert_eq!(refused(&book, 0, &[good, [2, 3, 2]]), [7, 0, 0]);
    assert_eq!(refused(&book, 0, &[good, [2, 3, 4]]), [7, 0, 0], "the sessions are 0 to 3");
    assert_eq!(refused(&book, 0, &[good, [2, 1, 2]]), [9, 1, 0], "session 1 is on date 0");
    assert_eq!(refused(&book, 0, &[good, [0, 0, 1]]), [10, 0, 0], "meeting 0 does not stand in session 0");
    assert_eq!(refused(&book, 1, &[[1, 3, 3], [0, 3, 3]]), [11, 3, 0], "as the book has it");
    assert_eq!(refused(&book, 0, &[good, [2, 2, 2], [1, 2, 3]]), [11, 2, 0], "as the first guest left it");
    assert_eq!(refused(&book, 0, &[good, [0, 2, 3]]), [13, 3, 0], "visitor 0 is at meeting 1");
}

/// The first guest in the list who is refused gives the answer, whatever number a later one would have.
#[test]
fn guests_come_before_questions() {
    let book = example();
    assert_eq!(refused(&book, 0, &[[0, 2, 3], [9, 1, 1]]), [13, 3, 0]);
    assert_eq!(refused(&book, 0, &[[9, 1, 1], [0, 2, 3]]), [6, 0, 0]);
    assert_eq!(refused(&book, 2, &[[9, 9, 1]]), [5, 0, 0], "of one guest, the questions in their order");
}

#[test]
fn the_questions_before_the_guests() {
    let book = example();
    assert_eq!(refused(&book, 0, &[]), [27, 0, 0]);
    assert_eq!(refused(&book, 9, &[]), [27, 0, 0], "27 comes before 5");
    assert_eq!(refused(&book, 0, &[[9, 9, 9]; 65]), [27, 0, 0], "and before all else of the guests");
    assert_eq!(refused(&book, 0, &[[9, 9, 9]; 64]), [6, 0, 0], "64 guests are not too many");
    assert_eq!(refused(&book[1..], 0, &[]), [1, 0, 0]);
    let mut unlawful = book.clone();
    unlawful[12] = 0;
    assert_eq!(refused(&unlawful, 0, &[]), [2, 0, 0], "visitor 0 has no leave on date 1; 2 comes before 27");
}

/// The example of docs/RULES.md (rule 17.5), which is examples/coach.txt.
#[test]
fn the_example_of_the_rules() {
    let requests = [
        [1, 0, 0, 0, 1, 0, 0],
        [1, 0, 1, 0, 1, 0, 0],
        [1, 0, 2, 1, 1, 0, 0],
        [8, 1, 0, 1, 3, 0, 0],
        [8, 0, 0, 3, 3, 0, 0],
    ];
    let book = words(&state_after(&[2, 2, 2, 3, 2, 2, 1, 2, 1, 0, 4], &requests));
    assert_eq!(refused(&book, 1, &[]), [27, 0, 0]);
    assert_eq!(refused(&book, 2, &[[0, 1, 2], [1, 1, 1]]), [5, 0, 0]);
    assert_eq!(refused(&book, 1, &[[0, 1, 2], [2, 1, 3]]), [9, 1, 0]);
    assert_eq!(refused(&book, 1, &[[0, 1, 2], [1, 0, 3], [9, 1, 1]]), [10, 0, 0]);
    assert_eq!(refused(&book, 1, &[[0, 1, 2], [1, 3, 3], [0, 2, 3]]), [11, 2, 0]);
    let (answer, after) = asked(&book, 1, &[[0, 1, 2], [1, 1, 3], [2, 2, 3], [0, 3, 3]]);
    assert_eq!((answer, &after[21..33]), ([0, 0, 0], &[0, 0, 0, 2, 2, 0, 2, 2, 2, 2, 2, 2][..]));
    assert_eq!(refused(&after, 0, &[[1, 3, 3]]), [13, 3, 0]);
}

/// Sixteen visitors in each of four sessions, one guest for each.
#[test]
fn a_party_of_64_is_done_and_of_65_is_not() {
    let leave = (0..17).map(|visitor| [1, 0, visitor, 0, 1, 0, 0]);
    let opening: Vec<[u32; 7]> = leave.chain([[8, 0, 0, 0, 3, 0, 0]]).collect();
    let state = state_after(&[2, 2, 1, 17, 1, 1, 1, 1, 1, 0, 4], &opening);
    let mut guests: Vec<[u32; 3]> = (0..64).map(|at| [at % 16, at / 16, at / 16]).collect();
    let (answer, after) = asked(&words(&state), 0, &guests);
    assert_eq!((answer, check(&after)), ([0, 0, 0], Answer::Done(0)));
    assert_eq!(book::shown(&after).expect("a lawful book").attend.len(), 64);
    guests.push([16, 0, 0]);
    assert_eq!(refused(&words(&state), 0, &guests), [27, 0, 0]);
    guests.truncate(63);
    guests.push([0, 0, 0]);
    assert_eq!(refused(&words(&state), 0, &guests), [11, 0, 0], "the last of 64");
}

/// Requests and parties in one list: the words after each call are those of the machine's state.
#[test]
fn a_list_of_calls_on_words() {
    let mut rng = Rng::new(SEED + 1);
    let mut seen = BTreeMap::new();
    for _ in 0..120 {
        let mut state = State::empty(site(&mut rng, Size::Small));
        let start = opening(&mut rng, &state.settings);
        run(&mut state, &start);
        let (mut book, mut replayed) = (words(&state), state.clone());
        for call in calls(&mut rng, &mut state, 25) {
            let on_words = on_book(&mut book, &call);
            assert_eq!(on_words, perform(&mut replayed, &call), "{call:?}");
            assert!(book == words(&replayed) && check(&book) == Answer::Done(0), "{call:?}");
            *seen.entry((matches!(call, Call::Party { .. }), on_words.answer().number() == 0)).or_insert(0) += 1;
        }
        assert_eq!(replayed, state);
    }
    println!("seed {}: calls by party and done {seen:?}", SEED + 1);
    assert!(seen.len() == 4 && seen.values().all(|count| *count >= 100), "{seen:?}");
}

#[test]
fn the_generator_reaches_every_sort() {
    let mut rng = Rng::new(SEED);
    let mut sorts = BTreeMap::new();
    for _ in 0..CALLS {
        let call = lent(&mut rng);
        let mut after = call.book.clone();
        let answer = party(&mut after, call.meeting, &call.guests);
        match answer {
            Answer::Done(value) => assert_eq!((value, check(&after)), (0, Answer::Done(0))),
            Answer::Refused { .. } => assert_eq!(after, call.book),
        }
        Sort::of(&call, answer.words()).into_iter().for_each(|sort| *sorts.entry(sort).or_insert(0) += 1);
    }
    println!("seed {SEED}: {CALLS} parties {sorts:?}");
    for sort in Sort::all() {
        let met = sorts.get(&sort).copied().unwrap_or(0);
        assert!(met >= 10, "{sort:?} was met {met} times");
    }
    let known: Vec<u32> = [1, 2, 27, 5].into_iter().chain(OF_GUESTS).collect();
    let met = sorts.keys().filter_map(|sort| if let Sort::Refused(number) = sort { Some(number) } else { None });
    assert!(met.into_iter().all(|number| known.contains(number)), "no other number refuses a party");
}

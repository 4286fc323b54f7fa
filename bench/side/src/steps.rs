//! One request with its check, a list with one check, the steps of a list without it, lists of orders, asks and commits,
//! charges.

use crate::clock::{seconds, turns};
use crate::sites::{load, medium, of_kind, small, SEED};
use crate::table::{row, Row};
use caviar::{Guest, Request, Tariff};
use second::book::shown;
use second::gen::parties::{standing_meeting, welcome};
use second::gen::{full_book, Rng};
use second::machine::Settings;
use std::cell::RefCell;
use std::hint::black_box;

/// Words to work in, fresh from the book each time. All turns use the same memory: where the system
/// puts a copy of the book in its caches is then the same for all.
struct Copy<'a> {
    book: &'a [u32],
    words: RefCell<(Vec<u32>, Vec<u32>)>,
}

impl Copy<'_> {
    fn of(book: &[u32], answers: usize) -> Copy<'_> {
        Copy { book, words: RefCell::new((book.to_vec(), vec![0; answers])) }
    }

    /// The time of the work on words and answers.
    fn time<Result>(&self, work: impl FnOnce(&mut [u32], &mut [u32]) -> Result) -> f64 {
        let (words, answers) = &mut *self.words.borrow_mut();
        words.copy_from_slice(self.book);
        seconds(|| work(words, answers))
    }

    fn left(&self) -> (Vec<u32>, Vec<u32>) {
        self.words.borrow().clone()
    }
}

/// The times of a list on a copy of the book, the proved engine's first.
fn list_times(book: &[u32], list: &[u32], count: usize) -> [f64; 2] {
    let copy = Copy::of(book, list.len() / 7 * 3);
    copy.time(|words, answers| caviar::requests_words(words, list, answers));
    let proved_left = copy.left();
    copy.time(|words, answers| plain::requests(words, list, answers));
    assert!(proved_left == copy.left(), "the engines differ");
    turns(
        count,
        [&mut || copy.time(|words, answers| caviar::requests_words(words, black_box(list), answers)), &mut || {
            copy.time(|words, answers| plain::requests(words, black_box(list), answers))
        }],
    )
}

/// The times of a list on a copy of the book without its check: in each turn a check is timed just before the list and taken
/// off, so that both are of the same moment.
fn step_times(book: &[u32], list: &[u32], count: usize) -> [f64; 2] {
    let copy = Copy::of(book, list.len() / 7 * 3);
    let without = |check: &dyn Fn(&[u32]), answer: &dyn Fn(&mut [u32], &mut [u32])| {
        let checked = copy.time(|words, _| check(black_box(words)));
        copy.time(|words, answers| answer(words, answers)) - checked
    };
    turns(
        count,
        [
            &mut || {
                without(&|words| assert_eq!(caviar::check(words).number, 0), &|words, answers| {
                    _ = black_box(caviar::requests_words(words, black_box(list), answers));
                })
            },
            &mut || {
                without(&|words| assert_eq!(plain::check(words).number, 0), &|words, answers| {
                    _ = black_box(plain::requests(words, black_box(list), answers));
                })
            },
        ],
    )
}

/// The rows of one site.
pub fn measure(name: &str, book: &[u32], count: usize) {
    let settings = Settings::of_book(book).expect("a full book");
    let requests = load(&settings, count);
    let list: Vec<u32> = requests.iter().flatten().copied().collect();
    let lists = list_times(book, &list, 15);
    let each = |time: f64| format!("{:.1} ns", time / count as f64 * 1e9);
    let note = format!("each of {count} requests of all kinds");
    row(&format!("requests, {name}"), lists, each, &format!("{note}, one check"));
    row(&format!("steps, {name}"), step_times(book, &list, 31), each, &format!("{note}, without the check"));
    one_request(name, book, &requests);
}

/// The requests of the load with the numbers of orders, all new, and with every tenth order sent again some orders later.
pub fn orders(name: &str, book: &[u32], count: usize) {
    let settings = Settings::of_book(book).expect("a full book");
    let requests = load(&settings, count);
    let numbered = |at: usize| {
        let [kind, a, b, first, last, n, info] = requests[at];
        [kind, a, b, first, last, n, info, at as u32 + 1]
    };
    let again = |at: usize| if at % 10 == 9 { at - at % 9 - 1 } else { at };
    let lists: [Vec<u32>; 2] =
        [(0..count).flat_map(numbered).collect(), (0..count).map(again).flat_map(numbered).collect()];
    for (list, what) in lists.iter().zip(["all new", "a tenth sent again"]) {
        let times = order_times(book, list, 15);
        let each = |time: f64| format!("{:.1} ns", time / count as f64 * 1e9);
        row(
            &format!("orders, {name}, {what}"),
            times,
            each,
            &format!("each of {count} orders of all kinds, one check"),
        );
    }
}

/// The times of a list of orders on a copy of the book.
fn order_times(book: &[u32], list: &[u32], count: usize) -> [f64; 2] {
    let copy = Copy::of(book, list.len() / 8 * 3);
    copy.time(|words, answers| caviar::orders_words(words, list, answers));
    let proved_left = copy.left();
    copy.time(|words, answers| plain::orders(words, list, answers));
    assert!(proved_left == copy.left(), "the engines differ");
    turns(
        count,
        [&mut || copy.time(|words, answers| caviar::orders_words(words, black_box(list), answers)), &mut || {
            copy.time(|words, answers| plain::orders(words, black_box(list), answers))
        }],
    )
}

fn one_request(name: &str, book: &[u32], requests: &[[u32; 7]]) {
    let copy = Copy::of(book, 0);
    let (mut our_turn, mut their_turn) = (0, 0);
    let times = turns(
        15,
        [
            &mut || {
                our_turn += 1;
                let request = Request::from_words(requests[our_turn]);
                copy.time(|words, _| caviar::request(black_box(words), request))
            },
            &mut || {
                their_turn += 1;
                let request = plain::Request::new(requests[their_turn]);
                copy.time(|words, _| plain::request(black_box(words), &request))
            },
        ],
    );
    let micro = |time: f64| format!("{:.1} µs", time * 1e6);
    row(&format!("request, {name}"), times, micro, "one request with its check");
}

/// One request of the load asked, and committed at the count that was told, each with its check.
pub fn ask_and_commit(name: &str, book: &[u32]) {
    let settings = Settings::of_book(book).expect("a full book");
    let requests = load(&settings, 64);
    let copy = Copy::of(book, 0);
    for words in &requests {
        let told = caviar::ask(book, Request::from_words(*words));
        let (answer, count) = plain::ask(book, &plain::Request::new(*words));
        assert_eq!((told.answer.words(), told.count), (answer.words(), count), "the engines differ");
        copy.time(|book, _| assert_eq!(caviar::commit(book, count, Request::from_words(*words)), told.answer));
        let proved_left = copy.left();
        copy.time(|book, _| plain::commit(book, count, &plain::Request::new(*words)));
        assert!(proved_left == copy.left(), "the engines differ");
    }
    let count = book[book.len() - 1];
    let times = of_requests(
        &copy,
        &requests,
        &|book, r| caviar::ask(book, Request::from_words(r)).answer.number,
        &|book, r| plain::ask(book, &plain::Request::new(r)).0.number,
    );
    let micro = |time: f64| format!("{:.1} µs", time * 1e6);
    row(&format!("ask, {name}"), times, micro, "one request asked, with its check");
    let times = of_requests(
        &copy,
        &requests,
        &|book, r| caviar::commit(book, count, Request::from_words(r)).number,
        &|book, r| plain::commit(book, count, &plain::Request::new(r)).number,
    );
    row(&format!("commit, {name}"), times, micro, "one request committed, with its check");
}

/// A call with one request on a book; the number of its answer.
type Single<'a> = &'a dyn Fn(&mut [u32], [u32; 7]) -> u32;

/// The times of two calls over the same requests, in turns.
fn of_requests(copy: &Copy, requests: &[[u32; 7]], ours: Single, theirs: Single) -> [f64; 2] {
    let (mut our_turn, mut their_turn) = (0, 0);
    let turn = |at: &mut usize, call: Single| {
        *at += 1;
        let request = requests[*at % requests.len()];
        copy.time(|words, _| call(black_box(words), black_box(request)))
    };
    turns(4 * requests.len(), [&mut || turn(&mut our_turn, ours), &mut || turn(&mut their_turn, theirs)])
}

/// What a meeting costs over all dates of a site, with its check.
pub fn charge(name: &str, book: &[u32]) {
    let settings = Settings::of_book(book).expect("a full book");
    let (meetings, last) = (settings.meetings, settings.dates - 1);
    let tariff = Tariff { room: 12_345, seat: 1250, percent: 15 };
    let ours = |meeting| caviar::charge(black_box(book), meeting, 0, last, tariff);
    let theirs = |meeting| plain::charge(black_box(book), meeting, 0, last, [12_345, 1250, 15]);
    for meeting in 0..meetings {
        let charged = ours(meeting);
        assert_eq!((charged.number, charged.value), theirs(meeting), "the engines differ");
    }
    let turn = |at: &mut u32, call: &dyn Fn(u32)| {
        *at += 1;
        seconds(|| call(*at % meetings))
    };
    let (mut our_turn, mut their_turn) = (0, 0);
    let times = turns(
        60,
        [&mut || turn(&mut our_turn, &|meeting| _ = black_box(ours(meeting))), &mut || {
            turn(&mut their_turn, &|meeting| _ = black_box(theirs(meeting)))
        }],
    );
    let micro = |time: f64| format!("{:.1} µs", time * 1e6);
    row(&format!("charge, {name}"), times, micro, &format!("a meeting over {} dates, with its check", last + 1));
}

/// A party of as many guests as it may have, on the book of the line program's site, about half full.
pub fn party() {
    let mut rng = Rng::new(u64::from(SEED));
    let book = full_book(&mut rng, &small(), 50);
    let state = shown(&book).expect("a full book passes");
    let meeting = standing_meeting(&mut rng, &state);
    let guests = welcome(&mut rng, &state, meeting, caviar::MOST_GUESTS);
    let ours: Vec<Guest> = guests.iter().map(|guest| Guest::from_words(guest.words())).collect();
    let theirs: Vec<plain::party::Guest> = guests.iter().map(|guest| guest.words()).collect();
    let copy = Copy::of(&book, 0);
    copy.time(|words, _| assert_eq!(caviar::party(words, meeting, &ours).number, 0));
    let proved_left = copy.left();
    copy.time(|words, _| assert_eq!(plain::party(words, meeting, &theirs).number, 0));
    assert!(proved_left == copy.left(), "the engines differ");
    let times = turns(
        40,
        [&mut || copy.time(|words, _| caviar::party(words, meeting, black_box(&ours))), &mut || {
            copy.time(|words, _| plain::party(words, meeting, black_box(&theirs)))
        }],
    );
    let micro = |time: f64| format!("{:.1} µs", time * 1e6);
    row("party, small site, half full", times, micro, &format!("{} guests with one check", guests.len()));
}

/// A site of the table by kinds: how many requests of a kind, and how many turns. Many requests make
/// the check, which is taken off, a small part; a removal costs more than that by itself.
pub struct Site<'a> {
    pub book: &'a [u32],
    pub requests: usize,
    pub removals: usize,
    pub turns: usize,
}

/// The steps of each kind alone, on the same books.
pub fn by_kinds(sites: &[Site], kinds: &[u32]) {
    for kind in kinds {
        let mut line = Row::of(*kind);
        for site in sites {
            let settings = Settings::of_book(site.book).expect("a full book");
            let count = if *kind == 3 { site.removals } else { site.requests };
            let list = of_kind(&settings, *kind, count);
            list_times(site.book, &list, 1);
            let times = step_times(site.book, &list, site.turns);
            line.add(times.map(|time| time / count as f64 * 1e9));
        }
        line.print();
    }
}

/// Two books that differ only in D, with the same requests, all on the dates that both have.
pub fn by_dates() {
    let few = medium(90);
    let list: Vec<u32> = load(&few, 20_000).into_iter().flatten().collect();
    let mut proved = Vec::new();
    for dates in [90, 360] {
        let book = full_book(&mut Rng::new(u64::from(SEED)), &medium(dates), 50);
        list_times(&book, &list, 1);
        let times = step_times(&book, &list, 31);
        let each = |time: f64| format!("{:.1} ns", time / 20_000.0 * 1e9);
        let note = format!("book of {} words, same requests", book.len());
        row(&format!("steps, medium site, D {dates}"), times, each, &note);
        proved.push(times[0]);
    }
    println!("| | | {:.2} | | steps of the longer book / steps of the shorter |", proved[1] / proved[0]);
}

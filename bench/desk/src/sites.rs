//! The sites that are measured, and for each client bookings that its site always accepts.
use second::gen::{full_book, Rng};
use second::machine::Settings;
use std::hint::black_box;
use std::time::Instant;

/// The seed of bench/run.
const SEED: u64 = 20_261_115;
/// At most so many clients work at once.
pub const CLIENTS: u32 = 64;
/// Each on so many dates at most.
const DATES: usize = 20;

/// Seconds in which checks are measured.
const CHECKING: f64 = 0.05;

const REMOVE: u32 = 3;
const LEAVE: u32 = 1;
const ADD_HOTEL: u32 = 4;
const ERASE_HOTEL: u32 = 5;

pub type Request = [u32; 7];

pub struct Site {
    pub book: Vec<u32>,
    /// Of each client: adds a room on a date, erases it, adds it on another date, and so on.
    pub bookings: Vec<Vec<Request>>,
}

pub fn medium() -> Site {
    Site::new(&[90, 4, 24, 200, 40, 12, 4, 100, 30, 0, 60, 60, 60, 60])
}

pub fn largest() -> Site {
    Site::new(&[&[400, 16, 96, 512, 128, 64, 16, 512, 128, 0], &[1000; 16][..]].concat())
}

/// A book so short that its check takes no time.
pub fn tiny() -> Site {
    Site::new(&[7, 1, 1, 64, 1, 1, 1, 64, 1, 0, 60])
}

impl Site {
    /// Half full, as the books of bench/run are.
    fn new(settings: &[u32]) -> Site {
        let settings = Settings::from_words(settings).expect("settings in range");
        let mut book = full_book(&mut Rng::new(SEED), &settings, 50);
        let bookings = bookings(&mut book);
        Site { book, bookings }
    }

    /// The seconds of one check of the book: the value in the middle of some.
    pub fn check(&self) -> f64 {
        let one = || {
            let start = Instant::now();
            assert_eq!(caviar::check(black_box(&self.book)).number, 0, "a book");
            start.elapsed().as_secs_f64()
        };
        let times = (CHECKING / one().max(1e-6)).clamp(5.0, 1000.0) as usize;
        crate::series::median((0..times).map(|_| one()).collect())
    }
}

/// A client is visitor and hotel room of the same number. One that finds no free date is freed of all its bookings first.
fn bookings(book: &mut [u32]) -> Vec<Vec<Request>> {
    let last = book[0] - 1;
    let stuck = (0..CLIENTS).zip(accepted(book)).filter(|(_, found)| found.is_empty());
    let free = stuck.flat_map(|(client, _)| [REMOVE, LEAVE].map(|kind| [kind, 0, client, 0, last, 0, 0]));
    let free: Vec<Request> = free.collect();
    assert!(answers(book, &free).iter().all(|number| *number == 0), "clients are freed");
    let found = accepted(book);
    assert!(found.iter().all(|bookings| !bookings.is_empty()), "each client's room is free on some date");
    found
}

/// For each client: adding and erasing its room, on dates where both are accepted. No client is in another's way.
fn accepted(book: &[u32]) -> Vec<Vec<Request>> {
    let dates = book[0];
    let pair = |client, date| [ADD_HOTEL, ERASE_HOTEL].map(|kind| [kind, client, client, date, date, 0, 0]);
    let all: Vec<(u32, u32)> = (0..CLIENTS).flat_map(|client| (0..dates).map(move |date| (client, date))).collect();
    let adds: Vec<Request> = all.iter().map(|(client, date)| pair(*client, *date)[0]).collect();
    let numbers = answers(&mut book.to_vec(), &adds);
    let of_client = |client: u32| {
        let free = (0..dates).filter(|date| numbers[(client * dates + date) as usize] == 0);
        free.take(DATES).flat_map(|date| pair(client, date)).collect()
    };
    (0..CLIENTS).map(of_client).collect()
}

/// The numbers of the answers to a list.
fn answers(book: &mut [u32], list: &[Request]) -> Vec<u32> {
    let mut answers = vec![0; list.len() * 3];
    assert_eq!(caviar::requests_words(book, list.as_flattened(), &mut answers).number, 0, "a book");
    answers.chunks(3).map(|answer| answer[0]).collect()
}

//! The CAVIAR booking book for Rust.
//!
//! A book is a slice of 32-bit words that the caller owns: settings first, then seven regions of
//! leave, bookings and meetings, then the last orders, then the change count. The functions keep
//! nothing between calls and allocate nothing.
//! Each takes any words of any length, and says so where they are not a book. What each function
//! promises is proved, for all words; this crate only lends the slices. include/caviar.h has the
//! tables of kinds and of refusal numbers, and docs/RULES.md everything that the book does.
//!
//! ```
//! let settings = [2, 2, 2, 3, 2, 2, 1, 2, 1, 0, 4];
//! let mut book = vec![0; caviar::book_len(&settings)];
//! assert_eq!(caviar::lay(&settings, &mut book).result(), Ok(0));
//! let leave = caviar::Request { kind: 1, b: 1, first: 0, last: 1, ..Default::default() };
//! assert_eq!(caviar::request(&mut book, leave).result(), Ok(0));
//! let hotel = caviar::Request { kind: 4, b: 2, first: 0, last: 1, ..Default::default() };
//! assert_eq!(caviar::request(&mut book, hotel).result(), Err(caviar::Refusal { number: 9, place: 0 }));
//! assert_eq!(caviar::check(&book).result(), Ok(0));
//! ```
//!
//! `tools/build-library` writes the library that the build script links. Another folder that holds
//! libcapi.a is named by the variable `CAVIAR_LIB_DIR`.

mod ffi;

/// The greatest number of words that a book can have.
pub const MOST_WORDS: usize = 9_402_332;

/// The greatest number of words that settings can have.
pub const MOST_SETTINGS: usize = 26;

/// How many orders a book keeps.
pub const KEPT_ORDERS: usize = 64;

/// How many words the kept orders take, the last of a book before its change count.
pub const RING_WORDS: usize = 705;

/// The greatest change count: a book that has it takes no more changes.
pub const MOST_CHANGES: u32 = u32::MAX;

/// How many bytes a line of a porter's page has.
pub const PAGE_LINE: usize = 31;

/// How many bytes do for the page of every date of every site.
pub const MOST_PAGE: usize = 31_744;

/// How many guests a party has at most.
pub const MOST_GUESTS: usize = 64;

/// The greatest rate of a tariff, in cents.
pub const MOST_RATE: u32 = 1_000_000;

/// The greatest reduction of a tariff, in percent.
pub const MOST_PERCENT: u32 = 100;

/// How many room-sessions are enough for the reduction.
pub const ROOM_SESSIONS: u32 = 10;

/// An answer: done with a value, or refused.
#[repr(C)]
#[derive(Clone, Copy, Debug, Default, PartialEq, Eq)]
pub struct Answer {
    /// 0 when done, else the number of the first question that was answered no.
    pub number: u32,
    /// The lowest slot with the answer no, in the unit of the request's kind, for 9 to 21; for 17 a
    /// date, though the slots of its kind are sessions. 0 for other numbers, and when done.
    pub place: u32,
    /// What the request asks for; 0 when refused.
    pub value: u32,
}

impl Answer {
    /// The value when done, or the number and the place.
    pub fn result(self) -> Result<u32, Refusal> {
        match self.number {
            0 => Ok(self.value),
            number => Err(Refusal { number, place: self.place }),
        }
    }

    /// The three words in the order of the fields.
    pub fn words(self) -> [u32; 3] {
        [self.number, self.place, self.value]
    }
}

/// What asking tells: the answer that the request would get, and the change count of the book.
#[repr(C)]
#[derive(Clone, Copy, Debug, Default, PartialEq, Eq)]
pub struct Asked {
    pub answer: Answer,
    /// 0 beside the numbers 1 and 2.
    pub count: u32,
}

/// The number of the question that was answered no, and the place: see [`Answer`].
#[derive(Clone, Copy, Debug, PartialEq, Eq)]
pub struct Refusal {
    pub number: u32,
    pub place: u32,
}

/// A request: seven words. A field that the kind does not use is 0.
#[repr(C)]
#[derive(Clone, Copy, Debug, Default, PartialEq, Eq)]
pub struct Request {
    /// 1 to 20.
    pub kind: u32,
    /// A room, a transport or a meeting, by kind.
    pub a: u32,
    /// A visitor or a meeting, by kind.
    pub b: u32,
    /// The first slot: a date, a session or a time, by kind.
    pub first: u32,
    /// The last slot, included.
    pub last: u32,
    /// Seats, for kind 14.
    pub n: u32,
    /// Information, for kinds 12 and 14.
    pub info: u32,
}

impl Request {
    /// A request from its seven words in the order of the fields.
    pub fn from_words([kind, a, b, first, last, n, info]: [u32; 7]) -> Request {
        Request { kind, a, b, first, last, n, info }
    }
}

/// A request with the number of an order, 0 for none: eight words.
#[repr(C)]
#[derive(Clone, Copy, Debug, Default, PartialEq, Eq)]
pub struct Order {
    pub request: Request,
    /// The number, which the caller chooses.
    pub order: u32,
}

/// What a meeting is charged by.
#[repr(C)]
#[derive(Clone, Copy, Debug, Default, PartialEq, Eq)]
pub struct Tariff {
    /// Cents for a conference room in a session, at most [`MOST_RATE`].
    pub room: u32,
    /// Cents for a lunch seat, at most [`MOST_RATE`].
    pub seat: u32,
    /// The reduction of the room charge in percent, at most [`MOST_PERCENT`].
    pub percent: u32,
}

/// What a charge is told: cents, or a refusal.
#[repr(C)]
#[derive(Clone, Copy, Debug, Default, PartialEq, Eq)]
pub struct Charged {
    /// 0 when done, else the number of the first question that was answered no.
    pub number: u32,
    /// 0.
    pub place: u32,
    /// The cents; 0 when refused.
    pub value: u64,
}

impl Charged {
    /// The cents when done, or the number and the place.
    pub fn result(self) -> Result<u64, Refusal> {
        match self.number {
            0 => Ok(self.value),
            number => Err(Refusal { number, place: self.place }),
        }
    }
}

/// A guest of a party: a visitor who is to attend its meeting in these sessions.
#[repr(C)]
#[derive(Clone, Copy, Debug, Default, PartialEq, Eq)]
pub struct Guest {
    pub visitor: u32,
    /// The first session.
    pub first: u32,
    /// The last session, included.
    pub last: u32,
}

impl Guest {
    /// A guest from its three words in the order of the fields.
    pub fn from_words([visitor, first, last]: [u32; 3]) -> Guest {
        Guest { visitor, first, last }
    }
}

/// How many words the book of these settings has: 727 to [`MOST_WORDS`]. 0 for settings that
/// question 24 refuses: fewer than ten words, not nine limits, the early times and a capacity for
/// each dining room, or one out of its range (rule 9.3).
pub fn book_len(settings: &[u32]) -> usize {
    // SAFETY: the pointer and the length are those of one slice, which is only read.
    unsafe { ffi::caviar_book_len(settings.as_ptr(), settings.len()) as usize }
}

/// Lays a book: the settings, then zeros in all other words, whatever the book held before. Done
/// with 0. Refused with 24 for bad settings, and with 25 when the book is not [`book_len`] words;
/// the book is then as before (section 9).
pub fn lay(settings: &[u32], book: &mut [u32]) -> Answer {
    // SAFETY: each pointer has its slice's length, and the slices do not overlap, since one is `&mut`.
    unsafe { ffi::caviar_lay(settings.as_ptr(), settings.len(), book.as_mut_ptr(), book.len()) }
}

/// Asks questions 1 and 2 of any words: are they a book by its limits, capacities and length (1),
/// and is every cell and law kept (2)? Done with 0, or refused with the number; place and value are
/// 0. It reads each word about once (rule 10.1).
pub fn check(book: &[u32]) -> Answer {
    // SAFETY: the pointer and the length are those of one slice, which is only read.
    unsafe { ffi::caviar_check(book.as_ptr(), book.len()) }
}

/// One request on a book that may hold any words. A book that question 1 or 2 refuses gives that
/// refusal. Else the answer is the one of the rules' sections 4 to 6, from the sets that the book
/// shows, and when it is done, the book shows those sets with the change, and its change count is
/// one more for kinds 1 to 16. A refusal leaves the book as it was. Each call checks the whole book:
/// [`requests`] checks it once for a list (rule 10.3).
pub fn request(book: &mut [u32], request: Request) -> Answer {
    // SAFETY: the pointer and the length are those of one slice, lent as `&mut`.
    unsafe { ffi::caviar_request(book.as_mut_ptr(), book.len(), request) }
}

/// A list of requests on a book that may hold any words: as many are answered as both slices have
/// places for, each as [`request`] would answer it after those before, and the answer is done with
/// that number. Places of `answers` behind them stay. The book is checked once. One that question 1
/// or 2 refuses gives that refusal, and then the book and the answers stay as they were (rule 10.4).
pub fn requests(book: &mut [u32], list: &[Request], answers: &mut [Answer]) -> Answer {
    requests_words(book, request_words(list), answer_words(answers))
}

/// The same with plain words, seven a request and three an answer; words that are left over at an
/// end count for nothing.
pub fn requests_words(book: &mut [u32], list: &[u32], answers: &mut [u32]) -> Answer {
    // SAFETY: each pointer has its slice's length, and no two slices overlap where one is `&mut`.
    unsafe {
        ffi::caviar_requests(
            book.as_mut_ptr(),
            book.len(),
            list.as_ptr(),
            list.len(),
            answers.as_mut_ptr(),
            answers.len(),
        )
    }
}

/// Lays the book and answers a list of requests on it: [`lay`], then [`requests`] without a check.
/// The answers and every word of the book are those of the rules from fresh, for every list.
/// Refused with 24 or 25 as laying is, and then the book and the answers stay as they were (rule
/// 10.5).
pub fn serve(settings: &[u32], book: &mut [u32], list: &[Request], answers: &mut [Answer]) -> Answer {
    serve_words(settings, book, request_words(list), answer_words(answers))
}

/// The same with plain words, seven a request and three an answer.
pub fn serve_words(settings: &[u32], book: &mut [u32], list: &[u32], answers: &mut [u32]) -> Answer {
    // SAFETY: each pointer has its slice's length, and no two slices overlap where one is `&mut`.
    unsafe {
        ffi::caviar_serve(
            settings.as_ptr(),
            settings.len(),
            book.as_mut_ptr(),
            book.len(),
            list.as_ptr(),
            list.len(),
            answers.as_mut_ptr(),
            answers.len(),
        )
    }
}

/// One request with the number of an order, on a book that may hold any words. Order 0: the same as
/// [`request`]. The book keeps the last [`KEPT_ORDERS`] orders with their requests and answers. One that is
/// kept gets the answer that is kept for it and changes nothing, so that it may be sent again when its
/// answer was lost; with another request it is refused by 28. Any other is answered as by [`request`], done or
/// refused, and kept. Refused with 1 or 2 as by [`check`]; these and 28 write no word (rule 10.6, section 18).
///
/// ```
/// use caviar::{Refusal, Request};
/// let settings = [2, 2, 2, 3, 2, 2, 1, 2, 1, 0, 4];
/// let mut book = vec![0; caviar::book_len(&settings)];
/// caviar::lay(&settings, &mut book);
/// let leave = Request { kind: 1, b: 1, first: 0, last: 1, ..Default::default() };
/// let hotel = Request { kind: 4, a: 0, b: 1, first: 0, last: 1, ..Default::default() };
/// assert_eq!(caviar::order(&mut book, 16, leave).result(), Ok(0));
/// assert_eq!(caviar::order(&mut book, 17, hotel).result(), Ok(0));
/// let before = book.clone();
/// assert_eq!(caviar::order(&mut book, 17, hotel).result(), Ok(0));
/// assert_eq!(caviar::order(&mut book, 17, leave).result(), Err(Refusal { number: 28, place: 0 }));
/// assert_eq!(book, before);
/// assert_eq!(caviar::request(&mut book, hotel).result(), Err(Refusal { number: 11, place: 0 }));
/// ```
pub fn order(book: &mut [u32], order: u32, request: Request) -> Answer {
    // SAFETY: the pointer and the length are those of one slice, lent as `&mut`.
    unsafe { ffi::caviar_order(book.as_mut_ptr(), book.len(), order, request) }
}

/// A list of requests with orders, as [`requests`] is one without: each is answered as [`order`] would
/// after those before, and the book is checked once (rule 10.7).
pub fn orders(book: &mut [u32], list: &[Order], answers: &mut [Answer]) -> Answer {
    orders_words(book, order_words(list), answer_words(answers))
}

/// The same with plain words: eight each, the order last, and three an answer.
pub fn orders_words(book: &mut [u32], list: &[u32], answers: &mut [u32]) -> Answer {
    // SAFETY: each pointer has its slice's length, and no two slices overlap where one is `&mut`.
    unsafe {
        ffi::caviar_orders(
            book.as_mut_ptr(),
            book.len(),
            list.as_ptr(),
            list.len(),
            answers.as_mut_ptr(),
            answers.len(),
        )
    }
}

/// Lays the book and answers a list with orders on it, as [`serve`] one without (rule 10.8).
pub fn serve_orders(settings: &[u32], book: &mut [u32], list: &[Order], answers: &mut [Answer]) -> Answer {
    serve_orders_words(settings, book, order_words(list), answer_words(answers))
}

/// The same with plain words: eight each, the order last, and three an answer.
pub fn serve_orders_words(settings: &[u32], book: &mut [u32], list: &[u32], answers: &mut [u32]) -> Answer {
    // SAFETY: each pointer has its slice's length, and no two slices overlap where one is `&mut`.
    unsafe {
        ffi::caviar_serve_orders(
            settings.as_ptr(),
            settings.len(),
            book.as_mut_ptr(),
            book.len(),
            list.as_ptr(),
            list.len(),
            answers.as_mut_ptr(),
            answers.len(),
        )
    }
}

/// What [`request`] would answer to this request now, and the change count of the book. Refused with 1 or 2
/// as by [`check`], and then the count is 0. No word is changed, and no order is looked for (rule 10.9).
///
/// What was told is what [`commit`] at that count gives, unless the count has gone on, for every list of calls
/// since the book was laid (rule 19.6).
///
/// ```
/// use caviar::{Refusal, Request};
/// let settings = [2, 2, 2, 3, 2, 2, 1, 2, 1, 0, 4];
/// let mut book = vec![0; caviar::book_len(&settings)];
/// caviar::lay(&settings, &mut book);
/// let leave = Request { kind: 1, b: 1, first: 0, last: 1, ..Default::default() };
/// let hotel = Request { kind: 4, a: 0, b: 1, first: 0, last: 1, ..Default::default() };
/// assert_eq!(caviar::ask(&book, hotel).answer.result(), Err(Refusal { number: 9, place: 0 }));
/// caviar::request(&mut book, leave);
/// let seen = caviar::ask(&book, hotel);
/// assert_eq!((seen.answer.result(), seen.count), (Ok(0), 1));
/// assert_eq!(caviar::commit(&mut book, seen.count, hotel).result(), Ok(0));
/// assert_eq!(caviar::commit(&mut book, seen.count, leave).result(), Err(Refusal { number: 29, place: 0 }));
/// ```
pub fn ask(book: &[u32], request: Request) -> Asked {
    // SAFETY: the pointer and the length are those of one slice, which is only read.
    unsafe { ffi::caviar_ask(book.as_ptr(), book.len(), request) }
}

/// One request at a change count, as [`ask`] told it. Refused with 1 or 2 as by [`check`], and with 29 when the
/// count is not the book's; else answered as by [`request`]. A refusal leaves the book as it was (rule 10.10).
pub fn commit(book: &mut [u32], count: u32, request: Request) -> Answer {
    // SAFETY: the pointer and the length are those of one slice, lent as `&mut`.
    unsafe { ffi::caviar_commit(book.as_mut_ptr(), book.len(), count, request) }
}

/// Writes the porter's page of a date: a line of [`PAGE_LINE`] bytes for each session of the date and
/// in it each conference room in use, in that order. A line has five numbers in base ten, each behind
/// spaces at the end of its columns, and a byte 10: session (5 columns), room (4), meeting (4), visitors
/// who attend that meeting in that session (6), information (11). The answer is done with the number of
/// lines, the page begins with them, and its bytes behind them stay. Refused with 1 or 2 as by [`check`],
/// with 7 for a date past the last, and with 26 for a page that is too short; the page is then as before.
/// No word of the book is changed (section 16).
///
/// ```
/// let settings = [2, 2, 2, 3, 2, 2, 1, 2, 1, 0, 4];
/// let mut book = vec![0; caviar::book_len(&settings)];
/// caviar::lay(&settings, &mut book);
/// let stands = caviar::Request { kind: 8, a: 1, first: 2, last: 3, ..Default::default() };
/// let room = caviar::Request { kind: 12, a: 0, b: 1, first: 2, last: 3, info: 70, ..Default::default() };
/// assert_eq!(caviar::request(&mut book, stands).result(), Ok(0));
/// assert_eq!(caviar::request(&mut book, room).result(), Ok(0));
/// let mut page = [0; 2 * caviar::PAGE_LINE];
/// assert_eq!(caviar::page(&book, 1, &mut page).result(), Ok(2));
/// assert_eq!(page[..31], *b"    2   0   1     0         70\n");
/// assert_eq!(page[31..], *b"    3   0   1     0         70\n");
/// let short = caviar::page(&book, 1, &mut page[1..]).result();
/// assert_eq!(short, Err(caviar::Refusal { number: 26, place: 0 }));
/// ```
pub fn page(book: &[u32], date: u32, page: &mut [u8]) -> Answer {
    // SAFETY: each pointer has its slice's length, and the slices do not overlap, since one is `&mut`.
    unsafe { ffi::caviar_page(book.as_ptr(), book.len(), date, page.as_mut_ptr(), page.len()) }
}

/// A party for a meeting: all of its guests are added, or none. A guest is added as a [`Request`] of kind 10
/// adds a visitor; the guests come in the order of the list, each judged with those before in the book. The answer is
/// done with 0, and the book is what those requests one by one would have left, but that its change count has
/// risen by one. Refused with 1 or 2 as by [`check`], with 27 for no guest or more than [`MOST_GUESTS`], else with
/// the answer of the first guest who is refused: 5 for the meeting, 6 for a visitor past the limit, 7, 9, 10, 11 or
/// 13, its place the session that fails; and else with 30 where the count is [`MOST_CHANGES`]. A refused party leaves
/// every word of the book as it was (section 17).
///
/// ```
/// use caviar::{Guest, Request};
/// let settings = [2, 2, 2, 3, 2, 2, 1, 2, 1, 0, 4];
/// let mut book = vec![0; caviar::book_len(&settings)];
/// caviar::lay(&settings, &mut book);
/// let stands = Request { kind: 8, a: 1, first: 1, last: 3, ..Default::default() };
/// assert_eq!(caviar::request(&mut book, stands).result(), Ok(0));
/// for visitor in [0, 2] {
///     let leave = Request { kind: 1, b: visitor, first: 0, last: 1, ..Default::default() };
///     assert_eq!(caviar::request(&mut book, leave).result(), Ok(0));
/// }
/// let guest = |visitor, first, last| Guest { visitor, first, last };
/// let before = book.clone();
/// let refused = caviar::party(&mut book, 1, &[guest(0, 1, 2), guest(2, 3, 3), guest(0, 2, 3)]);
/// assert_eq!(refused.result(), Err(caviar::Refusal { number: 11, place: 2 }));
/// assert_eq!(book, before);
/// let done = caviar::party(&mut book, 1, &[guest(0, 1, 2), guest(2, 3, 3), guest(0, 3, 3)]);
/// assert_eq!(done.result(), Ok(0));
/// ```
pub fn party(book: &mut [u32], meeting: u32, guests: &[Guest]) -> Answer {
    // SAFETY: each pointer has its slice's length, the slices do not overlap, since one is `&mut`, and `Guest` is
    // the header's struct (`repr(C)`).
    unsafe { ffi::caviar_party(book.as_mut_ptr(), book.len(), meeting, guests.as_ptr(), guests.len()) }
}

/// What a meeting costs over the dates `first` to `last`, both included. Its room-sessions are the conference rooms
/// that it holds in the sessions of those dates: two in one session are two. The charge is room-sessions times
/// [`Tariff::room`] and the seats of its lunches on those dates times [`Tariff::seat`]; with [`ROOM_SESSIONS`] or more
/// the first of the two is reduced by [`Tariff::percent`] percent and rounded to the cent, a half up. Refused with 1 or
/// 2 as by [`check`], with 6 for a meeting past the limit, with 7 for dates that are backward or past the last, and
/// with 31 for a tariff over its limits. No word of the book is changed (section 20).
///
/// ```
/// use caviar::{Refusal, Request, Tariff};
/// let settings = [3, 2, 2, 3, 2, 2, 1, 2, 1, 0, 4];
/// let mut book = vec![0; caviar::book_len(&settings)];
/// caviar::lay(&settings, &mut book);
/// let stands = Request { kind: 8, a: 0, first: 0, last: 5, ..Default::default() };
/// let room = |room, last| Request { kind: 12, a: room, b: 0, first: 0, last, ..Default::default() };
/// let lunch = Request { kind: 14, a: 0, b: 0, first: 0, last: 0, n: 3, info: 0 };
/// for request in [stands, room(0, 5), room(1, 3), lunch] {
///     assert_eq!(caviar::request(&mut book, request).result(), Ok(0));
/// }
/// let tariff = Tariff { room: 1001, seat: 1250, percent: 25 };
/// assert_eq!(caviar::charge(&book, 0, 0, 1, tariff).result(), Ok(8 * 1001 + 3 * 1250));
/// assert_eq!(caviar::charge(&book, 0, 0, 2, tariff).result(), Ok(7508 + 3 * 1250));
/// let refused = caviar::charge(&book, 0, 0, 2, Tariff { percent: 101, ..tariff });
/// assert_eq!(refused.result(), Err(Refusal { number: 31, place: 0 }));
/// ```
pub fn charge(book: &[u32], meeting: u32, first: u32, last: u32, tariff: Tariff) -> Charged {
    // SAFETY: the pointer and the length are those of one slice, which is only read, and `Tariff` is the header's struct
    // (`repr(C)`).
    unsafe { ffi::caviar_charge(book.as_ptr(), book.len(), meeting, first, last, tariff) }
}

/// The words of a list of requests, which has seven in each place and nothing between.
fn request_words(list: &[Request]) -> &[u32] {
    // SAFETY: `Request` is seven `u32` in order (`repr(C)`), with their alignment and no padding.
    unsafe { std::slice::from_raw_parts(list.as_ptr().cast(), list.len() * 7) }
}

/// The words of a list of orders, which has eight in each place and nothing between.
fn order_words(list: &[Order]) -> &[u32] {
    // SAFETY: `Order` is eight `u32` in order (`repr(C)`), with their alignment and no padding.
    unsafe { std::slice::from_raw_parts(list.as_ptr().cast(), list.len() * 8) }
}

/// The words of a list of answers, three in each place; every word is a value of its field.
fn answer_words(answers: &mut [Answer]) -> &mut [u32] {
    // SAFETY: `Answer` is three `u32` in order (`repr(C)`), with their alignment and no padding.
    unsafe { std::slice::from_raw_parts_mut(answers.as_mut_ptr().cast(), answers.len() * 3) }
}

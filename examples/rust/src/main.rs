//! A visit of two dates, from Rust: lay a book, ask for leave, a hotel room and a meeting, see a
//! refusal, check the book, write the porter's page of a date, add a party, send an order twice, see
//! first and then book, bill the meeting, and take a taxi before breakfast; then a list on the
//! largest book.

use caviar::{Answer, Asked, Guest, Request, Tariff};

fn say(what: &str, answer: Answer) {
    match answer.result() {
        Ok(value) => println!("{what}: done, value {value}"),
        Err(refusal) => println!("{what}: refused by question {} at {}", refusal.number, refusal.place),
    }
}

/// The small site of docs/RULES.md, section 13, request by request.
fn small_site() {
    let settings = [2, 2, 2, 3, 2, 2, 1, 2, 1, 0, 4];
    let mut book = vec![0; caviar::book_len(&settings)];
    let leave = Request { kind: 1, b: 1, first: 0, last: 1, ..Request::default() };
    let hotel = Request { kind: 4, a: 0, b: 1, first: 0, last: 1, ..Request::default() };
    let removal = Request { kind: 3, b: 1, first: 0, last: 1, ..Request::default() };

    println!("a book of these settings has {} words", book.len());
    say("lay", caviar::lay(&settings, &mut book));
    say("hotel room 0 for visitor 1 on dates 0 to 1", caviar::request(&mut book, hotel));
    say("leave for visitor 1 on dates 0 to 1", caviar::request(&mut book, leave));
    say("hotel room 0 for visitor 1 on dates 0 to 1", caviar::request(&mut book, hotel));
    say("remove visitor 1 on dates 0 to 1", caviar::request(&mut book, removal));
    say("check", caviar::check(&book));
    porters_page(&mut book);
    coach_party(&mut book);
    sent_twice(&mut book);
    see_first(&mut book);
    bill(&mut book);
}

/// Gives a meeting a room on date 1 and prints the porter's page of that date.
fn porters_page(book: &mut [u32]) {
    let list = [
        Request { kind: 1, b: 2, first: 1, last: 1, ..Request::default() },
        Request { kind: 8, a: 0, first: 2, last: 3, ..Request::default() },
        Request { kind: 10, a: 0, b: 2, first: 3, last: 3, ..Request::default() },
        Request { kind: 12, a: 1, b: 0, first: 2, last: 3, info: 70, ..Request::default() },
    ];
    let mut page = [0; 4 * caviar::PAGE_LINE];

    say("a meeting on date 1", caviar::requests(book, &list, &mut [Answer::default(); 4]));
    let answer = caviar::page(book, 1, &mut page);
    say("the page of date 1", answer);
    let lines = &page[..caviar::PAGE_LINE * answer.value as usize];
    print!("{}", String::from_utf8_lossy(lines));
    say("the page of date 2", caviar::page(book, 2, &mut page));
}

/// Two more visitors for the meeting of date 1, both or none.
fn coach_party(book: &mut [u32]) {
    let leave = [0, 1].map(|visitor| Request { kind: 1, b: visitor, first: 1, last: 1, ..Request::default() });
    let mut guests = [Guest { visitor: 0, first: 2, last: 3 }, Guest { visitor: 1, first: 1, last: 2 }];

    say("leave for visitors 0 and 1 on date 1", caviar::requests(book, &leave, &mut [Answer::default(); 2]));
    say("a party for meeting 0, one guest from date 0", caviar::party(book, 0, &guests));
    guests[1].first = 2;
    say("the party with both guests on date 1", caviar::party(book, 0, &guests));
    say("the party again", caviar::party(book, 0, &guests));
}

/// A hotel room with an order, sent again as if its answer had been lost; then the same request without a
/// number, and the number with another request.
fn sent_twice(book: &mut [u32]) {
    let hotel = Request { kind: 4, a: 1, b: 2, first: 1, last: 1, ..Request::default() };
    let other = Request { a: 0, ..hotel };

    say("order 17, hotel room 1 for visitor 2 on date 1", caviar::order(book, 17, hotel));
    say("order 17 again", caviar::order(book, 17, hotel));
    say("the same without an order", caviar::request(book, hotel));
    say("order 17 with hotel room 0", caviar::order(book, 17, other));
}

fn say_asked(what: &str, asked: Asked) {
    let count = asked.count;
    match asked.answer.result() {
        Ok(_) => println!("{what}: would be done at count {count}"),
        Err(no) => println!("{what}: would be refused by question {} at {}, at count {count}", no.number, no.place),
    }
}

/// Two offices see hotel room 0 free on date 1 at the same count. The one that commits first has it; the
/// other asks again.
fn see_first(book: &mut [u32]) {
    let here = Request { kind: 4, a: 0, b: 0, first: 1, last: 1, ..Request::default() };
    let there = Request { b: 1, ..here };
    let (seen_here, seen_there) = (caviar::ask(book, here), caviar::ask(book, there));

    say_asked("hotel room 0 for visitor 0 on date 1", seen_here);
    say_asked("hotel room 0 for visitor 1 on date 1", seen_there);
    say("commit for visitor 1", caviar::commit(book, seen_there.count, there));
    say("commit for visitor 0", caviar::commit(book, seen_here.count, here));
    say_asked("hotel room 0 for visitor 0 on date 1", caviar::ask(book, here));
}

/// What meeting 0 costs on date 1, where it has a room in two sessions and takes a lunch for three.
fn bill(book: &mut [u32]) {
    let lunch = Request { kind: 14, a: 0, b: 0, first: 1, last: 1, n: 3, info: 0 };
    let tariff = Tariff { room: 12_050, seat: 1290, percent: 10 };

    say("a lunch for meeting 0 on date 1", caviar::request(book, lunch));
    let charged = caviar::charge(book, 0, 0, 1, tariff);
    println!("meeting 0 on dates 0 to 1: number {}, {} cents", charged.number, charged.value);
    let charged = caviar::charge(book, 0, 0, 1, Tariff { percent: 101, ..tariff });
    println!("the same at 101 percent: number {}, {} cents", charged.number, charged.value);
}

/// A site of two dates with four ride times each, the first of which belongs to the date before: time
/// 4, the first of date 1, is on date 0. Visitor 0 has leave on date 0 alone.
fn early_taxi() {
    let settings = [2, 1, 4, 1, 1, 1, 1, 1, 1, 1, 4];
    let mut book = vec![0; caviar::book_len(&settings)];
    let leave = Request { kind: 1, b: 0, first: 0, last: 0, ..Request::default() };
    let early = Request { kind: 6, a: 0, b: 0, first: 4, last: 4, ..Request::default() };
    let later = Request { first: 5, last: 5, ..early };

    say("lay a book with early times", caviar::lay(&settings, &mut book));
    say("leave for visitor 0 on date 0", caviar::request(&mut book, leave));
    say("a taxi at time 4, early on date 1", caviar::request(&mut book, early));
    say("a taxi at time 5, later on date 1", caviar::request(&mut book, later));
}

/// The largest site, with a list of requests.
fn largest_site() {
    let mut settings = vec![400, 16, 96, 512, 128, 64, 16, 512, 128, 0];
    settings.extend([1000; 16]);
    let mut book = vec![0; caviar::book_len(&settings)];
    let list = [
        Request { kind: 1, b: 511, first: 0, last: 399, ..Request::default() },
        Request { kind: 4, a: 7, b: 511, first: 0, last: 399, ..Request::default() },
        Request { kind: 6, a: 12, b: 511, first: 0, last: 95, ..Request::default() },
        Request { kind: 18, first: 399, last: 399, ..Request::default() },
        Request { kind: 20, first: 6399, last: 6399, ..Request::default() },
        Request { kind: 3, b: 511, first: 0, last: 399, ..Request::default() },
    ];
    let mut answers = [Answer::default(); 6];

    say("lay the largest book and answer a list", caviar::serve(&settings, &mut book, &list, &mut answers));
    for (request, answer) in list.iter().zip(answers) {
        println!("  kind {}: number {}, place {}, value {}", request.kind, answer.number, answer.place, answer.value);
    }
    say("the same list again", caviar::requests(&mut book, &list, &mut answers));
    say("check", caviar::check(&book));
    book[caviar::MOST_WORDS - caviar::RING_WORDS - 2] = 513;
    say("check with a visitor past the limit in the last cell", caviar::check(&book));
}

fn main() {
    small_site();
    early_taxi();
    largest_site();
}

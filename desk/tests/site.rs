//! Batches against the engine called line by line, and the journal's calls done again: the same answers, books and orders.
use caviar::{Guest, Request};
use desk::journal::{Place, Record, Written};
use desk::line::Line;
use desk::orders::Orders;
use desk::site::{Batch, Replay, Reply, Site};
use std::collections::HashMap;

const SETTINGS: [u32; 12] = [3, 2, 3, 5, 4, 2, 2, 3, 2, 1, 6, 4];

struct Numbers(u64);

impl Numbers {
    fn below(&mut self, limit: u32) -> u32 {
        self.0 = self.0.wrapping_mul(6_364_136_223_846_793_005).wrapping_add(1_442_695_040_888_963_407);
        ((self.0 >> 33) as u32) % limit
    }
}

fn fresh() -> Site {
    let mut book = vec![0; caviar::book_len(&SETTINGS)];
    assert_eq!(caviar::lay(&SETTINGS, &mut book).number, 0);
    let orders = Orders::of_ring(&book);
    Site { number: [7; 16], book, orders, place: Place::default() }
}

fn request(numbers: &mut Numbers) -> [u32; 7] {
    let kind = numbers.below(22);
    let first = numbers.below(9);
    let info = if matches!(kind, 12 | 14) { numbers.below(9) } else { 0 };
    let (a, b) = match kind {
        1..=3 | 13 | 16 | 17 => (0, numbers.below(6)),
        8 | 9 | 19 => (numbers.below(4), 0),
        18 | 20 => (0, 0),
        _ => (numbers.below(4), numbers.below(6)),
    };
    [kind, a, b, first % 4, (first + numbers.below(2)) % 4, if kind == 14 { 1 + numbers.below(2) } else { 0 }, info]
}

/// A line of any sort; orders come again, near and far, sometimes with another request.
fn line(numbers: &mut Numbers, sent: &mut Vec<[u32; 8]>, count: u32) -> Line {
    match numbers.below(20) {
        0 => Line::Ask(request(numbers)),
        1 => {
            let [kind, a, b, first, last, n, info] = request(numbers);
            Line::Commit([count.wrapping_sub(numbers.below(2)), kind, a, b, first, last, n, info])
        }
        2 => {
            let guests =
                (0..numbers.below(4)).flat_map(|_| [numbers.below(5), numbers.below(3), numbers.below(4)]).collect();
            Line::Party([vec![numbers.below(4)], guests].concat())
        }
        3 => Line::Junk,
        4 => Line::Settings,
        5..=9 if !sent.is_empty() => {
            let mut again = sent[numbers.below(sent.len() as u32) as usize];
            again[2] += u32::from(numbers.below(10) == 0);
            Line::Frame(again)
        }
        sort => {
            let [kind, a, b, first, last, n, info] = request(numbers);
            let order = if sort < 17 { 1 + sent.len() as u32 } else { 0 };
            let frame = [kind, a, b, first, last, n, info, order];
            if order != 0 {
                sent.push(frame);
            }
            Line::Frame(frame)
        }
    }
}

/// The engine, line by line, and a plain memory of first answers.
fn expected(book: &mut [u32], first: &mut HashMap<u32, ([u32; 7], [u32; 3])>, line: &Line) -> Reply {
    Reply::Answer(match line {
        Line::Frame([request @ .., 0]) => caviar::request(book, Request::from_words(*request)).words(),
        Line::Frame([request @ .., order]) => match first.get(order) {
            Some((kept, answer)) if kept == request => *answer,
            Some(_) => [28, 0, 0],
            None => {
                let answer = caviar::order(book, *order, Request::from_words(*request)).words();
                first.insert(*order, (*request, answer));
                answer
            }
        },
        Line::Ask(request) => {
            let asked = caviar::ask(book, Request::from_words(*request));
            let [number, place, value] = asked.answer.words();
            return Reply::Asked([number, place, value, asked.count]);
        }
        Line::Commit([count, request @ ..]) => caviar::commit(book, *count, Request::from_words(*request)).words(),
        Line::Party(words) => {
            let guests: Vec<Guest> =
                words[1..].as_chunks::<3>().0.iter().map(|guest| Guest::from_words(*guest)).collect();
            caviar::party(book, words[0], &guests).words()
        }
        Line::Settings => return Reply::Settings,
        Line::Junk => [23, 0, 0],
    })
}

/// Batches of every length; the records that they left.
fn run(seed: u64, site: &mut Site) -> Vec<Written> {
    let mut numbers = Numbers(seed);
    let (mut book, mut first, mut sent) = (site.book.clone(), HashMap::new(), Vec::new());
    let (mut batch, mut records) = (Batch::default(), Vec::new());
    for _ in 0..60 {
        let most = if numbers.below(10) == 0 { 300 } else { 12 };
        let count = 1 + numbers.below(most);
        let changes = *site.book.last().expect("a book");
        let lines: Vec<Line> = (0..count).map(|_| line(&mut numbers, &mut sent, changes)).collect();
        batch.answer(site, lines.iter()).expect("a lawful book");
        for (line, reply) in lines.iter().zip(&batch.replies) {
            assert_eq!(*reply, expected(&mut book, &mut first, line), "seed {seed}: {line:?}");
        }
        assert_eq!(site.book, book, "seed {seed}");
        if batch.kept.count() > 0 {
            let record = Written::new(site.place, &batch.kept);
            site.place = record.after;
            records.push(record);
        }
    }
    records
}

#[test]
fn batches_are_the_engine_line_by_line_and_the_journal_gives_the_same_site() {
    for seed in 1..=40 {
        let mut site = fresh();
        let records = run(seed, &mut site);
        let mut again = fresh();
        let mut replay = Replay::new(&mut again);
        for record in &records {
            replay.add(&Record::read(&record.bytes).expect("a record"), u64::MAX).expect("calls that are known");
        }
        replay.flush().expect("the answers that were given");
        assert_eq!(replay.done, site.place.seq);
        assert_eq!((again.book, again.orders, again.place), (site.book, site.orders, site.place), "seed {seed}");
    }
}

#[test]
fn other_answers_than_were_given_are_found() {
    let mut site = fresh();
    let records = run(99, &mut site);
    let mut other = fresh();
    // Somebody else's book: one visitor has leave already.
    assert_eq!(caviar::request(&mut other.book, Request { kind: 1, ..Request::default() }).number, 0);
    let mut replay = Replay::new(&mut other);
    let added =
        records.iter().try_for_each(|record| replay.add(&Record::read(&record.bytes).expect("a record"), u64::MAX));
    let stop = added.and_then(|()| replay.flush()).expect_err("another book");
    assert_eq!(stop.code, desk::DAMAGED, "{}", stop.why);
}

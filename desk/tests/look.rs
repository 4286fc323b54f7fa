//! The page of a date and the picture of a book, on books that the engine made.

use caviar::Request;
use std::collections::BTreeSet;
use std::ops::RangeInclusive;

/// Two dates, two sessions and four times a date of which one is early, six visitors, two meetings and conference rooms,
/// two dining rooms of four and five seats, three hotel rooms and two transports.
const SITE: [u32; 12] = [2, 2, 4, 6, 2, 2, 2, 3, 2, 1, 4, 5];

/// Random numbers, the same in every run.
struct Numbers(u32);

impl Numbers {
    fn next(&mut self) -> u32 {
        self.0 = self.0.wrapping_mul(1_664_525).wrapping_add(1_013_904_223);
        self.0
    }

    fn below(&mut self, limit: u32) -> u32 {
        (self.next() >> 16) % limit
    }
}

fn fresh(settings: &[u32]) -> Vec<u32> {
    let mut book = vec![0; caviar::book_len(settings)];
    assert_eq!(caviar::lay(settings, &mut book).result(), Ok(0));
    book
}

fn small() -> Vec<u32> {
    let mut book = fresh(&SITE);
    let list = [
        [1, 0, 0, 0, 1, 0, 0],
        [1, 0, 1, 0, 0, 0, 0],
        [1, 0, 2, 0, 1, 0, 0],
        [1, 0, 4, 0, 0, 0, 0],
        [4, 0, 2, 0, 1, 0, 0],
        [4, 2, 4, 0, 0, 0, 0],
        [6, 1, 0, 3, 4, 0, 0],
        [6, 0, 2, 6, 6, 0, 0],
        [8, 1, 0, 0, 3, 0, 0],
        [8, 0, 0, 1, 1, 0, 0],
        [10, 1, 0, 0, 2, 0, 0],
        [10, 1, 1, 0, 1, 0, 0],
        [10, 1, 2, 0, 1, 0, 0],
        [10, 1, 4, 0, 0, 0, 0],
        [12, 0, 1, 0, 1, 0, 7],
        [12, 1, 1, 1, 2, 0, 12],
        [14, 1, 1, 0, 0, 3, 9],
        [14, 1, 0, 0, 0, 2, 0],
    ];
    for words in list {
        assert_eq!(caviar::request(&mut book, Request::from_words(words)).result(), Ok(0), "{words:?}");
    }
    book
}

const DATE_0: &str = "\
Date 0 (the site has the dates 0 to 1)

Leave: 4 of 6 visitors
  0-2, 4

Hotel rooms: 2 of 3 taken
  room  visitor
     0        2
     2        4

Rides, times 0 to 3 (numbers 0 to 3 of date 0): 1
  time  number  transport  visitor
     3       3          1        0

Early rides, time 4 (number 0 of date 1); they go with date 0: 1
  time  number  transport  visitor
     4       0          1        0

Meetings
  Session 0 (number 0 of date 0): 1 meeting
    meeting  rooms (information)  attend  visitors
          1  0 (7)                     4  0-2, 4
  Session 1 (number 1 of date 0): 2 meetings
    meeting  rooms (information)  attend  visitors
          0  none                      0  nobody
          1  0 (7), 1 (12)             3  0-2

Lunches
  dining room  seats taken  meeting  seats  information
            0       0 of 4     none      -            -
            1       5 of 5        0      2            0
                                  1      3            9
";

const FRESH: &str = "\
Date 1 (the site has the dates 0 to 1)

Leave: nobody

Hotel rooms: none of 3 taken

Rides, times 5 to 7 (numbers 1 to 3 of date 1): none

Meetings
  Session 2 (number 0 of date 1): none
  Session 3 (number 1 of date 1): none

Lunches
  dining room  seats taken  meeting  seats  information
            0       0 of 4     none      -            -
            1       0 of 5     none      -            -
";

#[test]
fn the_page_of_a_date() {
    assert_eq!(desk::show::page(&small(), 0).unwrap(), DATE_0);
    assert_eq!(desk::show::page(&fresh(&SITE), 1).unwrap(), FRESH);
}

#[test]
fn long_tables_stand_side_by_side() {
    let mut book = fresh(&[1, 1, 1, 100, 1, 1, 1, 100, 1, 0, 1]);
    for visitor in (0..100).filter(|visitor| visitor % 5 != 3) {
        for words in [[1, 0, visitor, 0, 0, 0, 0], [4, 99 - visitor, visitor, 0, 0, 0, 0]] {
            assert_eq!(caviar::request(&mut book, Request::from_words(words)).result(), Ok(0));
        }
    }
    let page = desk::show::page(&book, 0).unwrap();
    assert!(page.contains("\n     0       99   |    25       74   |    50       49   |    75       24\n"), "{page}");
    assert!(page.contains("\n  0-2, 4-7, 9-12,"), "{page}");
    assert!(page.lines().all(|line| line.len() <= 120));
}

#[test]
fn what_is_refused() {
    let book = small();
    let past = "date 2 is past the last: the site has the dates 0 to 1";
    assert_eq!(desk::show::page(&book, 2).unwrap_err(), past);
    assert_eq!(desk::look::page(&book, 0, 2).unwrap_err(), past);
    assert_eq!(
        desk::look::page(&book, 1, 0).unwrap_err(),
        "the dates are backward: the first, 1, is after the last, 0"
    );
    assert!(desk::show::page(&book, u32::MAX).is_err() && desk::look::page(&book, 0, u32::MAX).is_err());
    let long = fresh(&[63, 1, 1, 1, 1, 1, 1, 1, 1, 0, 1]);
    assert!(desk::look::page(&long, 0, 61).is_ok());
    assert_eq!(desk::look::page(&long, 0, 62).unwrap_err(), "63 dates are too many for one page: ask for at most 62");
    for words in [&book[..book.len() - 1], &book[..11], &book[..3], &[][..], &[u32::MAX; 800][..]] {
        assert!(desk::show::page(words, 0).is_err() && desk::look::page(words, 0, 0).is_err());
    }
}

/// An entry of a set: its letter, slot, the two numbers of its pair, seats and information.
type Entry = (char, u32, u32, u32, u32, u32);

/// A book that random requests filled, and the entries that it then has.
fn filled(settings: &[u32], count: u32, numbers: &mut Numbers) -> (Vec<u32>, BTreeSet<Entry>) {
    let &[d, p, q, v, m, c, g, h, k, ..] = settings else { panic!("settings") };
    let (mut book, mut entries) = (fresh(settings), BTreeSet::new());
    for _ in 0..count {
        let (letter, kind, limit_a, limit_b, slots) = [
            ('l', 1, 1, v, d),
            ('h', 4, h, v, d),
            ('r', 6, k, v, d * q),
            ('s', 8, m, 1, d * p),
            ('a', 10, m, v, d * p),
            ('c', 12, c, m, d * p),
            ('d', 14, g, m, d),
        ][numbers.below(7) as usize];
        let (a, b, first) = (numbers.below(limit_a), numbers.below(limit_b), numbers.below(slots));
        let last = (first + numbers.below(4)).min(slots - 1);
        let n = if kind == 14 { 1 + numbers.below(5) } else { 0 };
        let info = if kind >= 12 { numbers.below(3) } else { 0 };
        if caviar::request(&mut book, Request { kind, a, b, first, last, n, info }).number == 0 {
            entries.extend((first..=last).map(|slot| (letter, slot, a, b, n, info)));
        }
    }
    (book, entries)
}

/// The numbers of a text, in their order.
fn numbers_of(text: &str) -> Vec<u32> {
    let parts = text.split(|letter: char| !letter.is_ascii_digit());
    parts.filter(|part| !part.is_empty()).map(|part| part.parse().unwrap()).collect()
}

/// The slots of a run in words: `3`, `3 to 5` or `3-5`.
fn run(words: &str) -> RangeInclusive<u32> {
    let ends = numbers_of(words);
    ends[0]..=*ends.last().unwrap()
}

/// The titles of a picture: what its cells say.
fn titles(page: &str) -> Vec<&str> {
    let body = page.split_once("<body").unwrap().1;
    body.split("<title>").skip(1).map(|rest| rest.split_once("</title>").unwrap().0).collect()
}

/// The entries that a title tells of: hotel rooms, conference rooms, lunches, rides and leave.
fn told(title: &str, times: u32) -> Vec<Entry> {
    let (head, list) = title.split_once('\n').unwrap_or((title, ""));
    let (place_and_slots, what) = head.split_once(": ").unwrap();
    let (place, slots) = place_and_slots.split_once(", ").unwrap_or((place_and_slots, ""));
    let (place, held) = (numbers_of(place).first().copied().unwrap_or(0), numbers_of(what));
    let lines = list.lines().map(|line| line.split_once(": ").unwrap_or(("", line)));
    match head.split_whitespace().next().unwrap() {
        "Hotel" if what != "free" => run(slots).map(|date| ('h', date, place, held[0], 0, 0)).collect(),
        "Conference" if what != "free" => {
            let sessions = run(slots.split_once('(').unwrap().1);
            sessions.map(|session| ('c', session, place, held[0], 0, held[1])).collect()
        }
        "Dining" => {
            let lunches = lines.map(|(meeting, lunch)| (numbers_of(meeting)[0], numbers_of(lunch)));
            lunches.map(|(meeting, lunch)| ('d', numbers_of(slots)[0], place, meeting, lunch[0], lunch[1])).collect()
        }
        "Transport" => {
            lines.flat_map(|(times_told, who)| rides(times_told, place, numbers_of(who)[0], times)).collect()
        }
        "Date" if what.starts_with("leave") => {
            let visitors = list.split(", ").filter(|part| !part.is_empty()).flat_map(run);
            visitors.map(|visitor| ('l', place, 0, visitor, 0, 0)).collect()
        }
        _ => Vec::new(),
    }
}

/// The rides of times in words, `3 (7)`: the numbers within the date must be those of the times.
fn rides(words: &str, transport: u32, visitor: u32, times: u32) -> Vec<Entry> {
    let (within, slots) = words.split_once('(').unwrap();
    let slots = run(slots);
    assert_eq!(run(within), slots.start() % times..=slots.end() % times);
    slots.map(|time| ('r', time, transport, visitor, 0, 0)).collect()
}

/// The entries of a title, whose first number behind the colon must be theirs: seats, rides or visitors.
fn counted(title: &str, told: Vec<Entry>) -> Vec<Entry> {
    let number = title.split_once(": ").and_then(|(_, what)| numbers_of(what).first().copied());
    match told.first().map(|entry| entry.0) {
        Some('d') => assert_eq!(number, Some(told.iter().map(|entry| entry.4).sum()), "{title}"),
        Some('r' | 'l') => assert_eq!(number, Some(told.len() as u32), "{title}"),
        _ => {}
    }
    told
}

#[test]
fn each_entry_is_told_once() {
    let mut numbers = Numbers(22);
    for round in 0..30 {
        let settings = [5, 3, 4, [9, 70][round as usize % 2], 4, 3, 2, 6, 3, round % 4, 9, 12];
        let (book, entries) = filled(&settings, 2_000, &mut numbers);
        let page = desk::look::page(&book, 0, 4).unwrap();
        let mut told: Vec<Entry> = titles(&page).iter().flat_map(|title| counted(title, told(title, 4))).collect();
        told.sort();
        let shown = entries.iter().filter(|entry| !matches!(entry.0, 's' | 'a'));
        assert_eq!(told, shown.copied().collect::<Vec<_>>(), "round {round}");
    }
}

/// The visitors whom a conference room's title tells, by session.
fn attending(title: &str, sessions: u32) -> Vec<(u32, Vec<u32>)> {
    let (head, list) = title.split_once('\n').unwrap();
    let all = run(head.split_once('(').unwrap().1.split_once(')').unwrap().0);
    let first = all.start() / sessions * sessions;
    let mut told = Vec::new();
    for line in list.lines() {
        let (when, rest) = match line.strip_prefix("session").and_then(|line| line.split_once(": ")) {
            Some((when, rest)) => (first + run(when).start()..=first + run(when).end(), rest),
            None => (all.clone(), line),
        };
        let names = rest.split_once(": ").map_or("", |(_, names)| names);
        let visitors: Vec<u32> = names.split(", ").filter(|part| !part.is_empty()).flat_map(run).collect();
        assert!(
            rest.starts_with(&visitors.len().to_string()) || visitors.is_empty() && rest == "nobody attends",
            "{title}"
        );
        told.extend(when.map(|session| (session, visitors.clone())));
    }
    told
}

#[test]
fn who_attends_is_told_with_the_room() {
    let mut numbers = Numbers(3);
    for _ in 0..20 {
        let (book, entries) = filled(&[4, 5, 1, 20, 3, 3, 1, 1, 1, 0, 9], 1_500, &mut numbers);
        let page = desk::look::page(&book, 1, 3).unwrap();
        for title in
            titles(&page).into_iter().filter(|title| title.starts_with("Conference") && !title.ends_with("free"))
        {
            let meeting = numbers_of(title.split_once(": meeting ").unwrap().1)[0];
            for (session, visitors) in attending(title, 5) {
                let there = entries.iter().filter(|entry| entry.0 == 'a' && entry.1 == session && entry.2 == meeting);
                assert_eq!(visitors, there.map(|entry| entry.3).collect::<Vec<_>>(), "{title}");
            }
        }
    }
}

/// Who attends is told with each conference room of the meeting, and as a number where it has none.
#[test]
fn what_cells_say() {
    let page = desk::look::page(&small(), 0, 1).unwrap();
    let titles = titles(&page);
    for says in [
        "Conference room 0, date 0, sessions 0 to 1 (0 to 1): meeting 1, information 7\n\
         session 0: 4 visitors: 0-2, 4\nsession 1: 3 visitors: 0-2",
        "Conference room 1, date 1, session 0 (2): meeting 1, information 12\n1 visitor: 0",
        "Conference room 1, date 0, session 0 (0): free",
        "date 0, session 1 (1): 1 meeting without a room\nmeetings: 0\nattended by 0 visitors",
        "Transport 1, date 0: 2 rides at times\n3 (3): visitor 0\nearly 0 (4): visitor 0",
        "Hotel room 0, dates 0 to 1: visitor 2, 2 nights",
        "Dining room 0, date 1: 0 of 4 seats (0 %) taken",
    ] {
        assert_eq!(titles.iter().filter(|title| **title == says).count(), 1, "{says}\n{titles:#?}");
    }
    let totals = "<tr><th>Hotel rooms</th><td>3 of 6 room-nights (50 %)</td></tr>";
    assert!(page.contains(totals) && page.contains("<h1>The book: dates 0 to 1</h1>"));
}

/// Tags are balanced, attributes quoted, and nothing comes from elsewhere or runs.
fn well_formed(page: &str) {
    let rest = page.strip_prefix("<!DOCTYPE html>\n").expect("a page begins with its type");
    let mut open: Vec<&str> = Vec::new();
    for part in rest.split('<').skip(1) {
        let (tag, text) = part.split_once('>').expect("a tag ends");
        assert!(!text.contains('>') && !text.contains('&') && tag.matches('"').count() % 2 == 0, "{part}");
        let name = tag.split([' ', '/']).find(|word| !word.is_empty()).expect("a tag has a name");
        assert!(name != "script" && tag.split(' ').all(|word| !word.starts_with("on")), "{tag}");
        if tag.starts_with('/') {
            assert_eq!(open.pop(), Some(name));
        } else if !tag.ends_with('/') {
            open.push(name);
        }
    }
    assert!(open.is_empty(), "{open:?}");
    for word in ["http", "<script", "javascript", "@import", "src="] {
        assert!(!page.contains(word), "{word}");
    }
}

#[test]
fn pictures_are_well_formed() {
    let mut numbers = Numbers(5);
    well_formed(&desk::look::page(&small(), 0, 1).unwrap());
    well_formed(&desk::look::page(&fresh(&[1, 1, 1, 1, 1, 1, 1, 1, 1, 0, 1]), 0, 0).unwrap());
    let (book, _) = filled(&[70, 16, 12, 40, 20, 6, 3, 20, 5, 11, 1000, 7, 1], 3_000, &mut numbers);
    well_formed(&desk::look::page(&book, 3, 64).unwrap());
}

/// Words that are no lawful book may be drawn wrong, but nothing panics.
#[test]
fn random_words_never_panic() {
    let mut numbers = Numbers(9);
    for _ in 0..60 {
        let limits = [4, 3, 5, 40, 35, 4, 3, 5, 4].map(|limit| 1 + numbers.below(limit));
        let mut settings = limits.to_vec();
        settings.push(numbers.below(limits[2]));
        settings.extend((0..limits[6]).map(|_| 1 + numbers.below(1000)));
        let mut book = fresh(&settings);
        for word in &mut book[settings.len()..] {
            *word = [0, numbers.below(50), numbers.next(), u32::MAX][numbers.below(4) as usize];
        }
        let last = limits[0] - 1;
        well_formed(&desk::look::page(&book, numbers.below(limits[0]), last).unwrap());
        assert!(desk::show::page(&book, last).is_ok());
    }
}

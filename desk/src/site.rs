//! A site in memory: its book, the orders that are remembered, and the place in the list of kept calls. All answers are made here,
//! by the engine.
use crate::call::{self, changes, split, Call, Calls};
use crate::journal::{Place, Record};
use crate::line::Line;
use crate::orders::{Orders, Standing};
use crate::sum::sum;
use crate::words::bytes_of;
use crate::{stop, Outcome, Stop, DAMAGED, MEMORY};
use caviar::{Guest, Request};
use std::time::Instant;

/// The number that tells a site's files from another's.
pub type SiteNumber = [u8; 16];

pub struct Site {
    pub number: SiteNumber,
    pub book: Vec<u32>,
    pub orders: Orders,
    pub place: Place,
}

impl Site {
    /// The settings: ten words, and one for each dining room (rule 1.3).
    pub fn settings(&self) -> &[u32] {
        let dining = self.book.get(6).map_or(0, |count| *count as usize);
        &self.book[..self.book.len().min(10 + dining)]
    }

    fn change_count(&self) -> u32 {
        self.book.last().copied().unwrap_or(0)
    }
}

/// Questions 1 and 2 are asked of the book by every call: a book that they refuse was changed by something else than the engine.
fn refused_book(number: u32) -> Stop {
    Stop { code: MEMORY, why: format!("the book in memory is refused by question {number}; start again from disk") }
}

fn disagreement() -> Stop {
    Stop {
        code: MEMORY,
        why: "the remembered orders and the book's ring contradict each other; start again from disk".into(),
    }
}

/// Frames in a row, eight words each: one call of the engine, with one check of the book.
#[derive(Default)]
struct List {
    words: Vec<u32>,
    answers: Vec<u32>,
}

impl List {
    fn push(&mut self, request: &[u32], order: u32) {
        self.words.extend(request);
        self.words.push(order);
    }

    fn len(&self) -> usize {
        self.words.len() / 8
    }

    fn answer(&mut self, book: &mut [u32]) -> Outcome<()> {
        self.answers.clear();
        self.answers.resize(self.len() * 3, 0);
        match caviar::orders_words(book, &self.words, &mut self.answers).number {
            0 => Ok(()),
            number => Err(refused_book(number)),
        }
    }

    /// Each frame's words, and its answer.
    fn answered(&self) -> impl Iterator<Item = (&[u32; 8], [u32; 3])> {
        self.words.as_chunks::<8>().0.iter().zip(self.answers.as_chunks::<3>().0.iter().copied())
    }
}

fn guests_of(words: &[u32]) -> Vec<Guest> {
    words.as_chunks::<3>().0.iter().map(|guest| Guest::from_words(*guest)).collect()
}

/// What a line is told.
#[derive(Clone, Copy, Debug, PartialEq, Eq)]
pub enum Reply {
    Answer([u32; 3]),
    /// With the change count.
    Asked([u32; 4]),
    Settings,
}

/// The lines of a turn, their replies, and what of them is to be kept.
#[derive(Default)]
pub struct Batch {
    pub replies: Vec<Reply>,
    pub kept: Calls,
    list: List,
    /// Of each frame of the list: which reply is its own, and what its order is.
    frames: Vec<(usize, Option<Standing>)>,
}

impl Batch {
    /// Answers lines in their order. The book is then ahead of the disk, until `kept` is stored.
    pub fn answer<'a>(&mut self, site: &mut Site, lines: impl Iterator<Item = &'a Line>) -> Outcome<()> {
        self.replies.clear();
        self.kept.clear();
        for line in lines {
            if let Line::Frame(frame) = line {
                self.frame(site, frame)?;
            } else {
                let reply = self.single(site, line)?;
                self.replies.push(reply);
            }
        }
        self.finish_list(site)
    }

    /// A frame joins the list, but for an order that only the desk remembers.
    fn frame(&mut self, site: &mut Site, frame: &[u32; 8]) -> Outcome<()> {
        let [request @ .., order] = *frame;
        let standing = (order != 0).then(|| site.orders.standing(order));
        if standing == Some(Standing::Remembered) {
            if site.orders.recall(order, &request).is_none() {
                // It is further up in this very list.
                self.finish_list(site)?;
            }
            let answer = site.orders.recall(order, &request).ok_or_else(disagreement)?;
            self.replies.push(Reply::Answer(answer));
            return Ok(());
        }
        if standing == Some(Standing::New) {
            site.orders.begin(order, request);
        }
        self.list.push(&request, order);
        self.frames.push((self.replies.len(), standing));
        self.replies.push(Reply::Answer([0; 3]));
        Ok(())
    }

    /// The engine answers the frames of the list; what they changed is to be kept.
    fn finish_list(&mut self, site: &mut Site) -> Outcome<()> {
        if self.list.len() == 0 {
            return Ok(());
        }
        self.list.answer(&mut site.book)?;
        let mut with_orders = false;
        for ((words, answer), (reply, standing)) in self.list.answered().zip(&self.frames) {
            self.replies[*reply] = Reply::Answer(answer);
            with_orders |= standing.is_some();
            match standing {
                None if answer[0] == 0 && changes(words[0]) => self.kept.keep(call::REQUEST, &words[..7], answer),
                Some(Standing::New) => {
                    site.orders.answered(words[7], answer);
                    self.kept.keep(call::ORDER, words, answer);
                }
                Some(_) if site.orders.recall(words[7], &words[..7]) != Some(answer) => return Err(disagreement()),
                _ => {}
            }
        }
        self.list.words.clear();
        self.frames.clear();
        if with_orders && !site.orders.agree(&site.book) {
            return Err(disagreement());
        }
        Ok(())
    }

    /// A line that is no frame, on the book that the lines before it left.
    fn single(&mut self, site: &mut Site, line: &Line) -> Outcome<Reply> {
        if matches!(line, Line::Ask(_) | Line::Commit(_) | Line::Party(_)) {
            self.finish_list(site)?;
        }
        let answer = match line {
            Line::Ask(request) => {
                let asked = caviar::ask(&site.book, Request::from_words(*request));
                let [number, place, value] = lawful(asked.answer)?;
                return Ok(Reply::Asked([number, place, value, asked.count]));
            }
            Line::Settings => return Ok(Reply::Settings),
            Line::Commit(words) => {
                let [count, request @ ..] = *words;
                let answer = lawful(caviar::commit(&mut site.book, count, Request::from_words(request)))?;
                if answer[0] == 0 && changes(request[0]) {
                    self.kept.keep(call::COMMIT, words, answer);
                }
                answer
            }
            Line::Party(words) => {
                let answer = lawful(caviar::party(&mut site.book, words[0], &guests_of(&words[1..])))?;
                if answer[0] == 0 {
                    self.kept.keep(call::PARTY, words, answer);
                }
                answer
            }
            Line::Frame(_) | Line::Junk => [23, 0, 0],
        };
        Ok(Reply::Answer(answer))
    }
}

/// The words of an answer that is not about the book itself.
fn lawful(answer: caviar::Answer) -> Outcome<[u32; 3]> {
    match answer.number {
        1 | 2 => Err(refused_book(answer.number)),
        _ => Ok(answer.words()),
    }
}

/// Does kept calls again, many in a list, and compares their answers with those that were given.
pub struct Replay<'a> {
    site: &'a mut Site,
    list: List,
    /// Of each commit of the list: which frame it is, and at which count.
    commits: Vec<(usize, u32)>,
    answers: Vec<u32>,
    /// Of each record whose answers are not compared yet: its place, where its answers end, and their sum.
    records: Vec<(Place, usize, u32)>,
    calls: usize,
    pub done: u64,
    pub seconds: f64,
}

/// So many calls go to the engine at once.
const LIST: usize = 131_072;

impl<'a> Replay<'a> {
    pub fn new(site: &'a mut Site) -> Replay<'a> {
        let (list, commits, answers, records) = Default::default();
        Replay { site, list, commits, answers, records, calls: 0, done: 0, seconds: 0.0 }
    }

    pub fn place(&self) -> Place {
        self.site.place
    }

    /// A record that follows, or only so many of its calls.
    pub fn add(&mut self, record: &Record, most: u64) -> Outcome<()> {
        let all = record.words();
        let mut words = &all[..];
        for _ in 0..record.count().min(most) {
            let Some(call) = split(&mut words) else {
                return stop(
                    DAMAGED,
                    format!("record {:016x} has a call that this desk does not know", record.before().seq),
                );
            };
            self.call(call)?;
            self.calls += 1;
        }
        self.site.place = record.after();
        if most >= record.count() {
            self.records.push((record.before(), self.calls, record.answers()));
        }
        if self.calls >= LIST {
            self.flush()
        } else {
            Ok(())
        }
    }

    fn call(&mut self, call: Call) -> Outcome<()> {
        match call {
            Call::Request(request) => self.list.push(request, 0),
            Call::Order(words) => {
                let [request @ .., order] = *words;
                if self.site.orders.standing(order) != Standing::New {
                    return stop(DAMAGED, format!("the journal keeps order {order} twice"));
                }
                self.site.orders.begin(order, request);
                self.list.push(&request, order);
            }
            // At its count a commit is its request (rule 10.10).
            Call::Commit([count, request @ ..]) => {
                self.commits.push((self.list.len(), *count));
                self.list.push(request, 0);
            }
            Call::Party(words) => {
                self.finish_list()?;
                let answer = caviar::party(&mut self.site.book, words[0], &guests_of(&words[1..]));
                self.answers.extend(lawful(answer)?);
            }
        }
        Ok(())
    }

    fn finish_list(&mut self) -> Outcome<()> {
        if self.list.len() == 0 {
            return Ok(());
        }
        let mut count = self.site.change_count();
        self.list.answer(&mut self.site.book)?;
        let mut commits = self.commits.iter().peekable();
        for (at, (words, answer)) in self.list.answered().enumerate() {
            if commits.next_if(|commit| commit.0 == at).is_some_and(|commit| commit.1 != count) {
                return stop(DAMAGED, "the journal has a commit at another count than the book's");
            }
            if words[7] != 0 {
                self.site.orders.answered(words[7], answer);
            }
            count = count.wrapping_add(u32::from(answer[0] == 0 && changes(words[0])));
        }
        self.answers.extend(&self.list.answers);
        self.list.words.clear();
        self.commits.clear();
        Ok(())
    }

    /// Does what was added, and compares.
    pub fn flush(&mut self) -> Outcome<()> {
        let start = Instant::now();
        self.finish_list()?;
        let mut from = 0;
        for (place, to, kept) in self.records.drain(..) {
            if sum(bytes_of(&self.answers[3 * from..3 * to])) != kept {
                return stop(
                    DAMAGED,
                    format!("the calls of record {:016x} have other answers now than were given", place.seq),
                );
            }
            from = to;
        }
        if !self.site.orders.agree(&self.site.book) {
            return Err(disagreement());
        }
        self.done += self.calls as u64;
        self.calls = 0;
        self.answers.clear();
        self.seconds += start.elapsed().as_secs_f64();
        Ok(())
    }
}

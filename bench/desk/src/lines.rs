//! A client of a desk.
use crate::sites::{Request, Site};
use std::io::{Read, Write};
use std::os::unix::net::UnixStream;
use std::path::Path;
use std::sync::atomic::{AtomicU32, Ordering};
use std::time::Duration;

/// The answer of a booking that was accepted.
const DONE: &[u8] = b"000000000000000000000000\n";

struct Connection {
    stream: UnixStream,
    answers: Vec<u8>,
}

impl Connection {
    fn open(folder: &Path) -> Connection {
        let stream = UnixStream::connect(folder.join("sock")).expect("a desk that listens");
        stream.set_read_timeout(Some(Duration::from_secs(30))).expect("a timeout");
        Connection { stream, answers: Vec::new() }
    }

    /// Sends lines, and takes so many bytes of answers.
    fn ask(&mut self, lines: &[u8], length: usize) -> &[u8] {
        self.stream.write_all(lines).expect("a desk that reads");
        self.answers.resize(length, 0);
        self.stream.read_exact(&mut self.answers).expect("a desk that answers");
        &self.answers
    }

    fn must_tell(&mut self, lines: &[u8], expected: &[u8]) {
        let told = self.ask(lines, expected.len());
        assert!(told == expected, "the desk has answered {}", String::from_utf8_lossy(told));
    }
}

fn digits(words: &[u32]) -> String {
    words.iter().map(|word| format!("{word:08x}")).collect()
}

/// So many bookings at a time, without orders.
pub fn bookings(folder: &Path, site: &Site, client: u32, depth: u32) -> impl FnMut(u32) + Send {
    let list = &site.bookings[client as usize];
    let lines: Vec<String> = list.iter().map(|request| digits(request) + "\n").collect();
    // With an even depth every text begins with an addition, since the list has pairs.
    let text =
        |step: usize| (0..depth as usize).map(|at| &*lines[(step * depth as usize + at) % lines.len()]).collect();
    let texts: Vec<String> = (0..lines.len()).map(text).collect();
    let expected = DONE.repeat(depth as usize);
    let mut connection = Connection::open(folder);
    move |number| connection.must_tell(texts[number as usize % texts.len()].as_bytes(), &expected)
}

/// Orders are numbers of the whole site, and none comes twice.
static ORDERS: AtomicU32 = AtomicU32::new(1);

/// One booking at a time, each under an order of its own.
pub fn orders(folder: &Path, site: &Site, client: u32) -> impl FnMut(u32) + Send {
    let list: Vec<String> = site.bookings[client as usize].iter().map(|request| digits(request)).collect();
    let mut connection = Connection::open(folder);
    move |number| {
        let order = ORDERS.fetch_add(1, Ordering::Relaxed);
        let line = format!("{}{order:08x}\n", list[number as usize % list.len()]);
        connection.must_tell(line.as_bytes(), DONE);
    }
}

/// Asks for one booking at a time. Nothing changes meanwhile, so the count stays.
pub fn asks(folder: &Path, site: &Site, client: u32) -> impl FnMut(u32) + Send {
    let additions: Vec<&Request> = site.bookings[client as usize].iter().step_by(2).collect();
    let lines: Vec<String> = additions.into_iter().map(|request| format!("a{}\n", digits(request))).collect();
    let mut connection = Connection::open(folder);
    let expected = connection.ask(lines[0].as_bytes(), 33).to_vec();
    assert_eq!(expected[..24], DONE[..24], "a booking that would be accepted");
    move |number| connection.must_tell(lines[number as usize % lines.len()].as_bytes(), &expected)
}

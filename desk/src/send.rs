//! A client for people and scripts: lines of standard input go to the desk of a folder, what comes back to standard output.
use crate::{stop, system, Outcome, SYSTEM};
use std::io::{BufRead, BufReader, BufWriter, Write};
use std::net::Shutdown;
use std::os::unix::net::UnixStream;
use std::path::Path;
use std::sync::{Arc, Condvar, Mutex};
use std::time::{Duration, Instant};

/// Lines that may be unanswered at a time (docs/DESK.md, 4.3).
const MOST: usize = 1_000;

/// How many lines are unanswered, for the one who sends and the one who reads.
#[derive(Default)]
struct Unanswered {
    count: Mutex<usize>,
    fewer: Condvar,
}

impl Unanswered {
    fn one_more(&self) {
        let count = self.count.lock().unwrap_or_else(|held| held.into_inner());
        *self.fewer.wait_while(count, |count| *count >= MOST).unwrap_or_else(|held| held.into_inner()) += 1;
    }

    fn one_less(&self) {
        let mut count = self.count.lock().unwrap_or_else(|held| held.into_inner());
        *count = count.saturating_sub(1);
        self.fewer.notify_one();
    }

    fn count(&self) -> usize {
        *self.count.lock().unwrap_or_else(|held| held.into_inner())
    }
}

/// A desk that was just started may not listen yet.
fn connected(folder: &Path) -> std::io::Result<UnixStream> {
    let last = Instant::now() + Duration::from_secs(3);
    loop {
        match UnixStream::connect(folder.join("sock")) {
            Err(_) if Instant::now() < last => std::thread::sleep(Duration::from_millis(50)),
            result => return result,
        }
    }
}

/// Sends until standard input ends, and waits for the last answer.
pub fn send(folder: &Path) -> Outcome<()> {
    let stream = system("connecting to the desk (is it running?)", connected(folder))?;
    let unanswered = Arc::new(Unanswered::default());
    let (output, counted) = (system("connecting", stream.try_clone())?, unanswered.clone());
    std::thread::spawn(move || send_lines(output, &counted));
    let mut answers = BufReader::new(stream);
    let mut line = Vec::new();
    let mut said = std::io::stdout().lock();
    loop {
        line.clear();
        let count = system("reading from the desk", answers.read_until(b'\n', &mut line))?;
        if count == 0 {
            break;
        }
        if line.starts_with(b"!") {
            return stop(SYSTEM, format!("the desk says: {}", String::from_utf8_lossy(&line[1..]).trim()));
        }
        unanswered.one_less();
        system("writing", said.write_all(&line))?;
    }
    match unanswered.count() {
        0 => Ok(()),
        count => stop(SYSTEM, format!("the desk has closed the connection, and {count} lines have no answer")),
    }
}

/// A last line without its end is sent as one.
fn send_lines(stream: UnixStream, unanswered: &Unanswered) {
    let mut desk = BufWriter::new(&stream);
    let mut input = std::io::stdin().lock();
    let mut line = Vec::new();
    while input.read_until(b'\n', &mut line).is_ok_and(|count| count > 0) {
        if line.last() != Some(&b'\n') {
            line.push(b'\n');
        }
        unanswered.one_more();
        if desk.write_all(&line).and_then(|()| desk.flush()).is_err() {
            return;
        }
        line.clear();
    }
    let _ = stream.shutdown(Shutdown::Write);
}

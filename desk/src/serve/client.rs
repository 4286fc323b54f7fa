//! A client: the bytes that came from it, cut into lines, and the answers that it has not taken yet.
use super::door::Stream;
use crate::line::{self, Line, LONGEST};
use crate::site::Reply;
use crate::system::{PollFd, READABLE, WRITABLE};
use std::io::ErrorKind;
use std::time::{Duration, Instant};

/// Bytes read from a client in a turn.
pub const TURN: usize = 1 << 16;
/// A client that has not taken so many bytes of answers is not read.
const UNTAKEN: usize = 1 << 17;
/// Lines of a client in a batch: a turn of frames is fewer, and no other lines get much longer answers.
const MOST_LINES: usize = 2_048;
/// Of these, lines that are costly.
const MOST_COSTLY: usize = 16;

pub struct Client {
    stream: Stream,
    /// What came and was not taken into a batch yet.
    input: Vec<u8>,
    /// The line that comes in is longer than any that is looked at.
    skipping: bool,
    /// Lines are left that the last batch had no room for.
    behind: bool,
    output: Vec<u8>,
    sent: usize,
    /// It sends nothing more, and goes when it has its answers.
    ended: bool,
    gone: bool,
    /// When it last took answers, or last had none to take.
    progress: Instant,
}

impl Client {
    pub fn new(stream: Stream) -> Client {
        let (input, output) = (Vec::new(), Vec::new());
        let progress = Instant::now();
        Client { stream, input, skipping: false, behind: false, output, sent: 0, ended: false, gone: false, progress }
    }

    fn untaken(&self) -> usize {
        self.output.len() - self.sent
    }

    pub fn has_answers(&self) -> bool {
        self.untaken() > 0 && !self.gone
    }

    pub fn is_behind(&self) -> bool {
        self.behind && !self.gone
    }

    /// What to wait for. A client is read when its lines are done and its answers taken.
    pub fn poll(&self) -> PollFd {
        let read = !self.ended && !self.behind && self.untaken() <= UNTAKEN;
        let events = if read { READABLE } else { 0 } | if self.untaken() > 0 { WRITABLE } else { 0 };
        PollFd { fd: self.stream.fd(), events, revents: 0 }
    }

    /// Takes in what the client has sent, up to one turn.
    pub fn read(&mut self, room: &mut [u8]) {
        match self.stream.read(room) {
            Ok(0) => self.ended = true,
            Ok(count) => self.input.extend(&room[..count]),
            Err(error) if matches!(error.kind(), ErrorKind::WouldBlock | ErrorKind::Interrupted) => {}
            Err(_) => self.gone = true,
        }
    }

    /// Hands out whole lines, as many as a batch has room for. What the end of the connection leaves unfinished is dropped.
    pub fn lines(&mut self, mut take: impl FnMut(Line)) {
        let (mut from, mut count, mut costly) = (0, 0, 0);
        self.behind = false;
        while let Some(length) = self.input[from..].iter().position(|byte| *byte == b'\n') {
            if count == MOST_LINES || costly == MOST_COSTLY {
                self.behind = true;
                break;
            }
            let long = std::mem::take(&mut self.skipping) || length > LONGEST;
            let line = if long { Line::Junk } else { Line::read(&self.input[from..from + length]) };
            count += 1;
            costly += usize::from(line.is_costly());
            take(line);
            from += length + 1;
        }
        self.input.drain(..from);
        if !self.behind && self.input.len() > LONGEST {
            self.skipping = true;
        }
        if self.skipping && !self.behind {
            self.input.clear();
        }
    }

    pub fn reply(&mut self, reply: Reply, settings: &[u32]) {
        if self.untaken() == 0 {
            self.progress = Instant::now();
        }
        match reply {
            Reply::Answer(words) => line::write(&words, &mut self.output),
            Reply::Asked(words) => line::write(&words, &mut self.output),
            Reply::Settings => line::write(settings, &mut self.output),
        }
    }

    /// A message, behind which the connection ends.
    pub fn tell(&mut self, message: &str) {
        self.output.extend(format!("! {}\n", message.replace('\n', " ")).bytes());
        self.ended = true;
        self.flush();
    }

    /// Sends what the client takes.
    pub fn flush(&mut self) {
        while self.untaken() > 0 && !self.gone {
            match self.stream.write(&self.output[self.sent..]) {
                Ok(0) => self.gone = true,
                Ok(count) => {
                    self.sent += count;
                    self.progress = Instant::now();
                }
                Err(error) if error.kind() == ErrorKind::Interrupted => {}
                Err(error) if error.kind() == ErrorKind::WouldBlock => return,
                Err(_) => self.gone = true,
            }
        }
        self.output.clear();
        self.sent = 0;
    }

    /// The other end is closed, or an error stands.
    pub fn lose(&mut self) {
        self.gone = true;
    }

    /// Does it stay? It goes when it is lost, when it has ended and has its answers, or when patience with it has ended.
    pub fn stays(&self, patience: Duration) -> bool {
        let done = self.ended && self.untaken() == 0 && !self.behind;
        let stuck = self.untaken() > 0 && self.progress.elapsed() > patience;
        !self.gone && !done && !stuck
    }
}

//! The loop.
use super::client::{Client, TURN};
use super::door::Door;
use super::figures::Figures;
use super::snapshots::Snapshots;
use super::{say, Options};
use crate::folder::Folder;
use crate::journal::{Journal, Written};
use crate::line::Line;
use crate::site::{Batch, Site};
use crate::system::{self, PollFd, GONE, READABLE, WRITABLE};
use crate::Outcome;
use std::time::{Duration, Instant};

/// How long a round waits for something to do.
const ROUND: i32 = 250;
/// How long clients have to take their last answers.
const LAST: Duration = Duration::from_secs(2);
/// A batch waits at most this part of the last one's time for the clients that the last one answered, and only where that is longer
/// than the shortest wait: a sleep costs some 90 microseconds, so only long batches, those of large books, are worth it.
const LINGER: u32 = 16;
const SHORTEST_WAIT: Duration = Duration::from_micros(200);

pub struct Desk<'a> {
    site: Site,
    journal: Box<dyn Journal>,
    options: &'a Options,
    clients: Vec<Client>,
    /// The lines of the batch, each with its client.
    lines: Vec<(usize, Line)>,
    batch: Batch,
    snapshots: Snapshots,
    figures: Figures,
    /// How many clients the last batch answered, and how long it took.
    answered: usize,
    took: Duration,
    /// The system refused to let somebody in: the doors are left alone until then.
    doors_rest: Instant,
}

impl<'a> Desk<'a> {
    pub fn new(folder: Folder, site: Site, journal: Box<dyn Journal>, snapped: u64, options: &'a Options) -> Desk<'a> {
        let snapshots = Snapshots::new(folder, &site, snapped);
        Desk {
            site,
            journal,
            options,
            clients: Vec::new(),
            lines: Vec::new(),
            batch: Batch::default(),
            snapshots,
            figures: Figures::default(),
            answered: 0,
            took: Duration::ZERO,
            doors_rest: Instant::now(),
        }
    }

    /// Round after round, until the desk is told to end; then what was read is answered, and a snapshot taken.
    pub fn run(&mut self, doors: &[Door]) -> Outcome<()> {
        let mut room = vec![0; TURN];
        while !system::ending() {
            self.round(doors, &mut room)?;
        }
        self.drain()
    }

    fn round(&mut self, doors: &[Door], room: &mut [u8]) -> Outcome<()> {
        let mut fds = self.wait(doors);
        let (at_doors, at_clients) = fds.split_at_mut(doors.len());
        let woken = Instant::now();
        self.take_up();
        self.hear(at_clients, room);
        self.linger(at_clients, room, woken);
        self.figures.reading += woken.elapsed();
        if self.lines.is_empty() {
            self.journal.affirm()?;
        } else {
            self.answer()?;
        }
        for (door, fd) in doors.iter().zip(at_doors) {
            if fd.revents & READABLE != 0 {
                self.let_in(door);
            }
        }
        let patience = self.options.patience;
        self.clients.retain(|client| client.stays(patience));
        self.snapshots.finish(false);
        let due = self.snapshots.since(&self.site) >= self.options.every;
        if !self.snapshots.busy() && (due || system::snapshot_wanted()) {
            self.snapshots.begin(&self.site, self.journal.as_mut())?;
        }
        Ok(())
    }

    /// Waits for doors and clients; not at all where lines are left from the last round.
    fn wait(&mut self, doors: &[Door]) -> Vec<PollFd> {
        let start = Instant::now();
        let open = if start < self.doors_rest { 0 } else { READABLE };
        let at_doors = doors.iter().map(|door| PollFd { fd: door.fd(), events: open, revents: 0 });
        let mut fds: Vec<PollFd> = at_doors.chain(self.clients.iter().map(Client::poll)).collect();
        let behind = self.clients.iter().any(Client::is_behind);
        system::wait(&mut fds, if behind { 0 } else { ROUND });
        self.figures.idle += start.elapsed();
        fds
    }

    /// Lines that the last batch had no room for.
    fn take_up(&mut self) {
        for (index, client) in self.clients.iter_mut().enumerate().filter(|(_, client)| client.is_behind()) {
            client.lines(|line| self.lines.push((index, line)));
        }
    }

    /// Sends to clients that can take, reads those that have sent, and gathers their whole lines.
    fn hear(&mut self, fds: &[PollFd], room: &mut [u8]) {
        for (index, (client, fd)) in self.clients.iter_mut().zip(fds).enumerate() {
            if fd.revents & WRITABLE != 0 {
                client.flush();
            }
            if fd.revents & READABLE != 0 {
                client.read(room);
                client.lines(|line| self.lines.push((index, line)));
            } else if fd.revents & GONE != 0 {
                client.lose();
            }
        }
    }

    /// Clients of this batch. One whose lines came in two parts counts twice, which shortens a wait.
    fn clients_in_batch(&self) -> usize {
        self.lines.chunk_by(|one, next| one.0 == next.0).count()
    }

    /// On large books: waits a little for the clients that the last batch answered.
    fn linger(&mut self, fds: &mut [PollFd], room: &mut [u8], woken: Instant) {
        let most = self.took / LINGER;
        if most <= SHORTEST_WAIT || self.lines.is_empty() {
            return;
        }
        while self.clients_in_batch() < self.answered && woken.elapsed() < most {
            std::thread::sleep(Duration::from_micros(30));
            for (fd, client) in fds.iter_mut().zip(&self.clients) {
                *fd = PollFd { events: client.poll().events & READABLE, ..*fd };
            }
            system::wait(fds, 0);
            fds.iter_mut().for_each(|fd| fd.revents &= READABLE);
            self.hear(fds, room);
        }
    }

    /// The batch: done on the book, stored, answered. Nothing is answered unless it is stored.
    fn answer(&mut self) -> Outcome<()> {
        let start = Instant::now();
        self.batch.answer(&mut self.site, self.lines.iter().map(|(_, line)| line))?;
        let done = Instant::now();
        if self.batch.kept.count() > 0 {
            let record = Written::new(self.site.place, &self.batch.kept);
            self.journal.append(&record)?;
            self.site.place = record.after;
            self.figures.stored += 1;
        } else {
            self.journal.affirm()?;
        }
        let stored = Instant::now();
        for ((index, _), reply) in self.lines.iter().zip(&self.batch.replies) {
            self.clients[*index].reply(*reply, self.site.settings());
        }
        self.clients.iter_mut().filter(|client| client.has_answers()).for_each(Client::flush);
        self.answered = self.clients_in_batch();
        self.took = start.elapsed();
        self.figures.batches += 1;
        self.figures.lines += self.lines.len() as u64;
        self.figures.calls += self.batch.kept.count() as u64;
        self.figures.engine += done - start;
        self.figures.storing += stored - done;
        self.figures.sending += stored.elapsed();
        self.lines.clear();
        Ok(())
    }

    fn let_in(&mut self, door: &Door) {
        loop {
            match door.accept() {
                Ok(stream) => {
                    let mut client = Client::new(stream);
                    if self.clients.len() >= self.options.clients {
                        client.tell("full");
                        continue;
                    }
                    self.clients.push(client);
                }
                Err(error) if error.kind() == std::io::ErrorKind::WouldBlock => return,
                Err(error) => {
                    say(&format!("note: nobody can be let in: {error}"));
                    self.doors_rest = Instant::now() + Duration::from_secs(1);
                    return;
                }
            }
        }
    }

    /// Nothing more is read; what came is done, stored and answered, and the book kept.
    fn drain(&mut self) -> Outcome<()> {
        while self.clients.iter().any(Client::is_behind) {
            self.take_up();
            self.answer()?;
        }
        self.snapshots.finish(true);
        self.snapshots.begin(&self.site, self.journal.as_mut())?;
        self.snapshots.finish(true);
        say(&format!("ended behind call {}", self.site.place.seq));
        Ok(())
    }

    /// Clients are told why the desk goes; what they were not answered they will not be.
    pub fn leave(&mut self, result: &Outcome<()>) {
        let why = match result {
            Ok(()) => "stopped: the desk was told to end".to_string(),
            Err(stop) => format!("stopped: {}", stop.why),
        };
        self.clients.iter_mut().for_each(|client| client.tell(&why));
        let last = Instant::now() + LAST;
        while self.clients.iter().any(Client::has_answers) && Instant::now() < last {
            std::thread::sleep(Duration::from_millis(2));
            self.clients.iter_mut().for_each(Client::flush);
        }
        if self.options.figures {
            self.figures.say(self.journal.syncing());
        }
    }
}

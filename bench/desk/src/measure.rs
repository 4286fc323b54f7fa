//! All that is measured, pass by pass: what is compared is measured in turn.
use crate::crowd::{Crowd, Run, Runs};
use crate::desk::Folder;
use crate::options::Options;
use crate::replay::{in_memory, newest_calls};
use crate::series::{median, Series};
use crate::sites::{self, Site};
use crate::{lines, others};
use std::time::{Duration, Instant};

/// Numbers of clients.
pub const ONE: u32 = 1;
pub const SOME: u32 = 8;
pub const MANY: u32 = 64;
pub const COUNTS: [u32; 3] = [ONE, SOME, MANY];
/// Lines that a client sends at a time, where it sends several.
pub const DEPTH: u32 = 16;
/// A journal is done again so often in a pass, by the desk and in memory; the least time counts.
const TURNS: usize = 3;
/// The desk takes a snapshot only when it is told to.
const NO_SNAPSHOT: [&str; 2] = ["--every", "1000000000000"];

/// A site, and the folder of its desk.
struct Place {
    site: Site,
    folder: Folder,
}

impl Place {
    fn new(options: &Options, site: Site, name: &str) -> Place {
        let folder = Folder::import(&options.desk, options.folder.join(name), &site);
        Place { site, folder }
    }

    /// Bookings of so many clients, with a desk of their own; its journal is in files, or where the options say.
    fn bookings(&self, crowd: Crowd, options: &[&str]) -> Run {
        self.served(crowd, options, true, |client| lines::bookings(&self.folder.path, &self.site, client, crowd.depth))
    }

    fn served<Client: FnMut(u32) + Send>(
        &self,
        crowd: Crowd,
        options: &[&str],
        kept: bool,
        enter: impl Fn(u32) -> Client,
    ) -> Run {
        let check = self.site.check();
        let desk = self.folder.serve(&[&NO_SNAPSHOT[..], options].concat());
        let mut run = crowd.run(enter);
        run.figures = desk.end(if kept { run.requests } else { 0 });
        run.check = (check + self.site.check()) / 2.0;
        run
    }

    /// Many lines at a time; then the desk is killed, and all that was answered must be there. The journal is done again by the desk,
    /// and once more in memory.
    fn killed(&self, crowd: Crowd, replays: &mut Replays) -> Run {
        let before = self.folder.check(TURNS);
        let desk = self.folder.serve(&NO_SNAPSHOT);
        let run = crowd.run(|client| lines::bookings(&self.folder.path, &self.site, client, crowd.depth));
        desk.kill();
        let after = self.folder.check(TURNS);
        assert_eq!(after.kept - before.kept, run.requests, "calls kept by a killed desk, and bookings accepted");
        let list = newest_calls(&self.folder.path);
        let calls = (list.len() / 8) as f64;
        assert_eq!(after.again, calls, "calls done again, and calls of the newest segment");
        replays.desk.0.push(after.seconds / calls);
        replays.start.0.push((after.whole - before.whole) / calls);
        replays.memory.0.push(in_memory(&self.site, &list, TURNS) / calls);
        run
    }

    /// Snapshots while clients book, one behind the other.
    fn snapshots(&self, crowd: Crowd, snapshots: &mut Snapshots) {
        let check = self.site.check();
        let desk = self.folder.serve(&NO_SNAPSHOT);
        let start = Instant::now();
        let (run, taken) = std::thread::scope(|scope| {
            let enter = |client| lines::bookings(&self.folder.path, &self.site, client, crowd.depth);
            let clients = scope.spawn(move || crowd.run(enter));
            let mut taken = Vec::new();
            // The last one begins long before the clients end: a desk without new calls takes none.
            while start.elapsed().as_secs_f64() < 0.6 * crowd.seconds {
                std::thread::sleep(Duration::from_secs_f64(0.1 * crowd.seconds));
                taken.push(desk.snapshot());
            }
            (clients.join().expect("a client has failed"), taken)
        });
        let (waited, on_disk): (Vec<f64>, Vec<f64>) = taken.into_iter().unzip();
        snapshots.waited.0.push(median(waited));
        snapshots.on_disk.0.push(median(on_disk));
        snapshots.longest.0.push(run.longest);
        desk.end(run.requests);
        snapshots.check.0.push((check + self.site.check()) / 2.0);
    }
}

/// Seconds a call: done again by the desk, with the reading of the files, and in memory.
#[derive(Default)]
pub struct Replays {
    pub desk: Series,
    pub start: Series,
    pub memory: Series,
}

/// Seconds: how long answers waited for it, after which it was on disk, the longest that a client waited at all, and a check.
#[derive(Default)]
pub struct Snapshots {
    pub waited: Series,
    pub on_disk: Series,
    pub longest: Series,
    pub check: Series,
}

#[derive(Default)]
pub struct Results {
    pub medium: Runs,
    pub largest: Runs,
    pub tiny: Runs,
    pub sqlite: Runs,
    pub postgres: Runs,
    /// The medium site, its journal in PostgreSQL.
    pub over_postgres: Runs,
    pub deep_medium: Runs,
    pub deep_largest: Runs,
    pub orders: Runs,
    pub asks: Runs,
    pub replay_medium: Replays,
    pub replay_largest: Replays,
    pub snapshots: Snapshots,
}

pub struct Bench {
    options: Options,
    medium: Place,
    largest: Place,
    tiny: Place,
    over_postgres: Option<Place>,
    pub results: Results,
}

impl Bench {
    pub fn new(options: Options) -> Bench {
        let place = |site, name| Place::new(&options, site, name);
        let (medium, largest) = (place(sites::medium(), "medium"), place(sites::largest(), "largest"));
        let tiny = place(sites::tiny(), "tiny");
        let over_postgres = options.desk_pg.then(|| place(sites::medium(), "over-postgres"));
        Bench { options, medium, largest, tiny, over_postgres, results: Results::default() }
    }

    fn crowd(&self, clients: u32, depth: u32) -> Crowd {
        Crowd { clients, seconds: self.options.seconds, depth }
    }

    pub fn pass(&mut self) {
        for clients in COUNTS {
            self.one_at_a_time(clients);
        }
        self.other_lines();
        self.snapshots_and_replay();
    }

    /// Each client sends one booking and waits.
    fn one_at_a_time(&mut self, clients: u32) {
        let crowd = self.crowd(clients, 1);
        let results = &mut self.results;
        results.medium.add(clients, self.medium.bookings(crowd, &[]));
        results.sqlite.extend(clients, others::sqlite(&self.options.folder, crowd));
        results.postgres.extend(clients, others::postgres(self.options.pg.as_deref(), crowd));
        if let (Some(place), Some(connection)) = (&self.over_postgres, &self.options.pg) {
            results.over_postgres.add(clients, place.bookings(crowd, &["--pg", connection]));
        }
        results.tiny.add(clients, self.tiny.bookings(crowd, &[]));
        results.largest.add(clients, self.largest.bookings(crowd, &[]));
    }

    /// Orders and asks, one at a time.
    fn other_lines(&mut self) {
        let (crowd, Place { site, folder }) = (self.crowd(SOME, 1), &self.medium);
        let orders = self.medium.served(crowd, &[], true, |client| lines::orders(&folder.path, site, client));
        let asks = self.medium.served(crowd, &[], false, |client| lines::asks(&folder.path, site, client));
        self.results.orders.add(SOME, orders);
        self.results.asks.add(SOME, asks);
    }

    fn snapshots_and_replay(&mut self) {
        let (some, many) = (self.crowd(SOME, 1), self.crowd(MANY, DEPTH));
        let results = &mut self.results;
        self.largest.snapshots(some, &mut results.snapshots);
        results.deep_medium.add(MANY, self.medium.killed(many, &mut results.replay_medium));
        results.deep_largest.add(MANY, self.largest.killed(many, &mut results.replay_largest));
    }
}

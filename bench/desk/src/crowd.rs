//! Many clients at once, each in a thread of its own, each waiting for its answer before it goes on.
use crate::desk::Figures;
use crate::series::Series;
use std::collections::BTreeMap;
use std::sync::Barrier;
use std::time::{Duration, Instant};

/// What was seen while so many clients worked. Times are seconds.
pub struct Run {
    pub requests: u64,
    pub per_second: f64,
    pub p50: f64,
    pub p99: f64,
    pub longest: f64,
    /// What the desk said of its batches, and a check of its book just before and behind; zeros where no desk worked.
    pub figures: Figures,
    pub check: f64,
}

/// How many, how long, and how many requests each sends at a time.
#[derive(Clone, Copy)]
pub struct Crowd {
    pub clients: u32,
    pub seconds: f64,
    pub depth: u32,
}

impl Crowd {
    /// Each client takes its steps until the time is over. Even steps add and odd ones erase, so the last step is an odd one: every
    /// run leaves the bookings as they were. A step that is not answered as it must be panics, and so does the run.
    pub fn run<Client: FnMut(u32) + Send>(self, enter: impl Fn(u32) -> Client) -> Run {
        let clients: Vec<Client> = (0..self.clients).map(enter).collect();
        let barrier = Barrier::new(clients.len());
        let worked: Vec<(Vec<f64>, f64)> = std::thread::scope(|scope| {
            let threads: Vec<_> =
                clients.into_iter().map(|client| scope.spawn(|| self.work(client, &barrier))).collect();
            threads.into_iter().map(|thread| thread.join().expect("a client has failed")).collect()
        });
        let seconds = worked.iter().map(|(_, seconds)| *seconds).fold(0.0, f64::max);
        let mut times: Vec<f64> = worked.into_iter().flat_map(|(times, _)| times).collect();
        times.sort_by(f64::total_cmp);
        let at = |part: f64| times[((times.len() as f64 * part) as usize).min(times.len() - 1)];
        let requests = times.len() as u64 * u64::from(self.depth);
        let per_second = requests as f64 / seconds;
        let (p50, p99, longest) = (at(0.5), at(0.99), at(1.0));
        Run { requests, per_second, p50, p99, longest, figures: Figures::default(), check: 0.0 }
    }

    /// The time of each step, and of all.
    fn work(self, mut step: impl FnMut(u32), barrier: &Barrier) -> (Vec<f64>, f64) {
        barrier.wait();
        let start = Instant::now();
        let end = start + Duration::from_secs_f64(self.seconds);
        let mut times = Vec::new();
        for number in 0u32.. {
            let begun = Instant::now();
            if begun >= end && number.is_multiple_of(2) && number > 0 {
                break;
            }
            step(number);
            times.push(begun.elapsed().as_secs_f64());
        }
        (times, start.elapsed().as_secs_f64())
    }
}

/// The runs of one system: for each number of clients, one a pass.
#[derive(Default)]
pub struct Runs(BTreeMap<u32, Vec<Run>>);

impl Runs {
    pub fn add(&mut self, clients: u32, run: Run) {
        self.0.entry(clients).or_default().push(run);
    }

    /// The same, where there may be none.
    pub fn extend(&mut self, clients: u32, run: Option<Run>) {
        run.into_iter().for_each(|run| self.add(clients, run));
    }

    /// One value of each pass.
    pub fn series(&self, clients: u32, value: impl Fn(&Run) -> f64) -> Series {
        Series(self.0.get(&clients).into_iter().flatten().map(value).collect())
    }

    pub fn per_second(&self, clients: u32) -> Series {
        self.series(clients, |run| run.per_second)
    }
}

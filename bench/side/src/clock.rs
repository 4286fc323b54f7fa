//! Processor time of this thread and of finished children.

use std::hint::black_box;

#[repr(C)]
#[derive(Default)]
struct Timespec {
    seconds: i64,
    nanoseconds: i64,
}

extern "C" {
    fn clock_gettime(clock: i32, time: *mut Timespec) -> i32;
    fn getrusage(who: i32, usage: *mut [i64; 18]) -> i32;
}

const THREAD_CPU_TIME: i32 = 3;
const CHILDREN: i32 = -1;

fn now() -> f64 {
    let mut time = Timespec::default();
    // SAFETY: the struct is Linux's timespec on 64 bits.
    assert_eq!(unsafe { clock_gettime(THREAD_CPU_TIME, &mut time) }, 0);
    time.seconds as f64 + time.nanoseconds as f64 * 1e-9
}

/// The seconds that the work takes.
pub fn seconds<Result>(work: impl FnOnce() -> Result) -> f64 {
    let start = now();
    black_box(work());
    now() - start
}

/// User and system time of all children that have ended.
pub fn children() -> f64 {
    let mut usage = [0; 18];
    // SAFETY: Linux's rusage on 64 bits is eighteen words: two times of two words, then counts.
    assert_eq!(unsafe { getrusage(CHILDREN, &mut usage) }, 0);
    let [user, user_micro, system, system_micro] = [usage[0], usage[1], usage[2], usage[3]];
    (user + system) as f64 + (user_micro + system_micro) as f64 * 1e-6
}

fn median(mut figures: Vec<f64>) -> f64 {
    figures.sort_by(f64::total_cmp);
    figures[figures.len() / 2]
}

/// The second of the works is the yardstick.
const YARDSTICK: usize = 1;

/// The seconds of each work; the works take turns. A machine's speed changes while it runs, but little within a turn: so
/// each work counts with the median of its ratios to the yardstick in the same turn, times the median of the yardstick.
pub fn turns<const SIDES: usize>(count: usize, mut works: [&mut dyn FnMut() -> f64; SIDES]) -> [f64; SIDES] {
    let all: Vec<[f64; SIDES]> = (0..count).map(|_| works.each_mut().map(|work| work())).collect();
    let yardstick = median(all.iter().map(|turn| turn[YARDSTICK]).collect());
    let ratio = |side: usize| median(all.iter().map(|turn| turn[side] / turn[YARDSTICK]).collect());
    std::array::from_fn(|side| yardstick * ratio(side))
}

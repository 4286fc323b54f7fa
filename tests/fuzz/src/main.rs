//! What libFuzzer calls with each input. A wrong answer, word or byte panics, which ends the run and
//! keeps the input. The proved code has no coverage counters of its own, so the target tells the
//! fuzzer what it reached: kinds, orders, asks, commits, charges, pages and parties with their numbers, early times, rules
//! that a book breaks.
#![no_main]

mod functions;
mod material;
mod program;

use std::sync::OnceLock;

const COUNTERS: usize = 4096;

#[link_section = "__libfuzzer_extra_counters"]
static mut REACHED: [u8; COUNTERS] = [0; COUNTERS];

/// Tells the fuzzer that something was reached.
pub fn reached(what: usize) {
    // SAFETY: libFuzzer calls the target in one thread.
    unsafe {
        let counter = &raw mut REACHED[what % COUNTERS];
        *counter = (*counter).saturating_add(1);
    }
}

/// Which target the run is for: the functions, or the program when its path is given.
fn frames() -> Option<&'static str> {
    static PATH: OnceLock<Option<String>> = OnceLock::new();
    PATH.get_or_init(|| std::env::var("FRAMES").ok()).as_deref()
}

#[no_mangle]
pub extern "C" fn LLVMFuzzerTestOneInput(data: *const u8, size: usize) -> i32 {
    let input = if size == 0 {
        &[]
    } else {
        // SAFETY: libFuzzer lends so many bytes for the length of the call.
        unsafe { std::slice::from_raw_parts(data, size) }
    };
    match frames() {
        Some(path) => program::run(path, input),
        None => functions::run(input),
    }
    0
}

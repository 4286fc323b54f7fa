//! The few calls of the system that std does not have: waiting for many sockets, signals, the lock of a file.
use std::ffi::{c_int, c_ulong, c_void};
use std::fs::File;
use std::os::fd::AsRawFd;
use std::sync::atomic::{AtomicBool, Ordering};

#[repr(C)]
#[derive(Clone, Copy)]
pub struct PollFd {
    pub fd: c_int,
    pub events: i16,
    pub revents: i16,
}

pub const READABLE: i16 = 1;
pub const WRITABLE: i16 = 4;
/// An error, the other end closed, or no such socket.
pub const GONE: i16 = 8 | 16 | 32;

unsafe extern "C" {
    fn poll(fds: *mut PollFd, count: c_ulong, timeout: c_int) -> c_int;
    fn signal(number: c_int, handler: usize) -> usize;
    fn flock(fd: c_int, operation: c_int) -> c_int;
    fn setsockopt(fd: c_int, level: c_int, name: c_int, value: *const c_void, length: u32) -> c_int;
}

/// Waits until something can be done, at most so long; an interruption leaves no events.
pub fn wait(fds: &mut [PollFd], milliseconds: i32) {
    // SAFETY: the pointer and the count are those of one slice.
    if unsafe { poll(fds.as_mut_ptr(), fds.len() as c_ulong, milliseconds) } < 0 {
        fds.iter_mut().for_each(|fd| fd.revents = 0);
    }
}

/// Locks a file for this process alone, without waiting. The kernel frees it when the process ends, however it ends.
pub fn try_lock(file: &File) -> bool {
    const EXCLUSIVE: c_int = 2;
    const WITHOUT_WAITING: c_int = 4;
    // SAFETY: the file is open.
    unsafe { flock(file.as_raw_fd(), EXCLUSIVE | WITHOUT_WAITING) == 0 }
}

/// The kernel notices a client whose machine vanished. A refusal does no harm.
pub fn keep_alive(fd: c_int) {
    const SOL_SOCKET: c_int = 1;
    const SO_KEEPALIVE: c_int = 9;
    let on: c_int = 1;
    // SAFETY: the value is a local of the stated length.
    unsafe { setsockopt(fd, SOL_SOCKET, SO_KEEPALIVE, (&raw const on).cast(), 4) };
}

static ENDING: AtomicBool = AtomicBool::new(false);
static SNAPSHOT: AtomicBool = AtomicBool::new(false);

extern "C" fn on_end(_: c_int) {
    ENDING.store(true, Ordering::Relaxed);
}

extern "C" fn on_snapshot(_: c_int) {
    SNAPSHOT.store(true, Ordering::Relaxed);
}

/// SIGTERM and SIGINT end the desk, SIGUSR1 takes a snapshot. A file over its limit (SIGXFSZ) is an error of the write, as a full disk is.
pub fn catch_signals() {
    const IGNORED: usize = 1;
    let handler = |call: extern "C" fn(c_int)| call as *const () as usize;
    for (number, action) in [(15, handler(on_end)), (2, handler(on_end)), (10, handler(on_snapshot)), (25, IGNORED)] {
        // SAFETY: the handlers only store a flag.
        unsafe { signal(number, action) };
    }
}

/// Was the desk told to end?
pub fn ending() -> bool {
    ENDING.load(Ordering::Relaxed)
}

/// Was a snapshot asked for since the last look?
pub fn snapshot_wanted() -> bool {
    SNAPSHOT.swap(false, Ordering::Relaxed)
}

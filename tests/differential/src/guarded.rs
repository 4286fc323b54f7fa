//! Words or bytes between two pages that nobody may touch: a read or write beyond either end of a lent slice
//! ends the process.

use std::ffi::c_void;
use std::marker::PhantomData;

extern "C" {
    fn mmap(at: *mut c_void, length: usize, protection: i32, flags: i32, file: i32, offset: i64) -> *mut c_void;
    fn mprotect(at: *mut c_void, length: usize, protection: i32) -> i32;
    fn munmap(at: *mut c_void, length: usize) -> i32;
}

const PAGE: usize = 4096;
const NOTHING: i32 = 0;
const READ: i32 = 1;
const READ_WRITE: i32 = 3;
const PRIVATE_ANONYMOUS: i32 = 0x22;

/// What is lent: words, the bytes of a porter's page, or the guests of a party. Each of its bit patterns is a value.
pub trait Plain: Copy {}
impl Plain for u32 {}
impl Plain for u8 {}
impl Plain for caviar::Guest {}

/// Which end of the words touches a guard page.
#[derive(Clone, Copy, Debug, PartialEq, Eq, PartialOrd, Ord)]
pub enum End {
    First,
    Last,
}

pub struct Guarded<Item: Plain = u32> {
    start: *mut u8,
    pages: usize,
    offset: usize,
    count: usize,
    of: PhantomData<Item>,
}

impl<Item: Plain> Guarded<Item> {
    /// A copy of the words, at that end of its pages.
    pub fn new(words: &[Item], end: End) -> Guarded<Item> {
        let bytes = std::mem::size_of_val(words);
        let inner = bytes.div_ceil(PAGE).max(1) * PAGE;
        let pages = inner + 2 * PAGE;
        // SAFETY: a fresh mapping, of which the inner pages are opened.
        let start = unsafe {
            let start = mmap(std::ptr::null_mut(), pages, NOTHING, PRIVATE_ANONYMOUS, -1, 0);
            assert!(start as isize != -1);
            assert_eq!(mprotect(start.cast::<u8>().add(PAGE).cast(), inner, READ_WRITE), 0);
            start.cast::<u8>()
        };
        let offset = match end {
            End::First => PAGE,
            End::Last => PAGE + inner - bytes,
        };
        let mut made = Guarded { start, pages, offset, count: words.len(), of: PhantomData };
        made.words_mut().copy_from_slice(words);
        made
    }

    /// From now on a write ends the process too.
    pub fn read_only(self) -> Guarded<Item> {
        // SAFETY: the pages between the guards are this value's own.
        let status = unsafe { mprotect(self.start.add(PAGE).cast(), self.pages - 2 * PAGE, READ) };
        assert_eq!(status, 0);
        self
    }

    pub fn words(&self) -> &[Item] {
        // SAFETY: so many items were mapped there, aligned since a page is and their sizes are multiples of their alignment.
        unsafe { std::slice::from_raw_parts(self.start.add(self.offset).cast(), self.count) }
    }

    pub fn words_mut(&mut self) -> &mut [Item] {
        // SAFETY: as above, and the value is lent as a whole.
        unsafe { std::slice::from_raw_parts_mut(self.start.add(self.offset).cast(), self.count) }
    }
}

impl<Item: Plain> Drop for Guarded<Item> {
    fn drop(&mut self) {
        // SAFETY: the mapping is this value's own.
        assert_eq!(unsafe { munmap(self.start.cast(), self.pages) }, 0);
    }
}

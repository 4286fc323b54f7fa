//! The calls of a journal, done once more in memory (docs/DESK.md, 2.1 and 2.2).
use crate::sites::Site;
use std::path::Path;
use std::time::Instant;

/// Bytes of a file's head, and of a record's.
const FILE_HEAD: usize = 64;
const RECORD_HEAD: usize = 28;
/// The word before the seven of a request.
const REQUEST: u32 = 1 << 16 | 7;
/// So many calls are a list of the desk's, done with one check of the book.
const LIST: usize = 131_072;

fn word(bytes: &[u8], at: usize) -> u32 {
    bytes.get(at..at + 4).map_or(0, |bytes| u32::from_le_bytes(bytes.try_into().expect("four bytes")))
}

/// The requests of the newest segment, eight words each, the order 0.
pub fn newest_calls(folder: &Path) -> Vec<u32> {
    let entries = std::fs::read_dir(folder).expect("a folder");
    let names = entries.map(|entry| entry.expect("an entry").file_name().into_string().expect("a name of the desk's"));
    let newest = names.filter(|name| name.starts_with("log-")).max().expect("a segment");
    let bytes = std::fs::read(folder.join(newest)).expect("a segment");
    let (mut at, mut list) = (FILE_HEAD, Vec::new());
    while word(&bytes, at) != 0 {
        let calls = &bytes[at + RECORD_HEAD..at + word(&bytes, at) as usize];
        for call in calls.chunks(32) {
            assert_eq!(word(call, 0), REQUEST, "a request without an order");
            list.extend((1..8).map(|place| word(call, 4 * place)).chain([0]));
        }
        at += word(&bytes, at) as usize;
    }
    list
}

/// The least seconds that the list takes on the site's book, in memory, in so many turns.
pub fn in_memory(site: &Site, list: &[u32], turns: usize) -> f64 {
    (0..turns).map(|_| turn(site.book.clone(), list)).fold(f64::INFINITY, f64::min)
}

/// All calls must be accepted.
fn turn(mut book: Vec<u32>, list: &[u32]) -> f64 {
    let mut answers = vec![u32::MAX; 3 * LIST];
    let mut seconds = 0.0;
    for part in list.chunks(8 * LIST) {
        let answers = &mut answers[..part.len() / 8 * 3];
        let start = Instant::now();
        let number = caviar::orders_words(&mut book, part, answers).number;
        seconds += start.elapsed().as_secs_f64();
        assert!(number == 0 && answers.iter().all(|word| *word == 0), "the calls of the journal are accepted");
    }
    seconds
}

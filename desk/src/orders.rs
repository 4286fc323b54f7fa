//! The orders that the desk remembers, beside the 64 of the book's ring (docs/DESK.md, 4.5 and 4.6).
use std::collections::{HashMap, VecDeque};

/// How many orders are remembered.
pub const MOST: usize = 65_536;

/// Words of an order in a snapshot, as in the ring: its number, seven words, its answer (rule 18.4).
pub const WORDS: usize = 11;

/// What an order is to the desk.
#[derive(Clone, Copy, Debug, PartialEq, Eq)]
pub enum Standing {
    /// Nobody knows it: the engine answers it, and it is remembered.
    New,
    /// The ring keeps it: the engine answers.
    InRing,
    /// The ring has let it go: the desk answers.
    Remembered,
}

#[derive(Clone, Copy, Debug, PartialEq, Eq)]
struct Kept {
    request: [u32; 7],
    /// None until the engine has answered it.
    answer: Option<[u32; 3]>,
}

/// The numbers in the places of a book's ring, and its next place.
#[derive(Clone, Debug, PartialEq, Eq)]
struct Ring {
    numbers: [u32; caviar::KEPT_ORDERS],
    next: usize,
}

/// The 705 words of the ring: the last of a book before its count. Without any where the list is shorter.
fn ring_words(book: &[u32]) -> &[u32] {
    let end = book.len().saturating_sub(1);
    &book[end.saturating_sub(caviar::RING_WORDS)..end]
}

impl Ring {
    fn of(book: &[u32]) -> Ring {
        let words = ring_words(book);
        let mut numbers = [0; caviar::KEPT_ORDERS];
        for (number, place) in numbers.iter_mut().zip(words.chunks_exact(WORDS)) {
            *number = place[0];
        }
        Ring { numbers, next: words.last().map_or(0, |next| *next as usize % caviar::KEPT_ORDERS) }
    }

    fn has(&self, order: u32) -> bool {
        self.numbers.contains(&order)
    }

    fn take(&mut self, order: u32) {
        self.numbers[self.next] = order;
        self.next = (self.next + 1) % caviar::KEPT_ORDERS;
    }
}

#[derive(Clone, Debug, PartialEq, Eq)]
pub struct Orders {
    kept: HashMap<u32, Kept>,
    /// Their numbers, oldest first.
    line: VecDeque<u32>,
    /// What the book's ring holds behind all orders that were handed to the engine.
    ring: Ring,
}

impl Orders {
    /// Those of the book's own ring, from the one that goes next.
    pub fn of_ring(book: &[u32]) -> Orders {
        let ring = Ring::of(book);
        let mut orders = Orders { kept: HashMap::new(), line: VecDeque::new(), ring };
        let words = ring_words(book);
        let places: Vec<&[u32]> = words.chunks_exact(WORDS).collect();
        for at in 0..places.len() {
            orders.put(places[(orders.ring.next + at) % places.len()]);
        }
        orders
    }

    /// Those behind the book of a snapshot; None where they are not what a desk writes beside this book.
    pub fn from_words(words: &[u32], book: &[u32]) -> Option<Orders> {
        let mut orders = Orders { kept: HashMap::new(), line: VecDeque::new(), ring: Ring::of(book) };
        words.chunks_exact(WORDS).for_each(|order| orders.put(order));
        let whole = orders.line.len() * WORDS == words.len() && orders.line.len() <= MOST;
        (whole && orders.agree(book)).then_some(orders)
    }

    fn put(&mut self, words: &[u32]) {
        let Ok([number, request @ .., a, b, c]) = <[u32; WORDS]>::try_from(words) else { return };
        if number != 0 && self.kept.insert(number, Kept { request, answer: Some([a, b, c]) }).is_none() {
            self.line.push_back(number);
        }
    }

    /// Oldest first, as snapshots have them.
    pub fn words(&self) -> Vec<u32> {
        let mut words = Vec::with_capacity(self.line.len() * WORDS);
        for number in &self.line {
            let kept = &self.kept[number];
            words.push(*number);
            words.extend(kept.request);
            words.extend(kept.answer.unwrap_or_default());
        }
        words
    }

    /// Is each place of the book's ring what is remembered, and does the ring stand where it should?
    pub fn agree(&self, book: &[u32]) -> bool {
        let same = |place: &[u32]| {
            place[0] == 0
                || self.kept.get(&place[0]).is_some_and(|kept| {
                    place[1..8] == kept.request && kept.answer.is_some_and(|answer| place[8..] == answer)
                })
        };
        Ring::of(book) == self.ring && ring_words(book).chunks_exact(WORDS).all(same)
    }

    pub fn standing(&self, order: u32) -> Standing {
        if self.ring.has(order) {
            Standing::InRing
        } else if self.kept.contains_key(&order) {
            Standing::Remembered
        } else {
            Standing::New
        }
    }

    /// A new order goes to the engine; its answer comes later.
    pub fn begin(&mut self, order: u32, request: [u32; 7]) {
        if self.line.len() == MOST {
            self.line.pop_front().and_then(|oldest| self.kept.remove(&oldest));
        }
        self.kept.insert(order, Kept { request, answer: None });
        self.line.push_back(order);
        self.ring.take(order);
    }

    pub fn answered(&mut self, order: u32, answer: [u32; 3]) {
        if let Some(kept) = self.kept.get_mut(&order) {
            kept.answer = Some(answer);
        }
    }

    /// What a remembered order is told: its first answer, or 28 with another request. None while the engine has not answered it.
    pub fn recall(&self, order: u32, request: &[u32]) -> Option<[u32; 3]> {
        let kept = self.kept.get(&order)?;
        let answer = kept.answer?;
        Some(if kept.request == request { answer } else { [28, 0, 0] })
    }
}

#[cfg(test)]
mod tests {
    use super::*;

    fn request(number: u32) -> [u32; 7] {
        [1, 0, number % 3, 0, 0, 0, 0]
    }

    fn fresh() -> Vec<u32> {
        let settings = [2, 2, 2, 3, 2, 2, 1, 2, 1, 0, 4];
        let mut book = vec![0; caviar::book_len(&settings)];
        assert_eq!(caviar::lay(&settings, &mut book).number, 0);
        book
    }

    fn send(book: &mut [u32], orders: &mut Orders, number: u32) {
        orders.begin(number, request(number));
        orders.answered(number, caviar::order(book, number, caviar::Request::from_words(request(number))).words());
    }

    #[test]
    fn it_agrees_with_the_ring_all_the_way() {
        let mut book = fresh();
        let mut orders = Orders::of_ring(&book);
        for number in 1..=200 {
            assert_eq!(orders.standing(number), Standing::New);
            send(&mut book, &mut orders, number);
            assert!(orders.agree(&book));
            assert_eq!(orders.standing(number), Standing::InRing);
            if number > 64 {
                assert_eq!(orders.standing(number - 63), Standing::InRing);
                assert_eq!(orders.standing(number - 64), Standing::Remembered);
                assert_eq!(orders.recall(number - 64, &request(number - 64)), Some([0, 0, 0]));
                assert_eq!(
                    orders.recall(number - 64, &request(number)),
                    Some(if number % 3 == (number - 64) % 3 { [0; 3] } else { [28, 0, 0] })
                );
            }
        }
        let words = orders.words();
        assert_eq!(Orders::from_words(&words, &book), Some(orders));
        assert_eq!(Orders::of_ring(&book).words(), words[words.len() - 64 * WORDS..]);
        assert_eq!(Orders::from_words(&words[WORDS * 137..], &book), None, "one of the ring is missing");
        assert_eq!(
            Orders::from_words(&[words.clone(), words[..WORDS].to_vec()].concat(), &book),
            None,
            "one comes twice"
        );
        let mut other = words.clone();
        *other.last_mut().expect("words") = 1;
        assert_eq!(Orders::from_words(&other, &book), None, "another answer than the ring's");
    }

    #[test]
    fn the_oldest_goes() {
        let mut orders = Orders::of_ring(&fresh());
        for number in 1..=MOST as u32 + 1 {
            orders.begin(number, request(number));
            orders.answered(number, [0; 3]);
        }
        assert_eq!(orders.standing(1), Standing::New);
        assert_eq!(orders.standing(2), Standing::Remembered);
        assert_eq!(orders.words().len(), MOST * WORDS);
    }

    #[test]
    fn until_it_is_answered_nothing_is_recalled() {
        let mut orders = Orders::of_ring(&fresh());
        orders.begin(7, request(7));
        assert_eq!(orders.recall(7, &request(7)), None);
        orders.answered(7, [9, 1, 0]);
        assert_eq!(orders.recall(7, &request(7)), Some([9, 1, 0]));
        assert_eq!(orders.recall(8, &request(8)), None);
    }
}

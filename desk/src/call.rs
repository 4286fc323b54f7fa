//! The calls that a journal keeps, as words (docs/DESK.md, 2.2 and 3.3).

pub const REQUEST: u32 = 1;
pub const ORDER: u32 = 2;
pub const PARTY: u32 = 3;
pub const COMMIT: u32 = 4;

/// Can a request of this kind change the sets of a book?
pub fn changes(kind: u32) -> bool {
    (1..=16).contains(&kind)
}

/// The calls of a batch that are to be kept, and the answers that they got.
#[derive(Default)]
pub struct Calls {
    /// For each a word, call × 65,536 + how many words follow, and these.
    pub words: Vec<u32>,
    /// Three words each.
    pub answers: Vec<u32>,
}

impl Calls {
    pub fn keep(&mut self, call: u32, words: &[u32], answer: [u32; 3]) {
        self.words.push(call << 16 | words.len() as u32);
        self.words.extend(words);
        self.answers.extend(answer);
    }

    pub fn count(&self) -> usize {
        self.answers.len() / 3
    }

    pub fn clear(&mut self) {
        self.words.clear();
        self.answers.clear();
    }
}

/// A call of a journal.
#[derive(Clone, Copy, Debug, PartialEq, Eq)]
pub enum Call<'a> {
    Request(&'a [u32; 7]),
    Order(&'a [u32; 8]),
    Party(&'a [u32]),
    Commit(&'a [u32; 8]),
}

/// Takes the first call from the words, or None where there is none that this desk knows.
pub fn split<'a>(words: &mut &'a [u32]) -> Option<Call<'a>> {
    let (tag, rest) = words.split_first()?;
    let (body, rest) = rest.split_at_checked((tag & 0xffff) as usize)?;
    let call = match tag >> 16 {
        REQUEST => Call::Request(body.try_into().ok()?),
        ORDER => Call::Order(body.try_into().ok().filter(|order: &&[u32; 8]| order[7] != 0)?),
        PARTY if body.len() % 3 == 1 => Call::Party(body),
        COMMIT => Call::Commit(body.try_into().ok()?),
        _ => return None,
    };
    *words = rest;
    Some(call)
}

#[cfg(test)]
mod tests {
    use super::*;

    #[test]
    fn what_is_kept_is_split() {
        let mut calls = Calls::default();
        calls.keep(REQUEST, &[1, 0, 1, 0, 1, 0, 0], [0; 3]);
        calls.keep(ORDER, &[4, 0, 1, 0, 1, 0, 0, 9], [12, 1, 0]);
        calls.keep(PARTY, &[5, 1, 2, 3], [0; 3]);
        calls.keep(COMMIT, &[7, 1, 0, 1, 0, 1, 0, 0], [0; 3]);
        assert_eq!(calls.count(), 4);
        let mut words = &calls.words[..];
        assert_eq!(split(&mut words), Some(Call::Request(&[1, 0, 1, 0, 1, 0, 0])));
        assert_eq!(split(&mut words), Some(Call::Order(&[4, 0, 1, 0, 1, 0, 0, 9])));
        assert_eq!(split(&mut words), Some(Call::Party(&[5, 1, 2, 3])));
        assert_eq!(split(&mut words), Some(Call::Commit(&[7, 1, 0, 1, 0, 1, 0, 0])));
        assert!(words.is_empty());
    }

    #[test]
    fn what_no_desk_keeps_is_none() {
        let cases: [&[u32]; 7] = [
            &[],
            &[1 << 16 | 7, 0, 0],
            &[1 << 16 | 6, 0, 0, 0, 0, 0, 0],
            &[2 << 16 | 8, 1, 0, 0, 0, 0, 0, 0, 0],
            &[3 << 16 | 2, 1, 0],
            &[3 << 16],
            &[5 << 16 | 1, 1],
        ];
        for words in cases {
            assert_eq!(split(&mut { words }), None, "{words:?}");
        }
    }
}

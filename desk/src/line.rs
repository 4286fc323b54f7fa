//! The lines of clients (docs/DESK.md, section 4).

/// What a line asks for.
#[derive(Clone, Debug, PartialEq, Eq)]
pub enum Line {
    /// The seven words of a request, and the number of its order, 0 for none.
    Frame([u32; 8]),
    Ask([u32; 7]),
    /// The count, then the seven words of a request.
    Commit([u32; 8]),
    /// The meeting, then three words for each guest.
    Party(Vec<u32>),
    Settings,
    /// Any other line: refused by 23.
    Junk,
}

/// A party of 65, which the engine refuses by 27, is the longest line that is looked at.
pub const LONGEST: usize = 1 + 8 + 24 * 65;

impl Line {
    /// A line without its byte 10.
    pub fn read(line: &[u8]) -> Line {
        Line::parse(line).unwrap_or(Line::Junk)
    }

    fn parse(line: &[u8]) -> Option<Line> {
        match (line.first()?, line.len()) {
            (b'a', 57) => Some(Line::Ask(words(&line[1..])?)),
            (b'c', 65) => Some(Line::Commit(words(&line[1..])?)),
            (b'p', 9..=LONGEST) => party(&line[1..]),
            (b's', 1) => Some(Line::Settings),
            (_, 56) => words::<7>(line)
                .map(|[kind, a, b, first, last, n, info]| Line::Frame([kind, a, b, first, last, n, info, 0])),
            (_, 64) => Some(Line::Frame(words(line)?)),
            _ => None,
        }
    }

    /// Answered in a call of its own, with a check of the whole book; and the settings, an answer longer than its line.
    pub fn is_costly(&self) -> bool {
        !matches!(self, Line::Frame(_) | Line::Junk)
    }
}

/// Eight digits for each of so many words.
fn words<const COUNT: usize>(digits: &[u8]) -> Option<[u32; COUNT]> {
    let mut words = [0; COUNT];
    let (eights, rest) = digits.as_chunks::<8>();
    if eights.len() != COUNT || !rest.is_empty() {
        return None;
    }
    for (word, eight) in words.iter_mut().zip(eights) {
        *word = self::word(eight)?;
    }
    Some(words)
}

fn party(digits: &[u8]) -> Option<Line> {
    let (eights, rest) = digits.as_chunks::<8>();
    if eights.len() % 3 != 1 || !rest.is_empty() {
        return None;
    }
    eights.iter().map(word).collect::<Option<Vec<u32>>>().map(Line::Party)
}

/// A word from its eight digits, the highest first, in lower case.
pub fn word(digits: &[u8; 8]) -> Option<u32> {
    digits.iter().try_fold(0, |word, byte| {
        let digit = match byte {
            b'0'..=b'9' => byte - b'0',
            b'a'..=b'f' => byte - b'a' + 10,
            _ => return None,
        };
        Some(word << 4 | u32::from(digit))
    })
}

/// Words as a line: eight digits each, and a byte 10.
pub fn write(words: &[u32], out: &mut Vec<u8>) {
    for word in words {
        out.extend([28, 24, 20, 16, 12, 8, 4, 0].map(|shift| b"0123456789abcdef"[(word >> shift & 15) as usize]));
    }
    out.push(b'\n');
}

#[cfg(test)]
mod tests {
    use super::*;

    fn digits(words: &[u32]) -> Vec<u8> {
        let mut line = Vec::new();
        write(words, &mut line);
        line.pop();
        line
    }

    fn lettered(letter: u8, words: &[u32]) -> Vec<u8> {
        [vec![letter], digits(words)].concat()
    }

    #[test]
    fn each_sort_is_read() {
        let request = [4, 1, 2, 3, 4, 5, 0xdead_beef];
        let order = [4, 1, 2, 3, 4, 5, 0xdead_beef, 17];
        let commit = [9, 4, 1, 2, 3, 4, 5, 6];
        assert_eq!(Line::read(&digits(&request)), Line::Frame([4, 1, 2, 3, 4, 5, 0xdead_beef, 0]));
        assert_eq!(Line::read(&digits(&order)), Line::Frame(order));
        assert_eq!(Line::read(&lettered(b'a', &request)), Line::Ask(request));
        assert_eq!(Line::read(&lettered(b'c', &commit)), Line::Commit(commit));
        assert_eq!(Line::read(&lettered(b'p', &[3])), Line::Party(vec![3]));
        assert_eq!(Line::read(&lettered(b'p', &[3, 1, 2, 2])), Line::Party(vec![3, 1, 2, 2]));
        assert_eq!(Line::read(b"s"), Line::Settings);
        let most = lettered(b'p', &[1; 1 + 3 * 65]);
        assert_eq!(most.len(), LONGEST);
        assert_eq!(Line::read(&most), Line::Party(vec![1; 196]));
    }

    #[test]
    fn every_other_length_is_junk() {
        for length in 0..=LONGEST + 100 {
            let read = |letter: &[u8]| Line::read(&[letter, &vec![b'0'; length]].concat());
            assert_eq!(read(b"") == Line::Junk, ![56, 64].contains(&length), "{length}");
            // `a` and `c` are digits as well: with 55 or 63 others they are frames.
            assert_eq!(read(b"a") == Line::Junk, ![55, 56, 63].contains(&length), "{length}");
            assert_eq!(read(b"c") == Line::Junk, ![55, 63, 64].contains(&length), "{length}");
            assert_eq!(read(b"p") == Line::Junk, length % 24 != 8 || length > 8 + 24 * 65, "{length}");
            assert_eq!(read(b"s") == Line::Junk, length != 0, "{length}");
        }
    }

    #[test]
    fn no_other_byte_is_a_digit() {
        for byte in (0..=255u8).filter(|byte| !b"0123456789abcdef".contains(byte)) {
            for at in [0, 7, 8, 55] {
                let mut line = digits(&[1; 7]);
                line[at] = byte;
                assert_eq!(Line::read(&line), Line::Junk, "{byte} at {at}");
                assert_eq!(Line::read(&[b"a", &line[..]].concat()), Line::Junk);
            }
        }
    }
}

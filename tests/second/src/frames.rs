//! Lines and the program (docs/RULES.md, sections 11 and 12), from input bytes to output bytes.

use crate::book::{length, words};
use crate::machine::{order, Answer, Request, Settings, State};

/// The program keeps a book of at most so many words.
pub const MOST_WORDS: u64 = 16_384;

const LINE_END: u8 = 10;

/// The words of a line that is whole words (rules 11.2 and 11.3).
pub fn line_words(line: &[u8]) -> Option<Vec<u32>> {
    if !line.len().is_multiple_of(8) {
        return None;
    }
    line.chunks(8).map(word).collect()
}

fn word(digits: &[u8]) -> Option<u32> {
    digits.iter().try_fold(0u32, |value, byte| Some(value * 16 + digit(*byte)?))
}

fn digit(byte: u8) -> Option<u32> {
    match byte {
        b'0'..=b'9' => Some(u32::from(byte - b'0')),
        b'a'..=b'f' => Some(u32::from(byte - b'a') + 10),
        _ => None,
    }
}

/// The line of these words, with its byte 10 (rule 11.5).
pub fn words_line(words: &[u32]) -> Vec<u8> {
    let mut line: Vec<u8> = words.iter().flat_map(|word| format!("{word:08x}").into_bytes()).collect();
    line.push(LINE_END);
    line
}

/// The lines of an input (rule 11.1).
pub fn lines(input: &[u8]) -> Vec<&[u8]> {
    let mut lines: Vec<&[u8]> = input.split(|byte| *byte == LINE_END).collect();
    if lines.last().is_some_and(|line| line.is_empty()) {
        lines.pop();
    }
    lines
}

/// The program after a good settings line.
pub struct Desk {
    pub state: State,
}

impl Desk {
    /// The first line (rule 12.2): a desk for good settings, else the one answer.
    pub fn open(settings_line: Option<&[u8]>) -> Result<Desk, Answer> {
        let words = settings_line.and_then(line_words);
        let settings = words.and_then(|words| Settings::from_words(&words));
        let settings = settings.ok_or(Answer::Refused { number: 24, place: 0 })?;
        if length(&settings) > MOST_WORDS {
            return Err(Answer::Refused { number: 25, place: 0 });
        }
        Ok(Desk { state: State::empty(settings) })
    }

    /// A later line (rule 12.3): seven words, or eight with the number of an order.
    pub fn answer(&mut self, line: &[u8]) -> Answer {
        match line_words(line) {
            Some(words) if words.len() == 7 || words.len() == 8 => {
                let (request, number) = Request::with_order(&words);
                order(&mut self.state, number, &request)
            }
            _ => Answer::Refused { number: 23, place: 0 },
        }
    }
}

/// The whole program: what it writes for this input.
pub fn frames(input: &[u8]) -> Vec<u8> {
    walk(input, |answer, _| words_line(&answer.words()))
}

/// The same, and after each answer of a later line the whole book as one line.
pub fn trace(input: &[u8]) -> Vec<u8> {
    walk(input, |answer, state| {
        let mut out = words_line(&answer.words());
        out.extend(words_line(&words(state)));
        out
    })
}

/// The state that the lines of an input lead to; none where the settings are refused.
pub fn left_by(input: &[u8]) -> Option<State> {
    let lines = lines(input);
    let mut desk = Desk::open(lines.first().copied()).ok()?;
    for line in &lines[1..] {
        desk.answer(line);
    }
    Some(desk.state)
}

fn walk(input: &[u8], print: impl Fn(Answer, &State) -> Vec<u8>) -> Vec<u8> {
    let lines = lines(input);
    match Desk::open(lines.first().copied()) {
        Err(refusal) => words_line(&refusal.words()),
        Ok(mut desk) => {
            let mut out = Vec::new();
            for line in &lines[1..] {
                let answer = desk.answer(line);
                out.extend(print(answer, &desk.state));
            }
            out
        }
    }
}

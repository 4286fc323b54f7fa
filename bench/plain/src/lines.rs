//! The line program: chunks of bytes in, answer lines out. A whole frame line in the chunk is
//! decoded where it lies; only pieces of lines at the ends of chunks are copied.

use crate::calls::lay;
use crate::orders::{order, Numbers};
use crate::site::{Answer, Request, Site};

const MOST_WORDS: usize = 16_384;
/// The digits of a frame line, without and with the number of an order.
const FRAME: usize = 56;
const ORDER: usize = 64;
/// No line of more bytes can be good: 26 settings words and one byte more.
const KEPT: usize = 209;
const LINE_END: u8 = 10;

/// The digits of a word, the first in the highest byte.
#[inline(always)]
fn digits_of(word: u32) -> u64 {
    let mut values = u64::from(word);
    values = (values | values << 16) & 0x0000_ffff_0000_ffff;
    values = (values | values << 8) & 0x00ff_00ff_00ff_00ff;
    values = (values | values << 4) & 0x0f0f_0f0f_0f0f_0f0f;
    digits(values)
}

/// In each byte the digit of the value there.
#[inline(always)]
fn digits(values: u64) -> u64 {
    values + 0x3030_3030_3030_3030 + (values + 0x0606_0606_0606_0606 >> 4 & 0x0101_0101_0101_0101) * 39
}

/// Eight digits as a word; the second is not 0 when a byte is no digit.
#[inline(always)]
fn word(bytes: &[u8; 8]) -> (u32, u64) {
    let bytes = u64::from_be_bytes(*bytes);
    let values = (bytes & 0x0f0f_0f0f_0f0f_0f0f) + (bytes >> 6 & 0x0101_0101_0101_0101) * 9 & 0x0f0f_0f0f_0f0f_0f0f;
    let pairs = (values | values >> 4) & 0x00ff_00ff_00ff_00ff;
    let halves = (pairs | pairs >> 8) & 0x0000_ffff_0000_ffff;
    ((halves | halves >> 16) as u32, digits(values) ^ bytes)
}

/// The seven or eight words of a frame line; a line of seven has no order, 0.
#[inline(always)]
fn frame<const DIGITS: usize>(line: &[u8; DIGITS]) -> Option<[u32; 8]> {
    let mut words = [0; 8];
    let mut any = 0;
    for (out, digits) in words.iter_mut().zip(line.as_chunks::<8>().0) {
        let (value, flags) = word(digits);
        any |= flags;
        *out = value;
    }
    (any == 0).then_some(words)
}

#[inline(always)]
fn put_answer(answer: &Answer, out: &mut Vec<u8>) {
    let mut line = [LINE_END; 25];
    for (digits, word) in line.chunks_exact_mut(8).zip(answer.words()) {
        digits.copy_from_slice(&digits_of(word).to_be_bytes());
    }
    out.extend_from_slice(&line);
}

enum Phase {
    Settings,
    Requests { site: Box<Site>, book: Vec<u32>, numbers: Numbers },
    Over,
}

pub struct Program {
    phase: Phase,
    /// The piece of a line that earlier chunks brought, at most KEPT bytes of it.
    piece: Vec<u8>,
    /// A line has begun that has not ended.
    open: bool,
}

impl Default for Program {
    fn default() -> Program {
        Program { phase: Phase::Settings, piece: Vec::with_capacity(KEPT), open: false }
    }
}

impl Program {
    /// Takes a chunk and writes the answers of the lines that end in it.
    pub fn feed(&mut self, mut chunk: &[u8], out: &mut Vec<u8>) {
        if !self.open {
            chunk = self.whole_frames(chunk, out);
        }
        while !chunk.is_empty() && !self.is_over() {
            let Some(end) = chunk.iter().position(|byte| *byte == LINE_END) else {
                self.keep(chunk);
                return;
            };
            self.keep(&chunk[..end]);
            self.end_line(out);
            chunk = self.whole_frames(&chunk[end + 1..], out);
        }
    }

    /// The end of input ends a line that has begun; no settings line at all is 24.
    pub fn finish(&mut self, out: &mut Vec<u8>) {
        if self.open || matches!(self.phase, Phase::Settings) {
            self.end_line(out);
        }
    }

    /// Nothing more is read after a refused settings line.
    pub fn is_over(&self) -> bool {
        matches!(self.phase, Phase::Over)
    }

    /// Answers good frame lines at the front of the chunk and gives the rest.
    #[inline]
    fn whole_frames<'a>(&mut self, mut chunk: &'a [u8], out: &mut Vec<u8>) -> &'a [u8] {
        let Phase::Requests { site, book, numbers } = &mut self.phase else { return chunk };
        while let Some((words, rest)) = whole_frame(chunk) {
            put_answer(&answer(site, book, numbers, words), out);
            chunk = rest;
        }
        chunk
    }

    fn keep(&mut self, bytes: &[u8]) {
        let room = KEPT - self.piece.len();
        self.piece.extend_from_slice(&bytes[..bytes.len().min(room)]);
        self.open = true;
    }

    fn end_line(&mut self, out: &mut Vec<u8>) {
        match &mut self.phase {
            Phase::Settings => self.phase = settings_line(&self.piece, out),
            Phase::Requests { site, book, numbers } => {
                let without = <&[u8; FRAME]>::try_from(&self.piece[..]).ok().and_then(frame);
                let with = <&[u8; ORDER]>::try_from(&self.piece[..]).ok().and_then(frame);
                let answer = match without.or(with) {
                    Some(words) => answer(site, book, numbers, words),
                    None => Answer::refused(23, 0),
                };
                put_answer(&answer, out);
            }
            Phase::Over => {}
        }
        self.piece.clear();
        self.open = false;
    }
}

/// The words of a good frame line at the front of the chunk, and what comes behind its byte 10.
#[inline(always)]
fn whole_frame(chunk: &[u8]) -> Option<([u32; 8], &[u8])> {
    if chunk.get(FRAME) == Some(&LINE_END) {
        return Some((frame(chunk.first_chunk::<FRAME>()?)?, &chunk[FRAME + 1..]));
    }
    if chunk.get(ORDER) == Some(&LINE_END) {
        return Some((frame(chunk.first_chunk::<ORDER>()?)?, &chunk[ORDER + 1..]));
    }
    None
}

#[inline(always)]
fn answer(site: &Site, book: &mut [u32], numbers: &mut Numbers, words: [u32; 8]) -> Answer {
    let [request @ .., number] = words;
    order(site, book, numbers, number, &Request::new(request))
}

/// 24 before 25; silent when good.
fn settings_line(line: &[u8], out: &mut Vec<u8>) -> Phase {
    let (groups, rest) = line.as_chunks::<8>();
    let words: Vec<(u32, u64)> = groups.iter().map(word).collect();
    let whole = rest.is_empty() && words.iter().all(|(_, any)| *any == 0);
    let settings: Vec<u32> = words.iter().map(|(value, _)| *value).collect();
    let refusal = match Site::new(&settings) {
        Some(site) if whole && site.length <= MOST_WORDS => {
            let mut book = vec![0; site.length];
            lay(&settings, &mut book);
            let numbers = Numbers::of(&site, &book);
            return Phase::Requests { site: Box::new(site), book, numbers };
        }
        Some(_) if whole => 25,
        _ => 24,
    };
    put_answer(&Answer::refused(refusal, 0), out);
    Phase::Over
}

/// The whole program on a whole input.
pub fn frames(input: &[u8]) -> Vec<u8> {
    let mut program = Program::default();
    let mut out = Vec::new();
    program.feed(input, &mut out);
    program.finish(&mut out);
    out
}

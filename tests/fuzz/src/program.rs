//! The program `frames` against the second program, on one input: the bytes as they are, or as the
//! lines of a small site with bytes changed.

use crate::material::Bytes;
use crate::reached;
use second::frames::{frames, words_line};
use second::gen::orders::Sent;
use std::io::{ErrorKind, Read, Write};
use std::process::{Command, Stdio};

pub fn run(path: &str, input: &[u8]) {
    let mut bytes = Bytes(input);
    let stream = match bytes.byte() % 4 {
        0 => bytes.0.to_vec(),
        _ => lines(bytes),
    };
    let expected = frames(&stream);
    assert_eq!(written(path, &stream), expected);
    for line in expected.chunks(25) {
        let number = std::str::from_utf8(&line[..8]).expect("digits");
        reached(2000 + usize::from_str_radix(number, 16).expect("a number"));
    }
    reached(2100 + expected.len() / 25 % 64);
}

/// A settings line and frame lines of both lengths, then some bytes changed.
fn lines(mut bytes: Bytes) -> Vec<u8> {
    let changes = bytes.byte() % 4;
    let changes: Vec<(u32, u8)> = (0..changes).map(|_| (bytes.word(), bytes.byte())).collect();
    let mut stream = words_line(&bytes.settings().words());
    while !bytes.is_empty() {
        let sent = Sent { order: bytes.order(), request: bytes.request() };
        let words = sent.words();
        stream.extend(words_line(if bytes.byte() % 2 == 0 { &words[..7] } else { &words }));
    }
    for (at, byte) in changes {
        let at = at as usize % stream.len();
        stream[at] = byte;
    }
    stream
}

fn written(path: &str, stream: &[u8]) -> Vec<u8> {
    let started = Command::new(path).stdin(Stdio::piped()).stdout(Stdio::piped()).spawn();
    let mut child = started.expect("the program starts");
    let mut stdin = child.stdin.take().expect("a pipe");
    // What libFuzzer gives is shorter than a pipe holds, so nothing waits.
    match stdin.write_all(stream) {
        Ok(()) => {}
        Err(error) => assert_eq!(error.kind(), ErrorKind::BrokenPipe),
    }
    drop(stdin);
    let mut wrote = Vec::new();
    child.stdout.take().expect("a pipe").read_to_end(&mut wrote).expect("the answers");
    assert!(child.wait().expect("the program").success());
    wrote
}

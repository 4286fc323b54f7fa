//! The program `frames` against the second program: byte streams in random pipe writes, answers
//! before more input comes, and ends of all sorts.

use differential::{seed, times, Counts};
use second::frames::{frames, words_line};
use second::gen::orders::{self, Plan, Sent};
use second::gen::streams::{damage_line, order_line, stream_of, DAMAGES};
use second::gen::{clean_stream, damaged_stream, Rng};
use second::machine::Settings;
use std::io::{ErrorKind, Read, Write};
use std::path::PathBuf;
use std::process::{Child, Command, Stdio};
use std::thread;
use std::time::Duration;

/// The program, which `tools/build-frames` builds.
fn program() -> Child {
    let path = PathBuf::from(env!("CARGO_MANIFEST_DIR")).join("../../target/bin/frames");
    let started = Command::new(&path).stdin(Stdio::piped()).stdout(Stdio::piped()).spawn();
    started.unwrap_or_else(|error| panic!("{}: {error}; `tools/build-frames` builds it", path.display()))
}

/// What the program writes for the pieces, each written by itself. It may end before it reads them
/// all, after a refused settings line.
fn written(pieces: Vec<Vec<u8>>, pause: Option<Duration>) -> Vec<u8> {
    let mut child = program();
    let mut stdin = child.stdin.take().expect("a pipe");
    let writer = thread::spawn(move || {
        for piece in pieces {
            match stdin.write_all(&piece) {
                Ok(()) => {}
                Err(error) if error.kind() == ErrorKind::BrokenPipe => return,
                Err(error) => panic!("{error}"),
            }
            if let Some(pause) = pause {
                thread::sleep(pause);
            }
        }
    });
    let mut wrote = Vec::new();
    child.stdout.take().expect("a pipe").read_to_end(&mut wrote).expect("the answers");
    writer.join().expect("the writer");
    assert!(child.wait().expect("the program").success());
    wrote
}

/// Random pieces: single bytes, pieces about a line long, large ones.
fn cut(rng: &mut Rng, mut stream: &[u8]) -> Vec<Vec<u8>> {
    let mut pieces = Vec::new();
    let sizes = rng.pick(&[[1, 2, 3], [7, 56, 57], [64, 65, 8], [58, 100, 300], [4096, 65_536, 70_000]]);
    while !stream.is_empty() {
        let size = (rng.pick(&sizes) as usize).min(stream.len());
        pieces.push(stream[..size].to_vec());
        stream = &stream[size..];
    }
    pieces
}

#[test]
fn streams_in_random_writes() {
    let mut rng = Rng::new(seed(30));
    let mut numbers = Counts::new();
    let streams = times(2000);
    for turn in 0..streams {
        let stream = if turn % 2 == 0 { clean_stream(&mut rng, 60) } else { damaged_stream(&mut rng, 60) };
        let pause = if turn % 50 == 0 { Some(Duration::from_micros(50)) } else { None };
        let expected = frames(&stream);
        let wrote = written(cut(&mut rng, &stream), pause);
        assert!(wrote == expected, "stream {turn}: {:?}", String::from_utf8_lossy(&stream));
        numbers_of(&expected).into_iter().for_each(|number| numbers.add(number));
    }
    println!("seed {}: {streams} streams, {} answer lines, by number {numbers}", seed(30), numbers.total());
    numbers.assert_each((3..=23).chain([0, 28]), 50);
    numbers.assert_each([24, 25], 10);
}

/// The numbers of answer lines.
fn numbers_of(answers: &[u8]) -> Vec<u32> {
    let number = |line: &[u8]| u32::from_str_radix(std::str::from_utf8(&line[..8]).expect("digits"), 16);
    answers.chunks(25).map(|line| number(line).expect("a number")).collect()
}

/// A stream of which this line alone is damaged, and is another line than before.
fn with_damage(rng: &mut Rng, sort: u32, at: usize) -> Vec<u8> {
    loop {
        let clean = clean_stream(rng, 8);
        let mut lines: Vec<Vec<u8>> = clean.split_inclusive(|byte| *byte == 10).map(<[u8]>::to_vec).collect();
        damage_line(rng, &mut lines[at], sort);
        let damaged = lines.concat();
        if damaged != clean {
            return damaged;
        }
    }
}

/// Each sort of damage by itself, to a frame line and to the settings line, with good lines behind it:
/// the program goes on after the one and ends after the other.
#[test]
fn each_damage() {
    let mut rng = Rng::new(seed(33));
    let mut refused = Counts::new();
    for sort in 0..DAMAGES {
        for turn in 0..times(20) {
            let (at, number) = if turn % 2 == 0 { (3, 23) } else { (0, 24) };
            let stream = with_damage(&mut rng, sort, at);
            let wrote = written(vec![stream.clone()], None);
            assert_eq!(wrote, frames(&stream), "{:?}", String::from_utf8_lossy(&stream));
            if numbers_of(&wrote).contains(&number) {
                refused.add((sort, number));
            }
        }
    }
    println!("seed {}: lines refused by sort of damage and number: {refused}", seed(33));
    refused.assert_each((0..DAMAGES).flat_map(|sort| [(sort, 23), (sort, 24)]), 5);
}

/// Lines of every length from no digit to some more than 64: those of 56 and 64 are answered, all others refused by 23;
/// so are those of 64 with a byte that is no digit, at every place.
#[test]
fn every_length_of_line() {
    let mut stream = words_line(&[2, 2, 2, 3, 2, 2, 1, 2, 1, 0, 4]);
    let query = [&words_line(&[18, 0, 0, 0, 0, 0, 0])[..56], b"0000002a", b"0".repeat(80).as_slice()].concat();
    for length in 0..=query.len() {
        stream.extend([&query[..length], b"\n"].concat());
    }
    for at in 0..64 {
        let mut line = query[..64].to_vec();
        line[at] = b"gA :/`\r\0"[at % 8];
        stream.extend([&line[..], b"\n"].concat());
    }
    let numbers = numbers_of(&written(vec![stream.clone()], None));
    let expected = (0..=query.len()).map(|length| if length == 56 || length == 64 { 0 } else { 23 });
    assert!(numbers.iter().copied().eq(expected.chain([23; 64])), "{numbers:?}");
    assert_eq!(numbers, numbers_of(&frames(&stream)));
}

/// Each of the 256 bytes at each place of a line, with an order and without; and the bytes beside the digits at each place of a settings line.
#[test]
fn every_byte_at_every_place() {
    let settings = words_line(&[2, 2, 2, 3, 2, 2, 1, 2, 1, 1, 4]);
    let frame = words_line(&[12, 1, 1, 0, 3, 0, 0x0123_4567, 0x89ab_cdef]);
    let mut stream = settings.clone();
    for digits in [56, 64] {
        for (at, byte) in (0..digits).flat_map(|at| (0..=255).map(move |byte| (at, byte))) {
            let mut line = frame[..digits].to_vec();
            line[at] = byte;
            stream.extend([&line[..], b"\n"].concat());
        }
    }
    let expected = frames(&stream);
    assert!(written(vec![stream], None) == expected);
    let mut numbers = Counts::new();
    numbers_of(&expected).into_iter().for_each(|number| numbers.add(number));
    println!("{} answer lines, by number {numbers}", numbers.total());
    numbers.assert_each([3, 4, 5, 6, 7, 10, 23, 28], 5);
    for (at, byte) in (0..settings.len() - 1).flat_map(|at| b"/09:@AFG`afg \r\x00\xff".map(move |byte| (at, byte))) {
        let mut line = settings.clone();
        line[at] = byte;
        assert_eq!(written(vec![line.clone()], None), frames(&line), "byte {byte} at {at} of the settings");
    }
}

/// A long stream of one site, in large writes.
#[test]
fn long_stream() {
    let mut rng = Rng::new(seed(31));
    let settings = Settings::from_words(&[5, 3, 4, 33, 9, 4, 2, 12, 5, 1, 9, 14]).expect("settings");
    let stream = stream_of(&mut rng, settings, times(30_000));
    let wrote = written(stream.chunks(50_000).map(<[u8]>::to_vec).collect(), None);
    assert!(wrote == frames(&stream));
    let mut numbers = Counts::new();
    numbers_of(&wrote).into_iter().for_each(|number| numbers.add(number));
    println!("seed {}: one stream of {} answer lines, by number {numbers}", seed(31), numbers.total());
    numbers.assert_each((3..=22).chain([0]), 50);
}

/// Every answer is there before the next line is written.
#[test]
fn answers_at_once() {
    let mut rng = Rng::new(seed(32));
    let settings = Settings::from_words(&[2, 2, 2, 3, 2, 2, 1, 2, 1, 1, 4]).expect("settings");
    let stream = stream_of(&mut rng, settings, 200);
    let expected = frames(&stream);
    let mut child = program();
    let (mut to, mut from) = (child.stdin.take().expect("a pipe"), child.stdout.take().expect("a pipe"));
    let mut lines = stream.split_inclusive(|byte| *byte == 10);
    to.write_all(lines.next().expect("settings")).expect("the settings line");
    for (line, answer) in lines.zip(expected.chunks(25)) {
        to.write_all(line).expect("a line");
        let mut got = [0; 25];
        from.read_exact(&mut got).expect("an answer");
        assert_eq!(got, answer);
    }
    drop(to);
    assert!(child.wait().expect("the program").success());
}

/// A client of the program that sends a line and waits for its answer. A line may get lost, or its answer; it is then sent
/// again. The answers are those of a client that loses none, and so is what a later line finds.
#[test]
fn lost_lines() {
    let mut rng = Rng::new(seed(34));
    let mut lost = Counts::new();
    for _ in 0..times(20) {
        let settings = second::gen::sites::site_within(&mut rng, second::gen::Size::Small, 16_384);
        let sent: Vec<Sent> = orders::list_from_fresh(&mut rng, settings.clone(), 150, Plan { first: 1, repeats: 0 })
            .into_iter()
            .enumerate()
            .map(|(at, one)| Sent { order: 7 * at as u32 + 1, ..one })
            .collect();
        let first = words_line(&settings.words());
        let lines: Vec<Vec<u8>> = sent.iter().map(|one| order_line(&mut rng, one)).collect();
        let expected = frames(&[first.clone(), lines.concat()].concat());
        let mut child = program();
        let (mut to, mut from) = (child.stdin.take().expect("a pipe"), child.stdout.take().expect("a pipe"));
        to.write_all(&first).expect("the settings line");
        for (line, answer) in lines.iter().zip(expected.chunks(25)) {
            loop {
                if rng.percent(5) {
                    lost.add("line");
                    continue;
                }
                to.write_all(line).expect("a line");
                let mut got = [0; 25];
                from.read_exact(&mut got).expect("an answer");
                if rng.percent(10) {
                    lost.add("answer");
                    continue;
                }
                assert_eq!(got, answer);
                break;
            }
        }
        drop(to);
        assert!(child.wait().expect("the program").success());
    }
    println!("seed {}: lost and sent again {lost}", seed(34));
    lost.assert_each(["line", "answer"], 100);
}

/// The example of the rules (13.4); no input; a refused settings line with more input behind it; a last line
/// without byte 10; the largest book that fits, and one word more.
#[test]
fn edges() {
    let example = b"0000000200000002000000020000000300000002000000020000000100000002000000010000000000000004\n\
        00000001000000000000000100000000000000010000000000000000\nzz\n";
    assert_eq!(written(vec![example.to_vec()], None), b"000000000000000000000000\n000000170000000000000000\n");
    assert_eq!(written(vec![example[..example.len() - 1].to_vec()], None), frames(example));
    assert_eq!(written(vec![], None), b"000000180000000000000000\n");
    assert_eq!(written(vec![b"\n".to_vec(), example.to_vec()], None), b"000000180000000000000000\n");
    let mut numbers = Counts::new();
    for (dates, rest) in [(1, 1), (16, 16), (400, 1)] {
        let line = words_line(&[dates, rest, rest, 200, 40, 8, 1, 100, 30, rest - 1, 9]);
        let expected = frames(&line);
        assert_eq!(written(vec![line], None), expected);
        numbers.add(expected.len());
    }
    numbers.assert_each([0, 25], 1);
}

/// A program whose answers nobody reads ends, and does not wait for more input.
#[test]
fn nobody_reads() {
    let mut child = program();
    let mut to = child.stdin.take().expect("a pipe");
    drop(child.stdout.take());
    to.write_all(&words_line(&[2, 2, 2, 3, 2, 2, 1, 2, 1, 0, 4])).expect("the settings line");
    for _ in 0..100_000 {
        match to.write_all(b"zz\n") {
            Ok(()) => {}
            Err(error) => {
                assert_eq!(error.kind(), ErrorKind::BrokenPipe);
                child.wait().expect("the program");
                return;
            }
        }
    }
    panic!("the program goes on although nobody reads");
}

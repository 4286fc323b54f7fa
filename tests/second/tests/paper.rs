//! The worked examples (docs/RULES.md, section 13): the input of lines, the sixteen requests, and the lengths.

use second::book::{book_len, check, lay, words};
use second::frames::{frames, trace, words_line};
use second::gen::sites::largest;
use second::machine::{run, step, Answer, Request, Settings, State};

const REHEARSAL_SITE: [u32; 11] = [2, 2, 2, 3, 2, 2, 1, 2, 1, 0, 4];

const REHEARSAL: [([u32; 7], [u32; 3]); 16] = [
    ([20, 0, 0, 0, 3, 0, 0], [0, 0, 0]),
    ([4, 0, 1, 0, 1, 0, 0], [9, 0, 0]),
    ([1, 0, 1, 0, 1, 0, 0], [0, 0, 0]),
    ([4, 0, 1, 0, 1, 0, 0], [0, 0, 0]),
    ([4, 0, 1, 0, 1, 0, 0], [11, 0, 0]),
    ([4, 1, 1, 1, 1, 0, 0], [13, 1, 0]),
    ([1, 0, 2, 1, 1, 0, 0], [0, 0, 0]),
    ([4, 0, 2, 1, 1, 0, 0], [12, 1, 0]),
    ([8, 0, 0, 1, 2, 0, 0], [0, 0, 0]),
    ([10, 0, 2, 1, 2, 0, 0], [9, 1, 0]),
    ([10, 0, 1, 1, 2, 0, 0], [0, 0, 0]),
    ([14, 0, 0, 0, 0, 4, 7], [0, 0, 0]),
    ([9, 0, 0, 1, 2, 0, 0], [19, 1, 0]),
    ([2, 0, 1, 0, 1, 0, 0], [18, 0, 0]),
    ([3, 0, 1, 0, 1, 0, 0], [0, 0, 4]),
    ([9, 0, 0, 2, 2, 0, 0], [0, 0, 0]),
];

const EXAMPLE_IN: &[u8] = b"\
0000000200000002000000020000000300000002000000020000000100000002000000010000000000000004
00000001000000000000000100000000000000010000000000000000
zz
";

const EXAMPLE_OUT: &[u8] = b"\
000000000000000000000000
000000170000000000000000
";

fn rehearsal_state() -> State {
    State::empty(Settings::from_words(&REHEARSAL_SITE).expect("good settings"))
}

#[test]
fn the_example_input_gives_the_example_output() {
    assert_eq!(frames(EXAMPLE_IN), EXAMPLE_OUT);
    let without_last_end = &EXAMPLE_IN[..EXAMPLE_IN.len() - 1];
    assert_eq!(frames(without_last_end), EXAMPLE_OUT);
}

#[test]
fn the_trace_shows_the_book_after_each_answer() {
    let out = trace(EXAMPLE_IN);
    let lines: Vec<&[u8]> = second::frames::lines(&out);
    assert_eq!(lines.len(), 4);
    assert_eq!(lines[0], &EXAMPLE_OUT[..24]);
    assert_eq!(lines[1].len(), 771 * 8);
    assert_eq!(lines[1], lines[3], "a refused line changes nothing");
    assert_eq!(&lines[1][88..104], b"0000000200000002", "visitor 1 has leave on both dates");
}

#[test]
fn the_sixteen_steps_of_the_rehearsal() {
    let mut state = rehearsal_state();
    for (request, answer) in REHEARSAL {
        let given = step(&mut state, &Request::from_words(request));
        assert_eq!(given.words(), answer, "{request:?}");
    }
    assert_eq!(check(&words(&state)), Answer::Done(0));
}

#[test]
fn seats_and_last_session_at_their_ends() {
    let mut state = rehearsal_state();
    run(&mut state, &REHEARSAL.map(|(request, _)| Request::from_words(request))[..11]);
    let ask = |w| step(&mut state.clone(), &Request::from_words(w)).words();
    assert_eq!(ask([14, 0, 0, 0, 0, 5, 7]), [8, 0, 0], "5 seats of 4 (rule 5.8)");
    assert_eq!(ask([20, 0, 0, 0, 4, 0, 0]), [7, 0, 0], "there is no session 4 (rule 5.7)");
    assert_eq!(ask([20, 0, 0, 0, 3, 0, 0]), [0, 0, 0], "session 3 is the last");
}

#[test]
fn the_rehearsal_needs_771_words_and_the_largest_book_9402332() {
    let largest = largest(95).words();
    let smallest = [1, 1, 1, 1, 1, 1, 1, 1, 1, 0, 1];
    assert_eq!(book_len(&REHEARSAL_SITE), 771);
    assert_eq!((book_len(&smallest), book_len(&largest)), (727, 9_402_332));
    assert_eq!(book_len(&largest[..25]), 0);
    assert_eq!(words(&rehearsal_state()).len(), 771);
}

#[test]
fn laying_writes_the_settings_then_zeros_or_keeps_the_book() {
    let mut book = [7u32; 771];
    assert_eq!(lay(&REHEARSAL_SITE[..10], &mut book).words(), [24, 0, 0]);
    assert_eq!(lay(&REHEARSAL_SITE, &mut book[..770]).words(), [25, 0, 0]);
    assert_eq!(book, [7u32; 771]);
    assert_eq!(lay(&REHEARSAL_SITE, &mut book), Answer::Done(0));
    assert_eq!(book.to_vec(), words(&rehearsal_state()));
}

/// What is a line, and what is a settings line (rules 11.1 and 12.2).
#[test]
fn settings_lines_and_line_ends() {
    let refused = |number: u32| format!("{number:08x}0000000000000000\n").into_bytes();
    let settings = &EXAMPLE_IN[..89];
    assert_eq!(frames(b""), refused(24));
    assert_eq!(frames(b"\n"), refused(24));
    assert_eq!(frames(&settings[..87]), refused(24));
    assert_eq!(frames(&settings.to_ascii_uppercase()), b"", "no letters in these settings");
    assert_eq!(frames(settings), b"");
    assert_eq!(frames(&settings[..88]), b"", "the end of input ends the settings line");
    assert_eq!(frames(&[settings, b"\n"].concat()), refused(23), "an empty line is no frame line");
    assert_eq!(frames(&[settings, b"\n\n"].concat()), [refused(23), refused(23)].concat());
    assert_eq!(frames(&[b"\r\n", settings].concat()), refused(24), "nothing after it is read");
}

/// 16,384 words pass and 16,385 do not.
#[test]
fn the_program_takes_books_up_to_16384_words() {
    let most = [2, 1, 96, 1, 1, 1, 2, 49, 81, 0, 1, 1];
    let over = [2, 1, 96, 1, 1, 1, 3, 49, 81, 95, 1, 1, 1];
    assert_eq!((book_len(&most), book_len(&over)), (16_384, 16_385));
    assert_eq!(frames(&words_line(&most)), b"");
    assert_eq!(frames(&words_line(&over)), b"000000190000000000000000\n");
}

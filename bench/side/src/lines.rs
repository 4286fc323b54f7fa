//! The line programs as processes: a file in, nothing out, processor time of the process.

use crate::clock::{children, turns};
use crate::sites::{load, small};
use crate::table::row;
use second::frames::words_line;
use std::fs::File;
use std::path::{Path, PathBuf};
use std::process::{Command, Stdio};

const LINES: usize = 1_000_000;
const TURNS: usize = 7;

/// A program that `bench/run` names by a variable.
fn program(variable: &str) -> PathBuf {
    PathBuf::from(std::env::var_os(variable).unwrap_or_else(|| panic!("{variable} names no program; use bench/run")))
}

fn run(program: &Path, input: &Path, output: Stdio) -> f64 {
    let before = children();
    let stdin = File::open(input).expect("the input");
    let status = Command::new(program).stdin(stdin).stdout(output).status().expect("the program runs");
    assert!(status.success());
    children() - before
}

pub fn measure() {
    let [proved, plain, split] = ["FRAMES", "PLAIN_FRAMES", "ONLY_SPLIT"].map(program);
    let folder = std::env::temp_dir();
    let input = folder.join(format!("caviar-lines-{}", std::process::id()));
    let mut bytes = words_line(&small().words());
    for request in load(&small(), LINES) {
        bytes.extend(words_line(&request));
    }
    std::fs::write(&input, bytes).expect("room for the input");
    let wrote = [&proved, &plain, &split].map(|program| {
        let output = input.with_extension("out");
        run(program, &input, File::create(&output).expect("room for the output").into());
        let wrote = std::fs::read(&output).expect("the output");
        std::fs::remove_file(output).expect("the output");
        wrote
    });
    assert!(wrote.iter().all(|bytes| bytes.len() == LINES * 25), "an answer for each line");
    assert!(wrote[0] == wrote[1], "the programs differ");
    let [ours, theirs, limit] = turns(
        TURNS,
        [&mut || run(&proved, &input, Stdio::null()), &mut || run(&plain, &input, Stdio::null()), &mut || {
            run(&split, &input, Stdio::null())
        }],
    );
    std::fs::remove_file(input).expect("the input");
    let each = |time: f64| format!("{:.1} ns", time / LINES as f64 * 1e9);
    let note = format!(
        "each of {LINES} lines from a file, process start included; limit {}, splitting lines alone: proved {:.1}, plain {:.1} times as long",
        each(limit),
        ours / limit,
        theirs / limit
    );
    row("lines, the program frames", [ours, theirs], each, &note);
}

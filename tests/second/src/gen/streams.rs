//! Seeded inputs of the line program: a settings line and frame lines, clean or damaged.

use super::orders::{self, Plan, Sent};
use super::requests::{list_from_fresh, Mix};
use super::sites::{bad_settings, large_settings, site_within, Size};
use super::Rng;
use crate::frames::{words_line, MOST_WORDS};
use crate::machine::Settings;

/// A good settings line and so many good frame lines.
pub fn clean_stream(rng: &mut Rng, length: usize) -> Vec<u8> {
    let settings = site_within(rng, Size::Any, MOST_WORDS);
    stream_of(rng, settings, length)
}

/// The same for a given site. Most streams have orders, some sent again.
pub fn stream_of(rng: &mut Rng, settings: Settings, length: usize) -> Vec<u8> {
    let mut out = words_line(&settings.words());
    if rng.percent(30) {
        let requests = list_from_fresh(rng, settings, length, Mix::USUAL);
        requests.iter().for_each(|request| out.extend(words_line(&request.words())));
        return out;
    }
    let plan = Plan::any(rng);
    let sent = orders::list_from_fresh(rng, settings, length, plan);
    sent.iter().for_each(|order| out.extend(order_line(rng, order)));
    out
}

/// The line of an order: 64 digits; without a number mostly 56.
pub fn order_line(rng: &mut Rng, order: &Sent) -> Vec<u8> {
    if order.order == 0 && rng.percent(80) {
        return words_line(&order.request.words());
    }
    words_line(&order.words())
}

/// A stream with damage: some lines, the settings line, or the end of input.
pub fn damaged_stream(rng: &mut Rng, length: usize) -> Vec<u8> {
    let clean = clean_stream(rng, length);
    damage(rng, &clean)
}

/// Damages a clean stream.
pub fn damage(rng: &mut Rng, clean: &[u8]) -> Vec<u8> {
    let mut lines: Vec<Vec<u8>> = clean.split_inclusive(|byte| *byte == 10).map(<[u8]>::to_vec).collect();
    if rng.percent(25) {
        lines[0] = damaged_settings_line(rng, &lines[0]);
    }
    for line in lines.iter_mut().skip(1) {
        if rng.percent(25) {
            let sort = rng.below(DAMAGES);
            damage_line(rng, line, sort);
        }
    }
    let mut out = lines.concat();
    match rng.below(8) {
        0 | 1 => drop(out.pop()),
        2 => out.truncate(rng.below(out.len() as u32 + 1) as usize),
        3 => out.push(10),
        _ => {}
    }
    out
}

fn damaged_settings_line(rng: &mut Rng, line: &[u8]) -> Vec<u8> {
    match rng.below(5) {
        0 => words_line(&bad_settings(rng)),
        1 => words_line(&large_settings(rng).words()),
        2 => Vec::new(),
        3 => vec![10],
        _ => {
            let mut line = line.to_vec();
            let sort = rng.below(DAMAGES);
            damage_line(rng, &mut line, sort);
            line
        }
    }
}

/// How many sorts of damage to a line there are.
pub const DAMAGES: u32 = 10;

/// One damage of the sort to a line that ends with byte 10.
pub fn damage_line(rng: &mut Rng, line: &mut Vec<u8>, sort: u32) {
    let digits = line.len() as u32 - 1;
    let at = rng.below(digits.max(1)) as usize;
    match sort {
        0 => line.make_ascii_uppercase(),
        1 => line.insert(digits as usize, 13),
        2 => line.insert(at, 10),
        3 => drop(line.drain(at..digits as usize)),
        4 => line.insert(at, b'0'),
        5 => line.insert(at, b' '),
        6 => line[at] = (rng.draw() & 255) as u8,
        7 => drop(line.splice(..digits as usize, [])),
        8 => drop(line.splice(0..0, vec![b'0'; rng.pick(&[8, 56, 64, 1000, 20_000])])),
        _ => line[at] = rng.pick(b"gGxX/:@`\x00\x7f\x80\xff+-_ABCDEF"),
    }
}

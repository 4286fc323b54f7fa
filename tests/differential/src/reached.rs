//! What a list of requests reached: kinds done, and refusals by kind and number.

use crate::Counts;
use second::gen::early;
use second::gen::endings::Ending;
use second::machine::kinds::{uses, Uses, LAST_KIND};

#[derive(Default)]
pub struct Reached {
    pub done: Counts<u32>,
    pub numbers: Counts<u32>,
    /// By kind and number.
    pub refused: Counts<(u32, u32)>,
    /// The sorts of kind 9, and of early times.
    pub endings: Counts<Ending>,
    pub early: Counts<early::Sort>,
}

impl Reached {
    pub fn add(&mut self, kind: u32, number: u32) {
        if number == 0 {
            self.done.add(kind);
        } else {
            self.numbers.add(number);
            self.refused.add((kind, number));
        }
    }

    /// The words of requests with their answers.
    pub fn add_list(&mut self, list: &[u32], answers: &[u32]) {
        for (request, answer) in list.chunks_exact(7).zip(answers.chunks_exact(3)) {
            self.add(request[0], answer[0]);
        }
    }

    pub fn print(&self, what: &str, seed: u64) {
        let total = self.done.total() + self.numbers.total();
        println!(
            "seed {seed}: {what}, {total} requests; done by kind {}; refused by number {}",
            self.done, self.numbers
        );
    }
}

/// The kinds that a question from 4 to 22 can refuse.
pub fn asked(number: u32) -> Vec<u32> {
    let of =
        |used: fn(Uses) -> bool| -> Vec<u32> { (1..=LAST_KIND).filter(|kind| uses(*kind).is_some_and(used)).collect() };
    match number {
        4 => of(|used| used.a.is_none() || used.b.is_none() || !used.n || !used.info),
        5 => of(|used| used.a.is_some()),
        6 => of(|used| used.b.is_some()),
        7 => of(|_| true),
        8 | 14 => vec![14],
        9 => vec![4, 6, 10],
        10 => vec![10, 12, 14],
        11 => vec![4, 6, 10, 12, 14],
        12 => vec![4, 6, 12],
        13 => vec![4, 6, 10, 14],
        15 => vec![5, 7, 11, 15],
        16 => vec![13, 16],
        17 => vec![16],
        18 => vec![2],
        19 | 20 => vec![9],
        21 => vec![17],
        22 => vec![20],
        _ => panic!("{number} is no question of a kind"),
    }
}

/// Each of these questions with each kind that it can refuse.
pub fn pairs(numbers: impl IntoIterator<Item = u32>) -> Vec<(u32, u32)> {
    numbers.into_iter().flat_map(|number| asked(number).into_iter().map(move |kind| (kind, number))).collect()
}

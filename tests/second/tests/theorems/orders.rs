//! What a caller may rely on of orders (rules 18.3 and 18.7), proofs/Resent: an order that is sent again while it is kept
//! changes nothing, for any list.

use crate::common::{some_state, Counts};
use second::book::words;
use second::gen::orders::{list, ringed_state, Plan, Sent};
use second::gen::{Rng, Size};
use second::machine::ring::PLACES;
use second::machine::{order, Answer, State};
use std::collections::BTreeMap;

const SEED: u64 = 0x7eb0;

fn answers_of(state: &mut State, sent: &[Sent]) -> Vec<Answer> {
    sent.iter().map(|one| order(state, one.order, &one.request)).collect()
}

/// sent-again, once-done and resent: orders of a list are sent again behind others, while they are kept: the book and all
/// other answers are as without, and the repeats get the answers that their orders got when they were new.
#[test]
fn repeats_leave_book_and_answers() {
    let mut rng = Rng::new(SEED);
    let mut counts = Counts::new();
    for turn in 0..400 {
        let start = some_state(&mut rng);
        let plan = Plan { repeats: if turn % 2 == 0 { 0 } else { 20 }, ..Plan::any(&mut rng) };
        let sent = list(&mut rng, &mut start.clone(), 90, plan);
        let mut once = start.clone();
        let expected = answers_of(&mut once, &sent);
        let (mut twice, mut first) = (start.clone(), BTreeMap::new());
        for (at, one) in sent.iter().enumerate() {
            if twice.ring.kept(one.order).is_none() {
                first.insert(one.order, expected[at]);
            }
            assert_eq!(order(&mut twice, one.order, &one.request), expected[at], "{one:?}");
            while rng.percent(30) {
                let back = rng.below(at as u32 + 1) as usize;
                let Some(kept) = twice.ring.kept(sent[back].order).copied() else { continue };
                if kept.request == sent[back].request {
                    assert_eq!(order(&mut twice, kept.order, &kept.request), first[&kept.order]);
                    counts.add((at - back).min(3));
                }
            }
        }
        assert_eq!(twice, once);
        assert!(words(&twice) == words(&once));
    }
    counts.want(SEED, "orders sent again, by how many lines later (3 for more)", 0..=3, 100);
}

/// kept-behind: an order that was new is kept while fewer than 64 new ones come behind it, whatever ring it came to;
/// behind the 64th it is not. Repeats and requests without an order count for nothing.
#[test]
fn kept_behind_63_new_ones() {
    let mut rng = Rng::new(SEED + 1);
    let mut counts = Counts::new();
    for _ in 0..300 {
        let mut state = ringed_state(&mut rng, Size::Small, 20_000);
        let sent = list(&mut rng, &mut state.clone(), 200, Plan { first: 1 << 20, repeats: 20 });
        let is_new = |one: &Sent| one.order != 0 && state.ring.kept(one.order).is_none();
        let first = sent.iter().position(is_new).expect("a new order");
        answers_of(&mut state, &sent[..=first]);
        let mut new = 0;
        for one in &sent[first + 1..] {
            new += usize::from(one.order != 0 && state.ring.kept(one.order).is_none());
            order(&mut state, one.order, &one.request);
            assert_eq!(state.ring.kept(sent[first].order).is_some(), new < PLACES, "behind {new}");
            counts.add(new);
            if new == PLACES {
                break;
            }
        }
    }
    counts.want(SEED + 1, "orders looked for, by how many new ones later", 0..=PLACES, 50);
}

//! Theorem 7, proofs/Frame: which sets a request leaves alone, by its kind, done or refused.

use crate::common::{after, is_done, walk, Counts};
use second::machine::State;

const SEED: u64 = 0x7e70;

const SETS: [&str; 7] = ["leave", "standing", "hotel", "ride", "attend", "conf", "lunch"];

/// The sets that a request of the kind may change.
fn may_change(kind: u32) -> &'static [&'static str] {
    match kind {
        1 | 2 | 4..=7 => &["leave", "hotel", "ride"],
        3 => &["leave", "hotel", "ride", "attend"],
        8..=16 => &["standing", "attend", "conf", "lunch"],
        _ => &[],
    }
}

fn changed(before: &State, after: &State) -> Vec<&'static str> {
    let differs = [
        before.leave != after.leave,
        before.standing != after.standing,
        before.hotel != after.hotel,
        before.ride != after.ride,
        before.attend != after.attend,
        before.conf != after.conf,
        before.lunch != after.lunch,
    ];
    SETS.into_iter().zip(differs).filter(|(_, differs)| *differs).map(|(set, _)| set).collect()
}

#[test]
fn each_kind_leaves_the_other_sets_alone() {
    let (mut moved, mut kept) = (Counts::new(), Counts::new());
    walk(SEED, 200, 60, |state, request| {
        let (answer, next) = after(state, request);
        let sets = changed(state, &next);
        assert_eq!(next.settings, state.settings);
        if is_done(answer) {
            assert!(sets.iter().all(|set| may_change(request.kind).contains(set)), "{request:?} changed {sets:?}");
        } else {
            assert!(sets.is_empty(), "a refused request changed {sets:?}");
        }
        match (is_done(answer), sets.is_empty()) {
            (true, false) => moved.add(request.kind),
            (true, true) => kept.add(request.kind),
            (false, _) => kept.add(0),
        }
    });
    moved.want(SEED, "frames, a set changed, by kind", 1..=16, 20);
    kept.want(SEED, "frames, nothing changed, by kind and 0 for refused", [0, 17, 18, 19, 20], 100);
}

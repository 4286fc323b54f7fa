//! Theorem 2, proofs/Undo: a request and then its opposite with the same words, seats and
//! information 0: the sets are as before, and the change count has risen by two.

use crate::common::{after, is_done, of_kind, on_date, only_b, raised, slots_word, walk_ranges, Counts, DONE};
use second::machine::{Request, State};

const SEED: u64 = 0x7e20;

/// The kind that undoes this one and leaves the state as it was, for every request that was done.
fn opposite(kind: u32) -> Option<u32> {
    match kind {
        4 | 6 | 10 | 14 => Some(kind + 1),
        5 | 7 | 11 => Some(kind - 1),
        _ => None,
    }
}

#[test]
fn the_opposite_with_the_same_words_restores() {
    let mut counts = Counts::new();
    walk_ranges(SEED, 200, 60, |state, request| {
        let Some(kind) = opposite(request.kind) else { return };
        let (answer, between) = after(state, request);
        if is_done(answer) {
            assert_eq!(answer, DONE);
            assert_eq!(after(&between, &of_kind(kind, request)), (DONE, raised(state, 2)), "{request:?}");
            counts.add((request.kind, slots_word(request)));
        }
    });
    let sorts = [4, 5, 6, 7, 10, 11, 14].into_iter().flat_map(|kind| [(kind, "one"), (kind, "more")]);
    counts.want(SEED, "undo by kind and slots", sorts, 20);
}

/// Does the meeting hold a conference room in one of the request's sessions?
fn holds_a_room(state: &State, request: &Request, meeting: u32) -> bool {
    let there = |session: u32| request.first <= session && session <= request.last;
    state.conf.keys().any(|(session, _, holder)| *holder == meeting && there(session.0))
}

#[test]
fn a_conference_room_given_and_erased_restores_exactly_when_none_was_held() {
    let mut counts = Counts::new();
    walk_ranges(SEED + 1, 200, 60, |state, request| {
        let (answer, between) = after(state, request);
        if request.kind != 12 || !is_done(answer) {
            return;
        }
        let (erased, restored) = after(&between, &only_b(13, request));
        assert_eq!((answer, erased), (DONE, DONE), "{request:?}");
        assert_eq!(restored == raised(state, 2), !holds_a_room(state, request, request.b), "{request:?}");
        counts.add((if holds_a_room(state, request, request.b) { "held" } else { "not held" }, slots_word(request)));
    });
    let sorts = [("held", "one"), ("held", "more"), ("not held", "one"), ("not held", "more")];
    counts.want(SEED + 1, "12 then 13, a room held before or not, by slots", sorts, 20);
}

/// Does the meeting of a request of kind 8 stand in one of its sessions?
fn stands(state: &State, request: &Request) -> bool {
    let there = |session: u32| request.first <= session && session <= request.last;
    state.standing.iter().any(|(session, meeting)| *meeting == request.a && there(session.0))
}

/// Has it a lunch on one of their dates, or a conference room in one of them?
fn held(state: &State, request: &Request) -> bool {
    let eats = |date| on_date(state, request, date);
    let lunch = state.lunch.keys().any(|(date, _, meeting)| *meeting == request.a && eats(*date));
    lunch || holds_a_room(state, request, request.a)
}

#[test]
fn a_meeting_stood_and_taken_off_restores_where_it_did_not_stand_and_holds_nothing() {
    let mut counts = Counts::new();
    walk_ranges(SEED + 2, 400, 60, |state, request| {
        let (answer, between) = after(state, request);
        if request.kind != 8 || !is_done(answer) {
            return;
        }
        let (ended, restored) = after(&between, &of_kind(9, request));
        let sort = match (held(state, request), stands(state, request)) {
            (false, false) => "new",
            (false, true) => "stood",
            (true, _) => "held",
        };
        assert_eq!(answer, DONE, "{request:?}");
        match sort {
            "new" => assert_eq!((ended, restored), (DONE, raised(state, 2)), "{request:?}"),
            "stood" => assert_ne!(restored, raised(state, 2), "{request:?}"),
            _ => assert_eq!((ended.number(), restored), (19, between), "{request:?}"),
        }
        counts.add((sort, slots_word(request)));
    });
    let sorts = ["new", "stood", "held"].into_iter().flat_map(|sort| [(sort, "one"), (sort, "more")]);
    counts.want(SEED + 2, "8 then 9, by what was there before and slots", sorts, 20);
}

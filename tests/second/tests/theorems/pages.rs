//! What porters may rely on (rules 16.1 to 16.6): a page depends on the conf and attend entries of its
//! date alone, requests on other dates leave it, and queries do too.

use crate::common::{after, is_done, on_date, some_state, state_of, walk, Counts};
use second::gen::pages::busy_state;
use second::gen::{Rng, Size};
use second::machine::{Date, State};
use second::page::lines;

const SEED: u64 = 0x7e90;

/// A request none of whose dates is the page's leaves the page; so does every query.
#[test]
fn requests_on_other_dates_leave_the_page() {
    let (mut kept, mut changed) = (Counts::new(), Counts::new());
    walk(SEED, 300, 40, |state, request| {
        let (answer, later) = after(state, request);
        for date in (0..state.settings.dates).map(Date) {
            let (before, now) = (lines(state, date), lines(&later, date));
            if !on_date(state, request, date) || request.kind >= 17 {
                assert_eq!(before, now, "{request:?} {date:?}");
                if is_done(answer) && !before.is_empty() {
                    kept.add(request.kind);
                }
            } else if before != now {
                changed.add(request.kind);
            }
        }
    });
    kept.want(SEED, "pages with lines that a request on other dates left, by kind", 1..=20, 20);
    changed.want(SEED, "pages that a request on the date changed, by kind", [3, 10, 11, 12, 13, 16], 10);
}

/// The state with the conf and attend entries of the date of another one.
fn with_entries_of(state: &State, date: Date, from: &State) -> State {
    let mut mixed = state.clone();
    let s = &state.settings;
    mixed.conf.retain(|(session, _, _), _| s.date_of_session(*session) != date);
    mixed.attend.retain(|(session, _, _)| s.date_of_session(*session) != date);
    mixed.conf.extend(from.conf.iter().filter(|((session, _, _), _)| s.date_of_session(*session) == date));
    mixed.attend.extend(from.attend.iter().filter(|(session, _, _)| s.date_of_session(*session) == date));
    mixed
}

#[test]
fn two_books_that_agree_on_conf_and_attend_have_the_same_page() {
    let mut rng = Rng::new(SEED + 1);
    let mut seen = Counts::new();
    for turn in 0..600 {
        let (state, date) = if turn % 2 == 0 { busy_state(&mut rng, Size::Small) } else { (some_state(&mut rng), 0) };
        let other = state_of(&mut rng, &state.settings);
        let page = lines(&state, Date(date));
        assert_eq!(lines(&with_entries_of(&other, Date(date), &state), Date(date)), page);
        seen.add((page.len().min(2), lines(&other, Date(date)) == page));
    }
    let sorts = [(0, false), (0, true), (1, false), (2, false)];
    seen.want(SEED + 1, "pages by lines (2 for more) and whether the other book had the same", sorts, 10);
}

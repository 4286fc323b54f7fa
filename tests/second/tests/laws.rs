//! Checking: lawful books pass, each rule broken alone is refused with 2 and known by its name,
//! junk headers give 1.

use second::book::{broken, calls, check, laws_broken, read, shown, words, Rule};
use second::gen::{damaged, deep_state, full_book, junk_book, site, sites, Rng, Size};
use second::machine::{Answer, Settings, State};
use std::collections::{BTreeMap, BTreeSet};

const SEED: u64 = 0x1a35;

fn sizes() -> [Size; 5] {
    [Size::One, Size::Small, Size::PoolEdge, Size::AtLimit, Size::Any]
}

fn some_state(rng: &mut Rng) -> State {
    let size = rng.pick(&sizes());
    let settings = sites::site_within(rng, size, 20_000);
    deep_state(rng, settings, 40)
}

#[test]
fn lawful_books_pass_and_show_their_state() {
    let mut rng = Rng::new(SEED);
    for _ in 0..120 {
        let state = some_state(&mut rng);
        let book = words(&state);
        assert_eq!(check(&book), Answer::Done(0), "{:?}", state.settings);
        assert_eq!(shown(&book), Some(state));
    }
}

#[test]
fn each_rule_broken_alone_is_refused_with_2() {
    let mut rng = Rng::new(SEED + 1);
    let mut broken_alone: BTreeMap<Rule, u32> = BTreeMap::new();
    for _ in 0..60 {
        let state = some_state(&mut rng);
        for rule in Rule::breakable() {
            let Some(book) = damaged(&mut rng, &state, rule) else { continue };
            let found = broken(state.settings.clone(), &book);
            assert_eq!(found, BTreeSet::from([rule]), "{:?}", state.settings);
            assert_eq!(check(&book).words(), [2, 0, 0]);
            *broken_alone.entry(rule).or_default() += 1;
        }
    }
    println!("seed {}: broken alone {broken_alone:?}", SEED + 1);
    for rule in Rule::breakable() {
        assert!(broken_alone.get(&rule).is_some_and(|count| *count >= 20), "{rule:?}");
    }
}

/// The laws that the layout keeps can be broken in the sets alone.
#[test]
fn laws_kept_by_the_layout_are_laws_of_the_sets() {
    use second::machine::{Date, Session, Time};
    let settings = Settings::from_words(&[2, 2, 2, 3, 2, 2, 2, 2, 1, 0, 4, 4]).expect("settings");
    let fresh = State::empty(settings);
    let broken_by = |edit: fn(&mut State)| {
        let mut state = fresh.clone();
        state.leave.extend([(Date(0), 0), (Date(0), 1)]);
        state.standing.extend([(Session(0), 0), (Session(0), 1)]);
        edit(&mut state);
        laws_broken(&state).into_iter().collect::<Vec<_>>()
    };
    assert_eq!(broken_by(|_| {}), []);
    let hotel = broken_by(|state| state.hotel.extend([(Date(0), 0, 0), (Date(0), 0, 1)]));
    assert_eq!(hotel, [Rule::HotelRoomHasOneVisitor]);
    let ride = broken_by(|state| state.ride.extend([(Time(1), 0, 0), (Time(1), 0, 1)]));
    assert_eq!(ride, [Rule::TransportHasOneVisitor]);
    let attend = broken_by(|state| state.attend.extend([(Session(0), 0, 0), (Session(0), 1, 0)]));
    assert_eq!(attend, [Rule::VisitorAttendsOneMeeting]);
    let conf = broken_by(|state| state.conf.extend([((Session(0), 0, 0), 5), ((Session(0), 0, 1), 5)]));
    assert_eq!(conf, [Rule::ConferenceRoomHasOneMeeting]);
    let lunch = broken_by(|state| state.lunch.extend([((Date(0), 0, 0), (1, 5)), ((Date(0), 1, 0), (1, 5))]));
    assert_eq!(lunch, [Rule::MeetingHasOneDiningRoom]);
}

/// The cell rules hold exactly when the words read back are the book's own.
#[test]
fn a_book_keeps_the_cell_rules_exactly_when_it_shows_a_state() {
    let mut rng = Rng::new(SEED + 2);
    let mut counts = [0u32; 2];
    for _ in 0..3000 {
        let book = junk_book(&mut rng);
        let Some(settings) = calls::question_1(&book) else { continue };
        let kept = read(settings, &book).broken.is_empty();
        assert_eq!(kept, shown(&book).is_some());
        counts[usize::from(kept)] += 1;
    }
    println!("seed {}: cell rules broken {}, kept {}", SEED + 2, counts[0], counts[1]);
    assert!(counts[0] > 50 && counts[1] > 20);
}

#[test]
fn junk_headers_give_1() {
    let settings = [2, 2, 2, 3, 2, 2, 1, 2, 1, 0, 4];
    let mut fresh = vec![0; 771];
    fresh[..11].copy_from_slice(&settings);
    let with = |at: usize, word: u32| {
        let mut book = fresh.clone();
        book[at] = word;
        check(&book).words()
    };
    assert_eq!(check(&fresh).words(), [0, 0, 0]);
    for (at, greatest) in second::machine::site::GREATEST.into_iter().enumerate() {
        for word in [0, greatest + 1, u32::MAX, 0x8000_0000] {
            assert_eq!(with(at, word), [1, 0, 0], "word {at} = {word}");
        }
    }
    assert_eq!([with(9, 2), with(9, 3), with(9, 0x8000_0000), with(9, u32::MAX)], [[1, 0, 0]; 4]);
    assert_eq!([with(9, 0), with(9, 1)], [[0, 0, 0]; 2]);
    assert_eq!([with(10, 0), with(10, 1001), with(10, u32::MAX)], [[1, 0, 0]; 3]);
    assert_eq!([with(10, 1), with(10, 1000)], [[0, 0, 0]; 2]);
    for length in 0..771 {
        assert_eq!(check(&fresh[..length]).words(), [1, 0, 0], "length {length}");
    }
    assert_eq!(check(&[fresh, vec![0]].concat()).words(), [1, 0, 0]);
    assert_eq!(check(&vec![u32::MAX; 100]).words(), [1, 0, 0]);
}

#[test]
fn half_full_books_are_lawful() {
    let mut rng = Rng::new(SEED + 3);
    for size in sizes() {
        let settings = site(&mut rng, size);
        let book = full_book(&mut rng, &settings, 50);
        assert_eq!(check(&book), Answer::Done(0), "{settings:?}");
    }
}

//! The sites that are measured, and the trial load on them.

use second::machine::Settings;

pub const SEED: u32 = 20_261_115;

fn settings(words: &[u32]) -> Settings {
    Settings::from_words(words).expect("settings in range")
}

/// 9,402,332 words. Of the sites that are measured none has early times.
pub fn largest() -> Settings {
    second::gen::sites::largest(0)
}

/// The medium site, of so many dates.
pub fn medium(dates: u32) -> Settings {
    settings(&[dates, 4, 24, 200, 40, 12, 4, 100, 30, 0, 60, 60, 60, 60])
}

/// A site whose book fits the line program.
pub fn small() -> Settings {
    settings(&[7, 4, 8, 60, 20, 6, 2, 40, 10, 0, 60, 60])
}

/// So many requests of one kind out of the load, as a list.
pub fn of_kind(settings: &Settings, kind: u32, count: usize) -> Vec<u32> {
    let all = load(settings, 21 * count + 2000);
    let list: Vec<u32> = all.into_iter().filter(|request| request[0] == kind).take(count).flatten().collect();
    assert_eq!(list.len(), 7 * count, "the load has enough of kind {kind}");
    list
}

/// The trial load of request F-12's recipe for a site: requests of all kinds that pass 3 to 7.
pub fn load(settings: &Settings, count: usize) -> Vec<[u32; 7]> {
    let site = plain::Site::new(&settings.words()).expect("settings in range");
    let requests = plain::traffic::traffic(&site, SEED, count);
    requests.iter().map(|r| [r.kind, r.a, r.b, r.first, r.last, r.n, r.info]).collect()
}

//! The tables, in Markdown: ratios first, the aims beside them.
use crate::crowd::{Run, Runs};
use crate::desk::Figures;
use crate::measure::{Results, Snapshots, COUNTS, DEPTH, MANY, ONE, SOME};
use crate::series::{Series, Unit};

fn row(cells: &[String]) {
    println!("| {} |", cells.join(" | "));
}

fn head(cells: &[&str]) {
    println!("\n| {} |\n|{}", cells.join(" | "), "---|".repeat(cells.len()));
}

/// Requests a second, p50 and p99.
fn speed(runs: &Runs, clients: u32) -> String {
    let p50 = runs.series(clients, |run| run.p50).say(Unit::Milliseconds);
    let p99 = runs.series(clients, |run| run.p99).say(Unit::Milliseconds);
    format!("{}; {p50}; {p99}", runs.per_second(clients).say(Unit::Number))
}

pub fn print(results: &Results) {
    one_at_a_time(results);
    other_lines(results);
    head(&["ratio", "aim", "of what", "figures"]);
    batches(results);
    checks(results);
    replay(results);
    over_postgres(results);
}

fn one_at_a_time(results: &Results) {
    head(&[
        "clients",
        "desk, medium / SQLite",
        "/ PostgreSQL",
        "no check / SQLite",
        "aim",
        "desk, medium: /s; p50; p99",
        "desk, largest",
        "no check",
        "SQLite",
        "PostgreSQL",
    ]);
    let aims = ["0.3 of SQLite, 0.8 without check", "1.5 of SQLite, 4 without", "5 of SQLite, 10 without"];
    for (clients, aim) in COUNTS.into_iter().zip(aims) {
        let over =
            |runs: &Runs, others: &Runs| runs.per_second(clients).over(&others.per_second(clients)).say(Unit::Ratio);
        row(&[
            clients.to_string(),
            over(&results.medium, &results.sqlite),
            over(&results.medium, &results.postgres),
            over(&results.tiny, &results.sqlite),
            aim.into(),
            speed(&results.medium, clients),
            speed(&results.largest, clients),
            speed(&results.tiny, clients),
            speed(&results.sqlite, clients),
            speed(&results.postgres, clients),
        ]);
    }
}

fn other_lines(results: &Results) {
    head(&["/ one booking at a time", "what", "/s; p50; p99"]);
    let deep = |site| format!("{MANY} clients with {DEPTH} lines each at a time, {site}");
    let rows = [
        (&results.deep_medium, &results.medium, MANY, deep("medium")),
        (&results.deep_largest, &results.largest, MANY, deep("largest")),
        (&results.orders, &results.medium, SOME, format!("{SOME} clients with orders, medium")),
        (&results.asks, &results.medium, SOME, format!("{SOME} clients that ask, medium")),
    ];
    for (runs, plain, clients, what) in rows {
        let ratio = runs.per_second(clients).over(&plain.per_second(clients)).say(Unit::Ratio);
        row(&[ratio, what, speed(runs, clients)]);
    }
}

fn plural(clients: u32) -> String {
    format!("{clients} client{}", if clients == 1 { "" } else { "s" })
}

/// What of a batch is neither check nor sync.
fn batches(results: &Results) {
    for (clients, aim) in [(ONE, "0.1"), (MANY, "0.65")] {
        let of = |value: &dyn Fn(&Figures) -> f64| results.medium.series(clients, |run| value(&run.figures));
        let (sync, batch) = (of(&|figures| figures.sync), of(&Figures::batch));
        let check = results.medium.series(clients, |run| run.check);
        let rest = batch.less(&sync).less(&check);
        let figures = format!(
            "a batch {}: check {}, sync {}, the rest {} (of it sending {}); between batches {}; lines a batch {}",
            batch.say(Unit::Microseconds),
            check.say(Unit::Microseconds),
            sync.say(Unit::Microseconds),
            rest.say(Unit::Microseconds),
            of(&|figures| figures.send).say(Unit::Microseconds),
            of(&|figures| figures.idle).say(Unit::Microseconds),
            of(&|figures| figures.lines).say(Unit::Number)
        );
        let what = format!("of a batch what is neither check nor sync, {}, medium", plural(clients));
        row(&[rest.over(&batch).say(Unit::Ratio), aim.into(), what, figures]);
    }
}

/// Waiting on the largest site, in checks of its book.
fn checks(results: &Results) {
    let in_checks = |value: &Series, check: &Series, aim: &str, what: String, more: String| {
        let figures = format!("{}; check {}{more}", value.say(Unit::Milliseconds), check.say(Unit::Milliseconds));
        row(&[value.over(check).say(Unit::Ratio), aim.into(), what, figures]);
    };
    for clients in COUNTS {
        let of = |value: fn(&Run) -> f64| results.largest.series(clients, value);
        let what = format!("p50 / one check, {}, largest", plural(clients));
        in_checks(&of(|run| run.p50), &of(|run| run.check), "1.5", what, String::new());
    }
    let Snapshots { waited, on_disk, longest, check } = &results.snapshots;
    let longest = format!("; the longest wait of a client {}", longest.say(Unit::Milliseconds));
    in_checks(waited, check, "4", "snapshot: answers waited / one check, largest".into(), longest);
    in_checks(on_disk, check, "12", "snapshot: on disk / one check, largest".into(), String::new());
}

fn replay(results: &Results) {
    let (medium, largest) = (&results.replay_medium, &results.replay_largest);
    let rows = [
        (medium, &medium.desk, "1.3", "replay / the same list in memory, medium"),
        (largest, &largest.desk, "1.3", "replay / the same list in memory, largest"),
        // On the largest site the reading of the snapshot is so much longer that the difference is lost in it.
        (medium, &medium.start, "", "the same with reading the journal, medium"),
    ];
    for (replays, time, aim, what) in rows {
        let memory = &replays.memory;
        let figures = format!("{} a change; in memory {}", time.say(Unit::Nanoseconds), memory.say(Unit::Nanoseconds));
        row(&[time.over(memory).say(Unit::Ratio), aim.into(), what.into(), figures]);
    }
}

fn over_postgres(results: &Results) {
    for clients in [ONE, MANY] {
        let store = |runs: &Runs| runs.series(clients, |run| run.figures.store);
        let (table, files) = (store(&results.over_postgres), store(&results.medium));
        let figures = match table.0.len() {
            0 => "not measured: no server, or a desk without `--features pg`".into(),
            _ => format!(
                "{} a batch; in files {}; bookings: {}",
                table.say(Unit::Microseconds),
                files.say(Unit::Microseconds),
                speed(&results.over_postgres, clients)
            ),
        };
        let what = format!("store over PostgreSQL / in files, {}, medium", plural(clients));
        row(&[table.over(&files).say(Unit::Ratio), "2".into(), what, figures]);
    }
}

//! The desk beside SQLite and PostgreSQL, in one run on one machine: tables in Markdown. `bench/desk/run` builds what is needed and
//! runs this. Every booking must be accepted and every answer right, else the run fails; nothing is asserted about time.
mod crowd;
mod desk;
mod lines;
mod measure;
mod options;
mod others;
#[cfg(feature = "pg")]
mod postgres;
mod replay;
mod series;
mod sites;
#[cfg(feature = "sqlite")]
mod sqlite;
mod tables;

fn main() {
    let options = options::Options::read(std::env::args().skip(1)).unwrap_or_else(|why| {
        eprintln!("bench-desk: {why}");
        std::process::exit(2);
    });
    let passes = options.passes;
    let mut bench = measure::Bench::new(options);
    for pass in 1..=passes {
        eprintln!("pass {pass} of {passes}");
        bench.pass();
    }
    tables::print(&bench.results);
}

//! What `bench/desk/run` hands over.
use std::path::PathBuf;
use std::str::FromStr;

pub struct Options {
    /// The program `desk`.
    pub desk: PathBuf,
    /// Where everything is kept that goes to disk.
    pub folder: PathBuf,
    /// Of a run.
    pub seconds: f64,
    pub passes: u32,
    /// The connection to a PostgreSQL server.
    pub pg: Option<String>,
    /// The desk can keep its journal there.
    pub desk_pg: bool,
}

fn value<T: FromStr>(name: &str, words: &mut impl Iterator<Item = String>) -> Result<T, String> {
    let word = words.next().ok_or_else(|| format!("{name} wants a value"))?;
    word.parse().map_err(|_| format!("{name} cannot be {word}"))
}

impl Options {
    pub fn read(mut words: impl Iterator<Item = String>) -> Result<Options, String> {
        let (desk, folder) = (PathBuf::new(), PathBuf::new());
        let mut options = Options { desk, folder, seconds: 3.0, passes: 3, pg: None, desk_pg: false };
        while let Some(word) = words.next() {
            match word.as_str() {
                "--desk" => options.desk = value("--desk", &mut words)?,
                "--folder" => options.folder = value("--folder", &mut words)?,
                "--seconds" => options.seconds = value("--seconds", &mut words)?,
                "--passes" => options.passes = value("--passes", &mut words)?,
                "--pg" => options.pg = Some(value("--pg", &mut words)?),
                "--desk-pg" => options.desk_pg = true,
                other => return Err(format!("there is no option {other}")),
            }
        }
        if !(0.05..=600.0).contains(&options.seconds) || !(1..=100).contains(&options.passes) {
            return Err("--seconds is 0.05 to 600, --passes 1 to 100".into());
        }
        Ok(options)
    }
}

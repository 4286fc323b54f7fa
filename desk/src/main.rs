//! The command `desk`. docs/DESK.md says what each of its commands does.
use desk::folder::{audit, load, make, Folder, Want};
use desk::serve::{serve, Options};
use desk::words::{bytes_of, words_of};
use desk::{look, show};
use desk::{stop, system, Outcome, USAGE};
use std::io::{BufRead, Read, Write};
use std::net::SocketAddr;
use std::path::Path;
use std::str::FromStr;
use std::time::Duration;

const HELP: &str = "\
desk: a site's booking book on disk, for many clients (docs/DESK.md)

  desk init DIR               makes a site; its settings line is the first of standard input
  desk import DIR             makes a site from the words of a book on standard input
  desk serve DIR              serves it at DIR/sock until SIGTERM; SIGUSR1 takes a snapshot
      --tcp 127.0.0.1:PORT      at a loopback address as well; port 0 takes a free one and says which
      --clients N               at most so many clients (256)
      --every N                 a snapshot after so many kept calls (4000000)
      --patience SECONDS        with a client that takes no answers (30)
      --accept-loss SEQ         goes on with the first SEQ calls where the files are damaged behind them
      --pg CONNECTION           keeps the journal in PostgreSQL (built with --features pg)
      --figures                 says at the end where the time went
  desk send DIR               sends lines of standard input to its desk, prints the answers
  desk check DIR              reads everything as a start would, and changes nothing
  desk audit DIR              compares the newest snapshot with the whole journal, word by word
  desk replay DIR --to SEQ    writes the words of the book after so many kept calls
  desk show DIR --date N      prints the page of a date
  desk look DIR --from N --to M    draws the book on these dates, as one HTML page

Status: 0 done, 2 wrong command line or input, 3 files contradict each other, 4 another desk has the site,
5 the system refused a read or a write, 6 the book in memory is refused.
";

fn usage<T>(why: &str) -> Outcome<T> {
    stop(USAGE, format!("{why}; `desk --help` says what there is"))
}

fn parsed<T: FromStr>(option: &str, value: Option<&String>) -> Outcome<T> {
    match value.map(|text| text.parse()) {
        Some(Ok(value)) => Ok(value),
        Some(Err(_)) => usage(&format!("{option} has a value that it cannot have")),
        None => usage(&format!("{option} wants a value")),
    }
}

/// The values of these options, each given once, and nothing else.
fn values<T: FromStr, const COUNT: usize>(names: [&str; COUNT], rest: &[String]) -> Outcome<[T; COUNT]> {
    if rest.len() != 2 * COUNT {
        return usage(&format!("wanted here: {}", names.map(|name| format!("{name} N")).join(" ")));
    }
    let mut found = Vec::new();
    for name in names {
        let at = rest.iter().step_by(2).position(|option| option == name);
        let value = at.and_then(|at| rest.get(2 * at + 1));
        found.push(parsed(name, value)?);
    }
    found.try_into().or_else(|_| usage("options are missing"))
}

fn serve_options(folder: &Path, rest: &[String]) -> Outcome<Options> {
    let mut options = Options {
        folder: folder.into(),
        tcp: None,
        pg: None,
        clients: 256,
        every: 4_000_000,
        patience: Duration::from_secs(30),
        accept_loss: None,
        figures: false,
    };
    let mut rest = rest.iter();
    while let Some(option) = rest.next() {
        match option.as_str() {
            "--tcp" => options.tcp = Some(loopback(parsed("--tcp", rest.next())?)?),
            "--pg" => options.pg = Some(parsed("--pg", rest.next())?),
            "--clients" => options.clients = clients(parsed("--clients", rest.next())?)?,
            "--every" => options.every = parsed("--every", rest.next())?,
            "--patience" => options.patience = Duration::from_secs(parsed("--patience", rest.next())?),
            "--accept-loss" => options.accept_loss = Some(parsed("--accept-loss", rest.next())?),
            "--figures" => options.figures = true,
            other => return usage(&format!("serve has no option {other}")),
        }
    }
    Ok(options)
}

/// Each has a descriptor, and their lines together are one record.
fn clients(count: usize) -> Outcome<usize> {
    match count {
        1..=1_000 => Ok(count),
        _ => usage("--clients is from 1 to 1000"),
    }
}

fn loopback(address: SocketAddr) -> Outcome<SocketAddr> {
    if address.ip().is_loopback() {
        Ok(address)
    } else {
        usage(&format!("{address} is no loopback address: let a tunnel bring in who is elsewhere"))
    }
}

/// The words of the first line of standard input.
fn settings() -> Outcome<Vec<u32>> {
    let mut line = Vec::new();
    system("reading the settings", std::io::stdin().lock().take(4096).read_until(b'\n', &mut line))?;
    let digits = line.strip_suffix(b"\n").unwrap_or(&line);
    let (eights, rest) = digits.as_chunks::<8>();
    match eights.iter().map(desk::line::word).collect() {
        Some(words) if rest.is_empty() => Ok(words),
        _ => usage("the first line of standard input is no settings line (`tools/caviar frame` writes one)"),
    }
}

fn init(folder: &Folder) -> Outcome<()> {
    let settings = settings()?;
    let mut book = vec![0; caviar::book_len(&settings)];
    match caviar::lay(&settings, &mut book).number {
        0 => make(folder, book),
        number => usage(&format!("the settings are refused by question {number}")),
    }
}

fn import(folder: &Folder) -> Outcome<()> {
    let mut bytes = Vec::new();
    let most = caviar::MOST_WORDS as u64 * 4 + 1;
    system("reading a book", std::io::stdin().lock().take(most).read_to_end(&mut bytes))?;
    if bytes.len() % 4 != 0 {
        return usage("standard input is no list of words of four bytes");
    }
    make(folder, words_of(&bytes).collect())
}

fn check(folder: &Folder) -> Outcome<()> {
    let found = load(folder, Want::default())?;
    let mut said: String = found.notes.iter().map(|note| format!("note: {note}\n")).collect();
    said += &format!(
        "good: {} calls kept, {} of them done again behind the snapshot in {:.3} s, {} words\n",
        found.site.place.seq,
        found.replayed,
        found.seconds,
        found.site.book.len()
    );
    write(said.as_bytes())
}

fn write(bytes: &[u8]) -> Outcome<()> {
    let mut out = std::io::stdout().lock();
    system("writing", out.write_all(bytes).and_then(|()| out.flush()))
}

/// The book as it is now, for people.
fn page(folder: &Folder, page: impl Fn(&[u32]) -> Result<String, String>) -> Outcome<()> {
    let found = load(folder, Want::default())?;
    found.notes.iter().for_each(|note| complain(&format!("note: {note}")));
    match page(&found.site.book) {
        Ok(page) => write(page.as_bytes()),
        Err(why) => stop(USAGE, why),
    }
}

fn run(args: &[String]) -> Outcome<()> {
    let (command, path, rest) = match args {
        [help] if help == "--help" || help == "help" => return write(HELP.as_bytes()),
        [command, folder, rest @ ..] => (command.as_str(), Path::new(folder), rest),
        _ => return usage("a command and a folder are wanted"),
    };
    let folder = Folder::new(path);
    let made = ["init", "import"].contains(&command);
    if !made && !folder.exists() {
        return usage(&format!("there is no folder {}", path.display()));
    }
    match command {
        "serve" => return serve(&serve_options(path, rest)?),
        "replay" => {
            let [to] = values(["--to"], rest)?;
            return write(bytes_of(&load(&folder, Want { to: Some(to), ..Want::default() })?.site.book));
        }
        "show" => {
            let [date] = values(["--date"], rest)?;
            return page(&folder, |book| show::page(book, date));
        }
        "look" => {
            let [from, to] = values(["--from", "--to"], rest)?;
            return page(&folder, |book| look::page(book, from, to));
        }
        _ => {}
    }
    let [] = values::<u64, 0>([], rest)?;
    match command {
        "init" => init(&folder),
        "import" => import(&folder),
        "send" => desk::send::send(path),
        "check" => check(&folder),
        "audit" => {
            let seq = audit(&folder)?;
            write(format!("good: the snapshot of {seq} calls is what the journal gives, word by word\n").as_bytes())
        }
        _ => usage(&format!("there is no command {command}")),
    }
}

/// On standard error; where that is full or closed, the status says it alone.
fn complain(why: &str) {
    let _ = writeln!(std::io::stderr(), "desk: {why}");
}

fn main() {
    let args: Vec<String> = std::env::args().skip(1).collect();
    if let Err(stop) = run(&args) {
        complain(&stop.why);
        std::process::exit(stop.code);
    }
}

//! Desks as processes: made from a book, started, watched, ended, killed; and what they say of themselves.
use crate::sites::Site;
use std::io::{BufRead, BufReader, Write};
use std::path::{Path, PathBuf};
use std::process::{Child, Command, Output, Stdio};
use std::sync::mpsc::{channel, Receiver};
use std::time::{Duration, Instant};

/// No start, snapshot or end takes so long.
const PATIENCE: Duration = Duration::from_secs(60);

extern "C" {
    fn kill(process: i32, signal: i32) -> i32;
}

const SIGUSR1: i32 = 10;
const SIGTERM: i32 = 15;

/// Seconds a batch, as `serve --figures` says them.
#[derive(Clone, Copy, Default)]
pub struct Figures {
    pub engine: f64,
    pub store: f64,
    /// Of storing, what went into waiting for the disk.
    pub sync: f64,
    pub send: f64,
    pub read: f64,
    pub idle: f64,
    pub lines: f64,
}

impl Figures {
    fn read(line: &str) -> Figures {
        let time = |name| number_behind(line, name) * 1e-6;
        Figures {
            engine: time("engine"),
            store: time("store"),
            sync: time("sync"),
            send: time("send"),
            read: time("read"),
            idle: time("idle"),
            lines: number_behind(line, "lines") / number_behind(line, "batches"),
        }
    }

    /// A batch, but for the waiting between batches.
    pub fn batch(&self) -> f64 {
        self.engine + self.store + self.send + self.read
    }
}

/// The number that stands behind a word.
fn number_behind(line: &str, word: &str) -> f64 {
    let number = line.split_whitespace().skip_while(|each| *each != word).nth(1).and_then(|word| word.parse().ok());
    number.unwrap_or_else(|| panic!("no number behind `{word}` in: {line}"))
}

/// The folder of a site, and the program that serves it.
pub struct Folder {
    program: PathBuf,
    pub path: PathBuf,
}

impl Folder {
    /// Makes the site.
    pub fn import(program: &Path, path: PathBuf, site: &Site) -> Folder {
        let mut child = Command::new(program)
            .arg("import")
            .arg(&path)
            .stdin(Stdio::piped())
            .spawn()
            .unwrap_or_else(|error| panic!("{}: {error}", program.display()));
        let bytes: Vec<u8> = site.book.iter().flat_map(|word| word.to_le_bytes()).collect();
        child.stdin.take().expect("a pipe").write_all(&bytes).expect("desk import reads");
        assert!(child.wait().expect("a child").success(), "desk import has failed");
        Folder { program: program.into(), path }
    }

    /// Reads the site as a start would, so many times; the least times count.
    pub fn check(&self, turns: usize) -> Checked {
        let mut checked = self.checked();
        for _ in 1..turns {
            let next = self.checked();
            checked.seconds = checked.seconds.min(next.seconds);
            checked.whole = checked.whole.min(next.whole);
        }
        checked
    }

    fn checked(&self) -> Checked {
        let start = Instant::now();
        let Output { status, stdout, .. } = self.command("check").output().expect("a child");
        let whole = start.elapsed().as_secs_f64();
        let said = String::from_utf8_lossy(&stdout);
        assert!(status.success(), "desk check has failed: {said}");
        let good = said.lines().find(|line| line.starts_with("good:")).expect("desk check says that the site is good");
        let kept = number_behind(good, "good:") as u64;
        Checked { kept, again: number_behind(good, "kept,"), seconds: number_behind(good, "in"), whole }
    }

    pub fn serve(&self, options: &[&str]) -> Desk {
        let mut child =
            self.command("serve").arg("--figures").args(options).stdout(Stdio::piped()).spawn().expect("a child");
        let (sender, said) = channel();
        let lines = BufReader::new(child.stdout.take().expect("a pipe")).lines();
        std::thread::spawn(move || lines.map_while(Result::ok).try_for_each(|line| sender.send(line)));
        let mut desk = Desk { child, said, kept: 0 };
        desk.kept = number_behind(&desk.hear("ready:"), "ready:") as u64;
        desk.hear("listening");
        desk
    }

    fn command(&self, name: &str) -> Command {
        let mut command = Command::new(&self.program);
        command.arg(name).arg(&self.path);
        command
    }
}

/// What `desk check` says.
pub struct Checked {
    /// How many calls the site keeps.
    pub kept: u64,
    /// How many of them were done again behind the snapshot, and in how many seconds.
    pub again: f64,
    pub seconds: f64,
    /// Seconds of all, the reading of the files included.
    pub whole: f64,
}

/// A desk that serves.
pub struct Desk {
    child: Child,
    said: Receiver<String>,
    /// How many calls it kept when it started.
    pub kept: u64,
}

impl Desk {
    /// The next line that has these words.
    fn hear(&self, words: &str) -> String {
        let end = Instant::now() + PATIENCE;
        while let Ok(line) = self.said.recv_timeout(end.saturating_duration_since(Instant::now())) {
            if line.contains(words) {
                return line;
            }
        }
        panic!("the desk has ended, or has said nothing of `{words}` for {} s", PATIENCE.as_secs())
    }

    fn signal(&self, signal: i32) {
        // SAFETY: the process is a child that was not waited for, so the number is its own.
        assert_eq!(unsafe { kill(self.child.id() as i32, signal) }, 0, "the desk is there");
    }

    /// Takes a snapshot while it serves: the seconds that answers waited, and after which it was on disk.
    pub fn snapshot(&self) -> (f64, f64) {
        self.signal(SIGUSR1);
        let waited = number_behind(&self.hear("answers waited"), "waited") * 1e-3;
        (waited, number_behind(&self.hear("on disk after"), "after") * 1e-3)
    }

    /// Ends it. It must have kept just so many calls since it was started.
    pub fn end(mut self, accepted: u64) -> Figures {
        self.signal(SIGTERM);
        let kept = number_behind(&self.hear("ended behind"), "call") as u64;
        assert_eq!(kept - self.kept, accepted, "calls kept, and bookings accepted");
        let figures = Figures::read(&self.hear("figures:"));
        assert!(self.child.wait().expect("a child").success(), "the desk has ended in failure");
        figures
    }

    /// Kills it, as dropping does.
    pub fn kill(self) {}
}

/// A desk never outlives the bench.
impl Drop for Desk {
    fn drop(&mut self) {
        let _ = self.child.kill();
        let _ = self.child.wait();
    }
}

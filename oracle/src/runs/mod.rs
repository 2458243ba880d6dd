//! The comparison at scale: makes runs of the crate's machine and writes them as records, and the lines that `bench`
//! must write for them. `runs` writes a span of runs, `sample` a small fixed choice of them, `show` one record.

mod account;
mod calls;
mod coverage;
mod dice;
mod known;
mod lines;
mod opening;
mod pad;
mod play;
mod sample;
mod show;
mod twin;

use std::collections::BTreeMap;
use std::fs::File;
use std::io::{self, BufWriter, Write};
use std::process::ExitCode;

use coverage::Coverage;
use play::{Entry, Run};

pub use sample::run as sample;
pub use show::run as show;

/// Where the crate did otherwise on a marked call than the list says.
const UNLIKE: u8 = 4;

/// `--name value` pairs.
struct Options(BTreeMap<String, String>);

impl Options {
    fn read() -> Self {
        let words: Vec<String> = std::env::args().skip(2).collect();
        let pair = |pair: &[String]| (pair[0].clone(), pair.get(1).cloned().unwrap_or_default());
        Self(words.chunks(2).map(pair).collect())
    }

    fn number(&self, name: &str, default: u64) -> u64 {
        let given = self.0.get(name);
        given.map_or(default, |n| n.parse().expect("a number"))
    }

    fn text(&self, name: &str) -> &str {
        self.0.get(name).expect("an option is missing")
    }

    fn file(&self, name: &str) -> io::Result<BufWriter<File>> {
        File::create(self.text(name)).map(BufWriter::new)
    }
}

/// Writes runs `--from` on, `--runs` of them, into the files `--calls`, `--lines`, `--marks` and `--counts`.
pub fn run() -> ExitCode {
    quiet();
    let options = Options::read();
    let (seed, from) = (options.number("--seed", 1), options.number("--from", 0));
    let written = Books::open(&options).and_then(|mut books| {
        for number in from..from + options.number("--runs", 2500) {
            books.add(seed, number)?;
        }
        books.close(&mut options.file("--counts")?)
    });
    match written {
        Ok(0) => ExitCode::SUCCESS,
        Ok(_) => ExitCode::from(UNLIKE),
        Err(error) => {
            eprintln!("oracle: {error}");
            ExitCode::FAILURE
        }
    }
}

/// A stop of the crate is an answer here, not a fault to report.
fn quiet() {
    std::panic::set_hook(Box::new(|stop| {
        if stop.location().is_some_and(|l| l.file().contains("/runs/")) {
            eprintln!("oracle: {stop}");
        }
    }));
}

struct Books {
    calls: BufWriter<File>,
    lines: BufWriter<File>,
    marks: BufWriter<File>,
    coverage: Coverage,
    /// By tag: the marked records, and how many of them were tried on the crate.
    tags: BTreeMap<&'static str, (u64, u64)>,
    runs: u64,
    records: u64,
    /// Commands and events.
    calls_made: u64,
    /// Those of them whose line is the crate's own answer.
    own: u64,
    unlike: Vec<String>,
}

impl Books {
    fn open(options: &Options) -> io::Result<Self> {
        Ok(Self {
            calls: options.file("--calls")?,
            lines: options.file("--lines")?,
            marks: options.file("--marks")?,
            coverage: Coverage::default(),
            tags: BTreeMap::new(),
            runs: 0,
            records: 0,
            calls_made: 0,
            own: 0,
            unlike: vec![],
        })
    }

    fn add(&mut self, seed: u64, number: u64) -> io::Result<()> {
        let run = Run::play(seed, number, &mut self.coverage);
        let (entries, unlike) = (run.entries, run.unlike);
        self.runs += 1;
        self.unlike
            .extend(unlike.iter().map(|u| format!("run {number}: {u}")));
        for entry in &entries {
            self.write(entry, number)?;
        }
        Ok(())
    }

    fn write(&mut self, entry: &Entry, run: u64) -> io::Result<()> {
        self.records += 1;
        if entry.line.starts_with("command") || entry.line.starts_with("event") {
            self.calls_made += 1;
            self.own += u64::from(entry.tag.is_none());
        }
        self.calls.write_all(&entry.record)?;
        writeln!(self.lines, "{} {}", self.records, entry.line)?;
        if let Some(tag) = entry.tag {
            let counts = self.tags.entry(tag).or_default();
            counts.0 += 1;
            counts.1 += u64::from(entry.tried);
            writeln!(self.marks, "{} {tag} run {run}", self.records)?;
        }
        Ok(())
    }

    /// Writes the counts, and gives how many marked calls the crate answered otherwise than the list says.
    fn close(mut self, out: &mut impl Write) -> io::Result<usize> {
        self.calls.flush()?;
        self.lines.flush()?;
        self.marks.flush()?;
        writeln!(out, "runs {}", self.runs)?;
        writeln!(out, "records {}", self.records)?;
        writeln!(out, "calls {}", self.calls_made)?;
        writeln!(out, "own {}", self.own)?;
        for tag in known::TAGS {
            let (count, tried) = self.tags.get(tag).unwrap_or(&(0, 0));
            writeln!(out, "tag {tag} {count} {tried}")?;
        }
        self.coverage.write(out)?;
        for unlike in &self.unlike {
            writeln!(out, "unlike {unlike}")?;
        }
        out.flush()?;
        Ok(self.unlike.len())
    }
}

//! Chooses a small sample of runs that meets as much as it can, for a test that has no Rust at hand.

use std::collections::BTreeSet;
use std::io::{self, Write};
use std::process::ExitCode;

use crate::runs::coverage::Coverage;
use crate::runs::play::{Entry, Run};
use crate::runs::{quiet, Options};

/// Records in the sample, about.
const RECORDS: usize = 600;

/// What a run costs beside its records: few long runs are easier to read than many short ones.
const SETTING_UP: usize = 40;

const METHODS: [&str; 6] = [
    "JustWorks",
    "NumericComparison",
    "OutOfBand",
    "PassKeyEntry:CentralDisplays",
    "PassKeyEntry:PeripheralDisplays",
    "PassKeyEntry:BothInput",
];

struct Candidate {
    entries: Vec<Entry>,
    /// What the run shows, each as a word.
    shows: BTreeSet<String>,
}

/// `--seed S --runs N --calls FILE --lines FILE`: of the first N runs, for each method one that ends in a stored bond; then
/// that which shows most for its length, again and again.
pub fn run() -> ExitCode {
    quiet();
    let options = Options::read();
    let seed = options.number("--seed", 1);
    let runs = options.number("--runs", 2500);
    let mut candidates: Vec<Candidate> = (0..runs).map(|number| candidate(seed, number)).collect();
    let mut chosen: Vec<Candidate> = vec![];
    for method in METHODS {
        let stored = format!("stored method={method}");
        if let Some(at) = candidates.iter().position(|c| c.shows.contains(&stored)) {
            chosen.push(candidates.swap_remove(at));
        }
    }
    fill(&mut chosen, &mut candidates);
    match write(&chosen, &options) {
        Ok(records) => {
            println!("{} runs, {records} records", chosen.len());
            ExitCode::SUCCESS
        }
        Err(error) => {
            eprintln!("oracle: {error}");
            ExitCode::FAILURE
        }
    }
}

fn fill(chosen: &mut Vec<Candidate>, candidates: &mut Vec<Candidate>) {
    let mut shown: BTreeSet<String> = chosen.iter().flat_map(|c| c.shows.clone()).collect();
    while chosen.iter().map(|run| run.entries.len()).sum::<usize>() < RECORDS {
        let worth = |run: &Candidate| {
            let new = run.shows.difference(&shown).count();
            new * 1000 / (run.entries.len() + SETTING_UP)
        };
        let Some(best) = (0..candidates.len()).max_by_key(|at| worth(&candidates[*at])) else {
            break;
        };
        let best = candidates.swap_remove(best);
        shown.extend(best.shows.iter().cloned());
        chosen.push(best);
    }
}

fn candidate(seed: u64, number: u64) -> Candidate {
    let mut coverage = Coverage::default();
    let entries = Run::play(seed, number, &mut coverage).entries;
    let mut shows = BTreeSet::new();
    for entry in &entries {
        let part = |name: &str| {
            let word = entry.line.split(' ').find(|word| word.starts_with(name));
            word.unwrap_or(name).to_string()
        };
        let frames = part("frames=").split(',').count();
        shows.insert(format!("{} {}", part("answer="), part("method=")));
        shows.insert(format!(
            "{} {} {}",
            part("state="),
            part("held="),
            part("method=")
        ));
        shows.insert(format!("{} {}", part("round="), part("state=")));
        shows.insert(format!("frames {frames} {}", part("level=")));
        if part("action=").starts_with("action=StoreBond") {
            shows.insert(format!("stored {}", part("method=")));
        }
        shows.extend(entry.tag.map(String::from));
        shows.extend(entry.tag.map(|tag| format!("{tag} {}", part("answer="))));
    }
    let met = coverage.met.keys();
    shows.extend(met.map(|(state, input)| format!("{state} {input}")));
    Candidate { entries, shows }
}

fn write(chosen: &[Candidate], options: &Options) -> io::Result<usize> {
    let mut calls = options.file("--calls")?;
    let mut lines = options.file("--lines")?;
    let mut records = 0;
    for entry in chosen.iter().flat_map(|run| &run.entries) {
        records += 1;
        calls.write_all(&entry.record)?;
        writeln!(lines, "{records} {}", entry.line)?;
    }
    calls.flush()?;
    lines.flush()?;
    Ok(records)
}

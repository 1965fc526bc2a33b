//! Compares and times the implementations on the workloads of a folder.
//!
//! harness FOLDER [--repetitions N] [--millis N] [--tsv FILE]
//!     compares all answers byte by byte (a difference ends it with status 1), then times, and prints a Markdown table
//! harness FOLDER --count IMPLEMENTATION WORKLOAD RUNS
//!     runs one implementation on one workload so many times and prints nothing: for an instruction counter

mod cpu_clock;
mod implementation;
mod timing;
mod workload;

use implementation::Implementation;
use std::env;
use std::fmt::Write;
use std::fs;
use std::path::PathBuf;
use std::process::ExitCode;
use std::time::Duration;
use timing::{measure, repeat, Effort, Times};
use workload::Workload;

const USAGE: &str = "usage: harness FOLDER [--repetitions N] [--millis N] [--tsv FILE]
       harness FOLDER --count IMPLEMENTATION WORKLOAD RUNS";

fn main() -> ExitCode {
    match Options::read().and_then(Options::carry_out) {
        Ok(()) => ExitCode::SUCCESS,
        Err(message) => {
            eprintln!("harness: {message}");
            ExitCode::FAILURE
        }
    }
}

struct Options {
    folder: PathBuf,
    effort: Effort,
    tsv: Option<PathBuf>,
    count: Option<(Implementation, String, u32)>,
}

impl Options {
    fn read() -> Result<Options, String> {
        let mut arguments = env::args().skip(1);
        let mut next = || arguments.next().ok_or(USAGE.to_string());
        let mut options = Options {
            folder: next()?.into(),
            effort: Effort { repetitions: 15, least: Duration::from_millis(10) },
            tsv: None,
            count: None,
        };
        while let Ok(option) = next() {
            match option.as_str() {
                "--repetitions" => options.effort.repetitions = number(&next()?)?.max(1) as usize,
                "--millis" => options.effort.least = Duration::from_millis(number(&next()?)?.into()),
                "--tsv" => options.tsv = Some(next()?.into()),
                "--count" => {
                    let name = next()?;
                    let one = Implementation::named(&name).ok_or(format!("no implementation {name} in this build"))?;
                    options.count = Some((one, next()?, number(&next()?)?));
                }
                _ => return Err(USAGE.to_string()),
            }
        }
        Ok(options)
    }

    fn carry_out(self) -> Result<(), String> {
        if let Some((implementation, name, runs)) = &self.count {
            let workload = Workload::read_named(&self.folder, name)?;
            repeat(&workload, *implementation, *runs, &mut workload.room());
            return Ok(());
        }
        let workloads = Workload::read_all(&self.folder)?;
        let refused = workloads.iter().map(Workload::compare).collect::<Result<Vec<_>, _>>()?;
        let verdict = if Implementation::ALL.len() > 1 { "all answers agree" } else { "nothing to compare with" };
        eprintln!("harness: {} workloads, {verdict}", workloads.len());
        let rows: Vec<Row> = workloads
            .iter()
            .zip(refused)
            .map(|(workload, refused)| Row::measure(workload, refused, self.effort))
            .collect();
        print!("{}", table(&rows));
        println!("\n{}", noise(&workloads, self.effort)?);
        match &self.tsv {
            Some(path) => fs::write(path, tsv(&rows)).map_err(|error| format!("{}: {error}", path.display())),
            None => Ok(()),
        }
    }
}

fn number(text: &str) -> Result<u32, String> {
    text.parse().map_err(|_| format!("not a number: {text}"))
}

struct Row<'a> {
    workload: &'a Workload,
    refused: usize,
    /// In the order of `Implementation::ALL`.
    times: Vec<Times>,
}

impl<'a> Row<'a> {
    fn measure(workload: &'a Workload, refused: usize, effort: Effort) -> Row<'a> {
        Row { workload, refused, times: measure(workload, Implementation::ALL, effort) }
    }
}

/// Workload, events, share of refusals; for each implementation the median and the spread; the ratio to the plain one.
fn table(rows: &[Row]) -> String {
    let mut text = String::from("| workload | events | refused |");
    for one in Implementation::ALL {
        let _ = write!(text, " {} ns/event | spread |", one.name());
    }
    text += if Implementation::ALL.len() > 1 { " ratio |\n" } else { "\n" };
    let columns = text.matches('|').count() - 1;
    let _ = writeln!(text, "|---|{}", "---:|".repeat(columns - 1));
    for row in rows {
        let share = 100.0 * row.refused as f64 / row.workload.events.max(1) as f64;
        let _ = write!(text, "| {} | {} | {share:.0} % |", row.workload.name, row.workload.events);
        for times in &row.times {
            let _ = write!(text, " {:.1} | {:.1} % |", times.median(), 100.0 * times.spread());
        }
        for other in &row.times[1..] {
            let _ = write!(text, " {:.2} |", other.median() / row.times[0].median());
        }
        text.push('\n');
    }
    text
}

/// The plain implementation against itself: how far from 1 a ratio gets by chance.
fn noise(workloads: &[Workload], effort: Effort) -> Result<String, String> {
    let mix = workloads.iter().find(|one| one.name == "mix").ok_or("no workload mix")?;
    let times = measure(mix, &[Implementation::Plain; 2], effort);
    let ratio = times[1].median() / times[0].median();
    Ok(format!("Plain against itself on the mix, in the same alternation: ratio {ratio:.3}."))
}

/// The same numbers, and what each workload shows, for further use.
fn tsv(rows: &[Row]) -> String {
    let mut text = String::from("workload\tevents\trefused\twhat");
    for one in Implementation::ALL {
        let name = one.name();
        let _ = write!(text, "\t{name}_median\t{name}_spread\t{name}_least\t{name}_greatest");
    }
    text.push('\n');
    for row in rows {
        let workload = row.workload;
        let _ = write!(text, "{}\t{}\t{}\t{}", workload.name, workload.events, row.refused, workload.what);
        for times in &row.times {
            let _ = write!(
                text,
                "\t{:.3}\t{:.5}\t{:.3}\t{:.3}",
                times.median(),
                times.spread(),
                times.least(),
                times.greatest()
            );
        }
        text.push('\n');
    }
    text
}

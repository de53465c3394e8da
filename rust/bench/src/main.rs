//! `bench [--quick] [--csv FILE]`: times of open, refused open, close, audit and a close that
//! deletes, of libzanthupra.a and of the twin in one run, as medians and ratios; and of the
//! audit over the opens of one stream. With `--csv` also over volumes filled from 0 to 100
//! percent, for the plot.

mod measure;
mod volume;

use measure::{Audited, Effort, Measured, Times, CALLS};
use std::env;
use std::fs;
use std::process::ExitCode;
use volume::{used, Volume};
use zanthupra_twin::layout::OPENS;

const FULL: Effort = Effort { repeats: 25, rounds: 40, passes: 9 };
const QUICK: Effort = Effort { repeats: 5, rounds: 10, passes: 3 };
/// Steps of the fill in percent: of the plot, and of what is printed alone.
const STEP: usize = 5;
const PRINTED_STEP: usize = 25;
/// The audit's panel of the plot, against the opens of one stream.
const ONE_STREAM: &str = "audit, all opens on one stream";

struct Arguments {
    effort: Effort,
    csv: Option<String>,
}

/// The volumes of one run, in the order of their tables and lines.
struct Volumes {
    shown: Vec<(&'static str, Measured)>,
    /// By their fill in percent, the plot's alone.
    filled: Vec<(usize, Measured)>,
    /// By the opens on their one stream, in percent of all there can be.
    crowded: Vec<(usize, Audited)>,
}

fn arguments() -> Option<Arguments> {
    let mut arguments = Arguments { effort: FULL, csv: None };
    let mut words = env::args().skip(1);
    while let Some(word) = words.next() {
        match word.as_str() {
            "--quick" => arguments.effort = QUICK,
            "--csv" => arguments.csv = Some(words.next()?),
            _ => return None,
        }
    }
    Some(arguments)
}

fn opens_at(percent: usize) -> usize {
    OPENS * percent / 100
}

impl Volumes {
    fn new(plotted: bool) -> Self {
        let volumes = [
            ("fresh", Volume::fresh()),
            ("three quarters full", Volume::filled(75)),
            ("full", Volume::filled(100)),
        ];
        let fills = (0..=100).step_by(if plotted { STEP } else { PRINTED_STEP });
        let filled = |percent| (percent, Measured::new(Volume::filled(percent)));
        let crowded = |percent| (percent, Audited::new(Volume::crowded(opens_at(percent))));
        Volumes {
            shown: volumes.map(|(what, volume)| (what, Measured::new(volume))).into(),
            filled: if plotted { fills.clone().map(filled).collect() } else { Vec::new() },
            crowded: fills.map(crowded).collect(),
        }
    }

    /// Passes over all volumes in turn, so that a busy moment of the machine falls on few of
    /// the samples of each.
    fn measure(&mut self, effort: Effort) {
        for (what, measured) in &self.shown {
            let used = used(measured.tables());
            eprintln!(
                "{what}: {} files, {} links, {} streams, {} opens",
                used.files, used.links, used.streams, used.opens
            );
        }
        for pass in 1..=effort.passes {
            eprintln!("pass {pass} of {}", effort.passes);
            self.shown.iter_mut().for_each(|(_, measured)| measured.pass(effort));
            self.filled.iter_mut().for_each(|(_, measured)| measured.pass(effort));
            self.crowded.iter_mut().for_each(|(_, audited)| audited.pass(effort));
        }
    }

    /// The plot's figures.
    fn csv(&self) -> String {
        let mut lines = String::from("fill_percent,call,ours_us,twin_us\n");
        for (percent, measured) in &self.filled {
            let times = measured.medians();
            for (number, call) in CALLS.iter().enumerate() {
                let (ours, twin) = (times.ours[number], times.twin[number]);
                lines += &format!("{percent},{call},{ours:.4},{twin:.4}\n");
            }
        }
        for (percent, audited) in &self.crowded {
            let [ours, twin] = audited.medians();
            lines += &format!("{percent},\"{ONE_STREAM}\",{ours:.4},{twin:.4}\n");
        }
        lines
    }
}

fn print_table(what: &str, times: &Times) {
    println!("{what}");
    println!("  {:<14} {:>9} {:>9} {:>7}", "call", "ours us", "twin us", "ratio");
    for (number, call) in CALLS.iter().enumerate() {
        let (ours, twin) = (times.ours[number], times.twin[number]);
        println!("  {call:<14} {ours:>9.3} {twin:>9.3} {:>7.2}", ours / twin);
    }
}

/// The audit's growth: the last column has what each open adds to our time without opens.
fn print_crowded(crowded: &[(usize, Audited)]) {
    println!("{ONE_STREAM}");
    println!(
        "  {:<14} {:>9} {:>9} {:>7} {:>13}",
        "opens", "ours us", "twin us", "ratio", "ours ns each"
    );
    let [without, _] = crowded[0].1.medians();
    for (percent, audited) in crowded {
        let opens = opens_at(*percent);
        let [ours, twin] = audited.medians();
        print!("  {opens:<14} {ours:>9.3} {twin:>9.3} {:>7.2}", ours / twin);
        if opens > 0 {
            print!(" {:>13.1}", (ours - without) * 1e3 / opens as f64);
        }
        println!();
    }
}

fn main() -> ExitCode {
    let Some(Arguments { effort, csv }) = arguments() else {
        eprintln!("usage: bench [--quick] [--csv FILE]");
        return ExitCode::from(2);
    };
    let mut volumes = Volumes::new(csv.is_some());
    volumes.measure(effort);
    for (what, measured) in &volumes.shown {
        print_table(what, &measured.medians());
    }
    print_crowded(&volumes.crowded);
    if let Some(file) = csv {
        if let Err(error) = fs::write(&file, volumes.csv()) {
            eprintln!("{file}: {error}");
            return ExitCode::FAILURE;
        }
    }
    ExitCode::SUCCESS
}

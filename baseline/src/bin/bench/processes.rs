//! Whole processes, timed in turn on the same traces.

use crate::check_granted;
use crate::sample::Sample;
use crate::traces::Workload;
use std::error::Error;
use std::ffi::OsStr;
use std::fs::{self, File};
use std::path::PathBuf;
use std::process::{Command, Stdio};
use std::thread;
use std::time::{Duration, Instant};

/// How long to wait before looking again whether a process has ended.
const POLL: Duration = Duration::from_micros(200);

/// A program with its switch, if any.
pub struct Contestant {
    program: PathBuf,
    switch: Option<&'static str>,
}

impl Contestant {
    /// Refused where there is no such program.
    pub fn new(program: impl AsRef<OsStr>, switch: Option<&'static str>) -> Result<Contestant, Box<dyn Error>> {
        let program = PathBuf::from(program.as_ref());
        if !program.is_file() {
            return Err(format!("{}: no such program", program.display()).into());
        }
        Ok(Contestant { program, switch })
    }

    /// A run on the trace in the file.
    fn command(&self, trace: &PathBuf) -> Result<Command, Box<dyn Error>> {
        let mut command = Command::new(&self.program);
        command.args(self.switch).stdin(File::open(trace)?);
        Ok(command)
    }

    /// What it writes.
    fn listing(&self, trace: &PathBuf) -> Result<Vec<u8>, Box<dyn Error>> {
        Ok(self.command(trace)?.output()?.stdout)
    }

    /// The milliseconds of one run, its output thrown away: of the processor, or where that is not counted, elapsed.
    fn time(&self, trace: &PathBuf) -> Result<f64, Box<dyn Error>> {
        let mut command = self.command(trace)?;
        let start = Instant::now();
        let mut child = command.stdout(Stdio::null()).spawn()?;
        let of_processor = processor_time(child.id());
        let status = child.wait()?;
        let elapsed = start.elapsed();
        if !status.success() {
            return Err(format!("{} ended with {status}", self.program.display()).into());
        }
        Ok(of_processor.unwrap_or(elapsed.as_secs_f64() * 1e3))
    }
}

/// The milliseconds that the process had a processor, once it has ended; none where the kernel does not tell. The process is
/// not yet waited for, so its entries in /proc are still there.
fn processor_time(process: u32) -> Option<f64> {
    loop {
        let state = fs::read_to_string(format!("/proc/{process}/stat")).ok()?;
        // The state follows the name, which is in brackets and may itself hold any character.
        if state.rsplit(')').next()?.trim_start().starts_with('Z') {
            break;
        }
        thread::sleep(POLL);
    }
    let times = fs::read_to_string(format!("/proc/{process}/schedstat")).ok()?;
    let nanoseconds: f64 = times.split(' ').next()?.parse().ok()?;
    (nanoseconds > 0.0).then_some(nanoseconds / 1e6)
}

/// The three contestants, how often each runs, and files for a trace and for an empty one.
pub struct Contest {
    contestants: [Contestant; 3],
    runs: usize,
    file: PathBuf,
    empty: PathBuf,
}

impl Contest {
    /// Writes the empty trace.
    pub fn new(contestants: [Contestant; 3], runs: usize) -> Result<Contest, Box<dyn Error>> {
        let file = |name: &str| std::env::temp_dir().join(format!("bench-{}-{name}.trace", std::process::id()));
        let contest = Contest { contestants, runs, file: file("full"), empty: file("empty") };
        fs::write(&contest.empty, [])?;
        Ok(contest)
    }

    /// How often each contestant runs.
    pub fn runs(&self) -> usize {
        self.runs
    }

    /// Times each contestant on the trace, in turn, after one round that is not counted. Each time is less that of an empty
    /// trace taken right before it: a machine that is now faster and now slower is then mostly the same for both.
    fn rounds(&self, trace: &[u8]) -> Result<Vec<[f64; 3]>, Box<dyn Error>> {
        fs::write(&self.file, trace)?;
        let mut rounds = vec![];
        for run in 0..self.runs + 1 {
            let mut round = [0.0; 3];
            for (contestant, time) in self.contestants.iter().zip(&mut round) {
                let empty = contestant.time(&self.empty)?;
                *time = contestant.time(&self.file)? - empty;
            }
            if run > 0 {
                rounds.push(round);
            }
        }
        Ok(rounds)
    }

    /// Refuses a workload on which the listings differ, or in which an event is refused.
    fn check(&self, workload: &Workload) -> Result<(), Box<dyn Error>> {
        fs::write(&self.file, &workload.trace)?;
        let [program, baseline, untested] = &self.contestants;
        let listing = baseline.listing(&self.file)?;
        if program.listing(&self.file)? != listing || untested.listing(&self.file)? != listing {
            return Err(format!("{}: the listings differ", workload.name).into());
        }
        check_granted(workload, &listing)
    }

    /// A row for each workload.
    pub fn print_table(&self, workloads: &[Workload]) -> Result<(), Box<dyn Error>> {
        println!(
            "| trace | bytes | events | program | Rust | Rust, no test | ratio to Rust | ratio to Rust, no test | ns an event |"
        );
        println!("|---|---|---|---|---|---|---|---|---|");
        for workload in workloads {
            self.check(workload)?;
            self.print_row(workload)?;
        }
        println!();
        Ok(())
    }

    /// Times one workload and prints its row.
    fn print_row(&self, workload: &Workload) -> Result<(), Box<dyn Error>> {
        let rounds = self.rounds(&workload.trace)?;
        let sample = |of: &dyn Fn(&[f64; 3]) -> f64| Sample::new(rounds.iter().map(of).collect());
        let times = [0, 1, 2].map(|i| sample(&|round| round[i]));
        let shown: Vec<String> = times.iter().map(Sample::show).collect();
        let ratios = [1, 2].map(|to| sample(&|round| round[0] / round[to]).show());
        println!(
            "| {} | {} | {} | {} | {} | {:.0} |",
            workload.name,
            workload.trace.len(),
            workload.events,
            shown.join(" | "),
            ratios.join(" | "),
            times[0].median() * 1e6 / workload.events as f64
        );
        Ok(())
    }
}

impl Drop for Contest {
    /// Removes the files; where that fails there is nothing to be done.
    fn drop(&mut self) {
        let _ = fs::remove_file(&self.file);
        let _ = fs::remove_file(&self.empty);
    }
}

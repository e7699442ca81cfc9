//! The benchmark: a program against this crate's, on the same traces, as ratios. It never passes or fails on a time.
//!
//!     baseline/bench [PROGRAM [RUNS]]
//!
//! PROGRAM reads a trace on standard input and writes its listing (default: crates/trace_run/out/trace_run). The `baseline` program must
//! stand beside this one. With the feature `leaves` (see build.rs) the proved leaves and the proved reader are measured too.

#![deny(unsafe_code)]

#[cfg(feature = "leaves")]
#[allow(unsafe_code)]
mod leaves;
mod processes;
#[cfg(feature = "leaves")]
#[allow(unsafe_code)]
mod reading;
mod sample;
mod traces;

use processes::{Contest, Contestant};
use std::env;
use std::error::Error;
use std::fs;
use std::process::ExitCode;
use traces::Workload;

const DEFAULT_PROGRAM: &str = "crates/trace_run/out/trace_run";
const DEFAULT_RUNS: usize = 41;

/// Exit status 1 only where something could not be run or the listings differ.
fn main() -> ExitCode {
    match run() {
        Ok(()) => ExitCode::SUCCESS,
        Err(error) => {
            eprintln!("bench: {error}");
            ExitCode::FAILURE
        }
    }
}

/// Prints the three parts.
fn run() -> Result<(), Box<dyn Error>> {
    let arguments: Vec<String> = env::args().skip(1).collect();
    let program = arguments.first().map_or(DEFAULT_PROGRAM, String::as_str);
    let runs = arguments.get(1).map_or(Ok(DEFAULT_RUNS), |word| word.parse())?;
    println!("Machine: {}.\n", machine());
    part_a();
    let contest = Contest::new(contestants(program)?, runs)?;
    part_b(&contest, program)?;
    part_c(&contest)
}

/// The processor's name and how many there are.
fn machine() -> String {
    let info = fs::read_to_string("/proc/cpuinfo").unwrap_or_default();
    let model = info.lines().find_map(|line| line.strip_prefix("model name")).unwrap_or(" unknown processor");
    let processors = std::thread::available_parallelism().map_or(1, |n| n.get());
    format!("{}, {processors} processors", model.trim_start_matches([' ', '\t', ':']))
}

/// The program, and this crate's with and without the soundness test.
fn contestants(program: &str) -> Result<[Contestant; 3], Box<dyn Error>> {
    let baseline = env::current_exe()?.with_file_name("baseline");
    Ok([
        Contestant::new(program, None)?,
        Contestant::new(&baseline, None)?,
        Contestant::new(&baseline, Some("--no-soundness-test"))?,
    ])
}

/// (a) The leaves at 4,096 bytes, and the reader.
fn part_a() {
    println!(
        "(a) Leaves at 4,096 bytes: the median and, in brackets, the quartiles; a ratio is of the medians, and in brackets of the\n\
         least times. The buffers are written once before and not cleared between the calls.\n"
    );
    #[cfg(feature = "leaves")]
    {
        leaves::print_table();
        reading::print_lines();
    }
    #[cfg(not(feature = "leaves"))]
    println!("Not measured: neither `rt`, to make the static library, nor LEAVES_DIR, the folder of one.");
    println!();
}

/// (b) The three workloads.
fn part_b(contest: &Contest, program: &str) -> Result<(), Box<dyn Error>> {
    println!("(b) {program} against the Rust program, on the same traces.\n");
    println!(
        "Times are of the whole process in ms, less that for an empty trace right before it: the median of {} rounds, in each of\n\
         which the three run in turn, and the quartiles in brackets. It is the processor's time as the kernel counts it, so that\n\
         waiting for a processor does not count (elapsed time where the kernel does not tell). \"No test\" is Rust without the\n\
         soundness test at every event. A ratio is of the two times of one round, its median and quartiles. Standard input is a\n\
         file that was read before, standard output is /dev/null. Every process clears its own frames and store at its start;\n\
         nothing else is cleared. A trace has at most 16,384 bytes: each is filled with as many events as it holds, and the\n\
         process is run again and again.\n",
        contest.runs()
    );
    let workloads = [
        traces::small_events("small events: D 8, V 32, T 16, F 64, P 16", traces::LARGEST_TABLES, 1.0),
        traces::seal_and_unveil("seal and unveil, P 4,096", 4096, usize::MAX),
        traces::kernel_reads("kernel reads of 4,096 bytes"),
    ];
    contest.print_table(&workloads)
}

/// (c) How time grows.
fn part_c(contest: &Contest) -> Result<(), Box<dyn Error>> {
    println!("(c) How time grows, measured in the same way.\n");
    println!("With the trace's length, the small events of (b):\n");
    let lengths = [("an eighth", 0.125), ("a quarter", 0.25), ("a half", 0.5), ("the whole", 1.0)];
    let by_length = lengths.map(|(name, share)| traces::small_events(name, traces::LARGEST_TABLES, share));
    contest.print_table(&by_length)?;
    println!("With P, seal and unveil {} times each:\n", traces::PAIRS);
    let by_page = [16, 64, 256, 1024, 4096].map(|p| traces::seal_and_unveil(&format!("P {p}"), p, traces::PAIRS));
    contest.print_table(&by_page)?;
    println!("With the tables, the small events of (b) at P 16:\n");
    let by_tables = traces::TABLES.map(|tables| traces::small_events(&tables.name(), tables, 1.0));
    contest.print_table(&by_tables)
}

/// What a workload's trace must give: every event done, so that it is the work that is measured and not refusals.
fn check_granted(workload: &Workload, listing: &[u8]) -> Result<(), Box<dyn Error>> {
    let text = String::from_utf8_lossy(listing);
    let refused = text.lines().find(|line| line.split(' ').nth(2) != Some("0"));
    match refused {
        Some(line) => Err(format!("{}: an event of the benchmark's trace is refused: {line}", workload.name).into()),
        None => Ok(()),
    }
}

//! Reads a trace on standard input and writes its listing to standard output, as document 01 says of trace-run.
//! With `--no-soundness-test` the events do not test the tables' soundness: for the benchmark, and the listing is the same.

#![forbid(unsafe_code)]

use baseline::listing::{list, MAX_TRACE};
use std::io::{self, BufWriter, Read, Write};
use std::process::ExitCode;

/// The switch that turns the soundness test off.
const NO_SOUNDNESS_TEST: &str = "--no-soundness-test";

/// The bytes gathered before they are written out.
const OUTPUT_BUFFER: usize = 65_536;

/// Exit status 0 when the listing was written, a refused header's too; 1 on an error of the system, 2 on a wrong argument.
fn main() -> ExitCode {
    let arguments: Vec<String> = std::env::args().skip(1).collect();
    let outcome = match arguments.as_slice() {
        [] => run::<true>(),
        [switch] if switch == NO_SOUNDNESS_TEST => run::<false>(),
        _ => {
            eprintln!("usage: baseline [{NO_SOUNDNESS_TEST}] < TRACE");
            return ExitCode::from(2);
        }
    };
    match outcome {
        Ok(()) => ExitCode::SUCCESS,
        Err(error) => {
            eprintln!("baseline: {error}");
            ExitCode::FAILURE
        }
    }
}

/// Reads at most one byte over the longest trace, which is enough to refuse a longer one.
fn run<const SOUND: bool>() -> io::Result<()> {
    let mut trace = Vec::with_capacity(MAX_TRACE + 1);
    io::stdin().lock().take(MAX_TRACE as u64 + 1).read_to_end(&mut trace)?;
    let mut output = BufWriter::with_capacity(OUTPUT_BUFFER, io::stdout().lock());
    list::<SOUND>(&trace, &mut output)?;
    output.flush()
}

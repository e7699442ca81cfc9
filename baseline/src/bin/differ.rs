//! The differential test: many generated traces through another program and through this crate, listings compared byte for byte.
//!
//!     baseline/differ [PROGRAM [TRACES [SEED]]]
//!
//! PROGRAM reads a trace on standard input and writes its listing (default: crates/trace_run/out/trace_run). Exit status 0 when all
//! listings are equal and the traces reached every answer that each kind can get; 1 otherwise; 2 on a wrong argument.

#![forbid(unsafe_code)]

use baseline::generator::{trace, Trace};
use baseline::listing::listing;
use baseline::reader::Reader;
use std::io::{Read, Write};
use std::process::{Child, Command, ExitCode, Stdio};
use std::sync::atomic::{AtomicBool, AtomicU64, Ordering};
use std::sync::mpsc;
use std::sync::Mutex;
use std::thread;
use std::time::{Duration, Instant};

const DEFAULT_PROGRAM: &str = "crates/trace_run/out/trace_run";
const DEFAULT_TRACES: u64 = 8_000;
const DEFAULT_SEED: u64 = 1;

/// Fewer traces than this may miss an answer; what they reach is then not tested.
const ENOUGH_TO_REACH_ALL: u64 = 5_000;

/// A program that takes longer for one trace is taken to hang.
const TIME_LIMIT: Duration = Duration::from_secs(10);

/// No listing is so long: a program that writes more is not read further.
const OUTPUT_LIMIT: u64 = 1 << 26;

/// One trace in so many is written to the program byte by byte, with pauses.
const ONE_IN_SLOW: u64 = 101;
/// The longest trace that is written slowly, and the pause.
const SLOW_LENGTH: usize = 200;
const SLOW_PAUSE: Duration = Duration::from_micros(50);

/// The answers that a trace can get from each kind 0 to 13, and last from the reader.
/// No trace gets 11: the answer buffer of 4,096 bytes holds every answer. Nor does the core answer 10 to a sound state.
const REACHABLE: [&[usize]; 15] = [
    &[0, 2, 4],
    &[0, 2, 4],
    &[0, 2, 4],
    &[0, 2, 4, 5],
    &[0, 2, 3, 6],
    &[0, 2, 3, 6],
    &[0, 2, 4, 7],
    &[0, 2, 4, 7],
    &[0, 2, 4, 7],
    &[0, 2, 4, 5, 6, 7],
    &[0, 2, 4, 7],
    &[0, 2, 3, 4, 5, 6, 7, 8],
    &[0, 2, 3, 4, 5, 6, 7, 8],
    &[0, 1, 2, 4, 7],
    &[1, 9, 10],
];

/// The reader's row in the counts, where a line's kind is `-`.
const READER: usize = 14;

/// How often each kind got each answer.
#[derive(Default)]
struct Counts {
    traces: u64,
    lines: u64,
    answers: [[u64; 12]; 15],
}

/// A trace on which the two differ.
struct Difference {
    index: u64,
    trace: Trace,
    what: String,
}

/// Compares, then prints the counts or the first difference.
fn main() -> ExitCode {
    let arguments: Vec<String> = std::env::args().skip(1).collect();
    let number = |at: usize, default: u64| arguments.get(at).map_or(Ok(default), |word| word.parse());
    let (Ok(traces), Ok(seed)) = (number(1, DEFAULT_TRACES), number(2, DEFAULT_SEED)) else {
        eprintln!("usage: differ [PROGRAM [TRACES [SEED]]]");
        return ExitCode::from(2);
    };
    let program = arguments.first().map_or(DEFAULT_PROGRAM, String::as_str);
    if let Err(error) = run(program, &[], false) {
        eprintln!("differ: {error}");
        return ExitCode::FAILURE;
    }
    let start = Instant::now();
    match compare_all(program, traces, seed) {
        Err(difference) => {
            report(program, seed, &difference);
            ExitCode::FAILURE
        }
        Ok(counts) => {
            println!("{}, seed {seed}, {:.1} s", summary(&counts), start.elapsed().as_secs_f64());
            all_reached(&counts)
        }
    }
}

/// Compares all traces on as many threads as there are processors; the first difference, or the counts.
fn compare_all(program: &str, traces: u64, seed: u64) -> Result<Counts, Difference> {
    let next = AtomicU64::new(0);
    let found = AtomicBool::new(false);
    let counts = Mutex::new(Counts::default());
    let differences = Mutex::new(Vec::new());
    let threads = thread::available_parallelism().map_or(1, |n| n.get());
    thread::scope(|scope| {
        for _ in 0..threads {
            scope.spawn(|| loop {
                let index = next.fetch_add(1, Ordering::Relaxed);
                if index >= traces || found.load(Ordering::Relaxed) {
                    return;
                }
                let trace = trace(seed, index);
                match compare(program, index, &trace.bytes) {
                    Ok(lines) => count(&mut counts.lock().unwrap(), &lines),
                    Err(what) => {
                        found.store(true, Ordering::Relaxed);
                        differences.lock().unwrap().push(Difference { index, trace, what });
                    }
                }
            });
        }
    });
    // Indices are handed out in order and each one handed out is finished, so the least is the first.
    match differences.into_inner().unwrap().into_iter().min_by_key(|difference| difference.index) {
        Some(difference) => Err(difference),
        None => Ok(counts.into_inner().unwrap()),
    }
}

/// The listing that both give, or what differs.
fn compare(program: &str, index: u64, trace: &[u8]) -> Result<Vec<u8>, String> {
    let ours = listing::<true>(trace);
    let slowly = index % ONE_IN_SLOW == 0 && trace.len() <= SLOW_LENGTH;
    let theirs = run(program, trace, slowly)?;
    if ours == theirs {
        Ok(ours)
    } else {
        Err(first_difference(&ours, &theirs))
    }
}

/// What the program writes for the trace; an error where it cannot be run, hangs, or ends with a status other than 0.
fn run(program: &str, trace: &[u8], slowly: bool) -> Result<Vec<u8>, String> {
    let mut child = Command::new(program)
        .stdin(Stdio::piped())
        .stdout(Stdio::piped())
        .spawn()
        .map_err(|error| format!("{program} cannot be run: {error}"))?;
    let output = thread::scope(|scope| talk(scope, &mut child, trace, slowly));
    let status = child.wait().map_err(|error| format!("{program} cannot be waited for: {error}"))?;
    match output {
        None => Err(format!("{program} was stopped after {} s", TIME_LIMIT.as_secs())),
        Some(_) if !status.success() => Err(format!("{program} ended with {status}")),
        Some(bytes) => Ok(bytes),
    }
}

/// Writes the trace and reads the output at the same time, so that neither side waits for a full pipe. None, and the child
/// is ended, where the time limit has passed.
fn talk<'scope, 'env>(
    scope: &'scope thread::Scope<'scope, 'env>,
    child: &mut Child,
    trace: &'env [u8],
    slowly: bool,
) -> Option<Vec<u8>> {
    let (mut input, output) = (child.stdin.take()?, child.stdout.take()?);
    let (sender, receiver) = mpsc::channel();
    scope.spawn(move || {
        // A program may stop reading once a trace is too long; what it then writes is compared all the same.
        let pieces = trace.chunks(if slowly { 1 } else { usize::MAX });
        for piece in pieces {
            if input.write_all(piece).is_err() {
                return;
            }
            if slowly {
                thread::sleep(SLOW_PAUSE);
            }
        }
    });
    scope.spawn(move || {
        let mut bytes = Vec::new();
        if output.take(OUTPUT_LIMIT).read_to_end(&mut bytes).is_ok() {
            // Nobody listens once the time limit has passed.
            let _ = sender.send(bytes);
        }
    });
    let bytes = receiver.recv_timeout(TIME_LIMIT).ok();
    if bytes.is_none() {
        let _ = child.kill();
    }
    bytes
}

/// The first line that is not the same in both.
fn first_difference(ours: &[u8], theirs: &[u8]) -> String {
    let (mut a, mut b) = (lines(ours), lines(theirs));
    let mut line = 0;
    loop {
        match (a.next(), b.next()) {
            (Some(x), Some(y)) if x == y => line += 1,
            (x, y) => return format!("line {line}\n  baseline: {}\n  program:  {}", show(x), show(y)),
        }
    }
}

/// The lines, each with its newline.
fn lines(listing: &[u8]) -> impl Iterator<Item = &[u8]> {
    listing.split_inclusive(|byte| *byte == b'\n')
}

/// A line for a person to read, with its end made plain.
fn show(line: Option<&[u8]>) -> String {
    line.map_or("(no line)".to_string(), |bytes| format!("{:?}", String::from_utf8_lossy(bytes)))
}

/// Counts the kinds and answers of a listing.
fn count(counts: &mut Counts, listing: &[u8]) {
    counts.traces += 1;
    for line in lines(listing) {
        let text = String::from_utf8_lossy(line);
        let mut fields = text.split(' ').skip(1);
        let kind = fields.next().and_then(|word| word.parse().ok()).unwrap_or(READER);
        let answer: usize = fields.next().and_then(|word| word.parse().ok()).expect("a line has an answer");
        counts.lines += 1;
        counts.answers[kind][answer] += 1;
    }
}

/// All figures in one line.
fn summary(counts: &Counts) -> String {
    let sums = (0..12).map(|answer| counts.answers.iter().map(|row| row[answer]).sum::<u64>());
    let answers: Vec<String> = sums.enumerate().map(|(answer, n)| format!("{answer}:{n}")).collect();
    let kind_name = |kind: usize| {
        if kind == READER {
            "-".to_string()
        } else {
            kind.to_string()
        }
    };
    let kinds: Vec<String> =
        counts.answers.iter().enumerate().map(|(kind, row)| format!("{}:{}", kind_name(kind), row.iter().sum::<u64>())).collect();
    format!(
        "differ: {} traces, {} lines, all equal; answers {}; kinds {}",
        counts.traces,
        counts.lines,
        answers.join(" "),
        kinds.join(" ")
    )
}

/// Fails where enough traces were made and some kind never got an answer that it can get.
fn all_reached(counts: &Counts) -> ExitCode {
    if counts.traces < ENOUGH_TO_REACH_ALL {
        return ExitCode::SUCCESS;
    }
    let mut status = ExitCode::SUCCESS;
    for (kind, answers) in REACHABLE.iter().enumerate() {
        for answer in answers.iter().filter(|answer| counts.answers[kind][**answer] == 0) {
            println!("differ: no trace got answer {answer} from kind {kind}");
            status = ExitCode::FAILURE;
        }
    }
    status
}

/// Prints the difference with the trace's hex: up to the record that differs, where that is enough to show it.
fn report(program: &str, seed: u64, difference: &Difference) {
    let Difference { index, trace, what } = difference;
    println!("differ: trace {index} of seed {seed} ({}) differs at {what}", trace.family);
    let shorter = up_to_difference(program, &trace.bytes);
    println!("trace: {}", hex(shorter.unwrap_or(&trace.bytes)));
}

/// The shortest beginning of whole records on which the two differ; none where only the whole trace shows it.
fn up_to_difference<'a>(program: &str, trace: &'a [u8]) -> Option<&'a [u8]> {
    let mut reader = Reader::new(trace);
    let setup = reader.setup().ok()?;
    reader.supply(&setup).ok()?;
    let mut ends = vec![reader.place];
    while let Ok(Some(_)) = reader.record() {
        ends.push(reader.place);
    }
    let differs = |end: usize| compare(program, 1, &trace[..end]).is_err();
    // A beginning that differs still does with more records after it, so the least one is found by halving.
    let first = ends.partition_point(|end| !differs(*end));
    ends.get(first).map(|end| &trace[..*end])
}

/// Lower-case hex digits.
fn hex(bytes: &[u8]) -> String {
    bytes.iter().map(|byte| format!("{byte:02x}")).collect()
}

//! trace-run's listing: from a trace's bytes to its lines.

use crate::answer::{Answer, DONE, SETUP};
use crate::monitor::Monitor;
use crate::reader::Reader;
use crate::setup::Setup;
use std::io::{self, Write};

/// The longest trace that trace-run takes.
pub const MAX_TRACE: usize = 16_384;
/// The most that F·P and D·V·P may be, each.
pub const MAX_MEMORY: usize = 16_384;
/// The length of trace-run's answer buffer.
pub const ANSWER_LENGTH: usize = 4_096;

/// The whole listing of a trace. SOUND says whether every event tests the tables' soundness.
pub fn listing<const SOUND: bool>(trace: &[u8]) -> Vec<u8> {
    let mut out = Vec::new();
    list::<SOUND>(trace, &mut out).expect("writing to memory does not fail");
    out
}

/// Writes the listing of a trace, line by line.
pub fn list<const SOUND: bool>(trace: &[u8], out: &mut impl Write) -> io::Result<()> {
    match header(trace) {
        Ok((setup, supply, reader)) => list_records::<SOUND>(setup, supply, reader, out),
        Err(number) => out.write_all(&refused_line(0, number, 0)),
    }
}

/// The header's checks in trace-run's order: length (10), 48 bits (9), products (10), signatures (9).
fn header(trace: &[u8]) -> Result<(Setup, &[u8], Reader<'_>), u8> {
    if trace.len() > MAX_TRACE {
        return Err(SETUP);
    }
    let mut reader = Reader::new(trace);
    let setup = reader.setup()?;
    if setup.frames_length() > MAX_MEMORY || setup.store_length() > MAX_MEMORY {
        return Err(SETUP);
    }
    let supply = reader.supply(&setup)?;
    Ok((setup, supply, reader))
}

/// Runs and lists each record to the end, or to the first that the reader refuses.
fn list_records<const SOUND: bool>(setup: Setup, supply: &[u8], mut reader: Reader, out: &mut impl Write) -> io::Result<()> {
    let mut frames = vec![0; setup.frames_length()];
    let mut store = vec![0; setup.store_length()];
    let mut buffer = [0; ANSWER_LENGTH];
    let mut line = Vec::new();
    // The header and the lengths were tested above, so the start is not refused.
    let (mut monitor, _) = Monitor::start(setup, &mut frames, &mut store, supply);
    for index in 0.. {
        match reader.record() {
            Ok(None) => break,
            Ok(Some((event, data))) => {
                let answer = monitor.step::<SOUND>(event, data, &mut buffer);
                line.clear();
                push_line(&mut line, index, event.kind(), &answer, &buffer[..event.answer_length()]);
                out.write_all(&line)?;
            }
            Err(number) => return out.write_all(&refused_line(index, number, monitor.tables.used)),
        }
    }
    Ok(())
}

/// One record's line; the bytes given are shown for kinds 4 and 13 when done.
fn push_line(line: &mut Vec<u8>, index: usize, kind: u8, answer: &Answer, given: &[u8]) {
    push_number(line, index);
    line.push(b' ');
    push_number(line, usize::from(kind));
    push_answer(line, answer);
    if answer.number == DONE && matches!(kind, 4 | 13) {
        push_hex(line, given);
    } else {
        line.push(b'-');
    }
    line.push(b'\n');
}

/// The line of a record, or of a header, that the reader refuses: its kind is `-`.
fn refused_line(index: usize, number: u8, used: u16) -> Vec<u8> {
    let mut line = Vec::new();
    push_number(&mut line, index);
    line.extend_from_slice(b" -");
    push_answer(&mut line, &Answer { number, seals: 0, unveils: 0, used });
    line.extend_from_slice(b"-\n");
    line
}

/// The answer's four numbers, a space before each and one after the last.
fn push_answer(line: &mut Vec<u8>, answer: &Answer) {
    for number in [answer.number.into(), answer.seals.into(), answer.unveils.into(), usize::from(answer.used)] {
        line.push(b' ');
        push_number(line, number);
    }
    line.push(b' ');
}

/// A decimal number without leading zeros.
fn push_number(line: &mut Vec<u8>, number: usize) {
    if number >= 10 {
        push_number(line, number / 10);
    }
    line.push(b'0' + (number % 10) as u8);
}

/// Two lower-case hex digits for each byte.
fn push_hex(line: &mut Vec<u8>, bytes: &[u8]) {
    const DIGITS: &[u8; 16] = b"0123456789abcdef";
    let start = line.len();
    line.resize(start + 2 * bytes.len(), 0);
    for (pair, byte) in line[start..].chunks_exact_mut(2).zip(bytes) {
        pair[0] = DIGITS[usize::from(byte >> 4)];
        pair[1] = DIGITS[usize::from(byte & 15)];
    }
}

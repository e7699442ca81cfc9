//! Damage to a trace that was whole: bytes cut, flipped, put in or taken out, spare bits set, input too long.

use crate::event::{Event, Part};
use crate::form::{head_length, widths, HEADER_LENGTH, KIND_WIDTH};
use crate::listing::MAX_TRACE;
use crate::random::Random;
use crate::reader::Reader;
use crate::records::FrameNumber;
use crate::writer::write_record;

/// Ends the trace at any byte; half of the time within its last few.
pub fn cut(trace: &mut Vec<u8>, random: &mut Random) {
    let length = trace.len();
    let keep = if random.chance(50) { random.below(length) } else { length - random.range(1, length.min(6)) };
    trace.truncate(keep);
}

/// Flips one to three bits; where there are records, rather in them than in the signatures.
pub fn flip(trace: &mut [u8], random: &mut Random) {
    let first = records_start(trace);
    for _ in 0..random.range(1, 3) {
        let at =
            if first < trace.len() && random.chance(85) { random.range(first, trace.len() - 1) } else { random.below(trace.len()) };
        trace[at] ^= 1 << random.below(8);
    }
}

/// Puts in, takes out, replaces or repeats some bytes.
pub fn shuffle(trace: &mut Vec<u8>, random: &mut Random) {
    let at = random.below(trace.len());
    let length = random.range(1, 6).min(trace.len() - at);
    match random.below(4) {
        0 => {
            let bytes = random.bytes(length);
            trace.splice(at..at, bytes);
        }
        1 => {
            trace.drain(at..at + length);
        }
        2 => {
            let bytes = random.bytes(length);
            trace[at..at + length].copy_from_slice(&bytes);
        }
        _ => {
            let bytes = trace[at..at + length].to_vec();
            trace.splice(at..at, bytes);
        }
    }
}

/// Sets one spare bit: a padding bit of a record, or a reserved bit of the header.
pub fn set_spare_bit(trace: &mut [u8], random: &mut Random) {
    let places = spare_bits(trace);
    let (at, bits) = match random.any(&places) {
        Some(place) if random.chance(90) => place,
        _ => (HEADER_LENGTH - 1, 6),
    };
    trace[at] |= 1 << random.below(bits);
}

/// Ends the trace, or goes on for a few bytes, with a kind that no event has.
pub fn end_with_refused_kind(trace: &mut Vec<u8>, random: &mut Random) {
    trace.push(0xe0 | random.below(32) as u8);
    let more = random.below(4);
    trace.extend_from_slice(&random.bytes(more));
}

/// The bytes of the trace's records that have padding bits, each with their count.
fn spare_bits(trace: &[u8]) -> Vec<(usize, usize)> {
    let mut places = Vec::new();
    let mut reader = Reader::new(trace);
    if reader.setup().and_then(|setup| reader.supply(&setup)).is_err() {
        return places;
    }
    loop {
        let start = reader.place;
        let Ok(Some((event, _))) = reader.record() else {
            return places;
        };
        let head = head_length(event.kind());
        let taken = KIND_WIDTH + widths(event.kind()).iter().sum::<u32>();
        let spare = 8 * head - taken as usize;
        if spare > 0 {
            places.push((start + head - 1, spare));
        }
    }
}

/// Lengthens the trace to the limit, close to it, one over it, or far over it: kernel writes, then leaves of one byte; one in
/// ten times leaves alone, for the greatest indices.
pub fn lengthen(trace: &mut Vec<u8>, random: &mut Random) {
    let length = match random.below(4) {
        0 => MAX_TRACE,
        1 => MAX_TRACE + 1,
        2 => MAX_TRACE - random.below(8),
        _ => MAX_TRACE + random.range(2, 100_000),
    };
    let mut record = [0; 5 + 256];
    let leaves_alone = random.chance(10);
    while !leaves_alone && trace.len() + record.len() <= length {
        let part = Part { off: random.below(16) as u16, len: random.range(1, 256) as u16 };
        let data = random.bytes(part.length());
        let event = Event::KernelWrite(FrameNumber(random.below(4) as u8), part);
        let (_, count) = write_record(&event, &data, &mut record);
        trace.extend_from_slice(&record[..count]);
    }
    while trace.len() < length {
        trace.push(0x80 | random.below(16) as u8);
    }
    trace.truncate(length);
}

/// Where the records start, or 0 where the header is not whole.
fn records_start(trace: &[u8]) -> usize {
    let mut reader = Reader::new(trace);
    match reader.setup().and_then(|setup| reader.supply(&setup)) {
        Ok(_) => reader.place,
        Err(_) => 0,
    }
}

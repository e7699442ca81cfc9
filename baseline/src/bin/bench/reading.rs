//! The proved reader of the static library, called over C's boundary for each record of a trace with all fourteen kinds. Like
//! `leaves`, it has `unsafe` for the call alone.

use crate::sample::Sample;
use baseline::event::{Event, Part};
use baseline::form::head_length;
use baseline::random::Random;
use baseline::reader::Reader;
use baseline::records::{ContextNumber, DomainNumber, FrameNumber, PageNumber, TrapKind};
use baseline::writer::write_record;
use std::hint::black_box;
use std::time::Instant;

const KINDS: usize = 14;
const RECORDS: usize = 70 * KINDS;
const MAX_DATA: usize = 100;
const RUNS: usize = 2_001;

/// What is said of a record: the answer; kind, three numbers, off and len; where its data starts and how long it is.
type Told = [usize; 9];

extern "C" {
    fn next_record(unread: *const u8, unread_len: usize, place: usize, told: *mut usize) -> usize;
}

/// The place behind the record that the unread bytes begin with.
fn read(unread: &[u8], place: usize, told: &mut Told) -> usize {
    // SAFETY: the part is a whole slice of the length passed and only read; `told` has the nine numbers that are written.
    unsafe { next_record(unread.as_ptr(), unread.len(), place, told.as_mut_ptr()) }
}

/// Prints the nanoseconds of reading a record, where the kinds come in turn and where they come in random order.
pub fn print_lines() {
    println!("\nReading a record of a trace with all fourteen kinds and their data, each a call of the static library:");
    for (name, shuffled) in [("kinds in turn", false), ("kinds in random order", true)] {
        let trace = records(shuffled);
        check(&trace);
        let times = time(&trace);
        let (shown, least) = (times.show(), times.least());
        println!("- {name}: {shown} ns a record, least {least:.2} ({RECORDS} records, {} bytes)", trace.len());
    }
}

/// The records of a trace, without a header.
fn records(shuffled: bool) -> Vec<u8> {
    let mut random = Random::new(1, 1);
    let mut trace = vec![];
    for i in 0..RECORDS {
        let kind = if shuffled { random.below(KINDS) } else { i % KINDS };
        let event = event(kind, &mut random);
        let data = random.bytes(event.data_length());
        let mut record = [0; 8 + MAX_DATA];
        let (number, count) = write_record(&event, &data, &mut record);
        assert_eq!(number, 0, "{event:?}");
        trace.extend_from_slice(&record[..count]);
    }
    trace
}

/// Some event of the kind.
fn event(kind: usize, random: &mut Random) -> Event {
    let d = DomainNumber(random.below(8) as u8);
    let v = PageNumber(random.below(32) as u8);
    let f = FrameNumber(random.below(64) as u8);
    let [t, u] = [(); 2].map(|()| ContextNumber(random.below(16) as u8));
    let part = Part { off: random.below(4096) as u16, len: random.range(1, MAX_DATA) as u16 };
    match kind {
        0 => Event::Begin(d, t),
        1 => Event::End(d),
        2 => Event::Map(d, v, f),
        3 => Event::Unmap(d, v),
        4 => Event::KernelRead(f, part),
        5 => Event::KernelWrite(f, part),
        6 => Event::Resume(d, t),
        7 => Event::Spawn(t, u),
        8 => Event::Leave(t),
        9 => Event::Cloak(t, v),
        10 => Event::Uncloak(t, v),
        11 => Event::Read(t, v, part),
        12 => Event::Write(t, v, part),
        _ => Event::Trap(t, random.pick(&[TrapKind::Interrupt, TrapKind::Call]), random.word() as u8),
    }
}

/// The numbers of an event that are to be told: three, then off and len, which are 0 and 1 where there is no part.
fn numbers(event: &Event) -> [usize; 5] {
    let (three, part) = match *event {
        Event::Begin(d, t) | Event::Resume(d, t) => ([d.0, t.0, 0], None),
        Event::End(d) => ([d.0, 0, 0], None),
        Event::Map(d, v, f) => ([d.0, v.0, f.0], None),
        Event::Unmap(d, v) => ([d.0, v.0, 0], None),
        Event::KernelRead(f, part) | Event::KernelWrite(f, part) => ([f.0, 0, 0], Some(part)),
        Event::Spawn(t, u) => ([t.0, u.0, 0], None),
        Event::Leave(t) => ([t.0, 0, 0], None),
        Event::Cloak(t, v) | Event::Uncloak(t, v) => ([t.0, v.0, 0], None),
        Event::Read(t, v, part) | Event::Write(t, v, part) => ([t.0, v.0, 0], Some(part)),
        Event::Trap(t, kind, mask) => ([t.0, u8::from(kind == TrapKind::Call), mask], None),
    };
    let [first, second, third] = three.map(usize::from);
    let (off, len) = part.map_or((0, 1), |part| (part.start(), part.length()));
    [first, second, third, off, len]
}

/// That the static library reads what this crate's reader reads, to the end.
fn check(trace: &[u8]) {
    let mut reader = Reader::new(trace);
    let (mut place, mut told) = (0, [0; 9]);
    while let Some((event, data)) = reader.record().expect("a whole trace") {
        let next = read(&trace[place..], place, &mut told);
        let [first, second, third, off, len] = numbers(&event);
        let (kind, start) = (usize::from(event.kind()), head_length(event.kind()));
        assert_eq!(told, [0, kind, first, second, third, off, len, start, data.len()], "{event:?}");
        assert_eq!(next, reader.place, "{event:?}");
        place = next;
    }
    assert_eq!(place, trace.len());
    assert_eq!(read(&trace[place..], place, &mut told), place);
    assert_eq!(told, [0; 9]);
}

/// The nanoseconds of reading one record, measured over the whole trace, many times.
fn time(trace: &[u8]) -> Sample {
    let run = || {
        let start = Instant::now();
        let trace = black_box(trace);
        let (mut place, mut told) = (0, [0; 9]);
        while place < trace.len() {
            place = read(&trace[place..], place, black_box(&mut told));
        }
        start.elapsed().as_secs_f64() * 1e9 / RECORDS as f64
    };
    run();
    Sample::new((0..RUNS).map(|_| run()).collect())
}

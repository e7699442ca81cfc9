//! The benchmark's traces. A trace has at most 16,384 bytes, so each is filled as far as its kind of work allows and the
//! process is run several times.

use baseline::event::{Event, Part};
use baseline::form::HEADER_LENGTH;
use baseline::listing::MAX_TRACE;
use baseline::records::{ContextNumber, DomainNumber, FrameNumber, PageNumber};
use baseline::setup::Setup;
use baseline::writer::{write_header, write_record};

/// A trace with its name and the number of its events.
pub struct Workload {
    pub name: String,
    pub trace: Vec<u8>,
    pub events: usize,
}

/// The sizes of the tables.
#[derive(Clone, Copy)]
pub struct Tables {
    domains: usize,
    pages: usize,
    contexts: usize,
    frames: usize,
}

impl Tables {
    /// The sizes in words.
    pub fn name(&self) -> String {
        format!("D {}, V {}, T {}, F {}", self.domains, self.pages, self.contexts, self.frames)
    }
}

pub const LARGEST_TABLES: Tables = Tables { domains: 8, pages: 32, contexts: 16, frames: 64 };

/// The tables of part (c), from small to large. A spawn needs a context beside those of the domains.
pub const TABLES: [Tables; 4] = [
    Tables { domains: 1, pages: 1, contexts: 2, frames: 1 },
    Tables { domains: 2, pages: 8, contexts: 4, frames: 16 },
    Tables { domains: 4, pages: 16, contexts: 8, frames: 32 },
    LARGEST_TABLES,
];

/// How often part (c) seals and unveils at each P.
pub const PAIRS: usize = 1200;

const ONE_BYTE: Part = Part { off: 0, len: 1 };

/// A trace while it is made.
struct Maker {
    out: Vec<u8>,
    events: usize,
}

impl Maker {
    /// A trace with its header and its signatures, of which each is filled with its number.
    fn new(setup: &Setup) -> Maker {
        let supply: Vec<u8> = (0..setup.signatures).flat_map(|k| vec![k as u8; setup.page_size]).collect();
        let mut out = vec![0; HEADER_LENGTH + supply.len()];
        assert_eq!(write_header(setup, &supply, &mut out).0, 0, "{setup:?}");
        Maker { out, events: 0 }
    }

    /// Puts one record down.
    fn push(&mut self, event: Event, data: &[u8]) {
        let mut record = [0; 128];
        let (number, count) = write_record(&event, data, &mut record);
        assert_eq!(number, 0, "{event:?}");
        self.out.extend_from_slice(&record[..count]);
        self.events += 1;
    }

    /// The whole trace.
    fn done(self, name: &str) -> Workload {
        assert!(self.out.len() <= MAX_TRACE, "{name}: {} bytes", self.out.len());
        Workload { name: name.to_string(), trace: self.out, events: self.events }
    }
}

/// Rounds of eight small events: map, cloak, write a byte, kernel read (seals), read (unveils), uncloak, spawn, leave. Each
/// round is in the next domain, page and frame and takes one signature. The share is that of the rounds that fill a trace.
pub fn small_events(name: &str, tables: Tables, share: f64) -> Workload {
    const ROUND: usize = 3 + 2 + 6 + 5 + 5 + 2 + 2 + 1;
    let page_size = 16;
    let begins = 2 * tables.domains;
    let rounds = (MAX_TRACE - HEADER_LENGTH - begins) / (ROUND + page_size);
    let rounds = (rounds as f64 * share) as usize;
    let setup = Setup {
        page_size,
        domains: tables.domains,
        pages: tables.pages,
        contexts: tables.contexts,
        frames: tables.frames,
        signatures: rounds,
    };
    let mut maker = Maker::new(&setup);
    for d in 0..tables.domains as u8 {
        maker.push(Event::Begin(DomainNumber(d), ContextNumber(d)), &[]);
    }
    for round in 0..rounds {
        small_round(&mut maker, &tables, round);
    }
    maker.done(name)
}

/// One round of small events.
fn small_round(maker: &mut Maker, tables: &Tables, round: usize) {
    let d = round % tables.domains;
    let v = PageNumber((round / tables.domains % tables.pages) as u8);
    let f = FrameNumber((round * 7 % tables.frames) as u8);
    let (d, t, u) = (DomainNumber(d as u8), ContextNumber(d as u8), ContextNumber(tables.domains as u8));
    maker.push(Event::Map(d, v, f), &[]);
    maker.push(Event::Cloak(t, v), &[]);
    maker.push(Event::Write(t, v, ONE_BYTE), &[round as u8]);
    maker.push(Event::KernelRead(f, ONE_BYTE), &[]);
    maker.push(Event::Read(t, v, ONE_BYTE), &[]);
    maker.push(Event::Uncloak(t, v), &[]);
    maker.push(Event::Spawn(t, u), &[]);
    maker.push(Event::Leave(u), &[]);
}

/// One page of P bytes, sealed by a kernel read and unveiled by a read in turn; both are of one byte, so that the listing's
/// hex does not count. At most so many pairs, and as many as fill a trace.
pub fn seal_and_unveil(name: &str, page_size: usize, pairs: usize) -> Workload {
    let setup = Setup { page_size, domains: 1, pages: 1, contexts: 1, frames: 1, signatures: 1 };
    let (d, t, v, f) = (DomainNumber(0), ContextNumber(0), PageNumber(0), FrameNumber(0));
    let mut maker = Maker::new(&setup);
    maker.push(Event::Begin(d, t), &[]);
    maker.push(Event::Map(d, v, f), &[]);
    maker.push(Event::Cloak(t, v), &[]);
    let room = (MAX_TRACE - maker.out.len()) / 10;
    for _ in 0..pairs.min(room) {
        maker.push(Event::KernelRead(f, ONE_BYTE), &[]);
        maker.push(Event::Read(t, v, ONE_BYTE), &[]);
    }
    maker.done(name)
}

/// Kernel reads of a whole frame of 4,096 bytes, each with its hex in the listing.
pub fn kernel_reads(name: &str) -> Workload {
    let setup = Setup { page_size: 4096, domains: 1, pages: 1, contexts: 1, frames: 4, signatures: 0 };
    let mut maker = Maker::new(&setup);
    for read in 0..(MAX_TRACE - HEADER_LENGTH) / 5 {
        maker.push(Event::KernelRead(FrameNumber((read % 4) as u8), Part { off: 0, len: 4096 }), &[]);
    }
    maker.done(name)
}

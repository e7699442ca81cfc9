//! What the tests share: a monitor with memory of its own, and short names for numbers.
#![allow(dead_code, unused_imports)]

use baseline::answer::Answer;
use baseline::event::{Event, Part};
use baseline::monitor::Monitor;
use baseline::records::Tables;
use baseline::setup::Setup;

pub use baseline::records::{ContextNumber as T, DomainNumber as D, FrameNumber as F, PageNumber as V};

/// A setup, its records and memory that it owns, so that a test can look at and compare all of it.
#[derive(Clone, Debug, PartialEq, Eq)]
pub struct Machine {
    pub setup: Setup,
    pub tables: Tables,
    pub frames: Vec<u8>,
    pub store: Vec<u8>,
    pub supply: Vec<u8>,
}

impl Machine {
    /// A fresh start with this supply.
    pub fn new(setup: Setup, supply: &[u8]) -> Machine {
        Machine {
            setup,
            tables: Tables::fresh(),
            frames: vec![0; setup.frames_length()],
            store: vec![0; setup.store_length()],
            supply: supply.to_vec(),
        }
    }

    /// One event with an answer buffer of this content; the buffer changes as the event says.
    pub fn step_into(&mut self, event: Event, data: &[u8], buffer: &mut [u8]) -> Answer {
        let mut monitor = Monitor {
            setup: self.setup,
            tables: self.tables.clone(),
            frames: &mut self.frames,
            store: &mut self.store,
            supply: &self.supply,
        };
        let answer = monitor.step::<true>(event, data, buffer);
        self.tables = monitor.tables;
        answer
    }

    /// One event; the answer and the bytes given, none where it is refused.
    pub fn step(&mut self, event: Event, data: &[u8]) -> (Answer, Vec<u8>) {
        let mut buffer = [0; 4096];
        let answer = self.step_into(event, data, &mut buffer);
        let given = if answer.number == 0 { event.answer_length() } else { 0 };
        (answer, buffer[..given].to_vec())
    }

    /// One event's number.
    pub fn number(&mut self, event: Event, data: &[u8]) -> u8 {
        self.step(event, data).0.number
    }

    /// Events that must be done, without data.
    pub fn done(&mut self, events: &[Event]) {
        for event in events {
            assert_eq!(self.number(*event, &[]), 0, "{event:?}");
        }
    }
}

/// The setup of document 01's example, with S0 sixteen a0 and S1 sixteen a1.
pub fn example_setup() -> Setup {
    Setup { page_size: 16, domains: 1, pages: 2, contexts: 1, frames: 2, signatures: 2 }
}

/// The example's signatures.
pub fn signature(k: u8) -> [u8; 16] {
    [0xa0 + k; 16]
}

/// A fresh machine of the example.
pub fn example() -> Machine {
    Machine::new(example_setup(), &[signature(0), signature(1)].concat())
}

/// A part of a page.
pub fn part(off: u16, len: u16) -> Part {
    Part { off, len }
}

/// Eight registers as 64 bytes.
pub fn registers(numbers: [u64; 8]) -> Vec<u8> {
    numbers.iter().flat_map(|number| number.to_be_bytes()).collect()
}

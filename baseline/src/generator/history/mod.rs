//! Histories: traces of mostly granted events, made by running each event as it is chosen and looking at the records.

mod choices;
mod contexts;
mod kernel;
mod pages;
mod refused;

use crate::answer::DONE;
use crate::event::{Event, Part};
use crate::form::HEADER_LENGTH;
use crate::listing::ANSWER_LENGTH;
use crate::monitor::Monitor;
use crate::random::Random;
use crate::records::FrameNumber;
use crate::setup::Setup;
use crate::writer::{write_header, write_record};

/// How often a history takes each of its moves.
#[derive(Clone, Copy)]
pub struct Habits {
    /// Begin, spawn, leave, end, trap, resume.
    pub contexts: usize,
    /// Map, unmap, cloak, uncloak.
    pub pages: usize,
    /// The application's reads and writes.
    pub application: usize,
    /// The kernel's reads and writes of any frame.
    pub kernel: usize,
    /// A page swapped to another frame, as it should be.
    pub swaps: usize,
    /// An old signature, another's, or one byte changed, and then a read.
    pub replays: usize,
    /// A page mapped to a frame in which another is Clear, and then brought in.
    pub crossings: usize,
    /// A private page written and sealed again, so that signatures are used up.
    pub seals: usize,
    /// Events with random numbers within the setup.
    pub wild: usize,
    /// Events with numbers or lengths beyond the setup.
    pub beyond: usize,
}

impl Habits {
    pub const ORDINARY: Habits = Habits {
        contexts: 12,
        pages: 25,
        application: 30,
        kernel: 15,
        swaps: 8,
        replays: 1,
        crossings: 5,
        seals: 3,
        wild: 3,
        beyond: 1,
    };
    pub const SWAPPING: Habits = Habits { swaps: 30, replays: 8, crossings: 10, ..Habits::ORDINARY };
    pub const CROSSING: Habits = Habits { crossings: 40, kernel: 5, wild: 1, ..Habits::ORDINARY };
    pub const SEALING: Habits = Habits { seals: 600, ..Habits::ORDINARY };
    pub const WILD: Habits = Habits { wild: 120, ..Habits::ORDINARY };
    pub const BEYOND: Habits = Habits { beyond: 80, ..Habits::ORDINARY };
}

struct History<'a, 'r> {
    monitor: Monitor<'a>,
    random: &'r mut Random,
    out: Vec<u8>,
    limit: usize,
    full: bool,
}

/// A trace of at most `limit` bytes of records; ends with a kernel read of each frame, as far as there is room.
pub fn history(setup: Setup, supply: &[u8], habits: &Habits, limit: usize, random: &mut Random) -> Vec<u8> {
    let mut frames = vec![0; setup.frames_length()];
    let mut store = vec![0; setup.store_length()];
    let mut out = vec![0; HEADER_LENGTH + supply.len()];
    let (number, _) = write_header(&setup, supply, &mut out);
    assert_eq!(number, DONE, "the setup is in range and the supply fits it");
    let (monitor, _) = Monitor::start(setup, &mut frames, &mut store, supply);
    let limit = limit + out.len();
    let mut history = History { monitor, random, out, limit, full: false };
    history.begin();
    while !history.full {
        history.turn(habits);
    }
    history.look_round();
    history.out
}

impl History<'_, '_> {
    /// Runs an event and puts its record down; from the first that has no room on, the history is full.
    fn push(&mut self, event: Event, data: &[u8]) {
        let mut record = [0; 5 + ANSWER_LENGTH];
        let (number, count) = write_record(&event, data, &mut record);
        assert_eq!(number, DONE, "{event:?} has a place in the trace form");
        if self.out.len() + count > self.limit {
            self.full = true;
            return;
        }
        self.out.extend_from_slice(&record[..count]);
        self.monitor.step::<false>(event, data, &mut [0; ANSWER_LENGTH]);
    }

    /// One move, by the habits. An Empty guest begins first, and a Stopped domain is often ended.
    fn turn(&mut self, habits: &Habits) {
        if self.random.chance(4) || self.running().is_empty() && self.random.chance(60) {
            self.begin();
        }
        if self.random.chance(30) {
            self.end_stopped();
        }
        let weights = [
            habits.contexts,
            habits.pages,
            habits.application,
            habits.kernel,
            habits.swaps,
            habits.replays,
            habits.crossings,
            habits.seals,
            habits.wild,
            habits.beyond,
        ];
        match self.random.weighted(&weights) {
            0 => self.move_contexts(),
            1 => self.move_pages(),
            2 => self.touch_any(),
            3 => self.kernel_touches(),
            4 => self.swap(),
            5 => self.replay(),
            6 => self.cross(),
            7 => self.seal_again(),
            8 => self.wild(),
            _ => self.beyond(),
        }
    }

    /// Reads each frame whole, from any first one on, so that all bytes that the kernel can see are compared.
    fn look_round(&mut self) {
        let frames = self.monitor.setup.frames;
        let first = self.random.below(frames);
        let whole = Part { off: 0, len: self.monitor.setup.page_size as u16 };
        self.limit += 5 * frames;
        for f in 0..frames {
            self.push(Event::KernelRead(FrameNumber(((first + f) % frames) as u8), whole), &[]);
        }
    }
}

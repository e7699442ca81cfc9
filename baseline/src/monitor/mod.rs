//! The monitor core: the fresh start, the step, and the order of its checks.
//!
//! `events` has the fourteen events, `sealing` how pages are sealed and unveiled, `memory` records and bytes by number.

mod events;
mod memory;
mod registers;
mod sealing;

use crate::answer::{Answer, CONDITION, DONE, KIND, LENGTH, NUMBER, ROOM, SETUP, SIGNATURES, STOPPED, UNMAPPED};
use crate::event::Event;
use crate::records::{Context, ContextNumber, Domain, DomainNumber, FrameNumber, PageNumber, Tables, TrapKind};
use crate::setup::Setup;

/// A setup, its records and the memory lent. A caller may put anything in any of them; `step` tests all.
pub struct Monitor<'a> {
    pub setup: Setup,
    pub tables: Tables,
    pub frames: &'a mut [u8],
    pub store: &'a mut [u8],
    pub supply: &'a [u8],
}

/// The seals and unveils that an event has made.
#[derive(Clone, Copy, Default)]
struct Made {
    seals: u8,
    unveils: u8,
}

/// A refusal: its number, and the seals it keeps (0 but for number 8).
struct Refusal {
    number: u8,
    seals: u8,
}

type Outcome = Result<Made, Refusal>;

/// A refusal that keeps nothing.
fn refuse<T>(number: u8) -> Result<T, Refusal> {
    Err(Refusal { number, seals: 0 })
}

/// Refuses with the number unless the condition holds.
fn need(condition: bool, number: u8) -> Result<(), Refusal> {
    if condition {
        Ok(())
    } else {
        refuse(number)
    }
}

/// Whether an optional number is absent or below its bound.
fn below(number: Option<u8>, bound: usize) -> bool {
    number.map_or(true, |n| usize::from(n) < bound)
}

impl<'a> Monitor<'a> {
    /// The fresh start: zeroes the lent frames and store. Refused with 10 it changes no byte; the tables are fresh in both cases.
    pub fn start(setup: Setup, frames: &'a mut [u8], store: &'a mut [u8], supply: &'a [u8]) -> (Monitor<'a>, u8) {
        let monitor = Monitor { setup, tables: Tables::fresh(), frames, store, supply };
        if !monitor.fits() {
            return (monitor, SETUP);
        }
        monitor.frames.fill(0);
        monitor.store.fill(0);
        (monitor, DONE)
    }

    /// One event. SOUND false leaves out the soundness test of the tables, for states that come from `step` alone.
    pub fn step<const SOUND: bool>(&mut self, event: Event, data: &[u8], answer: &mut [u8]) -> Answer {
        if !self.fits() || (SOUND && !self.tables.sound(&self.setup)) {
            return Answer { number: SETUP, seals: 0, unveils: 0, used: 0 };
        }
        let outcome = match self.check_given(&event, data, answer) {
            Ok(()) => self.act(event, data, answer),
            Err(refusal) => Err(refusal),
        };
        let used = self.tables.used;
        match outcome {
            Ok(made) => Answer { number: DONE, seals: made.seals, unveils: made.unveils, used },
            Err(refusal) => Answer { number: refusal.number, seals: refusal.seals, unveils: 0, used },
        }
    }

    /// Check 10 without the tables: the setup in range and each lent length right.
    fn fits(&self) -> bool {
        self.setup.in_range()
            && self.frames.len() == self.setup.frames_length()
            && self.store.len() == self.setup.store_length()
            && self.supply.len() == self.setup.supply_length()
    }

    /// The checks that ask no record, in their order: 1, 2, 3, 11.
    fn check_given(&self, event: &Event, data: &[u8], answer: &[u8]) -> Result<(), Refusal> {
        let masked_interrupt = matches!(event, Event::Trap(_, TrapKind::Interrupt, mask) if *mask != 0);
        need(!masked_interrupt, KIND)?;
        let numbers = event.numbers();
        let within = below(numbers.domain.map(|d| d.0), self.setup.domains)
            && numbers.contexts.iter().all(|t| below(t.map(|t| t.0), self.setup.contexts))
            && below(numbers.page.map(|v| v.0), self.setup.pages)
            && below(numbers.frame.map(|f| f.0), self.setup.frames);
        need(within, NUMBER)?;
        let part_fits = numbers.part.map_or(true, |p| p.len != 0 && p.start() + p.length() <= self.setup.page_size);
        need(part_fits && data.len() == event.data_length(), LENGTH)?;
        need(answer.len() >= event.answer_length(), ROOM)
    }

    /// The event itself; each checks 4, 7, 5 and 6 in this order before anything moves.
    fn act(&mut self, event: Event, data: &[u8], answer: &mut [u8]) -> Outcome {
        match event {
            Event::Begin(d, t) => self.begin(d, t),
            Event::End(d) => self.end(d),
            Event::Map(d, v, f) => self.map(d, v, f),
            Event::Unmap(d, v) => self.unmap(d, v),
            Event::KernelRead(f, part) => self.kernel_read(f, part, answer),
            Event::KernelWrite(f, part) => self.kernel_write(f, part, data),
            Event::Resume(d, t) => self.resume(d, t, data, answer),
            Event::Spawn(t, u) => self.spawn(t, u),
            Event::Leave(t) => self.leave(t),
            Event::Cloak(t, v) => self.cloak(t, v),
            Event::Uncloak(t, v) => self.uncloak(t, v),
            Event::Read(t, v, part) => self.read(t, v, part, answer),
            Event::Write(t, v, part) => self.write(t, v, part, data),
            Event::Trap(t, kind, mask) => self.trap(t, kind, mask, data, answer),
        }
    }

    // Conditions, each with its refusal.

    /// The domain that the context runs in, else 4.
    fn running(&self, t: ContextNumber) -> Result<DomainNumber, Refusal> {
        match self.tables.contexts[t.index()] {
            Context::Running(d) => Ok(d),
            Context::Free | Context::Kept(..) => refuse(CONDITION),
        }
    }

    /// Refuses with 7 where the domain is Stopped.
    fn not_stopped(&self, d: DomainNumber) -> Result<(), Refusal> {
        need(self.tables.domains[d.index()] != Domain::Stopped, STOPPED)
    }

    /// The frame that the page is mapped to, else 5.
    fn mapped(&self, d: DomainNumber, v: PageNumber) -> Result<FrameNumber, Refusal> {
        match self.tables.pages[d.index()][v.index()].mapping {
            Some(f) => Ok(f),
            None => refuse(UNMAPPED),
        }
    }

    /// Refuses with 6 where fewer signatures are left than are needed.
    fn afford(&self, needed: usize) -> Result<(), Refusal> {
        need(usize::from(self.tables.used) + needed <= self.setup.signatures, SIGNATURES)
    }
}

//! Document 01, "Events": the fourteen kinds, what each needs of the data part and of the answer buffer.

use crate::records::{ContextNumber, DomainNumber, FrameNumber, PageNumber, TrapKind};

/// The bytes of eight registers.
pub const REGISTERS_LENGTH: usize = 64;
/// The bytes of one register.
pub const REGISTER_LENGTH: usize = 8;

/// A part of a page: where it starts and how long it is.
#[derive(Clone, Copy, Debug, PartialEq, Eq)]
pub struct Part {
    pub off: u16,
    pub len: u16,
}

impl Part {
    /// The first byte's index.
    pub fn start(self) -> usize {
        usize::from(self.off)
    }

    /// The number of bytes.
    pub fn length(self) -> usize {
        usize::from(self.len)
    }
}

/// One event, its fields in document 01's order.
#[derive(Clone, Copy, Debug, PartialEq, Eq)]
pub enum Event {
    Begin(DomainNumber, ContextNumber),
    End(DomainNumber),
    Map(DomainNumber, PageNumber, FrameNumber),
    Unmap(DomainNumber, PageNumber),
    KernelRead(FrameNumber, Part),
    KernelWrite(FrameNumber, Part),
    Resume(DomainNumber, ContextNumber),
    Spawn(ContextNumber, ContextNumber),
    Leave(ContextNumber),
    Cloak(ContextNumber, PageNumber),
    Uncloak(ContextNumber, PageNumber),
    Read(ContextNumber, PageNumber, Part),
    Write(ContextNumber, PageNumber, Part),
    Trap(ContextNumber, TrapKind, u8),
}

/// The numbers that an event has, each where its kind has one.
#[derive(Clone, Copy, Debug, Default)]
pub struct Numbers {
    pub domain: Option<DomainNumber>,
    pub contexts: [Option<ContextNumber>; 2],
    pub page: Option<PageNumber>,
    pub frame: Option<FrameNumber>,
    pub part: Option<Part>,
}

impl Event {
    /// The kind's number in document 01's table.
    pub fn kind(&self) -> u8 {
        match self {
            Event::Begin(..) => 0,
            Event::End(..) => 1,
            Event::Map(..) => 2,
            Event::Unmap(..) => 3,
            Event::KernelRead(..) => 4,
            Event::KernelWrite(..) => 5,
            Event::Resume(..) => 6,
            Event::Spawn(..) => 7,
            Event::Leave(..) => 8,
            Event::Cloak(..) => 9,
            Event::Uncloak(..) => 10,
            Event::Read(..) => 11,
            Event::Write(..) => 12,
            Event::Trap(..) => 13,
        }
    }

    /// The length that the data part must have.
    pub fn data_length(&self) -> usize {
        match self {
            Event::KernelWrite(_, part) | Event::Write(_, _, part) => part.length(),
            Event::Trap(..) => REGISTERS_LENGTH,
            Event::Resume(..) => REGISTER_LENGTH,
            _ => 0,
        }
    }

    /// The number of bytes that the event gives when it is done.
    pub fn answer_length(&self) -> usize {
        match self {
            Event::KernelRead(_, part) | Event::Read(_, _, part) => part.length(),
            Event::Trap(..) | Event::Resume(..) => REGISTERS_LENGTH,
            _ => 0,
        }
    }

    /// All numbers of the event, for the checks 2 and 3.
    pub fn numbers(&self) -> Numbers {
        let none = Numbers::default();
        match *self {
            Event::Begin(d, t) | Event::Resume(d, t) => Numbers { domain: Some(d), contexts: [Some(t), None], ..none },
            Event::End(d) => Numbers { domain: Some(d), ..none },
            Event::Map(d, v, f) => Numbers { domain: Some(d), page: Some(v), frame: Some(f), ..none },
            Event::Unmap(d, v) => Numbers { domain: Some(d), page: Some(v), ..none },
            Event::KernelRead(f, part) | Event::KernelWrite(f, part) => Numbers { frame: Some(f), part: Some(part), ..none },
            Event::Spawn(t, u) => Numbers { contexts: [Some(t), Some(u)], ..none },
            Event::Leave(t) | Event::Trap(t, _, _) => Numbers { contexts: [Some(t), None], ..none },
            Event::Cloak(t, v) | Event::Uncloak(t, v) => Numbers { contexts: [Some(t), None], page: Some(v), ..none },
            Event::Read(t, v, part) | Event::Write(t, v, part) => {
                Numbers { contexts: [Some(t), None], page: Some(v), part: Some(part), ..none }
            }
        }
    }
}

//! The reader of traces: the header, the signatures, then one record at a time.

use crate::answer::{CUT, KIND, SETUP};
use crate::event::{Event, Part};
use crate::form::{
    head_length, widths, Bits, CONTEXT_WIDTH, DOMAIN_WIDTH, FRAME_WIDTH, HEADER_LENGTH, KIND_WIDTH, PAGE_SIZE_WIDTH, PAGE_WIDTH,
    SIGNATURES_WIDTH,
};
use crate::records::{ContextNumber, DomainNumber, FrameNumber, PageNumber, TrapKind};
use crate::setup::Setup;

/// Kinds 0 to 6 are the kernel's, 7 to 13 the application's; the two above are refused.
const LAST_KIND: u8 = 13;

/// A record: its event and its data.
pub type Record<'a> = (Event, &'a [u8]);

/// The bytes still unread, and the place, which is how many were read. A refused read leaves both.
#[derive(Clone, Copy, Debug)]
pub struct Reader<'a> {
    pub unread: &'a [u8],
    pub place: usize,
}

impl<'a> Reader<'a> {
    /// A reader at the start of a trace.
    pub fn new(trace: &'a [u8]) -> Reader<'a> {
        Reader { unread: trace, place: 0 }
    }

    /// Reads the header's 48 bits; refused with 9 where cut short or where a reserved bit is set.
    pub fn setup(&mut self) -> Result<Setup, u8> {
        self.check_place()?;
        let mut bits = Bits::of(self.unread.get(..HEADER_LENGTH).ok_or(CUT)?);
        let mut one_more = |width| usize::from(bits.take(width)) + 1;
        let setup = Setup {
            page_size: one_more(PAGE_SIZE_WIDTH) * Setup::PAGE_SIZE_STEP,
            domains: one_more(DOMAIN_WIDTH),
            pages: one_more(PAGE_WIDTH),
            contexts: one_more(CONTEXT_WIDTH),
            frames: one_more(FRAME_WIDTH),
            signatures: usize::from(bits.take(SIGNATURES_WIDTH)),
        };
        if !bits.rest_is_zero() {
            return Err(CUT);
        }
        self.pass(HEADER_LENGTH);
        Ok(setup)
    }

    /// Reads the N signatures that follow the 48 bits; refused with 9 where they are not whole. The setup is in range.
    pub fn supply(&mut self, setup: &Setup) -> Result<&'a [u8], u8> {
        self.check_place()?;
        let supply = self.unread.get(..setup.supply_length()).ok_or(CUT)?;
        self.pass(supply.len());
        Ok(supply)
    }

    /// Reads one record, or none at the end. Kinds 14 and 15 are refused with 1 before any 9.
    pub fn record(&mut self) -> Result<Option<Record<'a>>, u8> {
        self.check_place()?;
        let Some(first) = self.unread.first() else {
            return Ok(None);
        };
        let kind = first >> 4;
        if kind > LAST_KIND {
            return Err(KIND);
        }
        let length = head_length(kind);
        let event = event_of(kind, self.unread.get(..length).ok_or(CUT)?)?;
        let whole = length + event.data_length();
        let data = self.unread.get(length..whole).ok_or(CUT)?;
        self.pass(whole);
        Ok(Some((event, data)))
    }

    /// Refuses with 10 a place to which the unread length cannot be added.
    fn check_place(&self) -> Result<(), u8> {
        self.place.checked_add(self.unread.len()).map(|_| ()).ok_or(SETUP)
    }

    /// Goes on by some bytes, at most those unread.
    fn pass(&mut self, bytes: usize) {
        self.unread = &self.unread[bytes..];
        self.place += bytes;
    }
}

/// The event of a record's head, which has whole bytes; refused with 9 where a padding bit is set.
fn event_of(kind: u8, head: &[u8]) -> Result<Event, u8> {
    let mut bits = Bits::of(head);
    bits.take(KIND_WIDTH);
    let mut fields = [0; 4];
    for (field, width) in fields.iter_mut().zip(widths(kind)) {
        *field = bits.take(*width);
    }
    if !bits.rest_is_zero() {
        return Err(CUT);
    }
    Ok(event_with(kind, fields))
}

/// The event of a kind from 0 to 13 with these fields; those that the kind does not have are 0.
fn event_with(kind: u8, [a, b, c, d]: [u16; 4]) -> Event {
    match kind {
        0 => Event::Begin(domain(a), context(b)),
        1 => Event::End(domain(a)),
        2 => Event::Map(domain(a), page(b), frame(c)),
        3 => Event::Unmap(domain(a), page(b)),
        4 => Event::KernelRead(frame(a), part(b, c)),
        5 => Event::KernelWrite(frame(a), part(b, c)),
        6 => Event::Resume(domain(a), context(b)),
        7 => Event::Spawn(context(a), context(b)),
        8 => Event::Leave(context(a)),
        9 => Event::Cloak(context(a), page(b)),
        10 => Event::Uncloak(context(a), page(b)),
        11 => Event::Read(context(a), page(b), part(c, d)),
        12 => Event::Write(context(a), page(b), part(c, d)),
        _ => Event::Trap(context(a), if b == 0 { TrapKind::Interrupt } else { TrapKind::Call }, c as u8),
    }
}

/// The domain of a field of 3 bits.
fn domain(field: u16) -> DomainNumber {
    DomainNumber(field as u8)
}

/// The context of a field of 4 bits.
fn context(field: u16) -> ContextNumber {
    ContextNumber(field as u8)
}

/// The virtual page of a field of 5 bits.
fn page(field: u16) -> PageNumber {
    PageNumber(field as u8)
}

/// The frame of a field of 6 bits.
fn frame(field: u16) -> FrameNumber {
    FrameNumber(field as u8)
}

/// The part of two fields; the trace holds len−1.
fn part(off: u16, len_less_one: u16) -> Part {
    Part { off, len: len_less_one + 1 }
}

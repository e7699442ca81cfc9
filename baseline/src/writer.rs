//! The writer of traces. It answers a number and the count of bytes written, 0 when refused.

use crate::answer::{DONE, LENGTH, NUMBER, ROOM, SETUP};
use crate::event::{Event, Part};
use crate::form::{
    head_length, widths, Bits, CONTEXT_WIDTH, DOMAIN_WIDTH, FRAME_WIDTH, HEADER_LENGTH, KIND_WIDTH, PAGE_SIZE_WIDTH, PAGE_WIDTH,
    RESERVED_WIDTH, SIGNATURES_WIDTH,
};
use crate::records::TrapKind;
use crate::setup::Setup;

/// The largest len and the largest off that their fields hold.
const MAX_LEN: usize = 4096;
const MAX_OFF: usize = 4095;

/// Writes the header and its signatures to the front of `out`; refused with 10 or 11.
pub fn write_header(setup: &Setup, supply: &[u8], out: &mut [u8]) -> (u8, usize) {
    if !setup.in_range() || supply.len() != setup.supply_length() {
        return (SETUP, 0);
    }
    let whole = HEADER_LENGTH + supply.len();
    if out.len() < whole {
        return (ROOM, 0);
    }
    let mut bits = Bits::room(HEADER_LENGTH);
    bits.put((setup.page_size / Setup::PAGE_SIZE_STEP - 1) as u16, PAGE_SIZE_WIDTH);
    bits.put((setup.domains - 1) as u16, DOMAIN_WIDTH);
    bits.put((setup.pages - 1) as u16, PAGE_WIDTH);
    bits.put((setup.contexts - 1) as u16, CONTEXT_WIDTH);
    bits.put((setup.frames - 1) as u16, FRAME_WIDTH);
    bits.put(setup.signatures as u16, SIGNATURES_WIDTH);
    bits.put(0, RESERVED_WIDTH);
    bits.write(&mut out[..HEADER_LENGTH]);
    out[HEADER_LENGTH..whole].copy_from_slice(supply);
    (DONE, whole)
}

/// Writes one record to the front of `out`; refused with 2, 3 or 11, in that order.
pub fn write_record(event: &Event, data: &[u8], out: &mut [u8]) -> (u8, usize) {
    if !numbers_fit(event) {
        return (NUMBER, 0);
    }
    if !event.numbers().part.map_or(true, part_fits) || data.len() != event.data_length() {
        return (LENGTH, 0);
    }
    let head = head_length(event.kind());
    let whole = head + data.len();
    if out.len() < whole {
        return (ROOM, 0);
    }
    let mut bits = Bits::room(head);
    bits.put(u16::from(event.kind()), KIND_WIDTH);
    for (field, width) in fields_of(event).iter().zip(widths(event.kind())) {
        bits.put(*field, *width);
    }
    bits.write(&mut out[..head]);
    out[head..whole].copy_from_slice(data);
    (DONE, whole)
}

/// Whether each domain, context, page and frame number fits its field.
fn numbers_fit(event: &Event) -> bool {
    let numbers = event.numbers();
    numbers.domain.map_or(true, |d| d.index() < Setup::MAX_DOMAINS)
        && numbers.contexts.iter().all(|t| t.map_or(true, |t| t.index() < Setup::MAX_CONTEXTS))
        && numbers.page.map_or(true, |v| v.index() < Setup::MAX_PAGES)
        && numbers.frame.map_or(true, |f| f.index() < Setup::MAX_FRAMES)
}

/// Whether off and len fit their fields.
fn part_fits(part: Part) -> bool {
    (1..=MAX_LEN).contains(&part.length()) && part.start() <= MAX_OFF
}

/// The event's fields in the table's order, as the trace holds them.
fn fields_of(event: &Event) -> [u16; 4] {
    let part = |part: Part| (part.off, part.len - 1);
    match *event {
        Event::Begin(d, t) | Event::Resume(d, t) => [d.0.into(), t.0.into(), 0, 0],
        Event::End(d) => [d.0.into(), 0, 0, 0],
        Event::Map(d, v, f) => [d.0.into(), v.0.into(), f.0.into(), 0],
        Event::Unmap(d, v) => [d.0.into(), v.0.into(), 0, 0],
        Event::KernelRead(f, p) | Event::KernelWrite(f, p) => [f.0.into(), part(p).0, part(p).1, 0],
        Event::Spawn(t, u) => [t.0.into(), u.0.into(), 0, 0],
        Event::Leave(t) => [t.0.into(), 0, 0, 0],
        Event::Cloak(t, v) | Event::Uncloak(t, v) => [t.0.into(), v.0.into(), 0, 0],
        Event::Read(t, v, p) | Event::Write(t, v, p) => [t.0.into(), v.0.into(), part(p).0, part(p).1],
        Event::Trap(t, kind, mask) => [t.0.into(), if kind == TrapKind::Interrupt { 0 } else { 1 }, mask.into(), 0],
    }
}

//! The kernel's reads and writes, and its swaps: done right, done wrong, and into a frame that is taken.

use super::History;
use crate::event::{Event, Part};
use crate::records::{Change, FrameNumber, Place, SignatureNumber};

impl History<'_, '_> {
    /// A kernel read or write of any frame, more often one in which a page is Clear.
    pub(super) fn kernel_touches(&mut self) {
        let frames = self.monitor.setup.frames;
        let named: Vec<_> = (0..frames).filter(|f| self.monitor.tables.frames[*f].is_some()).collect();
        let f = match self.random.any(&named) {
            Some(f) if self.random.chance(60) => f,
            _ => self.random.below(frames),
        };
        let f = FrameNumber(f as u8);
        let part = self.part();
        if self.random.chance(65) {
            self.push(Event::KernelRead(f, part), &[]);
        } else {
            let data = self.data(part);
            self.push(Event::KernelWrite(f, part), &data);
        }
    }

    /// A page taken to another frame with the right signature, then read or written.
    pub(super) fn swap(&mut self) {
        let Some((d, v, page)) = self.page_that(|page| page.place != Place::Public) else {
            return;
        };
        let g = self.frame();
        let signature = match page.place {
            Place::Sealed(signature) => signature,
            Place::Clear(f, change) if self.random.chance(50) => {
                // Bring in seals the page itself: a dirty one with the signature that is next.
                if f == g {
                    return;
                }
                match change {
                    Change::Clean(signature) => signature,
                    Change::Dirty => SignatureNumber(self.monitor.tables.used),
                }
            }
            Place::Clear(f, _) => {
                self.push(Event::KernelRead(f, Part { off: 0, len: 1 }), &[]);
                match self.monitor.tables.pages[d.index()][v.index()].place {
                    Place::Sealed(signature) => signature,
                    _ => return,
                }
            }
            Place::Public => return,
        };
        self.put_signature(g, signature);
        self.push(Event::Map(d, v, g), &[]);
        self.touch(d, v);
    }

    /// A Sealed page brought in where the frame holds another signature, or its own with one byte changed.
    pub(super) fn replay(&mut self) {
        let Some((d, v, page)) = self.page_that(|page| matches!(page.place, Place::Sealed(_))) else {
            return;
        };
        let Place::Sealed(signature) = page.place else {
            return;
        };
        let g = page.mapping.unwrap_or(FrameNumber(0));
        if self.random.chance(50) {
            let other = self.random.below(self.monitor.setup.signatures);
            self.put_signature(g, SignatureNumber(other as u16));
        } else {
            self.put_signature(g, signature);
            let off = self.random.below(self.monitor.setup.page_size) as u16;
            let data = self.random.bytes(1);
            self.push(Event::KernelWrite(g, Part { off, len: 1 }), &data);
        }
        self.push(Event::Map(d, v, g), &[]);
        self.touch(d, v);
    }

    /// A private page mapped to a frame in which another page is Clear, then read or written.
    pub(super) fn cross(&mut self) {
        let Some((d, v, page)) = self.page_that(|page| page.place != Place::Public) else {
            return;
        };
        let others: Vec<_> = (0..self.monitor.setup.frames)
            .map(|f| FrameNumber(f as u8))
            .filter(|f| self.monitor.tables.frames[f.index()].is_some() && page.clear_in() != Some(*f))
            .collect();
        let Some(g) = self.random.any(&others) else {
            return;
        };
        self.push(Event::Map(d, v, g), &[]);
        self.touch(d, v);
    }

    /// One byte written to a private page, and one read by the kernel from the frame that the page is mapped to.
    pub(super) fn seal_again(&mut self) {
        let page = self
            .page_that(|page| page.clear_in().is_some() && page.clear_in() == page.mapping)
            .or_else(|| self.page_that(|page| page.place != Place::Public));
        let Some((d, v, page)) = page else {
            return;
        };
        if let (Some(t), Some(f)) = (self.context_in(d), page.mapping) {
            let off = self.random.below(self.monitor.setup.page_size) as u16;
            let byte = self.random.bytes(1);
            self.push(Event::Write(t, v, Part { off, len: 1 }), &byte);
            self.push(Event::KernelRead(f, Part { off, len: 1 }), &[]);
        }
    }

    /// Writes a signature of the supply to a frame; where there is no such signature, random bytes.
    pub(super) fn put_signature(&mut self, f: FrameNumber, signature: SignatureNumber) {
        let p = self.monitor.setup.page_size;
        let at = usize::from(signature.0) * p;
        let bytes = match self.monitor.supply.get(at..at + p) {
            Some(bytes) => bytes.to_vec(),
            None => self.random.bytes(p),
        };
        if self.random.chance(80) {
            self.push(Event::KernelWrite(f, Part { off: 0, len: p as u16 }), &bytes);
            return;
        }
        let cut = self.random.range(1, p - 1);
        self.push(Event::KernelWrite(f, Part { off: 0, len: cut as u16 }), &bytes[..cut]);
        self.push(Event::KernelWrite(f, Part { off: cut as u16, len: (p - cut) as u16 }), &bytes[cut..]);
    }
}

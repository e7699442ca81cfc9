//! Document 01, "Sealing and unveiling".

use super::{Made, Monitor, Outcome, Refusal};
use crate::answer::UNVEILING;
use crate::records::{Change, Domain, DomainNumber, FrameNumber, PageNumber, Place, SignatureNumber};

impl Monitor<'_> {
    /// Seals the page Clear in the frame, if there is one; the number of seals made. A signature is left if it is dirty.
    pub(super) fn seal(&mut self, f: FrameNumber) -> u8 {
        let Some((d, v)) = self.tables.frames[f.index()] else {
            return 0;
        };
        let signature = match self.page(d, v).place {
            Place::Clear(_, Change::Clean(signature)) => signature,
            _ => self.next_signature(),
        };
        let (frame, slot, supply) = (self.frame_range(f), self.slot_range(d, v), self.signature_range(signature));
        self.store[slot].copy_from_slice(&self.frames[frame.clone()]);
        self.frames[frame].copy_from_slice(&self.supply[supply]);
        self.page(d, v).place = Place::Sealed(signature);
        self.tables.frames[f.index()] = None;
        1
    }

    /// Takes the next unused signature.
    pub(super) fn next_signature(&mut self) -> SignatureNumber {
        let signature = SignatureNumber(self.tables.used);
        self.tables.used += 1;
        signature
    }

    /// Unveils the Sealed page at a frame that names none. False, and its domain is Stopped, if the frame is not its signature.
    pub(super) fn unveil(&mut self, d: DomainNumber, v: PageNumber, signature: SignatureNumber, f: FrameNumber) -> bool {
        let (frame, slot) = (self.frame_range(f), self.slot_range(d, v));
        if self.frames[frame.clone()] != self.supply[self.signature_range(signature)] {
            *self.domain(d) = Domain::Stopped;
            return false;
        }
        self.frames[frame].copy_from_slice(&self.store[slot]);
        self.page(d, v).place = Place::Clear(f, Change::Clean(signature));
        self.tables.frames[f.index()] = Some((d, v));
        true
    }

    /// Brings in the private page, mapped to the frame g: the page itself is sealed first, then what is Clear in g.
    pub(super) fn bring_in(&mut self, d: DomainNumber, v: PageNumber, g: FrameNumber) -> Outcome {
        let elsewhere = self.page(d, v).clear_in();
        if elsewhere == Some(g) {
            return Ok(Made::default());
        }
        self.afford(elsewhere.map_or(0, |h| self.need_of(h)) + self.need_of(g))?;
        let mut seals = elsewhere.map_or(0, |h| self.seal(h));
        seals += self.seal(g);
        let Place::Sealed(signature) = self.page(d, v).place else {
            unreachable!("a private page that is not Clear is Sealed");
        };
        if self.unveil(d, v, signature, g) {
            Ok(Made { seals, unveils: 1 })
        } else {
            Err(Refusal { number: UNVEILING, seals })
        }
    }

    /// The signatures that sealing the frame would take: one if the page Clear in it is dirty.
    pub(super) fn need_of(&self, f: FrameNumber) -> usize {
        match self.tables.frames[f.index()] {
            Some((d, v)) => match self.tables.pages[d.index()][v.index()].place {
                Place::Clear(_, Change::Dirty) => 1,
                _ => 0,
            },
            None => 0,
        }
    }

    /// Zeroes the frame where the page is Clear, which then names none, and its slot.
    pub(super) fn forget(&mut self, d: DomainNumber, v: PageNumber) {
        if let Some(f) = self.page(d, v).clear_in() {
            self.frame_bytes(f).fill(0);
            self.tables.frames[f.index()] = None;
        }
        let slot = self.slot_range(d, v);
        self.store[slot].fill(0);
    }
}

//! The fourteen events. Each checks what it needs before anything moves.

use super::registers::{give_registers, register_of, registers_of, shown};
use super::{need, refuse, Made, Monitor, Outcome};
use crate::answer::CONDITION;
use crate::event::Part;
use crate::records::{Change, Context, ContextNumber, Domain, DomainNumber, FrameNumber, Page, PageNumber, Place, TrapKind};

// The kernel's events.
impl Monitor<'_> {
    /// Kind 0: the domain becomes Live and the context runs in it.
    pub(super) fn begin(&mut self, d: DomainNumber, t: ContextNumber) -> Outcome {
        need(*self.domain(d) == Domain::Empty && *self.context(t) == Context::Free, CONDITION)?;
        *self.domain(d) = Domain::Live;
        *self.context(t) = Context::Running(d);
        Ok(Made::default())
    }

    /// Kind 1: zeroes what the domain had in frames and store, frees its contexts and empties it.
    pub(super) fn end(&mut self, d: DomainNumber) -> Outcome {
        need(*self.domain(d) != Domain::Empty, CONDITION)?;
        for v in 0..self.setup.pages {
            let v = PageNumber(v as u8);
            self.forget(d, v);
            *self.page(d, v) = Page::FRESH;
        }
        for context in self.tables.contexts.iter_mut() {
            if matches!(context, Context::Running(e) | Context::Kept(e, _, _) if *e == d) {
                *context = Context::Free;
            }
        }
        *self.domain(d) = Domain::Empty;
        Ok(Made::default())
    }

    /// Kind 2: sets the mapping; the page's place stays.
    pub(super) fn map(&mut self, d: DomainNumber, v: PageNumber, f: FrameNumber) -> Outcome {
        need(*self.domain(d) != Domain::Empty, CONDITION)?;
        self.page(d, v).mapping = Some(f);
        Ok(Made::default())
    }

    /// Kind 3: removes the mapping; the page's place stays.
    pub(super) fn unmap(&mut self, d: DomainNumber, v: PageNumber) -> Outcome {
        need(*self.domain(d) != Domain::Empty, CONDITION)?;
        self.mapped(d, v)?;
        self.page(d, v).mapping = None;
        Ok(Made::default())
    }

    /// Kind 4: seals what is Clear in the frame and gives its bytes.
    pub(super) fn kernel_read(&mut self, f: FrameNumber, part: Part, answer: &mut [u8]) -> Outcome {
        self.afford(self.need_of(f))?;
        let seals = self.seal(f);
        self.give(f, part, answer);
        Ok(Made { seals, unveils: 0 })
    }

    /// Kind 5: seals what is Clear in the frame and stores the data.
    pub(super) fn kernel_write(&mut self, f: FrameNumber, part: Part, data: &[u8]) -> Outcome {
        self.afford(self.need_of(f))?;
        let seals = self.seal(f);
        self.put(f, part, data);
        Ok(Made { seals, unveils: 0 })
    }

    /// Kind 6: the context runs again and is given its registers; after a call, register 0 is the data value.
    pub(super) fn resume(&mut self, d: DomainNumber, t: ContextNumber, data: &[u8], answer: &mut [u8]) -> Outcome {
        let Context::Kept(e, kind, mut registers) = *self.context(t) else {
            return refuse(CONDITION);
        };
        need(e == d, CONDITION)?;
        self.not_stopped(d)?;
        if kind == TrapKind::Call {
            registers[0] = register_of(data);
        }
        give_registers(&registers, answer);
        *self.context(t) = Context::Running(d);
        Ok(Made::default())
    }
}

// The application's events; each belongs to the context's domain.
impl Monitor<'_> {
    /// Kind 7: another context runs in the same domain.
    pub(super) fn spawn(&mut self, t: ContextNumber, u: ContextNumber) -> Outcome {
        let d = self.running(t)?;
        need(*self.context(u) == Context::Free, CONDITION)?;
        self.not_stopped(d)?;
        *self.context(u) = Context::Running(d);
        Ok(Made::default())
    }

    /// Kind 8: the context is Free. Its domain stays as it is, even where this was its last context.
    pub(super) fn leave(&mut self, t: ContextNumber) -> Outcome {
        let d = self.running(t)?;
        self.not_stopped(d)?;
        *self.context(t) = Context::Free;
        Ok(Made::default())
    }

    /// Kind 9: the page becomes private: Clear, zero and dirty in the frame that it is mapped to.
    pub(super) fn cloak(&mut self, t: ContextNumber, v: PageNumber) -> Outcome {
        let d = self.running(t)?;
        need(self.page(d, v).place == Place::Public, CONDITION)?;
        self.not_stopped(d)?;
        let f = self.mapped(d, v)?;
        self.afford(self.need_of(f))?;
        let seals = self.seal(f);
        self.frame_bytes(f).fill(0);
        self.page(d, v).place = Place::Clear(f, Change::Dirty);
        self.tables.frames[f.index()] = Some((d, v));
        Ok(Made { seals, unveils: 0 })
    }

    /// Kind 10: the page becomes Public, and no byte of it stays. Its mapping stays.
    pub(super) fn uncloak(&mut self, t: ContextNumber, v: PageNumber) -> Outcome {
        let d = self.running(t)?;
        need(self.page(d, v).place != Place::Public, CONDITION)?;
        self.not_stopped(d)?;
        self.forget(d, v);
        self.page(d, v).place = Place::Public;
        Ok(Made::default())
    }

    /// Kind 11: gives bytes of the page; of a Public one as a kernel read of the mapped frame.
    pub(super) fn read(&mut self, t: ContextNumber, v: PageNumber, part: Part, answer: &mut [u8]) -> Outcome {
        let d = self.running(t)?;
        self.not_stopped(d)?;
        let f = self.mapped(d, v)?;
        if self.page(d, v).place == Place::Public {
            return self.kernel_read(f, part, answer);
        }
        let made = self.bring_in(d, v, f)?;
        self.give(f, part, answer);
        Ok(made)
    }

    /// Kind 12: stores the data in the page and marks it dirty; of a Public one as a kernel write of the mapped frame.
    pub(super) fn write(&mut self, t: ContextNumber, v: PageNumber, part: Part, data: &[u8]) -> Outcome {
        let d = self.running(t)?;
        self.not_stopped(d)?;
        let f = self.mapped(d, v)?;
        if self.page(d, v).place == Place::Public {
            return self.kernel_write(f, part, data);
        }
        let made = self.bring_in(d, v, f)?;
        self.put(f, part, data);
        self.page(d, v).place = Place::Clear(f, Change::Dirty);
        Ok(made)
    }

    /// Kind 13: the context is Kept with the registers of the data; those shown are given, the others as zero.
    pub(super) fn trap(&mut self, t: ContextNumber, kind: TrapKind, mask: u8, data: &[u8], answer: &mut [u8]) -> Outcome {
        let d = self.running(t)?;
        self.not_stopped(d)?;
        let registers = registers_of(data);
        give_registers(&shown(&registers, kind, mask), answer);
        *self.context(t) = Context::Kept(d, kind, registers);
        Ok(Made::default())
    }
}

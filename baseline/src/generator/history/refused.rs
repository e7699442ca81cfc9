//! Events that are likely refused.

use super::History;
use crate::event::{Event, Part};
use crate::records::{ContextNumber, DomainNumber, FrameNumber, PageNumber, TrapKind};
use crate::setup::Setup;

impl History<'_, '_> {
    /// An event of any kind with random numbers within the setup.
    pub(super) fn wild(&mut self) {
        let kind = self.random.below(14);
        let setup = self.monitor.setup;
        let numbers =
            [setup.domains, setup.contexts, setup.contexts, setup.pages, setup.frames].map(|bound| self.random.below(bound) as u8);
        let part = self.part();
        self.any_event(kind, numbers, part);
    }

    /// An event of any kind with random numbers, off and len of the whole fields, or just beyond the setup.
    pub(super) fn beyond(&mut self) {
        let kind = self.random.below(14);
        let setup = self.monitor.setup;
        let mut numbers = [0; 5];
        let bounds = [
            (setup.domains, Setup::MAX_DOMAINS),
            (setup.contexts, Setup::MAX_CONTEXTS),
            (setup.contexts, Setup::MAX_CONTEXTS),
            (setup.pages, Setup::MAX_PAGES),
            (setup.frames, Setup::MAX_FRAMES),
        ];
        for (number, (within, field)) in numbers.iter_mut().zip(bounds) {
            *number = match self.random.weighted(&[70, 15, 15]) {
                0 => self.random.below(within),
                1 => within.min(field - 1),
                _ => self.random.below(field),
            } as u8;
        }
        let part = self.part_beyond();
        self.any_event(kind, numbers, part);
    }

    /// The event of a kind with these numbers and random data; of traps any mask.
    pub(super) fn any_event(&mut self, kind: usize, [d, t, u, v, f]: [u8; 5], part: Part) {
        let (d, t, u) = (DomainNumber(d), ContextNumber(t), ContextNumber(u));
        let (v, f) = (PageNumber(v), FrameNumber(f));
        let event = match kind {
            0 => Event::Begin(d, t),
            1 => Event::End(d),
            2 => Event::Map(d, v, f),
            3 => Event::Unmap(d, v),
            4 => Event::KernelRead(f, part),
            5 => Event::KernelWrite(f, part),
            6 => Event::Resume(d, t),
            7 => Event::Spawn(t, u),
            8 => Event::Leave(t),
            9 => Event::Cloak(t, v),
            10 => Event::Uncloak(t, v),
            11 => Event::Read(t, v, part),
            12 => Event::Write(t, v, part),
            _ => {
                let trap_kind = self.random.pick(&[TrapKind::Interrupt, TrapKind::Call]);
                let mask = self.random.pick(&[0, 1, 0x80, 0xff, 0x81]);
                Event::Trap(t, trap_kind, mask)
            }
        };
        let data = self.random.bytes(event.data_length());
        self.push(event, &data);
    }
}

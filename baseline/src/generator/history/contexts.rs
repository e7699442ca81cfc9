//! Moves of domains and contexts.

use super::History;
use crate::event::Event;
use crate::records::{Context, ContextNumber, Domain, TrapKind};

impl History<'_, '_> {
    /// Begins an Empty domain in a Free context, where there are both.
    pub(super) fn begin(&mut self) {
        let domains: Vec<_> = self.domains_that_are(|domain| domain == Domain::Empty);
        if let (Some(d), Some(t)) = (self.random.any(&domains), self.free_context()) {
            self.push(Event::Begin(d, t), &[]);
        }
    }

    /// Ends a Stopped domain, where there is one.
    pub(super) fn end_stopped(&mut self) {
        let stopped = self.domains_that_are(|domain| domain == Domain::Stopped);
        if let Some(d) = self.random.any(&stopped) {
            self.push(Event::End(d), &[]);
        }
    }

    /// Spawn, leave, trap, resume or, seldom, end.
    pub(super) fn move_contexts(&mut self) {
        let running = self.running();
        match (self.random.weighted(&[20, 8, 35, 35, 3]), self.random.any(&running)) {
            (0, Some((t, _))) => {
                if let Some(u) = self.free_context() {
                    self.push(Event::Spawn(t, u), &[]);
                }
            }
            (1, Some((t, _))) if running.len() > 1 => self.push(Event::Leave(t), &[]),
            (2, Some((t, _))) => self.trap(t),
            (4, Some((_, d))) => self.push(Event::End(d), &[]),
            _ => self.resume(),
        }
    }

    /// A call with any mask, or an interrupt with mask 0.
    pub(super) fn trap(&mut self, t: ContextNumber) {
        let registers = self.random.bytes(64);
        if self.random.chance(60) {
            let mask = self.random.word() as u8;
            self.push(Event::Trap(t, TrapKind::Call, mask), &registers);
        } else {
            self.push(Event::Trap(t, TrapKind::Interrupt, 0), &registers);
        }
    }

    /// Resumes a Kept context in its own domain.
    pub(super) fn resume(&mut self) {
        let kept: Vec<_> = (0..self.monitor.setup.contexts)
            .filter_map(|t| match self.monitor.tables.contexts[t] {
                Context::Kept(d, _, _) => Some((d, ContextNumber(t as u8))),
                _ => None,
            })
            .collect();
        if let Some((d, t)) = self.random.any(&kept) {
            let value = self.random.bytes(8);
            self.push(Event::Resume(d, t), &value);
        }
    }
}

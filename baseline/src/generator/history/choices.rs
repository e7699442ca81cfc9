//! What a history chooses from: pages, contexts and frames in some condition, parts of pages, and data.

use super::History;
use crate::event::Part;
use crate::records::{Context, ContextNumber, Domain, DomainNumber, FrameNumber, Page, PageNumber};

/// A page with its domain's number and its own.
pub(super) type At = (DomainNumber, PageNumber, Page);

impl History<'_, '_> {
    /// Pages of domains that are not Empty: one for which the condition holds.
    pub(super) fn page_that(&mut self, holds: impl Fn(&Page) -> bool) -> Option<At> {
        let setup = self.monitor.setup;
        let mut pages = Vec::new();
        for d in 0..setup.domains {
            for v in 0..setup.pages {
                let page = self.monitor.tables.pages[d][v];
                if self.monitor.tables.domains[d] != Domain::Empty && holds(&page) {
                    pages.push((DomainNumber(d as u8), PageNumber(v as u8), page));
                }
            }
        }
        self.random.any(&pages)
    }

    /// The domains in a condition.
    pub(super) fn domains_that_are(&self, holds: impl Fn(Domain) -> bool) -> Vec<DomainNumber> {
        (0..self.monitor.setup.domains).filter(|d| holds(self.monitor.tables.domains[*d])).map(|d| DomainNumber(d as u8)).collect()
    }

    /// The Running contexts, each with its domain.
    pub(super) fn running(&self) -> Vec<(ContextNumber, DomainNumber)> {
        (0..self.monitor.setup.contexts)
            .filter_map(|t| match self.monitor.tables.contexts[t] {
                Context::Running(d) => Some((ContextNumber(t as u8), d)),
                _ => None,
            })
            .collect()
    }

    /// A context that runs in the domain.
    pub(super) fn context_in(&mut self, d: DomainNumber) -> Option<ContextNumber> {
        let here: Vec<_> = self.running().into_iter().filter(|(_, e)| *e == d).map(|(t, _)| t).collect();
        self.random.any(&here)
    }

    /// A Free context.
    pub(super) fn free_context(&mut self) -> Option<ContextNumber> {
        let free: Vec<_> = (0..self.monitor.setup.contexts)
            .filter(|t| self.monitor.tables.contexts[*t] == Context::Free)
            .map(|t| ContextNumber(t as u8))
            .collect();
        self.random.any(&free)
    }

    /// A frame, mostly one that names no page.
    pub(super) fn frame(&mut self) -> FrameNumber {
        let frames = self.monitor.setup.frames;
        let unnamed: Vec<_> = (0..frames).filter(|f| self.monitor.tables.frames[*f].is_none()).collect();
        match self.random.any(&unnamed) {
            Some(f) if self.random.chance(80) => FrameNumber(f as u8),
            _ => FrameNumber(self.random.below(frames) as u8),
        }
    }

    /// A part of a page: of few bytes, up to the page's end, or the whole page.
    pub(super) fn part(&mut self) -> Part {
        let p = self.monitor.setup.page_size;
        let off = self.random.below(p);
        let (off, len) = match self.random.weighted(&[60, 15, 15, 10]) {
            0 => (off, self.random.range(1, (p - off).min(16))),
            1 => (off, p - off),
            2 if p <= 256 => (0, p),
            _ => (p - 1, 1),
        };
        Part { off: off as u16, len: len as u16 }
    }

    /// A part that may go over the page's end, by one or by much.
    pub(super) fn part_beyond(&mut self) -> Part {
        let p = self.monitor.setup.page_size;
        let off = self.random.below(p);
        let (off, len) = match self.random.weighted(&[40, 20, 20, 10, 10]) {
            0 => return self.part(),
            1 => (off, p - off + 1),
            2 => (p.min(4095), 1),
            3 => (self.random.below(4096), self.random.range(1, 64)),
            _ => (4095, 1 + self.random.below(2) * 63),
        };
        Part { off: off as u16, len: len.min(4096) as u16 }
    }

    /// Data for a part: random, all zero, or what a frame is likely to hold already.
    pub(super) fn data(&mut self, part: Part) -> Vec<u8> {
        let p = self.monitor.setup.page_size;
        match self.random.weighted(&[60, 25, 15]) {
            0 => self.random.bytes(part.length()),
            1 => vec![0; part.length()],
            _ => {
                let frame = self.random.below(self.monitor.setup.frames) * p + part.start();
                self.monitor.frames[frame..frame + part.length()].to_vec()
            }
        }
    }
}

//! Moves of pages, and the application's reads and writes.

use super::History;
use crate::event::Event;
use crate::records::{DomainNumber, PageNumber, Place};

impl History<'_, '_> {
    /// Map, cloak, unmap or uncloak.
    pub(super) fn move_pages(&mut self) {
        match self.random.weighted(&[50, 40, 4, 6]) {
            0 => self.map(),
            1 => self.cloak(),
            2 => {
                if let Some((d, v, _)) = self.page_that(|page| page.mapping.is_some()) {
                    self.push(Event::Unmap(d, v), &[]);
                }
            }
            _ => {
                if let Some((d, v, _)) = self.page_that(|page| page.place != Place::Public) {
                    if let Some(t) = self.context_in(d) {
                        self.push(Event::Uncloak(t, v), &[]);
                    }
                }
            }
        }
    }

    /// Maps a page, rather an unmapped one and to a frame that names none.
    pub(super) fn map(&mut self) {
        let page = self.page_that(|page| page.mapping.is_none()).or_else(|| self.page_that(|_| true));
        if let Some((d, v, _)) = page {
            let f = self.frame();
            self.push(Event::Map(d, v, f), &[]);
        }
    }

    /// Cloaks a mapped Public page.
    pub(super) fn cloak(&mut self) {
        if let Some((d, v, _)) = self.page_that(|page| page.place == Place::Public && page.mapping.is_some()) {
            if let Some(t) = self.context_in(d) {
                self.push(Event::Cloak(t, v), &[]);
            }
        }
    }

    /// An application read or write, mostly of a page that is Clear where it is mapped.
    pub(super) fn touch_any(&mut self) {
        let page = match self.random.weighted(&[60, 20, 20]) {
            0 => self.page_that(|page| page.clear_in().is_some() && page.clear_in() == page.mapping),
            1 => self.page_that(|page| page.place == Place::Public && page.mapping.is_some()),
            _ => self.page_that(|page| page.mapping.is_some()),
        };
        if let Some((d, v, _)) = page {
            self.touch(d, v);
        }
    }

    /// An application read or write of the page, by any context that runs in its domain.
    pub(super) fn touch(&mut self, d: DomainNumber, v: PageNumber) {
        let Some(t) = self.context_in(d) else {
            return;
        };
        let part = self.part();
        if self.random.chance(50) {
            self.push(Event::Read(t, v, part), &[]);
        } else {
            let data = self.data(part);
            self.push(Event::Write(t, v, part), &data);
        }
    }
}

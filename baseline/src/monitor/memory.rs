//! Records and bytes by number. The numbers are within the sizes.

use super::Monitor;
use crate::event::Part;
use crate::records::{Context, ContextNumber, Domain, DomainNumber, FrameNumber, Page, PageNumber, SignatureNumber};
use std::ops::Range;

impl Monitor<'_> {
    /// The domain's record.
    pub(super) fn domain(&mut self, d: DomainNumber) -> &mut Domain {
        &mut self.tables.domains[d.index()]
    }

    /// The context's record.
    pub(super) fn context(&mut self, t: ContextNumber) -> &mut Context {
        &mut self.tables.contexts[t.index()]
    }

    /// The page's record.
    pub(super) fn page(&mut self, d: DomainNumber, v: PageNumber) -> &mut Page {
        &mut self.tables.pages[d.index()][v.index()]
    }

    /// The frame's bytes.
    pub(super) fn frame_bytes(&mut self, f: FrameNumber) -> &mut [u8] {
        let range = self.frame_range(f);
        &mut self.frames[range]
    }

    /// Where the frame lies in the frames.
    pub(super) fn frame_range(&self, f: FrameNumber) -> Range<usize> {
        let p = self.setup.page_size;
        f.index() * p..f.index() * p + p
    }

    /// Where the page's slot lies in the store. Document 01 leaves the slots' order open: by domain, then by page.
    pub(super) fn slot_range(&self, d: DomainNumber, v: PageNumber) -> Range<usize> {
        let p = self.setup.page_size;
        let slot = d.index() * self.setup.pages + v.index();
        slot * p..slot * p + p
    }

    /// Where the signature lies in the supply.
    pub(super) fn signature_range(&self, k: SignatureNumber) -> Range<usize> {
        let p = self.setup.page_size;
        let k = usize::from(k.0);
        k * p..k * p + p
    }

    /// Copies the part of the frame to the front of the answer buffer.
    pub(super) fn give(&self, f: FrameNumber, part: Part, answer: &mut [u8]) {
        let from = self.frame_range(f).start + part.start();
        answer[..part.length()].copy_from_slice(&self.frames[from..from + part.length()]);
    }

    /// Copies the data to the part of the frame.
    pub(super) fn put(&mut self, f: FrameNumber, part: Part, data: &[u8]) {
        let to = self.frame_range(f).start + part.start();
        self.frames[to..to + part.length()].copy_from_slice(data);
    }
}

//! Document 01, "Sizes": the setup, its bounds, and the lengths of the lent memory.

/// The sizes of one run: P, D, V, T, F and N.
#[derive(Clone, Copy, Debug, PartialEq, Eq)]
pub struct Setup {
    /// P, the bytes of a page.
    pub page_size: usize,
    /// D, the domains.
    pub domains: usize,
    /// V, the virtual pages of each domain.
    pub pages: usize,
    /// T, the contexts.
    pub contexts: usize,
    /// F, the frames.
    pub frames: usize,
    /// N, the signatures of the supply.
    pub signatures: usize,
}

impl Setup {
    pub const MIN_PAGE_SIZE: usize = 16;
    pub const MAX_PAGE_SIZE: usize = 4096;
    pub const PAGE_SIZE_STEP: usize = 16;
    pub const MAX_DOMAINS: usize = 8;
    pub const MAX_PAGES: usize = 32;
    pub const MAX_CONTEXTS: usize = 16;
    pub const MAX_FRAMES: usize = 64;
    pub const MAX_SIGNATURES: usize = 65_535;

    /// Whether every size is within its bounds.
    pub fn in_range(&self) -> bool {
        (Self::MIN_PAGE_SIZE..=Self::MAX_PAGE_SIZE).contains(&self.page_size)
            && self.page_size % Self::PAGE_SIZE_STEP == 0
            && (1..=Self::MAX_DOMAINS).contains(&self.domains)
            && (1..=Self::MAX_PAGES).contains(&self.pages)
            && (1..=Self::MAX_CONTEXTS).contains(&self.contexts)
            && (1..=Self::MAX_FRAMES).contains(&self.frames)
            && self.signatures <= Self::MAX_SIGNATURES
    }

    /// F·P, the length of the lent frames. The setup is in range.
    pub fn frames_length(&self) -> usize {
        self.frames * self.page_size
    }

    /// D·V·P, the length of the lent store. The setup is in range.
    pub fn store_length(&self) -> usize {
        self.domains * self.pages * self.page_size
    }

    /// N·P, the length of the lent supply. The setup is in range.
    pub fn supply_length(&self) -> usize {
        self.signatures * self.page_size
    }
}

//! Document 01, "What the records say": domains, contexts, pages and frames, and when a state is sound.

use crate::setup::Setup;

/// The number of a domain, an address space.
#[derive(Clone, Copy, Debug, PartialEq, Eq)]
pub struct DomainNumber(pub u8);

/// The number of a virtual page within its domain.
#[derive(Clone, Copy, Debug, PartialEq, Eq)]
pub struct PageNumber(pub u8);

/// The number of a frame, a physical page.
#[derive(Clone, Copy, Debug, PartialEq, Eq)]
pub struct FrameNumber(pub u8);

/// The number of a context.
#[derive(Clone, Copy, Debug, PartialEq, Eq)]
pub struct ContextNumber(pub u8);

/// The number of a signature of the supply.
#[derive(Clone, Copy, Debug, PartialEq, Eq)]
pub struct SignatureNumber(pub u16);

impl DomainNumber {
    /// Its index in the tables.
    pub fn index(self) -> usize {
        usize::from(self.0)
    }
}

impl PageNumber {
    /// Its index in the tables.
    pub fn index(self) -> usize {
        usize::from(self.0)
    }
}

impl FrameNumber {
    /// Its index in the tables.
    pub fn index(self) -> usize {
        usize::from(self.0)
    }
}

impl ContextNumber {
    /// Its index in the tables.
    pub fn index(self) -> usize {
        usize::from(self.0)
    }
}

#[derive(Clone, Copy, Debug, PartialEq, Eq)]
pub enum Domain {
    Empty,
    Live,
    Stopped,
}

/// An interrupt shows no register; a call shows those of its mask.
#[derive(Clone, Copy, Debug, PartialEq, Eq)]
pub enum TrapKind {
    Interrupt,
    Call,
}

/// The eight 64-bit registers of a context.
pub type Registers = [u64; 8];

#[derive(Clone, Copy, Debug, PartialEq, Eq)]
pub enum Context {
    Free,
    Running(DomainNumber),
    Kept(DomainNumber, TrapKind, Registers),
}

/// Whether a Clear page was written since it was last sealed; a clean one keeps its signature.
#[derive(Clone, Copy, Debug, PartialEq, Eq)]
pub enum Change {
    Dirty,
    Clean(SignatureNumber),
}

#[derive(Clone, Copy, Debug, PartialEq, Eq)]
pub enum Place {
    Public,
    Clear(FrameNumber, Change),
    Sealed(SignatureNumber),
}

/// A page's mapping (a frame, or none) and its place.
#[derive(Clone, Copy, Debug, PartialEq, Eq)]
pub struct Page {
    pub mapping: Option<FrameNumber>,
    pub place: Place,
}

impl Page {
    /// A page as freshly started: Public and unmapped.
    pub const FRESH: Page = Page { mapping: None, place: Place::Public };

    /// The frame that the page is Clear in, if it is Clear.
    pub fn clear_in(&self) -> Option<FrameNumber> {
        match self.place {
            Place::Clear(frame, _) => Some(frame),
            Place::Public | Place::Sealed(_) => None,
        }
    }
}

/// The one page Clear in a frame, or none.
pub type Named = Option<(DomainNumber, PageNumber)>;

/// All records, with room for the largest setup.
#[derive(Clone, Debug, PartialEq, Eq)]
pub struct Tables {
    pub domains: [Domain; Setup::MAX_DOMAINS],
    pub contexts: [Context; Setup::MAX_CONTEXTS],
    pub pages: [[Page; Setup::MAX_PAGES]; Setup::MAX_DOMAINS],
    pub frames: [Named; Setup::MAX_FRAMES],
    /// The signatures used since the fresh start.
    pub used: u16,
}

impl Tables {
    /// The records as freshly started.
    pub fn fresh() -> Tables {
        Tables {
            domains: [Domain::Empty; Setup::MAX_DOMAINS],
            contexts: [Context::Free; Setup::MAX_CONTEXTS],
            pages: [[Page::FRESH; Setup::MAX_PAGES]; Setup::MAX_DOMAINS],
            frames: [None; Setup::MAX_FRAMES],
            used: 0,
        }
    }

    /// Whether the state is sound under a setup that is in range.
    pub fn sound(&self, setup: &Setup) -> bool {
        usize::from(self.used) <= setup.signatures
            && self.domains[setup.domains..].iter().all(|d| *d == Domain::Empty)
            && self.contexts_sound(setup)
            && self.pages_sound(setup)
            && self.frames_sound(setup)
    }

    /// A Kept or Running context's domain is not Empty; a context past T is Free.
    fn contexts_sound(&self, setup: &Setup) -> bool {
        let (within, past) = self.contexts.split_at(setup.contexts);
        within.iter().all(|context| match context {
            Context::Free => true,
            Context::Running(d) | Context::Kept(d, _, _) => d.index() < setup.domains && self.domains[d.index()] != Domain::Empty,
        }) && past.iter().all(|context| *context == Context::Free)
    }

    /// Each page within the sizes is sound; an Empty domain's pages, and those past V, are as freshly started.
    fn pages_sound(&self, setup: &Setup) -> bool {
        self.pages.iter().enumerate().all(|(d, pages)| {
            let kept = if self.domains[d] == Domain::Empty { 0 } else { setup.pages };
            let (within, past) = pages.split_at(kept);
            within.iter().enumerate().all(|(v, page)| self.page_sound(setup, d, v, page))
                && past.iter().all(|page| *page == Page::FRESH)
        })
    }

    /// The page's numbers are within the sizes, and if it is Clear its frame names it.
    fn page_sound(&self, setup: &Setup, d: usize, v: usize, page: &Page) -> bool {
        let mapping = page.mapping.map_or(true, |frame| frame.index() < setup.frames);
        mapping
            && match page.place {
                Place::Public => true,
                Place::Sealed(signature) => signature.0 < self.used,
                Place::Clear(frame, change) => {
                    let signature = match change {
                        Change::Dirty => true,
                        Change::Clean(signature) => signature.0 < self.used,
                    };
                    signature && frame.index() < setup.frames && self.names(frame, d, v)
                }
            }
    }

    /// Whether the frame names this page.
    fn names(&self, frame: FrameNumber, d: usize, v: usize) -> bool {
        self.frames[frame.index()].is_some_and(|(domain, page)| domain.index() == d && page.index() == v)
    }

    /// Each page that a frame names is Clear in that frame; a frame past F names none.
    fn frames_sound(&self, setup: &Setup) -> bool {
        let (within, past) = self.frames.split_at(setup.frames);
        within.iter().enumerate().all(|(f, named)| match named {
            None => true,
            Some((d, v)) => {
                d.index() < setup.domains
                    && v.index() < setup.pages
                    && self.pages[d.index()][v.index()].clear_in().is_some_and(|frame| frame.index() == f)
            }
        }) && past.iter().all(|named| named.is_none())
    }
}

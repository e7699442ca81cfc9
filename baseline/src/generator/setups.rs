//! Setups and supplies for generated traces.

use crate::form::HEADER_LENGTH;
use crate::listing::{MAX_MEMORY, MAX_TRACE};
use crate::random::Random;
use crate::setup::Setup;

/// A few pages and frames, so that events often meet.
pub fn small(random: &mut Random) -> Setup {
    Setup {
        page_size: 16 * random.range(1, 3),
        domains: random.range(1, 3),
        pages: random.range(1, 4),
        contexts: random.range(1, 4),
        frames: random.range(1, 5),
        signatures: random.range(0, 12),
    }
}

/// One or two domains over two or three frames, and hardly a signature: for the answer 6.
pub fn tight(random: &mut Random) -> Setup {
    Setup {
        page_size: 16,
        domains: random.range(1, 2),
        pages: random.range(2, 4),
        contexts: random.range(1, 3),
        frames: random.range(2, 3),
        signatures: random.range(0, 4),
    }
}

/// The largest tables.
pub fn large(random: &mut Random) -> Setup {
    Setup {
        page_size: 16 * random.range(1, 4),
        domains: Setup::MAX_DOMAINS,
        pages: Setup::MAX_PAGES,
        contexts: Setup::MAX_CONTEXTS,
        frames: Setup::MAX_FRAMES,
        signatures: random.range(0, 120),
    }
}

/// Large pages, of which there is room for few.
pub fn wide(random: &mut Random) -> Setup {
    let page_size = 16 * random.range(32, 256);
    bounded(random, page_size, 2)
}

/// Any sizes at all that trace-run takes.
pub fn any(random: &mut Random) -> Setup {
    let page_size = 16 << random.below(9);
    bounded(random, page_size, 40)
}

/// Sizes with both products within trace-run's bound, and at most so many signatures as half a trace holds.
fn bounded(random: &mut Random, page_size: usize, most_signatures: usize) -> Setup {
    let most = MAX_MEMORY / page_size;
    let domains = random.range(1, most.min(Setup::MAX_DOMAINS));
    let in_half = (MAX_TRACE - HEADER_LENGTH) / 2 / page_size;
    Setup {
        page_size,
        domains,
        pages: random.range(1, (most / domains).min(Setup::MAX_PAGES)),
        contexts: random.range(1, Setup::MAX_CONTEXTS),
        frames: random.range(1, most.min(Setup::MAX_FRAMES)),
        signatures: random.range(0, in_half.min(most_signatures)),
    }
}

/// Signatures of several makes: random; all equal; a few that repeat; one byte apart; all zero.
pub fn supply(setup: &Setup, random: &mut Random) -> Vec<u8> {
    let p = setup.page_size;
    let mut supply = random.bytes(setup.supply_length());
    let make = random.weighted(&[50, 8, 12, 24, 6]);
    let base = random.bytes(3 * p);
    for (k, signature) in supply.chunks_exact_mut(p).enumerate() {
        match make {
            0 => {}
            1 => signature.copy_from_slice(&base[..p]),
            2 => {
                let from = p * random.below(3);
                signature.copy_from_slice(&base[from..from + p]);
            }
            3 => {
                signature.copy_from_slice(&base[..p]);
                let at = random.pick(&[0, p - 1, random_place(k, p)]);
                signature[at] ^= k as u8;
            }
            _ => signature.fill(0),
        }
    }
    supply
}

/// A place within the page that moves with the signature's number.
fn random_place(k: usize, p: usize) -> usize {
    k * 7 % p
}

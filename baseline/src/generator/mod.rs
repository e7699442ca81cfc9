//! Traces for the differential test: each from a seed and an index, by families that differ in setup and manner.

mod damage;
mod history;
mod setups;

use crate::form::HEADER_LENGTH;
use crate::listing::MAX_TRACE;
use crate::random::Random;
use crate::setup::Setup;
use crate::writer::write_header;
use history::{history, Habits};

/// A trace and the name of its family.
pub struct Trace {
    pub family: &'static str,
    pub bytes: Vec<u8>,
}

/// How a family makes a trace.
type Make = fn(&mut Random) -> Vec<u8>;

/// The families; a trace's index goes round them.
const FAMILIES: [(&str, Make); 16] = [
    ("small", small),
    ("deep", deep),
    ("large tables", large_tables),
    ("wide pages", wide_pages),
    ("any setup", any_setup),
    ("swaps and replays", swaps),
    ("few signatures", few_signatures),
    ("many signatures", many_signatures),
    ("wild", wild),
    ("beyond the setup", beyond),
    ("cut", cut),
    ("flipped", flipped),
    ("shuffled", shuffled),
    ("spare bits and kinds", spare_bits),
    ("header and length", header_and_length),
    ("random bytes", random_bytes),
];

/// The trace of a seed and an index.
pub fn trace(seed: u64, index: u64) -> Trace {
    let (family, make) = FAMILIES[(index % FAMILIES.len() as u64) as usize];
    Trace { family, bytes: make(&mut Random::new(seed, index)) }
}

/// A history over this setup, with a supply of its own.
fn over(setup: Setup, habits: &Habits, limit: usize, random: &mut Random) -> Vec<u8> {
    let supply = setups::supply(&setup, random);
    let room = MAX_TRACE - HEADER_LENGTH - supply.len() - 5 * setup.frames;
    history(setup, &supply, habits, limit.min(room), random)
}

/// A small setup, some tens to some hundreds of events.
fn small(random: &mut Random) -> Vec<u8> {
    let (setup, limit) = (setups::small(random), random.range(40, 1500));
    over(setup, &Habits::ORDINARY, limit, random)
}

/// A small setup with signatures enough for a long history; one in twenty fills the trace.
fn deep(random: &mut Random) -> Vec<u8> {
    let mut setup = setups::small(random);
    setup.signatures = random.range(20, 150);
    let limit = if random.chance(5) { MAX_TRACE } else { random.range(500, 4000) };
    let habits = random.pick(&[Habits::ORDINARY, Habits::SWAPPING, Habits::CROSSING]);
    over(setup, &habits, limit, random)
}

/// The largest tables; one in twenty fills the trace.
fn large_tables(random: &mut Random) -> Vec<u8> {
    let setup = setups::large(random);
    let limit = if random.chance(5) { MAX_TRACE } else { random.range(500, 4000) };
    over(setup, &Habits::ORDINARY, limit, random)
}

/// Pages of 512 to 4,096 bytes.
fn wide_pages(random: &mut Random) -> Vec<u8> {
    let (setup, limit) = (setups::wide(random), random.range(300, MAX_TRACE));
    over(setup, &Habits::SWAPPING, limit, random)
}

/// Any setup that trace-run takes.
fn any_setup(random: &mut Random) -> Vec<u8> {
    let (setup, limit) = (setups::any(random), random.range(100, 3000));
    over(setup, &Habits::ORDINARY, limit, random)
}

/// Swaps done right, old signatures replayed, bytes changed.
fn swaps(random: &mut Random) -> Vec<u8> {
    let (setup, limit) = (setups::small(random), random.range(200, 2500));
    over(setup, &Habits::SWAPPING, limit, random)
}

/// Hardly a signature, and pages that meet in one frame.
fn few_signatures(random: &mut Random) -> Vec<u8> {
    let (setup, limit) = (setups::tight(random), random.range(40, 600));
    over(setup, &Habits::CROSSING, limit, random)
}

/// More signatures than a byte can number, most of them used; one in four traces is so long.
fn many_signatures(random: &mut Random) -> Vec<u8> {
    let mut setup = setups::small(random);
    setup.page_size = 16;
    let (signatures, limit) = if random.chance(25) { (600, MAX_TRACE) } else { (60, 1500) };
    setup.signatures = random.range(signatures / 2, signatures);
    over(setup, &Habits::SEALING, limit, random)
}

/// Many events in a wrong condition.
fn wild(random: &mut Random) -> Vec<u8> {
    let (setup, limit) = (setups::small(random), random.range(100, 1500));
    over(setup, &Habits::WILD, limit, random)
}

/// Many numbers and lengths beyond the setup.
fn beyond(random: &mut Random) -> Vec<u8> {
    let setup = if random.chance(80) { setups::small(random) } else { setups::any(random) };
    let limit = random.range(100, 1500);
    over(setup, &Habits::BEYOND, limit, random)
}

/// A trace that ends anywhere.
fn cut(random: &mut Random) -> Vec<u8> {
    let mut trace = small(random);
    damage::cut(&mut trace, random);
    trace
}

/// A trace with some bits flipped.
fn flipped(random: &mut Random) -> Vec<u8> {
    let mut trace = small(random);
    damage::flip(&mut trace, random);
    trace
}

/// A trace with some bytes put in, taken out, replaced or repeated.
fn shuffled(random: &mut Random) -> Vec<u8> {
    let mut trace = small(random);
    for _ in 0..random.range(1, 3) {
        damage::shuffle(&mut trace, random);
    }
    trace
}

/// A trace with one spare bit set, or with a kind at its end that no event has.
fn spare_bits(random: &mut Random) -> Vec<u8> {
    let mut trace = small(random);
    if random.chance(70) {
        damage::set_spare_bit(&mut trace, random);
    } else {
        damage::end_with_refused_kind(&mut trace, random);
    }
    trace
}

/// Headers at and over the bounds: the trace's length, the two products, the signatures, with other faults beside.
fn header_and_length(random: &mut Random) -> Vec<u8> {
    let mut trace = match random.below(3) {
        0 => small(random),
        1 => at_the_products(random),
        _ => signatures_to_the_end(random),
    };
    if random.chance(15) {
        damage::set_spare_bit(&mut trace, random);
    }
    if random.chance(25) {
        damage::cut(&mut trace, random);
    }
    if random.chance(30) {
        damage::lengthen(&mut trace, random);
    }
    trace
}

/// A header whose products are near 16,384, or anything; then a few small records.
fn at_the_products(random: &mut Random) -> Vec<u8> {
    let page_size = 16 << random.below(9);
    let near = |bound: usize, random: &mut Random| {
        let most = (MAX_TRACE / page_size + random.below(3)).saturating_sub(1).max(1);
        if random.chance(70) {
            most.min(bound)
        } else {
            random.range(1, bound)
        }
    };
    let domains = random.pick(&[1, 1, 2, 4, 8]);
    let setup = Setup {
        page_size,
        domains,
        pages: (near(256, random) / domains).clamp(1, Setup::MAX_PAGES),
        contexts: random.range(1, Setup::MAX_CONTEXTS),
        frames: near(Setup::MAX_FRAMES, random),
        signatures: 0,
    };
    let mut trace = vec![0; HEADER_LENGTH];
    write_header(&setup, &[], &mut trace);
    // Begin domain 0, map its page 0 to frame 0, cloak it, read the frame.
    trace.extend_from_slice(&[0x00, 0x00, 0x20, 0x00, 0x00, 0x90, 0x00, 0x40, 0x00, 0x00, 0x03, 0xc0]);
    trace
}

/// A trace that is its signatures and hardly more; their count may say more than there are.
fn signatures_to_the_end(random: &mut Random) -> Vec<u8> {
    let mut setup = setups::any(random);
    setup.signatures = (MAX_TRACE - HEADER_LENGTH) / setup.page_size;
    let supply = random.bytes(setup.supply_length());
    let mut trace = vec![0; HEADER_LENGTH + supply.len()];
    write_header(&setup, &supply, &mut trace);
    if random.chance(40) {
        // One signature more is said than is there.
        let more = Setup { signatures: setup.signatures + 1, ..setup };
        let said = vec![0; more.supply_length()];
        let mut header = vec![0; HEADER_LENGTH + said.len()];
        write_header(&more, &said, &mut header);
        trace[..HEADER_LENGTH].copy_from_slice(&header[..HEADER_LENGTH]);
    }
    let rest = random.below(MAX_TRACE - trace.len() + 2);
    trace.extend_from_slice(&random.bytes(rest));
    trace
}

/// Random bytes, after a header that is small, or after none.
fn random_bytes(random: &mut Random) -> Vec<u8> {
    let length = random.below(400);
    if random.chance(40) {
        return random.bytes(length);
    }
    let mut setup = setups::small(random);
    setup.signatures = random.below(4);
    let supply = random.bytes(setup.supply_length());
    let mut trace = vec![0; HEADER_LENGTH + supply.len()];
    write_header(&setup, &supply, &mut trace);
    trace.extend_from_slice(&random.bytes(length));
    trace
}

//! Laws that every generated history keeps, also where no listing shows them: soundness, refusals that change nothing, and
//! that the application reads what it last wrote.

mod common;

use baseline::event::{Event, Part};
use baseline::generator::trace;
use baseline::listing::listing;
use baseline::reader::Reader;
use baseline::records::{Context, DomainNumber, PageNumber, Place};
use common::Machine;
use std::collections::HashMap;

/// A trace's records.
type Records<'a> = Vec<(Event, &'a [u8])>;

/// The machine and the records of a generated trace; none where its header is refused.
fn records_of(bytes: &[u8]) -> Option<(Machine, Records<'_>)> {
    let mut reader = Reader::new(bytes);
    let setup = reader.setup().ok()?;
    if setup.frames_length() > 16_384 || setup.store_length() > 16_384 {
        return None;
    }
    let supply = reader.supply(&setup).ok()?;
    let mut records = Vec::new();
    while let Ok(Some(record)) = reader.record() {
        records.push(record);
    }
    Some((Machine::new(setup, supply), records))
}

#[test]
fn states_stay_sound_and_refusals_change_nothing() {
    let (mut steps, mut refused, mut failed) = (0, 0, 0);
    for index in 0..300 {
        let bytes = trace(11, index).bytes;
        let Some((mut machine, records)) = records_of(&bytes) else {
            continue;
        };
        for (event, data) in records {
            let before = machine.clone();
            let answer = machine.step(event, data).0;
            assert!(machine.tables.sound(&machine.setup), "{event:?}");
            assert_eq!(answer.used, machine.tables.used);
            assert!(machine.tables.used <= before.tables.used + u16::from(answer.seals));
            steps += 1;
            failed += usize::from(answer.number == 8);
            if answer.number != 0 && answer.number != 8 {
                assert_eq!(machine, before, "{event:?} refused with {}", answer.number);
                assert_eq!((answer.seals, answer.unveils), (0, 0));
                refused += 1;
            }
        }
    }
    assert!(steps > 10_000 && refused > 1_000 && failed > 50, "{steps} steps, {refused} refused, {failed} failed");
}

#[test]
fn a_granted_read_of_a_private_page_gives_what_was_last_written() {
    let mut compared = 0;
    for index in 0..600 {
        let bytes = trace(13, index).bytes;
        let Some((mut machine, records)) = records_of(&bytes) else {
            continue;
        };
        let mut written: HashMap<(u8, u8), Vec<u8>> = HashMap::new();
        for (event, data) in records {
            let before = machine.clone();
            let (answer, given) = machine.step(event, data);
            if answer.number != 0 {
                continue;
            }
            match event {
                Event::Cloak(t, v) => {
                    let d = domain_of(&before, t.index());
                    written.insert((d.0, v.0), vec![0; machine.setup.page_size]);
                }
                Event::Write(t, v, part) => {
                    let d = domain_of(&before, t.index());
                    if is_private(&before, d, v) {
                        written.get_mut(&(d.0, v.0)).unwrap()[range(part)].copy_from_slice(data);
                    }
                }
                Event::Read(t, v, part) => {
                    let d = domain_of(&before, t.index());
                    if is_private(&before, d, v) {
                        assert_eq!(given, written[&(d.0, v.0)][range(part)]);
                        compared += 1;
                    }
                }
                _ => {}
            }
        }
    }
    assert!(compared > 2_000, "{compared} reads compared");
}

/// The domain of a Running context.
fn domain_of(machine: &Machine, t: usize) -> DomainNumber {
    match machine.tables.contexts[t] {
        Context::Running(d) => d,
        other => panic!("a granted event of a context that is {other:?}"),
    }
}

/// Whether the page is private.
fn is_private(machine: &Machine, d: DomainNumber, v: PageNumber) -> bool {
    machine.tables.pages[d.index()][v.index()].place != Place::Public
}

/// The bytes of a part.
fn range(part: Part) -> std::ops::Range<usize> {
    part.start()..part.start() + part.length()
}

#[test]
fn the_listing_is_the_same_without_the_soundness_test() {
    for index in 0..300 {
        let bytes = trace(17, index).bytes;
        assert_eq!(listing::<true>(&bytes), listing::<false>(&bytes));
    }
}

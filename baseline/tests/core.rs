//! The core beyond the fourteen runs: the fresh start, soundness, the order of checks, and events whose effect no listing shows.

mod common;

use baseline::answer::Answer;
use baseline::event::Event;
use baseline::monitor::Monitor;
use baseline::records::{Change, Context, Domain, Page, Place, SignatureNumber, Tables, TrapKind};
use baseline::setup::Setup;
use common::{example, example_setup, part, registers, signature, Machine, D, F, T, V};

/// Two domains, two pages each, three contexts, three frames, four random-looking signatures.
fn two_domains() -> Machine {
    let setup = Setup { page_size: 16, domains: 2, pages: 2, contexts: 3, frames: 3, signatures: 4 };
    Machine::new(setup, &[0, 1, 2, 3].map(signature).concat())
}

/// Domain 0 in context 0 with its page 0 Clear in frame 0, and domain 1 in context 1 with its page 0 Clear in frame 1.
fn two_clear() -> Machine {
    let mut machine = two_domains();
    machine.done(&[
        Event::Begin(D(0), T(0)),
        Event::Begin(D(1), T(1)),
        Event::Map(D(0), V(0), F(0)),
        Event::Map(D(1), V(0), F(1)),
        Event::Cloak(T(0), V(0)),
        Event::Cloak(T(1), V(0)),
    ]);
    machine
}

#[test]
fn the_start_zeroes_and_a_refused_start_changes_nothing() {
    let setup = example_setup();
    let supply = [7; 32];
    let (mut frames, mut store) = ([1; 32], [2; 32]);
    let (monitor, number) = Monitor::start(setup, &mut frames, &mut store, &supply);
    assert_eq!((monitor.tables, number), (Tables::fresh(), 0));
    assert_eq!((frames, store), ([0; 32], [0; 32]));

    let (mut frames, mut store) = ([1; 32], [2; 31]);
    let (monitor, number) = Monitor::start(setup, &mut frames, &mut store, &supply);
    assert_eq!((monitor.tables, number), (Tables::fresh(), 10));
    assert_eq!((frames, store), ([1; 32], [2; 31]));
}

#[test]
fn a_setup_beyond_its_bounds_is_refused_with_10() {
    let good = example_setup();
    let bad = [
        Setup { page_size: 0, ..good },
        Setup { page_size: 24, ..good },
        Setup { page_size: 4112, ..good },
        Setup { domains: 0, ..good },
        Setup { domains: 9, ..good },
        Setup { pages: 0, ..good },
        Setup { pages: 33, ..good },
        Setup { contexts: 0, ..good },
        Setup { contexts: 17, ..good },
        Setup { frames: 0, ..good },
        Setup { frames: 65, ..good },
        Setup { signatures: 65_536, ..good },
    ];
    for setup in bad {
        let mut machine = example();
        machine.setup = setup;
        let before = machine.clone();
        let refused = Answer { number: 10, seals: 0, unveils: 0, used: 0 };
        assert_eq!(machine.step(Event::Begin(D(0), T(0)), &[]).0, refused, "{setup:?}");
        assert_eq!(machine, before);
    }
}

#[test]
fn a_wrong_lent_length_is_refused_with_10() {
    let spoil: [fn(&mut Machine); 3] = [|m| m.frames.push(0), |m| m.store.push(0), |m| m.supply.push(0)];
    for spoil in spoil {
        let mut machine = example();
        spoil(&mut machine);
        assert_eq!(machine.number(Event::Begin(D(0), T(0)), &[]), 10);
    }
}

#[test]
fn each_kind_of_unsound_state_is_refused_with_10_and_changes_nothing() {
    let spoil: [fn(&mut Tables); 22] = [
        |t| t.used = 5,
        |t| t.domains[2] = Domain::Live,
        |t| t.contexts[3] = Context::Running(D(0)),
        |t| t.contexts[2] = Context::Running(D(2)),
        |t| t.contexts[2] = Context::Running(D(200)),
        |t| t.contexts[2] = Context::Kept(D(2), TrapKind::Call, [0; 8]),
        |t| t.domains[1] = Domain::Empty,
        |t| (t.domains[1], t.contexts[1], t.frames[1], t.pages[1][0].place) = (Domain::Empty, Context::Free, None, Place::Public),
        |t| (t.domains[1], t.contexts[1], t.pages[1][0].mapping) = (Domain::Empty, Context::Free, None),
        |t| t.pages[0][1].mapping = Some(F(3)),
        |t| t.pages[0][2].mapping = Some(F(0)),
        |t| t.pages[0][2].place = Place::Sealed(SignatureNumber(0)),
        |t| t.pages[2][0] = Page { mapping: Some(F(0)), place: Place::Public },
        |t| t.pages[0][1].place = Place::Sealed(SignatureNumber(1)),
        |t| t.pages[0][0].place = Place::Clear(F(0), Change::Clean(SignatureNumber(1))),
        |t| t.pages[0][1].place = Place::Clear(F(0), Change::Dirty),
        |t| t.pages[0][1].place = Place::Clear(F(2), Change::Dirty),
        |t| t.pages[0][1].place = Place::Clear(F(64), Change::Dirty),
        |t| t.frames[2] = Some((D(0), V(0))),
        |t| t.frames[2] = Some((D(2), V(0))),
        |t| t.frames[2] = Some((D(0), V(32))),
        |t| t.frames[3] = Some((D(0), V(0))),
    ];
    for (case, spoil) in spoil.iter().enumerate() {
        let mut machine = two_clear();
        machine.tables.used = 1;
        assert_eq!(machine.clone().number(Event::Leave(T(0)), &[]), 0, "sound before");
        spoil(&mut machine.tables);
        let before = machine.clone();
        let refused = Answer { number: 10, seals: 0, unveils: 0, used: 0 };
        assert_eq!(machine.step(Event::Leave(T(0)), &[]).0, refused, "case {case}");
        assert_eq!(machine, before, "case {case}");
    }
}

#[test]
fn each_check_comes_before_the_next() {
    let interrupt = |t, mask| Event::Trap(T(t), TrapKind::Interrupt, mask);
    let mut m = two_clear();
    // 10 before 1.
    let mut unsound = m.clone();
    unsound.tables.used = 9;
    assert_eq!(unsound.number(interrupt(0, 1), &[0; 64]), 10);
    // 1 before 2: the context is beyond the setup too.
    assert_eq!(m.number(interrupt(9, 1), &[0; 64]), 1);
    assert_eq!(m.number(interrupt(9, 0), &[0; 64]), 2);
    // 2 before 3: no context, no len, wrong data.
    assert_eq!(m.number(Event::Read(T(9), V(0), part(0, 0)), &[]), 2);
    assert_eq!(m.number(Event::Write(T(0), V(2), part(0, 1)), &[]), 2);
    // 3 before 11: len beyond P and no room.
    assert_eq!(m.step_into(Event::KernelRead(F(0), part(0, 17)), &[], &mut []).number, 3);
    // 11 before 4: a context that does not run, and no room.
    assert_eq!(m.step_into(Event::Read(T(2), V(0), part(0, 1)), &[], &mut []).number, 11);
    assert_eq!(m.step_into(interrupt(2, 0), &[0; 64], &mut [0; 63]).number, 11);
    assert_eq!(m.step_into(Event::Resume(D(0), T(2)), &[0; 8], &mut [0; 63]).number, 11);
    assert_eq!(m.step_into(interrupt(2, 0), &[0; 64], &mut [0; 64]).number, 4);
    // 4 before 7: in a Stopped domain, a page in the wrong condition.
    m.tables.domains[0] = Domain::Stopped;
    assert_eq!(m.number(Event::Cloak(T(0), V(0)), &[]), 4);
    assert_eq!(m.number(Event::Uncloak(T(0), V(1)), &[]), 4);
    assert_eq!(m.number(Event::Spawn(T(0), T(1)), &[]), 4);
    // 7 before 5: in a Stopped domain, a page not mapped.
    assert_eq!(m.number(Event::Cloak(T(0), V(1)), &[]), 7);
    assert_eq!(m.number(Event::Read(T(0), V(1), part(0, 1)), &[]), 7);
    // 6 before 8: a frame without the signature, and no signature left to find that out.
    let mut m = two_clear();
    m.tables.used = 3;
    m.done(&[Event::Map(D(0), V(0), F(1))]);
    assert_eq!(m.number(Event::Read(T(0), V(0), part(0, 1)), &[]), 6);
}

#[test]
fn a_stopped_domain_answers_7_and_can_still_be_mapped_unmapped_and_ended() {
    let mut m = two_clear();
    m.done(&[Event::Spawn(T(0), T(2))]);
    assert_eq!(m.number(Event::Trap(T(2), TrapKind::Call, 0), &[0; 64]), 0);
    m.tables.domains[0] = Domain::Stopped;
    for event in [Event::Leave(T(0)), Event::Uncloak(T(0), V(0)), Event::Write(T(0), V(0), part(0, 1))] {
        assert_eq!(m.number(event, &vec![0; event.data_length()]), 7, "{event:?}");
    }
    assert_eq!(m.number(Event::Trap(T(0), TrapKind::Call, 0), &[0; 64]), 7);
    assert_eq!(m.number(Event::Resume(D(0), T(2)), &[0; 8]), 7);
    m.done(&[Event::Map(D(0), V(1), F(2)), Event::Unmap(D(0), V(1)), Event::End(D(0))]);
}

#[test]
fn both_seals_or_none() {
    // Both pages are dirty; with one signature left nothing moves.
    let mut m = two_clear();
    m.tables.used = 3;
    m.done(&[Event::Map(D(0), V(0), F(1))]);
    let before = m.clone();
    assert_eq!(m.step(Event::Read(T(0), V(0), part(0, 1)), &[]).0, Answer { number: 6, seals: 0, unveils: 0, used: 3 });
    assert_eq!(m, before);
    // With two left both are sealed: the page itself first, then the other; and frame 1 then holds the other's signature.
    m.tables.used = 2;
    assert_eq!(m.step(Event::Read(T(0), V(0), part(0, 1)), &[]).0, Answer { number: 8, seals: 2, unveils: 0, used: 4 });
    assert_eq!(m.tables.pages[0][0].place, Place::Sealed(SignatureNumber(2)));
    assert_eq!(m.tables.pages[1][0].place, Place::Sealed(SignatureNumber(3)));
    assert_eq!((m.tables.domains[0], m.tables.domains[1]), (Domain::Stopped, Domain::Live));
    assert_eq!(m.frames, [signature(2), signature(3), [0; 16]].concat());
}

#[test]
fn equal_signatures_let_a_page_in_at_another_s_frame() {
    let mut m = two_clear();
    m.supply = [5; 64].to_vec();
    assert_eq!(m.number(Event::Write(T(0), V(0), part(3, 2)), &[8, 9]), 0);
    m.done(&[Event::Map(D(0), V(0), F(1))]);
    let (answer, given) = m.step(Event::Read(T(0), V(0), part(2, 4)), &[]);
    assert_eq!(answer, Answer { number: 0, seals: 2, unveils: 1, used: 2 });
    assert_eq!(given, [0, 8, 9, 0]);
    assert_eq!(m.tables.pages[0][0].place, Place::Clear(F(1), Change::Clean(SignatureNumber(0))));
    assert_eq!(m.tables.frames, {
        let mut named = [None; 64];
        named[1] = Some((D(0), V(0)));
        named
    });
}

#[test]
fn end_zeroes_what_the_domain_had_and_nothing_else() {
    let mut m = two_clear();
    assert_eq!(m.number(Event::Write(T(0), V(0), part(0, 2)), &[1, 2]), 0);
    assert_eq!(m.number(Event::Write(T(1), V(0), part(0, 2)), &[3, 4]), 0);
    m.done(&[Event::Spawn(T(0), T(2)), Event::Map(D(0), V(1), F(2)), Event::Cloak(T(0), V(1))]);
    assert_eq!(m.number(Event::Write(T(0), V(1), part(0, 1)), &[9]), 0);
    // Page 1 of domain 0 is Sealed: its slot holds bytes, and its frame a signature, which stays.
    m.done(&[Event::KernelRead(F(2), part(0, 1))]);
    let slot = m.store.iter().position(|byte| *byte == 9).expect("the slot holds the page");
    assert_eq!(m.number(Event::Trap(T(2), TrapKind::Call, 0), &[7; 64]), 0);
    m.done(&[Event::End(D(0))]);
    assert_eq!(m.store[slot], 0);
    assert_eq!(&m.frames[..16], [0; 16]);
    assert_eq!(&m.frames[16..18], [3, 4]);
    assert_eq!(&m.frames[32..], signature(0));
    assert_eq!(m.tables.domains[..2], [Domain::Empty, Domain::Live]);
    assert_eq!(m.tables.contexts[..3], [Context::Free, Context::Running(D(1)), Context::Free]);
    assert_eq!(m.tables.pages[0], [Page::FRESH; 32]);
    assert_eq!(m.tables.frames[..3], [None, Some((D(1), V(0))), None]);
}

#[test]
fn uncloak_needs_no_mapping_and_leaves_no_byte() {
    let mut m = two_clear();
    assert_eq!(m.number(Event::Write(T(0), V(0), part(0, 1)), &[9]), 0);
    m.done(&[Event::KernelRead(F(0), part(0, 1)), Event::Read(T(0), V(0), part(0, 1)), Event::Unmap(D(0), V(0))]);
    assert!(m.store.contains(&9) && m.frames.contains(&9));
    m.done(&[Event::Uncloak(T(0), V(0))]);
    assert!(!m.store.contains(&9) && !m.frames.contains(&9));
    assert_eq!(m.tables.pages[0][0], Page::FRESH);
    assert_eq!(m.tables.frames[0], None);
}

#[test]
fn a_cloaked_page_starts_zero_and_what_was_clear_there_is_sealed() {
    let mut m = two_clear();
    assert_eq!(m.number(Event::KernelWrite(F(2), part(0, 3)), &[6, 6, 6]), 0);
    m.done(&[Event::Map(D(0), V(1), F(2)), Event::Cloak(T(0), V(1))]);
    assert_eq!(m.step(Event::Read(T(0), V(1), part(0, 3)), &[]).1, [0, 0, 0]);
    m.done(&[Event::Uncloak(T(0), V(1)), Event::Map(D(0), V(1), F(1))]);
    let (answer, _) = m.step(Event::Cloak(T(0), V(1)), &[]);
    assert_eq!(answer, Answer { number: 0, seals: 1, unveils: 0, used: 1 });
    assert_eq!(m.tables.pages[1][0].place, Place::Sealed(SignatureNumber(0)));
    assert_eq!(m.tables.frames[1], Some((D(0), V(1))));
    assert_eq!(&m.frames[16..32], [0; 16]);
}

#[test]
fn a_public_page_is_read_and_written_as_by_the_kernel() {
    let mut m = two_clear();
    assert_eq!(m.number(Event::Write(T(1), V(0), part(0, 1)), &[7]), 0);
    m.done(&[Event::Map(D(0), V(1), F(1))]);
    let (answer, given) = m.step(Event::Read(T(0), V(1), part(0, 16)), &[]);
    assert_eq!((answer.number, answer.seals, given), (0, 1, signature(0).to_vec()));
    assert_eq!(m.number(Event::Write(T(0), V(1), part(15, 1)), &[5]), 0);
    assert_eq!(m.step(Event::KernelRead(F(1), part(14, 2)), &[]).1, [0xa0, 5]);
    // Domain 1's own page was written over, so its unveiling fails.
    assert_eq!(m.number(Event::Read(T(1), V(0), part(0, 1)), &[]), 8);
}

#[test]
fn resume_must_name_the_domain_and_forgets_the_registers() {
    let mut m = two_clear();
    assert_eq!(m.number(Event::Trap(T(0), TrapKind::Interrupt, 0), &registers([1; 8])), 0);
    assert_eq!(m.number(Event::Resume(D(1), T(0)), &[0; 8]), 4);
    assert_eq!(m.number(Event::Resume(D(0), T(0)), &[0; 7]), 3);
    assert_eq!(m.number(Event::Resume(D(0), T(0)), &[0; 8]), 0);
    assert_eq!(m.tables.contexts[0], Context::Running(D(0)));
    assert_eq!(m.number(Event::Resume(D(0), T(0)), &[0; 8]), 4);
}

#[test]
fn an_answer_fills_the_front_of_the_buffer_and_a_refusal_leaves_it() {
    let mut m = two_clear();
    let mut buffer = [0xee; 20];
    assert_eq!(m.step_into(Event::KernelRead(F(2), part(0, 16)), &[], &mut buffer).number, 0);
    assert_eq!(buffer, {
        let mut expected = [0xee; 20];
        expected[..16].fill(0);
        expected
    });
    m.done(&[Event::Map(D(0), V(0), F(2))]);
    let mut buffer = [0xee; 20];
    assert_eq!(m.step_into(Event::Read(T(0), V(0), part(0, 16)), &[], &mut buffer).number, 8);
    assert_eq!(buffer, [0xee; 20]);
}

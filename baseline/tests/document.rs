//! Document 01's example and its fourteen runs.

mod common;

use baseline::answer::Answer;
use baseline::event::Event;
use baseline::listing::listing;
use baseline::records::TrapKind;
use common::{example, part, registers, signature, Machine, D, F, T, V};

/// The example's trace.
fn example_trace() -> Vec<u8> {
    let mut trace = vec![0x00, 0x01, 0x00, 0x40, 0x00, 0x80];
    trace.extend_from_slice(&signature(0));
    trace.extend_from_slice(&signature(1));
    trace.extend_from_slice(&[0x00, 0x00, 0x20, 0x00, 0x00, 0x90, 0x00]);
    trace.extend_from_slice(&[0x40, 0x00, 0x00, 0x03, 0xc0, 0xb0, 0x00, 0x00, 0x00, 0x78]);
    trace
}

#[test]
fn the_example_prints_its_five_lines() {
    let expected = "\
0 0 0 0 0 0 -
1 2 0 0 0 0 -
2 9 0 0 0 0 -
3 4 0 1 0 1 a0a0a0a0a0a0a0a0a0a0a0a0a0a0a0a0
4 11 0 0 1 1 -
";
    assert_eq!(String::from_utf8(listing::<true>(&example_trace())).unwrap(), expected);
    assert_eq!(String::from_utf8(listing::<false>(&example_trace())).unwrap(), expected);
}

/// A kernel read of the whole frame.
fn look(f: u8) -> Event {
    Event::KernelRead(F(f), part(0, 16))
}

/// An application read of the whole page.
fn read(v: u8) -> Event {
    Event::Read(T(0), V(v), part(0, 16))
}

/// An application write of one byte at 0 of page 0.
const WRITE: Event = Event::Write(T(0), V(0), baseline::event::Part { off: 0, len: 1 });

/// A, the example's records 0 to 2.
fn a() -> Machine {
    let mut machine = example();
    machine.done(&[Event::Begin(D(0), T(0)), Event::Map(D(0), V(0), F(0)), Event::Cloak(T(0), V(0))]);
    machine
}

/// B, all five records.
fn b() -> Machine {
    let mut machine = a();
    machine.done(&[look(0), read(0)]);
    machine
}

/// Run 4: B, a write of byte 00 at 0, and what the kernel then reads.
fn run_4() -> (Machine, (Answer, Vec<u8>)) {
    let mut machine = b();
    assert_eq!(machine.number(WRITE, &[0]), 0);
    let looked = machine.step(look(0), &[]);
    (machine, looked)
}

/// An answer in the listing's order.
fn answer(number: u8, seals: u8, unveils: u8, used: u16) -> Answer {
    Answer { number, seals, unveils, used }
}

#[test]
fn run_1_the_kernel_reads_a_signature() {
    assert_eq!(a().step(look(0), &[]), (answer(0, 1, 0, 1), signature(0).to_vec()));
}

#[test]
fn run_2_the_application_reads_zeros() {
    let mut machine = a();
    machine.done(&[look(0)]);
    assert_eq!(machine.step(read(0), &[]), (answer(0, 0, 1, 1), vec![0; 16]));
}

#[test]
fn run_3_a_clean_page_keeps_its_signature() {
    assert_eq!(b().step(look(0), &[]), (answer(0, 1, 0, 1), signature(0).to_vec()));
}

#[test]
fn run_4_a_page_written_with_equal_bytes_is_dirty() {
    assert_eq!(run_4().1, (answer(0, 1, 0, 2), signature(1).to_vec()));
}

#[test]
fn run_5_no_signature_left() {
    let (mut machine, _) = run_4();
    machine.done(&[read(0)]);
    assert_eq!(machine.number(WRITE, &[7]), 0);
    assert_eq!(machine.step(look(0), &[]), (answer(6, 0, 0, 2), vec![]));
    assert_eq!(machine.step(Event::Read(T(0), V(0), part(0, 1)), &[]), (answer(0, 0, 0, 2), vec![7]));
}

#[test]
fn run_6_an_old_signature_is_refused() {
    let (mut machine, _) = run_4();
    assert_eq!(machine.number(Event::KernelWrite(F(0), part(0, 16)), &signature(0)), 0);
    assert_eq!(machine.step(read(0), &[]), (answer(8, 0, 0, 2), vec![]));
    assert_eq!(machine.step(read(0), &[]), (answer(7, 0, 0, 2), vec![]));
}

#[test]
fn run_7_a_swap_to_another_frame() {
    let mut machine = b();
    assert_eq!(machine.number(Event::KernelWrite(F(1), part(0, 16)), &signature(0)), 0);
    machine.done(&[Event::Map(D(0), V(0), F(1))]);
    assert_eq!(machine.step(read(0), &[]), (answer(0, 1, 1, 1), vec![0; 16]));
}

#[test]
fn run_8_another_frame_without_the_signature() {
    let mut machine = a();
    machine.done(&[Event::Map(D(0), V(0), F(1))]);
    assert_eq!(machine.step(read(0), &[]), (answer(8, 1, 0, 1), vec![]));
}

#[test]
fn run_9_the_last_byte_and_one_beyond() {
    let mut machine = b();
    assert_eq!(machine.number(Event::Read(T(0), V(0), part(15, 1)), &[]), 0);
    assert_eq!(machine.number(Event::Read(T(0), V(0), part(15, 2)), &[]), 3);
}

#[test]
fn run_10_a_page_not_mapped_and_one_beyond() {
    let mut machine = b();
    assert_eq!(machine.number(read(1), &[]), 5);
    assert_eq!(machine.number(read(2), &[]), 2);
}

#[test]
fn run_11_cloaked_twice() {
    assert_eq!(a().number(Event::Cloak(T(0), V(0)), &[]), 4);
}

#[test]
fn run_12_a_call_shows_the_mask_s_registers() {
    let mut machine = a();
    let trap = Event::Trap(T(0), TrapKind::Call, 0x81);
    let (_, shown) = machine.step(trap, &registers([1, 2, 3, 4, 5, 6, 7, 8]));
    assert_eq!(shown, registers([1, 0, 0, 0, 0, 0, 0, 8]));
    let (_, given) = machine.step(Event::Resume(D(0), T(0)), &9u64.to_be_bytes());
    assert_eq!(given, registers([9, 2, 3, 4, 5, 6, 7, 8]));
}

#[test]
fn run_13_an_interrupt_shows_none() {
    let mut machine = a();
    let trap = Event::Trap(T(0), TrapKind::Interrupt, 0);
    let (_, shown) = machine.step(trap, &registers([1, 2, 3, 4, 5, 6, 7, 8]));
    assert_eq!(shown, registers([0; 8]));
    let (_, given) = machine.step(Event::Resume(D(0), T(0)), &9u64.to_be_bytes());
    assert_eq!(given, registers([1, 2, 3, 4, 5, 6, 7, 8]));
}

#[test]
fn run_14_spawned_onto_itself() {
    assert_eq!(a().number(Event::Spawn(T(0), T(0)), &[]), 4);
}

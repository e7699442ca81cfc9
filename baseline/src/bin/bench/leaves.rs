//! The proved leaves of the static library, called over C's boundary: the one place with `unsafe`, for the calls alone.

use crate::sample::Sample;
use std::hint::black_box;
use std::time::Instant;

const LENGTH: usize = 4096;
const CALLS: usize = 1_000;
const RUNS: usize = 401;

// A slice passes as a pointer and then a length. Nothing checks these declarations against the library's source.
extern "C" {
    fn leaf_copy(dst: *mut u8, dst_len: usize, src: *const u8, src_len: usize);
    fn leaf_zero(dst: *mut u8, len: usize);
    // A bool is one byte; only 0 is taken for false.
    fn leaf_same(a: *const u8, a_len: usize, b: *const u8, b_len: usize) -> u8;
}

/// Copies the source to the destination; both have the same length.
fn copy(dst: &mut [u8], src: &[u8]) {
    assert_eq!(dst.len(), src.len());
    // SAFETY: both parts are whole slices of the lengths passed, and a `&mut` does not overlap a `&`.
    unsafe { leaf_copy(dst.as_mut_ptr(), dst.len(), src.as_ptr(), src.len()) }
}

/// Zeroes the bytes.
fn zero(dst: &mut [u8]) {
    // SAFETY: the part is a whole slice of the length passed.
    unsafe { leaf_zero(dst.as_mut_ptr(), dst.len()) }
}

/// Whether the two, of the same length, are equal.
fn same(a: &[u8], b: &[u8]) -> bool {
    assert_eq!(a.len(), b.len());
    // SAFETY: both parts are whole slices of the lengths passed, and are only read.
    unsafe { leaf_same(a.as_ptr(), a.len(), b.as_ptr(), b.len()) != 0 }
}

/// Checks the leaves, then prints how they compare with memcpy, memset and memcmp.
pub fn print_table() {
    check();
    let source: Vec<u8> = (0..LENGTH).map(|i| i as u8).collect();
    let (mut a, mut b) = (source.clone(), source.clone());
    println!("| leaf | ns a call | libc | ns a call | ratio |\n|---|---|---|---|---|");
    let (leaf, libc) =
        times(|| copy(black_box(&mut a), black_box(&source)), || black_box(&mut b[..]).copy_from_slice(black_box(&source)));
    print_row("copy", &leaf, "memcpy", &libc);
    let (leaf, libc) =
        times(|| assert!(same(black_box(&a), black_box(&source))), || assert!(black_box(&b[..]) == black_box(&source[..])));
    print_row("same, equal bytes", &leaf, "memcmp", &libc);
    let (leaf, libc) = times(|| zero(black_box(&mut a)), || black_box(&mut b[..]).fill(0));
    print_row("zero", &leaf, "memset", &libc);
}

/// One row: the ratio of the medians, and in brackets of the least times.
fn print_row(leaf: &str, ours: &Sample, libc: &str, theirs: &Sample) {
    println!(
        "| {leaf} | {} | {libc} | {} | {:.2} ({:.2}) |",
        ours.show(),
        theirs.show(),
        ours.median() / theirs.median(),
        ours.least() / theirs.least()
    );
}

/// The nanoseconds of one call of each. Runs are short, many, and in turn, so that other work on the machine disturbs few of
/// them and both alike.
fn times(mut ours: impl FnMut(), mut theirs: impl FnMut()) -> (Sample, Sample) {
    run(&mut ours);
    run(&mut theirs);
    let (ours, theirs) = (0..RUNS).map(|_| (run(&mut ours), run(&mut theirs))).unzip();
    (Sample::new(ours), Sample::new(theirs))
}

/// The nanoseconds of one call, over several.
fn run(call: &mut impl FnMut()) -> f64 {
    let start = Instant::now();
    for _ in 0..CALLS {
        call();
    }
    start.elapsed().as_secs_f64() * 1e9 / CALLS as f64
}

/// That the leaves do what they are timed for, at several lengths and for a difference at each place.
fn check() {
    for length in [0, 1, 15, 16, 17, 255, LENGTH] {
        let source: Vec<u8> = (0..length).map(|i| (i * 7 + 1) as u8).collect();
        let mut target = vec![0xee; length];
        copy(&mut target, &source);
        assert_eq!(target, source, "copy of {length} bytes");
        assert!(same(&target, &source), "same of {length} equal bytes");
        for i in 0..length {
            target[i] ^= 0x80;
            assert!(!same(&target, &source), "same of {length} bytes with a difference at {i}");
            target[i] ^= 0x80;
        }
        zero(&mut target);
        assert_eq!(target, vec![0; length], "zero of {length} bytes");
    }
}

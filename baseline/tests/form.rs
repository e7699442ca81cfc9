//! The trace form: what the reader takes and refuses, what the writer writes and refuses, and the listing's refused headers.

mod common;

use baseline::event::{Event, Part};
use baseline::generator::trace;
use baseline::listing::listing;
use baseline::reader::Reader;
use baseline::records::TrapKind;
use baseline::setup::Setup;
use baseline::writer::{write_header, write_record};
use common::{example_setup, part, signature, D, F, T, V};

/// The listing as text.
fn list(trace: &[u8]) -> String {
    String::from_utf8(listing::<true>(trace)).unwrap()
}

/// A header of 48 bits, without signatures.
fn header(setup: &Setup) -> Vec<u8> {
    let mut out = [0; 6];
    assert_eq!(write_header(&Setup { signatures: 0, ..*setup }, &[], &mut out), (0, 6));
    let mut header = out.to_vec();
    header[3] |= (setup.signatures >> 10) as u8;
    header[4] = (setup.signatures >> 2) as u8;
    header[5] = (setup.signatures << 6) as u8;
    header
}

/// The records of a trace written back, as far as the reader takes them, and the number that ends it (0 at the end).
fn written_back(trace: &[u8]) -> Result<(Vec<u8>, u8), u8> {
    let mut reader = Reader::new(trace);
    let setup = reader.setup()?;
    let supply = reader.supply(&setup)?;
    let mut out = vec![0; 6 + supply.len()];
    assert_eq!(write_header(&setup, supply, &mut out), (0, 6 + supply.len()));
    loop {
        match reader.record() {
            Ok(None) => return Ok((out, 0)),
            Err(number) => return Ok((out, number)),
            Ok(Some((event, data))) => {
                let mut record = [0; 5 + 4096];
                let (number, count) = write_record(&event, data, &mut record);
                assert_eq!(number, 0, "{event:?}");
                out.extend_from_slice(&record[..count]);
                assert_eq!(out.len(), reader.place);
            }
        }
    }
}

#[test]
fn what_is_read_is_written_back_unchanged() {
    let mut whole = 0;
    for index in 0..600 {
        let bytes = trace(7, index).bytes;
        if let Ok((back, number)) = written_back(&bytes) {
            assert_eq!(back, bytes[..back.len()]);
            if number == 0 {
                assert_eq!(back, bytes);
                whole += 1;
            }
        }
    }
    assert!(whole > 300, "{whole} of 600 traces were read to the end");
}

#[test]
fn each_record_has_the_document_s_bits() {
    let cases: [(Event, &[u8], &str); 14] = [
        (Event::Begin(D(5), T(9)), &[], "0000 101 1001 00000"),
        (Event::End(D(6)), &[], "0001 110 0"),
        (Event::Map(D(1), V(17), F(33)), &[], "0010 001 10001 100001 000000"),
        (Event::Unmap(D(7), V(31)), &[], "0011 111 11111 0000"),
        (Event::KernelRead(F(63), part(4095, 4096)), &[], "0100 111111 111111111111 111111111111 000000"),
        (Event::KernelWrite(F(1), part(2, 1)), &[0xab], "0101 000001 000000000010 000000000000 000000 10101011"),
        (Event::Resume(D(2), T(1)), &[0, 0, 0, 0, 0, 0, 0, 1], "0110 010 0001 00000 0x56 00000001"),
        (Event::Spawn(T(1), T(15)), &[], "0111 0001 1111 0000"),
        (Event::Leave(T(8)), &[], "1000 1000"),
        (Event::Cloak(T(3), V(4)), &[], "1001 0011 00100 000"),
        (Event::Uncloak(T(12), V(1)), &[], "1010 1100 00001 000"),
        (Event::Read(T(1), V(2), part(3, 5)), &[], "1011 0001 00010 000000000011 000000000100 000"),
        (Event::Write(T(1), V(2), part(3, 1)), &[0xff], "1100 0001 00010 000000000011 000000000000 000 11111111"),
        (Event::Trap(T(2), TrapKind::Call, 0x81), &[0; 64], "1101 0010 1 10000001 0000000 0x512"),
    ];
    for (event, data, bits) in cases {
        let expected = bytes_of(&bits.replace("0x512", &"0".repeat(512)).replace("0x56", &"0".repeat(56)));
        let mut out = vec![0; expected.len()];
        assert_eq!(write_record(&event, data, &mut out), (0, expected.len()), "{event:?}");
        assert_eq!(out, expected, "{event:?}");
        let mut reader = Reader::new(&expected);
        assert_eq!(reader.record(), Ok(Some((event, data))));
        assert_eq!((reader.place, reader.record()), (expected.len(), Ok(None)));
        let mut short = vec![0; expected.len() - 1];
        assert_eq!(write_record(&event, data, &mut short), (11, 0), "{event:?}");
        assert!(short.iter().all(|byte| *byte == 0));
    }
}

/// Bits, with spaces between fields, as bytes.
fn bytes_of(bits: &str) -> Vec<u8> {
    let bits: Vec<u8> = bits.bytes().filter(|byte| *byte != b' ').map(|byte| byte - b'0').collect();
    bits.chunks(8).map(|byte| byte.iter().fold(0, |number, bit| number * 2 + bit)).collect()
}

#[test]
fn every_spare_bit_and_every_cut_is_refused_with_9_and_leaves_the_place() {
    let records: [&[u8]; 4] = [&[0x20, 0x00, 0x00], &[0x90, 0x00], &[0x00, 0x00], &[0x50, 0x00, 0x00, 0x00, 0x00, 0x77]];
    for (record, head, spare) in [(records[0], 3, 6), (records[1], 2, 3), (records[2], 2, 5), (records[3], 5, 6)] {
        for bit in 0..spare {
            let mut bytes = record.to_vec();
            bytes[head - 1] |= 1 << bit;
            let mut reader = Reader::new(&bytes);
            assert_eq!((reader.record(), reader.place), (Err(9), 0));
            assert_eq!(reader.unread, bytes);
        }
        for length in 1..record.len() {
            assert_eq!(Reader::new(&record[..length]).record(), Err(9));
        }
        assert!(matches!(Reader::new(record).record(), Ok(Some(_))));
    }
}

#[test]
fn kinds_14_and_15_are_refused_with_1_before_any_9() {
    for first in 0xe0..=0xff {
        assert_eq!(Reader::new(&[first]).record(), Err(1));
    }
}

#[test]
fn a_place_without_room_for_the_unread_bytes_is_refused_with_10_first() {
    let mut reader = Reader { unread: &[0xe0, 0, 0, 0, 0, 0], place: usize::MAX - 5 };
    assert_eq!(reader.record(), Err(10));
    assert_eq!(reader.setup(), Err(10));
    assert_eq!(reader.supply(&example_setup()), Err(10));
    reader.place -= 1;
    assert_eq!(reader.record(), Err(1));
}

#[test]
fn the_writer_refuses_in_its_order() {
    let refused = |event, data: &[u8]| write_record(&event, data, &mut [0; 8]);
    assert_eq!(refused(Event::Begin(D(8), T(0)), &[]), (2, 0));
    assert_eq!(refused(Event::Begin(D(0), T(16)), &[]), (2, 0));
    assert_eq!(refused(Event::Spawn(T(0), T(16)), &[]), (2, 0));
    assert_eq!(refused(Event::Unmap(D(0), V(32)), &[]), (2, 0));
    assert_eq!(refused(Event::Map(D(0), V(0), F(64)), &[]), (2, 0));
    assert_eq!(refused(Event::KernelRead(F(64), part(0, 0)), &[]), (2, 0));
    for wrong in [part(0, 0), part(0, 4097), Part { off: 4096, len: 1 }] {
        assert_eq!(refused(Event::KernelRead(F(0), wrong), &[]), (3, 0));
    }
    assert_eq!(refused(Event::Trap(T(0), TrapKind::Interrupt, 0), &[0; 63]), (3, 0));
    assert_eq!(refused(Event::Leave(T(0)), &[0]), (3, 0));
    assert_eq!(refused(Event::Trap(T(0), TrapKind::Interrupt, 0), &[0; 64]), (11, 0));
    let mut out = [0; 67];
    assert_eq!(write_record(&Event::Trap(T(0), TrapKind::Interrupt, 0xff), &[0; 64], &mut out), (0, 67));
    assert_eq!(write_header(&Setup { domains: 9, ..example_setup() }, &[0; 32], &mut [0; 38]), (10, 0));
    assert_eq!(write_header(&example_setup(), &[0; 31], &mut [0; 38]), (10, 0));
    assert_eq!(write_header(&example_setup(), &[0; 32], &mut [0; 37]), (11, 0));
}

#[test]
fn refused_headers_are_one_line_in_their_order() {
    let mut good = header(&example_setup());
    good.extend_from_slice(&[signature(0), signature(1)].concat());
    assert_eq!(list(&good), "");
    for length in 0..good.len() {
        assert_eq!(list(&good[..length]), "0 - 9 0 0 0 -\n", "{length} bytes");
    }
    for bit in 0..6 {
        let mut bad = good.clone();
        bad[5] |= 1 << bit;
        assert_eq!(list(&bad), "0 - 9 0 0 0 -\n");
    }
    // Over-long comes before a reserved bit, a reserved bit before the products, and these before the signatures.
    assert_eq!(list(&[0xff; 16_385]), "0 - 10 0 0 0 -\n");
    assert_eq!(list(&[0xff; 16_384]), "0 - 9 0 0 0 -\n");
    let wide = Setup { page_size: 4096, domains: 1, pages: 5, contexts: 1, frames: 4, signatures: 9 };
    assert_eq!(list(&header(&wide)), "0 - 10 0 0 0 -\n");
    assert_eq!(list(&header(&Setup { pages: 1, frames: 5, ..wide })), "0 - 10 0 0 0 -\n");
    assert_eq!(list(&header(&Setup { pages: 4, ..wide })), "0 - 9 0 0 0 -\n");
    assert_eq!(list(&header(&Setup { pages: 4, signatures: 0, ..wide })), "");
}

#[test]
fn the_longest_trace_is_listed_whole() {
    let mut bytes = header(&Setup { signatures: 0, ..example_setup() });
    bytes.resize(16_384, 0x80);
    let listed = list(&bytes);
    assert_eq!(listed.lines().count(), 16_378);
    assert_eq!(listed.lines().last(), Some("16377 8 4 0 0 0 -"));
    bytes.push(0x80);
    assert_eq!(list(&bytes), "0 - 10 0 0 0 -\n");
}

#[test]
fn a_record_refused_by_the_reader_ends_the_list_with_used_as_it_stands() {
    let mut bytes = header(&example_setup());
    bytes.extend_from_slice(&[signature(0), signature(1)].concat());
    bytes.extend_from_slice(&[0x00, 0x00, 0x20, 0x00, 0x00, 0x90, 0x00, 0x40, 0x00, 0x00, 0x00, 0x00]);
    let start = list(&bytes);
    assert_eq!(start.lines().last(), Some("3 4 0 1 0 1 a0"));
    assert_eq!(list(&[&bytes[..], &[0xf0, 0x80]].concat()), format!("{start}4 - 1 0 0 1 -\n"));
    assert_eq!(list(&[&bytes[..], &[0x11, 0x80]].concat()), format!("{start}4 - 9 0 0 1 -\n"));
}

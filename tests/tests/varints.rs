//! Varints: document 01, "Operations and their fields", Reading and Writing.

use razidkot_tests::ask::{self, ask, registry_of};
use razidkot_tests::foreign::{self, Refused};
use razidkot_tests::generate::{long_varint, Random};
use razidkot_tests::oracle;
use razidkot_tests::run::{assert_agree, for_seeds, Outcomes};

/// Bytes of which `length` go on, and the last may: a varint, an unfinished or an over-long one.
fn some_bytes(random: &mut Random) -> Vec<u8> {
    let length = random.below(12);
    let mut bytes: Vec<u8> = (0..length).map(|_| random.byte() | 0x80).collect();
    if let Some(last) = bytes.last_mut() {
        *last = match random.below(4) {
            0 => *last,
            1 => random.pick(&[0, 1, 2, 3]),
            _ => *last & 0x7F,
        };
    }
    if length > 9 && random.once_in(2) {
        bytes[9] = random.pick(&[0, 1, 2, 3, 0x80, 0x81]);
    }
    bytes
}

#[test]
fn varints_are_read_from_any_place() {
    let mut outcomes = Outcomes::default();
    for_seeds(30_000, |random| {
        let before = random.below(4);
        let bytes = [random.bytes(before), some_bytes(random)].concat();
        let at = random.pick(&[before, before, before, before + 1, before + 20, usize::MAX]);
        assert_agree(&bytes, |bytes| {
            foreign::read_varint(bytes, at) == oracle::read_varint(bytes, at)
        });
        outcomes.count(foreign::read_varint(&bytes, at).is_some());
    });
    outcomes.assert_often(&[true, false], 5_000);
}

#[test]
fn varints_of_any_length_end_with_any_byte() {
    let mut outcomes = Outcomes::default();
    for length in 0..=11_usize {
        for last in 0..=0xFF {
            let mut bytes = vec![0x80 | (last / 2); length];
            bytes.push(last);
            let read = foreign::read_varint(&bytes, 0);
            assert_eq!(read, oracle::read_varint(&bytes, 0), "{bytes:02X?}");
            // The tenth byte is read if it is 0 or 1; shorter varints end with any below 0x80.
            let readable = last < [0x80, 2, 0][(length + 1).saturating_sub(9).min(2)];
            assert_eq!(read.is_some(), readable, "{bytes:02X?}");
            outcomes.count(readable);
        }
    }
    outcomes.assert_often(&[true, false], 1_000);
}

#[test]
fn longer_than_needed_forms_are_read() {
    for_seeds(10_000, |random| {
        let number = random.number();
        let shortest = oracle::varint(number).len();
        for length in shortest..=10 {
            let bytes = long_varint(number, length);
            let read = foreign::read_varint(&bytes, 0);
            assert_eq!(read, Some((number, length)), "{bytes:02X?}");
        }
    });
}

#[test]
fn the_reference_reads_the_same_provider() {
    let registry = registry_of(&[]);
    let mut outcomes = Outcomes::default();
    for_seeds(5_000, |random| {
        let mut bytes = some_bytes(random);
        if random.once_in(2) {
            let number = random.pick(&[0, 1, 2, 1 << 32, 1 << 32 | 1, u64::MAX]);
            bytes = long_varint(number, 10);
            bytes.truncate(random.pick(&[10, 10, 10, 9]));
        }
        let read = foreign::read_varint(&bytes, 0);
        // The whole varint is the value of ListOpcodes' field 1; behind it nothing may stand.
        let end = read.map_or(bytes.len(), |(_, next)| next);
        let body = [&[0x08], &bytes[..end]].concat();
        let status = ask(&registry, ask::LIST_OPCODES, None, &body).status;
        let expected = match read {
            None => ask::DESERIALIZING_BODY_FAILED,
            Some((number, _)) if number as u32 > 1 => ask::PROVIDER_DOES_NOT_EXIST,
            Some(_) => ask::SUCCESS,
        };
        assert_eq!(status, expected, "{body:02X?}");
        outcomes.count(status);
    });
    outcomes.assert_often(&[0, 6, 7], 500);
}

#[test]
fn the_shortest_varint_is_written_and_read_back() {
    for_seeds(10_000, |random| {
        let number = random.number();
        let size = 10 + random.below(4);
        let before = random.bytes(size);
        let mut out = before.clone();
        let written = foreign::write_varint(&mut out, number).expect("room for ten bytes");
        assert_eq!(out[..written], oracle::varint(number));
        assert_eq!(out[written..], before[written..], "what is behind stays");
        assert_eq!(foreign::read_varint(&out, 0), Some((number, written)));
    });
}

#[test]
fn nothing_is_written_into_fewer_than_ten_bytes() {
    for size in 0..10 {
        let mut out = vec![0x55; size];
        assert_eq!(foreign::write_varint(&mut out, 1), Err(Refused));
        assert_eq!(out, vec![0x55; size]);
    }
}

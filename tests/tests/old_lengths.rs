//! Lengths of keys that Import takes, and those that registries and journals from before still hold,
//! on the compiled code and the reference: document 02, "No more odd key lengths".

use razidkot_tests::ask::*;
use razidkot_tests::foreign;
use razidkot_tests::journals::{destroy_record, import_record, start, Reading, SCANNER};
use razidkot_tests::layout::*;
use razidkot_tests::lent::Lent;
use razidkot_tests::oracle::{bytes_field, number_field};
use razidkot_tests::signatures::{verify_body, Signed};
use reference::read_journal;

const FIRST: Place = Place { line: 0, slot: 0 };

fn key_of(bits: u16) -> Key {
    Key {
        name: b"k".to_vec(),
        data: b"data".to_vec(),
        bits,
        export_allowed: true,
        verify_allowed: true,
    }
}

/// A registry of two applications, the first of which holds the key from before.
fn registry_with(key: &Key) -> Vec<u8> {
    let mut registry = start();
    hold(&mut registry, FIRST, key);
    registry
}

/// Status and body of what both answer to the first application.
fn asked(lent: &mut Lent, opcode: u16, body: &[u8]) -> (u16, Vec<u8>) {
    lent.ask_both(opcode, Some(SCANNER), body)
}

fn body_with_bits(name: &[u8], data: &[u8], bits: u64) -> Vec<u8> {
    let fields = [bytes_field(1, name), bytes_field(2, data)];
    [&fields.concat()[..], &number_field(3, bits)].concat()
}

fn old_bits() -> impl Iterator<Item = u16> {
    (1_024..=4_096).filter(|&bits| bits_are_legal(bits.into()) && !IMPORT_BITS.contains(&bits))
}

#[test]
fn import_takes_2048_3072_and_4096_bits_and_any_other_is_not_supported() {
    let low_bits = [1 << 16 | 2_048, 1 << 31 | 4_096, u64::from(u32::MAX)];
    for bits in (0..=5_000).chain(low_bits) {
        let lent = &mut Lent::fresh(&start(), b"");
        let (status, _) = asked(lent, IMPORT, &body_with_bits(b"k", b"data", bits));
        let is_taken = [2_048, 3_072, 4_096].contains(&bits);
        let expected = if is_taken { SUCCESS } else { NOT_SUPPORTED };
        assert_eq!(status, expected, "{bits}");
    }
}

/// Name and data, then bits, then a held name, then a full line.
#[test]
fn the_order_of_imports_statuses() {
    let mut registry = start();
    for (slot, name) in (b'a'..=b'h').enumerate() {
        let key = Key {
            name: vec![name],
            ..key_of(1_024)
        };
        hold(&mut registry, Place { line: 0, slot }, &key);
    }
    let lent = &mut Lent::fresh(&registry, b"");
    for bits in [0, 1_016, 1_024, 2_056, 4_104, u64::from(u32::MAX)] {
        let rows = [
            (&b"a b"[..], &b"data"[..], INVALID_ARGUMENT),
            (b"", b"data", INVALID_ARGUMENT),
            (b"a", b"", INVALID_ARGUMENT),
            (b"a", &[0; 601], INVALID_ARGUMENT),
            (b"a", b"data", NOT_SUPPORTED),
            (b"new", b"data", NOT_SUPPORTED),
        ];
        for (name, data, expected) in rows {
            let (status, _) = asked(lent, IMPORT, &body_with_bits(name, data, bits));
            assert_eq!(status, expected, "{bits}");
        }
    }
    let (status, _) = asked(lent, IMPORT, &body_with_bits(b"a", b"data", 2_048));
    assert_eq!(status, ALREADY_EXISTS);
    let (status, _) = asked(lent, IMPORT, &body_with_bits(b"new", b"data", 2_048));
    assert_eq!(status, 1142);
}

#[test]
fn a_registry_may_hold_what_import_once_took_and_no_other_bits() {
    for bits in 0..=u16::MAX {
        let registry = registry_with(&key_of(bits));
        let proved = foreign::registry_is_well_formed(&registry);
        assert_eq!(proved, reference::registry_is_well_formed(&registry));
        assert_eq!(proved, bits_are_legal(bits.into()), "{bits}");
    }
}

#[test]
fn an_old_key_is_exported_and_destroyed_as_before_and_verifies_nothing() {
    let signed = &Signed::supported()[0];
    for bits in old_bits() {
        // Data that a key of Import's bits would verify with, and data that is no key.
        for data in [&signed.data[..], b"data"] {
            let key = Key {
                data: data.to_vec(),
                ..key_of(bits)
            };
            let lent = &mut Lent::fresh(&registry_with(&key), b"");
            let (status, body) = asked(lent, EXPORT, &name_body(b"k"));
            assert_eq!((status, body), (SUCCESS, bytes_field(1, data)));
            assert_eq!(uses_at(&lent.registry, FIRST), 1);
            let (status, _) = asked(lent, VERIFY, &verify_body(b"k", &[0; 31], b""));
            assert_eq!(status, INVALID_ARGUMENT);
            let (status, _) = asked(lent, VERIFY, &signed.body(b"k"));
            assert_eq!(status, NOT_SUPPORTED);
            assert_eq!(uses_at(&lent.registry, FIRST), 1);
            let (status, _) = asked(lent, IMPORT, &body_with_bits(b"k", b"data", 2_048));
            assert_eq!(status, ALREADY_EXISTS);
            let (status, _) = asked(lent, DESTROY, &name_body(b"k"));
            assert_eq!(status, SUCCESS);
            assert!(lent.registry == start(), "{bits}");
        }
    }
}

#[test]
fn the_journals_reader_takes_what_import_once_took_and_no_other_bits() {
    for bits in 0..=u16::MAX {
        let key = key_of(bits);
        let journal = [import_record(0, &key), destroy_record(0, b"k")].concat();
        let first = import_record(0, &key).len();
        for file in [&journal[..], &journal[..first]] {
            let mut reading = Reading::begin(&start());
            let (last, _) = reading.read_all([file]);
            let restored = read_journal(&start(), file);
            let fault = restored.fault.map_or(0, |fault| fault.number().into());
            assert_eq!((last.code, last.kept), (fault, restored.kept), "{bits}");
            assert!(reading.registry == restored.registry, "{bits}");
            assert_eq!(last.code == 0, bits_are_legal(bits.into()), "{bits}");
        }
    }
}

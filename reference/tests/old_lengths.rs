//! Keys of lengths that Import once took: registries and journals from before hold them still.
//! Document 02, "No more odd key lengths".

mod common;

use common::journal::{destroy_record, import_record};
use common::*;
use reference::{read_journal, registry_is_well_formed, Status};

/// Every length that 01's earlier rule allowed and Import takes no more.
fn old_bits() -> impl Iterator<Item = u64> {
    let earlier = (1_024..=4_096).step_by(8);
    earlier.filter(|bits| !IMPORTABLE_BITS.contains(bits))
}

fn old_key(bits: u64) -> Key {
    Key {
        bits,
        verify_allowed: true,
        ..key(b"k")
    }
}

#[test]
fn a_registry_with_every_old_length_is_well_formed_and_no_other_length_is() {
    for bits in 0..=u64::from(u16::MAX) {
        let mut service = Service::new();
        let slot = slot_at(0, 0);
        service.registry[slot..slot + SLOT_SIZE].copy_from_slice(&old_key(bits).slot());
        let expected = (1_024..=4_096).contains(&bits) && bits % 8 == 0;
        assert_eq!(
            registry_is_well_formed(&service.registry),
            expected,
            "{bits}"
        );
    }
}

#[test]
fn an_old_key_is_exported_counted_and_destroyed_as_before() {
    for bits in old_bits() {
        let mut service = Service::new().holding(0, 3, &old_key(bits));
        let exported = service.ask(&export(b"k"));
        assert_eq!(exported.status, 0);
        assert_eq!(exported.body, Body::new().field(1, &key(b"k").data).bytes());
        assert_eq!(service.uses(0, 3), 1);
        service.expect_status(&destroy(b"k"), Status::Success);
        assert_eq!(service.registry, Service::new().registry);
    }
}

#[test]
fn an_old_keys_flags_hold() {
    let sealed = Key {
        export_allowed: false,
        verify_allowed: false,
        ..old_key(1_024)
    };
    let mut service = Service::new().holding(0, 0, &sealed);
    for request in [export(b"k"), verify(b"k", &[], &[])] {
        service.expect_status(&request, Status::PsaErrorNotPermitted);
    }
}

#[test]
fn an_old_keys_name_is_held_and_its_slot_in_use() {
    for bits in [1_024, 2_056] {
        let mut service = Service::with_keys(&EIGHT[..7]).holding(0, 7, &old_key(bits));
        let again = import(&key(b"k"));
        service.expect_status(&again, Status::PsaErrorAlreadyExists);
        let ninth = import(&key(b"i"));
        service.expect_status(&ninth, Status::PsaErrorInsufficientStorage);
        service.expect_status(&destroy(b"k"), Status::Success);
        service.expect_status(&ninth, Status::Success);
    }
}

#[test]
fn an_old_key_is_not_imported_again_once_destroyed() {
    for bits in [1_024, 2_056] {
        let mut service = Service::new().holding(0, 0, &old_key(bits));
        service.expect_status(&destroy(b"k"), Status::Success);
        let again = import(&old_key(bits));
        service.expect_status(&again, Status::PsaErrorNotSupported);
    }
}

#[test]
fn the_record_of_an_old_import_is_carried_out() {
    let start = Service::new().registry;
    for bits in old_bits() {
        let record = import_record(1, &old_key(bits));
        let restored = read_journal(&start, &record);
        assert_eq!((restored.fault, restored.kept), (None, record.len() as u64));
        let expected = Service::new().holding(1, 0, &old_key(bits));
        assert!(restored.registry == expected.registry, "{bits}");
        let both = [record, destroy_record(1, b"k")].concat();
        assert!(read_journal(&start, &both).registry == start, "{bits}");
    }
}

#[test]
fn the_destroy_of_an_old_key_has_a_record() {
    let mut service = Service::new().holding(0, 0, &old_key(2_056));
    let taken = service.call(&destroy(b"k").bytes()).unwrap();
    let record = destroy_record(0, b"k");
    assert_eq!(service.journal[..taken.recorded], record);
}

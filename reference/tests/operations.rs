//! What the operations answer and what they leave in the registry; verifying has signatures.rs.
//! Document 01, "Operations and their fields".

mod common;

use common::*;
use reference::{registry_is_well_formed, Status};

#[test]
fn ping_answers_major_1_and_leaves_minor_0_out() {
    assert_eq!(Service::new().ask(&ping()).body, [0x08, 0x01]);
}

#[test]
fn core_operations_serve_applications_and_auth_type_0_alike() {
    for request in [ping(), list_providers(), list_opcodes(0), list_opcodes(1)] {
        let mut service = Service::new();
        let open = service.ask(&request);
        let sent_by_second = service.ask(&request.sent_by(SECOND));
        assert_eq!(open, sent_by_second);
        assert_eq!(service.counters.unauthenticated, 1);
        assert_eq!(service.counters.served, [0, 1, 0, 0, 0, 0, 0, 0]);
    }
}

#[test]
fn import_and_destroy_answer_an_empty_body() {
    let mut service = Service::new();
    assert_eq!(service.ask(&import(&key(b"a"))).body, []);
    assert_eq!(service.ask(&destroy(b"a")).body, []);
}

#[test]
fn import_fills_the_slot_and_leaves_the_rest_alone() {
    let mut service = Service::with_keys(&[b"x"]);
    let key = Key {
        data: (0..=255).collect(),
        bits: 3_072,
        export_allowed: false,
        verify_allowed: true,
        ..key(b"y")
    };
    let mut expected = service.registry.clone();
    expected[slot_at(0, 1)..][..SLOT_SIZE].copy_from_slice(&key.slot());
    service.expect_status(&import(&key), Status::Success);
    assert_eq!(service.registry, expected);
}

#[test]
fn import_fills_the_lowest_numbered_free_slot() {
    let mut service = Service::with_keys(&EIGHT);
    service.expect_status(&destroy(b"h"), Status::Success);
    service.expect_status(&destroy(b"b"), Status::Success);
    service.expect_status(&import(&key(b"i")), Status::Success);
    assert_eq!(service.slot(0, 1), key(b"i").slot());
    service.expect_status(&import(&key(b"j")), Status::Success);
    assert_eq!(service.slot(0, 7), key(b"j").slot());
}

#[test]
fn every_slot_of_a_line_is_filled_exported_destroyed_and_filled_again() {
    let mut service = Service::with_keys(&EIGHT);
    for (slot, name) in EIGHT.into_iter().enumerate() {
        assert_eq!(service.slot(0, slot), key(name).slot());
        assert_eq!(service.ask(&export(name)).body, [0x0A, 2, 0xAA, 0xBB]);
        assert_eq!(service.uses(0, slot), 1);
    }
    for name in EIGHT.into_iter().rev() {
        service.expect_status(&destroy(name), Status::Success);
        service.expect_status(&export(name), Status::PsaErrorDoesNotExist);
    }
    assert_eq!(service.registry, Service::new().registry, "no key is left");
    for (slot, name) in EIGHT.into_iter().rev().enumerate() {
        service.expect_status(&import(&key(name)), Status::Success);
        assert_eq!(service.slot(0, slot), key(name).slot());
    }
}

/// A scan that stops at the first free slot would import `b` a second time.
#[test]
fn a_name_held_behind_a_free_slot_already_exists() {
    let mut service = Service::with_keys(&[b"a", b"b"]);
    service.expect_status(&destroy(b"a"), Status::Success);
    service.expect_status(&import(&key(b"b")), Status::PsaErrorAlreadyExists);
    service.expect_status(&export(b"b"), Status::Success);
}

#[test]
fn a_destroyed_slot_is_all_zero_and_can_be_filled_again() {
    let mut service = Service::new();
    let empty = service.registry.clone();
    let long = Key {
        name: vec![b'~'; 32],
        data: vec![0xFF; 600],
        bits: 4_096,
        export_allowed: true,
        verify_allowed: true,
    };
    service.expect_status(&import(&long), Status::Success);
    service.expect_status(&destroy(&long.name), Status::Success);
    assert_eq!(service.registry, empty);
    service.expect_status(&import(&key(b"a")), Status::Success);
    assert_eq!(service.slot(0, 0), key(b"a").slot());
}

#[test]
fn a_destroyed_key_does_not_exist() {
    let mut service = Service::with_keys(&[b"a"]);
    service.expect_status(&destroy(b"a"), Status::Success);
    service.expect_status(&destroy(b"a"), Status::PsaErrorDoesNotExist);
    service.expect_status(&export(b"a"), Status::PsaErrorDoesNotExist);
}

#[test]
fn export_gives_the_imported_data_and_changes_the_count_of_uses_alone() {
    let mut service = Service::new();
    let key = Key {
        data: vec![0x00, 0xFF, 0x00],
        ..key(b"a")
    };
    service.expect_status(&import(&key), Status::Success);
    let mut expected = service.clone();
    for uses in 1..=2 {
        let response = service.ask(&export(b"a"));
        assert_eq!(response.body, [0x0A, 3, 0x00, 0xFF, 0x00]);
        expected.set_uses(0, 0, uses);
        assert_eq!(service.registry, expected.registry);
    }
}

#[test]
fn a_key_without_leave_for_export_can_be_destroyed() {
    let mut service = Service::new();
    let secret = Key {
        export_allowed: false,
        ..key(b"a")
    };
    service.expect_status(&import(&secret), Status::Success);
    service.expect_status(&destroy(b"a"), Status::Success);
}

#[test]
fn eight_applications_hold_eight_keys_each() {
    let names: [&[u8]; 8] = [b"0", b"1", b"2", b"3", b"4", b"5", b"6", b"7"];
    let mut service = Service::with_roster(&names);
    for name in names {
        for key_name in EIGHT {
            let request = import(&key(key_name)).sent_by(name);
            service.expect_status(&request, Status::Success);
        }
        let ninth = import(&key(b"i")).sent_by(name);
        service.expect_status(&ninth, Status::PsaErrorInsufficientStorage);
    }
    assert!(registry_is_well_formed(&service.registry));
    assert_eq!(service.counters.served, [SLOTS as u64; LINES]);
}

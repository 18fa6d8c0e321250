//! The count of uses of a key: what adds to it, what doesn't, and where it stays.
//! Document 02, "Use per key".

mod common;

use common::vectors::blocks;
use common::*;
use reference::Status;

const TOP: u32 = 4_294_967_295;

/// A key that may be exported and verified with, and a signature of it.
struct Signed {
    key: Key,
    hash: Vec<u8>,
    signature: Vec<u8>,
}

impl Signed {
    /// Of 2,048 bits and exponent 3, the quickest that is imported, under the name `k`.
    fn short() -> Signed {
        let blocks = blocks("signatures.txt");
        let block = blocks.iter().find(|block| block.title == "2048-3");
        let block = block.expect("the key");
        Signed {
            key: Key {
                data: block.bytes("data"),
                bits: 2_048,
                export_allowed: true,
                verify_allowed: true,
                ..key(b"k")
            },
            hash: block.bytes("hash"),
            signature: block.bytes("signature"),
        }
    }

    fn verify(&self) -> Request {
        verify(b"k", &self.hash, &self.signature)
    }

    /// An Export and a Verify that are served.
    fn both_uses(&self) -> [Request; 2] {
        [export(b"k"), self.verify()]
    }

    /// The key in slot 1, between two others, which have been used 5 and 6 times.
    fn service(&self) -> Service {
        let mut service = Service::with_keys(&[b"a"]);
        for key in [&self.key, &key(b"b")] {
            service.expect_status(&import(key), Status::Success);
        }
        service.set_uses(0, 0, 5);
        service.set_uses(0, 2, 6);
        service
    }
}

/// Sends a request and checks that the registry becomes this one.
fn expect_registry(service: &mut Service, request: &Request, status: Status, registry: &[u8]) {
    service.expect_status(request, status);
    assert!(service.registry == registry, "{request:?}");
}

#[test]
fn a_served_export_or_verify_adds_one_and_changes_nothing_else() {
    let signed = Signed::short();
    for request in signed.both_uses() {
        let mut service = signed.service();
        for uses in 1..=300 {
            let mut expected = service.clone();
            expected.set_uses(0, 1, uses);
            expect_registry(&mut service, &request, Status::Success, &expected.registry);
        }
    }
}

#[test]
fn the_count_is_of_exports_and_verifies_together() {
    let signed = Signed::short();
    let mut service = signed.service();
    for uses in 1..=10 {
        let request = &signed.both_uses()[uses as usize % 2];
        service.expect_status(request, Status::Success);
        assert_eq!(service.uses(0, 1), uses);
    }
}

#[test]
fn a_count_carries_over_from_byte_to_byte() {
    let signed = Signed::short();
    for uses in [0xFF, 0xFFFF, 0xFF_FFFF, 0x00FF_FFFE, 0x7FFF_FFFF] {
        for request in signed.both_uses() {
            let mut service = signed.service();
            service.set_uses(0, 1, uses);
            service.expect_status(&request, Status::Success);
            assert_eq!(service.uses(0, 1), uses + 1);
        }
    }
}

#[test]
fn a_count_stays_at_4_294_967_295_once_there() {
    let signed = Signed::short();
    for request in signed.both_uses() {
        let mut service = signed.service();
        service.set_uses(0, 1, TOP - 2);
        for uses in [TOP - 1, TOP, TOP, TOP] {
            let mut expected = service.clone();
            expected.set_uses(0, 1, uses);
            expect_registry(&mut service, &request, Status::Success, &expected.registry);
        }
    }
}

#[test]
fn a_refused_use_is_not_counted() {
    let signed = Signed::short();
    let [hash, signature] = [&signed.hash[..], &signed.signature];
    let sealed = Key {
        export_allowed: false,
        verify_allowed: false,
        ..signed.key.clone()
    };
    let no_key = Key {
        data: vec![1],
        ..signed.key.clone()
    };
    let cases = [
        (&sealed, export(b"k"), Status::PsaErrorNotPermitted),
        (&sealed, signed.verify(), Status::PsaErrorNotPermitted),
        (&signed.key, export(b""), Status::PsaErrorInvalidArgument),
        (&signed.key, export(b"other"), Status::PsaErrorDoesNotExist),
        (
            &signed.key,
            export(b"k").sent_by(SECOND),
            Status::PsaErrorDoesNotExist,
        ),
        (
            &signed.key,
            export(b"k").without_authentication(),
            Status::NotAuthenticated,
        ),
        (
            &signed.key,
            verify(b"k", &hash[1..], signature),
            Status::PsaErrorInvalidArgument,
        ),
        (&no_key, signed.verify(), Status::PsaErrorNotSupported),
        (
            &signed.key,
            verify(b"k", hash, &signature[1..]),
            Status::PsaErrorInvalidSignature,
        ),
        (
            &signed.key,
            verify(b"k", &[0; 32], signature),
            Status::PsaErrorInvalidSignature,
        ),
    ];
    for (key, request, status) in cases {
        for uses in [0, 7, TOP] {
            let mut service = Service::new();
            service.expect_status(&import(key), Status::Success);
            service.set_uses(0, 0, uses);
            let before = service.registry.clone();
            expect_registry(&mut service, &request, status, &before);
        }
    }
}

#[test]
fn core_operations_count_no_use() {
    let mut service = Signed::short().service();
    let before = service.registry.clone();
    for request in [ping(), list_providers(), list_opcodes(1)] {
        let request = request.sent_by(FIRST);
        expect_registry(&mut service, &request, Status::Success, &before);
    }
}

#[test]
fn counts_are_kept_over_imports_and_destroys_of_other_keys() {
    let signed = Signed::short();
    let mut service = signed.service();
    service.set_uses(0, 1, TOP);
    for name in [b"c", b"d", b"e", b"f", b"g"] {
        service.expect_status(&import(&key(name)), Status::Success);
    }
    let ninth = import(&key(b"h"));
    service.expect_status(&ninth, Status::PsaErrorInsufficientStorage);
    service.expect_status(&destroy(b"a"), Status::Success);
    service.expect_status(&ninth, Status::Success);
    let by_second = import(&key(b"k")).sent_by(SECOND);
    service.expect_status(&by_second, Status::Success);
    assert_eq!(
        [0, 1, 2, 3, 4, 5, 6, 7].map(|slot| service.uses(0, slot)),
        [0, TOP, 6, 0, 0, 0, 0, 0]
    );
    assert_eq!(service.uses(1, 0), 0);
}

#[test]
fn each_applications_key_of_one_name_has_a_count_of_its_own() {
    let signed = Signed::short();
    let mut service = signed.service();
    let by_second = import(&signed.key).sent_by(SECOND);
    service.expect_status(&by_second, Status::Success);
    for request in signed.both_uses() {
        service.expect_status(&request.sent_by(SECOND), Status::Success);
    }
    service.expect_status(&export(b"k"), Status::Success);
    assert_eq!([service.uses(0, 1), service.uses(1, 0)], [1, 2]);
}

#[test]
fn a_key_destroyed_and_imported_again_has_not_been_used() {
    let signed = Signed::short();
    let mut service = signed.service();
    for _ in 0..3 {
        service.expect_status(&export(b"k"), Status::Success);
    }
    service.expect_status(&destroy(b"k"), Status::Success);
    assert_eq!(service.slot(0, 1), vec![0; SLOT_SIZE]);
    service.expect_status(&import(&signed.key), Status::Success);
    assert_eq!(service.slot(0, 1), signed.key.slot());
    service.expect_status(&export(b"k"), Status::Success);
    assert_eq!(service.uses(0, 1), 1);
}

#[test]
fn a_listed_keys_use_changes_no_byte_of_the_registry() {
    let signed = Signed::short();
    let list = lists::pair(b"k", &signed.key.data);
    let mut service = Service::with_keys(&[b"a"]).with_list(&list);
    let before = service.registry.clone();
    for request in signed.both_uses() {
        for application in [FIRST, SECOND] {
            let request = request.clone().sent_by(application);
            expect_registry(&mut service, &request, Status::Success, &before);
        }
    }
}

#[test]
fn an_own_key_of_a_listed_name_is_counted_for_its_application_alone() {
    let signed = Signed::short();
    let list = lists::pair(b"k", &signed.key.data);
    let mut service = signed.service().with_list(&list);
    for (count, request) in (1..).zip(signed.both_uses()) {
        let mut expected = service.clone();
        expected.set_uses(0, 1, count);
        expect_registry(&mut service, &request, Status::Success, &expected.registry);
        let by_second = request.sent_by(SECOND);
        expect_registry(
            &mut service,
            &by_second,
            Status::Success,
            &expected.registry,
        );
    }
}

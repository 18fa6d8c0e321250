//! Lists that are good and bad, and what the operations make of own and listed keys.
//! Document 02, "Keys we ship".

mod common;

use common::lists::*;
use common::vectors::blocks;
use common::*;
use reference::{list_is_well_formed, Refusal, Status, LONGEST_RESPONSE, MOST_LISTED_KEYS};

// Lists.

fn expect_good(list: &[u8]) {
    assert!(list_is_well_formed(list));
    let mut service = Service::new().with_list(list);
    assert_eq!(service.send(&PING_REQUEST), [PING_RESPONSE]);
}

fn expect_bad(title: &str, list: &[u8]) {
    assert!(!list_is_well_formed(list), "{title}");
    let mut service = Service::with_keys(&[b"a"]).with_list(list);
    service.expect_refusal(&PING_REQUEST, Refusal::ListIllFormed);
}

#[test]
fn a_list_has_0_to_64_pairs() {
    assert_eq!(MOST_LISTED_KEYS, 64);
    for count in 0..=64 {
        expect_good(&list_of(&pairs(count)));
    }
    expect_bad("65", &list_of(&pairs(65)));
    expect_good(&longest_list());
    assert_eq!(longest_list().len(), 64 * (3 + 32 + 3 + 600));
}

#[test]
fn every_kind_of_bad_list_is_c6() {
    let bad = bad_lists();
    assert!(bad.len() > 200);
    for (title, list) in bad {
        expect_bad(&title, &list);
    }
}

#[test]
fn a_list_cut_within_a_pair_is_c6() {
    for list in [list_of(&pairs(5)), longest_list()] {
        let ends = ends_of_pairs(&list);
        for cut in 0..=list.len() {
            let cut_list = &list[..cut];
            assert_eq!(list_is_well_formed(cut_list), ends.contains(&cut), "{cut}");
        }
    }
}

#[test]
fn bounds_of_a_name_and_of_data_are_imports() {
    for (name, data) in [(1, 1), (32, 600), (1, 255), (2, 256), (31, 257)] {
        expect_good(&pair(&vec![b'n'; name], &vec![0; data]));
    }
    for byte in 0..=255 {
        let list = pair(&[b'n', byte], b"d");
        assert_eq!(
            list_is_well_formed(&list),
            (0x21..=0x7E).contains(&byte),
            "{byte}"
        );
    }
}

#[test]
fn names_are_distinct_as_a_whole() {
    let names: [&[u8]; 5] = [b"a", b"aa", b"A", b"aaa", b"ab"];
    let keys = names.map(|name| (name.to_vec(), b"same".to_vec()));
    expect_good(&list_of(&keys));
}

// Who holds the key.

const LISTED: &[u8] = b"listed";

/// A list with `k` and others, `k` in the middle.
fn list_with(data: &[u8]) -> Vec<u8> {
    let others = list_of(&pairs(3));
    let more = pair(b"kk", b"another");
    [&others[..], &pair(b"k", data), &more].concat()
}

/// `k` is listed and the application's own, if any, from before.
fn service_with(own: Option<&Key>, listed: &[u8]) -> Service {
    let service = Service::new().with_list(&list_with(listed));
    match own {
        Some(key) => service.holding(0, 0, key),
        None => service,
    }
}

fn own(export_allowed: bool, verify_allowed: bool) -> Key {
    Key {
        export_allowed,
        verify_allowed,
        ..key(b"k")
    }
}

fn expect_export(service: &mut Service, request: &Request, data: &[u8]) {
    let response = service.ask(request);
    assert_eq!(response.status, 0);
    assert_eq!(response.body, Body::new().field(1, data).bytes());
}

#[test]
fn a_listed_key_is_exported_to_every_application_as_it_lies() {
    for length in [1, 2, 127, 128, 600] {
        let data: Vec<u8> = (0..length).map(|place| place as u8).collect();
        let mut service = service_with(None, &data);
        let before = service.clone();
        for application in [FIRST, SECOND] {
            let request = export(b"k").sent_by(application);
            expect_export(&mut service, &request, &data);
        }
        assert_eq!(service.registry, before.registry);
        assert_eq!(service.counters.served, [1, 1, 0, 0, 0, 0, 0, 0]);
        if length == 600 {
            let taken = service.call(&export(b"k").bytes()).unwrap();
            assert_eq!(taken.written, LONGEST_RESPONSE);
        }
    }
}

#[test]
fn every_key_of_the_longest_list_is_found() {
    let list = longest_list();
    let mut service = Service::new().with_list(&list);
    let keys = pairs_in(&list);
    assert_eq!(keys.len(), 64);
    for (name, data) in keys {
        expect_export(&mut service, &export(&name), &data);
    }
    for name in [vec![b'n'; 31], vec![b'n'; 32]] {
        service.expect_status(&export(&name), Status::PsaErrorDoesNotExist);
    }
}

#[test]
fn an_own_key_is_exported_before_a_listed_one() {
    let mut service = service_with(Some(&own(true, false)), LISTED);
    expect_export(&mut service, &export(b"k"), &key(b"k").data);
    // The other application holds none of its own.
    expect_export(&mut service, &export(b"k").sent_by(SECOND), LISTED);
}

#[test]
fn an_own_key_without_the_use_is_not_permitted_though_a_listed_one_would_do() {
    let signed = Signed::find("2048-3");
    for (export_allowed, verify_allowed) in [(false, true), (true, false), (false, false)] {
        let key = Key {
            data: signed.data.clone(),
            bits: 2_048,
            ..own(export_allowed, verify_allowed)
        };
        let mut service = service_with(Some(&key), &signed.data);
        let status = |allowed| match allowed {
            true => Status::Success,
            false => Status::PsaErrorNotPermitted,
        };
        service.expect_status(&export(b"k"), status(export_allowed));
        service.expect_status(&signed.request(), status(verify_allowed));
        let by_second = signed.request().sent_by(SECOND);
        service.expect_status(&by_second, Status::Success);
    }
}

#[test]
fn a_name_is_judged_before_it_is_looked_for() {
    let mut service = service_with(None, LISTED);
    for name in [&b""[..], b"a b", &[b'k'; 33]] {
        for request in [export(name), destroy(name), verify(name, &[0; 32], b"")] {
            service.expect_status(&request, Status::PsaErrorInvalidArgument);
        }
    }
    for name in [&b"K"[..], b"kkk", b"list"] {
        for request in [export(name), destroy(name), verify(name, &[0; 32], b"")] {
            service.expect_status(&request, Status::PsaErrorDoesNotExist);
        }
    }
}

#[test]
fn a_listed_name_is_not_imported() {
    let mut service = service_with(None, LISTED);
    for application in [FIRST, SECOND] {
        let request = import(&key(b"k")).sent_by(application);
        service.expect_status(&request, Status::PsaErrorAlreadyExists);
    }
    service.expect_status(&import(&key(b"other")), Status::Success);
}

#[test]
fn an_own_name_that_is_listed_too_is_not_imported() {
    let mut service = service_with(Some(&own(true, true)), LISTED);
    service.expect_status(&import(&key(b"k")), Status::PsaErrorAlreadyExists);
}

#[test]
fn imports_bounds_come_before_a_listed_name_and_that_before_a_full_line() {
    let mut service = Service::with_keys(&EIGHT).with_list(&list_with(LISTED));
    let bad = Key {
        bits: 1_016,
        ..key(b"k")
    };
    service.expect_status(&import(&bad), Status::PsaErrorNotSupported);
    service.expect_status(&import(&key(b"k")), Status::PsaErrorAlreadyExists);
    service.expect_status(&import(&key(b"i")), Status::PsaErrorInsufficientStorage);
}

#[test]
fn a_listed_key_is_not_destroyed() {
    let mut service = service_with(None, LISTED);
    for application in [FIRST, SECOND] {
        let request = destroy(b"k").sent_by(application);
        service.expect_status(&request, Status::PsaErrorNotPermitted);
    }
    expect_export(&mut service, &export(b"k"), LISTED);
}

#[test]
fn an_own_key_of_a_listed_name_is_destroyed_and_then_the_listed_one_is_found() {
    for flags in [(true, true), (false, false)] {
        let mut service = service_with(Some(&own(flags.0, flags.1)), LISTED);
        let by_second = destroy(b"k").sent_by(SECOND);
        service.expect_status(&by_second, Status::PsaErrorNotPermitted);
        service.expect_status(&destroy(b"k"), Status::Success);
        assert_eq!(service.slot(0, 0), vec![0; SLOT_SIZE]);
        service.expect_status(&destroy(b"k"), Status::PsaErrorNotPermitted);
        expect_export(&mut service, &export(b"k"), LISTED);
        service.expect_status(&import(&key(b"k")), Status::PsaErrorAlreadyExists);
    }
}

#[test]
fn without_authentication_a_listed_key_is_nobodys() {
    let mut service = service_with(None, LISTED);
    for request in [export(b"k"), destroy(b"k"), import(&key(b"k"))] {
        let request = request.without_authentication();
        service.expect_status(&request, Status::NotAuthenticated);
    }
}

#[test]
fn a_list_is_read_on_each_call_by_itself() {
    let mut service = service_with(None, LISTED);
    expect_export(&mut service, &export(b"k"), LISTED);
    service.list = list_with(b"another");
    expect_export(&mut service, &export(b"k"), b"another");
    service.list = Vec::new();
    service.expect_status(&export(b"k"), Status::PsaErrorDoesNotExist);
}

// Signatures.

struct Signed {
    data: Vec<u8>,
    hash: Vec<u8>,
    signature: Vec<u8>,
}

impl Signed {
    fn of(block: &vectors::Block) -> Signed {
        Signed {
            data: block.bytes("data"),
            hash: block.bytes("hash"),
            signature: block.bytes("signature"),
        }
    }

    fn find(title: &str) -> Signed {
        let all = blocks("signatures.txt");
        let block = all.iter().find(|block| block.title == title);
        Signed::of(block.expect("the key"))
    }

    fn request(&self) -> Request {
        verify(b"k", &self.hash, &self.signature)
    }

    fn expect(&self, status: Status) {
        let mut service = service_with(None, &self.data);
        service.expect_status(&self.request(), status);
    }
}

#[test]
fn every_signature_of_a_listed_key_is_valid_where_import_takes_its_moduluss_bits() {
    let all = blocks("signatures.txt");
    assert_eq!(all.len(), 23);
    for block in &all {
        let signed = Signed::of(block);
        match IMPORTABLE_BITS.contains(&block.number("bits").into()) {
            true => signed.expect(Status::Success),
            false => signed.expect(Status::PsaErrorNotSupported),
        }
        let mut service = service_with(None, &signed.data);
        expect_export(&mut service, &export(b"k"), &signed.data);
    }
}

#[test]
fn a_wrong_signature_of_a_listed_key_is_invalid() {
    let mut signed = Signed::find("2048-3");
    signed.signature[9] ^= 1;
    signed.expect(Status::PsaErrorInvalidSignature);
    signed.signature.pop();
    signed.expect(Status::PsaErrorInvalidSignature);
}

#[test]
fn a_listed_keys_hash_comes_before_its_data_and_that_before_the_signature() {
    for data in [b"no key".to_vec(), rsa_public_key(1_016)] {
        let mut signed = Signed {
            data,
            hash: vec![0; 31],
            signature: Vec::new(),
        };
        signed.expect(Status::PsaErrorInvalidArgument);
        signed.hash.push(0);
        signed.expect(Status::PsaErrorNotSupported);
    }
}

/// The structures that no stored bits make good; what other bits alone made bad is good here.
#[test]
fn listed_data_that_is_no_rsa_public_key_is_not_supported() {
    let mut reached = [0; 2];
    for block in blocks("keys.txt") {
        let signed = Signed::of(&block);
        let bits = reference::rsa::modulus_bits(&signed.data);
        let status = match block.text("name") {
            "eight bits more stored" | "eight bits less stored" if bits == 2_048 => Status::Success,
            _ => Status::PsaErrorNotSupported,
        };
        signed.expect(status);
        reached[usize::from(status != Status::Success)] += 1;
    }
    assert_eq!(reached, [2, 77]);
}

#[test]
fn a_listed_modulus_has_2048_3072_or_4096_bits() {
    for bits in 1..4_200 {
        let status = match IMPORTABLE_BITS.contains(&(bits as u64)) {
            true => Status::PsaErrorInvalidSignature,
            false => Status::PsaErrorNotSupported,
        };
        let signed = Signed {
            data: rsa_public_key(bits),
            hash: vec![0; 32],
            signature: vec![0; bits.div_ceil(8)],
        };
        signed.expect(status);
        assert_eq!(reference::rsa::modulus_bits(&signed.data), bits as u32);
    }
    assert_eq!(reference::rsa::modulus_bits(b"no key"), 0);
}

#[test]
fn an_own_key_verifies_before_a_listed_one() {
    let (first, second) = (Signed::find("2048-3"), Signed::find("2048-17"));
    let key = Key {
        data: first.data.clone(),
        bits: 2_048,
        ..own(false, true)
    };
    let mut service = service_with(Some(&key), &second.data);
    service.expect_status(&first.request(), Status::Success);
    service.expect_status(&second.request(), Status::PsaErrorInvalidSignature);
    let by_second = |signed: &Signed| signed.request().sent_by(SECOND);
    service.expect_status(&by_second(&first), Status::PsaErrorInvalidSignature);
    service.expect_status(&by_second(&second), Status::Success);
}

/// Its stored bits count, not its modulus's, though the listed one's would be good.
#[test]
fn an_own_key_of_other_stored_bits_is_not_supported() {
    let signed = Signed::find("2048-3");
    let key = Key {
        data: signed.data.clone(),
        bits: 3_072,
        ..own(false, true)
    };
    let mut service = service_with(Some(&key), &signed.data);
    service.expect_status(&signed.request(), Status::PsaErrorNotSupported);
}

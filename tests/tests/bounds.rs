//! Both sides of each bound, and the ★ cases, on the compiled service and under the rules of the
//! reference: document 01, "Either side of each bound".

use razidkot::Refusal;
use razidkot_tests::ask::*;
use razidkot_tests::layout::{Key, SLOTS};
use razidkot_tests::lent::{Lengths, Lent};
use razidkot_tests::requests::{with_header_size, with_lengths};
use razidkot_tests::service;

const SCANNER: &[u8] = b"scanner";
const LONGEST_NAME: &[u8] = &[b'n'; 64];
/// As many keys as an application may hold.
const EIGHT: [&[u8]; SLOTS] = [b"a", b"b", b"c", b"d", b"e", b"f", b"g", b"h"];

/// The responses of a service with two applications.
fn responses(requests: &[Vec<u8>]) -> Vec<Vec<u8>> {
    let names = [SCANNER.to_vec(), LONGEST_NAME.to_vec()];
    service::responses(&names, &requests.concat(), &[])
}

fn statuses(requests: &[Vec<u8>]) -> Vec<u16> {
    let status = |response: &Vec<u8>| u16::from_le_bytes([response[24], response[25]]);
    responses(requests).iter().map(status).collect()
}

/// The body of the one response to a request that is served.
fn body_of(request: Vec<u8>) -> Vec<u8> {
    let response = responses(&[request]).remove(0);
    assert_eq!(response[24..26], [0, 0], "Success");
    response[26..].to_vec()
}

fn ping() -> Vec<u8> {
    request(PING, None, &[])
}

fn key(name: &[u8]) -> Key {
    Key {
        name: name.to_vec(),
        data: vec![0xAA, 0xBB],
        bits: 2_048,
        export_allowed: true,
        verify_allowed: false,
    }
}

fn import(key: &Key) -> Vec<u8> {
    request(IMPORT, Some(SCANNER), &import_body(key))
}

fn destroy(name: &[u8]) -> Vec<u8> {
    request(DESTROY, Some(SCANNER), &name_body(name))
}

fn export(name: &[u8]) -> Vec<u8> {
    request(EXPORT, Some(SCANNER), &name_body(name))
}

#[test]
fn ping_is_answered_with_version_1_0() {
    let mut ping = ping();
    ping[9..17].fill(0);
    assert_eq!(
        ping,
        *b"\x10\xA7\xC0\x5E\x16\0\x01\0\0\0\0\0\0\0\0\0\0\x01\x01\0\0\0\0\0\0\0\x01\0"
    );
    assert_eq!(
        responses(&[ping])[0],
        *b"\x10\xA7\xC0\x5E\x14\0\x01\0\0\0\0\0\0\0\0\0\0\x01\x02\0\0\0\x01\0\0\0\x08\x01"
    );
}

#[test]
fn providers_and_opcodes_are_listed_in_order() {
    assert_eq!(body_of(request(LIST_PROVIDERS, None, &[])), [0x0A, 2, 0, 1]);
    let list_opcodes = |body: &[u8]| body_of(request(LIST_OPCODES, None, body));
    assert_eq!(list_opcodes(&[]), [0x0A, 3, 1, 8, 9]);
    assert_eq!(list_opcodes(&[8, 1]), [0x0A, 4, 3, 5, 6, 7]);
    assert_eq!(statuses(&[request(LIST_OPCODES, None, &[8, 2])]), [6]);
}

#[test]
fn an_imported_key_is_exported() {
    let import = request(
        IMPORT,
        Some(SCANNER),
        b"\x0A\x01a\x12\x02\xAA\xBB\x18\x80\x10\x20\x01",
    );
    let responses = responses(&[import, export(b"a")]);
    assert_eq!(responses[1][24..], *b"\0\0\x0A\x02\xAA\xBB");
}

#[test]
fn header_sizes_of_21_and_65_close_and_22_and_64_are_read() {
    for size in [21_u16, 65] {
        let mut bad = ping();
        bad[4..6].copy_from_slice(&size.to_le_bytes());
        assert_eq!(statuses(&[bad, ping()]), [17], "what follows is dropped");
    }
    for size in [22, 64] {
        assert_eq!(statuses(&[with_header_size(ping(), size), ping()]), [0, 0]);
    }
}

#[test]
fn oversized_requests_are_skipped_and_the_next_one_is_in_step() {
    let with_lengths = |content, auth| with_lengths(&ping(), content, auth);
    let cases = [
        // 4,096 bytes that are no fields, and 256 that are no name.
        (with_lengths(4_096, 0), 7),
        (with_lengths(0, 256), 11),
        (with_lengths(4_097, 0), 20),
        (with_lengths(4_097, 257), 20),
        (with_lengths(0, 257), 11),
    ];
    for (request, status) in cases {
        assert_eq!(statuses(&[request, ping()]), [status, 0]);
    }
}

#[test]
fn a_version_is_judged_before_an_opcode() {
    let mut opcode_0 = ping();
    opcode_0[26] = 0;
    assert_eq!(statuses(std::slice::from_ref(&opcode_0)), [9]);
    opcode_0[6] = 2;
    assert_eq!(statuses(&[opcode_0]), [4]);
}

#[test]
fn an_auth_name_of_64_bytes_is_found_and_one_of_65_is_not() {
    assert_eq!(statuses(&[request(PING, Some(LONGEST_NAME), &[])]), [0]);
    assert_eq!(statuses(&[request(PING, Some(&[b'n'; 65]), &[])]), [11]);
    assert_eq!(statuses(&[request(PING, Some(&[]), &[])]), [11]);
}

#[test]
fn key_names_data_and_bits_are_held_up_to_their_bounds() {
    let imported = |key: Key| statuses(&[import(&key)])[0];
    assert_eq!(imported(key(&[b'k'; 32])), 0);
    assert_eq!(imported(key(&[b'k'; 33])), 1135);
    assert_eq!(imported(key(&[])), 1135);
    for (length, status) in [(0, 1135), (1, 0), (600, 0), (601, 1135)] {
        let data = vec![0xDA; length];
        assert_eq!(imported(Key { data, ..key(b"a") }), status, "{length}");
    }
    for (bits, status) in [
        (2_048, 0),
        (3_072, 0),
        (4_096, 0),
        (1_016, 1134),
        (1_024, 1134),
        (1_028, 1134),
        (4_104, 1134),
    ] {
        assert_eq!(imported(Key { bits, ..key(b"a") }), status, "{bits}");
    }
}

#[test]
fn a_ninth_key_has_no_slot_until_one_is_destroyed() {
    let mut requests: Vec<_> = EIGHT.map(|name| import(&key(name))).into();
    requests.extend([import(&key(b"i")), import(&key(b"c"))]);
    requests.extend([destroy(b"b"), import(&key(b"i")), destroy(b"b")]);
    let (served, rest) = ([0; SLOTS], [1142, 1139, 0, 0, 1140]);
    assert_eq!(statuses(&requests), [&served[..], &rest].concat());
}

#[test]
fn a_ninth_import_under_a_held_name_already_exists() {
    for held in EIGHT {
        let names = EIGHT.into_iter().chain([held]);
        let requests: Vec<_> = names.map(|name| import(&key(name))).collect();
        let (served, last) = ([0; SLOTS], [1139]);
        assert_eq!(statuses(&requests), [&served[..], &last].concat());
    }
}

#[test]
fn buffers_of_1_024_bytes_are_enough_and_one_of_1_023_is_not() {
    let mut lent = Lent::fresh(&registry_of(&[]), b"");
    let mut call = |response, journal| {
        lent.renew_buffers(Lengths { response, journal }, 0x55);
        lent.call_proved(&ping()).result()
    };
    assert_eq!(call(1_023, 0), Err(Refusal::ResponseBufferTooSmall));
    assert_eq!(call(1_024, 1_023), Err(Refusal::JournalBufferTooSmall));
    assert_eq!(call(1_024, 1_024).map(|answer| answer.written), Ok(28));
}

//! Both sides of every bound that a request, a key or a call has.
//! Document 01, "Either side of each bound"; every line of it, then the bounds named elsewhere.

mod common;

use common::*;
use reference::{Refusal, Status, MAX_CHUNK};

fn ping_with_header_size(header_size: u16) -> Request {
    Request {
        header_size,
        ..ping()
    }
}

fn expect_invalid_header_and_closed(header_size: u16) {
    let mut service = Service::new();
    let request = ping_with_header_size(header_size).bytes();
    assert_eq!(service.send(&request[..5]), Vec::<Vec<u8>>::new());
    let responses = service.send(&request[5..6]);
    assert_eq!(
        responses.len(),
        1,
        "the answer comes at the sixth byte and not before"
    );
    let response = Response::read(&responses[0]);
    assert_eq!(response.status, Status::InvalidHeader.number());
    assert_eq!(service.connection, closed());
    assert_eq!(service.send(&request[6..]), Vec::<Vec<u8>>::new());
    assert_eq!(service.counters.dropped, request.len() as u64 - 6);
}

#[test]
fn header_size_of_21_is_invalid_header_and_closes() {
    expect_invalid_header_and_closed(21);
}

#[test]
fn header_size_of_22_is_read() {
    Service::new().expect_status(&ping_with_header_size(22), Status::Success);
}

#[test]
fn header_size_of_64_is_read() {
    Service::new().expect_status(&ping_with_header_size(64), Status::Success);
}

#[test]
fn header_size_of_65_is_invalid_header_and_closes() {
    expect_invalid_header_and_closed(65);
}

/// An import whose body is as long as asked: data is sent more often than needed.
fn import_with_body_length(length: usize) -> Request {
    let last = key(b"a").body();
    let mut body = Body::new();
    while length - last.len() - body.clone().bytes().len() > 603 {
        body = body.field(2, &[0xDD; 600]);
    }
    let missing = length - last.len() - body.clone().bytes().len();
    // A field of 200 to 600 bytes has one byte of tag and two of length.
    let body = body.field(2, &vec![0xDD; missing - 3]).raw(&last).bytes();
    assert_eq!(body.len(), length);
    keystore(IMPORT, body)
}

#[test]
fn content_of_4096_bytes_is_read() {
    let mut service = Service::new();
    service.expect_status(&import_with_body_length(4_096), Status::Success);
    assert_eq!(service.slot(0, 0), key(b"a").slot());
}

#[test]
fn content_of_4097_bytes_is_skipped_then_refused() {
    let mut service = Service::new();
    let request = import_with_body_length(4_097);
    let bytes = request.bytes();
    let (all_but_last, last) = bytes.split_at(bytes.len() - 1);
    assert_eq!(service.send(all_but_last), Vec::<Vec<u8>>::new());
    assert_eq!(service.connection, skipping(&request.header(), 1));
    let responses = service.send(last);
    assert_eq!(
        Response::read(&responses[0]).status,
        Status::BodySizeExceedsLimit.number()
    );
    assert_eq!(service.connection, open_holding(&[]));
}

#[test]
fn content_of_4097_bytes_and_auth_of_257_is_body_size_exceeds_limit() {
    let request = ping_of_size(4_097, 257);
    Service::new().expect_status(&request, Status::BodySizeExceedsLimit);
}

#[test]
fn no_content_and_auth_of_257_bytes_is_authentication_error() {
    Service::new().expect_status(&ping_of_size(0, 257), Status::AuthenticationError);
}

/// The version shows whether a request was judged whole or skipped.
#[test]
fn auth_of_256_bytes_is_judged_whole_and_257_skipped() {
    for (auth_length, status) in [
        (256, Status::WireProtocolVersionNotSupported),
        (257, Status::AuthenticationError),
    ] {
        let request = Request {
            major: 2,
            ..ping_of_size(0, auth_length)
        };
        Service::new().expect_status(&request, status);
    }
}

#[test]
fn the_longest_request_that_is_not_oversized_is_held_whole() {
    let request = Request {
        header_size: 64,
        ..ping_of_size(4_096, 256)
    };
    let bytes = request.bytes();
    assert_eq!(bytes.len(), 4_422);
    let mut service = Service::new();
    service.send(&bytes[..4_421]);
    assert_eq!(service.connection, open_holding(&bytes[..4_421]));
    let responses = service.send(&bytes[4_421..]);
    assert_eq!(
        Response::read(&responses[0]).status,
        Status::AuthenticationError.number()
    );
}

#[test]
fn version_2_0_with_opcode_0_is_version_not_supported() {
    let request = Request {
        major: 2,
        opcode: 0,
        ..ping()
    };
    Service::new().expect_status(&request, Status::WireProtocolVersionNotSupported);
}

#[test]
fn opcode_0_does_not_exist() {
    let request = Request {
        opcode: 0,
        ..ping()
    };
    Service::new().expect_status(&request, Status::OpcodeDoesNotExist);
}

#[test]
fn auth_name_of_64_bytes_is_read() {
    let name = [b'n'; 64];
    let mut service = Service::with_roster(&[&name]);
    service.expect_status(&ping().sent_by(&name), Status::Success);
    assert_eq!(service.counters.served[0], 1);
}

#[test]
fn auth_name_of_65_bytes_is_authentication_error() {
    let mut service = Service::with_roster(&[&[b'n'; 64]]);
    let request = ping().sent_by(&[b'n'; 65]);
    service.expect_status(&request, Status::AuthenticationError);
}

fn expect_key_held(key: &Key) {
    let mut service = Service::new();
    service.expect_status(&import(key), Status::Success);
    assert_eq!(service.slot(0, 0), key.slot());
    let response = service.ask(&export(&key.name));
    assert_eq!(response.body, Body::new().field(1, &key.data).bytes());
}

fn expect_key_refused(key: &Key) {
    Service::new().expect_status(&import(key), Status::PsaErrorInvalidArgument);
}

#[test]
fn key_names_of_1_and_32_bytes_are_held() {
    expect_key_held(&key(b"k"));
    expect_key_held(&key(&[b'k'; 32]));
}

#[test]
fn key_names_of_0_and_33_bytes_are_invalid_argument() {
    expect_key_refused(&key(b""));
    expect_key_refused(&key(&[b'k'; 33]));
}

#[test]
fn key_names_of_0_and_33_bytes_are_invalid_argument_to_destroy_and_export() {
    let mut service = Service::with_keys(&[&[b'k'; 32]]);
    for name in [&b""[..], &[b'k'; 33]] {
        service.expect_status(&export(name), Status::PsaErrorInvalidArgument);
        service.expect_status(&destroy(name), Status::PsaErrorInvalidArgument);
    }
    service.expect_status(&export(&[b'k'; 32]), Status::Success);
    service.expect_status(&destroy(&[b'k'; 32]), Status::Success);
}

#[test]
fn key_name_bytes_21_and_7e_are_held() {
    expect_key_held(&key(&[0x21, 0x7E]));
}

#[test]
fn key_name_bytes_20_and_7f_are_invalid_argument() {
    for byte in [0x00, 0x20, 0x7F, 0x80, 0xFF] {
        expect_key_refused(&key(&[b'a', byte]));
        expect_key_refused(&key(&[byte, b'a']));
    }
}

fn key_with_data(length: usize) -> Key {
    Key {
        data: (0..length).map(|place| place as u8).collect(),
        ..key(b"a")
    }
}

#[test]
fn data_of_1_and_600_bytes_is_held() {
    expect_key_held(&key_with_data(1));
    expect_key_held(&key_with_data(600));
}

#[test]
fn data_of_0_bytes_is_invalid_argument() {
    expect_key_refused(&key_with_data(0));
}

#[test]
fn data_of_601_bytes_is_invalid_argument() {
    expect_key_refused(&key_with_data(601));
}

#[test]
fn exported_data_of_600_bytes_is_the_longest_response() {
    let mut service = Service::new();
    service.expect_status(&import(&key_with_data(600)), Status::Success);
    let responses = service.send(&export(b"a").bytes());
    assert_eq!(responses[0].len(), reference::LONGEST_RESPONSE);
}

fn key_with_bits(bits: u64) -> Key {
    Key { bits, ..key(b"a") }
}

/// Document 02, "No more odd key lengths".
#[test]
fn bits_of_2048_3072_and_4096_are_held_and_any_other_is_not_supported() {
    for bits in (0..=5_000).chain([u32::MAX.into()]) {
        let key = key_with_bits(bits);
        if IMPORTABLE_BITS.contains(&bits) {
            expect_key_held(&key);
        } else {
            Service::new().expect_status(&import(&key), Status::PsaErrorNotSupported);
        }
    }
}

#[test]
fn bits_that_16_bits_would_cut_to_2048_are_not_supported() {
    let key = key_with_bits(65_536 + 2_048);
    Service::new().expect_status(&import(&key), Status::PsaErrorNotSupported);
}

#[test]
fn a_ninth_key_is_insufficient_storage_until_one_is_destroyed() {
    let mut service = Service::with_keys(&EIGHT);
    let ninth = import(&key(b"i"));
    service.expect_status(&ninth, Status::PsaErrorInsufficientStorage);
    service.expect_status(&destroy(b"c"), Status::Success);
    service.expect_status(&ninth, Status::Success);
    assert_eq!(service.slot(0, 2), key(b"i").slot());
}

#[test]
fn a_ninth_import_under_a_held_name_is_already_exists() {
    for name in EIGHT {
        let mut service = Service::with_keys(&EIGHT);
        service.expect_status(&import(&key(name)), Status::PsaErrorAlreadyExists);
    }
}

#[test]
fn a_response_buffer_of_1024_bytes_is_enough() {
    let mut service = Service::new();
    service.response = vec![0; 1_024];
    service.expect_status(&ping(), Status::Success);
}

#[test]
fn a_response_buffer_of_1023_bytes_is_c1() {
    let mut service = Service::new();
    service.response = vec![0; 1_023];
    service.expect_refusal(&PING_REQUEST, Refusal::ResponseBufferTooSmall);
}

#[test]
fn a_chunk_of_65536_bytes_is_taken() {
    let mut service = Service::new();
    service.connection = closed();
    let taken = service.call(&vec![0; MAX_CHUNK]).unwrap();
    assert_eq!(taken.taken, 65_536);
}

#[test]
fn a_chunk_of_65537_bytes_is_c2() {
    let mut service = Service::new();
    service.connection = closed();
    service.expect_refusal(&vec![0; MAX_CHUNK + 1], Refusal::ChunkTooLong);
}

#[test]
fn a_counter_of_2_to_the_62_is_taken() {
    let mut service = Service::new();
    service.counters.taken = 1 << 62;
    service.expect_status(&ping(), Status::Success);
    assert_eq!(service.counters.taken, (1 << 62) + 28);
}

#[test]
fn a_counter_above_2_to_the_62_is_c5() {
    let mut service = Service::new();
    service.counters.taken = (1 << 62) + 1;
    service.expect_refusal(&PING_REQUEST, Refusal::CounterTooHigh);
}

//! Every ★ case with its exact bytes, through `call` and through the rules.
//! Document 01, wherever it has a ★; the ★ bill is in bills.rs too.

mod common;

use common::*;
use reference::{bill, rules, Status};

/// Session zero in all of these requests, and `b` the only application.
const SESSION: [u8; 8] = [0; 8];

/// The responses to a stream, on which `call` and the rules agree.
fn responses_to(stream: &[u8]) -> Vec<Vec<u8>> {
    let mut service = Service::with_roster(&[b"b"]);
    let outcome = rules::run(&service.registry, stream);
    let responses = service.send(stream);
    assert_eq!(responses, outcome.responses);
    assert_eq!(service.registry, outcome.registry);
    assert_eq!(service.counters, outcome.counters);
    assert_eq!(service.connection, outcome.connection.to_memory());
    responses
}

fn statuses_of(responses: &[Vec<u8>]) -> Vec<u16> {
    let status = |response: &Vec<u8>| Response::read(response).status;
    responses.iter().map(status).collect()
}

fn from_b(opcode: u8, body: &[u8]) -> Vec<u8> {
    let header = [0x10, 0xA7, 0xC0, 0x5E, 0x16, 0x00, 0x01, 0x00, 0x01];
    let lengths = [body.len() as u8, 0, 0, 0, 1, 0];
    [
        &header[..],
        &SESSION,
        &[0x01, 0x01, 0x01],
        &lengths,
        &[opcode, 0x00],
        body,
        b"b",
    ]
    .concat()
}

/// The ★ import with another name in place of `a`.
fn star_import(name: u8) -> Vec<u8> {
    let body = [
        0x0A, 0x01, name, 0x12, 0x02, 0xAA, 0xBB, 0x18, 0x80, 0x10, 0x20, 0x01,
    ];
    from_b(6, &body)
}

#[test]
fn the_ping_request_has_the_ping_response() {
    assert_eq!(responses_to(&PING_REQUEST), [PING_RESPONSE]);
}

#[test]
fn list_providers_answers_0a_02_00_01() {
    let mut request = PING_REQUEST;
    request[26] = 8;
    let response = &responses_to(&request)[0];
    assert_eq!(
        response[18..],
        [4, 0, 0, 0, 8, 0, 0, 0, 0x0A, 0x02, 0x00, 0x01]
    );
}

#[test]
fn list_opcodes_answers_0a_03_01_08_09_for_0() {
    let mut request = PING_REQUEST.to_vec();
    request[26] = 9;
    let absent = &responses_to(&request)[0];
    assert_eq!(absent[26..], [0x0A, 0x03, 0x01, 0x08, 0x09]);
    request[20] = 2;
    request.extend([0x08, 0x00]);
    let written = &responses_to(&request)[0];
    assert_eq!(written, absent);
}

#[test]
fn list_opcodes_answers_0a_04_03_05_06_07_for_1() {
    let mut request = PING_REQUEST.to_vec();
    request[26] = 9;
    request[20] = 2;
    request.extend([0x08, 0x01]);
    let response = &responses_to(&request)[0];
    assert_eq!(response[26..], [0x0A, 0x04, 0x03, 0x05, 0x06, 0x07]);
}

#[test]
fn the_import_body_imports_key_a() {
    let mut service = Service::with_roster(&[b"b"]);
    let responses = service.send(&star_import(b'a'));
    assert_eq!(statuses_of(&responses), [0]);
    let expected = Key {
        name: b"a".to_vec(),
        data: vec![0xAA, 0xBB],
        bits: 2_048,
        export_allowed: true,
        verify_allowed: false,
    };
    assert_eq!(service.slot(0, 0), expected.slot());
    let export = from_b(7, &[0x0A, 0x01, 0x61]);
    let stream = [star_import(b'a'), export].concat();
    let exported = &responses_to(&stream)[1];
    assert_eq!(exported[26..], [0x0A, 0x02, 0xAA, 0xBB]);
}

#[test]
fn the_bill_of_an_empty_roster_a_ping_and_six_bytes_ff() {
    let stream = [&PING_REQUEST[..], &[0xFF; 6]].concat();
    let expected = b"taken 34\nopen 1\nrefused 17 1\ndropped 0\nheld 0\n";
    assert_eq!(bill(Some(&[]), Some(&stream), Some(&[])), expected);
}

#[test]
fn content_of_4097_and_auth_of_257_is_20() {
    let mut request = PING_REQUEST.to_vec();
    request[20..26].copy_from_slice(&[0x01, 0x10, 0, 0, 0x01, 0x01]);
    request.extend(vec![0; 4_097 + 257]);
    assert_eq!(statuses_of(&responses_to(&request)), [20]);
}

#[test]
fn version_2_0_with_opcode_0_is_4() {
    let mut request = PING_REQUEST;
    request[6] = 2;
    request[26] = 0;
    assert_eq!(statuses_of(&responses_to(&request)), [4]);
}

#[test]
fn opcode_0_is_9() {
    let mut request = PING_REQUEST;
    request[26] = 0;
    assert_eq!(statuses_of(&responses_to(&request)), [9]);
}

#[test]
fn a_ninth_key_is_1142_and_succeeds_once_one_is_destroyed() {
    let eight = b"abcdefgh".map(star_import).concat();
    let destroy = from_b(3, &[0x0A, 0x01, 0x62]);
    let stream = [eight, star_import(b'i'), destroy, star_import(b'i')].concat();
    let full = Status::PsaErrorInsufficientStorage.number();
    assert_eq!(
        statuses_of(&responses_to(&stream)),
        [0, 0, 0, 0, 0, 0, 0, 0, full, 0, 0]
    );
}

#[test]
fn a_ninth_import_under_a_held_name_is_1139() {
    let stream = b"abcdefghc".map(star_import).concat();
    assert_eq!(
        statuses_of(&responses_to(&stream)),
        [0, 0, 0, 0, 0, 0, 0, 0, 1_139]
    );
}

//! Where a body broke: the offset of the first unreadable field's tag, in the status 7 response and in
//! what the client reads of it.
//! Document 02, "Where the body broke".

mod common;

use common::client::{expect_read, expect_refused, read_protobuf, RawResponse, OPCODES};
use common::generate::Random;
use common::*;
use reference::{KeystoreOpcode, Opcode, Output, ReadRefusal, Reading, Status};

const DEEPEST: usize = 16;
const EXPORT_OPCODE: Opcode = Opcode::Keystore(KeystoreOpcode::Export);

fn start(number: u64) -> Vec<u8> {
    varint(number << 3 | 3)
}

fn end(number: u64) -> Vec<u8> {
    varint(number << 3 | 4)
}

/// Groups of numbers 1, 2, .. inside each other around this content.
fn nested(depth: usize, content: &[u8]) -> Vec<u8> {
    let numbers = (1..=depth as u64).rev();
    numbers.fold(content.to_vec(), |content, number| {
        [start(number), content, end(number)].concat()
    })
}

/// Whole fields that are read or skipped.
fn good_fields() -> Vec<Vec<u8>> {
    vec![
        Body::new().field(1, b"a").bytes(),
        Body::new().field(1, &[b'n'; 300]).bytes(),
        Body::new().varint(3, 2_048).bytes(),
        Body::new().varint(9, u64::MAX).bytes(),
        [long_varint(2 << 3 | 2, 10), vec![0]].concat(),
        [varint(6 << 3 | 1), vec![0xFF; 8]].concat(),
        [varint(6 << 3 | 5), vec![0xFF; 4]].concat(),
        nested(1, &[]),
        nested(DEEPEST, &[0x30, 0x01]),
    ]
}

/// Fields that can't be read, however the body goes on.
fn bad_fields() -> Vec<Vec<u8>> {
    vec![
        // A tag above 2^32 - 1, a tag of eleven bytes, and one whose tenth byte is above 1.
        varint(1 << 32 | 0x30),
        [vec![0x80; 10], vec![0]].concat(),
        [vec![0x80; 9], vec![2]].concat(),
        // Field number 0, wire types 6 and 7.
        vec![0x00],
        vec![0x02, 0x00],
        vec![0x0E],
        vec![0x0F],
        // The tenth byte of a value and of a length.
        [vec![0x18], vec![0x80; 9], vec![2]].concat(),
        [vec![0x12], vec![0xFF; 9], vec![2]].concat(),
        // A stray end, and groups whose fault is inside: the outermost one's tag counts.
        end(1),
        end(6),
        [start(6), end(7)].concat(),
        [start(6), start(7), end(6), end(7)].concat(),
        nested(DEEPEST + 1, &[]),
        nested(2, &[0x00]),
        nested(DEEPEST, &[0x37]),
        [start(5), vec![0x30, 0x01], start(6), vec![0x0E]].concat(),
        [start(3), vec![0x18], vec![0x80; 9], vec![2]].concat(),
    ]
}

/// Fields that the body's end cuts.
fn cut_fields() -> Vec<Vec<u8>> {
    let wholes = good_fields().into_iter();
    wholes
        .flat_map(|field| (1..field.len()).map(move |length| field[..length].to_vec()))
        .collect()
}

fn requests(body: &[u8]) -> Vec<Request> {
    let core = [PING, LIST_PROVIDERS, LIST_OPCODES];
    let core = core.map(|opcode| Request::new(0, opcode, body.to_vec()));
    let own = [IMPORT, EXPORT, DESTROY, VERIFY];
    let own = own.map(|opcode| keystore(opcode, body.to_vec()));
    core.into_iter().chain(own).collect()
}

/// Every operation answers status 7 with this offset, and the client reads it.
fn expect_offset(body: &[u8], offset: usize) {
    for request in requests(body) {
        let mut service = Service::new();
        let before = service.registry.clone();
        let bytes = service.send(&request.bytes()).concat();
        let response = Response::read(&bytes);
        assert_eq!(response.status, 7, "{body:02X?}");
        assert_eq!(response.body, offset_body(offset as u64), "{body:02X?}");
        assert_eq!(service.registry, before);
        assert_eq!(service.refused_with(Status::DeserializingBodyFailed), 1);
        let opcode = Opcode::from_number(request.opcode).expect("a listed one");
        let answer = read_protobuf(opcode, request.session, &bytes);
        let output = Output::Offset(offset as u32);
        assert_eq!(answer.reading, Reading::Response { status: 7, output });
    }
}

#[test]
fn the_offset_is_that_of_the_first_unreadable_fields_tag() {
    for fault in bad_fields() {
        expect_offset(&fault, 0);
        for good in good_fields() {
            expect_offset(&[&good[..], &fault].concat(), good.len());
            // What follows does not matter, another fault neither.
            expect_offset(&[&good[..], &fault, &good].concat(), good.len());
            expect_offset(&[&good[..], &fault, &[0x00]].concat(), good.len());
        }
    }
}

#[test]
fn of_a_cut_field_it_is_the_tags_and_not_where_reading_stopped() {
    for cut in cut_fields() {
        expect_offset(&cut, 0);
        let good = key(b"a").body();
        expect_offset(&[&good[..], &cut].concat(), good.len());
    }
}

#[test]
fn within_groups_it_is_the_outermost_groups_tag() {
    for depth in 1..DEEPEST {
        for fault in bad_fields() {
            // That is the outermost group's own end, and the one behind it a stray one.
            let is_own_end = depth == 1 && fault == end(1);
            let body = [&[0x30, 0x01][..], &nested(depth, &fault)].concat();
            expect_offset(&body, if is_own_end { 4 } else { 2 });
        }
    }
}

#[test]
fn behind_many_fields_it_takes_two_bytes() {
    for fields in [63, 64, 2_047] {
        let offset = 2 * fields;
        expect_offset(&[[0x30, 0x01].repeat(fields), vec![0x0E]].concat(), offset);
    }
    let last = [[0x30, 0x01].repeat(2_047), vec![0x30, 0x80]].concat();
    assert_eq!(last.len(), 4_096);
    expect_offset(&last, 4_094);
}

/// The fields before it are readable, and the body cut there is served or refused otherwise.
#[test]
fn a_body_cut_at_the_offset_is_readable() {
    let random = &mut Random::new(10);
    let (good, bad) = (good_fields(), bad_fields());
    let mut offsets = 0;
    for _ in 0..5_000 {
        let mut body = Vec::new();
        for _ in 0..random.below(6) {
            let field = match random.below(4) {
                0 => random.pick(&bad),
                _ => random.pick(&good),
            };
            body.extend(field);
        }
        body.truncate(random.below(body.len() + 1));
        let response = Service::new().ask(&Request::new(0, PING, body.clone()));
        if response.status == 7 {
            let offset = offset_in(&response.body) as usize;
            let cut = Request::new(0, PING, body[..offset].to_vec());
            Service::new().expect_status(&cut, Status::Success);
            offsets += 1;
        }
    }
    assert!(offsets > 1_000, "{offsets}");
}

#[test]
fn every_other_refusal_has_an_empty_body_though_the_requests_is_unreadable() {
    let unreadable = vec![0x30, 0x01, 0x0E];
    let request = Request::new(0, PING, unreadable.clone()).sent_by(b"nobody");
    Service::new().expect_status(&request, Status::AuthenticationError);
    let request = keystore(IMPORT, unreadable).without_authentication();
    Service::new().expect_status(&request, Status::NotAuthenticated);
    let request = Request {
        opcode: 2,
        ..request
    };
    Service::new().expect_status(&request, Status::OpcodeDoesNotExist);
}

#[test]
fn bytes_of_the_response_buffer_past_the_offset_stay() {
    let mut service = Service::new();
    service.response.fill(0x77);
    let body = [[0x30, 0x01].repeat(100), vec![0x0E]].concat();
    let taken = service.call(&Request::new(0, PING, body).bytes()).unwrap();
    assert_eq!(taken.written, 26 + 3);
    assert_eq!(service.response[26..29], [0x08, 0xC8, 0x01]);
    assert!(service.response[29..].iter().all(|&byte| byte == 0x77));
}

// ---- the client's reader

fn status_7(opcode: Opcode, body: &[u8]) -> RawResponse {
    RawResponse {
        status: 7,
        ..RawResponse::to(opcode, body)
    }
}

#[test]
fn a_status_7_body_is_read_as_any_body() {
    let ten_bytes = [&[0x08][..], &long_varint(12, 10)].concat();
    let high_bits = Body::new().varint(1, 1 << 32 | 7).bytes();
    let rows: Vec<(Vec<u8>, u32)> = vec![
        (vec![], 0),
        (vec![0x08, 0x00], 0),
        (vec![0x08, 0x0C], 12),
        (Body::new().varint(1, u32::MAX.into()).bytes(), u32::MAX),
        (ten_bytes, 12),
        (high_bits, 7),
        // The last counts, and one of 0 too.
        (vec![0x08, 0x05, 0x08, 0x06], 6),
        (vec![0x08, 0x05, 0x08, 0x00], 0),
        // Unlisted fields and other wire types are skipped.
        (vec![0x10, 0x09, 0x08, 0x05, 0x0A, 0x01, 0xFF], 5),
        (nested(DEEPEST, &[0x08, 0x05]), 0),
    ];
    for opcode in OPCODES {
        for (body, offset) in &rows {
            expect_read(opcode, &status_7(opcode, body), Output::Offset(*offset));
        }
    }
}

#[test]
fn a_status_7_body_that_breaks_is_unreadable() {
    for body in bad_fields().into_iter().chain(cut_fields()) {
        for before in [&[][..], &[0x08, 0x05]] {
            let body = [before, &body].concat();
            let raw = status_7(EXPORT_OPCODE, &body);
            let at = 26 + body.len();
            expect_refused(EXPORT_OPCODE, &raw, at, ReadRefusal::UnreadableBody);
        }
    }
}

#[test]
fn other_statuses_have_no_offset() {
    for opcode in OPCODES {
        for status in [6, 8, 9, 263, 1_135] {
            let raw = RawResponse {
                status,
                ..RawResponse::to(opcode, &[0x08, 0x05])
            };
            expect_refused(opcode, &raw, 28, ReadRefusal::UnreadableBody);
        }
    }
}

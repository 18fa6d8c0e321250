//! What the client reads from a response, and what it refuses at which byte.
//! Document 02, "The client's half"; document 01, "Bytes on the wire" and the rules of reading.

mod common;

use common::client::*;
use common::{Body, PING_RESPONSE};
use reference::{Output, ReadRefusal, Reading};

/// A good response with one change, refused at this byte.
fn expect_refused_with(change: impl Fn(&mut RawResponse), at: usize, refusal: ReadRefusal) {
    for (opcode, body) in [(PING, &[0x08, 0x01][..]), (EXPORT, &[0x0A, 1, 2])] {
        let mut raw = RawResponse::to(opcode, body);
        change(&mut raw);
        expect_refused(opcode, &raw, at, refusal);
    }
}

#[test]
fn the_papers_ping_response_is_version_1_0() {
    let version = Output::Version { major: 1, minor: 0 };
    let answer = read_every_way(PING, 0, &PING_RESPONSE);
    assert_eq!(answer, response(28, 0, version));
}

#[test]
fn the_papers_lists_are_read() {
    expect_output(
        LIST_PROVIDERS,
        &[0x0A, 0x02, 0x00, 0x01],
        Output::Providers(vec![0, 1]),
    );
    for (body, opcodes) in [
        ([0x0A, 0x03, 0x01, 0x08, 0x09], vec![1, 8, 9]),
        ([0x0A, 0x03, 0x03, 0x06, 0x07], vec![3, 6, 7]),
    ] {
        expect_output(LIST_OPCODES, &body, Output::Opcodes(opcodes));
    }
}

#[test]
fn import_and_destroy_have_no_output() {
    for opcode in [IMPORT, DESTROY] {
        expect_output(opcode, &[], Output::Nothing);
        for body in [&[0x0A, 0x00][..], &[0x08, 0x00], &[0x10, 0x01]] {
            expect_output(opcode, body, Output::Nothing);
        }
        for body in [&[0x0A][..], &[0x08, 0x80], &[0x00], &[0x0E]] {
            expect_unreadable(opcode, body);
        }
    }
}

#[test]
fn exported_data_is_read() {
    let data = |bytes: &[u8]| Output::Data(bytes.to_vec());
    expect_output(EXPORT, &[0x0A, 2, 0xAA, 0xBB], data(&[0xAA, 0xBB]));
}

// Refusals, one at a time.

#[test]
fn any_other_magic_is_wrong_at_the_sixth_byte() {
    for bit in 0..32 {
        let change = |raw: &mut RawResponse| raw.magic[bit / 8] ^= 1 << (bit % 8);
        expect_refused_with(change, 6, ReadRefusal::WrongMagic);
    }
    expect_refused_with(|raw| raw.magic.reverse(), 6, ReadRefusal::WrongMagic);
}

#[test]
fn any_h_but_20_is_wrong_at_the_sixth_byte() {
    for header_size in (0..=u16::MAX).filter(|&size| size != 20) {
        let raw = RawResponse {
            header_size,
            ..RawResponse::to(PING, &[])
        };
        let answer = read_protobuf(PING, SESSION, &raw.bytes());
        assert_eq!(answer, refused(6, ReadRefusal::WrongHeaderSize));
    }
    for header_size in [0, 19, 21, 22, 20 + 256, u16::MAX] {
        let change = |raw: &mut RawResponse| raw.header_size = header_size;
        expect_refused_with(change, 6, ReadRefusal::WrongHeaderSize);
    }
}

#[test]
fn any_version_but_1_0_is_wrong_at_the_headers_last_byte() {
    for (major, minor) in [(0, 0), (0, 1), (1, 1), (1, 255), (2, 0), (255, 0)] {
        let change = |raw: &mut RawResponse| (raw.major, raw.minor) = (major, minor);
        expect_refused_with(change, 26, ReadRefusal::WrongVersion);
    }
}

#[test]
fn any_content_type_but_1_is_wrong_at_the_headers_last_byte() {
    for content_type in (0..=255).filter(|&content_type| content_type != 1) {
        let change = |raw: &mut RawResponse| raw.content_type = content_type;
        expect_refused_with(change, 26, ReadRefusal::WrongContentType);
    }
}

#[test]
fn another_session_is_not_its_requests() {
    for bit in 0..64 {
        let change = |raw: &mut RawResponse| raw.session ^= 1 << bit;
        expect_refused_with(change, 26, ReadRefusal::NotItsRequests);
    }
    expect_refused_with(|raw| raw.session = 0, 26, ReadRefusal::NotItsRequests);
}

#[test]
fn another_provider_is_not_its_requests() {
    for opcode in OPCODES {
        let good = RawResponse::to(opcode, &[]);
        for provider in (0..=255).filter(|&provider| provider != good.provider) {
            let raw = RawResponse {
                provider,
                ..good.clone()
            };
            expect_refused(opcode, &raw, 26, ReadRefusal::NotItsRequests);
        }
    }
}

#[test]
fn another_opcode_is_not_its_requests() {
    for opcode in OPCODES {
        let good = RawResponse::to(opcode, &[]);
        for other in (0..=u16::MAX).filter(|&other| other != good.opcode) {
            let raw = RawResponse {
                opcode: other,
                ..good.clone()
            };
            let answer = read_protobuf(opcode, SESSION, &raw.bytes());
            assert_eq!(answer, refused(26, ReadRefusal::NotItsRequests));
        }
    }
}

#[test]
fn a_response_to_another_operation_is_not_its_requests() {
    for asked in OPCODES {
        for answered in OPCODES.into_iter().filter(|&other| other != asked) {
            let raw = RawResponse::to(answered, &[]);
            expect_refused(asked, &raw, 26, ReadRefusal::NotItsRequests);
        }
    }
}

#[test]
fn content_above_998_bytes_is_too_long_at_the_headers_last_byte() {
    for content_length in [999, 1_000, 1_024, 4_096, 65_536, 1 << 31, u32::MAX] {
        for status in [0, 7, 17, 9_999] {
            let change = |raw: &mut RawResponse| {
                raw.content_length = Some(content_length);
                raw.status = status;
            };
            expect_refused_with(change, 26, ReadRefusal::ContentTooLong);
        }
    }
}

#[test]
fn content_of_998_bytes_is_read() {
    let data = vec![0xEE; 995];
    let body = Body::new().field(1, &data).bytes();
    assert_eq!(body.len(), 998);
    expect_output(EXPORT, &body, Output::Data(data));
    // The list's tag and length take three bytes.
    let body = Body::new().field(1, &[0x05; 995]).bytes();
    expect_output(LIST_OPCODES, &body, Output::Opcodes(vec![5; 995]));
    expect_unreadable(IMPORT, &[0x00; 998]);
}

#[test]
fn content_is_waited_for_to_its_last_byte() {
    for (opcode, raw) in good_responses() {
        let bytes = raw.bytes();
        for length in 0..bytes.len() {
            let answer = read_every_way(opcode, SESSION, &bytes[..length]);
            assert_eq!(answer, waiting(length));
        }
    }
}

// Several faults at once.

type Fault = (fn(&mut RawResponse), usize, ReadRefusal);

/// The faults in the order of judgement, each with the byte that brings its refusal.
fn faults(not_its_requests: fn(&mut RawResponse)) -> [Fault; 7] {
    [
        (|raw| raw.magic[3] ^= 1, 6, ReadRefusal::WrongMagic),
        (|raw| raw.header_size = 22, 6, ReadRefusal::WrongHeaderSize),
        (|raw| raw.minor = 1, 26, ReadRefusal::WrongVersion),
        (
            |raw| raw.content_type = 2,
            26,
            ReadRefusal::WrongContentType,
        ),
        (not_its_requests, 26, ReadRefusal::NotItsRequests),
        (
            |raw| raw.content_length = Some(999),
            26,
            ReadRefusal::ContentTooLong,
        ),
        (|raw| raw.body = vec![0xFF], 27, ReadRefusal::UnreadableBody),
    ]
}

/// Any set of faults at once, so each two in either order.
#[test]
fn of_several_faults_the_first_of_the_order_is_said() {
    let not_its_requests: [fn(&mut RawResponse); 6] = [
        |raw| raw.opcode ^= 0x10,
        |raw| raw.session ^= 1 << 63,
        |raw| raw.provider ^= 1,
        |raw| (raw.opcode, raw.session) = (0, 0),
        |raw| (raw.opcode, raw.session, raw.provider) = (0, 0, 0),
        |raw| {
            *raw = RawResponse {
                magic: raw.magic,
                header_size: raw.header_size,
                minor: raw.minor,
                content_type: raw.content_type,
                // Content, so that this isn't the status 17 response that is read as it stands.
                body: vec![0x00],
                ..RawResponse::invalid_header()
            }
        },
    ];
    for not_its_requests in not_its_requests {
        let faults = faults(not_its_requests);
        for (opcode, set) in OPCODES
            .into_iter()
            .flat_map(|o| (0..1 << 7).map(move |s| (o, s)))
        {
            let present = |place: &usize| set >> place & 1 == 1;
            let mut raw = RawResponse::to(opcode, &[]);
            for place in (0..7).filter(present) {
                faults[place].0(&mut raw);
            }
            let answer = read_protobuf(opcode, SESSION, &raw.bytes());
            match (0..7).find(present) {
                Some(place) => assert_eq!(answer, refused(faults[place].1, faults[place].2)),
                None => assert!(matches!(
                    answer.reading,
                    Reading::Response { status: 0, .. }
                )),
            }
        }
    }
}

#[test]
fn the_three_that_repeat_the_request_are_one_refusal() {
    let raw = RawResponse {
        provider: 9,
        session: 9,
        opcode: 9_999,
        ..RawResponse::to(PING, &[])
    };
    expect_refused(PING, &raw, 26, ReadRefusal::NotItsRequests);
}

// Statuses.

#[test]
fn every_status_number_without_a_body_is_read_as_it_stands() {
    for opcode in OPCODES {
        for status in 1..=u16::MAX {
            let raw = RawResponse {
                status,
                ..RawResponse::to(opcode, &[])
            };
            let answer = read_protobuf(opcode, SESSION, &raw.bytes());
            let output = match status {
                7 => Output::Offset(0),
                _ => Output::Nothing,
            };
            assert_eq!(answer, response(26, status, output));
        }
    }
    for status in [5, 8, 17, 21, 1_132, 1_134, 1_149, 9_999, 0xFF00, u16::MAX] {
        let raw = RawResponse {
            status,
            ..RawResponse::to(EXPORT, &[])
        };
        expect_read(EXPORT, &raw, Output::Nothing);
    }
}

#[test]
fn any_body_on_another_status_is_unreadable_at_its_last_byte() {
    for (opcode, body) in [
        (PING, &[0x08, 0x01][..]),
        (LIST_PROVIDERS, &[0x0A, 0x02, 0x00, 0x01]),
        (LIST_OPCODES, &[0x0A, 0x00]),
        (EXPORT, &[0x0A, 0x01, 0x07]),
        (EXPORT, &[0x30, 0x01]),
        (IMPORT, &[0x00]),
        (IMPORT, &[0x0B, 0x0C]),
        (DESTROY, &[0xFF; 998]),
    ] {
        for status in [1, 5, 6, 8, 17, 256, 1_135, 9_999, u16::MAX] {
            let raw = RawResponse {
                status,
                ..RawResponse::to(opcode, body)
            };
            let at = 26 + body.len();
            expect_refused(opcode, &raw, at, ReadRefusal::UnreadableBody);
        }
    }
}

#[test]
fn status_17_with_three_zeros_and_no_content_is_read_for_any_request() {
    let bytes = RawResponse::invalid_header().bytes();
    for opcode in OPCODES {
        for session in [0, 1, SESSION, u64::MAX] {
            let answer = read_every_way(opcode, session, &bytes);
            assert_eq!(answer, response(26, 17, Output::Nothing));
        }
    }
}

#[test]
fn status_17_with_the_requests_own_three_is_read_as_any_status() {
    for opcode in OPCODES {
        let raw = RawResponse {
            status: 17,
            ..RawResponse::to(opcode, &[])
        };
        expect_read(opcode, &raw, Output::Nothing);
        let with_body = RawResponse {
            body: vec![0x0A, 0x00],
            ..raw
        };
        expect_refused(opcode, &with_body, 28, ReadRefusal::UnreadableBody);
    }
}

#[test]
fn three_zeros_with_content_are_not_its_requests() {
    for content_length in [1, 2, 998, 999, u32::MAX] {
        for opcode in OPCODES {
            let raw = RawResponse {
                content_length: Some(content_length),
                body: vec![0x00; content_length.min(999) as usize],
                ..RawResponse::invalid_header()
            };
            expect_refused(opcode, &raw, 26, ReadRefusal::NotItsRequests);
        }
    }
}

#[test]
fn three_zeros_with_another_status_are_not_its_requests() {
    for status in (0..=u16::MAX).filter(|&status| status != 17) {
        let raw = RawResponse {
            status,
            ..RawResponse::invalid_header()
        };
        let answer = read_protobuf(PING, 0, &raw.bytes());
        assert_eq!(answer, refused(26, ReadRefusal::NotItsRequests));
    }
}

#[test]
fn status_17_with_only_some_of_the_three_zero_is_not_its_requests() {
    let own = RawResponse {
        status: 17,
        ..RawResponse::to(EXPORT, &[])
    };
    for kept in 1..7 {
        let keeps = |place: u32| kept >> place & 1 == 1;
        let raw = RawResponse {
            provider: if keeps(0) { own.provider } else { 0 },
            session: if keeps(1) { own.session } else { 0 },
            opcode: if keeps(2) { own.opcode } else { 0 },
            ..own.clone()
        };
        expect_refused(EXPORT, &raw, 26, ReadRefusal::NotItsRequests);
    }
}

#[test]
fn magic_h_version_and_content_type_are_judged_before_status_17() {
    let changes: [Fault; 4] = [
        (|raw| raw.magic[0] = 0, 6, ReadRefusal::WrongMagic),
        (|raw| raw.header_size = 0, 6, ReadRefusal::WrongHeaderSize),
        (|raw| raw.major = 0, 26, ReadRefusal::WrongVersion),
        (
            |raw| raw.content_type = 0,
            26,
            ReadRefusal::WrongContentType,
        ),
    ];
    for (change, at, refusal) in changes {
        let mut raw = RawResponse::invalid_header();
        change(&mut raw);
        for opcode in OPCODES {
            expect_refused(opcode, &raw, at, refusal);
        }
    }
}

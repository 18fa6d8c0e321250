//! Every status by a request made for it, and the earlier status where two tests apply.
//! Document 01, "Order of judgement on one request"; Verify's own statuses are in signatures.rs.

mod common;

use common::*;
use reference::Status;

const NUMBERS: [u16; 20] = [
    0, 1, 2, 3, 4, 6, 7, 9, 11, 12, 17, 19, 20, 1_133, 1_134, 1_135, 1_139, 1_140, 1_142, 1_149,
];

/// A body that no operation can read: wire type 6.
fn unreadable() -> Vec<u8> {
    varint(15 << 3 | 6)
}

fn expect(request: &Request, status: Status) {
    Service::new().expect_status(request, status);
}

#[test]
fn statuses_have_the_numbers_of_the_table_in_ascending_order() {
    assert_eq!(Status::ALL.map(Status::number), NUMBERS);
    assert_eq!(Status::REFUSED.map(Status::number), NUMBERS[1..]);
}

#[test]
fn a_ping_is_success() {
    expect(&ping(), Status::Success);
}

#[test]
fn a_response_repeats_provider_session_and_opcode() {
    let response = Service::new().ask(&ping());
    assert_eq!(
        (response.provider, response.session, response.opcode),
        (0, 0x1122_3344_5566_7788, PING)
    );
    let refused = Request {
        provider: 0xAB,
        opcode: 0xCDEF,
        ..ping()
    };
    let response = Service::new().ask(&refused);
    assert_eq!(
        (response.provider, response.session, response.opcode),
        (0xAB, 0x1122_3344_5566_7788, 0xCDEF)
    );
}

#[test]
fn an_oversized_requests_response_repeats_provider_session_and_opcode() {
    let request = Request {
        provider: 0xAB,
        opcode: 0xCDEF,
        ..ping_of_size(4_097, 0)
    };
    let response = Service::new().ask(&request);
    assert_eq!(
        (response.provider, response.session, response.opcode),
        (0xAB, 0x1122_3344_5566_7788, 0xCDEF)
    );
}

#[test]
fn an_invalid_headers_response_has_provider_session_and_opcode_zero() {
    let request = Request {
        magic: [0x10, 0xA7, 0xC0, 0x5F],
        ..ping()
    };
    let mut service = Service::new();
    let responses = service.send(&request.bytes());
    assert_eq!(responses.len(), 1);
    let expected = Response {
        provider: 0,
        session: 0,
        opcode: 0,
        status: 17,
        body: Vec::new(),
    };
    assert_eq!(Response::read(&responses[0]), expected);
    assert_eq!(service.connection, closed());
    assert_eq!(service.counters.answered, 6);
    assert_eq!(service.counters.dropped, 22);
    assert_eq!(service.refused_with(Status::InvalidHeader), 1);
}

#[test]
fn every_wrong_magic_byte_is_invalid_header() {
    for place in 0..4 {
        let mut request = ping();
        request.magic[place] ^= 0x40;
        let responses = Service::new().send(&request.bytes()[..6]);
        assert_eq!(Response::read(&responses[0]).status, 17);
    }
}

#[test]
fn content_too_large_is_body_size_exceeds_limit() {
    expect(&ping_of_size(4_097, 0), Status::BodySizeExceedsLimit);
}

#[test]
fn auth_too_large_is_authentication_error() {
    expect(&ping_of_size(7, 65_535), Status::AuthenticationError);
}

#[test]
fn a_version_other_than_1_0_is_not_supported() {
    for (major, minor) in [(0, 0), (1, 1), (2, 0), (0, 1)] {
        let request = Request {
            major,
            minor,
            ..ping()
        };
        expect(&request, Status::WireProtocolVersionNotSupported);
    }
}

#[test]
fn a_content_type_other_than_1_and_2_is_not_supported() {
    for content_type in [0, 3, 255] {
        let request = Request {
            content_type,
            ..ping()
        };
        expect(&request, Status::ContentTypeNotSupported);
    }
}

#[test]
fn an_accept_type_other_than_1_and_2_is_not_supported() {
    for accept_type in [0, 3, 255] {
        let request = Request {
            accept_type,
            ..ping()
        };
        expect(&request, Status::AcceptTypeNotSupported);
    }
}

#[test]
fn an_unlisted_opcode_does_not_exist() {
    for opcode in [0, 2, 4, 10, 256 + 1, 256 + 5, u16::MAX] {
        expect(&Request { opcode, ..ping() }, Status::OpcodeDoesNotExist);
    }
}

#[test]
fn a_provider_above_1_does_not_exist() {
    for provider in [2, 255] {
        let request = Request { provider, ..ping() };
        expect(&request, Status::ProviderDoesNotExist);
    }
}

#[test]
fn an_opcode_of_the_other_provider_is_wrong_provider() {
    for opcode in [PING, LIST_PROVIDERS, LIST_OPCODES] {
        expect(
            &Request::new(1, opcode, Vec::new()),
            Status::WrongProviderID,
        );
    }
    for opcode in [DESTROY, VERIFY, IMPORT, EXPORT] {
        expect(
            &Request::new(0, opcode, Vec::new()),
            Status::WrongProviderID,
        );
    }
}

#[test]
fn an_auth_type_above_1_does_not_exist() {
    for auth_type in [2, 255] {
        let request = Request {
            auth_type,
            ..ping()
        };
        expect(&request, Status::AuthenticatorDoesNotExist);
    }
}

#[test]
fn auth_type_0_with_auth_bytes_is_authentication_error() {
    let request = Request {
        auth: FIRST.to_vec(),
        ..ping()
    };
    expect(&request, Status::AuthenticationError);
}

#[test]
fn a_name_not_on_the_roster_is_authentication_error() {
    for name in [&b"scanne"[..], b"scannerr", b"Scanner", b"scanner\0"] {
        expect(&ping().sent_by(name), Status::AuthenticationError);
    }
}

#[test]
fn an_empty_name_is_on_no_roster() {
    expect(&ping().sent_by(b""), Status::AuthenticationError);
    let mut none = Service::with_roster(&[]);
    none.expect_status(&ping().sent_by(b""), Status::AuthenticationError);
}

#[test]
fn a_keystore_operation_with_auth_type_0_is_not_authenticated() {
    let verify = verify(b"a", &[0; 32], &[]);
    for request in [import(&key(b"a")), destroy(b"a"), export(b"a"), verify] {
        expect(&request.without_authentication(), Status::NotAuthenticated);
    }
}

#[test]
fn an_unreadable_body_is_deserializing_body_failed() {
    let core =
        [PING, LIST_PROVIDERS, LIST_OPCODES].map(|opcode| Request::new(0, opcode, unreadable()));
    let keystore = [DESTROY, VERIFY, IMPORT, EXPORT].map(|opcode| keystore(opcode, unreadable()));
    for request in core.iter().chain(&keystore) {
        expect(request, Status::DeserializingBodyFailed);
    }
}

#[test]
fn listing_opcodes_of_a_provider_above_1_is_provider_does_not_exist() {
    expect(&list_opcodes(2), Status::ProviderDoesNotExist);
}

#[test]
fn exporting_a_key_without_leave_is_not_permitted() {
    let secret = Key {
        export_allowed: false,
        verify_allowed: true,
        ..key(b"a")
    };
    let mut service = Service::new();
    service.expect_status(&import(&secret), Status::Success);
    service.expect_status(&export(b"a"), Status::PsaErrorNotPermitted);
}

#[test]
fn a_bad_key_is_invalid_argument() {
    expect(&import(&key(b"a b")), Status::PsaErrorInvalidArgument);
}

#[test]
fn importing_a_held_name_already_exists() {
    let mut service = Service::with_keys(&[b"a"]);
    service.expect_status(&import(&key(b"a")), Status::PsaErrorAlreadyExists);
}

#[test]
fn a_name_not_held_does_not_exist() {
    let mut service = Service::with_keys(&[b"a"]);
    for name in [&b"b"[..], b"aa"] {
        service.expect_status(&export(name), Status::PsaErrorDoesNotExist);
        service.expect_status(&destroy(name), Status::PsaErrorDoesNotExist);
        let verify = verify(name, &[0; 32], &[]);
        service.expect_status(&verify, Status::PsaErrorDoesNotExist);
    }
}

#[test]
fn a_full_line_is_insufficient_storage() {
    let mut service = Service::with_keys(&EIGHT);
    service.expect_status(&import(&key(b"i")), Status::PsaErrorInsufficientStorage);
}

// Where two adjacent tests apply, the earlier one gives the status.

#[test]
fn invalid_header_comes_before_body_size() {
    let request = Request {
        header_size: 21,
        ..ping_of_size(4_097, 257)
    };
    let responses = Service::new().send(&request.bytes());
    assert_eq!(responses.len(), 1);
    assert_eq!(Response::read(&responses[0]).status, 17);
}

#[test]
fn body_size_comes_before_auth_size() {
    expect(&ping_of_size(4_097, 257), Status::BodySizeExceedsLimit);
}

#[test]
fn body_size_comes_before_version() {
    let request = Request {
        major: 2,
        ..ping_of_size(4_097, 0)
    };
    expect(&request, Status::BodySizeExceedsLimit);
}

#[test]
fn auth_size_comes_before_version() {
    let request = Request {
        major: 2,
        ..ping_of_size(0, 257)
    };
    expect(&request, Status::AuthenticationError);
}

#[test]
fn version_comes_before_content_type() {
    let request = Request {
        minor: 1,
        content_type: 3,
        ..ping()
    };
    expect(&request, Status::WireProtocolVersionNotSupported);
}

#[test]
fn content_type_comes_before_accept_type() {
    let request = Request {
        content_type: 3,
        accept_type: 3,
        ..ping()
    };
    expect(&request, Status::ContentTypeNotSupported);
}

#[test]
fn accept_type_comes_before_opcode() {
    let request = Request {
        accept_type: 3,
        opcode: 0,
        ..ping()
    };
    expect(&request, Status::AcceptTypeNotSupported);
}

#[test]
fn opcode_comes_before_provider() {
    let request = Request {
        opcode: 0,
        provider: 2,
        ..ping()
    };
    expect(&request, Status::OpcodeDoesNotExist);
}

#[test]
fn provider_comes_before_opcode_of_another_provider() {
    let request = Request {
        provider: 2,
        ..import(&key(b"a"))
    };
    expect(&request, Status::ProviderDoesNotExist);
}

#[test]
fn opcode_of_another_provider_comes_before_auth_type() {
    let request = Request {
        provider: 1,
        auth_type: 2,
        ..ping()
    };
    expect(&request, Status::WrongProviderID);
}

#[test]
fn auth_type_comes_before_authentication() {
    let request = Request {
        auth_type: 2,
        auth: b"nobody".to_vec(),
        ..ping()
    };
    expect(&request, Status::AuthenticatorDoesNotExist);
}

#[test]
fn authentication_comes_before_not_authenticated() {
    let request = Request {
        auth_type: 0,
        ..import(&key(b"a"))
    };
    assert_eq!(request.auth, FIRST);
    expect(&request, Status::AuthenticationError);
}

#[test]
fn not_authenticated_comes_before_the_body() {
    let request = keystore(IMPORT, unreadable()).without_authentication();
    expect(&request, Status::NotAuthenticated);
}

#[test]
fn authentication_comes_before_the_body() {
    let request = Request::new(0, PING, unreadable()).sent_by(b"nobody");
    expect(&request, Status::AuthenticationError);
}

#[test]
fn the_body_comes_before_the_operations_own() {
    let import = Body::new().raw(&key(b"").body()).raw(&unreadable()).bytes();
    expect(&keystore(IMPORT, import), Status::DeserializingBodyFailed);
    let destroy = Body::new().field(1, b"").raw(&unreadable()).bytes();
    expect(&keystore(DESTROY, destroy), Status::DeserializingBodyFailed);
    let list = Body::new().varint(1, 2).raw(&unreadable()).bytes();
    let list = Request::new(0, LIST_OPCODES, list);
    expect(&list, Status::DeserializingBodyFailed);
}

#[test]
fn invalid_argument_comes_before_already_exists() {
    let mut service = Service::with_keys(&[b"a"]);
    let held_name_no_data = Key {
        data: Vec::new(),
        ..key(b"a")
    };
    service.expect_status(&import(&held_name_no_data), Status::PsaErrorInvalidArgument);
}

/// Bits that a registry may hold, and bits that nothing may.
const OTHER_BITS: [u64; 6] = [0, 1_024, 1_028, 2_056, 4_104, u32::MAX as u64];

#[test]
fn invalid_argument_comes_before_not_supported() {
    for bits in OTHER_BITS {
        let bad_name = Key {
            bits,
            ..key(b"a b")
        };
        let bad_data = Key {
            bits,
            data: vec![0; 601],
            ..key(b"a")
        };
        for key in [bad_name, bad_data] {
            Service::new().expect_status(&import(&key), Status::PsaErrorInvalidArgument);
        }
    }
}

#[test]
fn not_supported_comes_before_already_exists_and_insufficient_storage() {
    let mut service = Service::with_keys(&EIGHT);
    for bits in OTHER_BITS {
        for name in [b"a", b"i"] {
            let key = Key { bits, ..key(name) };
            service.expect_status(&import(&key), Status::PsaErrorNotSupported);
        }
    }
}

#[test]
fn invalid_argument_comes_before_insufficient_storage() {
    let mut service = Service::with_keys(&EIGHT);
    let no_data = Key {
        data: Vec::new(),
        ..key(b"i")
    };
    service.expect_status(&import(&no_data), Status::PsaErrorInvalidArgument);
}

#[test]
fn already_exists_comes_before_insufficient_storage() {
    let mut service = Service::with_keys(&EIGHT);
    service.expect_status(&import(&key(b"a")), Status::PsaErrorAlreadyExists);
}

#[test]
fn invalid_argument_comes_before_does_not_exist() {
    let mut service = Service::new();
    service.expect_status(&export(b"a b"), Status::PsaErrorInvalidArgument);
    service.expect_status(&destroy(b"a b"), Status::PsaErrorInvalidArgument);
}

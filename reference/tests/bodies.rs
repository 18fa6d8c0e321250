//! Which bodies are readable and what is read from them; what is written.
//! Document 01, "Operations and their fields", the paragraph on reading and writing.

mod common;

use common::*;
use reference::Status;

fn expect_import(body: Vec<u8>, status: Status) -> Service {
    let mut service = Service::new();
    service.expect_status(&keystore(IMPORT, body), status);
    service
}

fn expect_imported(body: Vec<u8>, key: &Key) {
    let service = expect_import(body, Status::Success);
    assert_eq!(service.slot(0, 0), key.slot());
}

/// A readable import with these bytes before its own fields.
fn expect_unreadable(bytes: &[u8]) {
    let before = Body::new().raw(bytes).raw(&key(b"a").body()).bytes();
    expect_import(before, Status::DeserializingBodyFailed);
    let behind = Body::new().raw(&key(b"a").body()).raw(bytes).bytes();
    expect_import(behind, Status::DeserializingBodyFailed);
}

#[test]
fn fields_come_in_any_order() {
    let body = Body::new()
        .varint(5, 1)
        .varint(3, 2_048)
        .field(2, &[0xAA, 0xBB])
        .varint(4, 1)
        .field(1, b"a");
    let expected = Key {
        verify_allowed: true,
        ..key(b"a")
    };
    expect_imported(body.bytes(), &expected);
}

#[test]
fn of_a_repeated_field_the_last_counts() {
    let body = Body::new()
        .raw(&key(b"first").body())
        .varint(4, 0)
        .varint(5, 1)
        .varint(3, 4_096)
        .field(2, &[1, 2, 3])
        .field(1, b"last");
    let expected = Key {
        name: b"last".to_vec(),
        data: vec![1, 2, 3],
        bits: 4_096,
        export_allowed: false,
        verify_allowed: true,
    };
    expect_imported(body.bytes(), &expected);
}

#[test]
fn a_repeated_field_that_ends_empty_is_empty() {
    let no_name = Body::new().raw(&key(b"a").body()).field(1, b"").bytes();
    expect_import(no_name, Status::PsaErrorInvalidArgument);
    let no_data = Body::new().raw(&key(b"a").body()).field(2, b"").bytes();
    expect_import(no_data, Status::PsaErrorInvalidArgument);
}

#[test]
fn an_absent_field_is_zero_false_or_empty() {
    let flags_absent = Body::new().field(1, b"a").field(2, &[1]).varint(3, 3_072);
    let expected = Key {
        data: vec![1],
        bits: 3_072,
        export_allowed: false,
        ..key(b"a")
    };
    expect_imported(flags_absent.bytes(), &expected);
    let no_bits = Body::new().field(1, b"a").field(2, &[1]);
    expect_import(no_bits.bytes(), Status::PsaErrorNotSupported);
    let no_data = Body::new().field(1, b"a").varint(3, 3_072);
    expect_import(no_data.bytes(), Status::PsaErrorInvalidArgument);
    let no_name = Body::new().field(2, &[1]).varint(3, 3_072);
    expect_import(no_name.bytes(), Status::PsaErrorInvalidArgument);
    expect_import(Vec::new(), Status::PsaErrorInvalidArgument);
}

#[test]
fn an_empty_body_lists_the_opcodes_of_provider_0() {
    let response = Service::new().ask(&Request::new(0, LIST_OPCODES, Vec::new()));
    assert_eq!(response.body, [0x0A, 3, 1, 8, 9]);
}

#[test]
fn varints_longer_than_needed_are_read_as_tag_length_and_value() {
    for length in 2..=10 {
        let body = Body::new()
            .raw(&long_varint(1 << 3 | 2, length))
            .raw(&long_varint(1, length))
            .raw(b"a")
            .field(2, &[0xAA, 0xBB])
            .raw(&long_varint(3 << 3, length))
            .raw(&long_varint(2_048, length))
            .varint(4, 1);
        expect_imported(body.bytes(), &key(b"a"));
    }
}

#[test]
fn a_tenth_byte_of_0_or_1_is_read() {
    for tenth in [0, 1] {
        let mut bits = long_varint(2_048, 10);
        bits[9] = tenth;
        let body = Body::new().raw(&key(b"a").body()).raw(&[0x18]).raw(&bits);
        expect_imported(body.bytes(), &key(b"a"));
    }
}

#[test]
fn a_tenth_byte_above_1_is_not_read() {
    for tenth in [2, 3, 0x7F] {
        let mut value = long_varint(2_048, 10);
        value[9] = tenth;
        expect_unreadable(&Body::new().raw(&[0x18]).raw(&value).bytes());
    }
}

#[test]
fn a_varint_of_eleven_bytes_is_not_read() {
    expect_unreadable(&Body::new().raw(&[0x18]).raw(&[0x80; 10]).raw(&[0]).bytes());
    let tenth_is_one = [
        0x80, 0x80, 0x80, 0x80, 0x80, 0x80, 0x80, 0x80, 0x80, 0x81, 0,
    ];
    expect_unreadable(&Body::new().raw(&[0x18]).raw(&tenth_is_one).bytes());
}

#[test]
fn a_uint32_is_the_low_32_bits() {
    for high in [1 << 32, 0xFFFF_FFFF << 32] {
        let body = Body::new()
            .raw(&key(b"a").body())
            .varint(3, high | 2_048)
            .bytes();
        expect_imported(body, &key(b"a"));
    }
    let response = Service::new().ask(&list_opcodes(1 << 32 | 1));
    assert_eq!(response.body, [0x0A, 4, 3, 5, 6, 7]);
}

#[test]
fn a_bool_is_true_if_the_varint_is_not_0() {
    for value in [1, 2, 0x80, 1 << 32, 1 << 63, u64::MAX] {
        let body = Body::new()
            .raw(&key(b"a").body())
            .varint(4, value)
            .varint(5, value);
        let expected = Key {
            verify_allowed: true,
            ..key(b"a")
        };
        expect_imported(body.bytes(), &expected);
    }
    let zero = Body::new()
        .raw(&key(b"a").body())
        .raw(&[0x20])
        .raw(&long_varint(0, 10));
    let expected = Key {
        export_allowed: false,
        ..key(b"a")
    };
    expect_imported(zero.bytes(), &expected);
}

/// Cut to 32 bits, these tags would be listed ones.
#[test]
fn tags_above_32_bits_are_unreadable() {
    expect_unreadable(&Body::new().raw(&varint(1 << 32 | 0x18)).raw(&[0]).bytes());
    expect_unreadable(&Body::new().raw(&varint(1 << 63 | 0x18)).raw(&[0]).bytes());
    expect_unreadable(&varint(0xFFFF_FFFF));
}

#[test]
fn field_number_0_is_unreadable() {
    expect_unreadable(&Body::new().varint(0, 1).bytes());
    expect_unreadable(&Body::new().field(0, b"x").bytes());
}

#[test]
fn wire_types_6_and_7_are_unreadable() {
    for wire_type in [6, 7] {
        for number in [1, 3, 15] {
            let field = Body::new().raw(&varint(number << 3 | wire_type));
            expect_unreadable(&field.raw(&[0; 8]).bytes());
        }
    }
}

/// A body cut in the middle of any field is unreadable; cut between fields it is another body.
#[test]
fn cut_fields_are_unreadable() {
    let whole = Body::new()
        .field(1, b"abc")
        .field(2, &[0xAA; 200])
        .raw(&long_varint(3 << 3, 3))
        .raw(&long_varint(2_048, 4))
        .bytes();
    let between_fields = [0, 5, 5 + 203];
    for length in 0..whole.len() {
        let mut service = Service::new();
        let response = service.ask(&keystore(IMPORT, whole[..length].to_vec()));
        let status = match between_fields.iter().position(|&end| end == length) {
            None => Status::DeserializingBodyFailed,
            // Name and data are there, and bits are not.
            Some(2) => Status::PsaErrorNotSupported,
            Some(_) => Status::PsaErrorInvalidArgument,
        };
        assert_eq!(response.status, status.number(), "cut at {length}");
    }
}

/// Auth bytes follow the body, and a cut field must not reach into them.
#[test]
fn a_length_that_reaches_past_the_body_is_a_cut_field() {
    let behind_by_one = Body::new()
        .raw(&key(b"a").body())
        .raw(&[0x12, 3, 1, 2])
        .bytes();
    expect_import(behind_by_one, Status::DeserializingBodyFailed);
}

#[test]
fn a_huge_length_is_a_cut_field() {
    for length in [1 << 31, 1 << 32, 1 << 32 | 1, 1 << 63, u64::MAX] {
        let body = Body::new()
            .raw(&key(b"a").body())
            .raw(&[0x0A])
            .raw(&varint(length))
            .raw(b"b");
        expect_import(body.bytes(), Status::DeserializingBodyFailed);
    }
}

#[test]
fn exported_data_of_127_and_128_bytes_has_the_shortest_length() {
    for (length, header) in [(127, &[0x0A, 0x7F][..]), (128, &[0x0A, 0x80, 0x01])] {
        let key = Key {
            data: vec![0xDA; length],
            ..key(b"a")
        };
        let mut service = Service::new();
        service.expect_status(&import(&key), Status::Success);
        let expected = [header, &key.data].concat();
        assert_eq!(service.ask(&export(b"a")).body, expected);
    }
}

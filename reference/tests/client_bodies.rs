//! Which bodies of responses the client reads, and what it reads from them.
//! Document 02, "The client's half"; document 01, "Operations and their fields", on reading.

mod common;

use common::client::*;
use common::{long_varint, varint, Body};
use reference::Output;

#[test]
fn absent_fields_are_zero_or_empty() {
    expect_output(PING, &[], Output::Version { major: 0, minor: 0 });
    expect_output(PING, &[0x10, 5], Output::Version { major: 0, minor: 5 });
    expect_output(LIST_PROVIDERS, &[], Output::Providers(vec![]));
    expect_output(LIST_OPCODES, &[], Output::Opcodes(vec![]));
    expect_output(EXPORT, &[], Output::Data(vec![]));
}

#[test]
fn fields_come_in_any_order_and_the_last_of_a_repeated_one_counts() {
    expect_output(
        PING,
        &[0x10, 7, 0x08, 1, 0x10, 8, 0x08, 2],
        Output::Version { major: 2, minor: 8 },
    );
    expect_output(
        PING,
        &[0x08, 1, 0x08, 0],
        Output::Version { major: 0, minor: 0 },
    );
    expect_output(EXPORT, &[0x0A, 2, 1, 2, 0x0A, 1, 3], Output::Data(vec![3]));
    expect_output(EXPORT, &[0x0A, 1, 3, 0x0A, 0], Output::Data(vec![]));
}

#[test]
fn a_uint32_is_the_low_32_bits_of_its_varint() {
    for (value, low) in [
        (u64::from(u32::MAX), u32::MAX),
        (1 << 32, 0),
        (7 << 32 | 9, 9),
        (u64::MAX, u32::MAX),
    ] {
        let body = Body::new().varint(1, value).varint(2, value).bytes();
        let version = Output::Version {
            major: low,
            minor: low,
        };
        expect_output(PING, &body, version);
        let entries = [varint(value), varint(1), varint(value)].concat();
        let body = Body::new().field(1, &entries).bytes();
        expect_output(LIST_OPCODES, &body, Output::Opcodes(vec![low, 1, low]));
        expect_output(LIST_PROVIDERS, &body, Output::Providers(vec![low, 1, low]));
    }
}

#[test]
fn varints_longer_than_needed_are_read() {
    for length in 2..=10 {
        let entries = [long_varint(5, length), vec![6]].concat();
        let body = Body::new()
            .raw(&long_varint(0x0A, length))
            .raw(&long_varint(entries.len() as u64, length))
            .raw(&entries);
        expect_output(LIST_OPCODES, &body.bytes(), Output::Opcodes(vec![5, 6]));
        let body = Body::new()
            .raw(&long_varint(0x08, length))
            .raw(&long_varint(3, length));
        let version = Output::Version { major: 3, minor: 0 };
        expect_output(PING, &body.bytes(), version);
    }
}

#[test]
fn a_tenth_byte_above_1_and_an_eleventh_byte_are_unreadable() {
    let ten_bytes = |tenth: u8| [&[0x80; 9][..], &[tenth]].concat();
    for tenth in 0..=255 {
        let entries = ten_bytes(tenth);
        let list = Body::new().field(1, &entries).bytes();
        let version = Body::new().raw(&[0x08]).raw(&entries).bytes();
        if tenth <= 1 {
            expect_output(LIST_OPCODES, &list, Output::Opcodes(vec![0]));
            expect_output(PING, &version, Output::Version { major: 0, minor: 0 });
        } else {
            expect_unreadable(LIST_OPCODES, &list);
            expect_unreadable(PING, &version);
        }
    }
    let eleven_bytes = [ten_bytes(0x80), vec![0]].concat();
    expect_unreadable(LIST_OPCODES, &Body::new().field(1, &eleven_bytes).bytes());
    expect_unreadable(PING, &Body::new().raw(&[0x08]).raw(&eleven_bytes).bytes());
}

#[test]
fn a_list_that_is_not_packed_is_skipped() {
    let list = |body: &[u8], entries: &[u32]| {
        expect_output(LIST_OPCODES, body, Output::Opcodes(entries.to_vec()));
        expect_output(LIST_PROVIDERS, body, Output::Providers(entries.to_vec()));
    };
    list(&[0x08, 1], &[]);
    list(&[0x08, 1, 0x08, 8, 0x08, 9], &[]);
    list(&[0x0A, 1, 1, 0x08, 8], &[1]);
    list(&[0x08, 8, 0x0A, 1, 1], &[1]);
    list(&[0x0A, 1, 1, 0x08, 8, 0x0A, 1, 2], &[2]);
}

#[test]
fn the_last_list_counts_and_they_are_not_joined() {
    let list = |body: &[u8], entries: &[u32]| {
        expect_output(LIST_OPCODES, body, Output::Opcodes(entries.to_vec()));
        expect_output(LIST_PROVIDERS, body, Output::Providers(entries.to_vec()));
    };
    list(&[0x0A, 2, 1, 8, 0x0A, 1, 9], &[9]);
    list(&[0x0A, 1, 9, 0x0A, 0], &[]);
    list(&[0x0A, 0, 0x0A, 1, 9], &[9]);
    list(&[0x0A, 0], &[]);
}

#[test]
fn a_broken_list_before_the_last_one_makes_the_body_unreadable() {
    for opcode in [LIST_PROVIDERS, LIST_OPCODES] {
        expect_unreadable(opcode, &[0x0A, 1, 0x80, 0x0A, 1, 9]);
        expect_unreadable(opcode, &[0x0A, 2, 1, 0xFF, 0x0A, 0]);
        expect_unreadable(opcode, &[0x0A, 1, 9, 0x0A, 1, 0x80]);
    }
}

/// The byte behind the list would end the entry that it cuts.
#[test]
fn an_entry_ends_within_its_list() {
    for opcode in [LIST_PROVIDERS, LIST_OPCODES] {
        expect_unreadable(opcode, &[0x0A, 2, 1, 0x8A, 0x0A, 0]);
        expect_unreadable(opcode, &[0x0A, 1, 0x8A]);
    }
}

#[test]
fn entries_are_kept_in_their_order_zeros_and_repeated_ones_too() {
    let body = [0x0A, 6, 9, 0, 9, 0x80, 0x01, 0];
    expect_output(LIST_OPCODES, &body, Output::Opcodes(vec![9, 0, 9, 128, 0]));
}

#[test]
fn no_operation_reads_a_field_of_unreadable_form() {
    let readable = [
        (PING, &[0x08, 1][..]),
        (LIST_PROVIDERS, &[0x0A, 1, 1]),
        (LIST_OPCODES, &[0x0A, 1, 1]),
        (EXPORT, &[0x0A, 1, 1]),
        (IMPORT, &[]),
        (DESTROY, &[]),
    ];
    for field in unreadable_fields() {
        for (opcode, body) in readable {
            expect_unreadable(opcode, &field);
            expect_unreadable(opcode, &[&field, body].concat());
            expect_unreadable(opcode, &[body, &field].concat());
        }
    }
}

#[test]
fn a_cut_field_is_unreadable() {
    let bodies = [
        (PING, Body::new().varint(1, 300).varint(2, 300).bytes(), 3),
        (EXPORT, Body::new().field(1, &[1; 200]).bytes(), 203),
        (LIST_OPCODES, Body::new().field(1, &[1; 200]).bytes(), 203),
    ];
    for (opcode, body, field_length) in bodies {
        for length in (0..body.len()).filter(|length| length % field_length != 0) {
            expect_unreadable(opcode, &body[..length]);
        }
    }
}

#[test]
fn a_length_past_the_body_is_unreadable_however_large() {
    for length in [4, 998, 1 << 31, 1 << 32 | 3, 1 << 63, u64::MAX] {
        let body = Body::new().raw(&[0x0A]).raw(&varint(length)).raw(&[1; 3]);
        for opcode in [LIST_PROVIDERS, LIST_OPCODES, EXPORT] {
            expect_unreadable(opcode, &body.clone().bytes());
        }
    }
}

#[test]
fn exported_data_of_any_length_that_the_content_allows_is_read() {
    for length in [0, 1, 599, 600, 601, 994, 995] {
        let data: Vec<_> = (0..length).map(|place| place as u8).collect();
        let body = Body::new().field(1, &data).bytes();
        expect_output(EXPORT, &body, Output::Data(data));
    }
}

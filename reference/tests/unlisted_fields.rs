//! Fields that are skipped, groups to their depth, and what is unreadable all the same.
//! Document 02, "Unlisted fields".

mod common;

use common::client::expect_output;
use common::*;
use reference::{CoreOpcode, KeystoreOpcode, Opcode, Output, Status};

const DEEPEST: usize = 16;

fn start(number: u64) -> Vec<u8> {
    varint(number << 3 | 3)
}

fn end(number: u64) -> Vec<u8> {
    varint(number << 3 | 4)
}

fn group(number: u64, content: &[u8]) -> Vec<u8> {
    [&start(number), content, &end(number)].concat()
}

/// Groups of numbers 1, 2, .. inside each other around this content.
fn nested(depth: usize, content: &[u8]) -> Vec<u8> {
    (1..=depth as u64)
        .rev()
        .fold(content.to_vec(), |content, number| group(number, &content))
}

/// A whole field of each wire type that is skipped.
fn fields_of(number: u64) -> Vec<Vec<u8>> {
    let tag = |wire_type: u64| varint(number << 3 | wire_type);
    vec![
        [tag(0), long_varint(u64::MAX, 10)].concat(),
        [tag(1), vec![0xFF; 8]].concat(),
        // Its bytes are not looked into.
        [tag(2), vec![3, 0x0B, 0x0F, 0xFF]].concat(),
        [tag(5), vec![0xFF; 4]].concat(),
        group(number, &[]),
    ]
}

/// What is unreadable wherever a field may stand, with good fields behind it or none.
fn damaged_fields() -> Vec<Vec<u8>> {
    vec![
        // Tags above 2^32 - 1; cut to 32 bits they would be good.
        [varint(1 << 32 | 0x30), vec![0]].concat(),
        [varint(1 << 63 | 0x30), vec![0]].concat(),
        // Field number 0 with each wire type that is skipped.
        vec![0x00, 0x00],
        [vec![0x01], vec![0; 8]].concat(),
        vec![0x02, 0x00],
        vec![0x03, 0x04],
        [vec![0x05], vec![0; 4]].concat(),
        vec![0x36],
        vec![0x37],
        // A tenth byte above 1, in a value and in a length.
        [&[0x30][..], &[0x80; 9], &[0x02]].concat(),
        [&[0x32][..], &[0x80; 9], &[0x02]].concat(),
        // A length past the body.
        [&[0x32][..], &varint(5_000)].concat(),
        // An end of another number.
        [start(6), end(7)].concat(),
        [start(6), start(7), end(6), end(7)].concat(),
    ]
}

/// A served import with these bytes before, between and behind its own fields.
fn imports_with(bytes: &[u8]) -> [Vec<u8>; 3] {
    let own = key(b"a").body();
    let name = Body::new().field(1, b"a").bytes();
    let behind_name = own.strip_prefix(&name[..]).expect("the name comes first");
    [
        [bytes, &own].concat(),
        [&name, bytes, behind_name].concat(),
        [&own, bytes].concat(),
    ]
}

fn expect_skipped(bytes: &[u8]) {
    for body in imports_with(bytes) {
        let mut service = Service::new();
        service.expect_status(&keystore(IMPORT, body), Status::Success);
        assert_eq!(service.slot(0, 0), key(b"a").slot(), "{bytes:02X?}");
    }
}

fn expect_unreadable(bytes: &[u8]) {
    for body in imports_with(bytes) {
        Service::new().expect_status(&keystore(IMPORT, body), Status::DeserializingBodyFailed);
    }
}

#[test]
fn an_unlisted_number_is_skipped_with_every_wire_type() {
    for number in [6, 15, 16, 0x1FFF_FFFF] {
        for field in fields_of(number) {
            expect_skipped(&field);
        }
        expect_skipped(&fields_of(number).concat());
    }
}

#[test]
fn a_listed_number_with_another_wire_type_is_skipped_and_a_good_field_before_it_stands() {
    for (number, own) in [(1, 2), (2, 2), (3, 0), (4, 0), (5, 0)] {
        for (field, wire_type) in fields_of(number).iter().zip([0, 1, 2, 5, 3]) {
            if wire_type != own {
                expect_skipped(field);
            }
        }
    }
}

#[test]
fn every_operation_skips_unlisted_fields() {
    let unlisted = fields_of(6).concat();
    let with_unlisted = |request: Request| Request {
        body: [&unlisted, &request.body[..], &unlisted].concat(),
        ..request
    };
    let mut service = Service::new();
    for request in [
        ping(),
        list_providers(),
        list_opcodes(1),
        import(&key(b"a")),
        export(b"a"),
        destroy(b"a"),
    ] {
        let expected = service.clone().ask(&request);
        assert_eq!(expected.status, Status::Success.number());
        assert_eq!(service.ask(&with_unlisted(request)), expected);
    }
}

#[test]
fn an_operation_with_no_input_skips_any_well_formed_body() {
    for request in [ping(), list_providers()] {
        let ask = |body: Vec<u8>| {
            let request = Request {
                body,
                ..request.clone()
            };
            Service::new().ask(&request).status
        };
        for number in [1, 2, 3, 15] {
            assert_eq!(ask(fields_of(number).concat()), 0);
        }
        for field in damaged_fields() {
            assert_eq!(ask(field), Status::DeserializingBodyFailed.number());
        }
    }
}

#[test]
fn groups_stand_inside_each_other_to_a_depth_of_16() {
    for depth in 1..=DEEPEST {
        expect_skipped(&nested(depth, &[]));
        expect_skipped(&nested(depth, &[0x30, 0x01]));
    }
    for depth in DEEPEST + 1..=DEEPEST + 3 {
        expect_unreadable(&nested(depth, &[]));
    }
}

#[test]
fn groups_side_by_side_do_not_add_up() {
    expect_skipped(&group(6, &[]).repeat(100));
    let innermost = group(7, &[]).repeat(100);
    expect_skipped(&nested(DEEPEST - 1, &innermost));
    expect_skipped(&nested(DEEPEST, &[]).repeat(10));
    let each_depth = (1..DEEPEST as u64).fold(Vec::new(), |content, number| {
        [&nested(1, &[]), &group(number, &content)[..]].concat()
    });
    expect_skipped(&each_depth);
    expect_unreadable(&nested(DEEPEST, &group(7, &[])));
    expect_unreadable(&[nested(2, &[]), nested(DEEPEST + 1, &[])].concat());
}

#[test]
fn a_listed_number_inside_a_group_is_skipped_with_it() {
    let other = Body::new().field(1, b"b").varint(3, 1_024).varint(4, 0);
    for depth in [1, 2, DEEPEST] {
        expect_skipped(&nested(depth, &other.clone().bytes()));
    }
}

/// Tags that are longer than needed: the ends are compared by number.
#[test]
fn a_group_ends_at_the_end_of_its_number_however_it_is_written() {
    for length in 1..=10 {
        let start = long_varint(6 << 3 | 3, length);
        let end = long_varint(6 << 3 | 4, 11 - length);
        expect_skipped(&[start, vec![0x30, 0x01], end].concat());
    }
}

#[test]
fn an_end_without_a_group_is_unreadable() {
    for number in [0, 1, 3, 6, 0x1FFF_FFFF] {
        expect_unreadable(&end(number));
        expect_unreadable(&[group(6, &[]), end(number)].concat());
    }
}

#[test]
fn damage_is_unreadable_at_every_depth() {
    for depth in 0..=DEEPEST - 1 {
        for field in damaged_fields() {
            expect_unreadable(&nested(depth, &field));
        }
    }
}

/// At every byte but between its fields, where it is another body.
#[test]
fn a_cut_skipped_field_is_unreadable() {
    let group = nested(DEEPEST, &fields_of(6)[..4].concat());
    let fields = [fields_of(6), vec![group]].concat();
    for field in fields {
        for length in 1..field.len() {
            let request = Request::new(0, PING, field[..length].to_vec());
            Service::new().expect_status(&request, Status::DeserializingBodyFailed);
        }
    }
}

#[test]
fn a_body_of_4_096_bytes_of_skipped_fields_is_served() {
    for field in [vec![0x30, 0x01], group(6, &[]), nested(DEEPEST, &[])] {
        let mut body = field.repeat(4_096 / field.len());
        body.extend([0x32, 0].repeat((4_096 - body.len()) / 2));
        assert_eq!(body.len(), 4_096);
        Service::new().expect_status(&Request::new(0, PING, body), Status::Success);
    }
}

// ---- the client's reader

const PING_OPCODE: Opcode = Opcode::Core(CoreOpcode::Ping);

/// Each operation with a body that has its output.
fn outputs() -> [(Opcode, &'static [u8], Output); 6] {
    let core = Opcode::Core;
    let keystore = Opcode::Keystore;
    let list = vec![7, 8];
    let version = Output::Version { major: 1, minor: 2 };
    let providers = Output::Providers(list.clone());
    let opcodes = Output::Opcodes(list);
    let data = Output::Data(vec![7, 8]);
    [
        (PING_OPCODE, &[8, 1, 16, 2], version),
        (core(CoreOpcode::ListProviders), &[10, 2, 7, 8], providers),
        (core(CoreOpcode::ListOpcodes), &[10, 2, 7, 8], opcodes),
        (keystore(KeystoreOpcode::Export), &[10, 2, 7, 8], data),
        (keystore(KeystoreOpcode::Import), &[], Output::Nothing),
        (keystore(KeystoreOpcode::Destroy), &[], Output::Nothing),
    ]
}

#[test]
fn the_client_skips_unlisted_fields_and_listed_ones_with_another_wire_type() {
    for (opcode, own, output) in outputs() {
        let mut skipped = fields_of(6);
        skipped.extend([nested(DEEPEST, own), nested(2, own)]);
        // Fields 1 of wire types that no output has, and of the one that Ping's has not.
        skipped.extend([1, 3, 4].map(|place| fields_of(1)[place].clone()));
        let other = if opcode == PING_OPCODE { 2 } else { 0 };
        skipped.push(fields_of(1)[other].clone());
        for field in skipped {
            expect_output(opcode, &[&field, own].concat(), output.clone());
            expect_output(opcode, &[own, &field].concat(), output.clone());
        }
    }
}

#[test]
fn the_client_refuses_what_is_unreadable_at_every_depth() {
    for opcode in client::OPCODES {
        for field in damaged_fields() {
            for depth in [0, 1, DEEPEST - 1] {
                client::expect_unreadable(opcode, &nested(depth, &field));
            }
        }
        client::expect_unreadable(opcode, &nested(DEEPEST + 1, &[]));
        client::expect_unreadable(opcode, &end(6));
        client::expect_unreadable(opcode, &start(6));
    }
}

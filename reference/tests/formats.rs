//! The second body format: read, written, asked for, and what breaks it, on the service and the client.
//! Document 02, "A second body format".

mod common;

use common::client::{
    client_memory_of, read_every_way_as, refused, response, RawResponse, OPCODES, SESSION,
};
use common::generate::Random;
use common::vectors::blocks;
use common::*;
use reference::{
    client_read, rules, write_request, BodyFormat, Formats, IllFormed, Opcode, Operation, Output,
    ReadRefusal, Reading, Status, WriteRefusal, MIN_REQUEST_BUFFER,
};

// ---- a message in either format

#[derive(Clone, Copy, Debug, PartialEq, Eq)]
enum Kind {
    Uint32,
    Bool,
    Bytes,
}

use Kind::{Bool, Bytes, Uint32};

#[derive(Clone, Debug)]
enum Value {
    Number(u32),
    Flag(bool),
    Data(Vec<u8>),
}

/// The kinds of an operation's fields.
fn kinds_of(opcode: u16) -> &'static [Kind] {
    match opcode {
        LIST_OPCODES => &[Uint32],
        IMPORT => &[Bytes, Bytes, Uint32, Bool, Bool],
        EXPORT | DESTROY => &[Bytes],
        VERIFY => &[Bytes; 3],
        _ => &[],
    }
}

fn record(tag: u8, value: &[u8]) -> Vec<u8> {
    let length = (value.len() as u16).to_le_bytes();
    [&[tag], &length[..], value].concat()
}

/// A field with its number, zero values left out.
fn field(format: BodyFormat, number: u8, value: &Value) -> Vec<u8> {
    let is_zero = match value {
        Value::Number(number) => *number == 0,
        Value::Flag(flag) => !flag,
        Value::Data(data) => data.is_empty(),
    };
    let body = Body::new();
    match (format, value) {
        _ if is_zero => Vec::new(),
        (BodyFormat::Protobuf, Value::Number(value)) => {
            body.varint(number.into(), (*value).into()).bytes()
        }
        (BodyFormat::Protobuf, Value::Flag(_)) => body.varint(number.into(), 1).bytes(),
        (BodyFormat::Protobuf, Value::Data(data)) => body.field(number.into(), data).bytes(),
        (BodyFormat::Tagged, Value::Number(value)) => record(number, &value.to_le_bytes()),
        (BodyFormat::Tagged, Value::Flag(_)) => record(number, &[1]),
        (BodyFormat::Tagged, Value::Data(data)) => record(number, data),
    }
}

fn body_of(format: BodyFormat, values: &[Value]) -> Vec<u8> {
    let fields = (1..).zip(values);
    fields
        .flat_map(|(number, value)| field(format, number, value))
        .collect()
}

fn list_of(format: BodyFormat, entries: &[u32]) -> Vec<u8> {
    match format {
        BodyFormat::Protobuf => {
            let packed: Vec<u8> = entries.iter().flat_map(|&n| varint(n.into())).collect();
            Body::new().field(1, &packed).bytes()
        }
        BodyFormat::Tagged => {
            let entries: Vec<u8> = entries
                .iter()
                .flat_map(|entry| entry.to_le_bytes())
                .collect();
            record(1, &entries)
        }
    }
}

// ---- requests

/// A request of these types, from the first application where it is one of the keystore's.
fn request_of(opcode: u16, types: (u8, u8), body: Vec<u8>) -> Request {
    let request = match opcode {
        PING | LIST_PROVIDERS | LIST_OPCODES => Request::new(0, opcode, body),
        _ => keystore(opcode, body),
    };
    Request {
        content_type: types.0,
        accept_type: types.1,
        ..request
    }
}

/// Content type, status and body of the one response.
fn ask(service: &mut Service, request: &Request) -> (u8, u16, Vec<u8>) {
    let response = service.send(&request.bytes()).concat();
    parts(&response)
}

fn parts(response: &[u8]) -> (u8, u16, Vec<u8>) {
    let status = u16::from_le_bytes([response[24], response[25]]);
    (response[17], status, response[26..].to_vec())
}

fn pairs() -> impl Iterator<Item = (BodyFormat, BodyFormat)> {
    let all = BodyFormat::ALL;
    all.into_iter()
        .flat_map(move |content| all.map(|accept| (content, accept)))
}

fn types_of((content, accept): (BodyFormat, BodyFormat)) -> (u8, u8) {
    (content.number(), accept.number())
}

fn name_value(name: &[u8]) -> Vec<Value> {
    vec![Value::Data(name.to_vec())]
}

/// Each operation with its input, and what it answers to a service that holds `k`: a status, and its
/// output in either format.
type Case = (u16, Vec<Value>, u16, fn(BodyFormat) -> Vec<u8>);

fn cases() -> Vec<Case> {
    let none = |_| Vec::new();
    let import = vec![
        Value::Data(b"k".to_vec()),
        Value::Data(vec![7]),
        Value::Number(2_048),
        Value::Flag(true),
        Value::Flag(true),
    ];
    let verify = [&b"k"[..], &[1; 32], &[2; 256]].map(|value| Value::Data(value.to_vec()));
    vec![
        (PING, vec![], 0, |format| {
            body_of(format, &[Value::Number(1)])
        }),
        (LIST_PROVIDERS, vec![], 0, |format| list_of(format, &[0, 1])),
        (LIST_OPCODES, vec![Value::Number(1)], 0, |format| {
            list_of(format, &[3, 5, 6, 7])
        }),
        (LIST_OPCODES, vec![Value::Number(0)], 0, |format| {
            list_of(format, &[1, 8, 9])
        }),
        (LIST_OPCODES, vec![Value::Number(1 << 31)], 6, none),
        (IMPORT, import, 1139, none),
        (EXPORT, name_value(b"k"), 0, |format| {
            body_of(format, &[Value::Data(vec![0xAA, 0xBB])])
        }),
        (EXPORT, name_value(b"other"), 1140, none),
        (DESTROY, name_value(b"other"), 1140, none),
        (VERIFY, verify.to_vec(), 1133, none),
        (EXPORT, vec![], 1135, none),
    ]
}

#[test]
fn every_pair_of_content_and_accept_type_on_every_operation() {
    let registry = Service::with_keys(&[b"k"]).registry;
    for (opcode, input, status, output) in cases() {
        let of_type = |number| BodyFormat::from_number(number);
        let bodies = BodyFormat::ALL.map(|format| body_of(format, &input));
        let pairs = || (0..=255).flat_map(|content| (0..=255).map(move |accept| (content, accept)));
        let stream: Vec<u8> = pairs()
            .flat_map(|types| {
                // With a type that is none, either body.
                let body = bodies[usize::from(types.0 == 2)].clone();
                request_of(opcode, types, body).bytes()
            })
            .collect();
        let responses = rules::run(&registry, &stream).responses;
        assert_eq!(responses.len(), 65_536);
        for ((content, accept), response) in pairs().zip(responses) {
            let expected = match (of_type(content), of_type(accept)) {
                (None, _) => (of_type(accept).map_or(1, |_| accept), 2, Vec::new()),
                (_, None) => (1, 3, Vec::new()),
                (_, Some(format)) => (accept, status, output(format)),
            };
            assert_eq!(parts(&response), expected, "{opcode} {content} {accept}");
        }
    }
}

#[test]
fn the_bytes_of_both_formats() {
    let mut service = Service::with_keys(&[b"k"]);
    let ask = |opcode, accept, body: &[u8]| {
        let request = request_of(opcode, (2, accept), body.to_vec());
        let (_, status, body) = ask(&mut service.clone(), &request);
        assert_eq!(status, 0);
        body
    };
    assert_eq!(ask(PING, 1, &[]), [0x08, 0x01]);
    assert_eq!(ask(PING, 2, &[]), [1, 4, 0, 1, 0, 0, 0]);
    let providers = [1, 8, 0, 0, 0, 0, 0, 1, 0, 0, 0];
    assert_eq!(ask(LIST_PROVIDERS, 2, &[]), providers);
    let opcodes = [1, 12, 0, 1, 0, 0, 0, 8, 0, 0, 0, 9, 0, 0, 0];
    assert_eq!(ask(LIST_OPCODES, 2, &[]), opcodes);
    let keystore = [
        &[1, 16, 0][..],
        &[3, 0, 0, 0, 5, 0, 0, 0, 6, 0, 0, 0, 7, 0, 0, 0],
    ]
    .concat();
    assert_eq!(ask(LIST_OPCODES, 2, &[1, 4, 0, 1, 0, 0, 0]), keystore);
    assert_eq!(ask(EXPORT, 2, &[1, 1, 0, b'k']), [1, 2, 0, 0xAA, 0xBB]);
    assert_eq!(ask(EXPORT, 1, &[1, 1, 0, b'k']), [0x0A, 2, 0xAA, 0xBB]);
    let import = [
        1, 1, 0, b'a', 2, 2, 0, 0xAA, 0xBB, 3, 4, 0, 0, 8, 0, 0, 4, 1, 0, 1,
    ];
    let request = request_of(IMPORT, (2, 2), import.to_vec());
    assert_eq!(self::ask(&mut service, &request), (2, 0, Vec::new()));
    assert_eq!(service.slot(0, 1), key(b"a").slot());
}

#[test]
fn both_formats_of_the_same_message_give_the_same_result() {
    let random = &mut Random::new(12);
    let signed = blocks("signatures.txt");
    let signed = signed.iter().find(|block| block.title == "2048-3").unwrap();
    let mut services = [Service::new(), Service::new()];
    let mut statuses = Vec::new();
    for _ in 0..6_000 {
        let opcode = random.pick(&[IMPORT, IMPORT, EXPORT, VERIFY, DESTROY, LIST_OPCODES, PING]);
        let name = random.pick(&[b"a".to_vec(), b"b".to_vec(), vec![b'n'; 32], Vec::new()]);
        let length = random.pick(&[0, 1, 127, 128, 600, 601]);
        let other = random.bytes(length);
        let values = match opcode {
            IMPORT => vec![
                Value::Data(name),
                Value::Data(random.pick(&[signed.bytes("data"), other])),
                Value::Number(random.pick(&[2_048, 2_048, 3_072, 1_024, 0, u32::MAX])),
                Value::Flag(!random.once_in(4)),
                Value::Flag(!random.once_in(4)),
            ],
            VERIFY => vec![
                Value::Data(name),
                Value::Data(random.pick(&[signed.bytes("hash"), vec![0; 31]])),
                Value::Data(random.pick(&[signed.bytes("signature"), other])),
            ],
            LIST_OPCODES => vec![Value::Number(random.pick(&[0, 1, 2, u32::MAX]))],
            PING => vec![],
            _ => vec![Value::Data(name)],
        };
        for accept in BodyFormat::ALL {
            let mut answers = Vec::new();
            for (service, content) in services.iter_mut().zip(BodyFormat::ALL) {
                let types = types_of((content, accept));
                let request = request_of(opcode, types, body_of(content, &values));
                answers.push(ask(service, &request));
            }
            assert_eq!(answers[0], answers[1], "{opcode} {values:?}");
            assert_eq!(answers[0].0, accept.number());
            statuses.push(answers[0].1);
        }
        assert!(services[0].registry == services[1].registry);
    }
    for status in [0, 6, 1133, 1134, 1135, 1139, 1140, 1149] {
        assert!(statuses.contains(&status), "{status}");
    }
}

// ---- faults of the second format

/// A good value of each kind.
fn good_value(kind: Kind) -> Vec<u8> {
    match kind {
        Uint32 => vec![1, 0, 0, 0],
        Bool => vec![1],
        Bytes => b"k".to_vec(),
    }
}

/// Values that a field of the kind has not.
fn bad_values(kind: Kind) -> Vec<Vec<u8>> {
    match kind {
        Uint32 => vec![
            vec![],
            vec![0; 4],
            vec![1],
            vec![1, 0],
            vec![1, 0, 0],
            vec![1, 0, 0, 0, 0],
            vec![1, 0, 0, 0, 0, 0, 0, 0],
        ],
        Bool => vec![vec![], vec![0], vec![2], vec![0xFF], vec![1, 0], vec![0, 1]],
        Bytes => vec![vec![]],
    }
}

/// Good fields 1, 2, .., those of these places alone.
fn good_fields(kinds: &[Kind], places: std::ops::Range<usize>) -> Vec<u8> {
    places
        .flat_map(|place| record(1 + place as u8, &good_value(kinds[place])))
        .collect()
}

/// Status 7 at this offset, in either format of the response.
fn expect_broken(opcode: u16, body: &[u8], offset: usize) {
    for accept in BodyFormat::ALL {
        let mut service = Service::with_keys(&[b"k"]);
        let before = service.registry.clone();
        let request = request_of(opcode, (2, accept.number()), body.to_vec());
        let expected = body_of(accept, &[Value::Number(offset as u32)]);
        let answered = ask(&mut service, &request);
        assert_eq!(answered, (accept.number(), 7, expected), "{body:02X?}");
        assert!(service.registry == before);
    }
}

const ALL_OPCODES: [u16; 7] = [
    PING,
    LIST_PROVIDERS,
    LIST_OPCODES,
    IMPORT,
    EXPORT,
    DESTROY,
    VERIFY,
];

#[test]
fn every_fault_at_every_place_is_unreadable_at_its_fields_start() {
    for opcode in ALL_OPCODES {
        let kinds = kinds_of(opcode);
        for place in 0..=kinds.len() {
            let before = good_fields(kinds, 0..place);
            let behind = good_fields(kinds, place.min(kinds.len())..kinds.len());
            let mut faults = Vec::new();
            if place < kinds.len() {
                let tag = 1 + place as u8;
                faults.extend(
                    bad_values(kinds[place])
                        .iter()
                        .map(|value| record(tag, value)),
                );
            }
            // Unlisted, repeated and falling tags, whatever is in them.
            let unlisted = [0, 1 + kinds.len() as u8, 9, 16, 255];
            let seen = 1..=place as u8;
            for tag in unlisted.into_iter().chain(seen) {
                for value in [&b""[..], &[1], &[1, 0, 0, 0], b"k"] {
                    faults.push(record(tag, value));
                }
            }
            for fault in faults {
                let alone = [&before[..], &fault].concat();
                expect_broken(opcode, &alone, before.len());
                expect_broken(opcode, &[&alone[..], &behind].concat(), before.len());
            }
        }
    }
}

#[test]
fn a_cut_field_is_unreadable_at_its_start() {
    for opcode in ALL_OPCODES {
        let kinds = kinds_of(opcode);
        for place in 0..kinds.len() {
            let before = good_fields(kinds, 0..place);
            let field = good_fields(kinds, place..place + 1);
            for length in 1..field.len() {
                let body = [&before[..], &field[..length]].concat();
                expect_broken(opcode, &body, before.len());
            }
        }
    }
    expect_broken(EXPORT, &[1, 0xFF, 0xFF, b'k'], 0);
    // The auth name behind the body is none of its bytes.
    expect_broken(EXPORT, &[1, 2, 0, b'k'], 0);
}

#[test]
fn an_operation_without_input_reads_an_empty_body_alone() {
    for opcode in [PING, LIST_PROVIDERS] {
        for byte in 0..=255 {
            expect_broken(opcode, &[byte], 0);
        }
        expect_broken(opcode, &record(1, b"k"), 0);
    }
}

#[test]
fn any_field_may_be_left_out_and_an_offset_may_be_large() {
    let kinds = kinds_of(IMPORT);
    for fields in 0..1 << kinds.len() {
        let places = (0..kinds.len()).filter(|place| fields >> place & 1 == 1);
        let body: Vec<u8> = places
            .flat_map(|place| good_fields(kinds, place..place + 1))
            .collect();
        let request = request_of(IMPORT, (2, 2), body);
        let (_, status, _) = ask(&mut Service::new(), &request);
        // A bit set is missing or 1: not supported; without name or data an invalid argument.
        let expected = if fields & 3 == 3 { 1134 } else { 1135 };
        assert_eq!(status, expected, "{fields:05b}");
    }
    let long = [record(1, &[b'k'; 4_000]), vec![2]].concat();
    expect_broken(VERIFY, &long, 4_003);
}

#[test]
fn a_body_of_the_other_format_is_not_read_by_chance() {
    for (opcode, input, _, _) in cases() {
        if !input.is_empty() {
            let body = body_of(BodyFormat::Protobuf, &input);
            if !body.is_empty() {
                expect_broken(opcode, &body, 0);
            }
        }
    }
}

// ---- which type an answer has

#[test]
fn answers_of_the_third_step_have_the_accept_type() {
    for (accept, expected) in [(0, 1), (1, 1), (2, 2), (3, 1), (255, 1)] {
        let with = |change: fn(&mut Request)| {
            let mut request = request_of(PING, (2, accept), Vec::new());
            change(&mut request);
            let (content_type, status, body) = ask(&mut Service::new(), &request);
            assert!(body.is_empty() && status != 0);
            (content_type, status)
        };
        assert_eq!(with(|request| request.major = 2), (expected, 4));
        assert_eq!(with(|request| request.content_type = 0), (expected, 2));
        if expected == accept {
            assert_eq!(with(|request| request.opcode = 2), (accept, 9));
            assert_eq!(with(|request| request.provider = 9), (accept, 6));
            assert_eq!(with(|request| request.provider = 1), (accept, 1));
            assert_eq!(with(|request| request.auth_type = 2), (accept, 12));
            assert_eq!(with(|request| request.auth = vec![1]), (accept, 11));
            let import = request_of(IMPORT, (2, accept), vec![]).without_authentication();
            let answered = ask(&mut Service::new(), &import);
            assert_eq!(answered, (accept, 19, Vec::new()));
        }
    }
}

#[test]
fn oversized_and_status_17_answers_keep_type_1() {
    for accept_type in [0, 1, 2, 255] {
        for (content_length, auth_length, status) in
            [(4_097, 0, 20), (0, 257, 11), (4_097, 257, 20)]
        {
            let request = Request {
                content_type: 2,
                accept_type,
                ..ping_of_size(content_length, auth_length)
            };
            let answered = ask(&mut Service::new(), &request);
            assert_eq!(answered, (1, status, Vec::new()));
        }
        let bad = Request {
            header_size: 21,
            accept_type,
            ..ping()
        };
        let answered = ask(&mut Service::new(), &bad);
        assert_eq!(answered, (1, 17, Vec::new()));
    }
}

#[test]
fn the_longest_response_has_629_bytes_in_either_format() {
    let longest = Key {
        data: vec![0xDA; 600],
        ..key(b"k")
    };
    let mut service = Service::new();
    service.expect_status(&import(&longest), Status::Success);
    for pair in pairs() {
        let body = body_of(pair.0, &name_value(b"k"));
        let request = request_of(EXPORT, types_of(pair), body);
        let responses = service.send(&request.bytes());
        assert_eq!(responses[0].len(), 629);
    }
}

// ---- the client

fn operations<'a>() -> Vec<(Operation<'a>, Vec<Value>)> {
    let import = Operation::ImportKey {
        name: b"new",
        data: &[1, 2, 3],
        bits: 3_072,
        export_allowed: true,
        verify_allowed: false,
    };
    let verify = Operation::VerifySignature {
        name: b"k",
        hash: &[5; 32],
        signature: &[6; 300],
    };
    let data = |bytes: &[u8]| Value::Data(bytes.to_vec());
    vec![
        (Operation::Ping, vec![]),
        (Operation::ListProviders, vec![]),
        (
            Operation::ListOpcodes { provider: 0 },
            vec![Value::Number(0)],
        ),
        (
            Operation::ListOpcodes {
                provider: 0x0102_0304,
            },
            vec![Value::Number(0x0102_0304)],
        ),
        (
            import,
            vec![
                data(b"new"),
                data(&[1, 2, 3]),
                Value::Number(3_072),
                Value::Flag(true),
                Value::Flag(false),
            ],
        ),
        (Operation::ExportPublicKey { name: b"k" }, vec![data(b"k")]),
        (Operation::DestroyKey { name: b"k" }, vec![data(b"k")]),
        (verify, vec![data(b"k"), data(&[5; 32]), data(&[6; 300])]),
    ]
}

fn written(formats: Formats, operation: &Operation) -> Vec<u8> {
    let mut buffer = vec![0x55; MIN_REQUEST_BUFFER + 9];
    let written = write_request(&mut buffer, SESSION, formats, Some(FIRST), operation);
    let length = written.expect("a good request");
    assert!(buffer[length..].iter().all(|&byte| byte == 0x55));
    buffer.truncate(length);
    buffer
}

#[test]
fn the_client_writes_either_format_and_asks_for_either() {
    for pair in pairs() {
        let formats = Formats {
            content: pair.0,
            accept: pair.1,
        };
        for (operation, values) in operations() {
            let opcode = operation.opcode().number();
            let request = request_of(opcode, types_of(pair), body_of(pair.0, &values));
            let request = Request {
                session: SESSION,
                ..request.sent_by(FIRST)
            };
            assert_eq!(written(formats, &operation), request.bytes());
        }
    }
}

#[test]
fn a_verify_body_has_at_most_4096_bytes_as_it_would_be_written() {
    for name in [&b"k"[..], &[b'k'; 32]] {
        // Three bytes before each value.
        let longest = 4_096 - 9 - name.len() - 32;
        for length in [longest - 1, longest, longest + 1, 65_537] {
            let signature = vec![7; length];
            let operation = Operation::VerifySignature {
                name,
                hash: &[0; 32],
                signature: &signature,
            };
            for accept in BodyFormat::ALL {
                let formats = Formats {
                    content: BodyFormat::Tagged,
                    accept,
                };
                let mut buffer = vec![0; MIN_REQUEST_BUFFER];
                let answer = write_request(&mut buffer, 1, formats, None, &operation);
                let expected = match length <= longest {
                    true => Ok(28 + 4_096 - (longest - length)),
                    false => Err(WriteRefusal::BodyTooLong),
                };
                assert_eq!(answer, expected);
            }
        }
    }
}

/// The response that the service writes is read as the same result, whichever the formats.
#[test]
fn what_the_service_writes_the_client_reads_in_all_pairings() {
    for (operation, _) in operations() {
        let mut outputs = Vec::new();
        for pair in pairs() {
            let formats = Formats {
                content: pair.0,
                accept: pair.1,
            };
            let mut service = Service::with_keys(&[b"k"]);
            let responses = service.send(&written(formats, &operation));
            let answer = read_every_way_as(operation.opcode(), SESSION, pair.1, &responses[0]);
            assert_eq!(answer.taken, responses[0].len());
            assert!(
                matches!(answer.reading, Reading::Response { .. }),
                "{answer:?}"
            );
            outputs.push((answer.reading, service.registry));
        }
        assert!(outputs.iter().all(|output| output == &outputs[0]));
    }
}

fn raw(opcode: Opcode, content_type: u8, status: u16, body: &[u8]) -> Vec<u8> {
    let raw = RawResponse {
        content_type,
        status,
        ..RawResponse::to(opcode, body)
    };
    raw.bytes()
}

fn opcode_of(number: u16) -> Opcode {
    Opcode::from_number(number).expect("a listed one")
}

#[test]
fn the_client_expects_the_accept_type_it_sent_and_on_status_17_only_1() {
    for opcode in OPCODES {
        for accept in BodyFormat::ALL {
            for content_type in 0..=255 {
                for status in [0, 1, 7, 17, 1_140] {
                    let bytes = raw(opcode, content_type, status, &[]);
                    let answer = read_every_way_as(opcode, SESSION, accept, &bytes);
                    let wanted = if status == 17 { 1 } else { accept.number() };
                    let is_read = matches!(answer.reading, Reading::Response { .. });
                    assert_eq!(is_read, content_type == wanted, "{content_type} {status}");
                    if !is_read {
                        assert_eq!(answer, refused(26, ReadRefusal::WrongContentType));
                    }
                }
            }
            let bytes = RawResponse::invalid_header().bytes();
            let answer = read_every_way_as(opcode, SESSION, accept, &bytes);
            assert_eq!(answer, response(26, 17, Output::Nothing));
        }
    }
}

#[test]
fn the_client_reads_outputs_of_the_second_format() {
    let version = |major, minor| Output::Version { major, minor };
    let data = |bytes: &[u8]| Output::Data(bytes.to_vec());
    let rows: Vec<(u16, u16, Vec<u8>, Output)> = vec![
        (PING, 0, vec![], version(0, 0)),
        (PING, 0, record(1, &[1, 2, 3, 4]), version(0x0403_0201, 0)),
        (PING, 0, record(2, &[9, 0, 0, 0]), version(0, 9)),
        (LIST_PROVIDERS, 0, vec![], Output::Providers(vec![])),
        (
            LIST_PROVIDERS,
            0,
            record(1, &[0, 0, 0, 0, 1, 0, 0, 0x80]),
            Output::Providers(vec![0, 0x8000_0001]),
        ),
        (
            LIST_OPCODES,
            0,
            record(1, &[0; 4]),
            Output::Opcodes(vec![0]),
        ),
        (EXPORT, 0, vec![], data(b"")),
        (EXPORT, 0, record(1, &[0xEE; 995]), data(&[0xEE; 995])),
        (IMPORT, 0, vec![], Output::Nothing),
        (EXPORT, 7, vec![], Output::Offset(0)),
        (EXPORT, 7, record(1, &[1, 1, 0, 0]), Output::Offset(257)),
        (PING, 9, vec![], Output::Nothing),
    ];
    for (opcode, status, body, output) in rows {
        let opcode = opcode_of(opcode);
        let bytes = raw(opcode, 2, status, &body);
        let answer = read_every_way_as(opcode, SESSION, BodyFormat::Tagged, &bytes);
        assert_eq!(answer, response(26 + body.len(), status, output));
    }
}

#[test]
fn the_client_refuses_what_the_second_format_has_not() {
    let number = record(1, &[1, 0, 0, 0]);
    let mut rows: Vec<(u16, u16, Vec<u8>)> = vec![
        (PING, 0, record(1, &[0; 4])),
        (PING, 0, record(1, &[1, 0, 0])),
        (PING, 0, record(3, &[1, 0, 0, 0])),
        (PING, 0, record(0, &[1, 0, 0, 0])),
        (PING, 0, [number.clone(), number.clone()].concat()),
        (PING, 0, [record(2, &[1, 0, 0, 0]), number.clone()].concat()),
        (LIST_PROVIDERS, 0, record(1, b"")),
        (LIST_PROVIDERS, 0, record(1, &[1])),
        (LIST_PROVIDERS, 0, record(1, &[1; 3])),
        (LIST_OPCODES, 0, record(1, &[1; 6])),
        (LIST_OPCODES, 0, record(2, &[1; 4])),
        (EXPORT, 0, record(1, b"")),
        (EXPORT, 0, record(2, b"data")),
        (IMPORT, 0, number.clone()),
        (DESTROY, 0, vec![1]),
        (VERIFY, 0, vec![0]),
        (EXPORT, 7, record(1, &[0; 4])),
        (EXPORT, 7, [number.clone(), number.clone()].concat()),
        (EXPORT, 7, record(2, &[1, 0, 0, 0])),
        (EXPORT, 1_140, number.clone()),
    ];
    for status in [0, 7] {
        rows.extend((1..number.len()).map(|length| (PING, status, number[..length].to_vec())));
    }
    for (opcode, status, body) in rows {
        let opcode = opcode_of(opcode);
        let bytes = raw(opcode, 2, status, &body);
        let answer = read_every_way_as(opcode, SESSION, BodyFormat::Tagged, &bytes);
        let at = 26 + body.len();
        assert_eq!(
            answer,
            refused(at, ReadRefusal::UnreadableBody),
            "{body:02X?}"
        );
    }
}

#[test]
fn a_state_of_another_accept_type_is_ill_formed() {
    for accept_type in 0..=255 {
        let mut memory = client_memory_of(1, SESSION, accept_type, 0, &[]);
        let before = memory.clone();
        let answer = client_read(&mut memory, &[]);
        match accept_type {
            1 | 2 => assert!(answer.is_ok()),
            _ => assert_eq!(answer, Err(IllFormed)),
        }
        assert_eq!(memory, before);
    }
}

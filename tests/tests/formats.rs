//! The second body format on the compiled service and client, byte for byte the reference's: every pair
//! of types, good bodies, and every fault at every place. Document 02, "A second body format".

use razidkot_tests::ask::*;
use razidkot_tests::client_program::{RESPONSE, UNREADABLE_BODY, WRONG_CONTENT_TYPE};
use razidkot_tests::client_responses::{invalid_header, response, BODY_AT, CONTENT_TYPE_AT};
use razidkot_tests::client_states::{hand_over, Awaited};
use razidkot_tests::generate::{importable_key, Random};
use razidkot_tests::layout::Key;
use razidkot_tests::lent::Lent;
use razidkot_tests::oracle::{bytes_field, number_field};
use razidkot_tests::requests::with_lengths;
use razidkot_tests::run::{for_seeds, Outcomes};
use razidkot_tests::service;
use razidkot_tests::signatures::{some_verify_body, with_signed_data, Signed};
use razidkot_tests::tagged::*;
use reference::Output;

const APPLICATION: &[u8] = b"scanner";

fn lent() -> Lent {
    Lent::fresh(&registry_of(&[APPLICATION.to_vec()]), b"")
}

/// By the application, core operations too.
fn request_as(opcode: u16, types: (u8, u8), body: &[u8]) -> Vec<u8> {
    request_of(opcode, types, Some(APPLICATION), body)
}

fn key(name: &[u8]) -> Key {
    Key {
        name: name.to_vec(),
        data: vec![0xAA, 0xBB],
        bits: 2_048,
        export_allowed: true,
        verify_allowed: false,
    }
}

/// Each operation with a body of Protocol Buffers that it reads, and the status of it on no keys.
fn inputs() -> [(u16, Vec<u8>, u16); 7] {
    let signed = &Signed::supported()[0];
    [
        (PING, vec![], 0),
        (LIST_PROVIDERS, vec![], 0),
        (LIST_OPCODES, number_field(1, 1), 0),
        (
            IMPORT,
            import_body(&Key {
                bits: 0,
                ..key(b"k")
            }),
            1134,
        ),
        (EXPORT, name_body(b"k"), 1140),
        (DESTROY, name_body(b"k"), 1140),
        (VERIFY, signed.body(b"k"), 1140),
    ]
}

#[test]
fn every_pair_of_content_and_accept_type_on_every_operation() {
    let pairs = || (0..=255).flat_map(|content| (0..=255).map(move |accept| (content, accept)));
    for (opcode, protobuf, status) in inputs() {
        let tagged = from_protobuf(opcode, &protobuf).expect("it has a second format");
        let request = |types: (u8, u8)| {
            let body = if types.0 == TAGGED {
                &tagged
            } else {
                &protobuf
            };
            request_as(opcode, types, body)
        };
        let stream: Vec<u8> = pairs().flat_map(request).collect();
        // The same as the uncut rules of the reference give.
        let responses = service::responses(&[APPLICATION.to_vec()], &stream, &[65_536]);
        assert_eq!(responses.len(), 65_536);
        for ((content, accept), response) in pairs().zip(responses) {
            let is_listed = LISTED_TYPES.contains(&accept);
            let expected = match (LISTED_TYPES.contains(&content), is_listed) {
                (false, _) => 2,
                (_, false) => 3,
                _ => status,
            };
            let answered = u16::from_le_bytes([response[24], response[25]]);
            assert_eq!(answered, expected, "{opcode} {content} {accept}");
            let content_type = if is_listed { accept } else { PROTOBUF };
            assert_eq!(response[17], content_type, "{opcode} {content} {accept}");
        }
    }
}

#[test]
fn outputs_of_both_formats() {
    let mut lent = lent();
    let mut ask = |opcode, accept: u8, body: &[u8]| {
        let answer = lent.answer_of_both(&request_as(opcode, (TAGGED, accept), body));
        assert_eq!((answer.0, answer.1), (accept, SUCCESS));
        answer.2
    };
    let import = [
        bytes_record(1, b"k"),
        bytes_record(2, &[0xAA, 0xBB]),
        number_record(3, 2_048),
        bytes_record(4, &[1]),
    ];
    assert_eq!(ask(IMPORT, TAGGED, &import.concat()), []);
    assert_eq!(ask(PING, PROTOBUF, &[]), [0x08, 0x01]);
    assert_eq!(ask(PING, TAGGED, &[]), [1, 4, 0, 1, 0, 0, 0]);
    assert_eq!(ask(LIST_PROVIDERS, TAGGED, &[]), list_record(1, &[0, 1]));
    assert_eq!(ask(LIST_OPCODES, TAGGED, &[]), list_record(1, &[1, 8, 9]));
    let keystore = number_record(1, 1);
    let opcodes = list_record(1, &[3, 5, 6, 7]);
    assert_eq!(ask(LIST_OPCODES, TAGGED, &keystore), opcodes);
    let name = bytes_record(1, b"k");
    assert_eq!(ask(EXPORT, TAGGED, &name), [1, 2, 0, 0xAA, 0xBB]);
    assert_eq!(ask(EXPORT, PROTOBUF, &name), [0x0A, 2, 0xAA, 0xBB]);
    assert_eq!(ask(DESTROY, TAGGED, &name), []);
}

#[test]
fn both_formats_of_the_same_message_give_the_same_result() {
    let mut outcomes = Outcomes::default();
    let mut lents = [lent(), lent()];
    for_seeds(6_000, |random| {
        let (opcode, body) = some_message(random);
        let bodies = [Some(body.clone()), from_protobuf(opcode, &body)];
        let accept = random.pick(&LISTED_TYPES);
        let mut answers = Vec::new();
        for ((lent, content), body) in lents.iter_mut().zip(LISTED_TYPES).zip(bodies) {
            let body = body.expect("each field once");
            let request = request_as(opcode, (content, accept), &body);
            answers.push(lent.answer_of_both(&request));
        }
        assert_eq!(answers[0], answers[1], "{opcode} {body:02X?}");
        assert_eq!(answers[0].0, accept);
        assert!(lents[0].registry == lents[1].registry);
        outcomes.count(answers[0].1);
    });
    let expected = [0_u16, 6, 1133, 1134, 1135, 1139, 1140, 1149];
    outcomes.assert_often(&expected, 10);
}

/// Few names, so that keys meet again.
fn some_message(random: &mut Random) -> (u16, Vec<u8>) {
    let opcode = random.pick(&[
        IMPORT,
        IMPORT,
        EXPORT,
        VERIFY,
        VERIFY,
        DESTROY,
        LIST_OPCODES,
        PING,
    ]);
    let name = random.pick(&[
        b"a".to_vec(),
        b"b".to_vec(),
        vec![b'n'; 32],
        b"a b".to_vec(),
    ]);
    let body = match opcode {
        IMPORT => {
            let key = Key {
                name,
                ..importable_key(random, 0)
            };
            import_body(&with_signed_data(random, key))
        }
        VERIFY => some_verify_body(random, &name),
        LIST_OPCODES => number_field(1, random.pick(&[0, 1, 2, 0xFFFF_FFFF])),
        PING => Vec::new(),
        _ => name_body(&name),
    };
    (opcode, body)
}

/// Status 7 at this offset, in the format of the response.
fn expect_broken(opcode: u16, body: &[u8], offset: usize) {
    for accept in LISTED_TYPES {
        let mut lent = lent();
        let answer = lent.answer_of_both(&request_as(opcode, (TAGGED, accept), body));
        let expected = match accept {
            TAGGED => number_record(1, offset as u32),
            _ => number_field(1, offset as u64),
        };
        assert_eq!(answer, (accept, 7, expected), "{opcode} {body:02X?}");
        let awaited = Awaited {
            opcode,
            session: opcode.into(),
            accept_type: accept,
        };
        let bytes = response(awaited, 7, &answer.2);
        let said = hand_over(awaited, &[&bytes]).expect("no difference");
        assert_eq!(said[0].output, Output::Offset(offset as u32));
    }
}

#[test]
fn every_fault_at_every_place_is_unreadable_at_its_fields_start() {
    let mut outcomes = Outcomes::default();
    for opcode in OPCODES {
        let kinds = kinds_of(opcode);
        for place in 0..=kinds.len() {
            let before = good_fields(kinds, 0..place);
            let behind = good_fields(kinds, place..kinds.len());
            for (fault, field) in faults(kinds, place) {
                let alone = [&before[..], &field].concat();
                expect_broken(opcode, &alone, before.len());
                expect_broken(opcode, &[&alone[..], &behind].concat(), before.len());
                outcomes.count(fault);
            }
            let next = good_fields(kinds, place..kinds.len().min(place + 1));
            for length in 1..next.len() {
                let cut = [&before[..], &next[..length]].concat();
                expect_broken(opcode, &cut, before.len());
                outcomes.count("a cut field");
            }
        }
    }
    let expected = [
        "a value",
        "a repeated or falling tag",
        "an unlisted tag",
        "a cut field",
    ];
    outcomes.assert_often(&expected, 20);
    // A length past the body, into the auth name.
    expect_broken(EXPORT, &[1, 3, 0, b'k', b'e'], 0);
    expect_broken(
        VERIFY,
        &[record(1, &[b'k'; 4_000]), vec![2]].concat(),
        4_003,
    );
}

#[test]
fn any_bytes_are_read_alike() {
    let mut outcomes = Outcomes::default();
    for_seeds(20_000, |random| {
        let opcode = random.pick(&OPCODES);
        let kinds = kinds_of(opcode);
        let mut body = good_fields(kinds, 0..random.below(kinds.len() + 1));
        for _ in 0..random.below(4) {
            let at = random.below(body.len() + 1);
            match random.below(3) {
                0 if at < body.len() => body[at] ^= 1 << random.below(8),
                1 => body.insert(at, random.pick(&[0, 1, 2, 3, 4, 255])),
                _ => body.truncate(at),
            }
        }
        let types = (TAGGED, random.pick(&LISTED_TYPES));
        let (_, status, _) = lent().answer_of_both(&request_as(opcode, types, &body));
        outcomes.count(status == DESERIALIZING_BODY_FAILED);
    });
    outcomes.assert_often(&[true, false], 1_000);
}

#[test]
fn oversized_and_status_17_answers_keep_type_1() {
    for accept in [0, 1, 2, 3, 255] {
        let ping = request_as(PING, (TAGGED, accept), &[]);
        for (content, auth, status) in [(4_097, 0, 20), (0, 257, 11), (4_097, 257, 20)] {
            let (content_type, answered, body) = answered(&with_lengths(&ping, content, auth));
            assert_eq!((content_type, answered, body.len()), (PROTOBUF, status, 0));
        }
        let mut bad = ping.clone();
        bad[0] ^= 1;
        let answer = lent().call_both(&bad);
        assert_eq!((answer.taken, answer.written), (6, 26));
    }
}

fn answered(request: &[u8]) -> (u8, u16, Vec<u8>) {
    lent().answer_of_both(request)
}

#[test]
fn refusals_of_the_third_step_have_the_accept_type() {
    for (accept, expected) in [(0, 1), (1, 1), (2, 2), (3, 1), (255, 1)] {
        let with = |at: usize, byte: u8| {
            let mut request = request_as(PING, (TAGGED, accept), &[]);
            request[at] = byte;
            let (content_type, status, body) = answered(&request);
            assert!(body.is_empty());
            (content_type, status)
        };
        assert_eq!(with(6, 2), (expected, 4));
        assert_eq!(with(17, 0), (expected, 2));
        if accept == expected {
            for (at, byte, status) in [(26, 2, 9), (8, 9, 6), (8, 1, 1), (19, 2, 12), (19, 0, 11)] {
                assert_eq!(with(at, byte), (accept, status));
            }
        }
    }
}

// ---- the client

#[test]
fn the_client_expects_the_accept_type_and_on_status_17_only_1() {
    for opcode in OPCODES {
        for accept_type in LISTED_TYPES {
            let awaited = Awaited {
                opcode,
                session: 77,
                accept_type,
            };
            for status in [0, 2, 7, 17, 1_140, 9_999] {
                for content_type in 0..=255 {
                    let mut bytes = response(awaited, status, &[]);
                    bytes[CONTENT_TYPE_AT] = content_type;
                    let said = hand_over(awaited, &[&bytes]).expect("no difference");
                    let wanted = if status == 17 { PROTOBUF } else { accept_type };
                    let expected = match content_type == wanted {
                        true => RESPONSE,
                        false => WRONG_CONTENT_TYPE,
                    };
                    assert_eq!(said[0].code, expected, "{status} {content_type}");
                }
            }
            let said = hand_over(awaited, &[&invalid_header(&[])]).expect("no difference");
            assert_eq!((said[0].code, said[0].status), (RESPONSE, 17));
        }
    }
}

#[test]
fn the_client_reads_the_second_format_strictly() {
    let number = number_record(1, 5);
    let read = |opcode, status, body: &[u8]| {
        let awaited = Awaited {
            opcode,
            session: 78,
            accept_type: TAGGED,
        };
        let bytes = response(awaited, status, body);
        hand_over(awaited, &[&bytes]).expect("no difference")[0].clone()
    };
    let good: Vec<(u16, u16, Vec<u8>, Output)> = vec![
        (
            PING,
            0,
            number.clone(),
            Output::Version { major: 5, minor: 0 },
        ),
        (
            PING,
            0,
            number_record(2, 5),
            Output::Version { major: 0, minor: 5 },
        ),
        (LIST_PROVIDERS, 0, vec![], Output::Providers(vec![])),
        (
            LIST_PROVIDERS,
            0,
            list_record(1, &[0]),
            Output::Providers(vec![0]),
        ),
        (
            LIST_OPCODES,
            0,
            list_record(1, &[0, u32::MAX, 7]),
            Output::Opcodes(vec![0, u32::MAX, 7]),
        ),
        (
            EXPORT,
            0,
            bytes_record(1, &[9; 995]),
            Output::Data(vec![9; 995]),
        ),
        (IMPORT, 0, vec![], Output::Nothing),
        (VERIFY, 7, number.clone(), Output::Offset(5)),
        (VERIFY, 7, vec![], Output::Offset(0)),
    ];
    for (opcode, status, body, output) in good {
        let said = read(opcode, status, &body);
        assert_eq!((said.code, said.output), (RESPONSE, output), "{body:02X?}");
    }
    let twice = [number.clone(), number.clone()].concat();
    let falling = [number_record(2, 5), number.clone()].concat();
    let mut bad: Vec<(u16, u16, Vec<u8>)> = vec![
        (PING, 0, record(1, &[0; 4])),
        (PING, 0, record(1, &[1; 3])),
        (PING, 0, record(3, &[1; 4])),
        (PING, 0, twice.clone()),
        (PING, 0, falling),
        (LIST_PROVIDERS, 0, record(1, &[])),
        (LIST_PROVIDERS, 0, record(1, &[1; 3])),
        (LIST_OPCODES, 0, record(1, &[1; 5])),
        (LIST_OPCODES, 0, twice.clone()),
        (EXPORT, 0, record(1, &[])),
        (EXPORT, 0, record(2, &[1])),
        (IMPORT, 0, number.clone()),
        (DESTROY, 0, vec![0]),
        (EXPORT, 7, record(1, &[0; 4])),
        (EXPORT, 7, twice),
        (EXPORT, 1_140, number.clone()),
        (EXPORT, 0, bytes_field(1, b"data")),
    ];
    bad.extend((1..number.len()).map(|length| (PING, 0, number[..length].to_vec())));
    for (opcode, status, body) in bad {
        let said = read(opcode, status, &body);
        let expected = (UNREADABLE_BODY, BODY_AT + body.len());
        assert_eq!((said.code, said.taken), expected, "{body:02X?}");
    }
}

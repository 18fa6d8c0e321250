//! What the client writes for each operation, and what it refuses before a byte is written.
//! Document 02, "The client's half", its last sentence, and "Checking signatures"; document 01's bounds
//! and writing rule.

mod common;

use common::generate::Random;
use common::*;
use reference::{write_request, Formats, Operation, WriteRefusal, MIN_REQUEST_BUFFER};

const IMPORT_KEY: Operation = Operation::ImportKey {
    name: b"a",
    data: &[0xAA, 0xBB],
    bits: 2_048,
    export_allowed: true,
    verify_allowed: false,
};

const VERIFY_SIGNATURE: Operation = Operation::VerifySignature {
    name: b"a",
    hash: &[0x11; 32],
    signature: &[0xCC, 0xDD],
};

const OPERATIONS: [Operation; 7] = [
    Operation::Ping,
    Operation::ListProviders,
    Operation::ListOpcodes { provider: 1 },
    IMPORT_KEY,
    Operation::DestroyKey { name: b"a" },
    Operation::ExportPublicKey { name: b"a" },
    VERIFY_SIGNATURE,
];

/// The request as it is written, the same over any bytes; those past it stay.
fn written(operation: &Operation, session: u64, application: Option<&[u8]>) -> Vec<u8> {
    let over = |filler: u8| {
        let mut buffer = vec![filler; MIN_REQUEST_BUFFER];
        let length = write_request(
            &mut buffer,
            session,
            Formats::PROTOBUF,
            application,
            operation,
        )
        .expect("a good request");
        assert_eq!(
            buffer[length..],
            vec![filler; MIN_REQUEST_BUFFER - length],
            "bytes past the request stay"
        );
        buffer.truncate(length);
        buffer
    };
    assert_eq!(over(0x00), over(0xFF));
    over(0x55)
}

/// The body of a request that nobody sends.
fn body_of(operation: &Operation) -> Vec<u8> {
    let request = written(operation, 0, None);
    assert_eq!(request[20..24], (request.len() as u32 - 28).to_le_bytes());
    request[28..].to_vec()
}

fn refusal_of(
    length: usize,
    application: Option<&[u8]>,
    operation: &Operation,
) -> Option<WriteRefusal> {
    let mut buffer = vec![0x55; length];
    let answer = write_request(&mut buffer, 7, Formats::PROTOBUF, application, operation);
    if answer.is_err() {
        assert_eq!(buffer, vec![0x55; length], "a refusal writes nothing");
    }
    answer.err()
}

/// The refusal of an operation from an application, with room enough.
fn refusal(operation: &Operation) -> Option<WriteRefusal> {
    refusal_of(MIN_REQUEST_BUFFER, Some(FIRST), operation)
}

fn with_name(name: &[u8]) -> [Operation<'_>; 4] {
    [
        Operation::ImportKey {
            name,
            data: &[1],
            bits: 2_048,
            export_allowed: false,
            verify_allowed: false,
        },
        Operation::DestroyKey { name },
        Operation::ExportPublicKey { name },
        verify_of(name, &[0; 32], &[]),
    ]
}

fn import_of(data: &[u8], bits: u32) -> Operation<'_> {
    Operation::ImportKey {
        name: b"a",
        data,
        bits,
        export_allowed: false,
        verify_allowed: false,
    }
}

fn verify_of<'a>(name: &'a [u8], hash: &'a [u8], signature: &'a [u8]) -> Operation<'a> {
    Operation::VerifySignature {
        name,
        hash,
        signature,
    }
}

#[test]
fn the_ping_request_is_the_papers() {
    assert_eq!(written(&Operation::Ping, 0, None), PING_REQUEST);
}

#[test]
fn the_import_body_is_the_papers() {
    let paper = [
        0x0A, 0x01, 0x61, 0x12, 0x02, 0xAA, 0xBB, 0x18, 0x80, 0x10, 0x20, 0x01,
    ];
    assert_eq!(body_of(&IMPORT_KEY), paper);
}

#[test]
fn the_bytes_of_an_export_from_an_application() {
    let operation = Operation::ExportPublicKey { name: b"ab" };
    let expected = [
        &[0x10, 0xA7, 0xC0, 0x5E, 22, 0, 1, 0, 1][..],
        &[0x08, 0x07, 0x06, 0x05, 0x04, 0x03, 0x02, 0x01],
        &[1, 1, 1, 4, 0, 0, 0, 3, 0, 7, 0],
        &[0x0A, 2, b'a', b'b'],
        b"xyz",
    ]
    .concat();
    let session = 0x0102_0304_0506_0708;
    assert_eq!(written(&operation, session, Some(b"xyz")), expected);
}

#[test]
fn opcode_and_provider_are_the_operations() {
    let listed = [(1, 0), (8, 0), (9, 0), (6, 1), (3, 1), (7, 1), (5, 1)];
    for (operation, (opcode, provider)) in OPERATIONS.iter().zip(listed) {
        let request = written(operation, 5, Some(FIRST));
        assert_eq!(request[26..28], [opcode, 0]);
        assert_eq!(request[8], provider);
        assert_eq!(operation.opcode().number(), u16::from(opcode));
    }
}

#[test]
fn auth_type_is_1_with_the_name_behind_the_body_or_0_with_none() {
    for operation in OPERATIONS {
        let by_nobody = written(&operation, 5, None);
        let by_application = written(&operation, 5, Some(FIRST));
        let mut expected = [&by_nobody[..], FIRST].concat();
        expected[19] = 1;
        expected[24] = FIRST.len() as u8;
        assert_eq!(by_nobody[19], 0);
        assert_eq!(by_nobody[24..26], [0, 0]);
        assert_eq!(by_application, expected);
    }
}

#[test]
fn keystore_requests_by_nobody_are_written() {
    for operation in &OPERATIONS[3..] {
        assert_eq!(refusal_of(MIN_REQUEST_BUFFER, None, operation), None);
    }
}

#[test]
fn list_opcodes_of_any_provider_is_written_with_the_shortest_varint() {
    let body = |provider| body_of(&Operation::ListOpcodes { provider });
    assert_eq!(body(0), []);
    assert_eq!(body(1), [0x08, 0x01]);
    assert_eq!(body(127), [0x08, 0x7F]);
    assert_eq!(body(128), [0x08, 0x80, 0x01]);
    assert_eq!(body(u32::MAX), [0x08, 0xFF, 0xFF, 0xFF, 0xFF, 0x0F]);
}

#[test]
fn operations_without_input_have_an_empty_body() {
    assert_eq!(body_of(&Operation::Ping), []);
    assert_eq!(body_of(&Operation::ListProviders), []);
}

#[test]
fn a_flag_that_is_not_set_is_left_out() {
    let flags = |export_allowed, verify_allowed| {
        let body = body_of(&Operation::ImportKey {
            name: b"a",
            data: &[0],
            bits: 2_048,
            export_allowed,
            verify_allowed,
        });
        assert_eq!(
            body[..9],
            [0x0A, 1, b'a', 0x12, 1, 0x00, 0x18, 0x80, 0x10],
            "data of one zero byte is no zero value"
        );
        body[9..].to_vec()
    };
    assert_eq!(flags(false, false), []);
    assert_eq!(flags(true, false), [0x20, 1]);
    assert_eq!(flags(false, true), [0x28, 1]);
    assert_eq!(flags(true, true), [0x20, 1, 0x28, 1]);
}

#[test]
fn a_length_above_127_takes_two_bytes() {
    let data = [0x77; 128];
    let body = body_of(&import_of(&data, 2_048));
    assert_eq!(body[3..6], [0x12, 0x80, 0x01]);
    assert_eq!(body[6..134], data);
    let body = body_of(&import_of(&data[..127], 2_048));
    assert_eq!(body[3..6], [0x12, 0x7F, 0x77]);
}

/// C and A stay far within the service's bounds, so that no request is oversized.
#[test]
fn the_longest_request_has_a_body_of_644_bytes_and_736_in_all() {
    let longest = Operation::ImportKey {
        name: &[b'~'; 32],
        data: &[0xFF; 600],
        bits: 4_096,
        export_allowed: true,
        verify_allowed: true,
    };
    assert_eq!(body_of(&longest).len(), 644);
    let request = written(&longest, u64::MAX, Some(&[b'!'; 64]));
    assert_eq!(request.len(), 28 + 644 + 64);
}

#[test]
fn a_buffer_of_5120_bytes_is_enough_and_5119_are_not() {
    for operation in OPERATIONS {
        for application in [None, Some(FIRST)] {
            let refusal = |length| refusal_of(length, application, &operation);
            for length in [0, 28, 5_119] {
                assert_eq!(refusal(length), Some(WriteRefusal::BufferTooSmall));
            }
            assert_eq!(refusal(5_120), None);
            assert_eq!(refusal(5_121), None);
        }
    }
}

#[test]
fn an_application_name_has_1_to_64_bytes() {
    for operation in OPERATIONS {
        let refusal = |length| {
            let name = vec![b'n'; length];
            refusal_of(MIN_REQUEST_BUFFER, Some(&name), &operation)
        };
        for length in [0, 65, 256, 65_536 + 1] {
            assert_eq!(refusal(length), Some(WriteRefusal::BadApplicationName));
        }
        assert_eq!(refusal(1), None);
        assert_eq!(refusal(64), None);
    }
}

#[test]
fn each_byte_of_an_application_name_is_0x21_to_0x7e() {
    for place in [0, 1, 63] {
        for byte in 0..=255 {
            let mut name = [b'n'; 64];
            name[place] = byte;
            let bad = !(0x21..=0x7E).contains(&byte);
            assert_eq!(
                refusal_of(MIN_REQUEST_BUFFER, Some(&name), &Operation::Ping),
                bad.then_some(WriteRefusal::BadApplicationName)
            );
        }
    }
}

#[test]
fn a_key_name_has_1_to_32_bytes() {
    for length in [0, 33, 64, 256 + 1] {
        for operation in with_name(&vec![b'k'; length]) {
            assert_eq!(refusal(&operation), Some(WriteRefusal::BadKeyName));
        }
    }
    for length in [1, 32] {
        for operation in with_name(&vec![b'k'; length]) {
            assert_eq!(refusal(&operation), None);
        }
    }
}

#[test]
fn each_byte_of_a_key_name_is_0x21_to_0x7e() {
    for place in [0, 1, 31] {
        for byte in 0..=255 {
            let mut name = [b'k'; 32];
            name[place] = byte;
            let bad = !(0x21..=0x7E).contains(&byte);
            for operation in with_name(&name) {
                assert_eq!(refusal(&operation), bad.then_some(WriteRefusal::BadKeyName));
            }
        }
    }
}

#[test]
fn data_has_1_to_600_bytes() {
    for length in [0, 601, 65_536 + 1] {
        let data = vec![0; length];
        assert_eq!(
            refusal(&import_of(&data, 2_048)),
            Some(WriteRefusal::BadData)
        );
    }
    for length in [1, 600] {
        assert_eq!(refusal(&import_of(&vec![0; length], 2_048)), None);
    }
}

/// Document 02, "No more odd key lengths".
#[test]
fn bits_are_2048_3072_or_4096() {
    for bits in (0..=5_000).chain([65_536 + 2_048, u32::MAX]) {
        let expected = match bits {
            2_048 | 3_072 | 4_096 => None,
            _ => Some(WriteRefusal::BadBits),
        };
        assert_eq!(refusal(&import_of(&[1], bits)), expected, "{bits}");
    }
}

#[test]
fn a_hash_has_32_bytes() {
    for length in [0, 1, 31, 33, 64, 5_000, 65_536 + 32] {
        let hash = vec![0; length];
        let operation = verify_of(b"a", &hash, &[1]);
        assert_eq!(refusal(&operation), Some(WriteRefusal::BadHash));
    }
    assert_eq!(refusal(&verify_of(b"a", &[0; 32], &[1])), None);
}

#[test]
fn a_verify_body_has_at_most_4096_bytes() {
    // 3 bytes of name, 34 of hash, and 3 before the signature.
    for (name_length, longest) in [(1, 4_056), (32, 4_025)] {
        let name = vec![b'k'; name_length];
        let length_of = |length| body_of(&verify_of(&name, &[0; 32], &vec![7; length])).len();
        assert_eq!(length_of(longest), 4_096);
        for length in [longest + 1, 4_096, 5_120, 65_536 + 1] {
            let signature = vec![7; length];
            let operation = verify_of(&name, &[0; 32], &signature);
            assert_eq!(refusal(&operation), Some(WriteRefusal::BodyTooLong));
        }
    }
}

#[test]
fn an_empty_signature_is_left_out_and_any_other_is_written() {
    let body = |signature| body_of(&verify_of(b"a", &[9; 32], signature));
    let beginning = [&[0x0A, 1, b'a', 0x12, 32][..], &[9; 32]].concat();
    assert_eq!(body(&[]), beginning);
    assert_eq!(body(&[0]), [&beginning[..], &[0x1A, 1, 0]].concat());
    let long = [&[0x1A, 0x80, 0x02][..], &[5; 256]].concat();
    assert_eq!(body(&[5; 256]), [beginning, long].concat());
}

/// All that an operation can be refused for, in the order of judgement.
const REFUSALS: [WriteRefusal; 7] = [
    WriteRefusal::BufferTooSmall,
    WriteRefusal::BadApplicationName,
    WriteRefusal::BadKeyName,
    WriteRefusal::BadData,
    WriteRefusal::BadBits,
    WriteRefusal::BadHash,
    WriteRefusal::BodyTooLong,
];

/// Any set of faults at once, so each two in either order; an operation has only some of them.
#[test]
fn of_several_faults_the_first_of_the_order_is_said() {
    for faults in 0..1 << REFUSALS.len() {
        let has = |fault: WriteRefusal| {
            let place = REFUSALS.iter().position(|&other| other == fault);
            faults >> place.expect("a fault of the order") & 1 == 1
        };
        let first_of = |refusals: &[WriteRefusal]| refusals.iter().copied().find(|&r| has(r));
        let length = MIN_REQUEST_BUFFER - usize::from(has(WriteRefusal::BufferTooSmall));
        let bad_application = has(WriteRefusal::BadApplicationName);
        let application = bad_application.then_some(&b"a b"[..]);
        let bad_key_name = has(WriteRefusal::BadKeyName);
        let name: &[u8] = if bad_key_name { b"" } else { b"a" };
        let bad_data = has(WriteRefusal::BadData);
        let import = Operation::ImportKey {
            name,
            data: if bad_data { &[] } else { &[1] },
            bits: 2_048 + u32::from(has(WriteRefusal::BadBits)),
            export_allowed: true,
            verify_allowed: true,
        };
        let bad_hash = has(WriteRefusal::BadHash);
        let verify = Operation::VerifySignature {
            name,
            hash: &[1; 33][..32 + usize::from(bad_hash)],
            signature: if has(WriteRefusal::BodyTooLong) {
                &[2; 4_096]
            } else {
                &[2; 256]
            },
        };
        let verify_refusals = [&REFUSALS[..3], &REFUSALS[5..]].concat();
        let cases = [
            (import, &REFUSALS[..5]),
            (verify, &verify_refusals),
            (Operation::DestroyKey { name }, &REFUSALS[..3]),
            (Operation::ExportPublicKey { name }, &REFUSALS[..3]),
            (Operation::ListOpcodes { provider: 2 }, &REFUSALS[..2]),
            (Operation::ListProviders, &REFUSALS[..2]),
            (Operation::Ping, &REFUSALS[..2]),
        ];
        for (operation, refusals) in cases {
            assert_eq!(
                refusal_of(length, application, &operation),
                first_of(refusals),
                "{operation:?} with faults {faults:07b}"
            );
        }
    }
}

/// The bytes that the tests' own builder of requests gives.
fn built(operation: &Operation, session: u64, application: Option<&[u8]>) -> Vec<u8> {
    let named = |name: &[u8]| Body::new().field(1, name).bytes();
    let request = match *operation {
        Operation::Ping => ping(),
        Operation::ListProviders => list_providers(),
        Operation::ListOpcodes { provider: 0 } => Request::new(0, LIST_OPCODES, Vec::new()),
        Operation::ListOpcodes { provider } => list_opcodes(provider.into()),
        Operation::DestroyKey { name } => Request::new(1, DESTROY, named(name)),
        Operation::ExportPublicKey { name } => Request::new(1, EXPORT, named(name)),
        Operation::VerifySignature {
            name,
            hash,
            signature,
        } => {
            let body = Body::new().field(1, name).field(2, hash);
            Request::new(1, VERIFY, body.field(3, signature).bytes())
        }
        Operation::ImportKey {
            name,
            data,
            bits,
            export_allowed,
            verify_allowed,
        } => {
            let flag = |body: Body, number, flag| match flag {
                true => body.varint(number, 1),
                false => body,
            };
            let body = Body::new().field(1, name).field(2, data);
            let body = body.varint(3, bits.into());
            let body = flag(flag(body, 4, export_allowed), 5, verify_allowed);
            Request::new(1, IMPORT, body.bytes())
        }
    };
    let request = Request { session, ..request };
    match application {
        Some(name) => request.sent_by(name).bytes(),
        None => request.bytes(),
    }
}

#[test]
fn generated_requests_are_those_of_another_builder() {
    let visible = |random: &mut Random, longest: usize| -> Vec<u8> {
        let length = 1 + random.below(longest);
        (0..length).map(|_| 0x21 + random.below(94) as u8).collect()
    };
    let random = &mut Random::new(1);
    for _ in 0..5_000 {
        let name = visible(random, 32);
        let length = 1 + random.below(600);
        let data = random.bytes(length);
        let hash = random.bytes(32);
        let operation = match random.below(10) {
            0 => Operation::Ping,
            1 => Operation::ListProviders,
            2 => Operation::ListOpcodes {
                provider: random.next() as u32 >> random.below(32),
            },
            3 => Operation::DestroyKey { name: &name },
            4 => Operation::ExportPublicKey { name: &name },
            5 | 6 => verify_of(&name, &hash, &data),
            _ => Operation::ImportKey {
                name: &name,
                data: &data,
                bits: random.pick(&[2_048, 3_072, 4_096]),
                export_allowed: random.once_in(2),
                verify_allowed: random.once_in(2),
            },
        };
        let session = random.next();
        let application = visible(random, 64);
        let application = random.once_in(2).then_some(&application[..]);
        assert_eq!(
            written(&operation, session, application),
            built(&operation, session, application)
        );
    }
}

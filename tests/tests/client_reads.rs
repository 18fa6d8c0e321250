//! Responses that the compiled client reads against the reference's, however they are cut: what is
//! said, how much is taken, and all of the state's memory after each call. Document 02, "The
//! client's half".

use razidkot::Status;
use razidkot_tests::ask::*;
use razidkot_tests::client_asked::{each_with_each, SESSIONS};
use razidkot_tests::client_program::*;
use razidkot_tests::client_reached::{orders, Reached};
use razidkot_tests::client_responses::*;
use razidkot_tests::client_states::{hand_over, Awaited, LONGEST_RESPONSE};
use razidkot_tests::generate::{long_varint, mutated, Random};
use razidkot_tests::run::for_seeds;
use reference::Output;

const SESSION: u64 = 0x0102_0304_0506_0708;

fn awaited(opcode: u16) -> Awaited {
    Awaited::protobuf(opcode, SESSION)
}

#[test]
fn generated_responses_are_read_alike_at_every_cut() {
    let mut reached = Reached::default();
    for_seeds(10_000, |random| {
        let awaited = some_awaited(random);
        let mut bytes = some_response(random, awaited);
        match random.below(8) {
            0 => bytes.truncate(random.below(bytes.len() + 1)),
            1 => bytes = mutated(random, bytes),
            2 => {
                let behind = random.pick(&[1, 26, 80]);
                bytes.extend(random.bytes(behind));
            }
            3 => with_fault(random, &mut bytes, NOT_ITS_REQUESTS),
            _ => {}
        }
        reached.compare_cut(random, awaited, &bytes);
    });
    for opcode in OPCODES {
        longest_responses(awaited(opcode), |bytes| {
            reached.compare(awaited(opcode), bytes, &[1]);
        });
        status_17_responses(|bytes| reached.compare(awaited(opcode), bytes, &[7]));
        for session in SESSIONS {
            let awaited = Awaited {
                opcode,
                session,
                accept_type: 1 + (session % 2) as u8,
            };
            for status in Status::REFUSED {
                let bytes = response(awaited, status.number(), &[]);
                reached.compare(awaited, &bytes, &[25, 0, 1]);
            }
        }
    }
    reached.assert_all(5);
    reached.assert_cuts();
}

/// Responses with content of 998 bytes, and one with 999.
fn longest_responses(awaited: Awaited, mut compare: impl FnMut(&[u8])) {
    let random = &mut Random::new(awaited.opcode.into());
    let entries = placed_field(1, &[0x05; LONGEST_FIELD]);
    let versions = b"\x08\x01".repeat(LONGEST_CONTENT / 2);
    for body in [entries, versions, random.bytes(LONGEST_CONTENT)] {
        assert_eq!(body.len(), LONGEST_CONTENT);
        compare(&response(awaited, 0, &body));
        compare(&response(awaited, 1_140, &body));
        compare(&response(awaited, 0, &[&body[..], &[0]].concat()));
    }
}

/// With provider, session and opcode zero, and without content or with some.
fn status_17_responses(mut compare: impl FnMut(&[u8])) {
    for body in [
        &[][..],
        &[0],
        &[0x0A, 0],
        &[0; LONGEST_CONTENT],
        &[0; LONGEST_CONTENT + 1],
    ] {
        compare(&invalid_header(body));
    }
}

#[test]
fn two_faults_at_once_are_refused_as_the_first() {
    let mut reached = Reached::default();
    for_seeds(12, |random| {
        let alone = REFUSALS.map(|refusal| (refusal, refusal));
        let faults = [&orders()[..], &alone].concat();
        for (opcode, (first, second)) in each_with_each(&OPCODES, &faults) {
            let awaited = Awaited {
                opcode,
                ..some_awaited(random)
            };
            let bytes = with_faults(random, awaited, first, second);
            reached.compare_cut(random, awaited, &bytes);
        }
    });
    reached.assert_orders(2);
}

/// A good response with both faults, the later one put in first.
fn with_faults(random: &mut Random, awaited: Awaited, first: u32, second: u32) -> Vec<u8> {
    let body = good_body(random, awaited, 20);
    let mut bytes = response(awaited, 0, &body);
    let second = (second != first).then_some(second);
    for fault in second.into_iter().chain([first]) {
        with_fault(random, &mut bytes, fault);
    }
    bytes
}

#[test]
fn a_response_with_any_byte_changed_is_read_alike_at_every_cut() {
    let mut reached = Reached::default();
    for_seeds(1, |random| {
        for (opcode, status, body) in small_responses() {
            let awaited = awaited(opcode);
            // Bytes behind it, so that other lengths find a body too.
            let good = [response(awaited, status, &body), vec![0x0A; 16]].concat();
            for bit in 0..8 * good.len() {
                let mut bytes = good.clone();
                bytes[bit / 8] ^= 1 << (bit % 8);
                reached.compare_cut(random, awaited, &bytes);
            }
        }
    });
    reached.assert_refusals(1);
}

/// A response nearly as long as may be, its list one of varints of ten bytes.
#[test]
fn a_long_response_with_any_byte_changed_is_read_alike_at_every_cut() {
    let mut reached = Reached::default();
    let entry = long_varint(0x8123_4567_89AB_CDEF, 10);
    let body = placed_field(1, &entry.repeat(LONGEST_FIELD / 10));
    for_seeds(1, |random| {
        for place in 0..BODY_AT + body.len() {
            let opcodes = [EXPORT, EXPORT, EXPORT, LIST_OPCODES, LIST_PROVIDERS];
            let awaited = awaited(random.pick(&opcodes));
            let mut bytes = response(awaited, 0, &body);
            bytes[place] ^= 1 << random.below(8);
            reached.compare_cut(random, awaited, &bytes);
        }
    });
    let expected = ["data", "opcodes", "providers"];
    reached.outcomes.assert_often(&expected, 20);
}

/// A response with each output, and with none.
fn small_responses() -> Vec<(u16, u16, Vec<u8>)> {
    vec![
        (PING, 0, b"\x08\x01\x10\x80\x01".to_vec()),
        (LIST_PROVIDERS, 0, b"\x0A\x02\x00\x01".to_vec()),
        (LIST_OPCODES, 0, b"\x0A\x03\x03\x86\x00".to_vec()),
        (IMPORT, 0, Vec::new()),
        (DESTROY, 1_140, Vec::new()),
        (VERIFY, 0, Vec::new()),
        (VERIFY, 1_149, Vec::new()),
        (EXPORT, 0, b"\x0A\x03key".to_vec()),
        (EXPORT, 1_133, Vec::new()),
        (PING, 17, Vec::new()),
    ]
}

#[test]
fn a_response_cut_or_lengthened_anywhere_is_read_alike() {
    let mut reached = Reached::default();
    for_seeds(1, |random| {
        for (opcode, status, body) in small_responses() {
            let awaited = awaited(opcode);
            let good = response(awaited, status, &body);
            for length in 0..=good.len() {
                reached.compare_cut(random, awaited, &good[..length]);
            }
            for behind in [1, 2, 26, 1_024, 70_000] {
                let bytes = [&good[..], &random.bytes(behind)].concat();
                reached.compare_cut(random, awaited, &bytes);
            }
            for place in 0..=body.len() {
                let mut longer = body.clone();
                longer.insert(place, random.byte());
                reached.compare_cut(random, awaited, &response(awaited, status, &longer));
            }
        }
    });
    let others = ["waiting at the end", "bytes behind"];
    reached.outcomes.assert_often(&others, 8);
}

/// What both say of a good header and this body, uncut.
fn read(opcode: u16, status: u16, body: &[u8]) -> Said {
    let bytes = response(awaited(opcode), status, body);
    let said = hand_over(awaited(opcode), &[&bytes]).expect("no difference");
    said[0].clone()
}

fn is_unreadable(opcode: u16, body: &[u8]) -> bool {
    read(opcode, 0, body).code == UNREADABLE_BODY
}

#[test]
fn a_list_is_read_packed_only_and_the_last_one_counts() {
    let lists: [(&[u8], &[u32]); 10] = [
        (b"", &[]),
        (b"\x0A\x00", &[]),
        (b"\x0A\x02\x00\x01", &[0, 1]),
        (b"\x0A\x01\x05\x0A\x02\x06\x07", &[6, 7]),
        (b"\x0A\x01\x05\x0A\x00", &[]),
        (b"\x0A\x06\xFF\xFF\xFF\xFF\xFF\x01", &[u32::MAX]),
        // Entries that are not packed have another wire type, and are skipped as unlisted fields are.
        (b"\x08\x05", &[]),
        (b"\x08\x05\x0A\x01\x06", &[6]),
        (b"\x0A\x01\x05\x08\x06", &[5]),
        (b"\x0A\x01\x05\x12\x00", &[5]),
    ];
    for (body, entries) in lists {
        let entries = entries.to_vec();
        let providers = read(LIST_PROVIDERS, 0, body).output;
        assert_eq!(providers, Output::Providers(entries.clone()));
        assert_eq!(read(LIST_OPCODES, 0, body).output, Output::Opcodes(entries));
    }
    let unreadable: [&[u8]; 5] = [
        b"\x08\x85",
        b"\x0A\x01\x80",
        b"\x0A\x01\x80\x0A\x01\x05",
        b"\x0A\x01\x05\x0A\x01\x80",
        b"\x0A\x0A\x80\x80\x80\x80\x80\x80\x80\x80\x80\x02",
    ];
    for body in unreadable {
        assert!(is_unreadable(LIST_PROVIDERS, body), "{body:02X?}");
        assert!(is_unreadable(LIST_OPCODES, body), "{body:02X?}");
    }
}

#[test]
fn data_of_any_length_that_content_allows_is_read() {
    let mut reached = Reached::default();
    for length in 0..=LONGEST_FIELD {
        let data: Vec<_> = (0..length).map(|place| place as u8).collect();
        let body = placed_field(1, &data);
        assert_eq!(read(EXPORT, 0, &body).output, Output::Data(data));
        let bytes = response(awaited(EXPORT), 0, &body);
        reached.compare(awaited(EXPORT), &bytes, &[1, 0, 200]);
    }
}

#[test]
fn a_status_7_body_has_an_offset() {
    let long = [vec![0x08], long_varint(9, 10)].concat();
    let rows: [(&[u8], u32); 8] = [
        (b"", 0),
        (b"\x08\x00", 0),
        (b"\x08\x0C", 12),
        (b"\x08\xFF\xFF\xFF\xFF\x1F", u32::MAX),
        (&long, 9),
        // The last counts.
        (b"\x08\x05\x08\x06", 6),
        (b"\x08\x05\x08\x00", 0),
        // Skipped: an unlisted number, another wire type, a group.
        (b"\x10\x07\x08\x05\x0A\x01\xFF\x0B\x08\x09\x0C", 5),
    ];
    let mut reached = Reached::default();
    for opcode in OPCODES {
        for (body, offset) in rows {
            let said = read(opcode, 7, body);
            assert_eq!((said.code, said.status), (RESPONSE, 7));
            assert_eq!(said.output, Output::Offset(offset), "{body:02X?}");
            let bytes = response(awaited(opcode), 7, body);
            reached.compare(awaited(opcode), &bytes, &[1, 9]);
            for length in 1..body.len() {
                let bytes = response(awaited(opcode), 7, &body[..length]);
                reached.compare(awaited(opcode), &bytes, &[1]);
            }
        }
        for tag in BAD_TAGS {
            let said = read(opcode, 7, &[0x08, 0x05, tag]);
            assert_eq!((said.code, said.taken), (UNREADABLE_BODY, BODY_AT + 3));
        }
    }
}

#[test]
fn any_body_on_a_status_other_than_0_and_7_is_unreadable() {
    for status in (1..=u16::MAX).step_by(7).chain([6, 9, 17, 1_135, 1_149]) {
        for opcode in OPCODES {
            let empty = read(opcode, status, &[]);
            assert_eq!((empty.code, empty.status), (RESPONSE, status.into()));
            assert_eq!(empty.output, Output::Nothing);
            let body = read(opcode, status, b"\x0A\x00");
            assert_eq!((body.code, body.taken), (UNREADABLE_BODY, BODY_AT + 2));
        }
    }
}

#[test]
fn status_17_with_all_three_zero_and_no_content_is_read_for_any_request() {
    for opcode in OPCODES {
        let read = |bytes: &[u8]| {
            let said = hand_over(awaited(opcode), &[bytes]).expect("no difference");
            (said[0].code, said[0].status, said[0].taken)
        };
        assert_eq!(read(&invalid_header(&[])), (RESPONSE, 17, BODY_AT));
        assert_eq!(read(&invalid_header(&[0])), (NOT_ITS_REQUESTS, 0, BODY_AT));
        let too_long = invalid_header(&[0; LONGEST_CONTENT + 1]);
        assert_eq!(read(&too_long), (NOT_ITS_REQUESTS, 0, BODY_AT));
        for (place, code) in [
            (0, WRONG_MAGIC),
            (H_AT, WRONG_HEADER_SIZE),
            (MINOR_AT, WRONG_VERSION),
            (CONTENT_TYPE_AT, WRONG_CONTENT_TYPE),
            (PROVIDER_AT, NOT_ITS_REQUESTS),
            (SESSION_AT, NOT_ITS_REQUESTS),
            (OPCODE_AT, NOT_ITS_REQUESTS),
            (STATUS_AT, NOT_ITS_REQUESTS),
        ] {
            let mut bytes = invalid_header(&[]);
            bytes[place] ^= 0x80;
            assert_eq!(read(&bytes).0, code, "{place}");
        }
    }
}

#[test]
fn a_byte_that_brings_a_refusal_is_taken_and_none_behind_it() {
    let longest = vec![0; LONGEST_CONTENT];
    let bytes = response(awaited(EXPORT), 1, &longest);
    let said = hand_over(awaited(EXPORT), &[&bytes, &bytes]).expect("no difference");
    assert_eq!(
        (said[0].code, said[0].taken),
        (UNREADABLE_BODY, LONGEST_RESPONSE)
    );
    assert_eq!((said[1].code, said[1].taken), (UNREADABLE_BODY, 0));
}

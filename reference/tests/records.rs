//! The record of a call: what it says, which calls have one, and what of its buffer stays.
//! Document 02, "Surviving a power cut"; the layout is the one set down in docs/.

mod common;

use common::generate::{self, Random};
use common::journal::*;
use common::vectors::blocks;
use common::*;
use reference::{Refusal, Status, Taken, LONGEST_RECORD, MIN_JOURNAL_BUFFER};

const FILLED: u8 = 0x77;

/// The status of a request and the record of the call that took its last byte; past the record, and
/// where there is none, the journal's buffer stays.
fn recorded(service: &mut Service, request: &[u8]) -> (u16, Vec<u8>) {
    service.journal.fill(FILLED);
    let taken = service.call(request).expect("a call that is taken");
    assert_eq!(taken.taken, request.len());
    let (record, past) = service.journal.split_at(taken.recorded);
    assert!(past.iter().all(|&byte| byte == FILLED), "bytes past stay");
    let status = Response::read(&service.response[..taken.written]).status;
    (status, record.to_vec())
}

fn expect_record(service: &mut Service, request: &Request, record: &[u8]) {
    assert_eq!(
        recorded(service, &request.bytes()),
        (0, record.to_vec()),
        "{request:?}"
    );
}

fn expect_no_record(service: &mut Service, request: &Request, status: Status) {
    let expected = (status.number(), Vec::new());
    assert_eq!(recorded(service, &request.bytes()), expected, "{request:?}");
}

// "Append each served import and destroy to a journal."

#[test]
fn a_served_import_hands_out_tag_2_line_and_fields_and_a_crc() {
    let body = vec![
        0x0A, 0x01, 0x61, 0x12, 0x02, 0xAA, 0xBB, 0x18, 0x80, 0x10, 0x20, 0x01,
    ];
    let record = [
        0x02, 0x09, 0x00, 0x00, 0x00, 0x08, 0x01, 0x00, 0x01, 0x61, 0xAA, 0xBB, 0xA2, 0x03, 0xE2,
        0xED,
    ];
    expect_record(&mut Service::new(), &keystore(IMPORT, body), &record);
}

#[test]
fn a_served_destroy_hands_out_tag_3_line_and_name_and_a_crc() {
    let record = [0x03, 0x02, 0x00, 0x00, 0x61, 0x88, 0x14, 0x3E, 0x11];
    expect_record(&mut Service::with_keys(&[b"a"]), &destroy(b"a"), &record);
}

#[test]
fn a_record_has_the_line_of_its_application() {
    let names: [&[u8]; 8] = [b"0", b"1", b"2", b"3", b"4", b"5", b"6", b"7"];
    let mut service = Service::with_roster(&names);
    for (line, name) in (0..).zip(names) {
        let request = import(&key(b"a")).sent_by(name);
        expect_record(&mut service, &request, &import_record(line, &key(b"a")));
        let request = destroy(b"a").sent_by(name);
        expect_record(&mut service, &request, &destroy_record(line, b"a"));
    }
}

#[test]
fn each_flag_has_a_byte_of_its_own() {
    for (export_allowed, verify_allowed) in [(false, false), (false, true), (true, false)] {
        let key = Key {
            export_allowed,
            verify_allowed,
            ..key(b"a")
        };
        let record = import_record(0, &key);
        assert_eq!(record[6..8], [export_allowed.into(), verify_allowed.into()]);
        expect_record(&mut Service::new(), &import(&key), &record);
    }
}

#[test]
fn any_true_flag_is_kept_as_1() {
    let body = key(b"a").body();
    for value in [1, 2, 255, 256, 1 << 40, u64::MAX] {
        let flags = Body::new().raw(&body).varint(4, value).varint(5, value);
        let key = Key {
            verify_allowed: true,
            ..key(b"a")
        };
        let request = keystore(IMPORT, flags.bytes());
        expect_record(&mut Service::new(), &request, &import_record(0, &key));
    }
}

#[test]
fn a_record_has_the_fields_as_import_reads_them() {
    let body = Body::new()
        .varint(3, 1 << 32 | 3_072)
        .field(1, b"earlier")
        .varint(9, 9)
        .field(2, b"earlier")
        .field(1, b"last")
        .field(2, b"data");
    let key = Key {
        name: b"last".to_vec(),
        data: b"data".to_vec(),
        bits: 3_072,
        export_allowed: false,
        verify_allowed: false,
    };
    let request = keystore(IMPORT, body.bytes());
    expect_record(&mut Service::new(), &request, &import_record(0, &key));
    let body = Body::new().field(1, b"earlier").field(1, b"last");
    let mut service = Service::with_keys(&[b"earlier", b"last"]);
    let request = keystore(DESTROY, body.bytes());
    expect_record(&mut service, &request, &destroy_record(0, b"last"));
}

#[test]
fn records_have_9_to_645_bytes() {
    assert_eq!(LONGEST_RECORD, 645);
    let sizes = [
        (1, 1, 15, 9),
        (32, 1, 46, 40),
        (1, 600, 614, 9),
        (32, 600, 645, 40),
    ];
    for (name, data, import_length, destroy_length) in sizes {
        let key = Key {
            data: vec![0xDD; data],
            ..key(&vec![b'n'; name])
        };
        let record = import_record(0, &key);
        assert_eq!(record.len(), import_length);
        let mut service = Service::new();
        expect_record(&mut service, &import(&key), &record);
        let record = destroy_record(0, &key.name);
        assert_eq!(record.len(), destroy_length);
        expect_record(&mut service, &destroy(&key.name), &record);
    }
}

#[test]
fn a_record_has_the_bits_that_were_imported() {
    for bits in IMPORTABLE_BITS {
        let key = Key { bits, ..key(b"a") };
        expect_record(&mut Service::new(), &import(&key), &import_record(0, &key));
    }
}

#[test]
fn an_own_key_of_a_listed_name_is_destroyed_with_a_record() {
    let list = lists::pair(b"a", b"listed");
    let mut service = Service::with_keys(&[b"a"]).with_list(&list);
    expect_record(&mut service, &destroy(b"a"), &destroy_record(0, b"a"));
    expect_no_record(&mut service, &destroy(b"a"), Status::PsaErrorNotPermitted);
}

// "with its length (0 for none)"

#[test]
fn a_refused_import_has_no_record() {
    let service = Service::with_keys(&EIGHT[..7]).with_list(&lists::pair(b"listed", b"data"));
    let with = |change: fn(&mut Key)| {
        let mut key = key(b"new");
        change(&mut key);
        import(&key)
    };
    let invalid = [
        with(|key| key.name.clear()),
        with(|key| key.name = vec![b'n'; 33]),
        with(|key| key.name = b"a b".to_vec()),
        with(|key| key.data.clear()),
        with(|key| key.data = vec![0; 601]),
    ];
    for request in invalid {
        expect_no_record(
            &mut service.clone(),
            &request,
            Status::PsaErrorInvalidArgument,
        );
    }
    let not_supported = [
        with(|key| key.bits = 1_016),
        with(|key| key.bits = 1_024),
        with(|key| key.bits = 1_028),
        with(|key| key.bits = 4_104),
    ];
    for request in not_supported {
        expect_no_record(&mut service.clone(), &request, Status::PsaErrorNotSupported);
    }
    for name in [&b"a"[..], b"listed"] {
        let request = import(&key(name));
        expect_no_record(
            &mut service.clone(),
            &request,
            Status::PsaErrorAlreadyExists,
        );
    }
    let mut full = service.clone();
    expect_record(
        &mut full,
        &import(&key(b"new")),
        &import_record(0, &key(b"new")),
    );
    expect_no_record(
        &mut full,
        &import(&key(b"ninth")),
        Status::PsaErrorInsufficientStorage,
    );
}

#[test]
fn a_refused_destroy_has_no_record() {
    let mut service = Service::with_keys(&[b"a"]).with_list(&lists::pair(b"listed", b"data"));
    let refused = [
        (destroy(b""), Status::PsaErrorInvalidArgument),
        (destroy(&[b'n'; 33]), Status::PsaErrorInvalidArgument),
        (destroy(b"listed"), Status::PsaErrorNotPermitted),
        (destroy(b"b"), Status::PsaErrorDoesNotExist),
        (destroy(b"a").sent_by(SECOND), Status::PsaErrorDoesNotExist),
    ];
    for (request, status) in refused {
        expect_no_record(&mut service, &request, status);
    }
}

/// What is changed in a keystore request, and the status that it is then refused with.
type Damage = (fn(&mut Request), Status);

const DAMAGES: [Damage; 12] = [
    (
        |request| request.minor = 1,
        Status::WireProtocolVersionNotSupported,
    ),
    (
        |request| request.content_type = 0,
        Status::ContentTypeNotSupported,
    ),
    (
        |request| request.accept_type = 0,
        Status::AcceptTypeNotSupported,
    ),
    (|request| request.opcode = 4, Status::OpcodeDoesNotExist),
    (|request| request.provider = 2, Status::ProviderDoesNotExist),
    (|request| request.provider = 0, Status::WrongProviderID),
    (
        |request| request.auth_type = 2,
        Status::AuthenticatorDoesNotExist,
    ),
    (
        |request| request.auth = b"x".to_vec(),
        Status::AuthenticationError,
    ),
    (
        |request| *request = request.clone().without_authentication(),
        Status::NotAuthenticated,
    ),
    (
        |request| request.body.push(0xFF),
        Status::DeserializingBodyFailed,
    ),
    (
        |request| request.auth = vec![b'a'; 257],
        Status::AuthenticationError,
    ),
    (
        |request| request.body = vec![0; 4_097],
        Status::BodySizeExceedsLimit,
    ),
];

#[test]
fn a_request_refused_before_its_operation_has_no_record() {
    for request in [import(&key(b"new")), destroy(b"a")] {
        for (damage, status) in DAMAGES {
            let mut request = request.clone();
            damage(&mut request);
            expect_no_record(&mut Service::with_keys(&[b"a"]), &request, status);
        }
    }
}

#[test]
fn a_wrong_start_has_no_record() {
    let mut service = Service::new();
    let expected = (Status::InvalidHeader.number(), Vec::new());
    assert_eq!(recorded(&mut service, &[0xFF; 6]), expected);
}

#[test]
fn served_exports_verifies_and_core_operations_have_no_record() {
    let blocks = blocks("signatures.txt");
    let block = blocks.iter().find(|block| block.title == "2048-3").unwrap();
    let key = Key {
        data: block.bytes("data"),
        bits: 2_048,
        verify_allowed: true,
        ..key(b"a")
    };
    let verify = verify(b"a", &block.bytes("hash"), &block.bytes("signature"));
    let mut service = Service::new();
    service.expect_status(&import(&key), Status::Success);
    for request in [
        export(b"a"),
        verify,
        ping(),
        ping().sent_by(FIRST),
        list_providers(),
        list_opcodes(0),
        list_opcodes(1).sent_by(SECOND),
    ] {
        expect_no_record(&mut service, &request, Status::Success);
    }
    assert_eq!(service.uses(0, 0), 2);
}

#[test]
fn the_call_that_takes_the_last_byte_has_the_record_and_no_call_before_it() {
    let key = key(b"a");
    for (request, record) in [
        (import(&key), import_record(0, &key)),
        (destroy(b"b"), destroy_record(0, b"b")),
    ] {
        let bytes = request.bytes();
        for cut in 1..bytes.len() {
            let mut service = Service::with_keys(&[b"b"]);
            service.journal.fill(FILLED);
            let before = service.journal.clone();
            let taken = service.call(&bytes[..cut]).unwrap();
            assert_eq!((taken.taken, taken.recorded), (cut, 0));
            assert_eq!(service.journal, before, "no response yet, nothing touched");
            assert_eq!(
                recorded(&mut service, &bytes[cut..]),
                (0, record.clone()),
                "cut at {cut}"
            );
        }
    }
}

#[test]
fn each_of_two_imports_in_one_chunk_has_its_record_in_a_call_of_its_own() {
    let [first, second] = [key(b"a"), key(b"b")];
    let chunk = [import(&first).bytes(), import(&second).bytes()].concat();
    let mut service = Service::new();
    let taken = service.call(&chunk).unwrap();
    let record = import_record(0, &first);
    assert_eq!(service.journal[..taken.recorded], record);
    let taken = service.call(&chunk[taken.taken..]).unwrap();
    let record = import_record(0, &second);
    assert_eq!(service.journal[..taken.recorded], record);
}

#[test]
fn an_empty_chunk_and_dropped_bytes_have_no_record() {
    let mut service = Service::new();
    service.send(&[0xFF; 6]);
    service.journal.fill(FILLED);
    for chunk in [Vec::new(), import(&key(b"a")).bytes()] {
        let expected = Taken {
            taken: chunk.len(),
            written: 0,
            recorded: 0,
        };
        assert_eq!(service.call(&chunk), Ok(expected));
        assert_eq!(service.journal, [FILLED; MIN_JOURNAL_BUFFER]);
    }
}

/// What changed between two registries, uses aside, as a record says it.
fn change_between(before: &[u8], after: &[u8]) -> Vec<u8> {
    let changed = places().filter_map(|(line, slot)| {
        let [before, after] = [before, after].map(|registry| key_in(registry, line, slot));
        match (before, after) {
            (None, Some(key)) => Some(import_record(line as u8, &key)),
            (Some(key), None) => Some(destroy_record(line as u8, &key.name)),
            _ => None,
        }
    });
    changed.flatten().collect()
}

/// Hands over a request in as many calls as it takes, each with the record that its change asks for.
fn expect_records_of_changes(service: &mut Service, request: &[u8]) -> Vec<u8> {
    let mut records = Vec::new();
    let mut rest = request;
    while !rest.is_empty() {
        let before = service.registry.clone();
        service.journal.fill(FILLED);
        let taken = service.call(rest).expect("a call that is taken");
        let (record, past) = service.journal.split_at(taken.recorded);
        assert_eq!(record, change_between(&before, &service.registry));
        assert!(past.iter().all(|&byte| byte == FILLED), "bytes past stay");
        records.extend(record);
        rest = &rest[taken.taken..];
    }
    records
}

#[test]
fn generated_requests_are_recorded_exactly_as_they_change_keys() {
    let mut tags = [0; 2];
    for seed in 0..2_000 {
        let random = &mut Random::new(seed);
        let names = generate::names(random);
        let roster: Vec<_> = names.iter().map(Vec::as_slice).collect();
        // The keys are from before there was a list, so that some have a listed name.
        let mut service = Service::with_roster(&roster);
        service.send(&generate::filling(random, &names).concat());
        let mut service = service.with_list(&generate::list(random));
        for request in generate::requests(random, &names, 16) {
            let records = expect_records_of_changes(&mut service, &request);
            if let Some(tag) = records.first() {
                tags[usize::from(tag - IMPORT_TAG)] += 1;
            }
        }
    }
    assert!(tags.iter().all(|&count| count > 100), "{tags:?}");
}

// "in a second buffer (below 1,024 bytes: C7, last of the refused calls" and "bytes past the record
// stay".

#[test]
fn a_small_journal_buffer_is_c7() {
    assert_eq!(MIN_JOURNAL_BUFFER, 1_024);
    for size in [0, 1, 9, 644, 645, 1_023] {
        let mut service = Service::with_keys(&[b"a"]);
        service.journal = vec![0x55; size];
        for request in [ping(), import(&key(b"b")), destroy(b"a"), export(b"a")] {
            service.expect_refusal(&request.bytes(), Refusal::JournalBufferTooSmall);
        }
    }
}

#[test]
fn a_journal_buffer_of_1024_bytes_or_more_is_enough() {
    for size in [1_024, 1_025, 5_000] {
        let longest = Key {
            data: vec![0xDD; 600],
            ..key(&[b'n'; 32])
        };
        let mut service = Service::new();
        service.journal = vec![0x55; size];
        let record = import_record(0, &longest);
        expect_record(&mut service, &import(&longest), &record);
    }
}

#[test]
fn c7_is_judged_whatever_the_connection_and_the_chunk() {
    let header = ping().header_with_lengths(4_097, 0);
    let request = import(&key(b"a")).bytes();
    let connections = [
        open_holding(&[]),
        open_holding(&request[..9]),
        skipping(&header, 1),
        closed(),
    ];
    for connection in connections {
        let mut service = Service::new();
        service.connection = connection;
        service.journal.truncate(1_023);
        for chunk in [&[][..], &[0xFF], &request, &request[9..]] {
            service.expect_refusal(chunk, Refusal::JournalBufferTooSmall);
        }
    }
}

#[test]
fn a_call_refused_with_c7_can_be_made_again_with_room() {
    let mut service = Service::new();
    let request = import(&key(b"a"));
    service.journal.truncate(1_023);
    service.expect_refusal(&request.bytes(), Refusal::JournalBufferTooSmall);
    service.journal.push(0x55);
    expect_record(&mut service, &request, &import_record(0, &key(b"a")));
}

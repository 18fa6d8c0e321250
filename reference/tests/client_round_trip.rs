//! Requests that the client writes, answered by the service, and the responses read back.
//! Document 02, "The client's half": what either writes, the other reads as the same.

mod common;

use common::client::{read_every_way, Client, OPCODES};
use common::generate::Random;
use common::vectors::{blocks, Block};
use common::*;
use reference::{
    rules, write_request, BodyFormat, Formats, Operation, Output, Reading, Status,
    MIN_REQUEST_BUFFER,
};

const SESSION: u64 = 0xFEDC_BA98_7654_3210;

/// What an application reads back.
type Answered = (u16, Output);

fn write(application: Option<&[u8]>, operation: &Operation) -> Vec<u8> {
    let mut buffer = vec![0x55; MIN_REQUEST_BUFFER];
    let written = write_request(
        &mut buffer,
        SESSION,
        Formats::PROTOBUF,
        application,
        operation,
    );
    buffer.truncate(written.expect("a request within the bounds"));
    buffer
}

/// Writes a request, has it answered by `call` as by the rules, and reads the response.
fn ask(service: &mut Service, application: Option<&[u8]>, operation: &Operation) -> Answered {
    let request = write(application, operation);
    let given = rules::run(&service.registry, &request);
    let responses = service.send(&request);
    assert_eq!(responses, given.responses);
    assert_eq!(service.registry, given.registry);
    assert_eq!(responses.len(), 1, "one request, one response");
    let answer = read_every_way(operation.opcode(), SESSION, &responses[0]);
    assert_eq!(answer.taken, responses[0].len());
    match answer.reading {
        Reading::Response { status, output } => (status, output),
        other => panic!("{other:?}"),
    }
}

fn refused(status: Status) -> Answered {
    (status.number(), Output::Nothing)
}

const DONE: Answered = (0, Output::Nothing);

fn import_key<'a>(name: &'a [u8], data: &'a [u8], export_allowed: bool) -> Operation<'a> {
    Operation::ImportKey {
        name,
        data,
        bits: 3_072,
        export_allowed,
        verify_allowed: true,
    }
}

fn verify_key(name: &[u8]) -> Operation<'_> {
    Operation::VerifySignature {
        name,
        hash: &[1; 32],
        signature: &[2; 384],
    }
}

#[test]
fn core_operations_answer_an_application_and_nobody() {
    let cases = [
        (Operation::Ping, (0, Output::Version { major: 1, minor: 0 })),
        (Operation::ListProviders, (0, Output::Providers(vec![0, 1]))),
        (
            Operation::ListOpcodes { provider: 0 },
            (0, Output::Opcodes(vec![1, 8, 9])),
        ),
        (
            Operation::ListOpcodes { provider: 1 },
            (0, Output::Opcodes(vec![3, 5, 6, 7])),
        ),
        (
            Operation::ListOpcodes { provider: 2 },
            refused(Status::ProviderDoesNotExist),
        ),
        (
            Operation::ListOpcodes { provider: u32::MAX },
            refused(Status::ProviderDoesNotExist),
        ),
    ];
    for (operation, expected) in cases {
        for application in [None, Some(FIRST), Some(SECOND)] {
            let answered = ask(&mut Service::new(), application, &operation);
            assert_eq!(answered, expected);
        }
    }
}

#[test]
fn a_key_is_imported_exported_and_destroyed() {
    let mut service = Service::new();
    let mut ask = |operation: &Operation| ask(&mut service, Some(FIRST), operation);
    let (export, destroy) = (
        Operation::ExportPublicKey { name: b"k" },
        Operation::DestroyKey { name: b"k" },
    );
    assert_eq!(ask(&export), refused(Status::PsaErrorDoesNotExist));
    assert_eq!(ask(&destroy), refused(Status::PsaErrorDoesNotExist));
    let import = import_key(b"k", &[0, 0xFF, 0], true);
    assert_eq!(ask(&import), DONE);
    assert_eq!(ask(&import), refused(Status::PsaErrorAlreadyExists));
    assert_eq!(ask(&export), (0, Output::Data(vec![0, 0xFF, 0])));
    assert_eq!(ask(&destroy), DONE);
    assert_eq!(ask(&export), refused(Status::PsaErrorDoesNotExist));
}

#[test]
fn a_signature_is_verified_with_the_imported_key() {
    let blocks = blocks("signatures.txt");
    let is_importable = |block: &&Block| block.title == "2048-3";
    let block = blocks.iter().find(is_importable).expect("the key");
    let (data, hash) = (block.bytes("data"), block.bytes("hash"));
    let signature = block.bytes("signature");
    let import = Operation::ImportKey {
        name: b"k",
        data: &data,
        bits: block.number("bits"),
        export_allowed: false,
        verify_allowed: true,
    };
    let verify_with = |signature| Operation::VerifySignature {
        name: b"k",
        hash: &hash,
        signature,
    };
    let mut service = Service::new();
    let mut ask = |operation: &Operation| ask(&mut service, Some(FIRST), operation);
    assert_eq!(ask(&import), DONE);
    assert_eq!(ask(&verify_with(&signature)), DONE);
    let cut = verify_with(&signature[1..]);
    assert_eq!(ask(&cut), refused(Status::PsaErrorInvalidSignature));
    // The longest that a body has room for.
    let longest = verify_with(&[7; 4_056]);
    assert_eq!(ask(&longest), refused(Status::PsaErrorInvalidSignature));
}

#[test]
fn a_key_without_leave_for_export_is_not_permitted() {
    let mut service = Service::new();
    let import = import_key(b"k", &[1], false);
    let export = Operation::ExportPublicKey { name: b"k" };
    assert_eq!(ask(&mut service, Some(FIRST), &import), DONE);
    assert_eq!(
        ask(&mut service, Some(FIRST), &export),
        refused(Status::PsaErrorNotPermitted)
    );
}

#[test]
fn a_ninth_key_is_insufficient_storage() {
    let mut service = Service::new();
    for name in EIGHT {
        let import = import_key(name, &[1], true);
        assert_eq!(ask(&mut service, Some(FIRST), &import), DONE);
    }
    assert_eq!(
        ask(&mut service, Some(FIRST), &import_key(b"i", &[1], true)),
        refused(Status::PsaErrorInsufficientStorage)
    );
}

#[test]
fn keystore_operations_by_nobody_are_not_authenticated() {
    for operation in [
        import_key(b"k", &[1], true),
        Operation::DestroyKey { name: b"k" },
        Operation::ExportPublicKey { name: b"k" },
        verify_key(b"k"),
    ] {
        assert_eq!(
            ask(&mut Service::new(), None, &operation),
            refused(Status::NotAuthenticated)
        );
    }
}

#[test]
fn a_name_not_on_the_roster_is_an_authentication_error() {
    for operation in [Operation::Ping, import_key(b"k", &[1], true)] {
        assert_eq!(
            ask(&mut Service::new(), Some(b"nobody"), &operation),
            refused(Status::AuthenticationError)
        );
    }
}

/// Name, data, bits and flags at both ends of their bounds reach the slot as they were given.
#[test]
fn the_service_imports_the_key_that_the_client_was_given() {
    let longest_application = [b'~'; 64];
    for (name, data, bits) in [
        (&[b'!'; 1][..], &[0x00; 1][..], 2_048),
        (&[b'~'; 32], &[0xFF; 600], 4_096),
        (b"a", &[0xAA, 0xBB], 3_072),
    ] {
        for flags in [(false, false), (false, true), (true, false), (true, true)] {
            let mut service = Service::with_roster(&[&longest_application]);
            let import = Operation::ImportKey {
                name,
                data,
                bits,
                export_allowed: flags.0,
                verify_allowed: flags.1,
            };
            let answered = ask(&mut service, Some(&longest_application), &import);
            assert_eq!(answered, DONE);
            let expected = Key {
                name: name.to_vec(),
                data: data.to_vec(),
                bits: bits.into(),
                export_allowed: flags.0,
                verify_allowed: flags.1,
            };
            assert_eq!(service.slot(0, 0), expected.slot());
        }
    }
}

#[test]
fn the_longest_response_that_the_service_writes_is_read() {
    let mut service = Service::new();
    let data = [0x10; 600];
    let import = import_key(b"k", &data, true);
    assert_eq!(ask(&mut service, Some(FIRST), &import), DONE);
    let export = Operation::ExportPublicKey { name: b"k" };
    let answered = ask(&mut service, Some(FIRST), &export);
    assert_eq!(answered, (0, Output::Data(data.to_vec())));
}

#[test]
fn the_status_17_response_is_read_whatever_was_asked() {
    for first_bytes in [[0xFF; 6], [0x10, 0xA7, 0xC0, 0x5E, 21, 0]] {
        let responses = Service::new().send(&first_bytes);
        for opcode in OPCODES {
            let answer = read_every_way(opcode, SESSION, &responses[0]);
            let (status, output) = refused(Status::InvalidHeader);
            assert_eq!(answer.taken, responses[0].len());
            assert_eq!(answer.reading, Reading::Response { status, output });
        }
    }
}

/// Requests written one behind the other, and their responses read one behind the other.
#[test]
fn responses_on_a_stream_are_read_one_after_the_other() {
    let operations = [
        Operation::Ping,
        import_key(b"k", &[7; 300], true),
        Operation::ExportPublicKey { name: b"k" },
        Operation::ListOpcodes { provider: 1 },
        Operation::DestroyKey { name: b"k" },
        Operation::ListProviders,
    ];
    let requests: Vec<_> = operations
        .iter()
        .map(|operation| write(Some(FIRST), operation))
        .collect();
    let responses = Service::new().send(&requests.concat()).concat();
    let mut rest = &responses[..];
    let expected = [
        Output::Version { major: 1, minor: 0 },
        Output::Nothing,
        Output::Data(vec![7; 300]),
        Output::Opcodes(vec![3, 5, 6, 7]),
        Output::Nothing,
        Output::Providers(vec![0, 1]),
    ];
    for (operation, output) in operations.iter().zip(expected) {
        let answer = Client::begin(operation.opcode(), SESSION, BodyFormat::Protobuf).read(rest);
        assert_eq!(answer.reading, Reading::Response { status: 0, output });
        rest = &rest[answer.taken..];
    }
    assert_eq!(rest, []);
}

/// The keys that an application holds by document 01's rules, in no slots.
#[derive(Default)]
struct Model(Vec<(Vec<u8>, Vec<u8>, bool)>);

impl Model {
    fn answer(&mut self, operation: &Operation) -> Answered {
        let Model(keys) = self;
        let find = |name: &[u8]| keys.iter().position(|key| key.0 == name);
        match *operation {
            Operation::ImportKey {
                name,
                data,
                export_allowed,
                ..
            } => {
                if find(name).is_some() {
                    return refused(Status::PsaErrorAlreadyExists);
                }
                if keys.len() == SLOTS {
                    return refused(Status::PsaErrorInsufficientStorage);
                }
                keys.push((name.to_vec(), data.to_vec(), export_allowed));
                DONE
            }
            Operation::DestroyKey { name } => match find(name) {
                Some(place) => {
                    keys.remove(place);
                    DONE
                }
                None => refused(Status::PsaErrorDoesNotExist),
            },
            Operation::ExportPublicKey { name } => match find(name).map(|place| &keys[place]) {
                Some((_, data, true)) => (0, Output::Data(data.clone())),
                Some((_, _, false)) => refused(Status::PsaErrorNotPermitted),
                None => refused(Status::PsaErrorDoesNotExist),
            },
            // The data is any bytes, and no key.
            Operation::VerifySignature { name, .. } => match find(name) {
                Some(_) => refused(Status::PsaErrorNotSupported),
                None => refused(Status::PsaErrorDoesNotExist),
            },
            _ => panic!("not of the keystore"),
        }
    }
}

#[test]
fn generated_keystore_requests_are_answered_as_the_rules_say() {
    let random = &mut Random::new(2);
    let applications = [FIRST, SECOND];
    let mut service = Service::new();
    let mut models = [Model::default(), Model::default()];
    for _ in 0..4_000 {
        let name = [random.pick(b"abcdefghij")];
        let length = 1 + random.below(600);
        let data = random.bytes(length);
        let operation = match random.below(5) {
            0 => Operation::DestroyKey { name: &name },
            1 => Operation::ExportPublicKey { name: &name },
            2 => verify_key(&name),
            _ => import_key(&name, &data, !random.once_in(3)),
        };
        let line = random.below(2);
        let expected = models[line].answer(&operation);
        let answered = ask(&mut service, Some(applications[line]), &operation);
        assert_eq!(answered, expected);
    }
}

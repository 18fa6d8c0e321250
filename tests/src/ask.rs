//! The reference, asked through its public rules: a request on a registry, and what comes of it.

use crate::layout::Key;
use crate::oracle::{bytes_field, number_field};
use reference::rules::{self, Outcome};
use reference::{load_roster, REGISTRY_SIZE};

pub const PING: u16 = 1;
pub const DESTROY: u16 = 3;
pub const VERIFY: u16 = 5;
pub const IMPORT: u16 = 6;
pub const EXPORT: u16 = 7;
pub const LIST_PROVIDERS: u16 = 8;
pub const LIST_OPCODES: u16 = 9;
pub const OPCODES: [u16; 7] = [
    PING,
    DESTROY,
    VERIFY,
    IMPORT,
    EXPORT,
    LIST_PROVIDERS,
    LIST_OPCODES,
];

pub const SUCCESS: u16 = 0;
pub const PROVIDER_DOES_NOT_EXIST: u16 = 6;
pub const DESERIALIZING_BODY_FAILED: u16 = 7;
pub const AUTHENTICATION_ERROR: u16 = 11;
pub const NOT_PERMITTED: u16 = 1133;
pub const NOT_SUPPORTED: u16 = 1134;
pub const INVALID_ARGUMENT: u16 = 1135;
pub const ALREADY_EXISTS: u16 = 1139;
pub const DOES_NOT_EXIST: u16 = 1140;
pub const INVALID_SIGNATURE: u16 = 1149;

/// The response's status and body, and all that the rules leave.
#[derive(Debug)]
pub struct Answer {
    pub status: u16,
    pub body: Vec<u8>,
    pub outcome: Outcome,
}

/// One request, sent by an application if it has a name, on a well-formed registry.
pub fn ask(registry: &[u8], opcode: u16, application: Option<&[u8]>, body: &[u8]) -> Answer {
    let outcome = rules::run(registry, &request(opcode, application, body));
    let response = &outcome.responses[0];
    Answer {
        status: u16::from_le_bytes([response[24], response[25]]),
        body: response[26..].to_vec(),
        outcome,
    }
}

/// A request with a session of its opcode's number, of Protocol Buffers both ways.
pub fn request(opcode: u16, application: Option<&[u8]>, body: &[u8]) -> Vec<u8> {
    request_of(opcode, (1, 1), application, body)
}

/// The same with this content type and accept type.
pub fn request_of(
    opcode: u16,
    (content_type, accept_type): (u8, u8),
    application: Option<&[u8]>,
    body: &[u8],
) -> Vec<u8> {
    let provider = match opcode {
        DESTROY | VERIFY | IMPORT | EXPORT => 1,
        _ => 0,
    };
    let auth = application.unwrap_or_default();
    [
        &[0x10, 0xA7, 0xC0, 0x5E, 22, 0, 1, 0, provider][..],
        &u64::from(opcode).to_le_bytes(),
        &[content_type, accept_type, application.is_some().into()],
        &(body.len() as u32).to_le_bytes(),
        &(auth.len() as u16).to_le_bytes(),
        &opcode.to_le_bytes(),
        body,
        auth,
    ]
    .concat()
}

pub fn import_body(key: &Key) -> Vec<u8> {
    [
        bytes_field(1, &key.name),
        bytes_field(2, &key.data),
        number_field(3, key.bits.into()),
        number_field(4, key.export_allowed.into()),
        number_field(5, key.verify_allowed.into()),
    ]
    .concat()
}

/// The body of Destroy and of Export.
pub fn name_body(name: &[u8]) -> Vec<u8> {
    bytes_field(1, name)
}

/// A registry of these applications and no keys.
pub fn registry_of(names: &[Vec<u8>]) -> Vec<u8> {
    let mut registry = vec![0xEE; REGISTRY_SIZE];
    let roster: Vec<u8> = names.iter().flat_map(|name| record(1, name)).collect();
    load_roster(&roster, &mut registry).expect("a good roster");
    registry
}

/// A record of a roster file.
pub fn record(tag: u8, value: &[u8]) -> Vec<u8> {
    [&[tag], &(value.len() as u16).to_le_bytes()[..], value].concat()
}

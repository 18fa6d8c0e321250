//! Builders of requests, bodies, rosters and lent memory, and a service to hand them to.
//! Document 01, "Bytes on the wire", "Operations and their fields" and the layout in docs/; document
//! 02, "Checking signatures", "Keys we ship", "Use per key" and "Surviving a power cut".

// Every test crate compiles this file and uses some of it.
#![allow(dead_code)]

pub mod client;
pub mod generate;
pub mod journal;
#[path = "../../../tests/src/listed.rs"]
pub mod listed;
#[path = "../../../tests/src/lists.rs"]
pub mod lists;
#[path = "../../../tests/src/vectors.rs"]
pub mod vectors;

use reference::{
    call, load_roster, registry_is_well_formed, Counters, Refusal, Status, Taken, CONNECTION_SIZE,
    MAX_CHUNK, MIN_JOURNAL_BUFFER, MIN_RESPONSE_BUFFER, REGISTRY_SIZE,
};

pub const MAGIC: [u8; 4] = [0x10, 0xA7, 0xC0, 0x5E];

/// The two applications of `Service::new`, on lines 0 and 1.
pub const FIRST: &[u8] = b"scanner";
pub const SECOND: &[u8] = b"archive";

pub const PING: u16 = 1;
pub const DESTROY: u16 = 3;
pub const VERIFY: u16 = 5;
pub const IMPORT: u16 = 6;
pub const EXPORT: u16 = 7;
pub const LIST_PROVIDERS: u16 = 8;
pub const LIST_OPCODES: u16 = 9;

/// What the paper gives as the ★ Ping request.
pub const PING_REQUEST: [u8; 28] = [
    0x10, 0xA7, 0xC0, 0x5E, 0x16, 0x00, 0x01, 0x00, 0x00, 0, 0, 0, 0, 0, 0, 0, 0, 0x01, 0x01, 0x00,
    0x00, 0x00, 0x00, 0x00, 0x00, 0x00, 0x01, 0x00,
];

/// What the paper gives as the ★ Ping request's response.
pub const PING_RESPONSE: [u8; 28] = [
    0x10, 0xA7, 0xC0, 0x5E, 0x14, 0x00, 0x01, 0x00, 0x00, 0, 0, 0, 0, 0, 0, 0, 0, 0x01, 0x02, 0x00,
    0x00, 0x00, 0x01, 0x00, 0x00, 0x00, 0x08, 0x01,
];

/// A request, good or damaged; bytes past the header's 22nd are `FILLER`.
#[derive(Clone, Debug)]
pub struct Request {
    pub magic: [u8; 4],
    pub header_size: u16,
    pub major: u8,
    pub minor: u8,
    pub provider: u8,
    pub session: u64,
    pub content_type: u8,
    pub accept_type: u8,
    pub auth_type: u8,
    pub opcode: u16,
    pub body: Vec<u8>,
    pub auth: Vec<u8>,
}

/// Read as a body, this begins a tag of wire type 6.
pub const FILLER: u8 = 0xEE;

impl Request {
    pub fn new(provider: u8, opcode: u16, body: Vec<u8>) -> Request {
        Request {
            magic: MAGIC,
            header_size: 22,
            major: 1,
            minor: 0,
            provider,
            session: 0x1122_3344_5566_7788,
            content_type: 1,
            accept_type: 1,
            auth_type: 0,
            opcode,
            body,
            auth: Vec::new(),
        }
    }

    pub fn sent_by(self, name: &[u8]) -> Request {
        Request {
            auth_type: 1,
            auth: name.to_vec(),
            ..self
        }
    }

    pub fn without_authentication(self) -> Request {
        Request {
            auth_type: 0,
            auth: Vec::new(),
            ..self
        }
    }

    pub fn header(&self) -> Vec<u8> {
        self.header_with_lengths(self.body.len() as u32, self.auth.len() as u16)
    }

    /// The header with lengths that need not be those of body and auth.
    pub fn header_with_lengths(&self, content_length: u32, auth_length: u16) -> Vec<u8> {
        let mut header = self.magic.to_vec();
        header.extend(self.header_size.to_le_bytes());
        header.extend([self.major, self.minor, self.provider]);
        header.extend(self.session.to_le_bytes());
        header.extend([self.content_type, self.accept_type, self.auth_type]);
        header.extend(content_length.to_le_bytes());
        header.extend(auth_length.to_le_bytes());
        header.extend(self.opcode.to_le_bytes());
        let past_the_22nd = usize::from(self.header_size).saturating_sub(22).min(42);
        header.extend(vec![FILLER; past_the_22nd]);
        header
    }

    pub fn bytes(&self) -> Vec<u8> {
        [self.header(), self.body.clone(), self.auth.clone()].concat()
    }
}

pub fn ping() -> Request {
    Request::new(0, PING, Vec::new())
}

pub fn list_providers() -> Request {
    Request::new(0, LIST_PROVIDERS, Vec::new())
}

pub fn list_opcodes(provider: u64) -> Request {
    Request::new(0, LIST_OPCODES, Body::new().varint(1, provider).bytes())
}

/// An import from the first application.
pub fn import(key: &Key) -> Request {
    keystore(IMPORT, key.body())
}

/// A destroy from the first application.
pub fn destroy(name: &[u8]) -> Request {
    keystore(DESTROY, Body::new().field(1, name).bytes())
}

/// An export from the first application.
pub fn export(name: &[u8]) -> Request {
    keystore(EXPORT, Body::new().field(1, name).bytes())
}

/// A verify from the first application.
pub fn verify(name: &[u8], hash: &[u8], signature: &[u8]) -> Request {
    let body = Body::new().field(1, name).field(2, hash);
    keystore(VERIFY, body.field(3, signature).bytes())
}

/// A keystore request with any body, from the first application.
pub fn keystore(opcode: u16, body: Vec<u8>) -> Request {
    Request::new(1, opcode, body).sent_by(FIRST)
}

/// A request of opcode Ping with so many bytes of body and auth.
pub fn ping_of_size(content_length: usize, auth_length: usize) -> Request {
    Request {
        body: vec![b'c'; content_length],
        auth: vec![b'a'; auth_length],
        ..ping()
    }
}

/// Import's input.
#[derive(Clone, Debug)]
pub struct Key {
    pub name: Vec<u8>,
    pub data: Vec<u8>,
    pub bits: u64,
    pub export_allowed: bool,
    pub verify_allowed: bool,
}

/// The names of as many keys as an application may hold.
pub const EIGHT: [&[u8]; SLOTS] = [b"a", b"b", b"c", b"d", b"e", b"f", b"g", b"h"];

/// What Import takes.
pub const IMPORTABLE_BITS: [u64; 3] = [2_048, 3_072, 4_096];

/// A key that Import allows.
pub fn key(name: &[u8]) -> Key {
    Key {
        name: name.to_vec(),
        data: vec![0xAA, 0xBB],
        bits: 2_048,
        export_allowed: true,
        verify_allowed: false,
    }
}

impl Key {
    pub fn body(&self) -> Vec<u8> {
        Body::new()
            .field(1, &self.name)
            .field(2, &self.data)
            .varint(3, self.bits)
            .varint(4, self.export_allowed.into())
            .varint(5, self.verify_allowed.into())
            .bytes()
    }

    /// The slot that holds this key, not used yet, by the layout in docs/.
    pub fn slot(&self) -> Vec<u8> {
        let mut slot = vec![0; SLOT_SIZE];
        slot[0] = self.name.len() as u8;
        slot[1..1 + self.name.len()].copy_from_slice(&self.name);
        slot[33..35].copy_from_slice(&(self.data.len() as u16).to_le_bytes());
        slot[35..35 + self.data.len()].copy_from_slice(&self.data);
        slot[635..637].copy_from_slice(&(self.bits as u16).to_le_bytes());
        slot[637] = self.export_allowed.into();
        slot[638] = self.verify_allowed.into();
        slot
    }
}

/// A body, field by field; zero values are written too.
#[derive(Clone, Debug, Default)]
pub struct Body(Vec<u8>);

impl Body {
    pub fn new() -> Body {
        Body::default()
    }

    pub fn field(self, number: u64, value: &[u8]) -> Body {
        self.raw(&varint(number << 3 | 2))
            .raw(&varint(value.len() as u64))
            .raw(value)
    }

    pub fn varint(self, number: u64, value: u64) -> Body {
        self.raw(&varint(number << 3)).raw(&varint(value))
    }

    pub fn raw(mut self, bytes: &[u8]) -> Body {
        self.0.extend_from_slice(bytes);
        self
    }

    pub fn bytes(self) -> Vec<u8> {
        self.0
    }
}

/// The shortest varint.
pub fn varint(mut value: u64) -> Vec<u8> {
    let mut bytes = Vec::new();
    while value >= 0x80 {
        bytes.push(value as u8 | 0x80);
        value >>= 7;
    }
    bytes.push(value as u8);
    bytes
}

/// A varint of exactly `length` bytes, longer than needed if so asked.
pub fn long_varint(value: u64, length: usize) -> Vec<u8> {
    let septet = |place: usize| (value >> (7 * place)) as u8 & 0x7F;
    let mut bytes: Vec<u8> = (0..length).map(|place| septet(place) | 0x80).collect();
    bytes[length - 1] &= 0x7F;
    bytes
}

/// The body of a status 7 response: field 1, left out when 0.
pub fn offset_body(offset: u64) -> Vec<u8> {
    match offset {
        0 => Vec::new(),
        _ => Body::new().varint(1, offset).bytes(),
    }
}

/// The offset that the body of a status 7 response has.
pub fn offset_in(body: &[u8]) -> u64 {
    let septets = body.iter().skip(1).rev();
    let offset = septets.fold(0, |number, byte| number << 7 | u64::from(byte & 0x7F));
    assert_eq!(body, offset_body(offset));
    offset
}

pub fn roster_record(tag: u8, value: &[u8]) -> Vec<u8> {
    let length = (value.len() as u16).to_le_bytes();
    [&[tag], &length[..], value].concat()
}

pub fn roster_of(names: &[&[u8]]) -> Vec<u8> {
    names
        .iter()
        .flat_map(|name| roster_record(1, name))
        .collect()
}

pub const LINES: usize = 8;
pub const SLOTS: usize = 8;
pub const LINE_SIZE: usize = 5_209;
pub const SLOT_SIZE: usize = 643;
/// Where a slot has its count of uses.
pub const USES_AT: usize = 639;

/// Where a line begins in registry memory.
pub fn line_at(line: usize) -> usize {
    line * LINE_SIZE
}

/// Where a slot begins in registry memory.
pub fn slot_at(line: usize, slot: usize) -> usize {
    line_at(line) + 65 + slot * SLOT_SIZE
}

pub fn uses_in(registry: &[u8], line: usize, slot: usize) -> u32 {
    let uses = &registry[slot_at(line, slot) + USES_AT..][..4];
    u32::from_le_bytes(uses.try_into().unwrap())
}

pub fn set_uses_in(registry: &mut [u8], line: usize, slot: usize, uses: u32) {
    registry[slot_at(line, slot) + USES_AT..][..4].copy_from_slice(&uses.to_le_bytes());
}

/// Connection memory of this kind and count that holds these bytes, well formed or not.
pub fn connection_memory(kind: u8, count: u64, bytes: &[u8]) -> Vec<u8> {
    let mut memory = vec![0; CONNECTION_SIZE];
    memory[0] = kind;
    memory[1..9].copy_from_slice(&count.to_le_bytes());
    memory[9..9 + bytes.len()].copy_from_slice(bytes);
    memory
}

pub fn open_holding(bytes: &[u8]) -> Vec<u8> {
    connection_memory(0, bytes.len() as u64, bytes)
}

pub fn skipping(header: &[u8], to_go: u64) -> Vec<u8> {
    connection_memory(1, to_go, header)
}

pub fn closed() -> Vec<u8> {
    connection_memory(2, 0, &[])
}

/// Bytes of an unfinished request in well-formed connection memory, skipped ones too.
pub fn unfinished_bytes(connection: &[u8]) -> u64 {
    let number = |at: usize, length: usize| {
        let bytes = &connection[at..at + length];
        bytes
            .iter()
            .rev()
            .fold(0, |number, &byte| number << 8 | u64::from(byte))
    };
    let count = number(1, 8);
    match connection[0] {
        0 => count,
        1 => 6 + number(9 + 4, 2) + number(9 + 20, 4) + number(9 + 24, 2) - count,
        _ => 0,
    }
}

/// A response taken apart; `read` checks what is the same in all of them.
#[derive(Clone, Debug, PartialEq, Eq)]
pub struct Response {
    pub provider: u8,
    pub session: u64,
    pub opcode: u16,
    pub status: u16,
    pub body: Vec<u8>,
}

impl Response {
    pub fn read(bytes: &[u8]) -> Response {
        assert_eq!(bytes[..4], MAGIC);
        assert_eq!(bytes[4..8], [20, 0, 1, 0], "H and version");
        assert!([1, 2].contains(&bytes[17]), "content type");
        let content_length = u32::from_le_bytes(bytes[18..22].try_into().unwrap());
        assert_eq!(content_length as usize, bytes.len() - 26);
        Response {
            provider: bytes[8],
            session: u64::from_le_bytes(bytes[9..17].try_into().unwrap()),
            opcode: u16::from_le_bytes([bytes[22], bytes[23]]),
            status: u16::from_le_bytes([bytes[24], bytes[25]]),
            body: bytes[26..].to_vec(),
        }
    }
}

/// All that a caller lends, together.
#[derive(Clone, Debug, PartialEq, Eq)]
pub struct Service {
    pub connection: Vec<u8>,
    pub registry: Vec<u8>,
    pub list: Vec<u8>,
    pub counters: Counters,
    pub response: Vec<u8>,
    pub journal: Vec<u8>,
}

impl Service {
    /// A roster of `FIRST` and `SECOND`, no keys, the empty list and a fresh connection.
    pub fn new() -> Service {
        Service::with_roster(&[FIRST, SECOND])
    }

    pub fn with_roster(names: &[&[u8]]) -> Service {
        let mut registry = vec![0; REGISTRY_SIZE];
        load_roster(&roster_of(names), &mut registry).expect("a good roster");
        Service {
            connection: vec![0; CONNECTION_SIZE],
            registry,
            list: Vec::new(),
            counters: Counters::default(),
            response: vec![0x55; MIN_RESPONSE_BUFFER],
            journal: vec![0x55; MIN_JOURNAL_BUFFER],
        }
    }

    /// `new` with these keys of the first application.
    pub fn with_keys(names: &[&[u8]]) -> Service {
        let mut service = Service::new();
        for name in names {
            service.expect_status(&import(&key(name)), Status::Success);
        }
        service
    }

    /// The same service with this key in a slot, as a registry from before may hold it: Import need
    /// not take it.
    pub fn holding(mut self, line: usize, slot: usize, key: &Key) -> Service {
        self.registry[slot_at(line, slot)..][..SLOT_SIZE].copy_from_slice(&key.slot());
        assert!(registry_is_well_formed(&self.registry));
        self
    }

    /// The same service with this list from now on.
    pub fn with_list(self, list: &[u8]) -> Service {
        Service {
            list: list.to_vec(),
            ..self
        }
    }

    pub fn call(&mut self, chunk: &[u8]) -> Result<Taken, Refusal> {
        call(
            chunk,
            &mut self.connection,
            &mut self.registry,
            &self.list,
            &mut self.counters,
            &mut self.response,
            &mut self.journal,
        )
    }

    /// Hands over bytes in chunks as long as may be until all is taken; gives the responses.
    pub fn send(&mut self, bytes: &[u8]) -> Vec<Vec<u8>> {
        let mut responses = Vec::new();
        let mut rest = bytes;
        while !rest.is_empty() {
            let taken = self
                .call(&rest[..rest.len().min(MAX_CHUNK)])
                .expect("a call that is taken");
            if taken.written > 0 {
                responses.push(self.response[..taken.written].to_vec());
            }
            rest = &rest[taken.taken..];
        }
        responses
    }

    /// Sends a request to which exactly one response comes.
    pub fn ask(&mut self, request: &Request) -> Response {
        let responses = self.send(&request.bytes());
        assert_eq!(responses.len(), 1);
        if request.accept_type == 1 {
            assert_eq!(responses[0][17], 1, "content type");
        }
        Response::read(&responses[0])
    }

    /// Sends a request, checks its status and that the registry stays unless it is served.
    pub fn expect_status(&mut self, request: &Request, status: Status) {
        let before = self.registry.clone();
        let response = self.ask(request);
        assert_eq!(response.status, status.number());
        if status == Status::DeserializingBodyFailed {
            let offset = offset_in(&response.body);
            assert!(offset < request.body.len() as u64, "{response:X?}");
        } else if status != Status::Success {
            assert_eq!(response.body, [], "a refused request has an empty body");
        }
        if status != Status::Success {
            assert_eq!(self.registry, before, "a refused request changes nothing");
        }
    }

    /// Hands over a chunk that must be refused with nothing changed.
    pub fn expect_refusal(&mut self, chunk: &[u8], refusal: Refusal) {
        let before = self.clone();
        assert_eq!(self.call(chunk), Err(refusal));
        assert_eq!(*self, before, "a refused call changes nothing");
    }

    pub fn refused_with(&self, status: Status) -> u64 {
        let place = Status::REFUSED.iter().position(|&other| other == status);
        self.counters.refused[place.expect("a status other than Success")]
    }

    pub fn slot(&self, line: usize, slot: usize) -> &[u8] {
        &self.registry[slot_at(line, slot)..][..SLOT_SIZE]
    }

    pub fn uses(&self, line: usize, slot: usize) -> u32 {
        uses_in(&self.registry, line, slot)
    }

    pub fn set_uses(&mut self, line: usize, slot: usize, uses: u32) {
        set_uses_in(&mut self.registry, line, slot, uses);
    }
}

impl Default for Service {
    fn default() -> Service {
        Service::new()
    }
}

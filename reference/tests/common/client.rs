//! Builders of responses, good or damaged, and a client that reads them in both forms.
//! Document 02, "The client's half" and "A second body format"; the memory's layout is the one set down in docs/.

use super::{long_varint, MAGIC};
use reference::{
    client_begin, client_read, read_response, BodyFormat, CoreOpcode, KeystoreOpcode, Opcode,
    Output, ReadAnswer, ReadRefusal, Reader, Reading, CLIENT_SIZE,
};

pub const SESSION: u64 = 0x1122_3344_5566_7788;

pub const PING: Opcode = Opcode::Core(CoreOpcode::Ping);
pub const LIST_PROVIDERS: Opcode = Opcode::Core(CoreOpcode::ListProviders);
pub const LIST_OPCODES: Opcode = Opcode::Core(CoreOpcode::ListOpcodes);
pub const DESTROY: Opcode = Opcode::Keystore(KeystoreOpcode::Destroy);
pub const VERIFY: Opcode = Opcode::Keystore(KeystoreOpcode::Verify);
pub const IMPORT: Opcode = Opcode::Keystore(KeystoreOpcode::Import);
pub const EXPORT: Opcode = Opcode::Keystore(KeystoreOpcode::Export);

pub const OPCODES: [Opcode; 7] = [
    PING,
    DESTROY,
    VERIFY,
    IMPORT,
    EXPORT,
    LIST_PROVIDERS,
    LIST_OPCODES,
];

/// The number and the provider of each of `OPCODES`, as the documents list them.
pub const NUMBERS: [(u16, u8); 7] = [(1, 0), (3, 1), (5, 1), (6, 1), (7, 1), (8, 0), (9, 0)];

/// A response, good or damaged.
#[derive(Clone, Debug)]
pub struct RawResponse {
    pub magic: [u8; 4],
    pub header_size: u16,
    pub major: u8,
    pub minor: u8,
    pub provider: u8,
    pub session: u64,
    pub content_type: u8,
    /// The body's own length where there is none.
    pub content_length: Option<u32>,
    pub opcode: u16,
    pub status: u16,
    pub body: Vec<u8>,
}

impl RawResponse {
    /// The response of status 0 and this body to a request of `SESSION`.
    pub fn to(opcode: Opcode, body: &[u8]) -> RawResponse {
        let place = OPCODES.iter().position(|&other| other == opcode);
        let (number, provider) = NUMBERS[place.expect("a listed opcode")];
        RawResponse {
            magic: MAGIC,
            header_size: 20,
            major: 1,
            minor: 0,
            provider,
            session: SESSION,
            content_type: 1,
            content_length: None,
            opcode: number,
            status: 0,
            body: body.to_vec(),
        }
    }

    /// The response to a request of wrong magic or H, as the service writes it.
    pub fn invalid_header() -> RawResponse {
        RawResponse {
            provider: 0,
            session: 0,
            opcode: 0,
            status: 17,
            ..RawResponse::to(PING, &[])
        }
    }

    pub fn bytes(&self) -> Vec<u8> {
        let content_length = self.content_length.unwrap_or(self.body.len() as u32);
        let mut bytes = self.magic.to_vec();
        bytes.extend(self.header_size.to_le_bytes());
        bytes.extend([self.major, self.minor, self.provider]);
        bytes.extend(self.session.to_le_bytes());
        bytes.push(self.content_type);
        bytes.extend(content_length.to_le_bytes());
        bytes.extend(self.opcode.to_le_bytes());
        bytes.extend(self.status.to_le_bytes());
        bytes.extend(&self.body);
        bytes
    }
}

/// Good responses to every operation, short and long.
pub fn good_responses() -> Vec<(Opcode, RawResponse)> {
    let long_data = [&[0x0A, 0xD8, 0x04], &[0xEE; 600][..]].concat();
    let longest_data = [&[0x0A, 0xE3, 0x07], &[0x10; 995][..]].concat();
    let mut responses: Vec<_> = [
        (PING, &[0x08, 0x01][..]),
        (PING, &[]),
        (LIST_PROVIDERS, &[0x0A, 0x02, 0x00, 0x01]),
        (LIST_OPCODES, &[0x0A, 0x04, 0x03, 0x05, 0x06, 0x07]),
        (IMPORT, &[]),
        (DESTROY, &[]),
        (VERIFY, &[]),
        (EXPORT, &long_data),
        (EXPORT, &longest_data),
    ]
    .map(|(opcode, body)| (opcode, RawResponse::to(opcode, body)))
    .to_vec();
    for opcode in OPCODES {
        let refused = RawResponse {
            status: 1_140,
            ..RawResponse::to(opcode, &[])
        };
        responses.push((opcode, refused));
        responses.push((opcode, RawResponse::invalid_header()));
    }
    responses
}

/// Bytes that no body has a readable field of, wherever they stand between fields.
pub fn unreadable_fields() -> Vec<Vec<u8>> {
    let groups_and_unknown_types = [0x0B, 0x0C, 0x0E, 0x0F].map(|tag| vec![tag]);
    let field_number_0 = [[0x00, 0x01].to_vec(), [0x02, 0x00].to_vec()];
    let tag_above_32_bits = [&long_varint(1 << 32 | 0x0A, 5)[..], &[0x00]].concat();
    let eleven_byte_tag = [&[0x8A][..], &[0x80; 9], &[0x00, 0x00]].concat();
    let tenth_byte_above_1 = [&[0x8A][..], &[0x80; 8], &[0x02, 0x00]].concat();
    [
        &groups_and_unknown_types[..],
        &field_number_0,
        &[tag_above_32_bits, eleven_byte_tag, tenth_byte_above_1],
    ]
    .concat()
}

pub fn waiting(taken: usize) -> ReadAnswer {
    ReadAnswer {
        taken,
        reading: Reading::Waiting,
    }
}

pub fn response(taken: usize, status: u16, output: Output) -> ReadAnswer {
    ReadAnswer {
        taken,
        reading: Reading::Response { status, output },
    }
}

pub fn refused(taken: usize, refusal: ReadRefusal) -> ReadAnswer {
    ReadAnswer {
        taken,
        reading: Reading::Refused(refusal),
    }
}

/// Reader's memory with these bytes behind its held count, well formed or not, of accept type 1.
pub fn client_memory(opcode: u16, session: u64, held: u16, bytes: &[u8]) -> Vec<u8> {
    client_memory_of(opcode, session, 1, held, bytes)
}

pub fn client_memory_of(
    opcode: u16,
    session: u64,
    accept_type: u8,
    held: u16,
    bytes: &[u8],
) -> Vec<u8> {
    let mut memory = vec![0; CLIENT_SIZE];
    memory[..2].copy_from_slice(&opcode.to_le_bytes());
    memory[2..10].copy_from_slice(&session.to_le_bytes());
    memory[10] = accept_type;
    memory[11..13].copy_from_slice(&held.to_le_bytes());
    memory[13..13 + bytes.len()].copy_from_slice(bytes);
    memory
}

/// The rule on uncut bytes, where the request asked for Protocol Buffers.
pub fn read_protobuf(opcode: Opcode, session: u64, bytes: &[u8]) -> ReadAnswer {
    read_response(opcode, session, BodyFormat::Protobuf, bytes)
}

/// The typed reader and the one on lent memory, which must agree on every chunk.
pub struct Client {
    opcode: Opcode,
    session: u64,
    accept: BodyFormat,
    reader: Reader,
    memory: Vec<u8>,
    held: Vec<u8>,
}

impl Client {
    pub fn begin(opcode: Opcode, session: u64, accept: BodyFormat) -> Client {
        let mut memory = vec![0x55; CLIENT_SIZE];
        assert_eq!(client_begin(&mut memory, opcode, session, accept), Ok(()));
        Client {
            opcode,
            session,
            accept,
            reader: Reader::begin(opcode, session, accept),
            memory,
            held: Vec::new(),
        }
    }

    /// Hands over a chunk and checks that the memory holds just the bytes taken so far.
    pub fn read(&mut self, chunk: &[u8]) -> ReadAnswer {
        let answer = self.reader.read(chunk);
        assert_eq!(client_read(&mut self.memory, chunk), Ok(answer.clone()));
        self.held.extend(&chunk[..answer.taken]);
        let held = self.held.len() as u16;
        let (opcode, accept) = (self.opcode.number(), self.accept.number());
        let expected = client_memory_of(opcode, self.session, accept, held, &self.held);
        assert_eq!(self.memory, expected);
        answer
    }

    /// Hands over all chunks. Those before the last byte taken are taken whole, those behind it
    /// not at all, and the same is said again.
    pub fn read_all<'a>(mut self, chunks: impl Iterator<Item = &'a [u8]>) -> ReadAnswer {
        let mut so_far = waiting(0);
        for chunk in chunks {
            let answer = self.read(chunk);
            if so_far.reading != Reading::Waiting {
                assert_eq!(answer.taken, 0, "nothing is taken past the end");
                assert_eq!(answer.reading, so_far.reading, "the same is said again");
            } else if answer.reading == Reading::Waiting {
                assert_eq!(answer.taken, chunk.len(), "all is taken while it waits");
            }
            so_far = ReadAnswer {
                taken: so_far.taken + answer.taken,
                reading: answer.reading,
            };
        }
        so_far
    }
}

/// What is read from these bytes: the same uncut, in one chunk and in single bytes, with more bytes
/// behind them or none.
pub fn read_every_way(opcode: Opcode, session: u64, bytes: &[u8]) -> ReadAnswer {
    read_every_way_as(opcode, session, BodyFormat::Protobuf, bytes)
}

/// The same where the request asked for this format.
pub fn read_every_way_as(
    opcode: Opcode,
    session: u64,
    accept: BodyFormat,
    bytes: &[u8],
) -> ReadAnswer {
    let answer = read_response(opcode, session, accept, bytes);
    let client = || Client::begin(opcode, session, accept);
    assert_eq!(client().read_all([bytes].into_iter()), answer);
    assert_eq!(client().read_all(bytes.chunks(1)), answer);
    if answer.reading != Reading::Waiting {
        let more = [bytes, bytes].concat();
        assert_eq!(read_response(opcode, session, accept, &more), answer);
        assert_eq!(client().read_all([&more[..]].into_iter()), answer);
        assert_eq!(client().read_all(more.chunks(1)), answer);
    }
    answer
}

/// Reads a response and checks that before its last byte, or the refusal's, it is waited for.
fn read_and_wait(opcode: Opcode, raw: &RawResponse) -> ReadAnswer {
    let bytes = raw.bytes();
    let answer = read_every_way(opcode, SESSION, &bytes);
    for length in 0..answer.taken {
        let cut = read_protobuf(opcode, SESSION, &bytes[..length]);
        assert_eq!(cut, waiting(length));
    }
    answer
}

pub fn expect_read(opcode: Opcode, raw: &RawResponse, output: Output) {
    let expected = response(raw.bytes().len(), raw.status, output);
    assert_eq!(read_and_wait(opcode, raw), expected, "{raw:X?}");
}

pub fn expect_refused(opcode: Opcode, raw: &RawResponse, at: usize, refusal: ReadRefusal) {
    assert_eq!(read_and_wait(opcode, raw), refused(at, refusal), "{raw:X?}");
}

pub fn expect_output(opcode: Opcode, body: &[u8], output: Output) {
    expect_read(opcode, &RawResponse::to(opcode, body), output);
}

pub fn expect_unreadable(opcode: Opcode, body: &[u8]) {
    let raw = RawResponse::to(opcode, body);
    expect_refused(opcode, &raw, 26 + body.len(), ReadRefusal::UnreadableBody);
}

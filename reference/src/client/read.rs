//! Reading a response, uncut and in chunks, and what is refused at which byte.
//! Document 02, "The client's half", "Unlisted fields", "Checking signatures", "Where the body broke"
//! and "A second body format"; document 01, "Bytes on the wire" and the paragraph on reading.

use crate::message::{Body, BodyFormat, Kind, Unreadable};
use crate::opcode::{CoreOpcode, KeystoreOpcode, Opcode};
use crate::status::Status;
use crate::wire::{
    magic_is_good, response_header_size_is_good, Echo, ResponseHeader, RESPONSE_HEADER_LENGTH,
    START_LENGTH,
};

/// A header, and content of the most bytes that are read.
pub const LONGEST_READABLE_RESPONSE: usize = RESPONSE_HEADER_LENGTH + LONGEST_CONTENT as usize;

const LONGEST_CONTENT: u32 = 998;

/// What a response carries besides its status; any status but 0 and 7 carries nothing.
#[derive(Clone, Debug, PartialEq, Eq)]
pub enum Output {
    Nothing,
    Version {
        major: u32,
        minor: u32,
    },
    Providers(Vec<u32>),
    Opcodes(Vec<u32>),
    Data(Vec<u8>),
    /// Of status 7: where in the request's body the tag of its first unreadable field starts.
    Offset(u32),
}

/// Why a response is not read; the cases stand in the order in which they are tried.
#[derive(Clone, Copy, Debug, PartialEq, Eq)]
pub enum ReadRefusal {
    WrongMagic,
    WrongHeaderSize,
    WrongVersion,
    WrongContentType,
    /// Opcode, session or provider is not its request's.
    NotItsRequests,
    ContentTooLong,
    UnreadableBody,
}

/// What the bytes so far say.
#[derive(Clone, Debug, PartialEq, Eq)]
pub enum Reading {
    Waiting,
    Response { status: u16, output: Output },
    Refused(ReadRefusal),
}

/// How many bytes were taken, and what is said then.
#[derive(Clone, Debug, PartialEq, Eq)]
pub struct ReadAnswer {
    pub taken: usize,
    pub reading: Reading,
}

impl ReadAnswer {
    fn refused(taken: usize, refusal: ReadRefusal) -> ReadAnswer {
        ReadAnswer {
            taken,
            reading: Reading::Refused(refusal),
        }
    }
}

/// The rule on uncut bytes: takes them up to the response's last or the refusal's, or all. `accept` is
/// the format that the request asked for.
pub fn read_response(opcode: Opcode, session: u64, accept: BodyFormat, bytes: &[u8]) -> ReadAnswer {
    let waiting = ReadAnswer {
        taken: bytes.len(),
        reading: Reading::Waiting,
    };
    let Some(start) = bytes.get(..START_LENGTH) else {
        return waiting;
    };
    if let Err(refusal) = judge_start(start) {
        return ReadAnswer::refused(START_LENGTH, refusal);
    }
    let Some(header) = bytes.get(..RESPONSE_HEADER_LENGTH) else {
        return waiting;
    };
    let header = ResponseHeader::read(header);
    let format = expected_format(accept, header.status);
    if let Err(refusal) = judge_header(&header, format, &request_echo(opcode, session)) {
        return ReadAnswer::refused(RESPONSE_HEADER_LENGTH, refusal);
    }
    let length = RESPONSE_HEADER_LENGTH + header.content_length as usize;
    match bytes.get(RESPONSE_HEADER_LENGTH..length) {
        Some(bytes) => ReadAnswer {
            taken: length,
            reading: read_whole(opcode, header.status, &Body { format, bytes }),
        },
        None => waiting,
    }
}

/// The one that was asked for, but on status 17 only the first.
fn expected_format(accept: BodyFormat, status: u16) -> BodyFormat {
    if status == Status::InvalidHeader.number() {
        BodyFormat::Protobuf
    } else {
        accept
    }
}

/// What the response must repeat.
fn request_echo(opcode: Opcode, session: u64) -> Echo {
    Echo {
        provider: opcode.provider() as u8,
        session,
        opcode: opcode.number(),
    }
}

fn judge_start(start: &[u8]) -> Result<(), ReadRefusal> {
    if !magic_is_good(start) {
        return Err(ReadRefusal::WrongMagic);
    }
    if !response_header_size_is_good(start) {
        return Err(ReadRefusal::WrongHeaderSize);
    }
    Ok(())
}

fn judge_header(
    header: &ResponseHeader,
    format: BodyFormat,
    request: &Echo,
) -> Result<(), ReadRefusal> {
    if (header.major, header.minor) != (1, 0) {
        return Err(ReadRefusal::WrongVersion);
    }
    if header.content_type != format.number() {
        return Err(ReadRefusal::WrongContentType);
    }
    if header.echo != *request && !is_invalid_header(header) {
        return Err(ReadRefusal::NotItsRequests);
    }
    if header.content_length > LONGEST_CONTENT {
        return Err(ReadRefusal::ContentTooLong);
    }
    Ok(())
}

/// Is this the answer to a request of which the service read no provider, session or opcode?
fn is_invalid_header(header: &ResponseHeader) -> bool {
    header.status == Status::InvalidHeader.number()
        && header.echo == Echo::default()
        && header.content_length == 0
}

fn read_whole(opcode: Opcode, status: u16, body: &Body) -> Reading {
    let output = if status == Status::Success.number() {
        read_output(opcode, body)
    } else if status == Status::DeserializingBodyFailed.number() {
        read_offset(body)
    } else {
        read_no_body(body)
    };
    match output {
        Ok(output) => Reading::Response { status, output },
        Err(_) => Reading::Refused(ReadRefusal::UnreadableBody),
    }
}

fn read_output(opcode: Opcode, body: &Body) -> Result<Output, Unreadable> {
    match opcode {
        Opcode::Core(CoreOpcode::Ping) => read_version(body),
        Opcode::Core(CoreOpcode::ListProviders) => read_list(body).map(Output::Providers),
        Opcode::Core(CoreOpcode::ListOpcodes) => read_list(body).map(Output::Opcodes),
        Opcode::Keystore(
            KeystoreOpcode::Import | KeystoreOpcode::Destroy | KeystoreOpcode::Verify,
        ) => body.read(&[]).map(|_| Output::Nothing),
        Opcode::Keystore(KeystoreOpcode::Export) => read_data(body),
    }
}

/// On any other status a body is refused, one of unlisted fields too.
fn read_no_body(body: &Body) -> Result<Output, Unreadable> {
    if body.bytes.is_empty() {
        Ok(Output::Nothing)
    } else {
        Err(Unreadable { at: 0 })
    }
}

fn read_offset(body: &Body) -> Result<Output, Unreadable> {
    let message = body.read(&[Kind::Uint32])?;
    Ok(Output::Offset(message.uint32(1)))
}

fn read_version(body: &Body) -> Result<Output, Unreadable> {
    let message = body.read(&[Kind::Uint32; 2])?;
    Ok(Output::Version {
        major: message.uint32(1),
        minor: message.uint32(2),
    })
}

/// Packed lists are read where they stand, and the last one counts: they are not joined. An entry that
/// is not packed has another wire type, and is skipped.
fn read_list(body: &Body) -> Result<Vec<u32>, Unreadable> {
    Ok(body.read(&[Kind::List])?.list(1))
}

/// Data of any length that the content allows: its bounds are Import's.
fn read_data(body: &Body) -> Result<Output, Unreadable> {
    let message = body.read(&[Kind::Bytes])?;
    Ok(Output::Data(message.bytes(1).to_vec()))
}

/// Reads the response to one request from chunks of any length.
#[derive(Clone, Debug, PartialEq, Eq)]
pub struct Reader {
    pub(super) opcode: Opcode,
    pub(super) session: u64,
    pub(super) accept: BodyFormat,
    /// The bytes taken so far, at most those of the longest readable response.
    pub(super) held: Vec<u8>,
}

impl Reader {
    pub fn begin(opcode: Opcode, session: u64, accept: BodyFormat) -> Reader {
        Reader {
            opcode,
            session,
            accept,
            held: Vec::new(),
        }
    }

    /// Takes bytes up to the response's last or the refusal's, or all; after either, none.
    pub fn read(&mut self, chunk: &[u8]) -> ReadAnswer {
        let reading = self.reading();
        if reading != Reading::Waiting {
            return ReadAnswer { taken: 0, reading };
        }
        let held = self.held.len();
        // Nothing is taken past the longest response, so the rest of the chunk says nothing.
        let most = chunk.len().min(LONGEST_READABLE_RESPONSE - held);
        self.held.extend_from_slice(&chunk[..most]);
        let answer = self.answer();
        self.held.truncate(answer.taken);
        ReadAnswer {
            taken: answer.taken - held,
            reading: answer.reading,
        }
    }

    /// What the bytes held say; those behind a response or a refusal are ignored.
    fn reading(&self) -> Reading {
        self.answer().reading
    }

    fn answer(&self) -> ReadAnswer {
        read_response(self.opcode, self.session, self.accept, &self.held)
    }
}

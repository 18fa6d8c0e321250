//! The byte layouts of a request's header and of a response's header.
//! Document 01, "Bytes on the wire".

use crate::bytes::{read_u16, read_u32, read_u64, write_at};
use crate::message::BodyFormat;
use crate::status::Status;
use std::ops::RangeInclusive;

/// Magic and H, the bytes that H does not count.
pub const START_LENGTH: usize = 6;
pub const MAX_CONTENT_LENGTH: u32 = 4_096;
pub const MAX_AUTH_LENGTH: u16 = 256;
/// The longest request that is not oversized.
pub const LONGEST_REQUEST: usize = START_LENGTH
    + *HEADER_SIZES.end() as usize
    + MAX_CONTENT_LENGTH as usize
    + MAX_AUTH_LENGTH as usize;
/// The header of the shortest H, with which the client writes.
pub const SHORTEST_HEADER_LENGTH: usize = START_LENGTH + *HEADER_SIZES.start() as usize;
pub const RESPONSE_HEADER_LENGTH: usize = START_LENGTH + RESPONSE_HEADER_SIZE as usize;

const MAGIC: u32 = 0x5EC0_A710;
const HEADER_SIZES: RangeInclusive<u16> = 22..=64;
const RESPONSE_HEADER_SIZE: u16 = 20;

/// Is this a good magic and a good H? `start` has at least six bytes.
pub fn start_is_good(start: &[u8]) -> bool {
    magic_is_good(start) && HEADER_SIZES.contains(&read_u16(start, 4))
}

/// Is this a good magic, of a request or of a response? `start` has at least six bytes.
pub fn magic_is_good(start: &[u8]) -> bool {
    read_u32(start, 0) == MAGIC
}

/// Is this a response's H? `start` has at least six bytes.
pub fn response_header_size_is_good(start: &[u8]) -> bool {
    read_u16(start, 4) == RESPONSE_HEADER_SIZE
}

/// How many bytes the whole header takes, 6 + H. `start` has at least six bytes.
pub fn header_length(start: &[u8]) -> usize {
    START_LENGTH + usize::from(read_u16(start, 4))
}

/// The fields of a whole header; bytes past the 22nd behind H are ignored.
#[derive(Clone, Copy, Debug)]
pub struct Header {
    /// 6 + H: the body starts here.
    pub length: usize,
    pub major: u8,
    pub minor: u8,
    pub provider: u8,
    pub session: u64,
    pub content_type: u8,
    pub accept_type: u8,
    pub auth_type: u8,
    /// C in document 01.
    pub content_length: u32,
    /// A in document 01.
    pub auth_length: u16,
    pub opcode: u16,
}

impl Header {
    /// Reads a whole header whose magic and H are good.
    pub fn read(bytes: &[u8]) -> Header {
        Header {
            length: header_length(bytes),
            major: bytes[6],
            minor: bytes[7],
            provider: bytes[8],
            session: read_u64(bytes, 9),
            content_type: bytes[17],
            accept_type: bytes[18],
            auth_type: bytes[19],
            content_length: read_u32(bytes, 20),
            auth_length: read_u16(bytes, 24),
            opcode: read_u16(bytes, 26),
        }
    }

    /// Writes the first 28 bytes of the header and leaves the rest of the buffer alone.
    pub fn write(&self, request: &mut [u8]) {
        write_at(request, 0, &MAGIC.to_le_bytes());
        let header_size = (self.length - START_LENGTH) as u16;
        write_at(request, 4, &header_size.to_le_bytes());
        write_at(request, 6, &[self.major, self.minor, self.provider]);
        write_at(request, 9, &self.session.to_le_bytes());
        write_at(request, 17, &[self.content_type, self.accept_type]);
        write_at(request, 19, &[self.auth_type]);
        write_at(request, 20, &self.content_length.to_le_bytes());
        write_at(request, 24, &self.auth_length.to_le_bytes());
        write_at(request, 26, &self.opcode.to_le_bytes());
    }

    pub fn is_oversized(&self) -> bool {
        self.content_length > MAX_CONTENT_LENGTH || self.auth_length > MAX_AUTH_LENGTH
    }

    /// C + A, which may exceed 32 bits.
    pub fn payload_length(&self) -> u64 {
        u64::from(self.content_length) + u64::from(self.auth_length)
    }

    /// 6 + H + C + A.
    pub fn request_length(&self) -> u64 {
        self.length as u64 + self.payload_length()
    }

    pub fn echo(&self) -> Echo {
        Echo {
            provider: self.provider,
            session: self.session,
            opcode: self.opcode,
        }
    }
}

/// What a response repeats of its request; all zero under `InvalidHeader`.
#[derive(Clone, Copy, Debug, Default, PartialEq, Eq)]
pub struct Echo {
    pub provider: u8,
    pub session: u64,
    pub opcode: u16,
}

/// Writes the 26 bytes of a response's header and leaves the rest of the buffer alone.
pub fn write_response_header(
    response: &mut [u8],
    echo: Echo,
    format: BodyFormat,
    status: Status,
    content_length: usize,
) {
    write_at(response, 0, &MAGIC.to_le_bytes());
    write_at(response, 4, &RESPONSE_HEADER_SIZE.to_le_bytes());
    write_at(response, 6, &[1, 0, echo.provider]);
    write_at(response, 9, &echo.session.to_le_bytes());
    write_at(response, 17, &[format.number()]);
    write_at(response, 18, &(content_length as u32).to_le_bytes());
    write_at(response, 22, &echo.opcode.to_le_bytes());
    write_at(response, 24, &status.number().to_le_bytes());
}

/// The fields of a response's header, behind its magic and H.
#[derive(Clone, Copy, Debug)]
pub struct ResponseHeader {
    pub major: u8,
    pub minor: u8,
    pub echo: Echo,
    pub content_type: u8,
    pub content_length: u32,
    /// A number that no table lists too.
    pub status: u16,
}

impl ResponseHeader {
    /// Reads a whole header whose magic and H are good.
    pub fn read(bytes: &[u8]) -> ResponseHeader {
        ResponseHeader {
            major: bytes[6],
            minor: bytes[7],
            echo: Echo {
                provider: bytes[8],
                session: read_u64(bytes, 9),
                opcode: read_u16(bytes, 22),
            },
            content_type: bytes[17],
            content_length: read_u32(bytes, 18),
            status: read_u16(bytes, 24),
        }
    }
}

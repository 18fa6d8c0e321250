//! A response's reader.

use crate::{raw, BodyFormat, Opcode, Output, Request, Status, STATE_SIZE};
use core::fmt;

/// Reads the response to one request. Its state is well formed always: only reading changes it.
#[derive(Clone, PartialEq, Eq)]
pub struct Reader {
    state: [u8; STATE_SIZE],
    /// The format that the response's body has: the state has it too.
    accept_type: BodyFormat,
    /// What the last call said; its places are those of `state`. How many bytes it took is no part
    /// of the reader, and left 0.
    last: raw::Answer,
}

/// What is said before the first byte.
const WAITING: raw::Answer = raw::Answer {
    code: 0,
    status: 0,
    taken: 0,
    output: raw::OutputNumbers {
        kind: 0,
        major: 0,
        minor: 0,
        offset: 0,
        start: 0,
        length: 0,
    },
};

impl Reader {
    /// The reader of the response to this request.
    pub fn begin(request: &Request) -> Reader {
        Reader::awaiting(
            request.operation.opcode(),
            request.session,
            request.accept_type,
        )
    }

    /// The reader of the response to a request of this opcode, session and accept type, which may be
    /// another program's.
    ///
    /// ```
    /// use razidkot_client::{BodyFormat, Opcode, Output, Reader, Reading, Response, Status};
    ///
    /// // Byte 12 of the import's body is the first byte of a field that can't be read.
    /// let response = b"\x10\xA7\xC0\x5E\x14\0\x01\0\x01\x05\0\0\0\0\0\0\0\x01\x02\0\0\0\x06\0\x07\0\x08\x0C";
    /// let mut reader = Reader::awaiting(Opcode::PsaImportKey, 5, BodyFormat::Protobuf);
    /// let Reading::Response(response) = reader.read(response).said? else {
    ///     panic!("it is whole");
    /// };
    /// assert_eq!(response.listed_status(), Some(Status::DeserializingBodyFailed));
    /// assert_eq!(response.output, Output::Offset(12));
    /// # Ok::<(), Box<dyn std::error::Error>>(())
    /// ```
    pub fn awaiting(opcode: Opcode, session: u64, accept_type: BodyFormat) -> Reader {
        let mut state = [0; STATE_SIZE];
        let code = raw::begin(&mut state, opcode.number(), session, accept_type.number());
        assert_eq!(code, 0, "the exact size, a listed opcode and a listed type");
        Reader {
            state,
            accept_type,
            last: WAITING,
        }
    }

    /// Takes bytes of `chunk` to the response's last, or to the one that brings a refusal, or to the
    /// chunk's end. A chunk may have any length and end anywhere. What is left of it is no part of
    /// this response: where several requests were sent, it is the beginning of the next one's.
    /// After a response or a refusal nothing is taken, and the same is said.
    ///
    /// ```
    /// use razidkot_client::{Operation, Output, ReadRefusal, Reader, Reading, Request, Status};
    ///
    /// let ping = Request::new(5, None, Operation::Ping);
    /// let response = b"\x10\xA7\xC0\x5E\x14\0\x01\0\0\x05\0\0\0\0\0\0\0\x01\x02\0\0\0\x01\0\0\0\x08\x01";
    ///
    /// let mut reader = Reader::begin(&ping);
    /// let answer = reader.read(&response[..20]);
    /// assert_eq!((answer.taken, answer.said), (20, Ok(Reading::Waiting)));
    /// // Its other 8 bytes, and the first of the next response, which is not taken.
    /// let chunk = [&response[20..], b"\x10"].concat();
    /// let answer = reader.read(&chunk);
    /// assert_eq!(answer.taken, 8);
    /// let Reading::Response(response) = answer.said? else {
    ///     panic!("it is whole");
    /// };
    /// assert_eq!(response.listed_status(), Some(Status::Success));
    /// assert_eq!(response.output, Output::Version { major: 1, minor: 0 });
    ///
    /// let mut reader = Reader::begin(&ping);
    /// let answer = reader.read(b"HTTP/1.0 400 Bad Request");
    /// assert_eq!((answer.taken, answer.said), (6, Err(ReadRefusal::WrongMagic)));
    /// # Ok::<(), Box<dyn std::error::Error>>(())
    /// ```
    pub fn read(&mut self, chunk: &[u8]) -> Answer<'_> {
        let answer = raw::read(&mut self.state, chunk);
        self.last = raw::Answer { taken: 0, ..answer };
        Answer {
            taken: answer.taken,
            said: self.said(),
        }
    }

    /// What the bytes that were taken come to: what the last [`read`](Reader::read) said.
    pub fn said(&self) -> Result<Reading<'_>, ReadRefusal> {
        match self.last.code {
            0 => Ok(Reading::Waiting),
            1 => Ok(Reading::Response(Response {
                status: self.last.status as u16,
                output: Output::placed(self.last.output, &self.state, self.accept_type),
            })),
            2 => unreachable!("a reader's state is well formed"),
            code => Err(ReadRefusal::ALL[code as usize - 3]),
        }
    }

    /// The state's bytes, in the layout of docs/LAYOUT.md.
    pub fn memory(&self) -> &[u8] {
        &self.state
    }
}

impl fmt::Debug for Reader {
    fn fmt(&self, out: &mut fmt::Formatter) -> fmt::Result {
        out.debug_struct("Reader")
            .field("said", &self.said())
            .finish_non_exhaustive()
    }
}

/// What reading a chunk comes to.
#[derive(Clone, Debug, PartialEq, Eq)]
pub struct Answer<'a> {
    /// Bytes of the chunk, up to the one that brought a response or a refusal.
    pub taken: usize,
    /// What all bytes so far say.
    pub said: Result<Reading<'a>, ReadRefusal>,
}

/// What bytes of a response that is not refused say.
#[derive(Clone, Debug, PartialEq, Eq)]
pub enum Reading<'a> {
    /// It goes on.
    Waiting,
    /// It is whole.
    Response(Response<'a>),
}

/// A response.
#[derive(Clone, Debug, PartialEq, Eq)]
pub struct Response<'a> {
    /// The number on the wire, listed or not; 0 says that the request was served.
    pub status: u16,
    /// Of status 0 what the request asked for, of status 7 where its body broke, of any other
    /// nothing.
    pub output: Output<'a>,
}

impl Response<'_> {
    /// The status by its name, if it is listed.
    pub fn listed_status(&self) -> Option<Status> {
        Status::from_number(self.status)
    }
}

/// Why a response is not read; the first that applies, in this order.
#[derive(Clone, Copy, Debug, PartialEq, Eq)]
#[repr(u32)]
pub enum ReadRefusal {
    /// At the sixth byte: it does not begin with the magic number.
    WrongMagic = 3,
    /// At the sixth byte: a header size other than 20.
    WrongHeaderSize = 4,
    /// At the header's last byte, the 26th: a version other than 1.0.
    WrongVersion = 5,
    /// At the header's last byte: a content type other than its request's accept type; with status 17
    /// other than 1.
    WrongContentType = 6,
    /// At the header's last byte: opcode, session or provider is not its request's, nor is it a
    /// status 17 with none.
    NotItsRequests = 7,
    /// At the header's last byte: content above 998 bytes.
    ContentTooLong = 8,
    /// At the body's last byte: on status 0 not the output of that operation, on status 7 no offset,
    /// on any other status any body.
    UnreadableBody = 9,
}

impl ReadRefusal {
    /// Every refusal, in the order in which they are judged.
    pub const ALL: [ReadRefusal; 7] = [
        ReadRefusal::WrongMagic,
        ReadRefusal::WrongHeaderSize,
        ReadRefusal::WrongVersion,
        ReadRefusal::WrongContentType,
        ReadRefusal::NotItsRequests,
        ReadRefusal::ContentTooLong,
        ReadRefusal::UnreadableBody,
    ];

    /// The number that the archive says, `raw::Answer::code`.
    pub fn number(self) -> u32 {
        self as u32
    }
}

impl fmt::Display for ReadRefusal {
    fn fmt(&self, out: &mut fmt::Formatter) -> fmt::Result {
        let why = match self {
            ReadRefusal::WrongMagic => "no magic number",
            ReadRefusal::WrongHeaderSize => "a header size other than 20",
            ReadRefusal::WrongVersion => "a version other than 1.0",
            ReadRefusal::WrongContentType => "a content type other than its request's accept type",
            ReadRefusal::NotItsRequests => "opcode, session or provider not its request's",
            ReadRefusal::ContentTooLong => "content above 998 bytes",
            ReadRefusal::UnreadableBody => "an unreadable body",
        };
        write!(out, "response not read: {why}")
    }
}

impl core::error::Error for ReadRefusal {}

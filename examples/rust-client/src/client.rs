//! The client on a stream: what a program with a socket would copy.

use razidkot_client::{Reader, Reading, Request, LEAST_REQUEST_BUFFER};
use std::error::Error;
use std::io::{self, ErrorKind, Read, Write};

/// Bytes asked of the stream at a time; so few that responses lie across chunks. A socket's would be
/// some thousand.
const CHUNK: usize = 7;

pub struct Client<S> {
    stream: S,
    /// The last chunk; its bytes from `at` to `end` are not taken yet.
    chunk: [u8; CHUNK],
    at: usize,
    end: usize,
}

impl<S: Read + Write> Client<S> {
    pub fn new(stream: S) -> Client<S> {
        Client {
            stream,
            chunk: [0; CHUNK],
            at: 0,
            end: 0,
        }
    }

    /// Sends a request and reads its response. Nothing is sent of one that is refused.
    pub fn ask(&mut self, request: &Request) -> Result<Reader, Box<dyn Error>> {
        let mut reader = self.send(request)?;
        self.receive(&mut reader)?;
        Ok(reader)
    }

    /// Sends a request, and gives the reader of its response.
    pub fn send(&mut self, request: &Request) -> Result<Reader, Box<dyn Error>> {
        let mut buffer = [0; LEAST_REQUEST_BUFFER];
        let written = request.write(&mut buffer)?;
        self.stream.write_all(&buffer[..written])?;
        Ok(Reader::begin(request))
    }

    /// Reads one response: what is left of the last chunk first, then as many chunks as it takes. What
    /// is left of the last of these is the next response's.
    pub fn receive(&mut self, reader: &mut Reader) -> Result<(), Box<dyn Error>> {
        loop {
            let answer = reader.read(&self.chunk[self.at..self.end]);
            self.at += answer.taken;
            // After a refusal it is not known where the next response begins: the stream is at its end.
            if answer.said? != Reading::Waiting {
                return Ok(());
            }
            (self.at, self.end) = (0, self.stream.read(&mut self.chunk)?);
            if self.end == 0 {
                return Err(io::Error::from(ErrorKind::UnexpectedEof).into());
            }
        }
    }
}

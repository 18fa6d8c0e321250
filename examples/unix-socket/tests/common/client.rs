//! A client on a socket that writes and reads with the proved code.

use super::connect;
use razidkot_client::{Import, Operation, Output, Reader, Reading, Request, LEAST_REQUEST_BUFFER};
use std::io::{self, ErrorKind, Read, Write};
use std::os::unix::net::UnixStream;
use std::path::Path;

pub struct Client {
    pub socket: UnixStream,
    application: Option<&'static [u8]>,
    session: u64,
    sent: u64,
}

impl Client {
    /// One of an application, or of nobody.
    pub fn connect(path: &Path, application: Option<&'static [u8]>) -> Client {
        Client {
            socket: connect(path),
            application,
            session: 0,
            sent: 0,
        }
    }

    /// The bytes of the next request, which has a session of its own, and the reader of its response.
    pub fn write(&mut self, operation: Operation) -> (Vec<u8>, Reader) {
        self.session += 1;
        let request = Request::new(self.session, self.application, operation);
        let mut buffer = [0; LEAST_REQUEST_BUFFER];
        let written = request.write(&mut buffer).expect("a legal request");
        (buffer[..written].to_vec(), Reader::begin(&request))
    }

    pub fn send(&mut self, operation: Operation) -> Reader {
        let (request, reader) = self.write(operation);
        self.socket
            .write_all(&request)
            .expect("a server that reads");
        self.sent += request.len() as u64;
        reader
    }

    /// Reads one response and no byte more, and gives its status.
    pub fn receive(&mut self, reader: &mut Reader) -> io::Result<u16> {
        let mut byte = [0];
        loop {
            if let Reading::Response(response) = reader.said().expect("a response that is read") {
                return Ok(response.status);
            }
            match self.socket.read(&mut byte)? {
                0 => return Err(ErrorKind::UnexpectedEof.into()),
                _ => reader.read(&byte),
            };
        }
    }

    /// Asks, and gives the response's status.
    pub fn ask(&mut self, operation: Operation) -> u16 {
        let mut reader = self.send(operation);
        self.receive(&mut reader).expect("a response")
    }

    /// The data of a key that is there and may be exported.
    pub fn export(&mut self, name: &[u8]) -> Vec<u8> {
        let mut reader = self.send(Operation::ExportPublicKey { name });
        assert_eq!(self.receive(&mut reader).expect("a response"), 0);
        match reader.said() {
            Ok(Reading::Response(response)) => match response.output {
                Output::Data(data) => data.to_vec(),
                other => panic!("data was asked for, not {other:?}"),
            },
            other => panic!("it was whole, not {other:?}"),
        }
    }

    /// Bytes that it has sent.
    pub fn sent(&self) -> u64 {
        self.sent
    }
}

pub fn import<'a>(name: &'a [u8], data: &'a [u8]) -> Operation<'a> {
    Operation::ImportKey(Import {
        name,
        data,
        bits: 2_048,
        export_allowed: true,
        verify_allowed: false,
    })
}

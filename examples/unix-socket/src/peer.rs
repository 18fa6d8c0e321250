//! One connection: bytes read from its peer, handed to the service, and responses written.

use crate::{Ended, Fault, Rest, Shared, Undelivered};
use razidkot::{Buffers, Connection};
use std::io::{self, ErrorKind, Read, Write};
use std::net::Shutdown;
use std::os::unix::net::UnixStream;

/// How many bytes are read at a time; a call takes up to 65,536.
const CHUNK: usize = 8_192;

/// Serves a peer until it ends, can't be read from, or sends what is no request.
pub fn serve(stream: &UnixStream, shared: &Shared) -> Ended {
    let mut peer = Peer {
        stream,
        shared,
        connection: Connection::open(),
        rest: Rest::default(),
        undelivered: None,
    };
    let fault = peer.serve().err();
    let unfinished = match peer.connection.is_closed() {
        true => 0,
        false => peer.rest.length(),
    };
    shared.end(peer.rest);
    Ended {
        unfinished,
        undelivered: peer.undelivered,
        fault,
    }
}

/// What each connection has for itself, and what is shared.
struct Peer<'a> {
    stream: &'a UnixStream,
    shared: &'a Shared,
    connection: Connection,
    rest: Rest,
    undelivered: Option<Undelivered>,
}

impl Peer<'_> {
    fn serve(&mut self) -> Result<(), Fault> {
        let mut chunk = [0; CHUNK];
        loop {
            match read_some(self.stream, &mut chunk).map_err(Fault::Read)? {
                0 => return Ok(()),
                size => self.take(&chunk[..size])?,
            }
            if self.connection.is_closed() {
                // The peer can send no more. What it has sent is read to its end, and dropped: left
                // unread, it would have the peer see an error in place of the end. One that is gone
                // needs no end.
                let _ = self.stream.shutdown(Shutdown::Both);
            }
        }
    }

    /// Hands a chunk over, and what is left of it again, until all of it is taken. Every response
    /// is written whole before the next call, which writes over it.
    fn take(&mut self, chunk: &[u8]) -> Result<(), Fault> {
        let mut buffers = Buffers::new();
        let mut left = chunk;
        while !left.is_empty() {
            let (connection, rest) = (&mut self.connection, &mut self.rest);
            let answer = self
                .shared
                .call(connection, rest, left, &mut buffers)
                .map_err(|error| Fault::NotTaken {
                    error,
                    bytes: left.len(),
                })?;
            if let Some(response) = answer.response {
                self.deliver(response);
            }
            left = &left[answer.taken..];
        }
        Ok(())
    }

    /// Writes the response. Once one has failed, part of it may be out, and no other may follow;
    /// requests are taken on, so that what is counted doesn't hang on when the peer left.
    fn deliver(&mut self, response: &[u8]) {
        if let Some(undelivered) = &mut self.undelivered {
            undelivered.responses += 1;
            undelivered.bytes += response.len() as u64;
            return;
        }
        if let Err((left, error)) = write_whole(self.stream, response) {
            self.undelivered = Some(Undelivered {
                error,
                responses: 1,
                bytes: left as u64,
            });
            // For a peer that still reads. To one that is gone it fails, and nothing more is lost.
            let _ = self.stream.shutdown(Shutdown::Write);
        }
    }
}

/// The next bytes, one at least unless the peer has ended.
fn read_some(mut stream: &UnixStream, chunk: &mut [u8]) -> io::Result<usize> {
    loop {
        match stream.read(chunk) {
            Err(error) if error.kind() == ErrorKind::Interrupted => {}
            other => return other,
        }
    }
}

/// Writes on where the socket took only a part. An error comes with how many bytes are left.
fn write_whole(mut stream: &UnixStream, bytes: &[u8]) -> Result<(), (usize, io::Error)> {
    let mut left = bytes;
    while !left.is_empty() {
        match stream.write(left) {
            Ok(0) => return Err((left.len(), ErrorKind::WriteZero.into())),
            Ok(count) => left = &left[count..],
            Err(error) if error.kind() == ErrorKind::Interrupted => {}
            Err(error) => return Err((left.len(), error)),
        }
    }
    Ok(())
}

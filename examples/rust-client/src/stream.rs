//! The other end, in the same program: a stream to the service. What is written to it is handed to
//! calls, and their responses are there to be read.

use razidkot::{Buffers, Connection, List, NoJournal, Registry, RosterFault, Service};
use std::collections::VecDeque;
use std::io::{self, Read, Write};

pub struct Stream {
    service: Service<NoJournal>,
    connection: Connection,
    responses: VecDeque<u8>,
}

impl Stream {
    pub fn open(roster: &[u8]) -> Result<Stream, RosterFault> {
        Ok(Stream {
            service: Service::new(Registry::load(roster)?, List::new(), NoJournal),
            connection: Connection::open(),
            responses: VecDeque::new(),
        })
    }
}

impl Write for Stream {
    /// One call: it takes up to one request, and `write_all` hands over the rest.
    fn write(&mut self, bytes: &[u8]) -> io::Result<usize> {
        let mut buffers = Buffers::new();
        let answer = self
            .service
            .call(&mut self.connection, bytes, &mut buffers)
            .map_err(io::Error::other)?;
        self.responses.extend(answer.response.into_iter().flatten());
        Ok(answer.taken)
    }

    fn flush(&mut self) -> io::Result<()> {
        Ok(())
    }
}

impl Read for Stream {
    fn read(&mut self, chunk: &mut [u8]) -> io::Result<usize> {
        self.responses.read(chunk)
    }
}

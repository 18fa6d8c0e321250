//! A connection: what the service keeps of it between two calls.

use crate::{raw, Held, CONNECTION_SIZE};
use std::fmt;

/// A connection, well formed always: only calls change it.
#[derive(Clone, PartialEq, Eq)]
pub struct Connection {
    memory: Box<[u8]>,
}

/// The kind of a closed connection, byte 0 of its memory.
const CLOSED: u8 = 2;

impl Connection {
    /// A fresh connection: open, and holding nothing.
    pub fn open() -> Connection {
        let mut memory = vec![0; CONNECTION_SIZE].into_boxed_slice();
        raw::open_connection(&mut memory).expect("memory of the exact size");
        Connection { memory }
    }

    /// Has a request with a wrong start closed it? Later bytes are taken and dropped.
    pub fn is_closed(&self) -> bool {
        self.memory[0] == CLOSED
    }

    /// What it holds of a request that is not finished.
    ///
    /// ```
    /// use razidkot::{Buffers, Connection, Held, List, NoJournal, Registry, Service};
    ///
    /// let mut connection = Connection::open();
    /// assert_eq!(connection.held(), Held::Beginning(b""));
    ///
    /// let mut service = Service::new(Registry::load(b"")?, List::new(), NoJournal);
    /// service.call(&mut connection, b"\x10\xA7\xC0", &mut Buffers::new())?;
    /// assert_eq!(connection.held(), Held::Beginning(b"\x10\xA7\xC0"));
    /// assert_eq!(connection.held().count(), 3, "as the bill says");
    /// # Ok::<(), Box<dyn std::error::Error>>(())
    /// ```
    pub fn held(&self) -> Held<'_> {
        Held::of(&self.memory)
    }

    /// The connection's bytes, in the layout of docs/LAYOUT.md.
    pub fn memory(&self) -> &[u8] {
        &self.memory
    }

    pub(crate) fn memory_mut(&mut self) -> &mut [u8] {
        &mut self.memory
    }
}

impl fmt::Debug for Connection {
    fn fmt(&self, out: &mut fmt::Formatter) -> fmt::Result {
        out.debug_struct("Connection").finish_non_exhaustive()
    }
}

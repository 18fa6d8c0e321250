//! The service, and the call on it.

use crate::{raw, Connection, Counters, Journal, List, Refusal, Registry};
use crate::{LEAST_BILL_BUFFER, LEAST_JOURNAL_BUFFER, LEAST_RESPONSE_BUFFER};
use std::fmt;

/// What all connections share: the registry, the list of shipped keys, the counters, and the journal.
/// It lends the first three to each call, and hands each record to the journal.
///
/// Calls take `&mut`, so connections take turns. Put it into a `Mutex` to share it between threads.
#[derive(Clone, Debug, PartialEq, Eq)]
pub struct Service<J> {
    registry: Registry,
    list: List,
    counters: Counters,
    journal: J,
    /// Has the registry a change that the journal has not?
    is_ahead: bool,
}

impl<J: Journal> Service<J> {
    /// A service with this registry, this list and this journal. All counters are 0. The registry is
    /// what the journal's records so far give: see [`JournalReader`](crate::JournalReader).
    ///
    /// ```
    /// use razidkot::{List, NoJournal, Registry, Service};
    ///
    /// # let (roster_file, list_file) = (b"\x01\x07\x00scanner", b"");
    /// // Keys are lost at the next start. Without shipped keys the list is `List::new()`.
    /// let (registry, list) = (Registry::load(roster_file)?, List::from_bytes(list_file)?);
    /// let service = Service::new(registry, list, NoJournal);
    /// assert_eq!(service.counters().taken, 0);
    /// # Ok::<(), Box<dyn std::error::Error>>(())
    /// ```
    ///
    /// A journal that outlasts a power cut is a file to which each record is synced:
    ///
    /// ```no_run
    /// use razidkot::{Journal, JournalReader, List, Registry, Service};
    /// use std::fs::{self, File, OpenOptions};
    /// use std::io::{self, Write};
    ///
    /// struct OnDisk(File);
    ///
    /// impl Journal for OnDisk {
    ///     type Error = io::Error;
    ///
    ///     fn append(&mut self, record: &[u8]) -> io::Result<()> {
    ///         self.0.write_all(record)?;
    ///         self.0.sync_data()
    ///     }
    /// }
    ///
    /// let mut reader = JournalReader::begin(Registry::load(&fs::read("keys.roster")?)?);
    /// reader.read(&fs::read("keys.journal")?)?;
    /// let restored = reader.finish()?;
    /// let file = OpenOptions::new().append(true).open("keys.journal")?;
    /// // A record that was cut would make all behind it unreadable.
    /// file.set_len(restored.kept)?;
    /// file.sync_all()?;
    /// let service = Service::new(restored.registry, List::new(), OnDisk(file));
    /// # Ok::<(), Box<dyn std::error::Error>>(())
    /// ```
    pub fn new(registry: Registry, list: List, journal: J) -> Service<J> {
        Service {
            registry,
            list,
            counters: Counters::default(),
            journal,
            is_ahead: false,
        }
    }

    /// Takes bytes of `chunk` until one response is written, or to the chunk's end. What is left of
    /// the chunk is for the caller to hand over again. A chunk may end anywhere within a request. A
    /// call that is not taken changes nothing.
    ///
    /// The record of a served import or destroy is handed to the journal first: the response is only
    /// there once the journal has taken it. If the journal fails, there is no answer to this call and
    /// to no later one.
    ///
    /// The types leave two refusals: [`Refusal::ChunkTooLong`] and [`Refusal::CounterTooHigh`].
    ///
    /// ```
    /// use razidkot::{Buffers, CallError, Connection, List, NoJournal, Refusal, Registry, Service};
    /// use razidkot::LONGEST_CHUNK;
    ///
    /// // Ping: magic, H, version 1.0, provider, session, types, lengths, opcode 1.
    /// let ping = *b"\x10\xA7\xC0\x5E\x16\x00\x01\x00\x00\0\0\0\0\0\0\0\0\x01\x01\x00\0\0\0\0\0\0\x01\x00";
    /// let mut service = Service::new(Registry::load(b"")?, List::new(), NoJournal);
    /// let mut connection = Connection::open();
    /// let mut buffers = Buffers::new();
    ///
    /// // The first bytes are held, the others bring the response.
    /// let first = service.call(&mut connection, &ping[..9], &mut buffers)?;
    /// assert_eq!((first.taken, first.response), (9, None));
    /// let second = service.call(&mut connection, &ping[9..], &mut buffers)?;
    /// assert_eq!(second.taken, 19);
    /// let response = second.response.expect("the request is finished");
    /// assert_eq!(response[26..], [8, 1], "major version 1");
    /// assert_eq!(service.counters().unauthenticated, 1);
    ///
    /// let long = [0; LONGEST_CHUNK + 1];
    /// let refused = service.call(&mut connection, &long, &mut buffers);
    /// assert_eq!(refused, Err(CallError::NotTaken(Refusal::ChunkTooLong)));
    /// # Ok::<(), Box<dyn std::error::Error>>(())
    /// ```
    pub fn call<'a>(
        &mut self,
        connection: &mut Connection,
        chunk: &[u8],
        buffers: &'a mut Buffers,
    ) -> Result<Answer<'a>, CallError<J::Error>> {
        if self.is_ahead {
            return Err(CallError::Stopped);
        }
        let answer = raw::call(
            chunk,
            connection.memory_mut(),
            self.registry.memory_mut(),
            self.list.bytes(),
            &mut self.counters,
            &mut buffers.response,
            &mut buffers.journal,
        );
        let answer = answer.result().map_err(CallError::NotTaken)?;
        if answer.recorded > 0 {
            self.record(&buffers.journal[..answer.recorded])?;
        }
        let written = answer.written;
        Ok(Answer {
            taken: answer.taken,
            response: (written > 0).then_some(&buffers.response[..written]),
        })
    }

    /// Hands a record to the journal. One that panics leaves the service stopped, as one that fails.
    fn record(&mut self, record: &[u8]) -> Result<(), CallError<J::Error>> {
        self.is_ahead = true;
        self.journal
            .append(record)
            .map_err(CallError::NotRecorded)?;
        self.is_ahead = false;
        Ok(())
    }
}

impl<J> Service<J> {
    /// The bill: bytes taken, requests served for each application, uses of each key that it holds,
    /// requests served with auth type 0, requests refused with each status, bytes dropped, and bytes
    /// that this connection holds. Each line ends with a newline.
    ///
    /// ```
    /// use razidkot::{Connection, List, NoJournal, Registry, Service};
    ///
    /// let service = Service::new(Registry::load(b"\x01\x01\x00b")?, List::new(), NoJournal);
    /// let bill = service.bill(&Connection::open());
    /// assert_eq!(bill, "taken 0\nline 0 b 0\nopen 0\ndropped 0\nheld 0\n");
    /// # Ok::<(), razidkot::RosterFault>(())
    /// ```
    pub fn bill(&self, connection: &Connection) -> String {
        let mut out = vec![0; LEAST_BILL_BUFFER];
        let (registry, connection) = (self.registry.memory(), connection.memory());
        let written = raw::bill(&mut out, &self.counters, registry, connection);
        out.truncate(written.expect("well-formed memory and room for any bill"));
        String::from_utf8(out).expect("names of visible ASCII")
    }

    /// The applications and their keys, as the last call left them.
    pub fn registry(&self) -> &Registry {
        &self.registry
    }

    /// The keys that every application may export and verify with besides its own.
    pub fn list(&self) -> &List {
        &self.list
    }

    /// From now on calls are lent this list.
    pub fn set_list(&mut self, list: List) {
        self.list = list;
    }

    /// What the calls have come to.
    pub fn counters(&self) -> &Counters {
        &self.counters
    }

    /// The counters, to be cleared, or to be set to those that were saved. A host that counts each
    /// connection apart swaps that connection's counters in before a call and out after it.
    ///
    /// ```
    /// # use razidkot::{Counters, List, NoJournal, Registry, Service};
    /// # let mut service = Service::new(Registry::load(b"")?, List::new(), NoJournal);
    /// # let saved = Counters { taken: 28, answered: 28, unauthenticated: 1, ..Counters::default() };
    /// *service.counters_mut() = saved;
    /// assert_eq!(service.counters().taken, 28);
    /// service.counters_mut().clear();
    /// assert_eq!(service.counters().taken, 0);
    /// # Ok::<(), razidkot::RosterFault>(())
    /// ```
    pub fn counters_mut(&mut self) -> &mut Counters {
        &mut self.counters
    }

    /// Where the records go.
    pub fn journal(&self) -> &J {
        &self.journal
    }
}

/// Memory that a call writes to. What it wrote is read from its [`Answer`]; the next call writes over
/// it. One serves any number of calls, on any connections.
#[derive(Clone, Debug)]
pub struct Buffers {
    response: [u8; LEAST_RESPONSE_BUFFER],
    journal: [u8; LEAST_JOURNAL_BUFFER],
}

impl Buffers {
    /// Memory with room for whatever a call writes.
    pub const fn new() -> Buffers {
        Buffers {
            response: [0; LEAST_RESPONSE_BUFFER],
            journal: [0; LEAST_JOURNAL_BUFFER],
        }
    }
}

impl Default for Buffers {
    fn default() -> Buffers {
        Buffers::new()
    }
}

/// What a call took and wrote.
#[derive(Clone, Copy, Debug, PartialEq, Eq)]
pub struct Answer<'a> {
    /// Bytes of the chunk.
    pub taken: usize,
    /// The response to the request that these bytes finished; `None` if none is due yet.
    pub response: Option<&'a [u8]>,
}

/// Why a call has no answer.
#[derive(Clone, Copy, Debug, PartialEq, Eq)]
pub enum CallError<E> {
    /// The call is not taken, and has changed nothing.
    NotTaken(Refusal),
    /// The journal failed with this. The registry is now ahead of it: send no response, and start
    /// again from the journal.
    NotRecorded(E),
    /// The journal failed in an earlier call. Nothing has changed.
    Stopped,
}

impl<E: fmt::Display> fmt::Display for CallError<E> {
    fn fmt(&self, out: &mut fmt::Formatter) -> fmt::Result {
        match self {
            CallError::NotTaken(refusal) => write!(out, "{refusal}"),
            CallError::NotRecorded(error) => write!(out, "journal not written: {error}"),
            CallError::Stopped => write!(out, "journal not written in an earlier call"),
        }
    }
}

impl<E: fmt::Debug + fmt::Display> std::error::Error for CallError<E> {}

#[cfg(test)]
mod tests {
    use super::*;
    use crate::{JournalReader, NoJournal, HIGHEST_COUNTER};
    use std::mem;

    /// An Export of the key `k` by the application `b`.
    const EXPORT: &[u8] = b"\x10\xA7\xC0\x5E\x16\x00\x01\x00\x01\0\0\0\0\0\0\0\0\x01\x01\x01\
        \x03\0\0\0\x01\0\x07\0\x0A\x01kb";

    /// An Import of the key `k`, data AA, 2,048 bits, export allowed, by the application `b`.
    const IMPORT: &[u8] = b"\x10\xA7\xC0\x5E\x16\x00\x01\x00\x01\0\0\0\0\0\0\0\0\x01\x01\x01\
        \x0B\0\0\0\x01\0\x06\0\x0A\x01k\x12\x01\xAA\x18\x80\x10\x20\x01b";

    fn registry() -> Registry {
        Registry::load(b"\x01\x01\x00b").expect("a good roster")
    }

    fn service() -> Service<NoJournal> {
        Service::new(registry(), List::new(), NoJournal)
    }

    /// Records in memory, with room for so many.
    #[derive(Clone, Debug, PartialEq, Eq)]
    struct InMemory {
        records: Vec<Vec<u8>>,
        room: usize,
    }

    impl Journal for InMemory {
        type Error = &'static str;

        fn append(&mut self, record: &[u8]) -> Result<(), &'static str> {
            if self.records.len() == self.room {
                return Err("no room");
            }
            self.records.push(record.to_vec());
            Ok(())
        }
    }

    fn recording(room: usize) -> Service<InMemory> {
        let records = Vec::new();
        Service::new(registry(), List::new(), InMemory { records, room })
    }

    #[test]
    fn a_record_is_with_the_journal_when_there_is_a_response() {
        let (mut service, mut connection) = (recording(1), Connection::open());
        let mut buffers = Buffers::new();
        let (front, back) = IMPORT.split_at(30);
        let answer = service.call(&mut connection, front, &mut buffers);
        assert_eq!(answer.map(|answer| answer.response), Ok(None));
        assert_eq!(service.journal().records.len(), 0);
        let answer = service.call(&mut connection, back, &mut buffers);
        let response = answer.expect("a journal with room").response;
        assert_eq!(response.map(|response| response[24]), Some(0));
        assert_eq!(service.journal().records.len(), 1);
        let mut reader = JournalReader::begin(registry());
        reader
            .read(&service.journal().records[0])
            .expect("a good record");
        assert_eq!(reader.registry(), service.registry());
        // An Export has no record.
        let answer = service.call(&mut connection, EXPORT, &mut buffers);
        assert!(answer.is_ok_and(|answer| answer.response.is_some()));
        assert_eq!(service.journal().records.len(), 1);
    }

    #[test]
    fn a_journal_that_fails_leaves_this_call_and_all_later_ones_without_an_answer() {
        let (mut service, mut connection) = (recording(0), Connection::open());
        let mut buffers = Buffers::new();
        let failed = service.call(&mut connection, IMPORT, &mut buffers);
        assert_eq!(failed, Err(CallError::NotRecorded("no room")));
        let before = (service.clone(), connection.clone());
        for chunk in [EXPORT, b""] {
            let stopped = service.call(&mut connection, chunk, &mut buffers);
            assert_eq!(stopped, Err(CallError::Stopped));
            assert!((&service, &connection) == (&before.0, &before.1));
        }
    }

    /// The status of the one response.
    fn ask(service: &mut Service<NoJournal>, connection: &mut Connection) -> u16 {
        let mut buffers = Buffers::new();
        let answer = service.call(connection, EXPORT, &mut buffers);
        let answer = answer.expect("a call that is taken");
        assert_eq!(answer.taken, EXPORT.len());
        let response = answer.response.expect("a whole request was sent");
        u16::from_le_bytes([response[24], response[25]])
    }

    #[test]
    fn a_list_that_is_set_is_lent_from_then_on() {
        let (mut service, mut connection) = (service(), Connection::open());
        assert_eq!(ask(&mut service, &mut connection), 1140);
        let mut list = List::new();
        list.push(b"k", b"\xAA").expect("a good key");
        service.set_list(list.clone());
        assert_eq!(ask(&mut service, &mut connection), 0);
        assert_eq!(service.list(), &list);
        service.set_list(List::new());
        assert_eq!(ask(&mut service, &mut connection), 1140);
    }

    #[test]
    fn connections_with_counters_of_their_own_are_counted_apart() {
        let mut service = service();
        let mut own = [Counters::default(), Counters::default()];
        for place in [0, 1, 1] {
            mem::swap(service.counters_mut(), &mut own[place]);
            ask(&mut service, &mut Connection::open());
            mem::swap(service.counters_mut(), &mut own[place]);
        }
        let length = EXPORT.len() as u64;
        assert_eq!([own[0].taken, own[1].taken], [length, 2 * length]);
        assert_eq!(service.counters(), &Counters::default());
    }

    #[test]
    fn a_refused_call_changes_nothing() {
        let (mut service, mut connection) = (service(), Connection::open());
        service.counters_mut().dropped = HIGHEST_COUNTER + 1;
        let before = (service.clone(), connection.clone());
        let mut buffers = Buffers::new();
        let refused = service.call(&mut connection, EXPORT, &mut buffers);
        assert_eq!(refused, Err(CallError::NotTaken(Refusal::CounterTooHigh)));
        assert!((&service, &connection) == (&before.0, &before.1));
        assert_eq!(buffers.response, Buffers::new().response);
    }
}

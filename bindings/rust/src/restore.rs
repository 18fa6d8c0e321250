//! A journal read back into a registry.

use crate::raw::{self, JournalEnd};
use crate::{JournalFault, Registry, JOURNAL_STATE_SIZE};
use std::fmt;

/// Reads a journal back, in chunks that may be cut anywhere.
///
/// ```
/// use razidkot::{JournalReader, Registry};
/// use std::io::Read;
///
/// /// The registry of this roster with the journal's keys, and how many of its bytes to keep.
/// fn restore(
///     roster: &[u8],
///     journal: &mut impl Read,
/// ) -> Result<(Registry, u64), Box<dyn std::error::Error>> {
///     let mut reader = JournalReader::begin(Registry::load(roster)?);
///     let mut chunk = vec![0; 65_536];
///     loop {
///         let length = journal.read(&mut chunk)?;
///         if length == 0 {
///             let restored = reader.finish()?;
///             return Ok((restored.registry, restored.kept));
///         }
///         reader.read(&chunk[..length])?;
///     }
/// }
///
/// // The application in line 0 imported the key "a". Then the lights went out.
/// let record = b"\x02\x09\0\0\0\x08\x01\0\x01a\xAA\xBB\xA2\x03\xE2\xED";
/// let file = [&record[..], &record[..5]].concat();
/// let (registry, kept) = restore(b"\x01\x07\0scanner", &mut &file[..])?;
/// let scanner = registry.applications().next().expect("a line of the roster");
/// assert_eq!(scanner.slots[0].as_ref().map(|key| key.name), Some(&b"a"[..]));
/// assert_eq!(kept, 16, "cut the file to so many bytes before you append to it");
/// # Ok::<(), Box<dyn std::error::Error>>(())
/// ```
#[derive(Clone, Debug, PartialEq, Eq)]
pub struct JournalReader {
    registry: Registry,
    state: [u8; JOURNAL_STATE_SIZE],
    kept: u64,
    read: u64,
    fault: Option<JournalFault>,
}

/// What a journal gave back.
#[derive(Clone, Debug, PartialEq, Eq)]
pub struct Restored {
    /// As the records left it. No key has been used yet.
    pub registry: Registry,
    /// Bytes of the whole records.
    pub kept: u64,
    /// Bytes behind them, of a record that was cut. Drop them from the file before you append to it.
    pub cut: u64,
}

/// A journal that is refused at one of its records.
#[derive(Clone, Copy, Debug, PartialEq, Eq)]
pub struct RefusedJournal {
    /// What is wrong with the record.
    pub fault: JournalFault,
    /// Where the record begins: bytes of the whole records before it.
    pub kept: u64,
}

impl JournalReader {
    /// A reader before the first byte. The registry is what the journal began with: that of the
    /// roster file, its lines in the same order, without keys.
    pub fn begin(registry: Registry) -> JournalReader {
        let mut state = [0; JOURNAL_STATE_SIZE];
        raw::journal_begin(&mut state).expect("memory of the exact size");
        JournalReader {
            registry,
            state,
            kept: 0,
            read: 0,
            fault: None,
        }
    }

    /// Reads on: these bytes follow those of the calls before. Behind a refused record nothing is
    /// read. Chunks of 64 KiB are read quickly.
    pub fn read(&mut self, chunk: &[u8]) -> Result<(), RefusedJournal> {
        let registry = self.registry.memory_mut();
        let answer = raw::journal_read(&mut self.state, registry, chunk);
        let end = answer.result().expect("well-formed memory");
        self.kept = answer.kept;
        self.read += answer.taken as u64;
        if let JournalEnd::Refused(fault) = end {
            self.fault = Some(fault);
            return self.refused();
        }
        assert_eq!(answer.taken, chunk.len(), "no file has 2^62 bytes");
        Ok(())
    }

    /// The file ends here. A cut record at its end is no fault: no response was sent for it.
    pub fn finish(self) -> Result<Restored, RefusedJournal> {
        self.refused()?;
        Ok(Restored {
            registry: self.registry,
            kept: self.kept,
            cut: self.read - self.kept,
        })
    }

    /// The registry as the whole records so far left it, those before a refused one included.
    pub fn registry(&self) -> &Registry {
        &self.registry
    }

    /// Bytes of the whole records so far.
    pub fn kept(&self) -> u64 {
        self.kept
    }

    fn refused(&self) -> Result<(), RefusedJournal> {
        let kept = self.kept;
        self.fault
            .map_or(Ok(()), |fault| Err(RefusedJournal { fault, kept }))
    }
}

impl fmt::Display for RefusedJournal {
    fn fmt(&self, out: &mut fmt::Formatter) -> fmt::Result {
        let RefusedJournal { fault, kept } = self;
        write!(out, "{fault}, at the record that begins at byte {kept}")
    }
}

impl std::error::Error for RefusedJournal {}

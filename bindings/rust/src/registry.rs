//! The registry: an application for each roster line, and the public keys of each.

use crate::application::{applications, Application};
use crate::{raw, Counters, CONNECTION_SIZE, REGISTRY_SIZE};
use crate::{LEAST_JOURNAL_BUFFER, LEAST_RESPONSE_BUFFER};
use std::fmt;

/// A registry of public keys, well formed always: only calls change it.
#[derive(Clone, PartialEq, Eq)]
pub struct Registry {
    memory: Box<[u8]>,
}

impl Registry {
    /// A registry with the names of a roster file and no keys.
    ///
    /// ```
    /// use razidkot::{Registry, RosterFault};
    ///
    /// // One record: tag 1, a length of 7, the name.
    /// assert!(Registry::load(b"\x01\x07\x00scanner").is_ok());
    /// assert!(Registry::load(b"").is_ok(), "a roster of none");
    ///
    /// let fault = Registry::load(b"\x01\x07\x00scan").unwrap_err();
    /// assert_eq!(fault, RosterFault::CutRecord);
    /// assert_eq!(fault.to_string(), "roster R1");
    /// ```
    pub fn load(roster: &[u8]) -> Result<Registry, RosterFault> {
        let mut memory = vec![0; REGISTRY_SIZE].into_boxed_slice();
        raw::load_roster(roster, &mut memory)?;
        Ok(Registry { memory })
    }

    /// The registry whose [`memory`](Registry::memory) was saved, keys included. The compiled
    /// service judges the bytes, as it does on every call; bytes that were changed into another
    /// well-formed registry are not told apart.
    ///
    /// ```
    /// use razidkot::{IllFormed, Registry};
    ///
    /// let registry = Registry::load(b"\x01\x07\x00scanner")?;
    /// let mut saved = registry.memory().to_vec();
    /// assert_eq!(Registry::from_bytes(&saved), Ok(registry));
    ///
    /// saved[0] = 6; // The name's length: its last byte would be left over.
    /// assert_eq!(Registry::from_bytes(&saved), Err(IllFormed));
    /// # Ok::<(), razidkot::RosterFault>(())
    /// ```
    pub fn from_bytes(bytes: &[u8]) -> Result<Registry, IllFormed> {
        let mut memory = Box::<[u8]>::from(bytes);
        let connection = &mut [0; CONNECTION_SIZE];
        let response = &mut [0; LEAST_RESPONSE_BUFFER];
        let journal = &mut [0; LEAST_JOURNAL_BUFFER];
        // An empty chunk alters nothing; all else is as it should be, so that no other code is said.
        let judged = raw::call(
            b"",
            connection,
            &mut memory,
            b"",
            &mut Counters::default(),
            response,
            journal,
        );
        match judged.result() {
            Ok(_) => Ok(Registry { memory }),
            Err(_) => Err(IllFormed),
        }
    }

    /// The applications of the roster, line 0 first, with the keys of each.
    ///
    /// ```
    /// use razidkot::Registry;
    ///
    /// let registry = Registry::load(b"\x01\x07\x00scanner\x01\x06\x00viewer")?;
    /// for (line, application) in registry.applications().enumerate() {
    ///     assert_eq!(application.name, [&b"scanner"[..], b"viewer"][line]);
    ///     assert!(application.slots.iter().all(Option::is_none), "no keys yet");
    /// }
    /// # Ok::<(), razidkot::RosterFault>(())
    /// ```
    pub fn applications(&self) -> impl Iterator<Item = Application<'_>> {
        applications(&self.memory)
    }

    /// The registry's bytes, in the layout of docs/LAYOUT.md.
    pub fn memory(&self) -> &[u8] {
        &self.memory
    }

    pub(crate) fn memory_mut(&mut self) -> &mut [u8] {
        &mut self.memory
    }
}

impl fmt::Debug for Registry {
    fn fmt(&self, out: &mut fmt::Formatter) -> fmt::Result {
        out.debug_struct("Registry").finish_non_exhaustive()
    }
}

/// Bytes that are no registry: of another size than [`REGISTRY_SIZE`], or ill formed.
#[derive(Clone, Copy, Debug, PartialEq, Eq)]
pub struct IllFormed;

impl fmt::Display for IllFormed {
    fn fmt(&self, out: &mut fmt::Formatter) -> fmt::Result {
        write!(out, "registry ill formed")
    }
}

impl std::error::Error for IllFormed {}

/// Why a roster file is refused: document 01's R0 to R5.
#[derive(Clone, Copy, Debug, PartialEq, Eq)]
#[repr(u8)]
pub enum RosterFault {
    /// R0: the registry memory has another size than [`REGISTRY_SIZE`]. Only [`raw::load_roster`]
    /// can say it.
    WrongMemorySize = 0,
    /// R1: a record is cut, within its tag and length or within its value.
    CutRecord = 1,
    /// R2: a tag other than 1.
    UnknownTag = 2,
    /// R3: a name not of 1 to 64 bytes, or with a byte outside 0x21 to 0x7E.
    BadName = 3,
    /// R4: a ninth name.
    NinthName = 4,
    /// R5: a name seen before.
    RepeatedName = 5,
}

impl RosterFault {
    /// Every fault, in document 01's order.
    pub const ALL: [RosterFault; 6] = [
        RosterFault::WrongMemorySize,
        RosterFault::CutRecord,
        RosterFault::UnknownTag,
        RosterFault::BadName,
        RosterFault::NinthName,
        RosterFault::RepeatedName,
    ];

    /// The digit of R0 to R5.
    pub fn number(self) -> u8 {
        self as u8
    }
}

impl fmt::Display for RosterFault {
    fn fmt(&self, out: &mut fmt::Formatter) -> fmt::Result {
        write!(out, "roster R{}", self.number())
    }
}

impl std::error::Error for RosterFault {}

//! The journal: where a service puts the record of each import and destroy before it answers.

use std::convert::Infallible;
use std::fmt;

/// Where a [`Service`](crate::Service) puts its records. Joined in their order, the records are a file
/// that [`JournalReader`](crate::JournalReader) reads back.
pub trait Journal {
    /// What putting a record away may fail with.
    type Error;

    /// Puts this record behind all records before it. It returns when the record would outlast a
    /// power cut, and not before: only then there is a response that says so.
    ///
    /// An error stops the service, since its memory is then ahead of the journal.
    fn append(&mut self, record: &[u8]) -> Result<(), Self::Error>;
}

/// No journal: records are dropped, and a restart loses all keys that were imported.
#[derive(Clone, Copy, Debug, Default, PartialEq, Eq)]
pub struct NoJournal;

impl Journal for NoJournal {
    type Error = Infallible;

    fn append(&mut self, _: &[u8]) -> Result<(), Infallible> {
        Ok(())
    }
}

/// Why a journal is refused: document 02's J1 to J3, of the first record that has a fault.
#[derive(Clone, Copy, Debug, PartialEq, Eq)]
#[repr(u8)]
pub enum JournalFault {
    /// J1: another CRC than that of its tag, length and value.
    WrongCrc = 1,
    /// J2: no import's or destroy's layout: docs/LAYOUT.md, "A record of the journal".
    WrongLayout = 2,
    /// J3: its line is not in use, or Import or Destroy would refuse it.
    NotAllowed = 3,
}

impl JournalFault {
    /// Every fault, in the order in which a record is judged.
    pub const ALL: [JournalFault; 3] = [
        JournalFault::WrongCrc,
        JournalFault::WrongLayout,
        JournalFault::NotAllowed,
    ];

    /// The digit of J1 to J3.
    pub fn number(self) -> u8 {
        self as u8
    }
}

impl fmt::Display for JournalFault {
    fn fmt(&self, out: &mut fmt::Formatter) -> fmt::Result {
        write!(out, "journal J{}", self.number())
    }
}

impl std::error::Error for JournalFault {}

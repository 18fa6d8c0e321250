//! Why a call is not taken.

use std::fmt;

/// Why a call is not taken: the papers' C1 to C7, the first that applies.
#[derive(Clone, Copy, Debug, PartialEq, Eq)]
#[repr(u8)]
pub enum Refusal {
    /// C1: fewer than [`LEAST_RESPONSE_BUFFER`](crate::LEAST_RESPONSE_BUFFER) bytes.
    ResponseBufferTooSmall = 1,
    /// C2: more than [`LONGEST_CHUNK`](crate::LONGEST_CHUNK) bytes.
    ChunkTooLong = 2,
    /// C3: connection memory of another size than [`CONNECTION_SIZE`](crate::CONNECTION_SIZE), or no
    /// connection in it.
    ConnectionIllFormed = 3,
    /// C4: registry memory of another size than [`REGISTRY_SIZE`](crate::REGISTRY_SIZE), or no
    /// registry in it.
    RegistryIllFormed = 4,
    /// C5: a counter above [`HIGHEST_COUNTER`](crate::HIGHEST_COUNTER).
    CounterTooHigh = 5,
    /// C6: an ill-formed list. [`List::from_bytes`](crate::List::from_bytes) says why.
    ListIllFormed = 6,
    /// C7: fewer than [`LEAST_JOURNAL_BUFFER`](crate::LEAST_JOURNAL_BUFFER) bytes.
    JournalBufferTooSmall = 7,
}

impl Refusal {
    /// Every refusal, in the papers' order.
    pub const ALL: [Refusal; 7] = [
        Refusal::ResponseBufferTooSmall,
        Refusal::ChunkTooLong,
        Refusal::ConnectionIllFormed,
        Refusal::RegistryIllFormed,
        Refusal::CounterTooHigh,
        Refusal::ListIllFormed,
        Refusal::JournalBufferTooSmall,
    ];

    /// The digit of C1 to C7.
    pub fn number(self) -> u8 {
        self as u8
    }
}

impl fmt::Display for Refusal {
    fn fmt(&self, out: &mut fmt::Formatter) -> fmt::Result {
        write!(out, "call not taken: C{}", self.number())
    }
}

impl std::error::Error for Refusal {}

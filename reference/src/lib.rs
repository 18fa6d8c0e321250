//! The independent second program: document 01 and what document 02 adds, in ordinary Rust, written
//! from their text alone. Each module names the heading that it follows.
#![forbid(unsafe_code)]

mod audit;
mod bill;
mod bytes;
mod call;
mod client;
mod connection;
mod counters;
mod crc;
mod journal;
mod list;
mod message;
mod opcode;
mod operation;
mod protobuf;
mod records;
mod registry;
mod roster;
pub mod rsa;
pub mod rules;
mod service;
mod status;
mod tagged;
mod wire;

pub use audit::{audit, audit_from_readers, verdict, Verdict};
pub use bill::{bill, bill_from_reader, bill_text};
pub use call::{call, Refusal, Taken, MAX_CHUNK, MIN_JOURNAL_BUFFER, MIN_RESPONSE_BUFFER};
pub use client::{
    client_begin, client_read, read_response, write_request, Formats, IllFormed, Operation, Output,
    ReadAnswer, ReadRefusal, Reader, Reading, WriteRefusal, WrongSize, CLIENT_SIZE,
    LONGEST_READABLE_RESPONSE, MIN_REQUEST_BUFFER,
};
pub use connection::{connection_is_well_formed, open_connection, CONNECTION_SIZE};
pub use counters::Counters;
pub use crc::crc32;
pub use journal::{
    journal_begin, journal_read, journal_state_is_well_formed, read_journal, JournalAnswer,
    JournalFault, JournalRefusal, Restored, JOURNAL_STATE_SIZE, LONGEST_JOURNAL, LONGEST_RECORD,
};
pub use list::{list_is_well_formed, MOST_LISTED_KEYS};
pub use message::BodyFormat;
pub use opcode::{CoreOpcode, KeystoreOpcode, Opcode, Provider};
pub use operation::LONGEST_RESPONSE;
pub use registry::{registry_is_well_formed, REGISTRY_SIZE};
pub use roster::{load_roster, RosterFault};
pub use status::Status;

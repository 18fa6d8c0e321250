//! The client's half: writing a request for each listed operation, reading its response.
//! Document 02, "The client's half"; bytes, bodies and bounds are document 01's.

mod memory;
mod read;
mod write;

pub use memory::{client_begin, client_read, IllFormed, WrongSize, CLIENT_SIZE};
pub use read::{
    read_response, Output, ReadAnswer, ReadRefusal, Reader, Reading, LONGEST_READABLE_RESPONSE,
};
pub use write::{write_request, Formats, Operation, WriteRefusal, MIN_REQUEST_BUFFER};

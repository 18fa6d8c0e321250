//! The compiled, proved client of the key service, for Rust. It writes requests and reads their
//! responses in chunks; the bytes between are sent by the caller. It links no part of the service
//! and allocates nothing: a [`Request`] is written to a lent buffer, and a [`Reader`] has its memory
//! in itself.
//!
//! ```
//! use razidkot_client::{Operation, Output, Reader, Reading, Request, LEAST_REQUEST_BUFFER};
//!
//! let request = Request::new(9, None, Operation::ListProviders);
//! let mut buffer = [0; LEAST_REQUEST_BUFFER];
//! let written = request.write(&mut buffer)?;
//! // Send it.
//! assert_eq!(&buffer[..written], b"\x10\xA7\xC0\x5E\x16\0\x01\0\0\x09\0\0\0\0\0\0\0\x01\x01\0\0\0\0\0\0\0\x08\0");
//!
//! // What comes back, in whatever chunks it comes.
//! let response = b"\x10\xA7\xC0\x5E\x14\0\x01\0\0\x09\0\0\0\0\0\0\0\x01\x04\0\0\0\x08\0\0\0\x0A\x02\0\x01";
//! let mut reader = Reader::begin(&request);
//! for chunk in response.chunks(11) {
//!     let answer = reader.read(chunk);
//!     assert_eq!(answer.taken, chunk.len());
//! }
//! let Reading::Response(response) = reader.said()? else {
//!     panic!("it was whole");
//! };
//! assert_eq!(response.status, 0);
//! let Output::Providers(providers) = response.output else {
//!     panic!("providers were asked for");
//! };
//! assert!(providers.eq([0, 1]));
//! # Ok::<(), Box<dyn std::error::Error>>(())
//! ```
#![no_std]

#[allow(unsafe_code)]
mod foreign;
mod format;
mod opcode;
mod output;
pub mod raw;
mod reader;
mod request;

pub use format::BodyFormat;
pub use opcode::{Opcode, Provider};
pub use output::{Entries, Output};
pub use razidkot_status::Status;
pub use reader::{Answer, ReadRefusal, Reader, Reading, Response};
pub use request::{Import, Operation, Request, Verify, WriteRefusal};

/// A shorter request buffer is refused, whatever the request.
pub const LEAST_REQUEST_BUFFER: usize = 5_120;
/// No request is longer.
pub const LONGEST_REQUEST: usize = 4_188;
/// The one size of a reader's state.
pub const STATE_SIZE: usize = 1_037;
/// No longer response is read.
pub const LONGEST_RESPONSE: usize = 1_024;
/// No list that is read has more entries.
pub const MOST_ENTRIES: usize = 995;
/// The most bytes of an application's name; it has at least 1.
pub const LONGEST_APPLICATION_NAME: usize = 64;
/// The most bytes of a key's name; it has at least 1.
pub const LONGEST_KEY_NAME: usize = 32;
/// The most bytes of a key's data; it has at least 1.
pub const LONGEST_DATA: usize = 600;
/// The one size of a hash, SHA-256's.
pub const HASH_SIZE: usize = 32;
/// The most bytes of a request's body; only a verify could have a longer one.
pub const LONGEST_BODY: usize = 4_096;
/// The least bits of a key that is imported: 2,048, 3,072 or 4,096.
pub const LEAST_BITS: u32 = 2_048;
/// The most bits of a key that is imported.
pub const MOST_BITS: u32 = 4_096;
/// From one length of keys to the next.
pub const BITS_STEP: u32 = 1_024;
